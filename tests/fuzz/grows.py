"""The maker of random whole files: pieces of text by the grammar of files, and damage to them.

A piece is a token, or a shift to the right, whose tokens have to stand together. Size is bounded by `fuel`: each rule that
may repeat or nest takes some, and with none left the smallest form is taken.
"""
import re

import lexing

IDS = "A B C T x y z f m i n Object String List a b _ $ it java util lang main length get E Foo".split()
LITERALS = ["0", "1", "7L", "017", "0x1F", "2147483648", "18446744073709551615", "0xffffffffffffffffL", "'a'", "'\\n'",
            "'\\''", "'\\377'", "'é'", '""', '"a"', '"\\""', '"é😀"', '"// x"', "true", "false", "null", "'\"'"]
CASE_VALUES = ["0", "1", "'a'", "017", "0xF", "'\\0'"]
INFIX = "|| && | ^ & == != < > <= >= << >> >>> + - * / %".split()
ASSIGN = "= += -= *= /= &= |= ^= %= <<= >>= >>>=".split()
MODIFIERS = "public protected private static abstract final".split()
PRIMITIVES = "int long char boolean".split()


class Grower:
    def __init__(self, chance, fuel, for_javac=False):
        self.chance = chance
        self.fuel = fuel
        self.for_javac = for_javac  # leave out what javac's parser refuses and this profile refuses later or never
        self.is_interface = False
        self.name = []

    # Chance.

    def may(self, likely=0.5):
        """True by chance, while there is fuel; it takes some."""
        if self.fuel <= 0 or self.chance.random() >= likely:
            return False
        self.fuel -= 1
        return True

    def one(self, *ways):
        """One of the ways; the first is the smallest, and is taken where the fuel is out."""
        if self.fuel <= 0:
            return ways[0]()
        self.fuel -= 1
        return self.chance.choice(ways)()

    def some(self, make, likely=0.5):
        pieces = []
        while self.may(likely):
            pieces += make()
        return pieces

    def listed(self, make, likely=0.35):
        pieces = make()
        while self.may(likely):
            pieces += [",", *make()]
        return pieces

    def id(self):
        return [self.chance.choice(IDS)]

    # Files and declarations.

    def unit(self):
        pieces = ["package", *self.path(), ";"] if self.may(0.2) else []
        pieces += self.some(self.import_, 0.3)
        return pieces + self.declaration() + self.some(lambda: self.one(lambda: [";"], self.declaration, self.declaration), 0.6)

    def import_(self):
        path, all_ = self.path(), [".", "*"] if self.may() else []
        if self.for_javac and len(path) == 1 and not all_:
            all_ = [".", "*"]
        return ["import", *path, *all_, ";"]

    def path(self):
        pieces = self.id()
        while self.may(0.2):
            pieces += [".", *self.id()]
        return pieces

    def modifiers(self):
        pieces = self.some(lambda: [self.chance.choice(MODIFIERS)], 0.4)
        return list(dict.fromkeys(pieces)) if self.for_javac else pieces

    def declaration(self):
        is_interface = self.may(0.25)
        self.is_interface, self.name = is_interface, self.id()
        pieces = self.modifiers() + ["interface" if is_interface else "class", *self.name]
        if self.may(0.2):
            pieces += ["<", *self.listed(self.id), ">"]
        if self.may(0.4):
            pieces += ["extends", *(self.listed(self.ref) if is_interface else self.ref())]
        if not is_interface and self.may(0.3):
            pieces += ["implements", *self.listed(self.ref)]
        return pieces + ["{", *self.some(lambda: self.one(lambda: [";"], self.member, self.member, self.member), 0.8), "}"]

    def member(self):
        pieces = self.modifiers()
        if self.for_javac:
            variable = (lambda: [*self.id(), "=", *self.initialiser()]) if self.is_interface else self.variable
            constructor = lambda: [*self.name, *self.formals(), *self.throws(), *self.constructor_body()]
            method = lambda: [*self.head(), *self.one(lambda: [";"], self.block, self.block, self.block)]
            return pieces + self.one(lambda: [*self.type(), *self.listed(variable), ";"], method,
                                     method if self.is_interface else constructor)
        return pieces + self.one(
            lambda: [*self.type(), *self.listed(self.variable), ";"],
            lambda: [*self.head(), *self.one(lambda: [";"], self.block, self.block, self.block)],
            lambda: [*self.id(), *self.formals(), *self.throws(), *self.constructor_body()])

    def head(self):
        return [*self.one(lambda: ["void"], self.type), *self.id(), *self.formals(), *self.throws()]

    def formals(self):
        return ["(", *(self.listed(self.formal) if self.may() else []), ")"]

    def formal(self):
        return [*self.maybe_final(), *self.type(), *self.id(), *self.brackets(0.1)]

    def throws(self):
        return ["throws", *self.listed(self.path if self.for_javac else self.ref)] if self.may(0.2) else []

    def constructor_body(self):
        call = [self.chance.choice(["this", "super"]), *self.values(), ";"] if self.may(0.4) else []
        return ["{", *call, *self.statements(), "}"]

    def maybe_final(self):
        return ["final"] if self.may(0.15) else []

    def variable(self):
        return [*self.id(), *self.brackets(0.1), *(["=", *self.initialiser()] if self.may() else [])]

    def initialiser(self):
        return self.one(self.expression, self.expression, self.expression, self.items)

    def items(self):
        pieces = self.listed(self.initialiser) if self.may(0.8) else []
        return ["{", *pieces, *([","] if self.may(0.2) else []), "}"]

    # Types.

    def brackets(self, likely):
        return self.some(lambda: ["[", "]"], likely)

    def type(self):
        return [*self.one(lambda: [self.chance.choice(PRIMITIVES)], self.ref, self.ref), *self.brackets(0.2)]

    def ref(self):
        return self.path() + (["<", *self.listed(self.argument), ">"] if self.may(0.25) else [])

    def argument(self):
        if self.may(0.1):
            return [self.chance.choice(PRIMITIVES), "[", "]", *self.brackets(0.2)]
        return self.ref() + self.brackets(0.15)

    # Statements.

    def block(self):
        return ["{", *self.statements(), "}"]

    def statements(self):
        return self.some(self.block_statement, 0.7)

    def block_statement(self):
        return self.one(self.statement, self.statement, lambda: [*self.local(), ";"])

    def local(self):
        return [*self.maybe_final(), *self.type(), *self.listed(self.variable)]

    def test(self):
        return ["(", *self.expression(), ")"]

    def performed(self):
        return self.one(lambda: [*self.id(), *self.values()], self.assignment, self.step,
                        lambda: [*self.primary(), ".", *self.id(), *self.values()],
                        lambda: ["super", ".", *self.id(), *self.values()],
                        lambda: ["new", *self.ref(), *self.values()])

    def statement(self):
        return self.one(
            lambda: [";"], self.block, lambda: [*self.performed(), ";"], lambda: [*self.performed(), ";"], self.if_,
            lambda: ["while", *self.test(), *self.statement()],
            lambda: ["do", *self.statement(), "while", *self.test(), ";"], self.for_, self.for_each, self.switch,
            lambda: [self.chance.choice(["break", "continue"]), ";"],
            lambda: ["return", *(self.expression() if self.may() else []), ";"],
            lambda: ["throw", *self.expression(), ";"], self.try_)

    def if_(self):
        """An `if` without `else` within one with it would take the `else`, which is no fault: it has a tree too."""
        return ["if", *self.test(), *self.statement(), *(["else", *self.statement()] if self.may() else [])]

    def for_(self):
        start = self.one(lambda: [], self.local, lambda: self.listed(self.performed))
        test = self.expression() if self.may() else []
        return ["for", "(", *start, ";", *test, ";", *(self.listed(self.performed) if self.may() else []), ")",
                *self.statement()]

    def for_each(self):
        return ["for", "(", *self.maybe_final(), *self.type(), *self.id(), ":", *self.expression(), ")",
                *self.statement()]

    def switch(self):
        groups = self.some(lambda: [*self.label(), *self.some(self.label, 0.2), *self.block_statement(),
                                    *self.statements()], 0.6)
        last = [*self.label(), *self.some(self.label, 0.3)] if self.may(0.2) else []
        return ["switch", *self.test(), "{", *groups, *last, "}"]

    def label(self):
        if self.may(0.2):
            return ["default", ":"]
        return ["case", *(["-"] if self.may(0.2) else []), self.chance.choice(CASE_VALUES), ":"]

    def try_(self):
        catches = self.some(lambda: ["catch", "(", *self.formal(), ")", *self.block()], 0.5)
        last = ["finally", *self.block()] if not catches or self.may(0.3) else []
        return ["try", *self.block(), *catches, *last]

    # Expressions: by how loose they may be.

    def expression(self):
        if self.may(0.12):
            return self.assignment()
        return self.conditional()

    def assignment(self):
        return [*self.variable_used(), self.chance.choice(ASSIGN), *self.expression()]

    def variable_used(self):
        return self.one(self.id, self.id, lambda: [*self.primary(), ".", *self.id()], lambda: ["super", ".", *self.id()],
                        lambda: [*self.indexed(), "[", *self.expression(), "]"], lambda: ["(", *self.variable_used(), ")"])

    def step(self):
        sign = self.chance.choice(["++", "--"])
        return self.one(lambda: [*self.id(), sign], lambda: [*self.variable_used(), sign],
                        lambda: [sign, *self.variable_used()])

    def conditional(self):
        test = self.infix()
        return [*test, "?", *self.expression(), ":", *self.conditional()] if self.may(0.1) else test

    def infix(self):
        pieces = self.unary()
        while self.may(0.3):
            if self.may(0.12):
                pieces += ["instanceof", *self.one(self.id, self.path, lambda: [self.chance.choice(PRIMITIVES), "[", "]"]),
                           *self.brackets(0.2)]
                # what may follow; `<` is taken for the type's arguments by javac, and what binds tighter has no tree
                if not self.for_javac and self.may(0.1):
                    pieces += [self.chance.choice(["<", ">", ">=", "instanceof"]), *self.id()]
                elif not self.for_javac and self.may(0.05):
                    pieces += [self.chance.choice(INFIX), *self.unary()]
                if self.may(0.5):
                    pieces += [self.chance.choice(["==", "&&", "||", "!="]), *self.unary()]
                    continue
                return pieces
            pieces += [self.chance.choice(INFIX), *self.unary()]
        return pieces

    def unary(self):
        if self.may(0.15):
            return [self.chance.choice(["+", "-", "~", "!"]), *self.unary()]
        if self.may(0.1):
            return self.step()
        if self.may(0.12):
            return self.cast()
        return self.primary()

    def cast(self):
        return self.one(
            lambda: ["(", self.chance.choice(PRIMITIVES), ")", *self.unary()],
            lambda: ["(", self.chance.choice(PRIMITIVES), "[", "]", ")", *self.unsigned()],
            lambda: ["(", *self.ref(), *self.brackets(0.2), ")", *self.unsigned()])

    def unsigned(self):
        return self.one(self.primary, self.cast, lambda: [self.chance.choice("~!"), *self.unary()])

    def primary(self):
        return self.one(self.id, self.indexed, self.indexed, self.array)

    def indexed(self):
        """A primary that an index may follow."""
        return self.one(
            self.id, self.id, lambda: [self.chance.choice(LITERALS)], lambda: [self.chance.choice(LITERALS)],
            lambda: ["this"], lambda: ["(", *self.expression(), ")"], lambda: [*self.id(), *self.values()],
            lambda: ["super", ".", *self.id(), *(self.values() if self.may() else [])],
            lambda: ["new", *self.ref(), *self.values()],
            lambda: [*self.primary(), ".", *self.id(), *(self.values() if self.may() else [])],
            lambda: [*self.indexed(), "[", *self.expression(), "]"])

    def array(self):
        made = [self.chance.choice(PRIMITIVES)] if self.may(0.4) else self.ref()
        if self.may(0.4):
            return ["new", *made, "[", "]", *self.brackets(0.3), *self.items()]
        return ["new", *made, "[", *self.expression(), "]", *self.some(lambda: ["[", *self.expression(), "]"], 0.3),
                *self.brackets(0.3)]

    def values(self):
        return ["(", *(self.listed(self.expression) if self.may() else []), ")"]


def unit_pieces(chance, fuel=None, for_javac=False):
    return Grower(chance, fuel or chance.choice([5, 20, 40, 80, 150, 300, 600]), for_javac).unit()


# Deep files: about the deepest tree that there may be.

def deep_pieces(chance):
    """One construct within itself, about as often as a tree of depth 256 lets it."""
    begin, middle, end, cost, own = chance.choice([
        ("class A { void f ( ) ", "", "", 3, None), ("class A { int x = ", "1", "; }", 4, "( %s )"),
        ("class A { int x = ", "1", "; }", 4, "- %s"), ("class A { int x = ", "a", "; }", 4, "( int ) %s"),
        ("class A { int x = ", "a", "; }", 4, "%s + 1"), ("class A { int x = ", "a", "; }", 4, "1 + ( %s )"),
        ("class A { int x = ", "a", "; }", 4, "%s . b"), ("class A { int x = ", "a", "; }", 4, "b [ %s ]"),
        ("class A { int x = ", "a", "; }", 4, "f ( %s )"), ("class A { int x = ", "a", "; }", 4, "%s . f ( )"),
        ("class A { int x = ", "a", "; }", 4, "b = %s"), ("class A { int x = ", "a", "; }", 4, "b ? c : %s"),
        ("class A { int x = ", "{ }", "; }", 4, "{ %s }"), ("class A { ", "B", " x ; }", 3, "L < %s >"),
        ("class A { int x = ", "a", "; }", 4, "new B [ %s ]"), ("class A { int x = ", "a", "; }", 4, "new B ( %s )"),
        ("class A { void f ( ) { ", ";", " } }", 4, "if ( a ) %s"), ("class A { void f ( ) { ", ";", " } }", 4, "{ %s }"),
        ("class A { void f ( ) { ", ";", " } }", 4, "if ( a ) ; else %s"), ("class A { void f ( ) { ", ";", " } }", 4, "while ( a ) %s"),
        ("class A { void f ( ) { ", ";", " } }", 4, "do %s while ( a ) ;"), ("class A { void f ( ) { ", ";", " } }", 4, "for ( ; ; ) %s"),
        ("class A { void f ( ) { ", ";", " } }", 4, "switch ( a ) { case 1 : %s }"),
        ("class A { void f ( ) { ", ";", " } }", 4, "try { %s } finally { }"),
        ("class A { void f ( ) { ", ";", " } }", 4, "try { } catch ( E e ) { %s }"),
        ("class A extends ", "B", " { }", 2, "L < %s >"), ("class A { void f ( ", "B", " x ) { } }", 4, "L < %s >"),
        ("class A { int x = a instanceof B == ( ", "a", " ) ; }", 6, "- %s"),
    ])
    if own is None:
        own, middle, end = "{ %s }", ";", " }"
    times = (256 - cost) // chance.choice([1, 1, 1, 2, 3]) + chance.randint(-4, 4)
    for _ in range(times):
        middle = own % middle
    # `%s + 1` and the like nest on the left and need no bracket
    return (begin + middle + end).split()


# Damage to pieces.

ODD_PIECES = """
    synchronized volatile native strictfp transient const goto enum assert @ ... float double byte short 1.5 1f 09e1 08.5
    08 0x 'ab' '' ' "a \\ # ` é /* class interface package import void ; { } ( ) [ ] , . < > >> >= = : ? + - ++ -- ~ ! final
    static public throws extends implements super this new instanceof case default break return if else while do for try
    catch finally switch throw int long char boolean true null 1 18446744073709551616 0x10000000000000000 "\\q" 'a' "a"
    x A . -> :: ..  .5 1. 1e 1_0 0b1 0xg '\\u0041' \\u0041 '\\400' "\\400" "\\8" 😀 '😀' 00 01777777777777777777777
    02000000000000000000000 9223372036854775808L // */ & && | || ^ % / * /= %= <<= << class{ .class [] <> <?> (int) -1
    """.split()


def deleted(chance, pieces):
    at = chance.randrange(len(pieces))
    return pieces[:at] + pieces[at + 1:]


def doubled(chance, pieces):
    at = chance.randrange(len(pieces))
    return pieces[:at] + [pieces[at]] + pieces[at:]


def swapped(chance, pieces):
    one = chance.randrange(len(pieces))
    other = (one + 1) % len(pieces) if chance.random() < 0.5 else chance.randrange(len(pieces))
    pieces = list(pieces)
    pieces[one], pieces[other] = pieces[other], pieces[one]
    return pieces


def replaced(chance, pieces):
    at = chance.randrange(len(pieces))
    return pieces[:at] + [chance.choice(ODD_PIECES + pieces)] + pieces[at + 1:]


def added(chance, pieces):
    at = chance.randint(0, len(pieces))
    return pieces[:at] + [chance.choice(ODD_PIECES + pieces)] + pieces[at:]


def cut(chance, pieces):
    return pieces[:chance.randint(0, len(pieces))]


def row_moved(chance, pieces):
    one, other = sorted(chance.randint(0, len(pieces)) for _ in range(2))
    row, rest = pieces[one:other][:12], pieces[:one] + pieces[one:other][12:] + pieces[other:]
    at = chance.randint(0, len(rest))
    return rest[:at] + row + rest[at:]


DAMAGES = [deleted, deleted, doubled, doubled, swapped, swapped, replaced, replaced, added, added, cut, row_moved]


def damaged(chance, pieces):
    for _ in range(chance.choice([1, 1, 1, 2, 3])):
        pieces = chance.choice(DAMAGES)(chance, pieces) if pieces else pieces
    return pieces


# Layout.

def lay_out(chance, pieces):
    """The text of the pieces, with white space and comments of one style between them."""
    style = chance.choice(["tight", "tight", "spaced", "lines", "wild"])
    ends = chance.choice([["\n"], ["\n"], ["\r\n"], ["\r"], ["\n", "\r\n", "\r"]])
    text = []
    for at, piece in enumerate(pieces):
        text.append(piece)
        following = pieces[at + 1] if at + 1 < len(pieces) else ""
        text.append(gap(chance, style, ends, piece, following))
    return "".join(text).encode("utf-8")


def gap(chance, style, ends, piece, following):
    if style == "spaced":
        return " "
    if style == "lines":
        return chance.choice(ends) if piece in "{};" or chance.random() < 0.1 else " "
    if style == "wild" and chance.random() < 0.6:
        return " " * (piece == "/") + "".join(chance.choice(
            [" ", "\t", "\f", *ends, "/* c */", "/**/", "// é" + chance.choice(ends), "/* é\n * \"' */"])
            for _ in range(chance.randint(1, 3)))
    return " " if not stay_apart(piece, following) else ""


APART = {}


def stay_apart(piece, following):
    """Whether two pieces stay the tokens that they are, with nothing between them."""
    key = piece, following
    if key not in APART:
        APART[key] = sorts(piece + following) == sorts(piece + " " + following) and not (piece[-1:] == ">" and following[:1] == ">")
    return APART[key]


def sorts(text):
    try:
        return [token.text for token in lexing.read_tokens(text.encode("utf-8"))]
    except lexing.Broken:
        return [None]
