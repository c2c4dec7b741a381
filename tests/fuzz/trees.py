"""The grammar of files, read from left to right; of the tree only its depth is kept.

Each method reads one rule of the grammar from the next token on. It gives the height of the tree: how deep it goes below
its own node, names and modifiers being no nodes. An expression comes with what the rules ask of it.
"""
import sys
from contextlib import contextmanager
from typing import NamedTuple

import lexing

DEEPEST = 256
MOST_OPEN = 2000  # each node opens at most four methods that count, so that a tree of depth 256 opens fewer

sys.setrecursionlimit(200_000)

MODIFIERS = frozenset("public protected private static abstract final".split())
PRIMITIVES = frozenset("int long char boolean".split())
LITERALS = frozenset(["Char", "Text", "true", "false", "null"])
SIGNS = frozenset(["+", "-", "++", "--"])
LEVELS = {
    "||": 12, "&&": 11, "|": 10, "^": 9, "&": 8, "==": 7, "!=": 7, "<": 6, ">": 6, "<=": 6, ">=": 6, "instanceof": 6,
    "<<": 5, ">>": 5, ">>>": 5, "+": 4, "-": 4, "*": 3, "/": 3, "%": 3,
}
ASSIGNMENTS = frozenset("= += -= *= /= &= |= ^= %= <<= >>= >>>=".split())
BEGINS_UNSIGNED = frozenset(["Id", "Int", "Long", "this", "super", "new", "(", "!", "~"]) | LITERALS


class NoTree(Exception):
    """The tokens have no tree. The message says why, for whoever reads a difference."""


class Expr(NamedTuple):
    height: int
    is_variable: bool = False
    is_array_creation: bool = False
    is_statement: bool = False


def require_tree(tokens):
    """NoTree where the tokens of a file have no tree, or only one that is too deep."""
    height = Reader(tokens).unit()
    if height > DEEPEST:
        raise NoTree("a tree of depth %d" % height)


class Reader:
    def __init__(self, tokens):
        self.tokens = tokens
        self.sorts = [token.sort for token in tokens] + ["End"] * 5
        self.next = 0
        self.open = 0

    # Tokens.

    def sees(self, *sorts):
        """Whether the next tokens are of these sorts."""
        at = self.next
        for sort in sorts:
            if self.sorts[at] != sort:
                return False
            at += 1
        return True

    def take(self, *sorts):
        for sort in sorts:
            if self.sorts[self.next] != sort:
                raise NoTree("token %d is %s where %s has to stand" % (self.next, self.sorts[self.next], sort))
            self.next += 1

    def takes(self, *sorts):
        """Takes the next tokens where they are of these sorts."""
        found = self.sees(*sorts)
        if found:
            self.next += len(sorts)
        return found

    def joined(self, n):
        """The token after the next n ones begins where they end."""
        at = self.next + n
        return at < len(self.tokens) and self.tokens[at - 1].end == self.tokens[at].at

    def operator(self):
        """The operator that stands next and its number of tokens: shifts to the right are adjacent tokens."""
        if self.sees(">", ">") and self.joined(1):
            if self.sees(">", ">", ">") and self.joined(2):
                return ">>>", 3
            if self.sees(">", ">", ">=") and self.joined(2):
                return ">>>=", 3
            return ">>", 2
        if self.sees(">", ">=") and self.joined(1):
            return ">>=", 2
        return self.sorts[self.next], 1

    @contextmanager
    def opened(self):
        self.open += 1
        if self.open > MOST_OPEN:
            raise NoTree("too much is open")
        try:
            yield
        finally:
            self.open -= 1

    def tried(self, read):
        """What `read` gives, or None and no token taken where it finds nothing."""
        at = self.next
        try:
            return read()
        except NoTree:
            self.next = at
            return None

    def listed(self, read):
        """The greatest height of one or more with commas between them."""
        height = read()
        while self.takes(","):
            height = max(height, read())
        return height

    # Files and declarations.

    def unit(self):
        height = 0
        if self.takes("package"):
            self.path()
            self.take(";")
        while self.takes("import"):
            self.path()
            self.takes(".", "*")
            self.take(";")
            height = 1
        while not self.sees("End"):
            if not self.takes(";"):
                height = max(height, self.declaration() + 1)
        return height

    def path(self):
        self.take("Id")
        while self.takes(".", "Id"):
            pass

    def modifiers(self):
        while self.sorts[self.next] in MODIFIERS:
            self.next += 1

    def declaration(self):
        self.modifiers()
        is_interface = self.takes("interface")
        if not is_interface:
            self.take("class")
        self.take("Id")
        if self.takes("<"):
            self.listed(lambda: self.take("Id") or 0)
            self.take(">")
        height = 0
        if self.takes("extends"):
            height = (self.listed(self.ref) if is_interface else self.ref()) + 1
        if not is_interface and self.takes("implements"):
            height = max(height, self.listed(self.ref) + 1)
        self.take("{")
        while not self.takes("}"):
            if not self.takes(";"):
                height = max(height, self.member() + 1)
        return height

    def member(self):
        self.modifiers()
        if self.sees("Id", "("):
            return self.method(0, True)
        if self.takes("void"):
            return self.method(0, False)
        height = self.type() + 1
        if self.sees("Id", "("):
            return self.method(height, False)
        height = max(height, self.variables())
        self.take(";")
        return height

    def method(self, height, is_constructor):
        """What follows the result type, which has reached this height."""
        self.take("Id", "(")
        if not self.sees(")"):
            height = max(height, self.listed(self.formal) + 1)
        self.take(")")
        if self.takes("throws"):
            height = max(height, self.listed(self.ref) + 1)
        if not is_constructor and self.takes(";"):
            return height
        return max(height, self.block(calls_first=is_constructor) + 1)

    def variables(self):
        """The height that the variables give to what holds them."""
        return self.listed(self.variable) + 1

    def variable(self):
        self.take("Id")
        self.brackets()
        return self.initialiser() + 1 if self.takes("=") else 0

    def initialiser(self):
        return self.items() if self.sees("{") else self.expression().height

    def items(self):
        with self.opened():
            self.take("{")
            height = 0
            if not self.sees("}") and not self.sees(","):
                height = self.initialiser() + 1
                while self.sees(",") and not self.sees(",", "}"):
                    self.take(",")
                    height = max(height, self.initialiser() + 1)
            self.takes(",")
            self.take("}")
            return height

    def formal(self):
        self.takes("final")
        height = self.type() + 1
        self.take("Id")
        self.brackets()
        return height

    # Types.

    def brackets(self):
        count = 0
        while self.takes("[", "]"):
            count += 1
        return count

    def ref(self):
        self.path()
        return self.arguments()

    def arguments(self):
        with self.opened():
            if not self.takes("<"):
                return 0
            height = self.listed(self.argument) + 1
            self.take(">")
            return height

    def argument(self):
        if self.sorts[self.next] in PRIMITIVES:
            self.next += 1
            if not self.brackets():
                raise NoTree("a primitive type argument")
            return 0
        height = self.ref()
        self.brackets()
        return height

    def type(self):
        if self.sorts[self.next] in PRIMITIVES:
            self.next += 1
            height = 0
        else:
            height = self.ref()
        self.brackets()
        return height

    def type_without_arguments(self):
        if self.sorts[self.next] in PRIMITIVES:
            self.next += 1
        else:
            self.path()
        self.brackets()
        return 0

    # Statements.

    def block(self, calls_first=False):
        with self.opened():
            self.take("{")
            height = 0
            while not self.takes("}"):
                height = max(height, self.block_statement(calls_first) + 1)
                calls_first = False
            return height

    def block_statement(self, may_call=False):
        if may_call and (self.sees("this", "(") or self.sees("super", "(")):
            self.next += 1
            height = self.values()
            self.take(";")
            return height
        height = self.local()
        if height is None:
            return self.statement()
        self.take(";")
        return height

    def local(self):
        """A declaration of locals, or None where none begins."""
        if not self.sees("final") and self.sorts[self.next] not in PRIMITIVES:
            begin = self.next
            is_local = self.tried(lambda: (self.type(), self.take("Id"))) is not None
            self.next = begin
            if not is_local:
                return None
        self.takes("final")
        return max(self.type() + 1, self.variables())

    def test(self):
        self.take("(")
        height = self.expression().height
        self.take(")")
        return height

    def performed(self):
        """An expression that may be a statement."""
        found = self.expression()
        if not found.is_statement:
            raise NoTree("an expression that is no statement before token %d" % self.next)
        return found.height

    def statement(self):
        with self.opened():
            sort = self.sorts[self.next]
            special = {
                "{": self.block, "if": self.if_, "while": self.while_, "do": self.do, "for": self.for_,
                "switch": self.switch, "try": self.try_,
            }.get(sort)
            if special:
                return special()
            if self.takes(";"):
                return 0
            height = 0
            if sort in ("break", "continue"):
                self.next += 1
            elif sort == "return":
                self.next += 1
                if not self.sees(";"):
                    height = self.expression().height + 1
            elif sort == "throw":
                self.next += 1
                height = self.expression().height + 1
            else:
                height = self.performed() + 1
            self.take(";")
            return height

    def if_(self):
        self.take("if")
        height = max(self.test() + 1, self.statement() + 1)
        return max(height, self.statement() + 1) if self.takes("else") else height

    def while_(self):
        self.take("while")
        return max(self.test() + 1, self.statement() + 1)

    def do(self):
        self.take("do")
        height = self.statement() + 1
        self.take("while")
        height = max(height, self.test() + 1)
        self.take(";")
        return height

    def for_(self):
        self.take("for", "(")
        each = self.tried(self.for_each_head)
        if each is not None:
            height = max(each, self.expression().height + 1)
            self.take(")")
            return max(height, self.statement() + 1)
        height = 0
        if not self.sees(";"):
            local = self.local()
            height = local + 1 if local is not None else self.listed(self.performed) + 2
        self.take(";")
        if not self.sees(";"):
            height = max(height, self.expression().height + 1)
        self.take(";")
        if not self.sees(")"):
            height = max(height, self.listed(self.performed) + 1)
        self.take(")")
        return max(height, self.statement() + 1)

    def for_each_head(self):
        self.takes("final")
        height = self.type() + 1
        self.take("Id", ":")
        return height

    def switch(self):
        self.take("switch")
        height = self.test() + 1
        self.take("{")
        while not self.takes("}"):
            height = max(height, self.group() + 1)
        return height

    def group(self):
        height = self.label()
        while self.sees("case") or self.sees("default"):
            height = max(height, self.label())
        if self.sees("}"):
            return height
        while not (self.sees("}") or self.sees("case") or self.sees("default")):
            height = max(height, self.block_statement() + 1)
        return height

    def label(self):
        """The height that a label gives to its group."""
        if self.takes("default"):
            self.take(":")
            return 0
        self.take("case")
        height = 2 if self.takes("-") else 1
        if self.sees("Int"):
            self.number()
        else:
            self.take("Char")
        self.take(":")
        return height

    def try_(self):
        self.take("try")
        height = self.block() + 1
        is_whole = False
        while self.takes("catch"):
            is_whole = True
            self.take("(")
            param = self.formal()
            self.take(")")
            height = max(height, max(param + 1, self.block() + 1) + 1)
        if self.takes("finally"):
            is_whole = True
            height = max(height, self.block() + 1)
        if not is_whole:
            raise NoTree("a try alone")
        return height

    # Expressions.

    def expression(self):
        with self.opened():
            left = self.conditional()
            operator, width = self.operator()
            if operator not in ASSIGNMENTS:
                return left
            if not left.is_variable:
                raise NoTree("an assignment to what is no variable")
            self.next += width
            return Expr(max(left.height, self.expression().height) + 1, is_statement=True)

    def conditional(self):
        with self.opened():
            test = self.infix(12)
            if not self.takes("?"):
                return test
            yes = self.expression().height
            self.take(":")
            return Expr(max(test.height, yes, self.conditional().height) + 1)

    def infix(self, loosest):
        left, left_level = self.unary(), 0
        while True:
            operator, width = self.operator()
            level = LEVELS.get(operator, 99)
            if level > loosest:
                return left
            if level < left_level:
                raise NoTree("an operator binds tighter than the instanceof before it")
            self.next += width
            right = self.type_without_arguments() if operator == "instanceof" else self.infix(level - 1).height
            left, left_level = Expr(max(left.height, right) + 1), level

    def unary(self):
        with self.opened():
            sort = self.sorts[self.next]
            if sort in ("+", "-", "~", "!"):
                self.next += 1
                return Expr(self.unary().height + 1)
            if sort in ("++", "--"):
                self.next += 1
                of = self.unary()
                if not of.is_variable:
                    raise NoTree("a step of what is no variable")
                return Expr(of.height + 1, is_statement=True)
            cast = self.cast() if sort == "(" else None
            return cast or self.postfix()

    def cast(self):
        """A cast, or None where none begins."""
        begin = self.next
        self.take("(")
        if self.sorts[self.next] in PRIMITIVES:
            self.next += 1
            may_be_signed = self.brackets() == 0
            self.take(")")
            height = 0
        else:
            found = self.tried(lambda: (self.ref(), self.brackets(), self.take(")")))
            if found is None or self.sorts[self.next] not in BEGINS_UNSIGNED:
                self.next = begin
                return None
            may_be_signed, height = False, found[0]
        if self.sorts[self.next] in SIGNS and not may_be_signed:
            raise NoTree("a sign behind a cast")
        return Expr(max(height, self.unary().height) + 1)

    def postfix(self):
        of = self.primary()
        if not (self.sees("++") or self.sees("--")):
            return of
        if not of.is_variable:
            raise NoTree("a step of what is no variable")
        self.next += 1
        return Expr(of.height + 1, is_statement=True)

    def number(self):
        if lexing.value_of(self.tokens[self.next].text) >= 2 ** 64:
            raise NoTree("a number of more than 64 bits")
        self.next += 1

    def primary(self):
        found = self.first_primary()
        while True:
            if self.takes("."):
                self.take("Id")
                if self.sees("("):
                    found = Expr(max(found.height + 1, self.values()), is_statement=True)
                else:
                    found = Expr(found.height + 1, is_variable=True)
            elif self.sees("["):
                if found.is_array_creation:
                    raise NoTree("an index behind an array creation")
                self.take("[")
                found = Expr(max(found.height, self.expression().height) + 1, is_variable=True)
                self.take("]")
            else:
                return found

    def first_primary(self):
        sort = self.sorts[self.next]
        if sort in ("Int", "Long"):
            self.number()
            return Expr(0)
        if sort in LITERALS or sort == "this":
            self.next += 1
            return Expr(0)
        if self.takes("("):
            inner = self.expression()
            self.take(")")
            return Expr(inner.height + 1, is_variable=inner.is_variable)
        if sort == "new":
            return self.creation()
        if sort == "super":
            self.take("super", ".")
        self.take("Id")
        if self.sees("("):
            return Expr(self.values(), is_statement=True)
        return Expr(0, is_variable=True)

    def creation(self):
        self.take("new")
        if self.sorts[self.next] in PRIMITIVES:
            self.next += 1
            height = 1
        else:
            height = self.ref() + 1
            if self.sees("("):
                return Expr(max(height, self.values()), is_statement=True)
        if self.brackets():
            return Expr(max(height, self.items() + 1), is_array_creation=True)
        self.take("[")
        while True:
            height = max(height, self.expression().height + 1)
            self.take("]")
            if self.brackets() or not self.takes("["):
                return Expr(height, is_array_creation=True)

    def values(self):
        """The height that values in brackets give to what holds them."""
        self.take("(")
        height = 0
        if not self.sees(")"):
            height = self.listed(lambda: self.expression().height) + 1
        self.take(")")
        return height
