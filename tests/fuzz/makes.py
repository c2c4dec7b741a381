"""The maker of cases: random small programs with random words, mostly right ones, and many that are damaged.

Besides there are random command lines, several files, and random whole files (lines.py, grows.py).

A case of a small program is made in four steps. A program is made up as classes and steps; it is spoiled or not; it is laid out as a
text, which is damaged or not; and words are aimed at it, which are damaged or not. What the right answer is, the
maker need not know.
"""
import re
from dataclasses import dataclass, field
from typing import NamedTuple

import grows
import lines
import programs


class Case(NamedTuple):
    """The words, the files and folders that are there, and whether standard output refuses all bytes."""
    words: list
    files: dict
    folders: list
    full: bool
    kind: str


def make_case(chance, way=None):
    """One case, from a source of chance alone; of a given way, where one is named."""
    way = globals()[way] if way else pick(chance, [
        (46, right_case), (20, spoiled_case), (7, token_case), (8, byte_case), (1.5, junk_case), (12, words_case),
        (5, folder_case), (1, full_case), (0.5, large_case), (25, line_case), (14, files_case), (30, whole_case), (60, program_case),
        (0.3, many_files_case), (0.2, much_case),
    ])
    return way(chance)


def pick(chance, weighted):
    """One of the (weight, thing) pairs' things."""
    return chance.choices([thing for _, thing in weighted], [weight for weight, _ in weighted])[0]


def right_case(chance):
    text, places = lay_out(chance, tokens_of(program := make_program(chance)))
    return simple_case(chance, aim(chance, program, text, places), text, "right program")


def spoiled_case(chance):
    program = make_program(chance)
    spoil = pick(chance, SPOILS)
    spoil(chance, program)
    text, places = lay_out(chance, tokens_of(program))
    return simple_case(chance, aim(chance, program, text, places), text, "spoiled program: " + spoil.__name__)


def token_case(chance):
    program = make_program(chance)
    damage = pick(chance, TOKEN_DAMAGES)
    text, places = lay_out(chance, damage(chance, tokens_of(program)))
    return simple_case(chance, aim(chance, program, text, places), text, "damaged tokens: " + damage.__name__)


def byte_case(chance):
    program = make_program(chance)
    text, places = lay_out(chance, tokens_of(program))
    damage = pick(chance, BYTE_DAMAGES)
    damaged = damage(chance, text)
    words = aim(chance, program, damaged, places)
    return simple_case(chance, words, damaged, "damaged bytes: " + damage.__name__)


def junk_case(chance):
    junk = pick(chance, JUNK)
    words = Words(odd_part(chance), odd_part(chance), "1", "1", "A")
    return simple_case(chance, words, junk(chance), "no program: " + junk.__name__)


def words_case(chance):
    program = make_program(chance)
    text, places = lay_out(chance, tokens_of(program))
    right = aim(chance, program, text, places)
    damage = pick(chance, WORD_DAMAGES)
    words = [encode(word) for word in damage(chance, right.all())]
    files = {name: text for name in {right.file, "src/" + right.file, right.file + "2"}}
    return Case(words, files, [], False, "damaged words: " + damage.__name__)


def folder_case(chance):
    program = make_program(chance)
    text, places = lay_out(chance, tokens_of(program))
    change = pick(chance, FOLDER_CHANGES)
    words, files, folders = change(chance, aim(chance, program, text, places), text)
    return Case([encode(word) for word in words.all()], files, folders, False, "folder: " + change.__name__)


def full_case(chance):
    way = chance.choice([right_case, right_case, spoiled_case, words_case, folder_case])
    case = way(chance)
    return case._replace(full=True, kind="standard output is full, " + case.kind)


def large_case(chance):
    make = pick(chance, LARGE)
    words, text = make(chance)
    return simple_case(chance, words, text, "large file: " + make.__name__)


def line_case(chance):
    """Any command line. Most of its files are there."""
    line = lines.random_line(chance)
    files = {name: any_text(chance) for name in line.inputs() if is_fine(name) and chance.random() < 0.95}
    return Case([encode(word) for word in line.words()], apart(files), [], False, "command line")


def files_case(chance):
    """`generalize` on several files, user files and library files, some of which are not there or no files."""
    line = lines.right_line(chance, "generalize")
    files, folders = {}, []
    bad = chance.choice([0, 0, 0.2])
    for name in line.inputs():
        way = chance.random()
        if way >= bad:
            files[name] = any_text(chance, chance.choice([0.05, 0.3]))
        elif way < bad / 4:
            folders.append(name)
    files = apart(files)
    folders = [name for name in folders if not any(name == each or each.startswith(name + "/") or name.startswith(each + "/")
                                                   for each in files)]
    return Case([encode(word) for word in line.words()], files, folders, False, "several files")


def program_case(chance):
    """A program of several files, with library files, that breaks none or a few rules on declarations."""
    files = programs.random_program(chance)
    users, libraries = ([name for name, is_user, _ in files if is_user is kind] for kind in (True, False))
    words = ["generalize", "out", users[0], "1", "1", "Object", "--", *users, *(["+", *libraries] if libraries else [])]
    return Case([encode(word) for word in words], {name: text for name, _, text in files}, [], False, "program of several files")


def whole_case(chance):
    """One random whole file: by the grammar, damaged, or about as deep as it may be."""
    text = any_text(chance, 0.5) if chance.random() < 0.85 else grows.lay_out(chance, grows.deep_pieces(chance))
    words = Words(odd_part(chance, "out"), odd_part(chance), str(chance.randint(1, 9)), str(chance.randint(1, 9)),
                  chance.choice(["A", "B", "Object"]))
    return simple_case(chance, words, text, "whole file")


def many_files_case(chance):
    """About the most files."""
    names = ["F%d.java" % n for n in range(chance.choice([255, 256, 256, 257, 257, 300]))]
    files = {name: b"class F%d { }" % n for n, name in enumerate(names)}
    if chance.random() < 0.3:
        del files[chance.choice(names)]
    cut = chance.randint(1, len(names))
    words = ["generalize", "out", names[0], "1", "1", "Object", "--", *names[:cut], *(["+", *names[cut:]] if cut < len(names) else [])]
    return Case([encode(word) for word in words], files, [], False, "many files")


def much_case(chance):
    """Files of about the most bytes, one by one or in all."""
    most = 1_048_576
    sizes = chance.choice([[most, most, most, most], [most, most, most, most, 1], [most, most, most, most - 1, 1], [most + 1],
                           [5, most + 1], [most, most, most, most, 0], [most, most, most, most - 1, 2], [most, most, most, most, most + 1]])
    files = {"F%d.java" % n: b" " * size for n, size in enumerate(sizes)}
    if chance.random() < 0.3:
        files.pop("F%d.java" % chance.randrange(len(sizes)))
    words = ["generalize", "out", "F0.java", "1", "1", "Object", "--"] + ["F%d.java" % n for n in range(len(sizes))]
    return Case([encode(word) for word in words], files, [], False, "many bytes")


def any_text(chance, damaged=0.1):
    """The text of some file: of a small program, of a whole file, damaged or not, or none."""
    way = chance.random()
    if way < damaged:
        pieces = grows.unit_pieces(chance, chance.choice([5, 20, 40, 80, 150]))
        return grows.lay_out(chance, grows.damaged(chance, pieces))
    if way < damaged + 0.05:
        return pick(chance, JUNK)(chance)
    if way < damaged + (1 - damaged) / 3:
        return lay_out(chance, tokens_of(make_program(chance)))[0]
    return grows.lay_out(chance, grows.unit_pieces(chance))


def is_fine(name):
    """Whether a file can have the name."""
    return all(re.fullmatch(r"[A-Za-z0-9_$.+-]{1,255}", part) and part not in (".", "..") for part in name.split("/"))


def apart(files):
    """The files but for those whose folder would be another file."""
    return {name: data for name, data in files.items() if not any(name.startswith(other + "/") for other in files)}


def simple_case(chance, words, text, kind):
    return Case([encode(word) for word in words.all()], {words.file: text}, [], False, kind)


def encode(word):
    return word if isinstance(word, bytes) else word.encode("utf-8")


# Programs.

@dataclass
class Class:
    """A class: its name, what it extends or None, its methods as (name, strings), and tokens besides."""
    name: str
    above: str
    methods: list = field(default_factory=list)
    before: str = ""
    heading: str = ""
    inside: str = ""


@dataclass
class Program:
    """The classes, the class of main with its parameter and steps, and tokens besides.

    A step is ("declare", type, name, value), ("assign", name, value), ("call", name, method) or ("raw", tokens); a
    value is ("new", type) or ("local", name). Tokens besides are written with a space between any two.
    """
    classes: list
    main: str
    parameter: str
    steps: list
    before: str = ""
    before_main: str = "public static void main ( String [ ]"
    main_heading: str = ""
    inside_main: str = ""
    after: str = ""

    def class_named(self, name):
        return next((each for each in self.classes if each.name == name), None)

    def upwards(self, name):
        """The type and all above it, up to Object, as far as they can be followed."""
        found = []
        while name not in found and self.class_named(name):
            found.append(name)
            name = self.class_named(name).above or "Object"
        return found + ["Object"]

    def methods_of(self, name):
        return [method for each in self.upwards(name) if self.class_named(each)
                for method, _ in self.class_named(each).methods]

    def declared(self):
        """The names of the locals with their types."""
        return [(step[2], step[1]) for step in self.steps if step[0] == "declare"]


SHORT_NAMES = "A B C D E F G H I J K L M N O P Q R S T U V W X Y Z a b x y z _ $ A1 B2 _1 $0 AA AAA".split()
LONG_NAMES = """
    Shape Circle Square Animal Animals Item Node Node1 Node_2 Shop Basket Tree Leaf Value Step Print Main Class File
    Id newA voidA classA extendsA publicStatic New Void Strings println out main lang io util args length equals
    Integer List ArrayList Iterator Number goto1 enum_ True nullable assertA compareTo charAt print get set run
    Object String System java
    """.split()
BUILT_IN_NAMES = """
    Object String System PrintStream Throwable Exception Error RuntimeException ArithmeticException
    NullPointerException ClassCastException ArrayStoreException NegativeArraySizeException
    IndexOutOfBoundsException ArrayIndexOutOfBoundsException StringIndexOutOfBoundsException
    LinkageError ExceptionInInitializerError NoClassDefFoundError
    """.split()
TAKEN_BY_TYPES = set(BUILT_IN_NAMES) | {"java"}
METHOD_NAMES = "m n k on off area draw m1 m2 _m $m println out System String java A equals length wait1 notifyA".split()
KEYWORDS = """
    abstract assert boolean break byte case catch char class const continue default do double else enum extends
    final finally float for goto if implements import instanceof int interface long native new package private
    protected public return short static strictfp super switch synchronized this throw throws transient try void
    volatile while true false null
    """.split()
STRINGS = ["", " ", "a", "Hello", "x = y;", "// no comment", "/* none */", "'", "{", "}", "class A {", "\t", "\f",
           "\0", "\x01\x1f", "\x7f", "%s%n", "@", "#", "`", "new A();", "..", "a" * 300]


def make_name(chance, taken):
    """A name that is not taken."""
    while True:
        name = chance.choice(chance.choice([SHORT_NAMES, SHORT_NAMES, LONG_NAMES]))
        if chance.random() < 0.02:
            name *= chance.randint(2, 90)
        if name in taken:
            name += chance.choice("0123456789_$abcXYZ")
        if name not in taken:
            return name


def make_program(chance):
    """A small program: classes, then the class of main. It breaks no rule."""
    names = []
    for _ in range(pick(chance, [(1, 0), (3, 1), (6, 2), (8, 3), (8, 4), (5, 6), (3, 9), (1, 25)])):
        names.append(make_name(chance, set(names) | TAKEN_BY_TYPES))
    deep = chance.choice([0.6, 0.9, 0.98])
    classes = []
    for at, name in enumerate(names):
        above = chance.choice(names[max(0, at - 3):at]) if at and chance.random() < deep else None
        classes.append(Class(name, above, make_methods(chance)))
    if chance.random() < 0.7:
        chance.shuffle(classes)
    parameter = chance.choice(["args", "a", "s", "x", "String", "A", "main", "_"])
    main = make_name(chance, set(names) | TAKEN_BY_TYPES)
    program = Program(classes, main, parameter, [])
    make_steps(chance, program)
    return program


def make_methods(chance):
    names = chance.sample(METHOD_NAMES[:6] if chance.random() < 0.6 else METHOD_NAMES, chance.choice([0, 1, 1, 2, 3]))
    return [(name, [make_string(chance) for _ in range(chance.choice([0, 1, 1, 2]))]) for name in names]


def make_string(chance):
    if chance.random() < 0.7:
        return chance.choice(STRINGS)
    allowed = [byte for byte in range(128) if chr(byte) not in '"\\\r\n']
    return "".join(chr(chance.choice(allowed)) for _ in range(chance.randint(0, 12)))


def make_steps(chance, program):
    """Steps that break no rule: each local before its use, each value below the local's type."""
    for _ in range(pick(chance, [(1, 0), (4, 2), (8, 4), (8, 7), (4, 14), (1, 40)])):
        way = chance.random()
        if way < 0.4 or not program.declared():
            declare(chance, program)
        elif way < 0.75:
            call(chance, program)
        else:
            assign(chance, program)


def declare(chance, program):
    names = [each.name for each in program.classes]
    created = chance.choice(names) if names and chance.random() < 0.95 else "Object"
    sources = program.declared() if chance.random() < 0.5 else []
    value = ("new", created)
    if sources:
        source, created = chance.choice(sources)
        value = ("local", source)
    type_name = chance.choice(program.upwards(created)[:chance.choice([1, 1, 1, 2, 9])])
    name = make_name(chance, {local for local, _ in program.declared()} | {program.parameter})
    program.steps.append(("declare", type_name, name, value))


def call(chance, program):
    """A call, rather of a method that stands high up, so that the local may often be generalized."""
    name, type_name = chance.choice(program.declared())
    methods = program.methods_of(type_name)
    if methods:
        high = methods[len(methods) // 2:]
        program.steps.append(("call", name, chance.choice(high if chance.random() < 0.6 else methods)))


def assign(chance, program):
    name, type_name = chance.choice(program.declared())
    below = [each.name for each in program.classes if type_name in program.upwards(each.name)]
    sources = [("local", local) for local, its_type in program.declared() if type_name in program.upwards(its_type)]
    if below and chance.random() < 0.3:
        sources = [("new", each) for each in below]
    program.steps.append(("assign", name, chance.choice(sources)))


# Tokens and layout.

class Place(str):
    """The token of a local's declared type."""


def tokens_of(program):
    tokens = program.before.split()
    for each in program.classes:
        tokens += each.before.split() + ["class", each.name]
        tokens += ["extends", each.above] if each.above else []
        tokens += each.heading.split() + ["{"]
        for method, strings in each.methods:
            tokens += ["void", method, "(", ")", "{"]
            for string in strings:
                tokens += ["System", ".", "out", ".", "println", "(", '"%s"' % string, ")", ";"]
            tokens += ["}"]
        tokens += each.inside.split() + ["}"]
    tokens += ["class", program.main] + program.main_heading.split() + ["{"]
    tokens += program.before_main.split() + [program.parameter, ")", "{"]
    for step in program.steps:
        tokens += step_tokens(step)
    return tokens + ["}"] + program.inside_main.split() + ["}"] + program.after.split()


def step_tokens(step):
    if step[0] == "raw":
        return step[1].split()
    if step[0] == "call":
        return [step[1], ".", step[2], "(", ")", ";"]
    value = ["new", step[-1][1], "(", ")"] if step[-1][0] == "new" else [step[-1][1]]
    if step[0] == "assign":
        return [step[1], "=", *value, ";"]
    return [Place(step[1]), step[2], "=", *value, ";"]


def lay_out(chance, tokens):
    """The text of the tokens, with white space of one style, and the offsets of the places."""
    style = pick(chance, [(5, "rows"), (2, "tight"), (3, "wild"), (1, "tall"), (1, "spaced")])
    ends = chance.choice([["\n"], ["\n"], ["\r\n"], ["\r"], ["\n", "\r\n", "\r"], ["\n\r", "\n"]])
    text, places, depth = "", [], 0
    if chance.random() < 0.2:
        text = white(chance, ends)
    for at, token in enumerate(tokens):
        if isinstance(token, Place):
            places.append(len(text))
        text += token
        depth += {"{": 1, "}": -1}.get(token, 0)
        following = tokens[at + 1] if at + 1 < len(tokens) else ""
        text += gap(chance, style, ends, token, following, depth)
    return text.encode("latin-1"), places


def gap(chance, style, ends, token, following, depth):
    """The white space between two tokens: there is some where they would be one token otherwise."""
    if style == "rows" and token in ("{", "}", ";"):
        return chance.choice(ends) + chance.choice(["  ", "  ", "  ", "\t"]) * max(0, depth)
    if style == "rows":
        return " " if is_word(token) and is_word(following) or "=" in (token, following) else ""
    if style == "tall":
        return chance.choice(ends)
    if style == "spaced":
        return chance.choice([" ", " ", "  ", "\t", "\f"])
    if style == "wild" and chance.random() < 0.6 or is_word(token) and is_word(following):
        return white(chance, ends) if style == "wild" else " "
    return ""


def is_word(token):
    return re.match(r"[A-Za-z0-9_$]", token) is not None


def white(chance, ends):
    pieces = [" ", "  ", "\t", "\f", *ends, *ends]
    return "".join(chance.choice(pieces) for _ in range(chance.randint(1, 5)))


# Words.

class Words(NamedTuple):
    """The five free words of the command."""
    out: str
    file: str
    line: str
    column: str
    target: str

    def all(self):
        return ["generalize", self.out, self.file, self.line, self.column, self.target, "--", self.file]


def aim(chance, program, text, places):
    """Words for the program: mostly a place of it and a type above the place's, sometimes another place or type."""
    out, file = odd_part(chance, "out"), odd_part(chance, "A.java")
    if not places:
        return Words(out, file, str(chance.randint(1, 9)), str(chance.randint(1, 9)), any_type(chance, program))
    at = chance.randrange(len(places))
    types = [type_name for _, type_name in program.declared()]
    if chance.random() < 0.9:
        promising = [n for n in range(min(len(types), len(places))) if len(program.upwards(types[n])) > 2]
        at = chance.choice(promising or [at])
    place_type = types[at] if at < len(types) else "Object"
    line, column = place_of(text, places[at])
    if chance.random() < 0.09:
        line, column = pick(chance, WRONG_PLACES)(chance, program, text, places[at])
    return Words(out, file, str(line), str(column), aimed_type(chance, program, place_type))


def odd_part(chance, usual="A.java"):
    """One part of a file name, mostly the usual one."""
    if chance.random() < 0.9:
        return usual
    return chance.choice(["a", "-", "---", "...", "..a", "a..", "$", "_", "0", "A.java.java", "A-1_$.x", "-x",
                          "--help", "A", "out", ".java", "x" * 200, "generalize", "src/A.java", "a/b/c/d.java", "x/y",
                          "src/A", "x/-"])


def aimed_type(chance, program, place_type):
    above = program.upwards(place_type)[1:]
    near = [name for name in above if name != "Object"] or above
    return pick(chance, [
        (70, chance.choice(near or ["Object"])), (9, chance.choice(above or ["Object"])), (4, place_type),
        (5, "Object"), (9, any_type(chance, program)), (3, strange_type(chance, program)),
    ])


def any_type(chance, program):
    return chance.choice([each.name for each in program.classes] + ["Object"])


def strange_type(chance, program):
    """A type that a local can't have."""
    return chance.choice([program.main, "String", "System", "Throwable", "Nowhere", program.parameter, "m", "java"])


def place_of(text, offset):
    """The line and the column of a byte, where LF, CR and CR LF end a line."""
    lines = re.split(rb"\r\n|\r|\n", text[:offset])
    return len(lines), len(lines[-1]) + 1


def next_column(chance, program, text, offset):
    line, column = place_of(text, offset)
    return line, max(1, column + chance.choice([-1, 1]))


def next_line(chance, program, text, offset):
    line, column = place_of(text, offset)
    return max(1, line + chance.choice([-1, 1])), column


def other_token(chance, program, text, offset):
    tokens = [found.start() for found in re.finditer(rb"[A-Za-z0-9_$]+|[^\s]", text)] or [0]
    return place_of(text, chance.choice(tokens))


def any_offset(chance, program, text, offset):
    return place_of(text, chance.randint(0, len(text)))


def earlier_line(chance, program, text, offset):
    """The byte of the place, counted from an earlier line than its own."""
    starts = [0] + [found.end() for found in re.finditer(rb"\r\n|\r|\n", text[:offset])]
    line = chance.randint(1, len(starts))
    return line, offset - starts[line - 1] + 1


def wrapped(chance, program, text, offset):
    """Numbers that are the place's where someone counts in 8, 16, 31 or 32 bits."""
    line, column = place_of(text, offset)
    size = chance.choice([2**8, 2**16, 2**31, 2**32])
    return (line + size, column) if chance.random() < 0.5 else (line, column + size)


def line_feeds_alone(chance, program, text, offset):
    """The place, where someone takes only LF for the end of a line."""
    return text[:offset].count(b"\n") + 1, offset - (text[:offset].rfind(b"\n") + 1) + 1


def huge_place(chance, program, text, offset):
    return chance.choice([1, 9999999999, 4294967295, 4294967296]), chance.choice([9999999999, 4294967296, 1])


WRONG_PLACES = [
    (2, next_column), (1, next_line), (2, other_token), (1, any_offset), (1, earlier_line), (1, wrapped),
    (1, line_feeds_alone), (1, huge_place),
]


# Programs that break a rule.

def any_class(chance, program):
    """A class of the program; one is added where there is none."""
    if not program.classes:
        program.classes.append(Class("Only", None, make_methods(chance)))
    return chance.choice(program.classes)


def add_step(chance, program, step):
    program.steps.insert(chance.randint(0, len(program.steps)), step)


def any_local(chance, program):
    """A local with its type; one is added where there is none."""
    if not program.declared():
        name = any_class(chance, program).name
        program.steps.append(("declare", name, "only", ("new", name)))
    return chance.choice(program.declared())


def rename(program, old, new):
    """Gives a class another name wherever it stands."""
    for each in program.classes:
        each.name = new if each.name == old else each.name
        each.above = new if each.above == old else each.above
    for at, step in enumerate(program.steps):
        if step[0] == "declare":
            type_name, value = (new if step[1] == old else step[1]), step[3]
            value = ("new", new) if value == ("new", old) else value
            program.steps[at] = ("declare", type_name, step[2], value)


def class_twice(chance, program):
    any_class(chance, program)
    program.classes.append(Class(chance.choice(program.classes).name, None, make_methods(chance)))


def main_named_as_a_class(chance, program):
    program.main = any_class(chance, program).name


def class_named_as_built_in(chance, program):
    rename(program, any_class(chance, program).name, chance.choice(BUILT_IN_NAMES))


def main_named_as_built_in(chance, program):
    program.main = chance.choice(BUILT_IN_NAMES)


def class_named_java(chance, program):
    rename(program, any_class(chance, program).name, "java")


def main_named_java(chance, program):
    program.main = "java"


def names_near_the_built_in(chance, program):
    """Names that only look as if they were taken; the program stays right."""
    names = ["Java", "javax", "java_", "lang", "io", "util", "Integer", "Iterable", "object", "string", "OBJECT",
             "Object_", "Errors", "StringBuilder", "Long", "Character", "Boolean", "IllegalStateException"]
    taken = {each.name for each in program.classes} | {program.main}
    rename(program, any_class(chance, program).name, chance.choice([name for name in names if name not in taken]))


def class_named_by_a_keyword(chance, program):
    rename(program, any_class(chance, program).name, chance.choice(KEYWORDS))


def extends_itself(chance, program):
    each = any_class(chance, program)
    each.above = each.name


def extends_in_a_circle(chance, program):
    any_class(chance, program)
    circle = chance.sample(program.classes, chance.randint(1, min(4, len(program.classes))))
    for at, each in enumerate(circle):
        each.above = circle[at - 1].name


def extends_no_class(chance, program):
    any_class(chance, program).above = chance.choice(
        ["Object", program.main, "Missing", "String", "Throwable", "Exception", "java.lang.Object", "int", "A<B>"])


def method_twice(chance, program):
    each = any_class(chance, program)
    each.methods += [each.methods[0] if each.methods else ("m", [])] * (1 if each.methods else 2)


def method_that_no_class_may_have(chance, program):
    names = ["getClass", "notify", "notifyAll", "clone", "finalize", "wait", "toString", "hashCode", "main"]
    any_class(chance, program).methods.append((chance.choice(names), ["x"]))


def method_named_by_a_keyword(chance, program):
    any_class(chance, program).methods.append((chance.choice(KEYWORDS), ["x"]))


def local_named_by_a_keyword(chance, program):
    add_step(chance, program, ("declare", "Object", chance.choice(KEYWORDS), ("new", "Object")))


def parameter_named_by_a_keyword(chance, program):
    program.parameter = chance.choice(KEYWORDS)


def method_named_nearly_so(chance, program):
    """Method names that only look as if they could not be; the program stays right."""
    each = any_class(chance, program)
    names = ["equals", "getclass", "Clone", "mains", "wait_", "tostring", "init", each.name, program.main, "java"]
    new = chance.choice([name for name in names if name not in dict(each.methods)])
    each.methods.append((new, ["x"]))
    add_calls_at_end(chance, program, new)


def add_calls_at_end(chance, program, method):
    """Calls of the method on all locals that have it."""
    for name, type_name in program.declared():
        if method in program.methods_of(type_name):
            program.steps.append(("call", name, method))


def local_twice(chance, program):
    name, _ = any_local(chance, program)
    program.steps.append(("declare", "Object", name, ("new", "Object")))


def local_named_as_the_parameter(chance, program):
    if program.declared() and chance.random() < 0.5:
        program.parameter = any_local(chance, program)[0]
    else:
        add_step(chance, program, ("declare", "Object", program.parameter, ("new", "Object")))


def local_of_no_class(chance, program):
    type_name = chance.choice([program.main, "String", "System", "Throwable", "Missing", "int", "java"])
    add_step(chance, program, ("declare", type_name, "fresh", ("new", chance.choice([type_name, "Object"]))))


def value_of_no_class(chance, program):
    created = chance.choice([program.main, "String", "Throwable", "Missing", "int"])
    add_step(chance, program, ("declare", "Object", "fresh", ("new", created)))


def value_that_does_not_fit(chance, program):
    each = any_class(chance, program)
    wrong = [other for other in program.classes if each.name not in program.upwards(other.name)]
    created = chance.choice([other.name for other in wrong] + ["Object"])
    add_step(chance, program, ("declare", each.name, "fresh", ("new", created)))


def call_on_no_local(chance, program):
    methods = [method for each in program.classes for method, _ in each.methods] or ["m"]
    name = chance.choice([program.parameter, "nowhere", any_class(chance, program).name, "System"])
    add_step(chance, program, ("call", name, chance.choice(methods)))


def call_before_the_local(chance, program):
    name, type_name = any_local(chance, program)
    program.steps.insert(0, ("call", name, chance.choice(program.methods_of(type_name) or ["m"])))


def call_of_no_method(chance, program):
    """A call of a method that some other class has, or no class at all."""
    name, _ = any_local(chance, program)
    methods = [method for each in program.classes for method, _ in each.methods]
    program.steps.append(("call", name, chance.choice(methods + ["toString", "hashCode", "nowhere", "main"])))


def steps_moved(chance, program):
    """The steps in another order, which is right for some and wrong for others."""
    chance.shuffle(program.steps)


def value_of_a_local(chance, program):
    """The forms that come last: an assignment, or a local as a value; right and wrong ones."""
    name, type_name = any_local(chance, program)
    other = chance.choice([local for local, _ in program.declared()] + [program.parameter, "nowhere", "fresh"])
    types = program.upwards(type_name) + [each.name for each in program.classes]
    program.steps.append(chance.choice([
        ("assign", name, ("local", other)), ("assign", name, ("local", name)),
        ("assign", other, ("local", name)), ("assign", name, ("new", chance.choice(types))),
        ("declare", chance.choice(types), "fresh", ("local", other)),
        ("declare", type_name, "fresh", ("local", name)),
        ("declare", chance.choice(types), "fresh", ("local", name)),
    ]))


OTHER_STEPS = [
    ";", "{ }", "return ;", "int i = 1 ;", "A x ;", "Object o = null ;", "Object o = ( new Object ( ) ) ;",
    "final Object o = new Object ( ) ;", "Object o = new Object ( ) , p = new Object ( ) ;", "new Object ( ) ;",
    'System . out . println ( "x" ) ;', "m ( ) ;", "Object [ ] o = new Object [ 2 ] ;", "Object o [ ] = null ;",
    "Object o = ( Object ) new Object ( ) ;", "x . f = new Object ( ) ;", "x . m ( 1 ) ;", "x . m ( ) . m ( ) ;",
    'String s = "x" ;', "Object o = this ;", "if ( true ) { }", "while ( true ) ;", "x ++ ;", "x += x ;",
    "java.lang.Object o = new Object ( ) ;", "Object o = new java.lang.Object ( ) ;", "Object o == new Object ( ) ;",
    "Object o = new Object ( ) ; ;", "Object o = new Object ;", "Object o = new Object ( ) { } ;", "this . m ( ) ;",
    "List<A> l = new List<A> ( ) ;", "try { } finally { }", "throw null ;", "class L { }", "x . m ;", "x = y = x ;",
]

OTHER_MEMBERS = [
    ";", "int n ;", "Object o = new Object ( ) ;", "void p ( int i ) { }", "int p ( ) { return 1 ; }",
    "public void p ( ) { }", "static void p ( ) { }", "void p ( ) { return ; }", "void p ( ) throws Exception { }",
    "A ( ) { }", "private int n ;", "void p ( ) { ; }", "void p ( ) ;", "abstract void p ( ) ;", "class Inner { }",
    "void p ( ) { System . out . print ( \"x\" ) ; }", "void p ( ) { System . out . println ( ) ; }",
    'void p ( ) { System . out . println ( "a" + "b" ) ; }', "void p ( ) { System . out . println ( 'a' ) ; }",
    "void p ( ) { System . out . println ( 1 ) ; }", 'void p ( ) { System . err . println ( "x" ) ; }',
    'void p ( ) { System . out . println ( "a" , "b" ) ; }', 'void p ( ) { out . println ( "a" ) ; }',
    'void p ( ) { java . lang . System . out . println ( "a" ) ; }',
    'void p ( ) { System . out . println ( "\\\\" ) ; }',
    'void p ( ) { System . out . println ( "\\u0041" ) ; }', 'void p ( ) { System . out . println ( "\\n" ) ; }',
    "void p ( ) { q ( ) ; }", "void p ( ) { Object o = new Object ( ) ; }", "{ }", "static { }",
    "public static void main ( String [ ] a ) { }", 'void p ( ) { System . out . println ( "a" ) }',
    'void p ( ) { System . out . println ( ( "a" ) ) ; }', 'void p ( ) { System . out . println ( "a" "b" ) ; }',
]

OTHER_MAINS = [
    "static public void main ( String [ ]", "public static void main ( String", "public void main ( String [ ]",
    "static void main ( String [ ]", "public static int main ( String [ ]", "public static void Main ( String [ ]",
    "public static void main ( final String [ ]", "public static void main ( String ...", "void main ( String [ ]",
    "public static void main ( Object [ ]", "public static void main ( String [ ] [ ]",
    "public static final void main ( String [ ]",
    "public public static void main ( String [ ]", "public static void main ( java.lang.String [ ]",
    "int n ; public static void main ( String [ ]", "void m ( ) { } public static void main ( String [ ]",
    "public static void main ( String [ ] a ,  String [ ]", "public static void main ( string [ ]",
]


def other_step(chance, program):
    add_step(chance, program, ("raw", chance.choice(OTHER_STEPS)))


def other_member(chance, program):
    any_class(chance, program).inside = chance.choice(OTHER_MEMBERS)


def other_main(chance, program):
    program.before_main = chance.choice(OTHER_MAINS)


def more_in_the_class_of_main(chance, program):
    program.inside_main = chance.choice(
        ["void m ( ) { }", "int n ;", ";", "}", "public static void main ( String [ ] a ) { }"])


def other_heading(chance, program):
    each = any_class(chance, program)
    each.before = chance.choice(
        ["public", "final", "abstract", "interface", "@A", "package p ;", ";", "import p . q ;"])


def more_in_the_heading(chance, program):
    each = any_class(chance, program)
    each.heading = chance.choice(["implements I", "extends B", "< T >", ", B", "extends", "B"])


def main_extends(chance, program):
    program.main_heading = chance.choice(["extends", "implements"]) + " " + any_class(chance, program).name


def something_before(chance, program):
    program.before = chance.choice(
        ["package p ;", "import java.util.* ;", "import A ;", ";", "interface I { }", "class", "public", "}", '"x"'])


def something_after(chance, program):
    program.after = chance.choice(
        [";", "}", "class Last { }", "interface I { }", '"x"', "x", "{", "class Last {",
         "class Last { public static void main ( String [ ] a ) { } }"])


SPOILS = [
    (1, class_twice), (1, main_named_as_a_class), (2, class_named_as_built_in), (2, main_named_as_built_in),
    (1, class_named_java), (1, main_named_java), (2, names_near_the_built_in), (3, class_named_by_a_keyword),
    (1, extends_itself), (2, extends_in_a_circle), (2, extends_no_class), (1, method_twice),
    (3, method_that_no_class_may_have), (2, method_named_by_a_keyword), (2, local_named_by_a_keyword),
    (2, parameter_named_by_a_keyword), (2, method_named_nearly_so), (1, local_twice),
    (1, local_named_as_the_parameter), (1, local_of_no_class), (1, value_of_no_class), (2, value_that_does_not_fit),
    (1, call_on_no_local), (1, call_before_the_local), (2, call_of_no_method), (2, steps_moved), (3, value_of_a_local),
    (2, other_step), (2, other_member), (1, other_main), (1, more_in_the_class_of_main), (1, other_heading),
    (1, more_in_the_heading), (1, main_extends), (1, something_before), (1, something_after),
]


# Damaged tokens.

def token_dropped(chance, tokens):
    at = chance.randrange(len(tokens))
    return tokens[:at] + tokens[at + 1:]


def token_doubled(chance, tokens):
    at = chance.randrange(len(tokens))
    return tokens[:at] + [tokens[at]] + tokens[at:]


def tokens_swapped(chance, tokens):
    one, other = chance.randrange(len(tokens)), chance.randrange(len(tokens))
    if chance.random() < 0.5:
        other = (one + 1) % len(tokens)
    tokens[one], tokens[other] = tokens[other], tokens[one]
    return tokens


def token_of_the_file(chance, tokens):
    """One token in the place of another of its file."""
    tokens[chance.randrange(len(tokens))] = chance.choice(tokens)
    return tokens


def name_for_a_name(chance, tokens):
    """One name of the file in the place of another; many such programs are right."""
    names = [at for at, token in enumerate(tokens) if is_word(token) and token not in KEYWORDS]
    one, other = chance.choice(names), chance.choice(names)
    kind = Place if isinstance(tokens[one], Place) else str
    tokens[one] = kind(tokens[other])
    return tokens


def token_from_elsewhere(chance, tokens):
    tokens[chance.randrange(len(tokens))] = chance.choice(KEYWORDS + [
        "==", "...", ">>", "++", "1", "08", "0x", "1.5", "'a'", ",", ":", "?", "<", ">", "@", "#", "//", "/**/", '"',
        '"\\t"', "\\", "\\u0041", "%", "\0", "\x1a", "''", '"a""b"', ":=", "[]", "[ ]", "( )", "..", ". .",
    ])
    return tokens


def tokens_cut_out(chance, tokens):
    one, other = sorted([chance.randrange(len(tokens)), chance.randrange(len(tokens))])
    return tokens[:one] + tokens[other:]


def tokens_repeated(chance, tokens):
    one, other = sorted([chance.randrange(len(tokens)), chance.randrange(len(tokens))])
    return tokens[:other] + tokens[one:]


TOKEN_DAMAGES = [
    (1, token_dropped), (1, token_doubled), (1, tokens_swapped), (1, token_of_the_file), (3, name_for_a_name),
    (1, token_from_elsewhere), (1, tokens_cut_out), (1, tokens_repeated),
]


# Damaged bytes.

def insert(chance, text, piece):
    at = chance.randint(0, len(text))
    return text[:at] + piece + text[at:]


def byte_changed(chance, text):
    at = chance.randrange(len(text))
    return text[:at] + bytes([chance.randrange(256)]) + text[at + 1:]


def byte_changed_to_text(chance, text):
    at = chance.randrange(len(text))
    return text[:at] + bytes([chance.choice(b' \t\r\n\f\v"\\{}()[].;=/*AaZz09_$')]) + text[at + 1:]


def byte_dropped(chance, text):
    at = chance.randrange(len(text))
    return text[:at] + text[at + 1:]


def byte_added(chance, text):
    return insert(chance, text, bytes([chance.randrange(128)]))


def white_space_added(chance, text):
    return insert(chance, text, chance.choice([b" ", b"\t", b"\f", b"\n", b"\r", b"\r\n", b"\n\r", b"\v", b"\0"]))


def white_space_dropped(chance, text):
    places = [found.start() for found in re.finditer(rb"\s", text)] or [0]
    at = chance.choice(places)
    return text[:at] + text[at + 1:]


def comment_added(chance, text):
    return insert(chance, text, chance.choice([b"/* c */", b"// c\n", b"/**/", b"//\r", b"/*", b"*/", b"//"]))


def comment_at_the_end(chance, text):
    return text + chance.choice([b"//", b"// end\n", b"/* end */", b"/*", b"/", b"#", b"\\", b"\x00", b"\x1a", b"\xff"])


def not_ascii(chance, text):
    return insert(chance, text, chance.choice(
        [b"\xc3\xa9", b"\xff", b"\x80", b"\xce\xa3", b"\xf0\x9f\x98\x80", b"\xc3", b"\xef\xbb\xbf", b"\xc0\x80",
         b"\xed\xa0\x80", b"\xc2\xa0", b"\xe2\x80\xa8"]))


def byte_order_mark(chance, text):
    return chance.choice([b"\xef\xbb\xbf", b"\xff\xfe", b"\xfe\xff"]) + text


def backslash_added(chance, text):
    return insert(chance, text, chance.choice([b"\\", b"\\\\", b"\\u0020", b"\\\\u0041", b"\\n", b"\\\""]))


def string_damaged(chance, text):
    """Something odd within a string; there may be none."""
    begins = [found.start() + 1 for found in re.finditer(rb'"[^"]*"', text)]
    if not begins:
        return insert(chance, text, b'"')
    at = chance.choice(begins)
    piece = chance.choice([b"\\", b"\\t", b"\\u0041", b"\xc3\xa9", b"\xff", b"\n", b"\r", b"\0", b"\x1a", b"/*", b"*/",
                           b"//", b"'", b'"', b"\\\"", b"\x7f", b"\x80", b"\v"])
    return text[:at] + piece + text[at:]


def cut_at_the_end(chance, text):
    return text[:chance.randrange(len(text))]


def last_byte_cut(chance, text):
    return text[:-1]


def cut_at_the_begin(chance, text):
    return text[chance.randrange(len(text)):]


def text_twice(chance, text):
    return text + text


BYTE_DAMAGES = [
    (1, byte_changed), (2, byte_changed_to_text), (1, byte_dropped), (1, byte_added), (2, white_space_added),
    (1, white_space_dropped), (1, comment_added), (1, comment_at_the_end), (1, not_ascii), (1, byte_order_mark),
    (1, backslash_added), (3, string_damaged), (1, cut_at_the_end), (1, last_byte_cut), (1, cut_at_the_begin),
    (1, text_twice),
]


# Texts that are no programs.

def empty_text(chance):
    return b""


def white_text(chance):
    return chance.choice([b" ", b"\n", b"\r\n\t\f", b"\0", b"\x1a"]) * chance.randint(1, 5)


def random_bytes(chance):
    return bytes(chance.randrange(256) for _ in range(chance.randint(1, 200)))


def random_text(chance):
    pieces = KEYWORDS + SHORT_NAMES + list('{}()[].;="\n ') + ['"a"']
    return " ".join(chance.choice(pieces) for _ in range(chance.randint(1, 60))).encode()


def one_field(chance):
    return b"class A { int n; }"


JUNK = [
    (1, empty_text), (1, white_text), (1, random_bytes), (1, random_text), (1, one_field),
]


# Damaged words: each takes the eight words and gives others.

def changed(words, at, new):
    return words[:at] + [new] + words[at + 1:]


def no_words(chance, words):
    return []


def word_left_out(chance, words):
    at = chance.randrange(len(words))
    return words[:at] + words[at + 1:]


def words_cut(chance, words):
    return words[:chance.randrange(len(words))]


def word_added(chance, words):
    at = chance.randint(0, len(words))
    return words[:at] + [chance.choice(["", "x", "--", "+", "lang.java", words[2], "5"])] + words[at:]


def words_exchanged(chance, words):
    one, other = chance.sample(range(len(words)), 2)
    words[one], words[other] = words[other], words[one]
    return words


def word_empty(chance, words):
    return changed(words, chance.randrange(len(words)), "")


def both_files_wrong(chance, words):
    name = chance.choice(BAD_PARTS)
    return changed(changed(words, 2, name), 7, name)


def files_differ(chance, words):
    """Only one of the two file words is another one."""
    name = chance.choice(
        [words[2] + "2", "src/" + words[2], "./" + words[2], words[2].lower(), words[2] + " ", "B.java"])
    return changed(words, chance.choice([2, 7]), name)


BAD_PARTS = ["", ".", "..", "a/b", "src/A.java", "/A.java", "A.java/", "../A.java", "./A.java", "a//b", "A java", "A+B",
             "A\\B", "ä", "A.java\n", " A.java", "A:java", "A*", "~", "#", "A.java,B.java", "/", "*", "a\tb", "\x7f"]


def out_wrong(chance, words):
    return changed(words, 1, chance.choice(BAD_PARTS))


def number_wrong(chance, words):
    at = chance.choice([3, 4])
    return changed(words, at, chance.choice([
        "0", "00", "0" + words[at], "00" + words[at], "+" + words[at], "-" + words[at], words[at] + " ",
        " " + words[at], "12345678901", "99999999999999999999", "1" + "0" * 10, words[at] + ".0", "0x1", "1e1", "a",
        "", "١", "1_0", "-0", "18446744073709551617", words[at] + "\n", "４", "²", words[at] + "L", words[at] + ","
    ]))


def number_large(chance, words):
    """A number that is right in form, and mostly the number of nothing."""
    return changed(words, chance.choice([3, 4]), chance.choice([
        "9999999999", "4294967295", "4294967296", "4294967297", "2147483648", "1000000000", "65536", "256", "1"]))


def type_wrong(chance, words):
    shapes = ["", "1A", "A.B", "A[]", "A<B>", "A B", "a-b", "Ä", "A;", "A\n", " A", "-", "@A", "java.lang.Object"]
    return changed(words, 5, chance.choice(shapes + KEYWORDS))


def type_named_oddly(chance, words):
    """A type that is right in form, and mostly none of the file."""
    return changed(words, 5, chance.choice(
        ["_", "$", "String", "Missing", "object", "Main", "A" * 1000, "goto_", "Void"]))


def other_command(chance, words):
    command = chance.choice(
        ["check", "run", "allowed", "extract-interface", "pull-up", "infer-type-arguments", "workload", "Generalize",
         "generalise", "generalize ", "", "-generalize", "help", "use-supertype"])
    return changed(words, 0, command)


def words_of_other_commands(chance, words):
    file = words[2]
    return chance.choice([
        ["check", "--", file], ["run", "100", "Main", "--", file], ["allowed", file, words[3], words[4], "--", file],
        ["extract-interface", "out", "A", "I", "m", "--", file], ["pull-up", "out", "B", "A", "m", "--", file],
        ["infer-type-arguments", "out", "--", file], ["workload", "1"], ["workload", "0"], ["workload", "201"],
        ["check", "--", "No.java"], ["generalize"], ["--"], ["--", file], ["-h"], ["help"],
        words + ["+", "lang.java", "util.java"], words + [file], words * 50, words[:7] + [file, file],
        ["--help", "--version"], ["--help", file], ["generalize", "--help"],
    ])


def dashes_wrong(chance, words):
    return changed(words, 6, chance.choice(["", "-", "---", "+", "—", "-- ", words[2]]))


def out_is_dashes(chance, words):
    """Two dashes are one part of a file name too."""
    return changed(words, 1, "--")


def word_not_text(chance, words):
    """A word that is no UTF-8."""
    bad = chance.choice([b"\xff", b"\xc3", b"A\x80", b"\xed\xa0\x80", b"\xf4\x90\x80\x80", b"\xc0\xaf"])
    return changed(words, chance.randrange(len(words)), bad)


def long_word(chance, words):
    return changed(words, chance.randrange(len(words)), chance.choice(["1", "a", ".", "/", "ä"]) * 5000)


def file_word_of_both_kinds(chance, words):
    """The file is named by a part that may well be there or not."""
    name = chance.choice(["A.java2", words[2] + "2", "B.java", "--", "-", "...", "$A"])
    return changed(changed(words, 2, name), 7, name)


WORD_DAMAGES = [
    (1, no_words), (2, word_left_out), (1, words_cut), (2, word_added), (1, words_exchanged), (1, word_empty),
    (1, both_files_wrong), (1, files_differ), (2, out_wrong), (3, number_wrong), (1, number_large), (2, type_wrong),
    (1, type_named_oddly), (1, other_command), (1, words_of_other_commands), (1, dashes_wrong), (1, out_is_dashes),
    (1, word_not_text), (1, long_word), (1, file_word_of_both_kinds),
]


# What lies in the folder: each gives words, files and folders.

def file_missing(chance, words, text):
    return words, chance.choice([{}, {"Other.java": text}, {"out/" + words.file: text}]), []


def file_is_a_folder(chance, words, text):
    return words, {words.file + "/x": text} if chance.random() < 0.5 else {}, [words.file]


def file_name_too_long(chance, words, text):
    return words._replace(file=chance.choice("aA.") * chance.choice([256, 300, 5000])), {"A.java": text}, []


def file_name_just_short_enough(chance, words, text):
    name = "a" * 255
    return words._replace(file=name), {name: text}, []


def out_is_a_file(chance, words, text):
    return words._replace(out="taken"), {words.file: text, "taken": b"taken"}, []


def out_is_the_file(chance, words, text):
    return words._replace(out=words.file), {words.file: text}, []


def out_is_there(chance, words, text):
    """OUT is there already, empty or with other files."""
    files = {words.file: text}
    if chance.random() < 0.5:
        files[words.out + "/other"] = b"other"
    return different(words), {name: data for name, data in files.items() if name != different(words).out}, [words.out]


def new_file_is_there(chance, words, text):
    """The new file is there already, shorter or longer than what is to be written."""
    words = different(words)
    old = chance.choice([b"", b"old", text, text + b"old" * 100])
    return words, {words.file: text, words.out + "/" + words.file: old}, [words.out]


def new_file_is_a_folder(chance, words, text):
    words = different(words)
    return words, {words.file: text}, [words.out, words.out + "/" + words.file]


def out_name_too_long(chance, words, text):
    return words._replace(out="o" * chance.choice([256, 1000])), {words.file: text}, []


def more_files(chance, words, text):
    return words, {words.file: text, "B.java": b"class B { }", "src/A.java": text}, ["empty"]


def different(words):
    """The words with an OUT that is not the file's name."""
    return words._replace(out="out") if words.file != "out" else words._replace(out="out2")


FOLDER_CHANGES = [
    (3, file_missing), (1, file_is_a_folder), (1, file_name_too_long), (1, file_name_just_short_enough),
    (2, out_is_a_file), (1, out_is_the_file), (1, out_is_there), (2, new_file_is_there), (1, new_file_is_a_folder),
    (1, out_name_too_long), (1, more_files),
]


# Large files: each gives words and a text.

MAIN = "class Main { public static void main(String[] a) {\n%s x = new %s();\n%s} }"


def padded(chance):
    """A file of about the most bytes, padded with white space or within a string."""
    size = 1_048_576 + chance.choice([-1, 0, 0, 1, 1, 4096])
    text = 'class A { void m() { System.out.println("PAD"); } } class B extends A { }PAD' + MAIN % ("B", "B", "x.m();")
    where, byte = chance.choice([(1, "a"), (2, " "), (2, "\n"), (2, "\r"), (2, "\t")])
    pieces = text.split("PAD")
    pieces[where] = byte * (size - len("".join(pieces))) + pieces[where]
    text = "".join(pieces).encode()
    line, column = place_of(text, text.rindex(b"B x"))
    return Words("out", "A.java", str(line), str(column), "A"), text


def many_types(chance):
    """About the most types, side by side or each below the last; the class of main is one of them."""
    count = 4_096 - 1 + chance.choice([-1, 0, 0, 1, 1])
    chain = chance.random() < 0.5
    classes = ["class A0 { void m() { } }"]
    classes += ["class A%d%s { }" % (n, " extends A%d" % (n - 1) if chain else "") for n in range(1, count)]
    last = "A%d" % (count - 1)
    text = "\n".join(classes + [MAIN % (last, last, "x.m();" if chain else "")])
    target = chance.choice(["A0", "A0", "A1", "Object"])
    return Words("out", "A.java", str(count + 2), "1", target), text.encode()


def many_methods(chance):
    """The most methods or one more, in some classes; the method main is one of them."""
    count = 65_536 - 1 + chance.choice([0, 0, 1])
    width = chance.choice([256, 4096])
    names = ["m%x" % n for n in range(width)]
    classes = []
    for at in range(0, count, width):
        methods = " ".join("void %s(){}" % name for name in names[:count - at])
        classes.append("class A%d%s { %s }" % (at, " extends A%d" % (at - width) if at else "", methods))
    last = "A%d" % ((count - 1) // width * width)
    text = "\n".join(classes + [MAIN % (last, last, "x.m0();")])
    return Words("out", "A.java", str(len(classes) + 2), "1", chance.choice(["A0", "Object"])), text.encode()


def many_steps(chance):
    """Many locals and many calls."""
    count = chance.randint(500, 3000)
    steps = "".join("B x%d = new B();\nx%d.m();\n" % (n, n) for n in range(count))
    text = "class A { void m() { } } class B extends A { }\n" + MAIN % ("B", "B", steps)
    line, column = place_of(text.encode(), text.index("B x%d =" % chance.randrange(count)))
    return Words("out", "A.java", str(line), str(column), chance.choice(["A", "A", "Object"])), text.encode()


def long_circle(chance):
    """A long row of classes, the first of which extends the last or one in the middle."""
    count = chance.randint(100, 3000)
    back = chance.choice([count - 1, count // 2, 0])
    classes = ["class A%d extends A%d { }" % (n, n - 1 if n else back) for n in range(count)]
    text = "\n".join(classes + [MAIN % ("A5", "A5", "")])
    return Words("out", "A.java", str(count + 2), "1", "A0"), text.encode()


def long_names(chance):
    """Names of many thousand letters."""
    one, other = "A" * chance.randint(1, 100_000), "B" * chance.randint(1, 100_000)
    text = "class %s { void m() { } } class %s extends %s { }\n" % (one, other, one) + MAIN % (other, other, "x.m();")
    return Words("out", "A.java", "3", "1", chance.choice([one, one, one + "A", "Object"])), text.encode()


def deep_brackets(chance):
    """Very many opening brackets in the place of a value or of a step, which is no small program."""
    depth = chance.choice([300, 10_000, 250_000])
    opening, closing = chance.choice(["()", "{}", "[]"])
    nested = opening * depth + chance.choice(["new A()", ";", ""]) + closing * depth
    steps = chance.choice(["A y = %s;", "%s", "A y = new A(); y.%s;", "if %s;"]) % nested
    return Words("out", "A.java", "3", "1", "A"), ("class A { }\n" + MAIN % ("A", "A", steps)).encode()


def many_tokens(chance):
    """A file of very many tokens, none of which a program may begin with or all of which it may."""
    token = chance.choice([";", "{", "}", "class ", "class A { } ", "class A extends ", '""', "A.", "public "])
    return Words("out", "A.java", "1", "1", "Object"), (token * (1_048_576 // len(token))).encode()


LARGE = [
    (3, padded), (2, many_types), (2, many_methods), (1, many_steps), (1, long_circle), (1, long_names),
    (1, deep_brackets), (1, many_tokens),
]
