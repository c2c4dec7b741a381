"""The plain reader: what jgen has to answer to given words and files.

The rules are read one by one, in the order in which their refusals come, and nothing is shared with the program
under test. Words become a request, files become texts, texts become tokens and trees, and the one file of a small
program becomes that program; then come the refusals of the command, the edit and the report.
"""
import bisect
import re
from typing import NamedTuple, Optional, Union

import declares
import lexing
import trees

MOST_FILES = 256
MOST_BYTES = 1_048_576
MOST_BYTES_OF_ALL = 4_194_304
MOST_TOKENS = 1_048_576
MOST_TYPES = 4_096
MOST_METHODS = 65_536
LONGEST_FILE_NAME = 255
LONGEST_PATH = 4_095

DONE, REFUSED, USAGE, MISSING, READ_FAULT, WRITE_FAULT, OUT_FAULT, NO_WORDS = 0, 1, 2, 3, 4, 5, 6, 8

RESERVED = lexing.KEYWORDS

BUILT_IN_TYPES = frozenset("""
    Object String System PrintStream Throwable Exception Error RuntimeException ArithmeticException
    NullPointerException ClassCastException ArrayStoreException NegativeArraySizeException
    IndexOutOfBoundsException ArrayIndexOutOfBoundsException StringIndexOutOfBoundsException
    LinkageError ExceptionInInitializerError NoClassDefFoundError
    """.split())

# Both built-in packages, java.lang and java.io, begin with this identifier.
PACKAGES_BEGIN_WITH = "java"

# Method names that the language profile leaves out. No method of a class has parameters here.
LEFT_OUT_METHODS = frozenset("getClass notify notifyAll clone finalize wait".split())

# Object's methods without parameters. Both have a result, so that no void method may override them.
OBJECT_METHODS = frozenset("toString hashCode".split())


class Answer(NamedTuple):
    """What the program has to do: its exit status, the bytes it prints, and the files it writes.

    `others` are further reports that are right too: the place of G1 is free. A report that is None is not compared, and
    neither is a status that is None.
    """
    kind: str
    status: Optional[int]
    report: Optional[bytes]
    writes: dict
    why: str = ""
    others: frozenset = frozenset()


def answer(words, files, folders):
    """The answer to `words`, a list of bytes, where `files` maps names to bytes and `folders` lists folders."""
    try:
        words = [word.decode("utf-8") for word in words]
    except UnicodeDecodeError:
        return Answer("no words", NO_WORDS, b"", {}, "a word is not UTF-8")
    if words in (["--help"], ["--version"]):
        return Answer("help", DONE, None, {})
    rule = broken_word_rule(words)
    if rule is not None:
        return Answer("U%d" % rule, USAGE, b"usage U%d\n" % rule, {})
    if words[0] not in ("check", "generalize"):
        return refused("N1", "-", "another command")
    request = read_request(words) if words[0] == "generalize" else read_check(words)
    disk = Disk(files, folders)
    try:
        texts = read_files(request, disk)
        count = 0
        for name, text in zip(request.inputs, texts):
            count += tokens_in_file(name, text, count)
        require_declarations(request, texts)
    except Stopped as stop:
        return stop.answer
    if words[0] == "check":
        return Answer("check", None, None, {}, "the rules on types are not read here")
    try:
        require(len(request.inputs) == 1, "not the one file")
        program = read_program(texts[0])
        require_target(program, request.target)
    except NotSmall as reason:
        return Answer("change", None, None, {}, "no small program, %s: changes of others are not read here" % reason)
    text = texts[0]
    refusal = first_refusal(program, text, request)
    if refusal is not None:
        rule, node = refusal
        place = "-" if node is None else place_of(request.file, text, node)
        return refused(rule, place)
    written = "%s/%s" % (request.out, request.file)
    if not disk.can_write(written):
        return Answer("write fault", WRITE_FAULT, b"write fault %s\n" % written.encode(), {})
    return done(program, text, request, written)


class Stopped(Exception):
    """The answer that comes before any small program is read."""

    def __init__(self, answer):
        super().__init__()
        self.answer = answer


def refused(rule, place, why=""):
    return Answer(rule, REFUSED, b"refused %s %s\n" % (rule.encode(), place.encode()), {}, why)


def place_of(file, text, at):
    return "%s:%d:%d" % (file, *Lines(text).place(at))


def done(program, text, request, written):
    """The edit, in the report and in the new file: the declared type that begins at the place becomes TYPE."""
    old = declared_at(program, text, request).type
    begin, end, new = old.at, old.at + len(old.text), request.target.encode()
    edit = b"edit %s %d %d %d %s\n" % (request.file.encode(), begin, end, len(new), new)
    return Answer("done", DONE, edit + b"done 1 edits\n", {written: text[:begin] + new + text[end:]})


# The words: the table of commands, and the rules U1 to U8.

# the own words of each command, and what each further one is; `run` has `=` before its further ones
OWN_WORDS = {
    "check": ([], None),
    "run": (["N", "CLASS"], "argument"),
    "allowed": (["FILE", "LINE", "COL"], None),
    "generalize": (["OUT", "FILE", "LINE", "COL", "TYPE"], None),
    "extract-interface": (["OUT", "CLASS", "NEWNAME", "METHOD"], "METHOD"),
    "pull-up": (["OUT", "CLASS", "SUPER", "MEMBER"], "MEMBER"),
    "infer-type-arguments": (["OUT"], None),
    "workload": (["K"], None),
}


class Command(NamedTuple):
    """A command line in its parts. `own` pairs what a word is with the word."""
    name: str
    own: list
    has_dashes: bool
    users: list
    libs: list

    def called(self, *names):
        return [word for name, word in self.own if name in names]


def read_command(words):
    name, rest = words[0], words[1:]
    own, has_dashes, files = cut(rest, "--")
    users, _, libs = cut(files, "+")
    first, more = OWN_WORDS[name]
    return Command(name, [(first[n] if n < len(first) else more, word) for n, word in enumerate(own)], has_dashes,
                   users, libs)


def cut(words, mark):
    """The words before the first `mark`, whether there is one, and the words behind it."""
    if mark not in words:
        return words, False, []
    at = words.index(mark)
    return words[:at], True, words[at + 1:]


def broken_word_rule(words):
    """The lowest of U1 to U8 that the words break, or None."""
    if not words or words[0] not in OWN_WORDS:
        return 1
    command = read_command(words)
    rules = [has_shape, has_numbers, has_users, has_paths, keeps_inputs, has_identifiers, names_places]
    return next((at + 2 for at, rule in enumerate(rules) if not rule(command)), None)


def has_shape(command):
    first, more = OWN_WORDS[command.name]
    count = len(command.own)
    if count < len(first) or (count > len(first) and more is None):
        return False
    if command.name == "run" and count > 2 and command.own[2][1] != "=":
        return False
    return command.has_dashes == (command.name != "workload")


def has_numbers(command):
    return (all(is_number(word, 0) for word in command.called("N"))
            and all(is_number(word, 1) for word in command.called("LINE", "COL", "K")))


def has_users(command):
    return command.name == "workload" or command.users != []


def has_paths(command):
    files = command.users + command.libs
    return all(is_path(word) for word in command.called("OUT") + files) and len(set(files)) == len(files)


def keeps_inputs(command):
    inputs = set(command.users + command.libs)
    outputs = [out + "/" + file for out in command.called("OUT") for file in command.users]
    for out in command.called("OUT"):
        for new in command.called("NEWNAME"):
            outputs += ["/".join([out] + file.split("/")[:-1] + [new + ".java"]) for file in command.users]
    return not any(name in inputs for name in outputs)


def has_identifiers(command):
    return all(is_identifier(word) for word in command.called("CLASS", "SUPER", "TYPE", "NEWNAME", "METHOD", "MEMBER"))


def names_places(command):
    members = command.called("METHOD", "MEMBER")
    return all(word in command.users for word in command.called("FILE")) and len(set(members)) == len(members)


class Request(NamedTuple):
    """What the words of `generalize` ask for."""
    out: str
    file: str
    line: int
    column: int
    target: str
    inputs: list
    users: int


def read_request(words):
    command = read_command(words)
    out, file, line, column, target = [word for _, word in command.own]
    return Request(out, file, int(line), int(column), target, command.users + command.libs,
                   len(command.users))


class Check(NamedTuple):
    """What the words of `check` ask for."""
    inputs: list
    users: int


def read_check(words):
    command = read_command(words)
    return Check(command.users + command.libs, len(command.users))


def is_path(word):
    """Parts, one or more, joined by single slashes."""
    return all(is_part(part) for part in word.split("/"))


def is_part(word):
    """One part of a file name."""
    return re.fullmatch(r"[A-Za-z0-9_$.-]+", word) is not None and word not in (".", "..")


def is_number(word, least):
    """A number of 1 to 10 digits without a leading zero."""
    return re.fullmatch(r"0|[1-9][0-9]{0,9}", word) is not None and int(word) >= least


def is_identifier(word):
    return re.fullmatch(r"[A-Za-z_$][A-Za-z0-9_$]*", word) is not None and word not in RESERVED


# The files.

class Disk:
    """A folder with files and folders, by their names."""

    def __init__(self, files, folders):
        self.files = files
        self.folders = set()
        for name in folders:
            self.folders |= {name} | above(name)
        for name in files:
            self.folders |= above(name)

    def read(self, name):
        """The bytes of a file, `missing` or `fault`."""
        if len(name) > LONGEST_PATH:
            return "fault"
        parts = name.split("/")
        for n, part in enumerate(parts[:-1]):
            if len(part) > LONGEST_FILE_NAME:
                return "fault"
            if "/".join(parts[:n + 1]) not in self.folders:
                # a file where a folder has to stand: which of the two it is, jgen does not say
                return "either" if "/".join(parts[:n + 1]) in self.files else "missing"
        if len(parts[-1]) > LONGEST_FILE_NAME or name in self.folders:
            return "fault"
        return self.files.get(name, "missing")

    def can_write(self, name):
        """No folder of the name is a file, the name is no folder, and no part of it is too long."""
        return (len(name) <= LONGEST_PATH and all(len(part) <= LONGEST_FILE_NAME for part in name.split("/"))
                and name not in self.folders and not any(folder in self.files for folder in above(name)))


def above(name):
    """The folders that hold a name."""
    parts = name.split("/")
    return {"/".join(parts[:n]) for n in range(1, len(parts))}


def read_files(request, disk):
    """L1; then for each file its reading, L2 and L3."""
    if len(request.inputs) > MOST_FILES:
        raise Stopped(refused("L1", "-"))
    texts, size = [], 0
    for name in request.inputs:
        found = disk.read(name)
        if found in ("missing", "fault", "either"):
            raise Stopped(unread(name, found))
        if len(found) > MOST_BYTES:
            raise Stopped(refused("L2", "-", name))
        size += len(found)
        if size > MOST_BYTES_OF_ALL:
            raise Stopped(refused("L3", "-", name))
        texts.append(found)
    return texts


def unread(name, found):
    if found == "missing":
        return Answer("missing", MISSING, b"missing %s\n" % name.encode(), {})
    if found == "either":
        return Answer("missing or read fault", None, None, {}, "a file stands where a folder has to")
    return Answer("read fault", READ_FAULT, b"read fault %s\n" % name.encode(), {})


def tokens_in_file(name, text, count):
    """X; then L4, with so many tokens in the files before this one; then S1 to S9; then G1."""
    try:
        tokens = lexing.read_tokens(text)
        if count + len(tokens) > MOST_TOKENS:
            raise Stopped(refused("L4", "-", name))
        lexing.require_nothing_left_out(tokens)
    except lexing.Broken as broken:
        raise Stopped(refused(broken.rule, place_of(name, text, broken.at))) from None
    try:
        trees.require_tree(tokens)
    except trees.NoTree as reason:
        lines = Lines(text)
        places = {token.at for token in tokens} | {len(text)}
        reports = [b"refused G1 %s:%d:%d\n" % (name.encode(), *lines.place(at)) for at in places]
        raise Stopped(Answer("G1", REFUSED, reports[0], {}, str(reason), frozenset(reports))) from None
    return len(tokens)


def require_declarations(request, texts):
    """The rules on the declarations of all files."""
    broken = declares.first_broken(texts, request.users)
    if broken is not None:
        rule, file, at = broken
        raise Stopped(refused(rule, "-" if file is None else place_of(request.inputs[file], texts[file], at)))


# Lines and columns.

class Lines:
    """The lines of a text. A line ends at LF, CR or CR LF; lines count from 1, and so do the bytes of a line."""

    def __init__(self, text):
        self.starts = [0] + [found.end() for found in re.finditer(rb"\r\n|\r|\n", text)]

    def place(self, offset):
        """The line and the column of the byte at an offset."""
        line = bisect.bisect_right(self.starts, offset)
        return line, offset - self.starts[line - 1] + 1


# Tokens.

class NotSmall(Exception):
    """The file is no small program. The message says why, for whoever reads a difference."""


class Token(NamedTuple):
    """A word (an identifier or a keyword), a string literal or a mark, with the offset of its first byte."""
    kind: str
    text: str
    at: int


TOKEN = re.compile(r"""
      (?P<white> [ \t\f\n\r]+ )
    | (?P<word>  [A-Za-z_$][A-Za-z0-9_$]* )
    | (?P<text>  "[^"\\\r\n]*" )
    | (?P<mark>  [{}()\[\].;=] )
    """, re.VERBOSE)


def read_tokens(text):
    """The tokens of a small program. Longer operators need no care: none of these marks is ever doubled there."""
    try:
        text = text.decode("ascii")
    except UnicodeDecodeError:
        raise NotSmall("a byte that is not ASCII") from None
    tokens = []
    at = 0
    while at < len(text):
        found = TOKEN.match(text, at)
        if found is None:
            raise NotSmall("no token of a small program at byte %d" % at)
        if found.lastgroup != "white":
            tokens.append(Token(found.lastgroup, found.group(), at))
        at = found.end()
    return tokens


# The small program.

class Class(NamedTuple):
    name: str
    above: Optional[str]
    methods: list


class New(NamedTuple):
    """The value `new Type()`."""
    type: str


class Use(NamedTuple):
    """A local as a value."""
    name: str
    at: int


class Declare(NamedTuple):
    """`Type name = value;`"""
    type: Token
    name: str
    value: Union[New, Use]


class Assign(NamedTuple):
    """`name = value;`"""
    name: str
    value: Union[New, Use]


class Call(NamedTuple):
    """`name.method();`"""
    name: str
    method: str
    at: int


class Program(NamedTuple):
    classes: list
    main: str
    parameter: str
    steps: list


class Parser:
    """Reads the tokens from left to right by the grammar, one method for each of its rules."""

    def __init__(self, tokens):
        self.tokens = tokens
        self.next = 0

    def program(self):
        classes = []
        while True:
            self.take("class")
            name = self.take_identifier().text
            above = None
            if self.sees("extends"):
                self.take("extends")
                above = self.take_identifier().text
            self.take("{")
            if above is None and self.sees("public"):
                parameter, steps = self.main()
                return Program(classes, name, parameter, steps)
            classes.append(Class(name, above, self.methods()))

    def methods(self):
        """The names of the methods of a class, up to its closing brace."""
        names = []
        while not self.sees("}"):
            self.take("void")
            names.append(self.take_identifier().text)
            self.take("(", ")", "{")
            while not self.sees("}"):
                self.take("System", ".", "out", ".", "println", "(")
                self.take_text()
                self.take(")", ";")
            self.take("}")
        self.take("}")
        return names

    def main(self):
        """The parameter and the steps of the method main, up to the end of the file."""
        self.take("public", "static", "void", "main", "(", "String", "[", "]")
        parameter = self.take_identifier().text
        self.take(")", "{")
        steps = []
        while not self.sees("}"):
            steps.append(self.step())
        self.take("}", "}")
        if self.next < len(self.tokens):
            raise NotSmall("tokens after the last class")
        return parameter, steps

    def step(self):
        first = self.take_identifier()
        if self.sees("."):
            self.take(".")
            method = self.take_identifier().text
            self.take("(", ")", ";")
            return Call(first.text, method, first.at)
        if self.sees("="):
            return Assign(first.text, self.value())
        return Declare(first, self.take_identifier().text, self.value())

    def value(self):
        """A value between `=` and `;`."""
        self.take("=")
        if self.sees("new"):
            self.take("new")
            value = New(self.take_identifier().text)
            self.take("(", ")")
        else:
            name = self.take_identifier()
            value = Use(name.text, name.at)
        self.take(";")
        return value

    def sees(self, text):
        """Whether the next token is this word or mark."""
        if self.next == len(self.tokens):
            return False
        token = self.tokens[self.next]
        return token.kind != "text" and token.text == text

    def take(self, *texts):
        for text in texts:
            if not self.sees(text):
                raise NotSmall("token %d is not %s" % (self.next + 1, text))
            self.next += 1

    def take_identifier(self):
        if self.next == len(self.tokens):
            raise NotSmall("the file ends where an identifier has to stand")
        token = self.tokens[self.next]
        if token.kind != "word" or token.text in RESERVED:
            raise NotSmall("token %d is no identifier" % (self.next + 1))
        self.next += 1
        return token

    def take_text(self):
        if self.next == len(self.tokens) or self.tokens[self.next].kind != "text":
            raise NotSmall("token %d is no string" % (self.next + 1))
        self.next += 1


def read_program(text):
    """The small program that a file is; NotSmall where it is none."""
    program = Parser(read_tokens(text)).program()
    require_sizes(program)
    require_type_names(program)
    require_method_names(program)
    require_supertypes(program)
    require_steps(program)
    return program


def require(condition, why):
    if not condition:
        raise NotSmall(why)


def require_sizes(program):
    require(len(program.classes) + 1 <= MOST_TYPES, "too many types")
    methods = sum(len(each.methods) for each in program.classes)
    require(methods + 1 <= MOST_METHODS, "too many methods")


def require_type_names(program):
    """Each type has a name of its own, which no built-in type has and with which no package begins."""
    names = set()
    for name in [each.name for each in program.classes] + [program.main]:
        require(name != PACKAGES_BEGIN_WITH, "a type is named as a package begins")
        require(name not in BUILT_IN_TYPES, "a type is named as a built-in type")
        require(name not in names, "two types of one name")
        names.add(name)


def require_method_names(program):
    for each in program.classes:
        require(len(set(each.methods)) == len(each.methods), "two methods of one signature")
        for method in each.methods:
            require(method != "main", "a class declares main")
            require(method not in LEFT_OUT_METHODS, "a method name that is left out")
            require(method not in OBJECT_METHODS, "a void method overrides a method of Object")


def require_supertypes(program):
    """What a class extends is a class of the file, and no class is above itself."""
    above = {each.name: each.above for each in program.classes}
    fine = {None}
    for each in program.classes:
        seen = set()
        name = each.name
        while name not in fine:
            require(name in above, "a superclass that is no class of the file")
            require(name not in seen, "a class above itself")
            seen.add(name)
            name = above[name]
        fine |= seen


def require_steps(program):
    """The names and types of the steps, read from the first to the last."""
    types = Types(program)
    locals_so_far = {}
    for step in program.steps:
        if isinstance(step, Call):
            require(step.name in locals_so_far, "a call on what is no local of an earlier step")
            require(types.has_method(locals_so_far[step.name], step.method), "the type has no such method")
            continue
        value_type = type_of(step.value, types, locals_so_far)
        if isinstance(step, Declare):
            require(types.knows(step.type.text), "a local's type is no class of the file")
            require(types.is_sub(value_type, step.type.text), "an initialiser that does not fit")
            require(step.name not in locals_so_far and step.name != program.parameter, "a local's name is taken")
            locals_so_far[step.name] = step.type.text
        else:
            require(step.name in locals_so_far, "an assignment to what is no local of an earlier step")
            require(types.is_sub(value_type, locals_so_far[step.name]), "an assigned value that does not fit")


def type_of(value, types, locals_so_far):
    if isinstance(value, New):
        require(types.knows(value.type), "a created type is no class of the file")
        return value.type
    require(value.name in locals_so_far, "a value is no local of an earlier step")
    return locals_so_far[value.name]


def require_target(program, target):
    require(Types(program).knows(target), "TYPE is no class of the file")


class Types:
    """The classes of a program and Object."""

    def __init__(self, program):
        self.classes = {each.name: each for each in program.classes}

    def knows(self, name):
        return name == "Object" or name in self.classes

    def upwards(self, name):
        """The type itself, then what it extends, and so on up to Object."""
        while name != "Object":
            yield name
            name = self.classes[name].above or "Object"
        yield "Object"

    def is_sub(self, below, above):
        return above in self.upwards(below)

    def has_method(self, name, method):
        """Whether a call without arguments finds the method. No such method of Object can be called here."""
        return any(each != "Object" and method in self.classes[each].methods for each in self.upwards(name))


# The refusals of the command.

def first_refusal(program, text, request):
    """The rule or the constraint that refuses, with the offset of its node (None where it has none), or None."""
    place = declared_at(program, text, request)
    if place is None:
        return "V1", None
    types = Types(program)
    if request.target == place.type.text or not types.is_sub(place.type.text, request.target):
        return "V3", place.type.at
    return first_unmet(program, types, place, request.target)


def declared_at(program, text, request):
    """The step whose declared type begins at the line and the column, or None."""
    lines = Lines(text)
    for step in program.steps:
        if isinstance(step, Declare) and lines.place(step.type.at) == (request.line, request.column):
            return step
    return None


def first_unmet(program, types, place, target):
    """The first use of the local, in the order of the text, that the new type does not allow."""
    declared = {step.name: step.type.text for step in program.steps if isinstance(step, Declare)}
    for step in program.steps:
        if isinstance(step, Call):
            if step.name == place.name and not types.has_method(target, step.method):
                return "MEMBER", step.at
        elif isinstance(step.value, Use) and step.value.name == place.name and step.name != place.name:
            if not types.is_sub(target, declared[step.name]):
                return "ASSIGN", step.value.at
    return None
