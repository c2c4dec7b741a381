"""What files declare: their packages, imports, types, members, and each type that is written in them.

The reader is that of trees.py; it keeps what the rules on declarations ask for, and nothing of statements and values but
the types that are written there. All places are offsets of first bytes.
"""
import functools
from dataclasses import dataclass, field
from typing import Optional

import lexing
import trees

# how deep a node stands, where several begin at one byte
UNIT, TOP, MEMBER, PART, WRITTEN = range(5)


@dataclass(eq=False)
class Written:
    """A written type: a name in its parts, or a primitive type, its arguments, and the brackets directly behind it.

    `is_element` says that it is the element type of an array, wherever the brackets stand.
    """
    at: int
    token: int
    path: list
    args: list
    dims: int = 0
    is_element: bool = False
    is_argument: bool = False
    owner: object = None
    file: object = None


@dataclass(eq=False)
class Import:
    at: int
    path: list
    all: bool


@dataclass(eq=False)
class Variable:
    at: int
    name: str
    dims: int
    has_value: bool


@dataclass(eq=False)
class Parameter:
    at: int
    name: str
    type: Written
    dims: int


@dataclass(eq=False)
class FieldMember:
    at: int
    mods: list
    type: Written
    vars: list


@dataclass(eq=False)
class MethodMember:
    """A method, or a member without a result type (`is_constructor`). The result is None for void too."""
    at: int
    mods: list
    result: Optional[Written]
    is_constructor: bool
    name: str
    params: list
    throws: list
    has_body: bool
    owner: object = None


@dataclass(eq=False)
class Type:
    at: int
    mods: list
    is_interface: bool
    name: str
    params: list
    extends: list = field(default_factory=list)
    implements: list = field(default_factory=list)
    members: list = field(default_factory=list)
    file: object = None

    def fields(self):
        return [each for each in self.members if isinstance(each, FieldMember)]

    def methods(self):
        return [each for each in self.members if isinstance(each, MethodMember) and not each.is_constructor]

    def constructors(self):
        return [each for each in self.members if isinstance(each, MethodMember) and each.is_constructor]


@dataclass(eq=False)
class File:
    """A file with its number in the order of the words. `package` is a list of names; the built-in types have files too."""
    number: int
    is_user: bool
    at: int = 0
    package: list = field(default_factory=list)
    imports: list = field(default_factory=list)
    types: list = field(default_factory=list)
    written: list = field(default_factory=list)


@functools.lru_cache(maxsize=32)
def read_file(text, number, is_user):
    """The declarations of a text that has a tree; nobody changes them."""
    tokens = lexing.read_tokens(text)
    file = File(number, is_user, tokens[0].at if tokens else 0)
    Reader(tokens, file).unit()
    return file


class Reader(trees.Reader):
    """Keeps what it reads; the heights that its methods give are those of trees.py where those ask for them."""

    def __init__(self, tokens, file):
        self.place = 0
        self.file = file
        self.type_declared = None
        self.holder = None
        self.last = None
        self.found = None
        self.inside = []
        super().__init__(tokens)

    @property
    def next(self):
        return self.place

    @next.setter
    def next(self, place):
        """Going back takes away the types that were read behind the place."""
        while place < getattr(self, "place", 0) and self.file.written and self.file.written[-1].token >= place:
            self.file.written.pop()
        self.place = place

    def here(self):
        return self.tokens[self.next].at if self.next < len(self.tokens) else 0

    def word(self):
        return self.tokens[self.next].text.decode()

    def name(self):
        name = self.word() if self.sees("Id") else ""
        self.take("Id")
        return name

    def words_since(self, begin, sort):
        return [token.text.decode() for token in self.tokens[begin:self.next] if sort is None or token.sort == sort]

    # Files and types.

    def unit(self):
        if self.takes("package"):
            self.file.package = self.names()
            self.take(";")
        while self.sees("import"):
            at = self.here()
            self.take("import")
            path = self.names()
            self.file.imports.append(Import(at, path, self.takes(".", "*")))
            self.take(";")
        while not self.sees("End"):
            if not self.takes(";"):
                self.declaration()

    def names(self):
        begin = self.next
        self.path()
        return self.words_since(begin, "Id")

    def declaration(self):
        at, begin = self.here(), self.next
        self.modifiers()
        mods = self.words_since(begin, None)
        is_interface = self.takes("interface")
        if not is_interface:
            self.take("class")
        declared = Type(at, mods, is_interface, self.name(), self.type_parameters(), file=self.file)
        self.type_declared = declared
        self.file.types.append(declared)
        if self.takes("extends"):
            declared.extends = self.refs() if is_interface else [self.one_ref()]
        if self.takes("implements"):
            declared.implements = self.refs()
        self.take("{")
        while not self.takes("}"):
            if not self.takes(";"):
                declared.members.append(self.one_member(declared))
        self.type_declared = None

    def type_parameters(self):
        if not self.takes("<"):
            return []
        found = [self.name()]
        while self.takes(","):
            found.append(self.name())
        self.take(">")
        return found

    def refs(self):
        found = [self.one_ref()]
        while self.takes(","):
            found.append(self.one_ref())
        return found

    def one_ref(self):
        self.ref()
        return self.last

    # Members.

    def one_member(self, owner):
        at, begin = self.here(), self.next
        self.modifiers()
        mods = self.words_since(begin, None)
        if self.sees("Id", "("):
            return self.one_method(owner, at, mods, None, True)
        if self.takes("void"):
            return self.one_method(owner, at, mods, None, False)
        self.type()
        written = self.last
        if self.sees("Id", "("):
            return self.one_method(owner, at, mods, written, False)
        found = []
        self.holder, self.found = written, found
        self.listed(self.variable)
        self.found = None
        self.take(";")
        return FieldMember(at, mods, written, found)

    def one_method(self, owner, at, mods, result, is_constructor):
        name = self.name()
        self.take("(")
        params = []
        if not self.sees(")"):
            params.append(self.parameter())
            while self.takes(","):
                params.append(self.parameter())
        self.take(")")
        throws = self.refs() if self.takes("throws") else []
        has_body = not self.takes(";")
        if has_body:
            self.block(calls_first=is_constructor)
        return MethodMember(at, mods, result, is_constructor, name, params, throws, has_body, owner)

    def parameter(self):
        at = self.here()
        self.takes("final")
        self.type()
        written = self.last
        name = self.name()
        dims = self.brackets()
        written.is_element = written.is_element or dims > 0
        return Parameter(at, name, written, dims)

    def formal(self):
        """The parameter of a catch."""
        self.parameter()
        return 1

    def variables(self):
        self.holder = self.last
        return super().variables()

    def variable(self):
        at, name, holder, found = self.here(), self.name(), self.holder, self.found
        dims = self.brackets()
        holder.is_element = holder.is_element or dims > 0
        has_value = self.takes("=")
        if has_value:
            self.initialiser()
        if found is not None:
            found.append(Variable(at, name, dims, has_value))
        return 1

    # Written types.

    def ref(self):
        begin, at = self.next, self.here()
        path = self.names()
        self.inside = []
        height = self.arguments()
        self.keep(Written(at, begin, path, self.inside, is_element=self.sees("[")))
        return height

    def arguments(self):
        with self.opened():
            if not self.takes("<"):
                return 0
            inside = []
            self.one_argument(inside)
            while self.takes(","):
                self.one_argument(inside)
            self.take(">")
            self.inside = inside
            return 1

    def one_argument(self, inside):
        self.argument()
        inside.append(self.last)

    def argument(self):
        at, begin = self.here(), self.next
        if self.sorts[self.next] in trees.PRIMITIVES:
            self.next += 1
            if not self.brackets():
                raise trees.NoTree("a primitive type argument")
            self.keep(Written(at, begin, [self.tokens[begin].text.decode()], [], self.dims_since(begin), True, True))
            return 0
        height = self.ref()
        written = self.last
        self.brackets()
        written.dims = self.dims_since(begin)
        written.is_argument = True
        self.last = written
        return height

    def type(self):
        at, begin = self.here(), self.next
        if self.sorts[self.next] in trees.PRIMITIVES:
            self.next += 1
            self.brackets()
            self.keep(Written(at, begin, [self.tokens[begin].text.decode()], [], self.dims_since(begin)))
            return 0
        height = self.ref()
        written = self.last
        self.brackets()
        written.dims = self.dims_since(begin)
        self.last = written
        return height

    def type_without_arguments(self):
        at, begin = self.here(), self.next
        if self.sorts[self.next] in trees.PRIMITIVES:
            self.next += 1
        else:
            path = self.names()
            self.keep(Written(at, begin, path, [], is_element=self.sees("[")))
        self.brackets()
        return 0

    def dims_since(self, begin):
        count = 0
        while self.next - 2 * count - 2 > begin and self.sorts[self.next - 2 * count - 2:self.next - 2 * count] == ["[", "]"]:
            count += 1
        return count

    def keep(self, written):
        written.owner, written.file = self.type_declared, self.file
        self.file.written.append(written)
        self.last = written
