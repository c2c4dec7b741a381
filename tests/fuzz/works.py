"""Random programs that run: what they declare and what their values are. acts.py has their statements and texts.

Each value has the very type that is asked for, so that what a call means is known. Types are their texts here. A program ends since
each method first asks `T.out()`, which is true once enough were entered; loops count; and what runs without that question, as
initialisers do, makes objects of earlier classes alone.
"""
from dataclasses import dataclass, field

NUMBERS = ["int", "long", "char"]
PRIMITIVES = [*NUMBERS, "boolean"]
WIDER = {"char": ["int", "long"], "int": ["long"]}
INTS = ["0", "1", "2", "3", "7", "-1", "-8", "31", "32", "33", "65", "100", "2147483647", "-2147483648", "0x80000000", "0xFFFF", "65536", "017", "1000000007",
        "037777777777", "-2147483647"]
LONGS = ["0L", "1L", "2L", "-1L", "7l", "63L", "64L", "65L", "4294967296L", "9223372036854775807L", "-9223372036854775808L", "0x7FFFFFFFL", "0xFFFFFFFFFFFFFFFFL",
         "0777L", "-4294967297L", "2147483648L"]
CHARS = ["'a'", "'b'", "'Z'", "'0'", "' '", "'\\n'", "'\\''", "'\"'", "'\\\\'", "'\\0'", "'\\101'", "'\\377'", "'é'", "'Σ'", "'~'"]
STRINGS = ['""', '"a"', '"bc"', '"Σx"', '"\\t"', '"q\\"q"', '"\\\\"', '"0"', '"-1"', '"\\61\\0612"', '"long text of words"']
MACHINE = ["ArithmeticException", "NullPointerException", "ClassCastException", "ArrayStoreException", "NegativeArraySizeException",
           "IndexOutOfBoundsException", "ArrayIndexOutOfBoundsException", "StringIndexOutOfBoundsException"]
THROWABLES = {"Exception": "Throwable", "Error": "Throwable", "RuntimeException": "Exception", **{each: "RuntimeException" for each in MACHINE},
              "ArrayIndexOutOfBoundsException": "IndexOutOfBoundsException", "StringIndexOutOfBoundsException": "IndexOutOfBoundsException"}
ABOVE = {"ArrayList": "List", "HashMap": "Map"}
FACES = ["I", "J"]
PRIMARY, MADE, UNARY, TIMES, PLUS, SHIFT, COMPARE, EQUAL, AND, XOR, OR, BOTH, EITHER, CHOICE, ASSIGN = range(15)
LEVELS = {"*": TIMES, "/": TIMES, "%": TIMES, "+": PLUS, "-": PLUS, "<<": SHIFT, ">>": SHIFT, ">>>": SHIFT, "<": COMPARE, ">": COMPARE, "<=": COMPARE,
          ">=": COMPARE, "==": EQUAL, "!=": EQUAL, "&": AND, "^": XOR, "|": OR, "&&": BOTH, "||": EITHER}


class Code(str):
    """The text of a value, and how loosely it is bound."""
    level = PRIMARY


def code(level, text):
    made = Code(text)
    made.level = level
    return made


def at(level, text):
    """The text where a value may be bound so loosely: in brackets if it is bound more loosely than that."""
    return text if getattr(text, "level", PRIMARY) <= level else "(%s)" % text


@dataclass
class Variable:
    """A field."""
    name: str
    type: str
    owner: object
    is_static: bool = False
    is_final: bool = False
    is_private: bool = False
    is_blank: bool = False


@dataclass
class Method:
    """A method; a constructor has no result type."""
    name: str
    params: list
    type: str
    owner: object = None
    is_static: bool = False
    access: str = ""
    throws: list = field(default_factory=list)
    is_abstract: bool = False

    def key(self):
        return self.name, tuple(self.params)


@dataclass
class Planned:
    name: str
    number: int = 0
    is_interface: bool = False
    is_abstract: bool = False
    above: str = ""
    faces: list = field(default_factory=list)
    fields: list = field(default_factory=list)
    methods: list = field(default_factory=list)
    constructors: list = field(default_factory=list)


@dataclass
class Local:
    name: str
    type: str
    is_fixed: bool = False


@dataclass
class Target:
    """What a break or continue may go to. Where it is exact, whether a break stands decides what is reachable."""
    is_loop: bool
    is_exact: bool
    is_left: bool = False
    is_continued: bool = False


@dataclass
class Here:
    """Where a value or statement stands. `reach` are the fields of its class that have their simple names in an initialiser."""
    owner: Planned
    has_this: bool
    result: str = "void"
    handled: list = field(default_factory=list)
    locals: list = field(default_factory=list)
    targets: list = field(default_factory=list)
    barrier: int = 0
    reach: list = None
    is_guarded: bool = True
    sees_blank: bool = True
    is_frozen: bool = False


class Planner:
    accesses = ("", "", "public ", "protected ")

    def __init__(self, chance):
        self.chance = chance
        self.has_library = self.is_likely(0.6)
        self.has_boxes = self.has_library and self.is_likely(0.6)
        self.types = {}
        self.numbers = 0

    def one(self, *things):
        return self.chance.choice(things)

    def is_likely(self, share):
        return self.chance.random() < share

    def number(self):
        self.numbers += 1
        return self.numbers

    # Types.

    def classes(self):
        return [each.name for each in self.types.values() if not each.is_interface]

    def is_below(self, low, high):
        if low == high:
            return True
        if low in PRIMITIVES or high in PRIMITIVES:
            return high in WIDER.get(low, [])
        if high == "Object" or low == "null":
            return True
        if low.endswith("[]") and high.endswith("[]"):
            return self.is_below(low[:-2], high[:-2]) and low[:-2] not in PRIMITIVES
        head, _, rest = low.partition("<")
        if head in ABOVE:
            return self.is_below(low.replace(head, ABOVE[head], 1), high)
        if low in self.types:
            of = self.types[low]
            return any(self.is_below(each, high) for each in [of.above, *of.faces] if each)
        above = self.faults.get(low) or THROWABLES.get(low)
        return bool(above) and self.is_below(above, high)

    def kind(self):
        """A random type of a variable, parameter or result."""
        way = self.chance.random()
        if way < 0.5:
            return self.one("int", "int", "int", "long", "char", "boolean")
        if way < 0.7:
            return self.one("String", "String", "String", "Object")
        if way < 0.82:
            return self.one("int[]", "int[]", "String[]", "char[]", "long[]", "int[][]", "Object[]", self.one(*self.types) + "[]")
        if way < 0.85 and self.has_boxes:
            return "Box<%s>" % self.one("String", "Integer", *self.types)
        return self.one(*self.types)

    # The plan.

    def plan(self):
        self.faults = {"X": "Exception", "Y": "X", "Z": "RuntimeException", "W": self.one("Z", "Error", *MACHINE[:4])}
        for n, name in enumerate(FACES[:self.one(0, 1, 1, 2)]):
            self.types[name] = Planned(name, n, is_interface=True, faces=FACES[:n] if self.is_likely(0.6) else [])
        faces = list(self.types)
        for n, name in enumerate("ABCDE"[:self.one(2, 3, 3, 4, 5)]):
            above = self.one("", *"ABCDE"[:n], *"ABCDE"[:n])
            self.types[name] = Planned(name, n + 2, is_abstract=self.is_likely(0.2), above=above, faces=[each for each in faces if self.is_likely(0.35)])
        classes = [each for each in self.types.values() if not each.is_interface]
        for each in classes:
            each.is_abstract = each.is_abstract and any(other.above == each.name for other in classes)
        for face in faces:
            if not any(face in each.faces for each in classes):
                self.one(*classes).faces.append(face)
        self.plan_signatures()
        for each in self.types.values():
            self.plan_fields(each)
            self.plan_methods(each)
            if not each.is_interface:
                self.plan_constructors(each)

    def plan_signatures(self):
        """What methods may be declared: a name with its parameters has one result, access and throws clause all over the program."""
        kinds = lambda n: [self.kind() for _ in range(n)]
        result = lambda: self.one("void", self.kind(), self.kind(), self.kind())
        throws = lambda: self.one([], [], [], ["X"], ["Z"])
        access = lambda: self.one(*self.accesses)
        self.signatures = [Method(name, kinds(self.one(0, 1, 1, 2)), result(), access=access(), throws=throws()) for name in "fgh"[:self.one(2, 3)]]
        self.signatures += [Method(name, kinds(self.one(0, 1, 2)), result(), is_static=True, throws=throws()) for name in "su"]
        self.private = Method("q", kinds(self.one(0, 1)), self.one("int", "String", "long"))
        pool = [["int"], ["long"], ["char"], ["Object"], ["String"], ["int", "Object"], ["long", "String"], ["Object", "int"], ["int[]"], ["Object[]"],
                *[[each] for each in self.types], *[[each, "Object"] for each in self.types], *[["Object", each] for each in self.types], ["char", "char"], ["int", "long"], ["long", "int"], []]
        for name, is_static in ("o", False), ("v", True):
            for params in self.chance.sample(pool, self.one(2, 3, 4)):
                self.signatures.append(Method(name, params, self.one("int", "String", "void", "char", "long"), is_static=is_static, access=access() if not is_static else ""))
        virtual = [each for each in self.signatures if not each.is_static]
        for of in self.types.values():
            if of.is_interface:
                for each in self.chance.sample(virtual, self.one(1, 2)):
                    each.access = "public "
                    of.methods.append(Method(each.name, each.params, each.type, of, False, "public ", each.throws, True))

    def plan_fields(self, of):
        for n in range(self.one(0, 1, 2) if of.is_interface else self.one(1, 2, 3, 4)):
            if of.is_interface:
                of.fields.append(Variable("K%s%d" % (of.name, n), self.kind(), of, True, True))
                continue
            name = self.one(*[each for each in "abcde" if all(each != other.name for other in of.fields)])
            is_static, is_final = self.is_likely(0.35), self.is_likely(0.15)
            of.fields.append(Variable(name, self.kind(), of, is_static, is_final, self.is_likely(0.15), is_final and not is_static and self.is_likely(0.5)))

    def plan_methods(self, of):
        if of.is_interface:
            return
        for each in self.signatures:
            inherited = self.found(of.above, each.key())
            if self.is_likely(0.3 if each.is_static else 0.5):
                self.declare(of, each, inherited, of.is_abstract and not each.is_static and self.is_likely(0.25))
        if self.is_likely(0.4):
            above = self.found(of.above, self.private.key())
            is_private = (above is None or above.access == "private ") and self.is_likely(0.6)
            of.methods.append(Method("q", self.private.params, self.private.type, of, access="private " if is_private else ""))
        if not of.is_abstract:
            for each in self.open_methods(of):
                self.declare(of, each, self.found(of.above, each.key()), False)

    def declare(self, of, like, inherited, is_abstract):
        result = inherited.type if inherited else like.type
        if result in self.types and self.is_likely(0.4):
            result = self.one(*[each for each in self.types if self.is_below(each, result)])
        throws = like.throws if not inherited or inherited.throws else []
        of.methods.append(Method(like.name, like.params, result, of, like.is_static, like.access, throws if self.is_likely(0.8) else [], is_abstract))

    def found(self, name, key):
        """The method of a signature that a class has by itself or by its superclasses."""
        while name:
            for each in self.types[name].methods:
                if each.key() == key:
                    return each
            name = self.types[name].above
        return None

    def open_methods(self, of):
        """The abstract methods that a class has."""
        found = {}
        for each in self.methods_of(of.name, of):
            if each.is_abstract:
                found[each.key()] = each
        for face in self.faces_of(of.name):
            for each in self.types[face].methods:
                above = self.found(of.name, each.key())
                if above is None or above.is_abstract:
                    found[each.key()] = each
        keys = {each.key() for each in of.methods}
        return [next(like for like in self.signatures if like.key() == key) for key in found if key not in keys]

    def faces_of(self, name):
        of, found = self.types[name], []
        for each in [of.above, *of.faces]:
            if each:
                found += ([each] if self.types[each].is_interface else []) + self.faces_of(each)
        return list(dict.fromkeys(found))

    def plan_constructors(self, of):
        is_leaf = self.is_likely(0.5)
        for params in self.chance.sample([[], [], ["int"], ["String"], [self.kind()], [self.kind(), self.kind()]], self.one(1, 2)):
            if all(each.params != params for each in of.constructors):
                of.constructors.append(Method("", params, "", of, access=self.one("", "", "", "public ", "private ") if of.constructors and is_leaf else ""))

    # Members.

    def methods_of(self, kind, inside):
        """The methods that are members of a type, where the class `inside` speaks of it."""
        of = self.types[kind]
        found = [each for each in of.methods if each.access != "private " or of is inside]
        for above in [of.above, *of.faces]:
            for each in self.methods_of(above, None) if above else []:
                if all(each.key() != other.key() for other in found) and not any(each.key() == other.key() for other in of.methods):
                    found.append(each)
        return found

    def fields_of(self, kind, inside):
        """The fields that are members of a type and seen from the class `inside`, as variables by name."""
        of, found = self.types[kind], {}
        for above in [*of.faces, of.above]:
            if above:
                found.update(self.fields_of(above, None))
        for each in of.fields:
            found.pop(each.name, None)
            if not each.is_private or of is inside:
                found[each.name] = each
        return found

    def chosen(self, candidates, kinds):
        """The method that a call with arguments of these types means, or None."""
        fitting = [each for each in candidates if len(each.params) == len(kinds) and all(map(self.is_below, kinds, each.params))]
        best = [each for each in fitting if all(all(map(self.is_below, each.params, other.params)) for other in fitting)]
        return best[0] if len(best) == 1 else None

    def is_handled(self, throws, here):
        return all(self.is_below(each, "RuntimeException") or self.is_below(each, "Error") or any(self.is_below(each, other) for other in here.handled) for each in throws)


class Worker(Planner):
    """Writes values: `exact` one of the very type, `fitting` one that fits it."""

    def fitting(self, kind, here, depth):
        if kind not in PRIMITIVES:
            if self.is_likely(0.02):
                return "null"
            below = [each for each in self.types if self.is_below(each, kind)]
            if below and self.is_likely(0.4) and "[" not in kind:
                return self.exact(self.one(*below), here, depth)
            if kind == "Object" and self.is_likely(0.5):
                return self.exact("String", here, depth)
        lower = [each for each in WIDER if kind in WIDER[each]]
        if lower and self.is_likely(0.2):
            return self.exact(self.one(*lower), here, depth)
        return self.exact(kind, here, depth)

    def exact(self, kind, here, depth):
        if depth > 0 and self.is_likely(0.85):
            ways = [self.traced, self.stored, self.stored, self.called, self.called, self.chosen_by_test, self.assigned, self.cast]
            ways += [self.operated] * (6 if kind in PRIMITIVES or kind == "String" else 0) + [self.made] * (3 if kind not in PRIMITIVES else 0)
            for _ in range(4):
                found = self.one(*ways)(kind, here, depth - 1)
                if found is not None:
                    return found
        return (self.is_likely(0.5) and self.stored(kind, here, 0)) or self.plain(kind, here)

    def plain(self, kind, here):
        """A short value of the very type."""
        if kind in ("int", "long", "char", "boolean", "String"):
            text = self.one(*{"int": INTS, "long": LONGS, "char": CHARS, "boolean": ["true", "false"], "String": STRINGS}[kind])
            return code(UNARY, text) if text.startswith("-") else text
        if kind == "Object":
            return code(UNARY, "(Object) " + self.one(*STRINGS))
        return self.made(kind, here, 0) or code(UNARY, "(%s) null" % kind)

    def default(self, kind, here):
        """What a method gives at once where enough was entered."""
        if kind in self.types:
            return "this" if here.has_this and self.is_below(here.owner.name, kind) else "null"
        if kind.endswith("[]"):
            return "new %s[2]%s" % (kind.replace("[]", ""), kind[kind.index("[") + 2:])
        return {"int": "0", "long": "0L", "char": "'-'", "boolean": "false", "String": '"out"', "Object": '"out"'}.get(kind) or "new %s()" % kind

    def traced(self, kind, here, depth):
        text = 'T.t("%d", %s)' % (self.number(), self.exact(kind, here, depth))
        return text if kind in PRIMITIVES or kind in ("String", "Object") else code(UNARY, "(%s) %s" % (kind, text))

    def traced_text(self):
        return self.one(self.one(*STRINGS), 'T.t("%d", %s)' % (self.number(), self.one(*STRINGS)))

    def index(self, here, depth):
        way = self.chance.random()
        counters = [each.name for each in here.locals if each.is_fixed and each.type == "int"]
        if way < 0.5:
            return self.one("0", "0", "1")
        if way < 0.65 and counters:
            return self.one(*counters)
        if way < 0.75:
            return 'T.t("%d", %s)' % (self.number(), self.one("0", "1", "1", "2"))
        if way < 0.85:
            return "%s & 1" % at(EQUAL, self.exact("int", here, depth - 1))
        if way < 0.96:
            return self.one("0", "(char) 1", "1 - 1", "0", "(char) 0")
        return self.one("2", "-1", "3", self.exact(self.one("int", "int", "char"), here, depth - 1))

    def size(self, here, depth):
        return self.one("2", "2", "3", "1", "(char) 2", self.one("0", "-1", "2", "3"), 'T.t("%d", 2)' % self.number(), "%s & 3" % at(EQUAL, self.exact("int", here, depth - 1)))

    def places(self, here, depth, is_written):
        """Variables as (text, type, may be assigned)."""
        found = [(each.name, each.type, not each.is_fixed) for each in here.locals]
        hidden = {each.name for each in here.locals}
        for name, each in self.seen_fields(here.owner.name, here):
            is_open = not each.is_final
            is_own = each.owner is here.owner
            if each.is_static:
                if name not in hidden and (here.reach is None or not is_own or name in here.reach):
                    found.append((name, each.type, is_open))
            elif here.has_this:
                if name not in hidden and (here.reach is None or not is_own or name in here.reach):
                    found.append((name, each.type, is_open))
                found.append(("this." + name, each.type, is_open))
        if here.has_this and here.owner.above:
            found += [("super." + name, each.type, not each.is_final) for name, each in self.seen_fields(here.owner.above, here) if not each.is_private]
        for of in self.types.values():
            if self.is_likely(0.4):
                found += [(of.name + "." + name, each.type, not each.is_final) for name, each in self.seen_fields(of.name, here) if each.is_static]
        for name, kind, _ in list(found):
            if kind in self.types and depth > 0 and self.is_likely(0.3):
                found += [(name + "." + other, each.type, not each.is_final) for other, each in self.seen_fields(kind, here)]
            if kind.startswith("Box<") and self.is_likely(0.5):
                found += [(name + ".item", kind[4:-1], True), (name + ".get()", kind[4:-1], False)]
            if kind.startswith("List<"):
                found.append(("%s.get(%s)" % (name, self.index(here, depth)), kind[5:-1], False))
        if depth > 0 and self.is_likely(0.4):
            name = self.one(*self.types)
            of = at(PRIMARY, self.exact(name, here, depth - 1))
            found += [(of + "." + other, each.type, not each.is_final) for other, each in self.seen_fields(name, here)]
        for name, kind, _ in list(found):
            if kind.endswith("[]") and self.is_likely(0.5):
                found.append(("%s[%s]" % (name, self.index(here, depth)), kind[:-2], True))
        return [each for each in found if each[2] or not is_written]

    def seen_fields(self, kind, here):
        """The fields of a type, without those that may have no value yet, as (name, field)."""
        found = self.fields_of(kind, here.owner) if kind in self.types else {}
        return [(name, each) for name, each in found.items() if here.sees_blank or not each.is_blank]

    def stored(self, kind, here, depth):
        found = [text for text, own, _ in self.places(here, depth, False) if own == kind]
        if here.has_this and kind == here.owner.name:
            found.append("this")
        if kind == "int":
            found += [name + ".length" for name, own, _ in self.places(here, 0, False) if own.endswith("[]")]
        return self.one(*found) if found else None

    def target(self, kinds, here, depth):
        found = [(text, own) for text, own, _ in self.places(here, depth, True) if own in kinds]
        return self.one(*found) if found else None

    def assigned(self, kind, here, depth):
        found = self.target([kind], here, depth)
        if not found:
            return None
        text = found[0]
        way = self.chance.random()
        if kind in NUMBERS and way < 0.35:
            return code(UNARY, self.one(text + "++", text + "--", "++" + text, "--" + text))
        if kind in PRIMITIVES + ["String"] and way < 0.75:
            return code(ASSIGN, self.compound(text, kind, here, depth))
        return code(ASSIGN, "%s = %s" % (text, self.fitting(kind, here, depth)))

    def compound(self, text, kind, here, depth):
        if kind == "String":
            # no text of itself, which would double it at each turn
            other = self.printable()
            return "%s += %s" % (text, self.traced_text() if other == "String" else self.exact(other, here, depth))
        if kind == "boolean":
            return "%s %s= %s" % (text, self.one("&", "|", "^"), self.exact("boolean", here, depth))
        sign = self.one("+", "-", "*", "/", "%", "<<", ">>", ">>>", "&", "|", "^")
        return "%s %s= %s" % (text, sign, self.exact(self.one("int", "int", "long", "char"), here, depth))

    def printable(self):
        """A type whose values have the same text everywhere."""
        return self.one("int", "int", "long", "char", "boolean", "String", "String", "Object", *self.types)

    def chosen_by_test(self, kind, here, depth):
        test = at(EITHER, self.exact("boolean", here, depth))
        return code(CHOICE, "%s ? %s : %s" % (test, self.exact(kind, here, depth), at(CHOICE, self.exact(kind, here, depth))))

    def cast(self, kind, here, depth):
        if kind in NUMBERS:
            return code(UNARY, "(%s) %s" % (kind, at(UNARY, self.exact(self.one(*NUMBERS), here, depth))))
        if kind in self.types:
            above = self.one(kind, *[each for each in self.types if self.is_below(kind, each)])
            below = self.one(*[each for each in self.types if self.is_below(each, above)], "Object") if self.is_likely(0.3) else kind
            if not (self.is_below(below, kind) or self.is_below(kind, below)):
                below = above
            return code(UNARY, "(%s) %s" % (kind, at(UNARY, self.exact(below, here, depth))))
        if kind == "String":
            return code(UNARY, "(String) " + at(UNARY, self.exact(self.one("Object", "String"), here, depth)))
        if kind == "Object":
            return code(UNARY, "(Object) " + at(UNARY, self.exact(self.one("Object", "String", *self.types), here, depth)))
        return None

    # Operators.

    def binary(self, sign, left, right):
        level = LEVELS[sign]
        return code(level, "%s %s %s" % (at(level, left), sign, at(level - 1, right)))

    def operated(self, kind, here, depth):
        value = lambda *kinds: self.exact(self.one(*kinds), here, depth)
        way = self.chance.random()
        if kind == "int":
            if way < 0.5:
                pair = self.one(("int", "int"), ("int", "int"), ("int", "char"), ("char", "int"), ("char", "char"))
                return self.binary(self.one("+", "-", "*", "/", "%", "&", "|", "^"), value(pair[0]), value(pair[1]))
            if way < 0.7:
                return self.binary(self.one("<<", ">>", ">>>"), value("int", "char"), value("int", "long", "char"))
            if way < 0.8:
                return code(UNARY, self.one("- ", "+ ", "~") + at(UNARY, value("int", "char")))
            return self.of_strings(kind, here, depth)
        if kind == "long":
            if way < 0.6:
                pair = self.one(("long", "long"), ("long", "int"), ("int", "long"), ("char", "long"))
                return self.binary(self.one("+", "-", "*", "/", "%", "&", "|", "^"), value(pair[0]), value(pair[1]))
            if way < 0.85:
                return self.binary(self.one("<<", ">>", ">>>"), value("long"), value("int", "long", "char"))
            return code(UNARY, self.one("- ", "+ ", "~") + at(UNARY, value("long")))
        if kind == "boolean":
            if way < 0.4:
                return self.binary(self.one("<", ">", "<=", ">=", "==", "!="), value(*NUMBERS), value(*NUMBERS))
            if way < 0.7:
                return self.binary(self.one("&&", "||", "&&", "||", "&", "|", "^", "==", "!="), value("boolean"), value("boolean"))
            if way < 0.78:
                return code(UNARY, "!" + at(UNARY, value("boolean")))
            if way < 0.9:
                return self.test_of_objects(here, depth)
            return self.of_strings(kind, here, depth)
        if kind == "String":
            return self.joined(here, depth) if way < 0.7 else self.of_strings(kind, here, depth)
        return self.of_strings(kind, here, depth)

    def joined(self, here, depth):
        """A concatenation. What has a toString of its own is no left operand, since when it is converted is open beside effects on the right."""
        if self.is_likely(0.25):
            return code(PLUS, "%s + %s" % (at(PLUS, self.exact(self.one(*PRIMITIVES, *self.types), here, depth)), self.one(*STRINGS)))
        kind, other = self.one("String", "String", "String", *PRIMITIVES), self.printable()
        left = self.exact(kind, here, depth)
        if self.is_likely(0.3) or "String" not in (kind, other):
            left = self.binary("+", self.one(*STRINGS), left)
        return self.binary("+", left, self.exact(other, here, depth))

    def test_of_objects(self, here, depth):
        name = self.one(*self.types)
        left = self.exact(self.one(name, "Object"), here, depth)
        if self.is_likely(0.5):
            below = [each for each in self.types if self.is_below(each, name)]
            return code(COMPARE, "%s instanceof %s" % (at(SHIFT, left), self.one(*below)))
        return self.binary(self.one("==", "!="), left, self.one("null", self.exact(name, here, depth)))

    def of_strings(self, kind, here, depth):
        of = self.exact("String", here, depth)
        of = at(PRIMARY, of if kind not in ("char", "String") or self.is_likely(0.06) else code(PLUS, "%s + %s" % (self.one('"ab"', '"Σx"'), at(TIMES, of))))
        if kind == "int":
            return of + self.one(".length()", ".length()", ".hashCode()", ".compareTo(%s)" % self.exact("String", here, depth))
        if kind == "char":
            return "%s.charAt(%s)" % (of, self.index(here, depth))
        if kind == "boolean":
            return "%s.equals(%s)" % (of, self.one(self.exact("String", here, depth), self.fitting("Object", here, depth)))
        if kind == "String" and self.is_likely(0.4):
            return at(PRIMARY, self.exact(self.one(*self.types), here, depth)) + ".toString()"
        if kind == "String":
            return self.one("%s.substring(%s)" % (of, self.index(here, depth)), "%s.substring(%s, %s)" % (of, self.index(here, depth), self.one("1", "2", self.index(here, depth))))
        return None

    # Calls and what is made.

    def called(self, kind, here, depth):
        """A call whose result has the very type, or any where no type is asked for."""
        found = []
        wanted = lambda each: (kind is None or each.type == kind) and self.is_handled(each.throws, here)
        if here.owner.name in self.types:
            own = self.methods_of(here.owner.name, here.owner)
            found += [("", own, each) for each in own if wanted(each) and (here.has_this or each.is_static)]
            if here.has_this:
                found += [("this.", own, each) for each in own if wanted(each)]
                above = self.methods_of(here.owner.above, None) if here.owner.above else []
                found += [("super.", above, each) for each in above if wanted(each) and not each.is_abstract] * 2
        for name in self.types:
            members = self.methods_of(name, here.owner)
            found += [(name + ".", members, each) if each.is_static and self.is_likely(0.7) else (name, members, each) for each in members if wanted(each)]
        if not found:
            return None
        receiver, members, each = self.one(*found)
        if receiver in self.types:
            receiver = at(PRIMARY, self.exact(receiver, here, depth)) + "."
        candidates = [other for other in members if other.name == each.name]
        return "%s%s(%s)" % (receiver, each.name, self.arguments(candidates, each, here, depth))

    def arguments(self, candidates, each, here, depth):
        for _ in range(3):
            kinds = [self.lower(kind) if self.is_likely(0.4) else kind for kind in each.params]
            if self.chosen(candidates, kinds) is each:
                break
        else:
            kinds = each.params
        if len(candidates) == 1:
            return ", ".join(self.fitting(kind, here, depth) for kind in kinds)
        return ", ".join(self.exact(kind, here, depth) for kind in kinds)

    def lower(self, kind):
        return self.one(*[each for each in [*PRIMITIVES, "String", *self.types] if self.is_below(each, kind)], kind)

    def made(self, kind, here, depth):
        """A new object or array."""
        if kind.endswith("[]"):
            return self.made_array(kind, here, depth)
        if kind.startswith("Box<"):
            item = self.fitting(kind[4:-1], here, depth)
            return self.one("new %s()" % kind, "new %s(%s)" % (kind, item), *(['new Text(%s)' % item] if kind == "Box<String>" else []))
        if kind == "Integer":
            return "new Integer(%s)" % self.exact("int", here, depth)
        if kind not in self.types:
            return None
        of = self.types[kind]
        most = here.owner.number if not here.is_guarded and here.owner.name in self.types else 99
        usable = [each for each in of.constructors if each.access != "private " or of is here.owner]
        if of.is_interface or of.is_abstract or of.number >= most or not usable:
            below = [each.name for each in self.types.values() if each.name != kind and self.is_below(each.name, kind) and not each.is_abstract
                     and not each.is_interface and each.number < most]
            text = self.made(self.one(*below), here, depth) if below else None
            return code(UNARY, "(%s) %s" % (kind, at(UNARY, text))) if text else None
        made = self.one(*usable)
        value = self.fitting if len(usable) == len(of.constructors) == 1 else self.exact
        return "new %s(%s)" % (kind, ", ".join(value(each, here, depth) if depth > 0 else self.short(each) for each in made.params))

    def short(self, kind):
        return {"int": "3", "long": "3L", "char": "'z'", "boolean": "false"}.get(kind, '"p"' if kind == "String" else "(%s) null" % kind)

    def made_array(self, kind, here, depth):
        if "<" in kind:
            return None
        inner = kind[:-2]
        low = self.one(*[each for each in ["String", *self.types] if self.is_below(each, inner)], inner) if self.is_likely(0.4) else inner
        if low != inner and self.is_likely(0.8):
            return code(UNARY, "(%s) %s" % (kind, self.made_array(low + "[]", here, depth)))
        if self.is_likely(0.65 if inner in PRIMITIVES else 0.9):
            return code(MADE, "new %s[] %s" % (inner, self.items(inner, here, depth)))
        leaf, dims = kind.replace("[]", ""), kind.count("[]")
        sizes = ["[%s]" % self.size(here, depth) for _ in range(self.one(*range(1, dims + 1)))]
        return code(MADE, "new %s%s%s" % (leaf, "".join(sizes), "[]" * (dims - len(sizes))))

    def items(self, inner, here, depth):
        if inner.endswith("[]"):
            found = [self.items(inner[:-2], here, depth - 1) for _ in range(self.one(1, 2, 2))]
        else:
            found = [self.fitting(inner, here, min(depth - 1, 1)) for _ in range(self.one(1, 2, 2, 3))]
        return "{ %s%s }" % (", ".join(found), self.one("", "", ","))
