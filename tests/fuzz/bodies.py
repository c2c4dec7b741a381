"""Random programs with bodies of every form, well typed for the most part; spoils.py breaks them.

A program is planned first: its types with their fields, methods and constructors. Then the bodies are written by the types that
are wanted, from what the plan has in reach. Types are their texts here. What is broken in the end, the maker need not know.
"""
import os
import re
from dataclasses import dataclass, field

LIBRARY = os.path.join(os.path.dirname(os.path.abspath(__file__)), "..", "..", "crates", "jgen", "data")
PRIMITIVES = ["int", "long", "char", "boolean"]
WIDER = {"char": ["int", "long"], "int": ["long"]}
FAULTS = ["Exception", "Throwable", "RuntimeException", "Error", "ArithmeticException", "NullPointerException"]

BOX = """package box;
public class Box<T> {
  public T item;
  public Box<T> next;
  private final T first;
  public static int made = 1;
  public Box() { first = null; }
  public Box(T t) { first = t; item = t; made++; }
  public T get() { return item; }
  public T put(T t) { T old = item; item = t; return old; }
  public Box<T> link(Box<T> b) { next = b; if (b == null) return this; return next; }
  public boolean same(Object o) { return o == item || first == o; }
  public int pick(T t, Object o) { return 1; }
  public T pick(T t, String s) { return (T) s; }
  public static int count(Box b) { int n = 0; while (b != null) { b = b.next; n++; } return n; }
}
"""
FUN = """package box;
public interface Fun<S, T> { int SIZE = 3; T of(S s); Box<T> all(Box<S> b); }
"""
TEXT = """package box;
public class Text extends Box<String> {
  public Text(String s) { super(s); }
  public String get() { return super.get() + item; }
  public int length() { return get().length(); }
}
"""

# the members that the maker uses of types that it does not plan: name, parameters, result; E stands for the argument
KNOWN = {
    "String": "length::int charAt:int:char substring:int:String substring:int,int:String compareTo:String:int equals:Object:boolean hashCode::int",
    "Object": "toString::String equals:Object:boolean hashCode::int",
    "List": "get:int:E set:int,E:E remove:int:E size::int isEmpty::boolean contains:Object:boolean add:E:boolean remove:Object:boolean "
            "iterator::Iterator<E> indexOf:Object:int clear::void",
    "Iterator": "hasNext::boolean next::E remove::void",
    "Map": "get:Object:E put:String,E:E containsKey:Object:boolean size::int",
    "Integer": "intValue::int hashCode::int", "StringBuilder": "append:int:StringBuilder append:Object:StringBuilder append:char:StringBuilder "
                                                              "append:boolean:StringBuilder length::int toString::String",
    "Box": "get::E put:E:E link:Box<E>:Box<E> same:Object:boolean pick:E,String:E pick:E,Object:int", "Text": "get::String length::int put:String:String",
    "Throwable": "getMessage::String toString::String",
}
ABOVE = {"ArrayList": "List", "List": "Collection", "Collection": "Iterable", "HashMap": "Map"}


@dataclass
class Member:
    """A field, a method or a constructor. The type of a constructor is its class."""
    name: str
    type: str
    params: list = None
    mods: list = field(default_factory=list)
    throws: list = field(default_factory=list)
    value: str = ""
    body: str = ""
    owner: object = None

    def is_static(self):
        return "static" in self.mods or self.owner.is_interface and self.params is None


@dataclass
class Planned:
    name: str
    is_interface: bool = False
    mods: list = field(default_factory=list)
    above: str = "Object"
    faces: list = field(default_factory=list)
    fields: list = field(default_factory=list)
    methods: list = field(default_factory=list)
    constructors: list = field(default_factory=list)


@dataclass
class Here:
    """Where a body stands: its type, what it may use, and the locals in scope as (name, type, is final)."""
    owner: Planned
    has_this: bool
    result: str = "void"
    handled: list = field(default_factory=list)
    locals: list = field(default_factory=list)
    loops: int = 0
    exits: int = 0
    count: int = 0
    reach: list = None
    in_finally: bool = False


class Maker:
    def __init__(self, chance, for_javac=False):
        self.chance = chance
        self.for_javac = for_javac
        self.has_library = chance.random() < 0.5
        self.types = {}
        self.most = chance.choice([1, 2, 2, 3])
        self.numbers = 0

    def one(self, *things):
        return self.chance.choice(things)

    def is_likely(self, share):
        return self.chance.random() < share

    # The plan.

    def plan(self):
        self.types["X"] = Planned("X", above="Exception")
        self.types["Y"] = Planned("Y", above=self.one("X", "X", "RuntimeException"))
        names = "ABCD"[:self.one(1, 2, 2, 3, 4)]
        if self.is_likely(0.5):
            self.types["I"] = Planned("I", True)
        if self.is_likely(0.25):
            self.types["J"] = Planned("J", True, faces=["I"] if "I" in self.types else [])
        for n, name in enumerate(names):
            made = Planned(name, mods=self.one([], [], [], ["abstract"], ["final"]))
            open_ones = [each for each in names[:n] if "final" not in self.types[each].mods]
            if open_ones and self.is_likely(0.6):
                made.above = self.one(*open_ones)
            made.faces = [each for each in "IJ" if each in self.types and self.is_likely(0.4)]
            self.types[name] = made
        for each in self.types.values():
            self.plan_members(each)

    def plan_members(self, of):
        is_fault = of.name in "XY"
        for n in range(self.one(0, 1, 2, 3) if not is_fault else self.one(0, 0, 1)):
            self.plan_field(of, n)
        for n in range(self.one(1, 1, 2, 3) if not is_fault else 0):
            self.plan_method(of, "m%s%d" % (of.name.lower(), n))
        if self.is_likely(0.3) and not is_fault:
            kinds = self.chance.sample(["int", "long", "Object", "String", "char", "int,long", "Object,String", "A", "int[]"], 3)
            for kind in kinds:
                mods = [] if of.is_interface else self.one([], ["static"], ["public"])
                of.methods.append(Member("o" + of.name.lower(), self.one("int", "String", "void"), kind.split(","), mods, owner=of))
        if not of.is_interface:
            self.plan_overriding(of)
            self.plan_constructors(of)

    def plan_field(self, of, n):
        mods = [] if of.is_interface else self.one([], [], [], ["private"], ["public"], ["protected"])
        if not of.is_interface:
            mods = mods + self.one([], [], [], ["static"], ["final"], ["static", "final"])
        name = "f%s%d" % (of.name.lower(), n) if not self.is_likely(0.08) else "f"
        if all(each.name != name for each in of.fields):
            of.fields.append(Member(name, self.kind(), None, mods, owner=of))

    def plan_method(self, of, name):
        mods = [] if of.is_interface else self.one([], [], [], ["public"], ["private"], ["protected"], ["final"])
        if not of.is_interface:
            mods = mods + self.one([], [], [], ["static"])
        if "abstract" in of.mods and not set(mods) & {"private", "static", "final"} and self.is_likely(0.4):
            mods = mods + ["abstract"]
        params = [self.kind() for _ in range(self.one(0, 1, 1, 2, 3))]
        throws = self.one([], [], [], ["X"], ["Exception"], ["Y"], ["X", "RuntimeException"], ["Throwable"])
        of.methods.append(Member(name, self.one("void", self.kind(), self.kind()), params, mods, throws, owner=of))

    def plan_overriding(self, of):
        """The abstract members of the types above, and some others."""
        seen = {(each.name, tuple(each.params)) for each in of.methods}
        for each in self.members_above(of):
            key = (each.name, tuple(each.params))
            is_open = each.owner.is_interface or "abstract" in each.mods
            if key in seen or set(each.mods) & {"private", "static", "final"} or not (is_open or self.is_likely(0.2)):
                continue
            if is_open and any((other.name, tuple(other.params)) == key and not other.owner.is_interface and "abstract" not in other.mods
                               for other in self.members_above(of)):
                continue
            seen.add(key)
            of.methods.append(Member(each.name, each.type, each.params, ["public"], each.throws[:self.one(0, 1, 1)], owner=of))

    def members_above(self, of):
        found = []
        for name in [of.above, *of.faces]:
            if name in self.types:
                found += self.types[name].methods + self.members_above(self.types[name])
        return found

    def plan_constructors(self, of):
        if of.name in "XY":
            of.constructors = [Member(of.name, of.name, [], owner=of), Member(of.name, of.name, ["String"], owner=of)]
            return
        lists = self.one([], [], [[]], [[], ["int"]], [["String"]], [[self.kind()], []], [["int"], ["long"], ["Object"]])
        mods = self.one([], [], ["public"], ["private"] if len(lists) > 1 else [])
        above = self.types[of.above].constructors if of.above in self.types else []
        if above and not lists:
            lists = [[]]
        must_throw = above and all(each.throws for each in above if "private" not in each.mods)
        for n, params in enumerate(lists):
            throws = ["X"] if must_throw else self.one([], [], [], ["X"])
            of.constructors.append(Member(of.name, of.name, params, mods if n else [], throws, owner=of))

    # Types.

    def classes(self):
        return [each for each in self.types if each not in "XY"]

    def kind(self):
        """A random type."""
        way = self.chance.random()
        if way < 0.4:
            return self.one("int", "int", "boolean", "char", "long")
        if way < 0.55:
            return self.one("String", "Object")
        if way < 0.68:
            return self.one("int[]", "String[]", "char[]", "int[][]", "Object[]", self.one(*"ABI") + "[]" if self.types.keys() >= set("ABI") else "long[]")
        if way < 0.82 and self.has_library:
            return self.library_kind()
        return self.one(*(self.classes() or ["String"]), self.one("X", "Y"))

    def library_kind(self):
        arg = self.one("String", "Object", *self.classes(), "Integer")
        return self.one("List<%s>" % arg, "List<%s>" % arg, "ArrayList<%s>" % arg, "List", "Integer", "StringBuilder", "Box<%s>" % arg, "Box<%s>" % arg, "Box",
                        "Map<String, %s>" % arg, "Text", "Iterator<%s>" % arg, "Fun<String, %s>" % arg)

    def is_below(self, low, high):
        """Whether a value of a type may stand where another is wanted, as far as the maker has to know."""
        if low == high:
            return True
        if low in PRIMITIVES or high in PRIMITIVES:
            return high in WIDER.get(low, [])
        if high == "Object":
            return True
        if low.endswith("[]") and high.endswith("[]"):
            return low[:-2] not in PRIMITIVES and high[:-2] not in PRIMITIVES and self.is_below(low[:-2], high[:-2])
        head, _, args = low.partition("<")
        if args and high == head:
            return True
        if head in ABOVE:
            return self.is_below(ABOVE[head] + ("<" + args if args else ""), high)
        if low in self.types:
            of = self.types[low]
            return any(self.is_below(each, high) for each in [of.above, *of.faces] if each != "Object")
        chain = {"Text": "Box<String>", "Exception": "Throwable", "Error": "Throwable", "RuntimeException": "Exception",
                 "ArithmeticException": "RuntimeException", "NullPointerException": "RuntimeException"}
        return low in chain and self.is_below(chain[low], high)

    def all_fields(self, name, own=True):
        """The fields that a class has."""
        if name not in self.types:
            return []
        of = self.types[name]
        found = [each for each in of.fields if own or "private" not in each.mods]
        for above in [of.above, *of.faces]:
            found += [each for each in self.all_fields(above, False) if all(each.name != other.name for other in found)]
        return found

    def all_methods(self, kind, own=True):
        """The methods that a type has, as (name, parameters, result, member or None)."""
        head, _, args = kind.partition("<")
        if head in self.types:
            of = self.types[head]
            found = [(each.name, each.params, each.type, each) for each in of.methods if own or "private" not in each.mods]
            for above in [of.above, *of.faces]:
                found += self.all_methods(above, False) if above in self.types else []
            return found
        head = ABOVE.get(head, head) if head not in KNOWN else head
        if kind.endswith("[]") or head not in KNOWN:
            return []
        item = args.rstrip(">").split(", ")[-1] if args else "Object"
        return [(name, [each.replace("E", item) if each in ("E", "Box<E>") else each for each in params.split(",") if each],
                 result.replace("E", item) if "<E>" in result or result == "E" else result, None)
                for name, params, result in (each.split(":") for each in KNOWN[head].split())]

    # Values.

    def value(self, kind, here, depth=None):
        """The text of a value that fits a type."""
        depth = self.most if depth is None else depth
        if depth > 0 and self.is_likely(0.8):
            for _ in range(4):
                found = self.one(self.local_value, self.member_value, self.call_value, self.operator_value, self.operator_value, self.mixed_value,
                                 self.made_value)(kind, here, depth - 1)
                if found is not None:
                    return found
        return (self.is_likely(0.6) and self.local_value(kind, here, 0)) or self.simple_value(kind, here)

    def simple_value(self, kind, here):
        if kind == "int":
            return self.one("0", "1", "2", "7", "10", "0x1F", "017", "2147483647", "-2147483648", "'a'" if not self.for_javac else "3")
        if kind == "long":
            return self.one("0L", "1L", "9223372036854775807L", "-9223372036854775808L", "0xFFL", "5", "0777777L")
        if kind == "char":
            return self.one("'a'", "'b'", "'\\n'", "'\\''", "'\\101'")
        if kind == "boolean":
            return self.one("true", "false")
        if kind == "String":
            return self.one('"a"', '"text"', '""', '"\\t"', "null", '"b" + 1')
        return "null" if self.is_likely(0.5) else self.made_value(kind, here, 0) or "null"

    def local_value(self, kind, here, depth):
        fitting = [name for name, own, _ in here.locals if self.is_below(own, kind)]
        if here.has_this and self.is_below(here.owner.name, kind) and self.is_likely(0.5):
            fitting.append("this")
        return self.one(*fitting) if fitting else None

    def usable_fields(self, kind, here):
        fitting = []
        for each in self.all_fields(here.owner.name):
            if here.reach is not None and each.owner is here.owner and each not in here.reach:
                continue
            if kind is None or self.is_below(each.type, kind):
                if each.is_static():
                    fitting += [(each.name, each), (each.owner.name + "." + each.name, each)]
                elif here.has_this:
                    fitting += [(each.name, each), ("this." + each.name, each)] + ([("super." + each.name, each)] if each.owner is not here.owner and not each.owner.is_interface else [])
        return [(text, each) for text, each in fitting if all(each.name != name for name, _, _ in here.locals) or "." in text]

    def member_value(self, kind, here, depth):
        fitting = [text for text, _ in self.usable_fields(kind, here)]
        for name, own, _ in here.locals:
            fitting += ["%s.%s" % (name, each.name) for each in self.all_fields(own, own == here.owner.name) if self.is_below(each.type, kind)]
            if own.endswith("[]"):
                if self.is_below(own[:-2], kind):
                    fitting.append("%s[%s]" % (name, self.value(self.one("int", "int", "char"), here, depth)))
                if self.is_below("int", kind):
                    fitting.append(name + ".length")
            if own.startswith("Box<") and self.is_below(own[4:-1], kind):
                fitting.append(name + ".item")
        return self.one(*fitting) if fitting else None

    def call_value(self, kind, here, depth, is_void=False):
        """A call whose result fits; of a void method, where that is asked for."""
        found = []
        receivers = [("", here.owner.name)] + [(name + ".", own) for name, own, _ in here.locals]
        receivers += [(name + ".", name) for name in self.types] + ([("super.", here.owner.above)] if here.has_this else [])
        for text, own in receivers:
            for name, params, result, member in self.all_methods(own, own == here.owner.name and text != "super."):
                is_static = member is not None and member.is_static()
                if not is_static and (text == "" and not here.has_this or text[:-1] == own and own in self.types):
                    continue
                if text == "super." and (member is None or "abstract" in member.mods or member.owner.is_interface):
                    continue
                if text == "" and member is None or not self.is_handled(member.throws if member else [], here):
                    continue
                if (is_void and self.is_likely(0.7 if result == "void" else 0.2)) or not is_void and result != "void" and self.is_below(result, kind):
                    found.append((text + name, params))
        if not found:
            return None
        name, params = self.one(*found)
        is_overloaded = re.search(r"\b(o[abcdij]|pick|remove|append)$", name)
        value = self.typed if is_overloaded else self.value
        return "%s(%s)" % (name, ", ".join(value(each, here, depth) for each in params))

    def is_handled(self, throws, here):
        return all(self.is_below(each, "RuntimeException") or each == "Error" or any(self.is_below(each, other) for other in here.handled) for each in throws)

    def operator_value(self, kind, here, depth):
        value = lambda of: self.tight(of, here, depth)
        if kind in ("int", "long"):
            other = self.one(kind, kind, "int", "char")
            return self.one(
                lambda: "%s %s %s" % (value(kind), self.one("+", "-", "*", "/", "%", "&", "|", "^"), value(other)),
                lambda: "%s %s %s" % (value(kind), self.one("<<", ">>", ">>>"), value(self.one("int", "long", "char"))),
                lambda: "%s%s" % (self.one("-", "+", "~"), value(kind)))()
        if kind == "boolean":
            number = self.one("int", "long", "char")
            return self.one(
                lambda: "%s %s %s" % (value(number), self.one("<", ">", "<=", ">=", "==", "!="), value(self.one(number, "int"))),
                lambda: "%s %s %s" % (value("boolean"), self.one("&&", "||", "&", "|", "^", "==", "!="), value("boolean")),
                lambda: "!" + value("boolean"), lambda: self.reference_test(here, depth), lambda: self.reference_test(here, depth))()
        if kind == "String":
            return self.one(lambda: "%s + %s" % (self.words(here, depth), value(self.kind())), lambda: "%s + %s" % (value(self.kind()), self.words(here, depth)))()
        return None

    def reference_test(self, here, depth):
        own = self.one(*[each for _, each, _ in here.locals if each not in PRIMITIVES], "Object", "String")
        other = self.one(own, "Object", own.partition("<")[0])
        left = self.typed(own, here, depth)
        if self.is_likely(0.5):
            return "%s instanceof %s" % (left, self.one(own.partition("<")[0], "Object", *(self.classes() if own == "Object" else [])))
        return "%s %s %s" % (left, self.one("==", "!="), self.one("null", self.typed(other, here, depth)))

    def typed(self, kind, here, depth):
        """A value of the very type."""
        text = self.tight(kind, here, depth)
        own = [other for name, other, _ in here.locals if name == text]
        return text if own == [kind] else "(%s) %s" % (kind, text)

    def words(self, here, depth):
        """A value of type String that is not null."""
        text = self.tight("String", here, depth)
        return '"n"' if "null" in text else text

    def tight(self, kind, here, depth):
        """A value that may stand beside an operator."""
        text = self.value(kind, here, depth)
        return text if text.replace("_", "").replace(".", "").isalnum() else "(%s)" % text

    def mixed_value(self, kind, here, depth):
        """Casts, conditionals, assignments, steps and brackets."""
        way = self.chance.randrange(6)
        if way == 0:
            if kind in PRIMITIVES:
                return "(%s) %s" % (kind, self.tight(kind if kind == "boolean" else self.one("int", "long", "char"), here, depth))
            return "(%s) %s" % (kind, self.one(self.tight(kind, here, depth), "(Object) " + self.tight("Object", here, depth)))
        if way == 1:
            return "%s ? %s : %s" % (self.tight("boolean", here, depth), self.exact(kind, here, depth), self.exact(kind, here, depth))
        if way == 2:
            return "(%s)" % self.value(kind, here, depth)
        targets = [(text, own) for text, own, _ in self.targets(here) if self.is_below(own, kind)]
        if not targets:
            return None
        text, own = self.one(*targets)
        if own in ("int", "long", "char") and way == 3:
            return self.one(text + "++", text + "--", "++" + text, "--" + text)
        if own in ("int", "long", "boolean", "String") and way == 4:
            return "(%s)" % self.compound(text, own, here, depth)
        return "(%s = %s)" % (text, self.value(own, here, depth))

    def exact(self, kind, here, depth):
        """An arm: of numbers and truth values the very type."""
        if kind in PRIMITIVES:
            return self.one("(%s) %s" % (kind, self.tight(kind, here, depth)), self.local_of(kind, here) or self.literal(kind))
        return self.one("null", self.local_of(kind, here) or "null", self.typed(kind, here, depth))

    def literal(self, kind):
        return {"int": "4", "long": "4L", "char": "'c'", "boolean": "true"}[kind]

    def local_of(self, kind, here):
        own = [name for name, other, _ in here.locals if other == kind]
        return self.one(*own) if own else None

    def compound(self, text, own, here, depth):
        if own == "String":
            return "%s += %s" % (text, self.value(self.kind(), here, depth))
        if own == "boolean":
            return "%s %s= %s" % (text, self.one("&", "|", "^"), self.value("boolean", here, depth))
        return "%s %s= %s" % (text, self.one("+", "-", "*", "/", "%", "<<", ">>", ">>>", "&", "|", "^"), self.value(self.one("int", "long", "char"), here, depth))

    def targets(self, here):
        """What may be assigned: (text, type, is a local)."""
        found = [(name, own, True) for name, own, is_final in here.locals if not is_final]
        found += [(text, each.type, False) for text, each in self.usable_fields(None, here) if "final" not in each.mods and not each.owner.is_interface]
        found += [("%s[%s]" % (name, self.one("0", "1")), own[:-2], False) for name, own, _ in here.locals if own.endswith("[]")]
        return found

    def made_value(self, kind, here, depth):
        """A new object or array, or None where the maker knows none."""
        if kind.endswith("[]"):
            return self.made_array(kind, here, depth)
        head, _, args = kind.partition("<")
        args = "<" + args if args else ""
        if head in ("List", "Collection", "ArrayList"):
            return "new ArrayList%s()" % args
        if head in ("Map", "HashMap"):
            return "new HashMap%s()" % args
        if head == "Box":
            item = args[1:-1] or "Object"
            return self.one("new Box%s()" % args, "new Box%s(%s)" % (args, self.value(item, here, depth) if depth > 0 else "null"))
        if kind in ("Integer", "Text", "StringBuilder", "Object"):
            return {"Integer": "new Integer(%s)" % self.value("int", here, 0), "Text": 'new Text("t")'}.get(kind, "new %s()" % kind)
        fitting = [each for each in self.types if self.is_below(each, kind) and not self.types[each].is_interface and "abstract" not in self.types[each].mods]
        if not fitting:
            return None
        of = self.types[self.one(*fitting)]
        usable = [each for each in of.constructors if ("private" not in each.mods or of is here.owner) and self.is_handled(each.throws, here)]
        if of.constructors and not usable:
            return None
        params = self.one(*usable).params if usable else []
        return "new %s(%s)" % (of.name, ", ".join(self.value(each, here, depth - 1) if depth > 0 else self.plainest(each) for each in params))

    def plainest(self, kind):
        return {"int": "3", "long": "3L", "char": "'z'", "boolean": "false"}.get(kind, '"p"' if kind == "String" else "(%s) null" % kind)

    def made_array(self, kind, here, depth):
        leaf, dims = kind.replace("[]", ""), kind.count("[]")
        if "<" in leaf:
            return None
        if self.is_likely(0.5):
            return "new %s %s" % (kind, self.items(kind, here, depth))
        first = "new %s[%s]" % (leaf, self.value(self.one("int", "int", "char"), here, 0))
        return first + "".join(self.one("[]", "[]") if n else self.one("[]", "[2]") for n in range(dims - 1))

    def items(self, kind, here, depth):
        inner = kind[:-2]
        found = [self.items(inner, here, depth - 1) if inner.endswith("[]") and self.is_likely(0.6) else self.value(inner, here, min(depth, 1))
                 for _ in range(self.one(0, 1, 2, 2))]
        return "{ %s%s }" % (", ".join(found), self.one("", ",") if found else "")
