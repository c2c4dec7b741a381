"""Random programs with many declared uses of classes: fields, parameters, results, locals, arrays, arguments of library types, loops over
them, conditionals, overloads, methods that override, hide, or are inherited together.

A value is written for a type that it should fit, more or less; `program` lets checked.py say which lines break a rule, and takes them out.
Each method first asks `T.out()`, so that a program ends. What it prints hangs on no number of an object.
"""
import os
import re
from dataclasses import dataclass, field

import kept
from acts import Program
from bodies import LIBRARY

SHIPPED = ["lang.java", "util.java"]
TRACE = """class T {
  static int fuel;
  static boolean out() { return --fuel < 0; }
  static void say(String s) { System.out.println(s); }
  static String show(Object v) {
    if (v instanceof Object[]) return "array" + ((Object[]) v).length;
    if (v instanceof int[]) return "ints";
    return v instanceof Iterator ? "iterator" : "" + v;
  }
  static String told(Throwable e) {
    if (e instanceof NullPointerException) return "null";
    if (e instanceof ClassCastException) return "cast";
    if (e instanceof ArrayStoreException) return "store";
    if (e instanceof IndexOutOfBoundsException) return "index";
    return e instanceof RuntimeException ? "runtime" : "other";
  }
}
"""
LIB = """public interface Key { }
public class Root {
  public Object made() { return "made"; }
  public Key key() { return null; }
  public Object take(Object o) { System.out.println("Root.take"); return o; }
  public int hashCode() { return 7; }
  public String toString() { return "Root"; }
}
public interface Source<T> { T get(); }
public interface Sink<T> { void sink(T t); }
public class Cell<T> implements Source<T>, Sink<T> {
  public T item;
  public static int made;
  public Cell() { made++; }
  public Cell(T t) { item = t; }
  public Cell(T t, int n) { item = t; made = n; }
  public Cell(T t, Key k) { item = t; }
  public T get() { return item; }
  public T put(T t) { T old = item; item = t; return old; }
  public void sink(T t) { item = t; System.out.println("sink"); }
  public void take(T t) { item = t; System.out.println("take item"); }
  public void take(Key k) { System.out.println("take key"); }
  public Cell<T> same() { return this; }
  public T first(T[] a) { return a[0]; }
  public void all(Collection<T> c) { for (T t : c) { item = t; System.out.println("all"); } }
  public void all(T t) { System.out.println("all of one"); }
  public String toString() { return "Cell(" + item + ")"; }
}
public class Pair<A, B> {
  public A left;
  public B right;
  public Pair(A a, B b) { left = a; right = b; }
  public Pair<B, A> turned() { return new Pair<B, A>(right, left); }
  public Pair<A, B> with(A a) { return new Pair<A, B>(a, right); }
  public B right() { return right; }
  public String toString() { return "Pair"; }
}
public class Twin<T> extends Pair<T, T> {
  public Twin(T a, T b) { super(a, b); }
  public T one(boolean first) { return first ? left : right; }
}
"""
FACES = ["J", "K", "L"]
CLASSES = "ABCDE"
PLAIN = ["int", "boolean", "String"]
GENERIC = {"List": 1, "ArrayList": 1, "Collection": 1, "Iterator": 1, "Map": 2, "HashMap": 2, "Cell": 1, "Source": 1, "Sink": 1, "Pair": 2, "Twin": 1}
ABOVE = {"ArrayList<%s>": ["List<%s>"], "List<%s>": ["Collection<%s>"], "Cell<%s>": ["Source<%s>", "Sink<%s>"]}


@dataclass
class Method:
    name: str
    params: list
    result: str
    is_static: bool = False
    access: str = "public "
    is_abstract: bool = False

    def key(self):
        return self.name, tuple(self.params)


@dataclass
class Planned:
    name: str
    is_interface: bool = False
    is_abstract: bool = False
    is_final: bool = False
    above: str = ""
    faces: list = field(default_factory=list)
    fields: list = field(default_factory=list)
    methods: list = field(default_factory=list)
    constructors: list = field(default_factory=list)


@dataclass
class Here:
    """Where a body stands: its class, whether it has this, its result, and the locals, as (name, type)."""
    owner: object
    has_this: bool
    result: str
    locals: list


class Maker:
    def __init__(self, chance):
        self.chance = chance
        self.types = {}
        self.numbers = 0
        self.has_lib = self.is_likely(0.7)

    def one(self, *things):
        return self.chance.choice(things)

    def is_likely(self, share):
        return self.chance.random() < share

    def name(self):
        self.numbers += 1
        return "x%d" % self.numbers

    # Types.

    def reference(self):
        """The name of a class or interface, a class for the most part."""
        return self.one(*[each for each in self.types for _ in range(1 if self.types[each].is_interface else 3)])

    def kind(self):
        way = self.chance.random()
        if way < 0.55:
            return self.reference()
        if way < 0.63:
            return self.one("Object", "Object", *(["Key", "Root"] if self.has_lib else []))
        if way < 0.68:
            return self.one(*PLAIN)
        if way < 0.8:
            return self.one(self.reference(), self.reference(), "Object") + self.one("[]", "[]", "[]", "[][]")
        return self.generic()

    def generic(self):
        heads = [each for each in GENERIC if self.has_lib or each not in ("Cell", "Source", "Sink", "Pair", "Twin")]
        head = self.one(*heads)
        return "%s<%s>" % (head, ", ".join(self.one(self.reference(), self.reference(), self.reference(), "String", "Object") for _ in range(GENERIC[head])))

    def is_below(self, low, high):
        if low == high or low == "null" or high == "Object" and low not in ("int", "boolean"):
            return True
        if low.endswith("[]") and high.endswith("[]"):
            return self.is_below(low[:-2], high[:-2])
        if low in self.types:
            of = self.types[low]
            return any(self.is_below(each, high) for each in [of.above, *of.faces] if each)
        head, _, rest = low.partition("<")
        if rest and "[" not in low:
            inner = rest[:-1]
            above = {"ArrayList": ["List"], "List": ["Collection"], "Cell": ["Source", "Sink"], "HashMap": ["Map"]}.get(head, [])
            above = ["%s<%s>" % (each, inner) for each in above] + (["Pair<%s, %s>" % (inner, inner)] if head == "Twin" else [])
            return any(self.is_below(each, high) for each in above)
        return False

    # The plan.

    def plan(self):
        for n, name in enumerate(FACES[:self.one(0, 1, 2, 2, 3)]):
            faces = [each for each in FACES[:n] if self.is_likely(0.4)]
            self.types[name] = Planned(name, is_interface=True, faces=faces)
        faces = list(self.types)
        for n, name in enumerate(CLASSES[:self.one(2, 3, 3, 4, 5)]):
            above = self.one("", *CLASSES[:n], *CLASSES[:n])
            if not above:
                above = self.one("", "", "", "", "RuntimeException", *(["Root"] if self.has_lib else []))
            of = Planned(name, is_abstract=self.is_likely(0.15), above=above, faces=[each for each in faces if self.is_likely(0.3)])
            of.faces += ["Key"] if self.has_lib and self.is_likely(0.3) else []
            self.types[name] = of
        classes = [each for each in self.types.values() if not each.is_interface]
        for each in classes:
            has_below = any(other.above == each.name for other in classes)
            each.is_abstract = each.is_abstract and has_below
            each.is_final = not has_below and not each.is_abstract and self.is_likely(0.15)
        self.pool = [Method(name, self.kinds(), self.one("void", self.kind(), self.reference(), self.reference())) for name in ("on", "off", "pass", "swap")]
        for _ in range(3):
            self.pool.append(Method("over", self.one([self.reference()], [self.reference()], ["Object"], [self.generic()], [self.reference(), "Object"]), self.one("void", "int", self.reference())))
        if self.has_lib:
            self.pool += [Method("key", [], "Key"), Method("made", [], "Object"), Method("take", ["Object"], "Object")]
        self.still = [Method(name, self.kinds(), self.one("void", self.reference(), self.kind()), True) for name in ("st", "su")]
        for each in self.types.values():
            self.plan_members(each)

    def kinds(self):
        return [self.kind() for _ in range(self.one(0, 1, 1, 1, 2))]

    def plan_members(self, of):
        if of.is_interface:
            for like in self.chance.sample(self.pool[:7], self.one(1, 2, 3)):
                self.declare(of, like, True)
            return
        for n in range(self.one(0, 1, 2, 3)):
            of.fields.append(("f%s%d" % (of.name.lower(), n), self.kind(), self.is_likely(0.2)))
        for like in self.pool:
            if self.is_likely(0.4):
                self.declare(of, like, of.is_abstract and self.is_likely(0.3))
        for like in self.still:
            if self.is_likely(0.3):
                of.methods.append(Method(like.name, like.params, self.lowered(like.result) if self.is_likely(0.4) else like.result, True))
        if self.is_likely(0.3):
            of.methods.append(Method("own" + of.name, self.kinds(), self.kind(), access=self.one("", "private ", "public ")))
        if not of.is_abstract:
            for like in self.open_methods(of):
                self.declare(of, like, False)
        for params in self.chance.sample([[], [], [of.name], [self.reference()], [self.kind()], [self.kind(), self.kind()]], self.one(1, 1, 2, 3)):
            if params not in of.constructors:
                of.constructors.append(params)

    def declare(self, of, like, is_abstract):
        """A method of a signature, if the class has it not yet. Its result is at or below those of the methods above it."""
        if any(each.key() == like.key() for each in of.methods):
            return
        results = [each.result for each in self.found(of, like.key())] or [like.result]
        result = self.least(results)
        if self.is_likely(0.3):
            result = self.lowered(result)
        of.methods.append(Method(like.name, like.params, result, False, "public ", is_abstract))

    def least(self, results):
        return next((each for each in results if all(self.is_below(each, other) for other in results)), results[0])

    def lowered(self, kind):
        if kind.endswith("[]"):
            return self.lowered(kind[:-2]) + "[]"
        return self.one(kind, *[each for each in self.types if self.is_below(each, kind)])

    def found(self, of, key):
        """The methods of a signature above a type."""
        found = []
        for name in [of.above, *of.faces]:
            if name in self.types:
                found += [each for each in self.types[name].methods if each.key() == key] + self.found(self.types[name], key)
        roots = {("key", ()): "Key", ("made", ()): "Object", ("take", ("Object",)): "Object"}
        if of.above == "Root" and key in roots:
            found.append(Method(key[0], list(key[1]), roots[key]))
        return found

    def open_methods(self, of):
        """The abstract methods that a class has above itself and must declare."""
        keys = {}
        for name in [of.above, *of.faces]:
            if name in self.types:
                for each in self.all_methods(name):
                    keys.setdefault(each.key(), []).append(each)
        own = {each.key() for each in of.methods}
        return [group[0] for key, group in keys.items() if key not in own and all(each.is_abstract for each in group)]

    def all_methods(self, name):
        """The methods of a type and of those above it; those of a signature may come several times."""
        if name == "Root":
            return [Method("key", [], "Key"), Method("made", [], "Object"), Method("take", ["Object"], "Object")]
        if name not in self.types:
            return []
        of, found = self.types[name], []
        found += of.methods
        for above in [of.above, *of.faces]:
            found += self.all_methods(above) if above else []
        return found

    def all_fields(self, name):
        if name not in self.types:
            return []
        of = self.types[name]
        return of.fields + (self.all_fields(of.above) if of.above else [])

    # Values.

    def base(self, here):
        """Variables that stand for themselves, as (text, type)."""
        found = list(here.locals) * 2
        for name, kind, is_static in self.all_fields(here.owner.name):
            if is_static or here.has_this:
                found.append((name, kind))
            if here.has_this:
                found.append(("this." + name, kind))
        if here.has_this and here.owner.name in self.types:
            found.append(("this", here.owner.name))
        found += [("M." + name, kind) for name, kind, _ in self.shared]
        return found

    def further(self, text, kind, here, depth):
        """What a member of a value gives, as (text, type)."""
        value = lambda each: self.value(each, here, depth - 1)
        if kind.endswith("[]"):
            return text + "[%s]" % self.one("0", "0", "1"), kind[:-2]
        if kind in self.types:
            fields = [(text + "." + name, own) for name, own, _ in self.all_fields(kind)]
            calls = [each for each in self.all_methods(kind) if each.result != "void"]
            if fields and self.is_likely(0.3):
                return self.one(*fields)
            if calls:
                each = self.one(*calls)
                return "%s.%s(%s)" % (text, each.name, ", ".join(map(value, each.params))), each.result
            return None
        head, _, rest = kind.partition("<")
        if not rest:
            return None
        args = rest[:-1].split(", ")
        first, last = args[0], args[-1]
        one, pair = [first], [first, last]
        ways = {
            "List": [(".get(0)", [], first), (".iterator()", [], "Iterator<%s>" % first), (".set(0, %s)", one, first)],
            "ArrayList": [(".get(0)", [], first), (".remove(0)", [], first)],
            "Collection": [(".iterator().next()", [], first)], "Iterator": [(".next()", [], first)],
            "Map": [(".get(%s)", one, last), (".put(%s, %s)", pair, last)], "HashMap": [(".get(%s)", one, last)],
            "Cell": [(".item", [], first), (".get()", [], first), (".put(%s)", one, first), (".same()", [], kind), (".first(%s)", [first + "[]"], first)],
            "Source": [(".get()", [], first)],
            "Pair": [(".left", [], first), (".right", [], last), (".right()", [], last), (".turned()", [], "Pair<%s, %s>" % (last, first)), (".with(%s)", one, kind)],
            "Twin": [(".left", [], first), (".one(%s)", ["boolean"], first), (".turned()", [], "Pair<%s, %s>" % (first, first)), (".right()", [], first)],
        }.get(head)
        if not ways:
            return None
        more, kinds, own = self.one(*ways)
        return text + more % tuple(map(value, kinds)), own

    def stored(self, here, depth):
        """A random value that is read from variables, as (text, type)."""
        text, kind = self.one(*self.base(here))
        while depth > 0 and self.is_likely(0.4):
            found = self.further(text, kind, here, depth)
            if not found:
                break
            (text, kind), depth = found, depth - 1
        if here.owner.name in self.types and depth > 0 and self.is_likely(0.15):
            calls = [each for each in self.all_methods(here.owner.name) if each.result != "void" and (here.has_this or each.is_static)]
            if calls:
                each = self.one(*calls)
                return "%s%s(%s)" % (self.one("", "", "super.") if here.has_this else "", each.name, ", ".join(self.value(own, here, depth - 1) for own in each.params)), each.result
        return text, kind

    def value(self, kind, here, depth=2):
        """A value that fits a type, more or less."""
        if kind == "boolean":
            return self.test(here, depth)
        if kind == "int":
            return self.one("0", "1", "2", "T.fuel")
        way = self.chance.random()
        if way < 0.03 and kind != "Object":
            return "null"
        if depth <= 0 or way < 0.6:
            for _ in range(6):
                text, own = self.stored(here, depth)
                if self.is_below(own, kind):
                    return text
            return self.made(kind, here, depth)
        if way < 0.75:
            low = self.lowered(kind) if self.is_likely(0.3) else kind
            arms = [self.value(kind, here, depth - 1), self.one(self.value(low, here, depth - 1), self.value(kind, here, depth - 1), "null")]
            self.chance.shuffle(arms)
            return "(%s ? %s : %s)" % (self.test(here, depth - 1), *arms)
        if way < 0.82:
            below = self.one(kind, kind, "Object", *[each for each in self.types if self.is_below(kind, each)]) if "<" not in kind else self.widened(kind)
            return "((%s) %s)" % (kind, self.value(below, here, depth - 1))
        if way < 0.87:
            found = [text for text, own in here.locals if self.is_below(own, kind)]
            if found:
                name = self.one(*found)
                return "(%s = %s)" % (name, self.value(dict(here.locals)[name], here, depth - 1))
        if way < 0.9:
            return "(%s)" % self.value(kind, here, depth - 1)
        return self.made(kind, here, depth)

    def widened(self, kind):
        """A type with arguments from which a cast to another one is no unchecked cast."""
        head, _, rest = kind.partition("<")
        ways = {"List": ["Collection", "ArrayList"], "ArrayList": ["List", "Collection"], "HashMap": ["Map"], "Cell": ["Source", "Sink"], "Source": ["Cell", "Sink"], "Map": ["HashMap"]}
        return "%s<%s" % (self.one(head, *ways.get(head, [])), rest)

    def test(self, here, depth):
        way = self.chance.random()
        if way < 0.5 or depth <= 0:
            return self.one("true", "false", "T.fuel % 2 == 0")
        left, kind = self.stored(here, depth - 1)
        if kind in ("int", "boolean", "void"):
            return "T.fuel % 3 == 0"
        if way < 0.75:
            # javac looks at the arguments of types that are compared, jgen does not
            other, own = self.stored(here, depth - 1)
            return "%s %s %s" % (left, self.one("==", "!="), self.one("null", "null" if "<" in kind and "<" in own else other))
        if way < 0.9:
            return "%s instanceof %s" % (left, self.one(self.reference(), self.reference(), self.reference() + "[]"))
        return "%s.equals(%s)" % (left, self.value("Object", here, depth - 1))

    def made(self, kind, here, depth):
        """A new object, array or text."""
        if kind == "String":
            return self.one('"s"', '"t"', "T.show(%s)" % (self.stored(here, 0)[0] if depth > 0 else "null"))
        if kind == "Object":
            return self.one('"o"', self.made(self.reference(), here, depth))
        if kind == "Key":
            return self.made(self.one(*[each for each in self.types if self.is_below(each, "Key")], "String"), here, depth) if depth > 0 else "null"
        if kind == "Root":
            return "new Root()"
        if kind.endswith("[]"):
            return self.made_array(kind, here, depth)
        if kind in self.types:
            usable = [each for each in self.types.values() if self.is_below(each.name, kind) and not each.is_interface and not each.is_abstract]
            usable = [each for each in usable if not self.early or each.name < self.early]
            if not usable:
                return "(%s) null" % kind
            of = self.one(*usable)
            return "new %s(%s)" % (of.name, ", ".join(self.value(each, here, depth - 1) if depth > 0 else "null" if each not in PLAIN else self.value(each, here, 0) for each in self.one(*of.constructors)))
        head, _, rest = kind.partition("<")
        if not rest:
            return "null"
        args = rest[:-1].split(", ")
        if head in ("List", "ArrayList", "Collection"):
            return "new ArrayList<%s>()" % args[0]
        if head in ("Map", "HashMap"):
            return "new HashMap<%s>()" % ", ".join(args)
        value = lambda each: self.value(each, here, depth - 1) if depth > 0 else "null"
        if head in ("Cell", "Source", "Sink"):
            return "new Cell<%s>(%s)" % (args[0], self.one("", value(args[0]), value(args[0]) + ", 3", value(args[0])))
        if head == "Pair":
            return "new Pair<%s>(%s)" % (", ".join(args), ", ".join(map(value, args)))
        if head == "Twin":
            return "new Twin<%s>(%s, %s)" % (args[0], value(args[0]), value(args[0]))
        return "new ArrayList<%s>().iterator()" % args[0]

    def made_array(self, kind, here, depth):
        inner, dims = kind[:-2], kind.count("[]")
        if self.is_likely(0.5):
            return "new %s%s" % (kind.replace("[]", ""), "".join("[%s]" % self.one("1", "2", "3") for _ in range(dims)))
        low = self.lowered(inner)
        return "new %s[] { %s }" % (low, self.items(low, here, depth))

    def items(self, inner, here, depth):
        return ", ".join(self.value(inner, here, depth - 1) for _ in range(self.one(1, 1, 2)))

    # Statements; each gives lines.

    def block(self, here, size):
        count, found = len(here.locals), []
        for _ in range(size):
            found += self.statement(here)
        del here.locals[count:]
        return found

    def statement(self, here):
        return self.one(self.local, self.local, self.local, self.assign, self.assign, self.assign, self.call, self.call, self.library, self.library, self.if_, self.each, self.filled, self.say, self.say, self.try_, self.return_)(here)

    def local(self, here):
        name, kind = self.name(), self.kind()
        value = self.value(kind, here)
        here.locals.append((name, kind))
        if "<" not in kind and kind not in PLAIN and self.is_likely(0.15):
            other, third = self.name(), self.name()
            here.locals += [(other, kind), (third, kind + "[]")]
            return ["%s %s = %s, %s = %s, %s[] = { %s };" % (kind, name, value, other, name, third, self.items(kind, here, 1))]
        return ["%s%s %s = %s;" % (self.one("", "", "", "final "), kind, name, value)]

    def assign(self, here):
        for _ in range(6):
            text, kind = self.stored(here, 2)
            if re.search(r"[\w\]]$", text) and text != "this" and not text.startswith("super"):
                return ["%s = %s;" % (text, self.value(kind, here))]
        return self.call(here)

    def call(self, here):
        if self.is_likely(0.25):
            name = self.one(*[each.name for each in self.types.values() if not each.is_interface])
            found = [each for each in self.types[name].methods if each.is_static]
            text = name
        else:
            text, kind = self.stored(here, 1)
            found = self.all_methods(kind)
        if not found:
            return self.say(here)
        each = self.one(*found)
        return ["%s.%s(%s);" % (text, each.name, ", ".join(self.value(own, here) for own in each.params))]

    def library(self, here):
        """A call that puts something into a library's object."""
        found = [(text, kind) for text, kind in self.base(here) if "<" in kind]
        if not found:
            return self.local(here)
        text, kind = self.one(*found)
        head, _, rest = kind.partition("<")
        first, last = rest[:-1].split(", ")[0], rest[:-1].split(", ")[-1]
        listed = self.one("List", "Collection") + "<%s>" % first
        ways = {
            "List": [("add(%s)", [first]), ("add(%s)", [first]), ("remove(%s)", [first])], "Map": [("put(%s, %s)", [first, last])],
            "Cell": [("take(%s)", [first]), ("put(%s)", [first]), ("sink(%s)", [first]), ("all(%s)", [listed]), ("take(%s)", [self.one("Key", self.reference())])],
            "Sink": [("sink(%s)", [first])], "Pair": [("left = %s", [first]), ("right = %s", [last])],
        }.get({"ArrayList": "List", "Collection": "List", "HashMap": "Map", "Twin": "Pair"}.get(head, head))
        if not ways:
            return self.say(here)
        more, kinds = self.one(*ways)
        return ["%s.%s;" % (text, more % tuple(self.value(each, here) for each in kinds))]

    def if_(self, here):
        found = ["if (%s) {" % self.test(here, 2), *self.block(here, self.one(1, 2)), "} else {", *self.block(here, self.one(0, 1)), "}"]
        return found

    def each(self, here):
        kind = self.reference()
        over = self.value(self.one(kind + "[]", "List<%s>" % kind, "Collection<%s>" % kind, "ArrayList<%s>" % kind), here)
        name = self.name()
        here.locals.append((name, kind))
        found = ["for (%s %s : %s) {" % (self.one(kind, kind, kind, "Object"), name, over), "if (T.out()) break;", *self.block(here, self.one(1, 2)), "}"]
        here.locals.remove((name, kind))
        return found

    def filled(self, here):
        name, kind = self.name(), self.reference()
        text = "%s[] %s = { %s };" % (kind, name, self.items(kind, here, 2))
        here.locals.append((name, kind + "[]"))
        return [text]

    def say(self, here):
        way = self.chance.random()
        text, kind = self.stored(here, 2)
        if way < 0.3:
            return ["T.say(T.show(%s));" % text]
        if way < 0.5 and kind in self.types:
            return ["System.out.println(%s);" % text]
        if way < 0.7:
            return ['T.say("" + (%s));' % self.test(here, 2)]
        return ['T.say(T.show(%s));' % self.value(self.kind(), here)]

    def try_(self, here):
        thrown = [each.name for each in self.types.values() if self.is_below(each.name, "RuntimeException")]
        found = ["try {", *self.block(here, self.one(1, 2))]
        name = self.name()
        if thrown and self.is_likely(0.7):
            of = self.one(*thrown)
            found += ["if (T.fuel % 2 == 0) throw " + self.value(of, here, 1) + ";", "} catch (%s %s) {" % (of, name)]
            here.locals.append((name, of))
        else:
            found += ["} catch (RuntimeException %s) {" % name]
            here.locals.append((name, "RuntimeException"))
        found += self.block(here, self.one(1, 2))
        here.locals.pop()
        return found + ["}"]

    def return_(self, here):
        if self.is_likely(0.7):
            return self.local(here)
        if here.result == "void":
            return ["if (T.fuel % 5 == 0) return;"]
        return ["if (T.fuel %% 5 == 0) return %s;" % self.value(here.result, here)]

    # Members and whole texts.

    def method_text(self, of, each):
        head = "%s%s%s%s %s" % (each.access if not of.is_interface or self.is_likely(0.3) else "", "static " if each.is_static else "", "abstract " if each.is_abstract and not of.is_interface else "", each.result, each.name)
        names = [("p%d" % n, kind) for n, kind in enumerate(each.params)]
        head += "(%s)" % ", ".join("%s %s" % (kind, name) for name, kind in names)
        if each.is_abstract:
            return [head + ";"]
        here = Here(of, not each.is_static, each.result, names)
        default = "" if each.result == "void" else " " + {"int": "0", "boolean": "false"}.get(each.result, "null")
        lines = ["%s {" % head, "if (T.out()) return%s;" % default]
        if self.is_likely(0.5):
            lines.append('T.say("%s.%s");' % (of.name, each.name))
        lines += self.block(here, self.one(0, 1, 2, 3))
        if each.result != "void":
            lines += ["if (T.fuel > 1) return %s;" % self.value(each.result, here), "return%s;" % default]
        return lines + ["}"]

    def constructor_text(self, of, params, others):
        names = [("p%d" % n, kind) for n, kind in enumerate(params)]
        here = Here(of, True, "void", names)
        lines = ["%s%s(%s) {" % (self.one("", "public "), of.name, ", ".join("%s %s" % (kind, name) for name, kind in names))]
        above = self.types.get(of.above)
        self.early = of.name
        still = Here(of, False, "void", names)
        if others and self.is_likely(0.25):
            lines.append("this(%s);" % ", ".join(self.value(each, still, 1) for each in others[0]))
        elif above:
            lines.append("super(%s);" % ", ".join(self.value(each, still, 1) for each in self.one(*above.constructors)))
        for name, kind, is_static in of.fields:
            if self.is_likely(0.5):
                lines.append("%s = %s;" % (name, self.value(kind, here, 1)))
        self.early = ""
        return lines + ["}"]

    def type_text(self, of):
        lines = []
        self.early = of.name
        for name, kind, is_static in of.fields:
            here = Here(of, False, "void", [])
            lines.append("%s%s %s%s;" % ("static " if is_static else "", kind, name, " = " + self.value(kind, here, 1) if self.is_likely(0.5) else ""))
        self.early = ""
        if not of.is_interface:
            for n, params in enumerate(of.constructors):
                lines += self.constructor_text(of, params, of.constructors[:n])
        for each in of.methods:
            lines += self.method_text(of, each)
        if not of.is_interface:
            lines.append('public String toString() { return "%s"; }' % of.name)
            lines.append("public int hashCode() { return %d; }" % len(of.name))
            if self.is_likely(0.2):
                lines.append("public boolean equals(Object o) { return o instanceof %s; }" % of.name)
            if self.is_likely(0.1):
                lines.append("public boolean equals(%s o) { T.say(\"own equals\"); return o == this; }" % of.name)
        head = "%s%s%s %s" % ("abstract " if of.is_abstract else "", "final " if of.is_final else "", "interface" if of.is_interface else "class", of.name)
        head += " extends " + of.above if of.above else ""
        head += " %s %s" % ("extends" if of.is_interface else "implements", ", ".join(of.faces)) if of.faces else ""
        return [head + " {", *lines, "}"]

    def main_text(self):
        owner = Planned("M")
        lines = ["class M {"]
        for name, kind, _ in self.shared:
            lines.append("static %s %s;" % (kind, name))
        count = self.one(2, 3, 4)
        for n in range(count):
            here = Here(owner, False, "void", [])
            lines += ["static void go%d() {" % n, *self.block(here, self.one(3, 5, 7)), "}"]
        lines += ["public static void main(String[] w) {", "T.fuel = 5;"]
        for name, kind, _ in self.shared:
            lines.append("try { %s = %s; } catch (RuntimeException e) { T.say(T.told(e)); }" % (name, self.made(kind, Here(owner, False, "void", [("w", "String[]")]), 1)))
        for n in range(count):
            lines += ["T.fuel = 30;", "try { go%d(); } catch (RuntimeException e) { T.say(T.told(e)); }" % n]
        return lines + ["}", "}"]

    def shared_fields(self):
        kinds = [self.reference(), self.kind(), self.generic(), "List<%s>" % self.reference(), self.reference() + "[]"]
        return [("m%d" % n, kind, True) for n, kind in enumerate(kinds)]


def written(maker):
    """The lines of the types, each a list."""
    maker.plan()
    maker.early = ""
    maker.shared = maker.shared_fields()
    texts = [maker.type_text(each) for each in maker.types.values()]
    texts.append(maker.main_text())
    maker.chance.shuffle(texts)
    return texts


def library(has_lib):
    found = {}
    for name in SHIPPED:
        with open(os.path.join(LIBRARY, name), encoding="utf-8") as file:
            found[name] = file.read()
    for text in re.split(r"(?m)^(?=public)", LIB)[1:] if has_lib else ():
        found[re.search(r"(?:class|interface) (\w+)", text)[1] + ".java"] = "package lib;\nimport java.util.*;\n" + text
    return found


def program(chance):
    """A program that breaks no rule, or None where its declarations break one or too much is wrong."""
    maker = Maker(chance)
    texts = written(maker)
    package = "p." if maker.is_likely(0.2) else ""
    head = ["package p;"] if package else []
    head += [maker.one("import java.util.*;", "import java.util.*;", "import java.util.List; import java.util.ArrayList; import java.util.Collection; import java.util.Iterator; import java.util.Map; import java.util.HashMap;")]
    head += ["import lib.*;"] if maker.has_lib else []
    cut = chance.randrange(len(texts) + 1)
    groups = [each for each in (texts[:cut] + [TRACE.splitlines()], texts[cut:]) if each]
    end = maker.one("\n", "\n", "\n", "\r\n")
    files = {"U%d.java" % n: head + [line for text in group for line in text] for n, group in enumerate(groups)}
    libraries = library(maker.has_lib)
    for _ in range(12):
        bad = broken_lines(files, libraries, end)
        if not bad:
            made = {name: end.join(lines) + end for name, lines in files.items()}
            return Program({**made, **libraries}, list(libraries), [], package + "M")
        for name, number in bad:
            line = mended(files[name][number])
            if line is None:
                return None
            files[name][number] = line
    return None


def mended(line):
    """A line without what breaks a rule in it: a statement is left out, and a declaration loses its value."""
    found = re.match(r"(?:final )?((?:static )?[\w<>, \[\]]+? \w+) = (?![^;]*\w+ = )[^;]*;$", line)
    if found and "if (" not in line:
        kind = found[1].split(" ")[-2]
        return "%s%s;" % (found[1], "" if found[1].startswith("static") else " = %s" % {"int": "0", "boolean": "false"}.get(kind, "null"))
    if re.match(r"[^{}]*;$", line) and not re.match(r"public |abstract |\w+ \w+\(|if \(T.out|return", line):
        return ""
    found = re.match(r"(for \(.* : ).*(\) \{)$", line)
    if found:
        return "%snew Object[0]%s" % (re.sub(r"\w+( x\d+ : )", r"Object\1", found[1]), found[2])
    if re.match(r"if \(.*\) \{$", line):
        return "if (T.fuel > 3) {"
    if re.match(r"\w+\[\] x\d+ = \{.*\};$", line):
        return line.split("{")[0] + "{ };"
    return None


def broken_lines(files, libraries, end):
    """The lines at which rules on types and flow are broken, as (file, number); a program whose declarations are wrong gives a line that can't be mended."""
    names = [*files, *libraries]
    texts = [(end.join(files[name]) + end if name in files else libraries[name]).encode() for name in names]
    answer = kept.checked_users(tuple(names), tuple(texts), len(files))
    if answer.kind == "checked":
        return []
    if answer.tree is None:
        return [(names[0], 0)]
    tree = answer.tree
    nodes = [node for node, _ in tree.found] + tree.unchecked_nodes()
    if not nodes:
        found = re.match(r"refused \w+ (\S+):(\d+):", answer.report.decode())
        return [(found[1], int(found[2]) - 1)]
    bad = set()
    for node in nodes:
        at = texts[node.file][:node.at].decode()
        bad.add((names[node.file], at.count("\n")))
    return [each for each in bad if each[0] in files] or [(names[0], 0)]
