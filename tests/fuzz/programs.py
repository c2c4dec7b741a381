"""Random programs of several files, with library files and generic library types, that break none or a few rules on declarations.

Types are made one after the other, each below some that are made before it, and then mixed. Most of what is written fits;
how often something odd is written differs from program to program. What is broken in the end, the maker need not know.
"""
from dataclasses import dataclass, field

import declares

EXCEPTIONS = ["Exception", "RuntimeException", "Throwable", "Error"]
METHODS = ["f", "f", "f", "g", "g", "h", "toString", "equals", "hashCode"]
LEFT_OUT = ["clone", "wait", "notify", "getClass", "finalize", "notifyAll"]
MODIFIERS = ["public", "protected", "private", "static", "abstract", "final"]
MOST_REPAIRS = 12
LATE = ["DR13", "DR14", "DR15", "DR16", "DR17", "DR19", "DR20"]  # left as they are where repairs aim at rules on members


@dataclass
class Made:
    """A type that is being made: what stands in its heading, and its members as texts."""
    name: str
    is_interface: bool
    file: object
    mods: list = field(default_factory=list)
    params: list = field(default_factory=list)
    extends: list = field(default_factory=list)
    implements: list = field(default_factory=list)
    members: list = field(default_factory=list)
    supers: list = field(default_factory=list)

    def is_open(self):
        return "final" not in self.mods


@dataclass
class Source:
    """A file that is being made."""
    name: str
    is_user: bool
    package: str
    imports: list = field(default_factory=list)
    types: list = field(default_factory=list)


class Maker:
    def __init__(self, chance, for_javac=False):
        self.chance = chance
        self.for_javac = for_javac
        self.odd = chance.choice([0, 0, 0.01, 0.03, 0.1])
        self.odd_members = chance.choice([0, 0.02, 0.1, 0.3])
        self.all_public = chance.random() < 0.7
        self.types = []
        self.results = {}
        self.method_names = chance.choice([METHODS, METHODS, ["f", "f", "g"], ["f", "f", "f", "toString", "equals"]])
        self.share_of_finals = chance.choice([0, 0.05, 0.2])

    def is_odd(self):
        return self.chance.random() < self.odd

    def one(self, *things):
        return self.chance.choice(things)

    def is_likely(self, share):
        return self.chance.random() < share

    # Files.

    def program(self):
        """The files, the user's first."""
        package = self.one("", "", "p", "p.q")
        users = [Source(name, True, package) for name in ["A.java", "s/B.java", "C.java"][:self.one(1, 1, 2, 2, 3)]]
        packages = ["l", "l.m", "l", "java.util"] + ([] if self.for_javac else ["java.lang", "java.lang"])
        libraries = [Source("l/%s.java" % name, False, self.one(*packages)) for name in "XY"[:self.one(0, 1, 1, 2)]]
        if self.for_javac:
            for each in libraries:
                each.package = each.package.replace("java.util", "m")
        self.spoil_packages(users + libraries)
        for name, file in self.names(users, libraries):
            self.make_type(name, file)
        for each in self.types:
            self.fill(each)
        self.close_a_circle()
        for file in users + libraries:
            self.chance.shuffle(file.types)
            self.import_odd(file)
        return users + libraries

    def close_a_circle(self):
        """A type that is above another is sometimes put below it."""
        if not self.is_likely(0.03):
            return
        low = self.one(*self.types)
        high = low
        while high.supers and self.is_likely(0.8):
            high = self.one(*high.supers)
        (high.extends if high.is_interface or not low.is_interface else high.implements).append(low.name)
        high.extends = high.extends if high.is_interface else high.extends[-1:]

    def spoil_packages(self, files):
        for each in files:
            if self.is_odd():
                each.package = self.one("", "p", "A", "l", "String", "java.lang", "java.io", "q.f", "Object.x")

    def names(self, users, libraries):
        """The names of the types with their files, library types first for the most part."""
        found = [(name, self.one(*libraries)) for name in "KLMNOP"[:self.chance.randint(1, 6)] if libraries]
        mine = [(name, self.one(*users)) for name in "ABCDEFGH"[:self.chance.randint(1, 8)]]
        if self.is_odd():
            mine.append((self.one("A", "B", "K", "String", "Object", "Iterable", "java", "p", "l"), self.one(*users, *libraries)))
        if self.is_likely(0.1):
            self.chance.shuffle(mine)
        return found + mine

    def import_odd(self, file):
        if self.is_odd():
            file.imports.append(self.one("java.io.*", "java.lang.String", "java.*", "l.*", "l.K", "p.A", "A", "q.*", "java.lang.String.*",
                                         "java.io.PrintStream", "java.lang.Nothing", "l.m.*", "l.m.L", "p.*", "p.q.*", "java.util.*"))
        self.chance.shuffle(file.imports)

    # Types.

    def make_type(self, name, file):
        made = Made(name, self.is_likely(0.4), file)
        if (not file.is_user and self.is_likely(0.6)) or self.is_odd():
            made.params = self.one(["T"], ["T"], ["T", "U"])
            if self.is_odd():
                made.params = self.one(["T", "T"], ["T", "U", "T"], ["String"], [name])
        made.mods = self.type_modifiers(made)
        self.choose_supers(made)
        self.types.append(made)
        file.types.append(made)

    def type_modifiers(self, made):
        mods = ["public"] if self.all_public or self.is_likely(0.5) else []
        if made.is_interface:
            mods += ["abstract"] if self.is_likely(0.1) else []
        else:
            mods += self.one([], [], ["abstract"], ["abstract"], ["final"] if self.is_likely(0.3) else [])
        return self.spoiled(mods)

    def spoiled(self, mods):
        """The modifiers in some order, sometimes with one more."""
        if self.is_odd():
            mods = mods + [self.one(*MODIFIERS)]
        self.chance.shuffle(mods)
        return mods

    def choose_supers(self, made):
        seen = [each for each in self.types if self.is_seen(each, made.file)]
        classes = [each for each in seen if not each.is_interface and each.is_open()]
        interfaces = [each for each in seen if each.is_interface]
        if made.file.is_user:
            classes, interfaces = [self.without_generics(group) for group in (classes, interfaces)]
        if not made.is_interface and classes and self.is_likely(0.6):
            made.extends.append(self.super_text(made, self.one(*classes)))
        elif not made.is_interface and self.is_likely(0.12) and not made.params:
            made.extends.append(self.one(*EXCEPTIONS, "Object"))
        clause = made.extends if made.is_interface else made.implements
        for each in self.chance.sample(interfaces, min(len(interfaces), self.one(0, 0, 1, 1, 2, 3))):
            clause.append(self.super_text(made, each))
        if self.is_odd():
            self.one(made.extends, made.implements).append(self.odd_super(made))
        if made.is_interface and made.implements:
            made.implements = []
        made.extends = made.extends if made.is_interface else made.extends[:1]

    def without_generics(self, group):
        return [each for each in group if not self.has_generics(each) or self.is_odd()]

    def has_generics(self, made):
        return bool(made.params) or any(self.has_generics(each) for each in made.supers)

    def odd_super(self, made):
        names = [each.name for each in self.types] + [made.name, "String", "Nothing", "T", "Object", "System"] + [each.name for each in self.types]
        name = self.one(*names)
        return self.one(name, name, name, name + "<String>", name + "<T>", "l." + name)

    def super_text(self, made, above):
        self.note(made.file, above)
        made.supers.append(above)
        if not above.params or self.is_odd():
            return above.name
        return "%s<%s>" % (above.name, ", ".join(self.argument(made) for _ in above.params))

    def argument(self, made):
        """A type argument: a variable, or a class without parameters."""
        plain = ["String", "Object", "Exception"] + made.params * 3
        plain += [each.name for each in self.types if not each.params and self.is_seen(each, made.file) and self.is_near(each, made)]
        if self.is_odd():
            plain = ["String[]", "int[]", "Nothing", "K", "L<String>", "java.lang.String", "T"]
        return self.one(*plain)

    def is_near(self, each, made):
        return each.file.package in (made.file.package, "java.lang")

    def is_seen(self, of, file):
        if self.is_odd():
            return True
        return (of.file.package == file.package or "public" in of.mods) and (file.is_user or not of.file.is_user)

    def note(self, file, of):
        """An import of a type, where the file needs one."""
        package = of.file.package
        if package in (file.package, "java.lang", "") or self.is_odd():
            return
        wanted = self.one(package + ".*", package + "." + of.name)
        if package + ".*" not in file.imports and wanted not in file.imports:
            file.imports.append(wanted)

    # Members.

    def fill(self, made):
        for _ in range(self.one(0, 1, 1, 2, 2, 3)):
            made.members.append(self.method(made))
        for n in range(self.one(0, 0, 0, 1, 2)):
            made.members.append(self.field(made, "xyz"[n] if not self.is_odd() else "x"))
        if not made.is_interface and self.is_likely(0.2):
            made.members += self.constructors(made)
        if self.is_odd() or self.is_likely(0.02):
            made.members.append(self.odd_member(made))
        self.chance.shuffle(made.members)

    def constructors(self, made):
        found = ["%s %s() { }" % ("public" if self.for_javac else self.one("public", "protected" if made.file.is_user else "public", ""), made.name)]
        if self.is_likely(0.4):
            name = made.name if not self.is_odd() else "Other"
            found.append("%s%s(%s) { }" % (self.one("", "private ", "public "), name, self.parameters(made) or "int k"))
        return found

    def odd_member(self, made):
        return self.one(
            "void %s() { }" % self.one(*LEFT_OUT), "public void wait(int k) { }", "%s(int a) { }" % made.name, "Other() { }",
            "int x, x;", "int t;", "static int s = %s;" % self.one("1", "-1", "(1)", "1 + 1", "- 'c'", "\"t\"", "null", "x", "new Object()"),
            "protected int p;", "void f(int a, int a) { }", "abstract void u();", "void u();", "static final java.lang.String q = null;",
            "public static void f(Object o) { }", "public final void f(String s) { }", "int v(String[] a, String a[][]) { throw null; }",
            "void f(String s) throws String { }", "void f() throws %s { }" % self.one(*EXCEPTIONS, *[each.name for each in self.types]),
            "private final int f(Object o) { throw null; }", "int a[] = { 1 };", "private abstract int g();", "%s() { }" % made.name,
            "public static void main(String[] a) { throw null; }", "public String toString() throws Exception { throw null; }")

    def field(self, made, name):
        if made.is_interface:
            value = "" if self.is_odd() else " = null"
            return "%s%s %s%s;" % (self.one("", "public ", "public static ", "final "), self.reference(made), name, value)
        mods = self.spoiled([self.one("public", "private", "protected" if made.file.is_user else "public", "final")])
        if self.is_odd():
            mods.append("static")
        more = self.one("", "", "", "", ", %s2" % name, ", %s3[]" % name) if "final" not in mods else " = null"
        return "%s %s %s%s;" % (" ".join(mods), self.reference(made), name, more)

    def method(self, made):
        name = self.one(*self.method_names)
        params = "" if name in ("toString", "hashCode") else "Object o" if name == "equals" else self.parameters(made)
        mods = self.method_modifiers(made)
        has_body = not made.is_interface and "abstract" not in mods
        if self.is_odd():
            has_body = not has_body
        throws = self.throws(made)
        return "%s %s %s(%s)%s%s" % (" ".join(mods), self.result(made, name, params), name, params, throws, self.body(made) if has_body else ";")

    def method_modifiers(self, made):
        if made.is_interface:
            return self.spoiled(self.one([], [], ["public"], ["abstract"]))
        mods = ["public"]
        if self.is_likely(self.odd_members):
            mods = self.one([], [], ["private"], ["protected"] if made.file.is_user else [])
        if self.is_likely(self.odd_members):
            mods += [self.one("static", "static", "final")]
        elif self.is_likely(self.share_of_finals):
            mods += ["final"]
        elif "abstract" in made.mods and "private" not in mods and self.is_likely(0.35):
            mods += ["abstract"]
        return self.spoiled(mods)

    def result(self, made, name, params):
        usual = {"toString": "String", "equals": "boolean", "hashCode": "int"}.get(name)
        if usual is None:
            usual = self.results.setdefault((name, params), self.one("void", "void", "int", "Object", "String", "Exception"))
        if self.is_likely(self.odd_members):
            return self.one("void", "int", "long", self.reference(made), self.reference(made), "String", "Object")
        if usual == "Object" and self.is_likely(0.4):
            return self.reference(made)
        return usual

    def parameters(self, made):
        count = self.one(0, 1, 1, 1, 1, 1, 2)
        return ", ".join("%s%s %s" % (self.one("", "", "final "), self.parameter(made), "abc"[n]) for n in range(count))

    def parameter(self, made):
        if made.params and self.is_likely(0.5):
            return self.one(*made.params)
        return self.one("Object", "Object", "String", "String", "int", "Exception", "String[]", self.reference(made))

    def throws(self, made):
        if not self.is_likely(0.08):
            return ""
        return " throws " + self.one("Exception", "Exception", "RuntimeException", "Error", "Throwable", "RuntimeException, Exception")

    def body(self, made):
        if self.for_javac:
            return " { throw null; }"
        local = "%s v = null; " % self.reference(made) if self.is_likely(0.1) else ""
        made_one = "Object w = new %s; " % self.one("int[3]", "String[2][]", "Object()") if self.is_likely(0.05) else ""
        return " { %s%sthrow null; }" % (local, made_one)

    def reference(self, made):
        """A type that a field, a local or a parameter may have."""
        if self.is_odd():
            return self.one("Nothing", "K<String>", "L", "K<String, String>", "String<Object>", "l.K", "T", "K<String>[]", "java.util.List")
        if made.params and self.is_likely(0.4):
            return self.one(*made.params)
        seen = [each for each in self.types if self.is_seen(each, made.file)]
        if not seen or self.is_likely(0.4):
            return self.one("String", "Object", "Object[]", "Exception")
        chosen = self.one(*seen)
        self.note(made.file, chosen)
        if chosen.params and self.is_likely(0.8):
            return "%s<%s>" % (chosen.name, ", ".join(self.argument(made) for _ in chosen.params))
        return chosen.name + self.one("", "", "", "" if chosen.params else "[]")


# Texts.

def heading(made):
    params = "<%s>" % ", ".join(made.params) if made.params else ""
    extends = " extends " + ", ".join(made.extends) if made.extends else ""
    implements = " implements " + ", ".join(made.implements) if made.implements else ""
    return "%s %s %s%s%s%s" % (" ".join(made.mods), "interface" if made.is_interface else "class", made.name, params, extends, implements)


def pieces(file):
    """The text of a file in pieces that blanks may stand between."""
    found = ["package %s ;" % file.package] if file.package else []
    found += ["import %s ;" % each for each in file.imports]
    for each in file.types:
        found += ["%s {" % heading(each)] + each.members + ["}"]
    return [word for piece in found for word in piece.split()]


def lay_out(chance, words):
    """The words with white space and comments between them, in one of several styles."""
    end = chance.choice(["\n", "\n", "\r\n", "\r"])
    blanks = [" "] * chance.choice([3, 10, 30]) + [end, end + "  ", "\t", " /* note */ ", " // note" + end]
    text = chance.choice(["", "", "", end, "// first" + end, " "])
    for word in words:
        text += word + chance.choice(blanks if word[-1] not in ";{}" else blanks + [end] * 20)
    return text.encode()


def texts_of(chance, files):
    return [(file.name, file.is_user, lay_out(chance, pieces(file))) for file in files]


# Repairs: most programs that are made at random are broken somewhere; some are made better where they are.

def random_program(chance):
    """The files of a program: name, whether it is the user's, and text."""
    return texts_of(chance, random_sources(chance))


def random_sources(chance, for_javac=False):
    files = Maker(chance, for_javac).program()
    is_late = chance.random() < 0.4
    for _ in range(MOST_REPAIRS if is_late else chance.choice([0, 0, 1, 3, MOST_REPAIRS])):
        texts = [lay_out(chance, pieces(file)) for file in files]
        broken = declares.first_broken(texts, sum(file.is_user for file in files))
        if broken is None or (is_late and broken[0] in LATE) or not repair(chance, files, broken, texts):
            break
    return files


def repair(chance, files, broken, texts):
    """Takes away or changes what stands where a rule is broken; False where nothing is known to do."""
    rule, number, at = broken
    if number is None:
        return False
    file, before = files[number], texts[number][:at]
    each, member = where(file, before)
    if each is None:
        return False
    if member is not None:
        each.members.pop(member)
    elif rule == "DR18" and not each.is_interface:
        each.mods = [mod for mod in each.mods if mod != "final"] + ["abstract"]
    elif rule in ("DR2", "DR3", "DR4", "S11", "DR1", "S12", "S13"):
        each.extends, each.implements, each.supers = [], [], []
    elif each.members and rule not in ("S10", "S22", "S23"):
        each.members.pop(chance.randrange(len(each.members)))
    elif each.implements or each.extends:
        each.extends, each.implements, each.supers = [], [], []
    else:
        file.types.remove(each)
    return True


def where(file, before):
    """The type and the number of its member in which the text after `before` begins."""
    count = len(words_of(before.decode()))
    seen = sum(len(piece.split()) for piece in (["package %s ;" % file.package] if file.package else []) + ["import %s ;" % each for each in file.imports])
    for each in file.types:
        seen += len(heading(each).split()) + 1
        if count < seen:
            return each, None
        for n, member in enumerate(each.members):
            seen += len(member.split())
            if count < seen:
                return each, n
        seen += 1
    return None, None


def words_of(text):
    """The words of a text that `lay_out` made, its notes aside."""
    plain = text.replace("/* note */", " ")
    lines = plain.replace("\r\n", "\n").replace("\r", "\n").split("\n")
    return [word for line in lines for word in line.split("//")[0].split()]
