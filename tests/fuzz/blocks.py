"""Statements and whole texts of the random programs of bodies.py."""
import functools
import os

import bodies
import spoils
from bodies import BOX, FUN, LIBRARY, TEXT, Here


class Writer(bodies.Maker):
    """Writes the bodies of what is planned. A statement gives its text and whether it can end."""

    def block(self, here, size):
        """The text of some statements and whether they can end. Locals of the block are forgotten behind it."""
        count, parts, ends = len(here.locals), [], True
        for _ in range(size):
            text, ends = self.statement(here, size)
            parts.append(text)
            if not ends:
                break
        del here.locals[count:]
        return " ".join(parts), ends

    def braced(self, here, size):
        text, ends = self.block(here, size)
        return "{ %s }" % text, ends

    def inner(self, here, size):
        """A statement inside another one, in braces or not."""
        if size > 1 or self.is_likely(0.5):
            return self.braced(here, max(size, 1))
        text, ends = self.simple(here)
        return text, ends

    def statement(self, here, size):
        if size > 1 and self.is_likely(0.4):
            return self.one(self.if_, self.while_, self.do, self.for_, self.for_each, self.switch, self.try_, self.nested)(here, size - 1)
        if self.is_likely(0.4):
            return self.local(here), True
        if self.is_likely(0.1):
            return self.jump(here)
        return self.simple(here)

    def nested(self, here, size):
        return self.braced(here, size)

    def name(self, here):
        here.count += 1
        return "v%d" % here.count

    def local(self, here):
        kind, final = self.kind(), self.one("", "", "", "final ")
        name = self.name(here)
        way = self.chance.random()
        if way < 0.15 and kind.endswith("[]") and "<" not in kind:
            text = "%s%s %s = %s;" % (final, kind, name, self.items(kind, here, 1))
        elif way < 0.25 and not final:
            text = "%s %s; %s" % (kind, name, self.assigned(name, kind, here))
        elif way < 0.3 and kind.endswith("[]"):
            text = "%s%s %s[] = %s;" % (final, kind[:-2], name, self.value(kind, here))
        elif way < 0.35:
            other = self.name(here)
            text = "%s%s %s = %s, %s = %s;" % (final, kind, other, self.value(kind, here), name, self.value(kind, here))
            here.locals.append((other, kind, bool(final)))
        else:
            text = "%s%s %s = %s;" % (final, kind, name, self.value(kind, here))
        here.locals.append((name, kind, bool(final)))
        return text

    def assigned(self, name, kind, here):
        """Statements behind which a local has a value."""
        value = lambda: self.value(kind, here)
        test = self.test(here)
        return self.one(
            lambda: "%s = %s;" % (name, value()), lambda: "if (%s) %s = %s; else %s = %s;" % (test, name, value(), name, value()),
            lambda: "if (%s && (%s = %s) == %s) { } else %s = %s;" % (test, name, value(), name, name, value()) if kind == "int" else ";%s = %s;" % (name, value()),
            lambda: "do %s = %s; while (%s);" % (name, value(), test),
            lambda: "while (true) { %s = %s; if (%s) break; }" % (name, value(), test),
            lambda: "try { %s = %s; } finally { %s = %s; }" % (name, value(), name, value()),
            lambda: "switch (3) { case 1: %s = %s; break; default: %s = %s; }" % (name, value(), name, value()),
            lambda: "for (;;) { %s = %s; break; }" % (name, value()))()

    def simple(self, here):
        """An assignment, a call, a step, something made, or nothing."""
        for _ in range(3):
            way = self.chance.randrange(7)
            targets = self.targets(here)
            if way == 0 and targets:
                text, own, _ = self.one(*targets)
                return "%s = %s;" % (text, self.value(own, here)), True
            if way == 1 and targets:
                text, own, _ = self.one(*targets)
                if own in ("int", "long", "boolean", "String"):
                    return self.compound(text, own, here, 1) + ";", True
                if own == "char":
                    return self.one(text + "++;", "--" + text + ";"), True
            if way in (2, 3):
                call = self.call_value("Object", here, 1, True)
                if call:
                    return call + ";", True
            if way == 4:
                made = self.made_value(self.one(*self.types), here, 1)
                if made and made.startswith("new"):
                    return made + ";", True
            if way >= 5:
                return "System.out.print%s(%s);" % (self.one("", "ln"), self.typed(self.one("int", "boolean", "char", "long", "String", "Object"), here, 1)), True
        return self.one(";", "System.out.println();"), True

    def jump(self, here):
        ways = []
        if not here.in_finally:
            ways.append("return%s;" % ("" if here.result == "void" else " " + self.value(here.result, here)) if here.result != "none" else None)
            ways.append("throw %s;" % self.thrown(here))
        if here.exits:
            ways += ["break;"] * 2
        if here.loops:
            ways += ["continue;"] * 2
        ways = [each for each in ways if each]
        return (self.one(*ways), False) if ways else (";", True)

    def thrown(self, here):
        fitting = [each for each in ["X", "Y", "RuntimeException", "Error", "Throwable"] if self.is_handled([each], here)]
        kind = self.one(*fitting)
        return self.one("new %s()" % kind, 'new %s("m")' % kind, "null", self.local_value(kind, here, 0) or "null")

    # Statements with others inside.

    def if_(self, here, size):
        test = self.value("boolean", here)
        yes, yes_ends = self.braced(here, size)
        if self.is_likely(0.5):
            return "if (%s) %s" % (test, yes), True
        no, no_ends = self.inner(here, size)
        return "if (%s) %s else %s" % (test, yes, no), yes_ends or no_ends

    def test(self, here):
        """A test that is no constant."""
        text = self.value("boolean", here)
        variables = [name for name, kind, is_final in here.locals if kind == "boolean" and not is_final]
        return "%s && (%s)" % (self.one("new Object() == null", *variables), text)

    def looped(self, here, size, inner=None):
        loops, exits = here.loops, here.exits
        here.loops, here.exits = loops + 1, exits + 1
        text, ends = (inner or self.inner)(here, size)
        here.loops, here.exits = loops, exits
        return text, ends

    def while_(self, here, size):
        if self.is_likely(0.15):
            text, _ = self.looped(here, size, self.braced)
            return "while (true) { if (%s) break; %s }" % (self.test(here), text), True
        return "while (%s) %s" % (self.test(here), self.looped(here, size)[0]), True

    def do(self, here, size):
        text, ends = self.looped(here, size)
        if not ends:
            return "while (%s) %s" % (self.test(here), text), True
        return "do %s while (%s);" % (text, self.test(here)), True

    def for_(self, here, size):
        count, name = len(here.locals), self.name(here)
        init = self.one("int %s = 0" % name, "long %s = 1, w%s = 2" % (name, name))
        here.locals.append((name, init.split()[0], False))
        test = "%s < %s" % (name, self.tight("int", here, 1))
        step = self.one(name + "++", "%s += 2" % name, "%s++, System.out.print(1)" % name, "")
        text, _ = self.looped(here, size)
        del here.locals[count:]
        return "for (%s; %s; %s) %s" % (init, test, step, text), True

    def for_each(self, here, size):
        count, name = len(here.locals), self.name(here)
        kind = self.one("int", "String", "char", *self.classes())
        over = self.typed(kind + "[]", here, 1)
        if self.has_library and self.is_likely(0.5):
            kind = self.one("String", "Object", *self.classes())
            over = self.typed(self.one("List<%s>", "ArrayList<%s>") % kind, here, 1)
        final = self.one("", "", "final ")
        here.locals.append((name, kind, bool(final)))
        text, _ = self.looped(here, size)
        del here.locals[count:]
        return "for (%s%s %s : %s) %s" % (final, kind, name, over, text), True

    def switch(self, here, size):
        kind, count, parts, ends = self.one("int", "int", "char"), len(here.locals), [], True
        on = self.typed(kind, here, 1)
        labels = self.chance.sample(["1", "2", "-1", "0x7F", "'q'", "10", "-2147483648"] if kind == "int" else ["'a'", "'b'", "'\\n'", "'\\0'"], 4)
        here.exits += 1
        has_default, groups = False, self.one(0, 1, 2, 3)
        for _ in range(groups):
            words = "case %s: " % labels.pop()
            if len(labels) > 2 and self.is_likely(0.2):
                words += "case %s: " % labels.pop()
            if not has_default and self.is_likely(0.3):
                has_default, words = True, self.one(words, "") + "default: "
            text, ends = self.block(here, max(1, size))
            is_last_jump = ends and self.is_likely(0.6)
            parts.append(words + text + (" break;" if is_last_jump else ""))
        here.exits -= 1
        del here.locals[count:]
        return "switch (%s) { %s }" % (on, " ".join(parts)), True

    def try_(self, here, size):
        fault = self.one("X", "Y", "Exception", "Throwable", "RuntimeException", "Error", "NullPointerException")
        handled, count = list(here.handled), len(here.locals)
        here.handled = handled + [fault]
        text, ends = self.braced(here, size)
        here.handled = handled
        has_thrower = fault in ("Exception", "Throwable") or self.is_below(fault, "RuntimeException") or fault == "Error"
        if not has_thrower:
            text = "{ if (%s) throw new %s(); %s" % (self.test(here), fault, text[1:])
        catches, kinds = "", self.one([fault], ["NullPointerException", fault] if fault not in ("NullPointerException", "RuntimeException", "Throwable", "Exception") else [fault])
        for kind in kinds:
            name = self.name(here)
            final = self.one("", "", "final ")
            here.locals.append((name, kind, bool(final)))
            inner, inner_ends = self.braced(here, size)
            del here.locals[count:]
            catches += " catch (%s%s %s) %s" % (final, kind, name, inner)
            ends = ends or inner_ends
        if self.is_likely(0.3):
            loops, exits, was = here.loops, here.exits, here.in_finally
            here.loops, here.exits, here.in_finally = 0, 0, True
            catches += " finally %s" % self.braced(here, size)[0]
            here.loops, here.exits, here.in_finally = loops, exits, was
        return "try %s%s" % (text, catches), ends

    # Members.

    def here(self, of, has_this, member=None):
        found = Here(of, has_this)
        if member is not None:
            found.result = member.type if member in of.methods else "void"
            found.handled = list(member.throws)
            found.locals = [("p%d" % n, kind, self.is_likely(0.2)) for n, kind in enumerate(member.params)]
        return found

    def method_text(self, of, each):
        here = self.here(of, not each.is_static(), each)
        head = "%s %s %s(%s)%s" % (" ".join(each.mods), each.type, each.name, self.formals(here), self.throws(each))
        if of.is_interface or "abstract" in each.mods:
            return head + ";"
        size = self.one(1, 2, 3, 4)
        text, ends = self.block(here, size)
        if ends and each.type != "void":
            text += self.last_statement(here)
        return "%s { %s }" % (head, text)

    def last_statement(self, here):
        here.locals = here.locals[:sum(name.startswith("p") for name, _, _ in here.locals)]
        value = lambda: self.value(here.result, here)
        return self.one(
            lambda: " return %s;" % value(), lambda: " return %s;" % value(), lambda: " if (%s) return %s; else return %s;" % (self.value("boolean", here), value(), value()),
            lambda: " while (true) { return %s; }" % value(), lambda: " throw %s;" % self.thrown(here),
            lambda: " try { return %s; } finally { ; }" % value(), lambda: " for (;;) { if (%s) return %s; }" % (self.value("boolean", here), value()),
            lambda: " do { return %s; } while (%s);" % (value(), self.test(here)),
            lambda: " switch (%s) { case 1: return %s; default: return %s; }" % (self.typed("int", here, 1), value(), value()))()

    def formals(self, here):
        return ", ".join("%s%s %s" % ("final " if is_final else "", kind, name) for name, kind, is_final in here.locals)

    def throws(self, each):
        return " throws " + ", ".join(each.throws) if each.throws else ""

    def field_text(self, of, each, blanks):
        is_blank = "final" in each.mods and "static" not in each.mods and self.is_likely(0.5) and not of.is_interface
        if is_blank:
            blanks.append(each)
        if is_blank or ("final" not in each.mods and not of.is_interface and self.is_likely(0.5)):
            return "%s %s %s;" % (" ".join(each.mods), each.type, each.name)
        here = self.here(of, not each.is_static())
        here.reach = [other for other in of.fields[:of.fields.index(each)] if other not in blanks]
        if each.type.endswith("[]") and "<" not in each.type and self.is_likely(0.4):
            return "%s %s %s = %s;" % (" ".join(each.mods), each.type, each.name, self.items(each.type, here, 1))
        return "%s %s %s = %s;" % (" ".join(each.mods), each.type, each.name, self.value(each.type, here))

    def constructor_text(self, of, each, blanks):
        here = self.here(of, True, each)
        here.reach = [other for other in of.fields if other not in blanks]
        head = "%s %s(%s)%s" % (" ".join(each.mods), each.name, self.formals(here), self.throws(each))
        first, is_this = self.first_call(of, each, here)
        if is_this:
            here.reach = None
        parts = [first] if first else []
        for field in blanks if not is_this else []:
            if self.is_likely(0.3):
                parts.append(self.simple(here)[0])
            parts.append("%s%s = %s;" % (self.one("", "this."), field.name, self.value(field.type, here)))
            here.reach = here.reach + [field]
        here.reach = None
        if self.is_likely(0.6):
            parts.append(self.block(here, self.one(1, 2, 3))[0])
        return "%s { %s }" % (head, " ".join(parts))

    def first_call(self, of, each, here):
        """The this(..) or super(..) that begins a constructor, and whether it is this(..)."""
        here.has_this = False
        here_locals = Here(of, False, locals=here.locals, handled=here.handled, reach=here.reach)
        earlier = of.constructors[:of.constructors.index(each)]
        earlier = [other for other in earlier if self.is_handled(other.throws, here)]
        here.has_this = True
        if earlier and self.is_likely(0.3):
            params = self.one(*earlier).params
            return "this(%s);" % ", ".join(self.typed(kind, here_locals, 1) for kind in params), True
        above = self.types.get(of.above)
        usable = [other for other in above.constructors if "private" not in other.mods and self.is_handled(other.throws, here)] if above else []
        if of.name in "XY" and each.params and self.is_likely(0.7):
            return "super(p0);", False
        bare = [other for other in usable if not other.params]
        if usable and (not bare or self.is_likely(0.5)):
            return "super(%s);" % ", ".join(self.typed(kind, here_locals, 1) for kind in self.one(*usable).params), False
        return self.one("", "", "super();" if not usable or bare else ""), False

    def type_text(self, of):
        """The lines of a type."""
        blanks = []
        fields = [self.field_text(of, each, blanks) for each in of.fields]
        if blanks and not of.constructors:
            of.constructors.append(bodies.Member(of.name, of.name, [], owner=of))
        others = [self.constructor_text(of, each, blanks) for each in of.constructors] + [self.method_text(of, each) for each in of.methods]
        if of.is_interface:
            head = "interface %s%s" % (of.name, " extends " + ", ".join(of.faces) if of.faces else "")
        else:
            extends = " extends " + of.above if of.above != "Object" else ""
            head = "%s class %s%s%s" % (" ".join(of.mods), of.name, extends, " implements " + ", ".join(of.faces) if of.faces else "")
        return ["%s {" % head] + ["  " + each for each in fields + others] + ["}"]


@functools.cache
def library_files():
    """The library files, as (name, is the user's, text) with False."""
    found = []
    for name in ("lang.java", "util.java"):
        with open(os.path.join(LIBRARY, name), "rb") as file:
            found.append((name, False, file.read()))
    return found + [("box/%s.java" % name, False, text.encode()) for name, text in (("Box", BOX), ("Fun", FUN), ("Text", TEXT))]


def random_program(chance, for_javac=False):
    """The files of a program as (name, is the user's, text), well typed for the most part."""
    maker = Writer(chance, for_javac)
    maker.plan()
    imports = ["import java.util.*;", "import box.*;"] if maker.has_library else []
    texts = [maker.type_text(each) for each in maker.types.values()]
    chance.shuffle(texts)
    cut = chance.randint(1, len(texts)) if chance.random() < 0.3 else len(texts)
    files = []
    for n, part in enumerate([texts[:cut], texts[cut:]]):
        if part:
            lines = imports + [line for text in part for line in text]
            files.append(("F%d.java" % n, True, ("\n".join(spoils.split_line(line) for line in lines) + "\n").encode()))
    if maker.has_library:
        files += library_files()
    return files


PLAIN = """class X extends Exception { X() { } X(String s) { super(s); } }
class Y extends X { Y() { } Y(String s) { super(s); } }
class P extends Y {
  int f; static int g; final Object o = null;
  int m(int p0, boolean v1, String v2) throws Exception { @ return p0; }
  void n(int p0) { while (v(p0)) { @ } }
  static boolean v(long v1) { @ return v1 == 1; }
}
"""


def form_program(chance, name=None, form=None):
    """A small program with one of the forms that spoils.py has, in one or more of its places."""
    tables = [each for each in spoils.NAMES for _ in spoils.forms(each)]
    name = name or chance.choice(tables)
    form = form or chance.choice(spoils.forms(name))
    text, box = PLAIN, BOX
    if name.startswith("statements"):
        parts = text.split("@")
        kept = chance.sample(range(1, len(parts)), chance.choice([1, 1, 2, 3]))
        text = parts[0] + "".join((form if n in kept else "") + part for n, part in enumerate(parts[1:], 1))
    elif name == "members":
        text = text.rstrip().rstrip("}") + form + "\n}\n"
    elif name == "types":
        text += form + "\n"
    else:
        box = box.rstrip().rstrip("}") + form + "\n}\n"
    text = text.replace("@", "")
    if name in ("statements", "members", "types"):
        return [("F0.java", True, text.encode())]
    libraries = [(path, is_user, box.encode() if path == "box/Box.java" else data) for path, is_user, data in library_files()]
    return [("F0.java", True, ("import java.util.*; import box.*;\n" + text).encode())] + libraries


def spoiled_program(chance, for_javac=False):
    """A program with none, one or two changes, or a small one around a form that may break a rule."""
    if chance.random() < 0.3:
        files = form_program(chance)
        return spoils.spoil(chance, files) if chance.random() < 0.3 else files
    files = random_program(chance, for_javac)
    for _ in range(chance.choice([0, 1, 1, 2])):
        files = spoils.spoil(chance, files)
    return files
