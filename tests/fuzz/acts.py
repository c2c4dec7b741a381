"""Statements and whole texts of the random programs of works.py, as files for jgen and for java."""
import os
from typing import NamedTuple

import works
from bodies import LIBRARY
from works import MACHINE, PRIMITIVES, STRINGS, Here, Local, Planned, Target

STEPS = "20000000"
FUEL = [20, 60, 120, 200]
SHIPPED = ["lang.java", "util.java"]

# what prints and counts; a thrown object of the machine is told without its message, which java and jgen word differently
TRACE = """class T {
  static int fuel;
  static boolean out() { return --fuel < 0; }
  static void say(String s) { System.out.println(s); }
  static int t(String tag, int v) { fuel--; System.out.println(tag + "=" + v); return v; }
  static long t(String tag, long v) { fuel--; System.out.println(tag + "=" + v + "L"); return v; }
  static char t(String tag, char v) { fuel--; System.out.println(tag + "=" + (int) v); return v; }
  static boolean t(String tag, boolean v) { fuel--; System.out.println(tag + "=" + v); return v; }
  static String t(String tag, String v) { fuel--; System.out.println(tag + "=" + v); return v; }
  static Object t(String tag, Object v) { fuel--; System.out.println(tag + "=" + show(v)); return v; }
  static int may(int n) throws X { if (n == 1) throw new X("may"); if (n > 9) throw new Y("may"); return n; }
  static String show(Object v) {
    if (v instanceof int[]) return "int[" + ((int[]) v).length;
    if (v instanceof long[]) return "long[" + ((long[]) v).length;
    if (v instanceof char[]) return "char[" + ((char[]) v).length;
    if (v instanceof String[]) return "String[" + ((String[]) v).length;
    if (v instanceof Object[]) return "Object[" + ((Object[]) v).length;
    return "" + v;
  }
  static String told(Throwable e) {
    if (e instanceof ArrayIndexOutOfBoundsException) return "index of array";
    if (e instanceof StringIndexOutOfBoundsException) return "index of string";
    if (e instanceof IndexOutOfBoundsException) return "index";
    if (e instanceof NullPointerException) return "null";
    if (e instanceof ClassCastException) return "cast";
    if (e instanceof ArrayStoreException) return "store";
    if (e instanceof ExceptionInInitializerError) return "initializer";
    if (e instanceof NoClassDefFoundError) return "no class";
    return e.toString();
  }
}
"""
FAULTS = """class X extends Exception {
  int code = T.t("X", 7);
  X(String s) { super(s); T.say("new X " + s); }
}
class Y extends X {
  static int made;
  Y(String s) { super("y" + s); code += ++made; }
  public String getMessage() { T.say("message"); return super.getMessage() + code; }
}
class Z extends RuntimeException {
  Z() { this("none"); T.say("Z()"); }
  Z(String s) { super(s); }
}
class W extends %s {
  W(String s) { super("w" + s); T.say(told()); }
  String told() { return "W:" + getMessage(); }
}
"""
BOXES = {"Box.java": """package box;
public class Box<T> implements Source<T> {
  public static int made;
  public T item;
  public Box() { made++; System.out.println("Box() " + made); }
  public Box(T t) { this(); item = t; }
  public T get() { System.out.println("get " + item); return item; }
  public T put(T t) { T old = item; item = t; System.out.println("put " + old + " " + t); return old; }
  public String toString() { return "Box(" + item + ")"; }
}
""", "Source.java": """package box;
public interface Source<T> { T get(); }
""", "Text.java": """package box;
public class Text extends Box<String> {
  public Text(String s) { super(s); }
  public String get() { return "<" + super.get() + ">"; }
  public String put(String s) { System.out.println("Text.put"); return super.put(s + "."); }
}
"""}


class Program(NamedTuple):
    """Files by name, the names of the library files among them, the arguments, and the full name of main's class."""
    files: dict
    libraries: list
    words: list
    main: str


class Actor(works.Worker):
    """A statement gives its text and whether it can end."""

    def block(self, here, size):
        count = len(here.locals)
        parts, ends = self.statements(here, size)
        del here.locals[count:]
        return " ".join(parts), ends

    def statements(self, here, size):
        parts, ends = [], True
        for _ in range(self.one(*range(1, size + 2))):
            text, ends = self.statement(here, size)
            parts.append(text)
            if not ends:
                break
        return parts, ends

    def braced(self, here, size):
        text, ends = self.block(here, size)
        return "{ %s }" % text, ends

    def inner(self, here, size):
        if size > 0 or self.is_likely(0.5):
            return self.braced(here, size)
        return self.jump(here) if self.is_likely(0.2) else self.simple(here)

    def statement(self, here, size):
        if size > 0 and self.is_likely(0.5):
            ways = [self.if_, self.if_, self.while_, self.do, self.for_, self.for_each, self.switch, self.try_, self.try_, self.try_, self.braced, self.arrays, self.texts]
            return self.one(*ways, *([self.library] * 3 if self.has_library else []))(here, size - 1)
        if self.is_likely(0.25):
            return self.local(here), True
        if self.is_likely(0.12):
            return self.jump(here)
        return self.simple(here)

    def name(self):
        return "x%d" % self.number()

    def test(self, here):
        return self.exact("boolean", here, 2)

    # Locals and simple statements.

    def local(self, here):
        kind, name = self.kind(), self.name()
        way = self.chance.random()
        value = lambda: self.fitting(kind, here, 3)
        if way < 0.15:
            text = "%s %s; %s" % (kind, name, self.given(name, kind, here))
        elif way < 0.25 and kind.endswith("[]"):
            text = "%s %s = %s;" % (kind, name, self.items(kind[:-2], here, 2))
        elif way < 0.3 and kind.endswith("[]"):
            text = "%s %s[] = %s;" % (kind[:-2], name, value())
        elif way < 0.4:
            other = self.name()
            text = "%s %s = %s, " % (kind, other, value())
            here.locals.append(Local(other, kind))
            text += "%s = %s;" % (name, value())
        elif way < 0.5:
            text = "final %s %s = %s;" % (kind, name, self.traced(kind, here, 2))
        else:
            text = "%s %s = %s;" % (kind, name, value())
        here.locals.append(Local(name, kind, text.startswith("final")))
        return text

    def given(self, name, kind, here):
        """Statements behind which a local has a value."""
        value = lambda: self.fitting(kind, here, 2)
        return self.one(
            lambda: "%s = %s;" % (name, value()),
            lambda: "if (%s) %s = %s; else %s = %s;" % (self.traced("boolean", here, 1), name, value(), name, value()),
            lambda: "do %s = %s; while (T.t(\"%d\", false));" % (name, value(), self.number()),
            lambda: "while (true) { %s = %s; if (true) break; }" % (name, value()),
            lambda: "try { %s = %s; } finally { %s = %s; }" % (name, value(), name, value()),
            lambda: "switch (%s) { case 1: %s = %s; break; default: %s = %s; }" % (self.exact("int", here, 1), name, value(), name, value()))()

    def simple(self, here):
        way = self.chance.random()
        if way < 0.3:
            text = self.assigned(self.kind(), here, 3)
            return (text + ";", True) if text else (";", True)
        if way < 0.55:
            text = self.called(None, here, 2)
            if text:
                return text + ";", True
        if way < 0.62:
            text = self.made(self.one(*self.classes()), here, 2)
            if text and text.startswith("new"):
                return text + ";", True
        return self.printed(here), True

    def printed(self, here):
        """What print has of its own for chars is left to println, since a lone surrogate at the end of a print waits in java."""
        kind = self.printable()
        value = self.exact(kind, here, 3)
        if kind in ("int", "long", "boolean") and self.is_likely(0.3):
            return "System.out.print(%s); System.out.print(' ');" % value
        if self.is_likely(0.05):
            return "System.out.println(%s);" % self.exact("char[]", here, 2)
        return self.one("System.out.println(%s);" % value, "T.say(%s);" % self.exact("String", here, 3))

    # Jumps.

    def may_leave(self, here, target):
        return here.targets.index(target) >= here.barrier or not target.is_exact

    def jump(self, here):
        loops = [each for each in here.targets if each.is_loop]
        ways = [self.return_] * 2 + [self.throw]
        if here.targets and self.may_leave(here, here.targets[-1]):
            ways += [self.break_] * 3
        if loops and self.may_leave(here, loops[-1]):
            ways += [self.continue_] * 3
        return self.one(*ways)(here), False

    def return_(self, here):
        return "return;" if here.result == "void" else "return %s;" % self.fitting(here.result, here, 3)

    def break_(self, here):
        here.targets[-1].is_left = True
        return "break;"

    def continue_(self, here):
        [each for each in here.targets if each.is_loop][-1].is_continued = True
        return "continue;"

    def throw(self, here):
        caught = [each.name for each in here.locals if each.type in ("X", "Y", "Z", "W", "RuntimeException", "Error", *MACHINE) and self.is_handled([each.type], here)]
        if caught and self.is_likely(0.4):
            return "throw %s;" % self.one(*caught)
        name = self.one(*[each for each in ("X", "Y", "X", "Y") if self.is_handled([each], here)], "Z", "W", "RuntimeException", "Error", "ArithmeticException", "IndexOutOfBoundsException")
        if name == "Z" and self.is_likely(0.2):
            return self.one("throw new Z();", "throw (Z) null;", "throw null;")
        return "throw new %s(%s);" % (name, self.exact("String", here, 1))

    # Statements with statements inside.

    def if_(self, here, size):
        test = self.test(here)
        yes, yes_ends = self.inner(here, size) if self.is_likely(0.3) else self.braced(here, size)
        if self.is_likely(0.5):
            return "if (%s) %s" % (test, yes), True
        yes = yes if yes.startswith("{") else "{ %s }" % yes
        no, no_ends = self.inner(here, size)
        return "if (%s) %s else %s" % (test, yes, no), yes_ends or no_ends

    def in_target(self, here, target, write):
        here.targets.append(target)
        found = write()
        here.targets.pop()
        return found

    def counter(self, here):
        name = self.name()
        here.locals.append(Local(name, "int", True))
        return name

    def turn(self, here):
        """What else a loop asks before a turn."""
        return " && " + self.one("!T.out()", "!T.out()", "!T.out() && " + works.at(works.OR, self.test(here)))

    def while_(self, here, size):
        name, most = self.counter(here), self.one(1, 2, 3, 4)
        if self.is_likely(0.3):
            target = Target(True, True)
            body, _ = self.in_target(here, target, lambda: self.block(here, size))
            return "int %s = 0; %s { if (++%s > %d || T.out()) break; %s }" % (name, self.one("while (true)", "for (;;)", "for (; true;)"), name, most, body), True
        test = self.turn(here)
        body, _ = self.in_target(here, Target(True, False), lambda: self.block(here, size))
        return "int %s = 0; while (%s++ < %d%s) { %s }" % (name, name, most, test, body), True

    def do(self, here, size):
        name, target = self.counter(here), Target(True, True)
        test = self.turn(here)
        body, ends = self.in_target(here, target, lambda: self.block(here, size))
        return "int %s = 0; do { %s } while (++%s < %d%s);" % (name, body, name, self.one(1, 2, 3), test), ends or target.is_left or target.is_continued

    def for_(self, here, size):
        count, name = len(here.locals), self.counter(here)
        start, step = "int %s = 0" % name, self.one(name + "++", "++" + name, name + " += 1")
        if self.is_likely(0.3):
            other = self.name()
            start += ", %s = %s" % (other, self.fitting("int", here, 2))
            here.locals.append(Local(other, "int"))
            step += ", " + self.one(other + "++", "%s = %s" % (other, self.fitting("int", here, 2)), other + " <<= 1")
        test = self.turn(here) if size > 0 or self.is_likely(0.7) else ""
        most = self.one(1, 2, 3)
        if size > 0 or self.is_likely(0.7):
            body, _ = self.in_target(here, Target(True, False), lambda: self.braced(here, size))
        else:
            body, _ = self.in_target(here, Target(True, False), lambda: self.simple(here))
            body = body if body.count(";") == 1 else "{ %s }" % body
        del here.locals[count:]
        return "for (%s; %s < %d%s; %s) %s" % (start, name, most, test, step, body), True

    def for_each(self, here, size):
        count, name, is_frozen = len(here.locals), self.name(), here.is_frozen
        lists = [each for each in here.locals if each.type.startswith("List<")]
        if lists and self.is_likely(0.6):
            over = self.one(*lists)
            kind, text, here.is_frozen = self.one(over.type[5:-1], "Object"), over.name, True
        else:
            item = self.one("int", "char", "long", "String", "Object", "int[]", *self.types)
            kind = self.one(item, item, *(works.WIDER.get(item, []) if item in PRIMITIVES else ["Object"] if "[" not in item else []))
            text = self.exact(item + "[]", here, 2)
        here.locals.append(Local(name, kind))
        body, _ = self.in_target(here, Target(True, False), lambda: self.braced(here, size))
        here.is_frozen = is_frozen
        del here.locals[count:]
        return "for (%s %s : %s) %s" % (kind, name, text, body), True

    def switch(self, here, size):
        count, target = len(here.locals), Target(False, True)
        kind = self.one("int", "int", "char")
        pool = [str(n) for n in range(-2, 6)] + ["65", "2147483647"] if kind == "int" else ["'a'", "'b'", "'Z'", "'0'", "'\\n'", "'\\101'", "'~'"]
        on = self.one("%s & 3" % works.at(works.EQUAL, self.exact("int", here, 2)), self.exact("int", here, 3)) if kind == "int" else self.exact("char", here, 2)
        labels = self.chance.sample(pool, self.one(1, 2, 3, 4))
        if "'\\101'" in labels and "65" in labels:
            labels.remove("65")
        labels.insert(self.chance.randrange(len(labels) + 1), "default") if self.is_likely(0.7) else None
        groups, ends, earlier = [], True, []
        here.targets.append(target)
        for n, label in enumerate(labels):
            text = "default:" if label == "default" else "case %s:" % label
            if n + 1 < len(labels) and self.is_likely(0.15):
                groups.append(text)
                continue
            body, ends = "", True
            for each in earlier:
                if not each.is_fixed and self.is_likely(0.3):
                    body += " %s = %s;" % (each.name, self.fitting(each.type, here, 1))
                    here.locals.append(each)
            if n + 1 < len(labels) or self.is_likely(0.9):
                parts, ends = self.statements(here, size)
                body += " " + " ".join(parts)
            if ends and self.is_likely(0.45):
                body, ends, target.is_left = body + " break;", False, True
            earlier += [each for each in here.locals[count:] if each not in earlier]
            del here.locals[count:]
            groups.append(text + body)
        here.targets.pop()
        return "switch (%s) { %s }" % (on, " ".join(groups)), ends or target.is_left or "default" not in labels

    def try_(self, here, size):
        pool = ["X", "X", "Z", "W", "RuntimeException", "Exception", "Throwable", "Error", *self.chance.sample(MACHINE, 4)]
        caught = []
        for each in self.chance.sample(pool, self.one(0, 1, 1, 2, 3)):
            caught += [name for name in ((["Y"] if self.is_likely(0.3) else []) + ["X"] if each == "X" else [each]) if name not in caught]
        caught = [each for n, each in enumerate(caught) if not any(self.is_below(each, other) for other in caught[:n])]
        caught = caught if "X" in caught else [each for each in caught if each != "Y"]
        has_last = not caught or self.is_likely(0.5)
        handled, barrier = list(here.handled), here.barrier
        is_lost = has_last and self.is_likely(0.25)
        if is_lost:
            here.barrier = len(here.targets)
        here.handled = handled + [each for each in caught if each in ("X", "Exception", "Throwable")]
        count = len(here.locals)
        body, ends = self.block(here, size)
        here.handled = handled
        text = "try { %s%s }" % ("T.may(%s); " % self.index(here, 1) if "X" in caught else "", body)
        for each in caught:
            name = self.name()
            here.locals.append(Local(name, each, True))
            body, catch_ends = self.block(here, size)
            del here.locals[count:]
            ends = ends or catch_ends
            said = 'T.say("%d " + T.told(%s)); ' % (self.number(), name) if self.is_likely(0.8) else ""
            said += "T.say(%s.getMessage() + %s.code++); " % (name, name) if each in ("X", "Y") and self.is_likely(0.3) else ""
            text += " catch (%s %s) { %s%s }" % (each, name, said, body)
        here.barrier = barrier
        if has_last:
            body, last_ends = self.block(here, size)
            if is_lost and last_ends:
                body, last_ends = body + " " + self.jump(here)[0], False
            elif not is_lost and not last_ends:
                body, last_ends = "if (T.out()) { %s }" % body, True
            text += " finally { %s }" % body
            ends = ends and last_ends
        return text, ends

    # Arrays by other types, and strings that are one object or not.

    def arrays(self, here, size):
        """An array that is stored into, cast and asked for its type by a type above its own."""
        inner, name, other = self.one("String", "int", "char", "Object", "int[]", *self.types), self.name(), self.name()
        parts = ["Object %s = %s;" % (name, self.exact(inner + "[]", here, 2))]
        parts.append('T.say(T.show(%s) + (%s instanceof %s[]) + (%s instanceof Object[]));' % (name, name, self.one("int", "String", "Object", "char[]", *self.types), name))
        kind = self.one("Object", inner, inner, *self.types) if inner in self.types or inner == "String" else self.one(inner, inner, "Object")
        parts.append("%s[] %s = (%s[]) %s;" % (kind, other, kind, name))
        parts.append(self.one(
            lambda: "%s[%s] = %s;" % (other, self.index(here, 2), self.fitting(kind, here, 2) if kind != "int[]" else "new int[] { 1 }"),
            lambda: '%s = new %s[%s][%s]; T.say(T.show(%s));' % (name, self.one("int", "String", "long"), self.traced("int", here, 1), 'T.t("size", %s)' % self.one("-1", "2", "0"), name),
            lambda: '%s[%s] = %s;' % (other, 'T.t("at", %s)' % self.one("0", "5", "-1"), self.fitting(kind, here, 1) if kind != "int[]" else "null"),
            lambda: "%s = null; %s[%s] = %s;" % (other, other, self.traced("int", here, 0), self.fitting(kind, here, 1) if kind != "int[]" else "null"))())
        return " ".join(parts), True

    def texts(self, here, size):
        """Whether strings are one object: literals and concatenations of literals are, others are new."""
        name, left, right = self.name(), self.one("a", "b", "cd"), self.one("1", "c", "")
        whole = '"%s"' % (left + right)
        parts = ["String %s = %s;" % (name, whole)]
        for _ in range(self.one(1, 2)):
            other = self.one(whole, '"%s" + "%s"' % (left, right), '("%s" + "%s")' % (left, right), '"%s" + 1' % left, '%s + ""' % name, 'T.t("%d", %s)' % (self.number(), name), '"" + %s' % name)
            parts.append("T.say(\"\" + (%s %s %s));" % (name, self.one("==", "!="), other))
        parts.append(self.one("", 'PrintStream %s = System.out; %s.println(%s);' % (name + "o", name + "o", self.exact(self.printable(), here, 2))))
        return " ".join(parts), True

    # What needs the library that jgen ships.

    def library(self, here, size):
        return " ".join(self.one(self.lists, self.lists, self.maps, self.builders, self.raw, self.boxed)(here)), True

    def lists(self, here):
        lists = [each for each in here.locals if each.type.startswith("List<")]
        if not lists or self.is_likely(0.3):
            item, name = self.one("String", "Integer", *self.types), self.name()
            yield "List<%s> %s = new ArrayList<%s>();" % (item, name, item)
            for _ in range(self.one(1, 2, 3)):
                yield "%s.add(%s);" % (name, self.fitting(item, here, 2))
            lists = [Local(name, "List<%s>" % item)]
            here.locals += lists
        of = self.one(*lists)
        for _ in range(self.one(0, 1, 2)):
            yield from self.changed(of.name, of.type[5:-1], here)

    def changed(self, name, item, here):
        value, place = self.fitting(item, here, 2), self.index(here, 2)
        yield self.one('T.say("" + %s + %s.size());' % (name, name), 'T.say("" + %s.indexOf(%s) + %s.contains(%s) + %s.isEmpty());' % (name, value, name, value, name))
        if not here.is_frozen:
            yield self.one('T.say("" + %s.set(%s, %s));' % (name, place, value), "%s.remove(%s);" % (name, place), 'T.say("" + %s.remove((Object) %s));' % (name, works.at(works.UNARY, value)),
                           "%s.add(%s);" % (name, value), self.iterated(name, item, here), "%s.clear();" % name)

    def iterated(self, name, item, here):
        cursor, found = self.name(), self.name()
        return "Iterator<%s> %s = %s.iterator(); while (%s.hasNext()) { %s %s = %s.next(); if (%s) %s.remove(); T.say(\"\" + %s); } %s" % (
            item, cursor, name, cursor, item, found, cursor, self.test(here), cursor, found, self.one("", "", "", cursor + ".next();", cursor + ".remove();"))

    def maps(self, here):
        name, item = self.name(), self.one("String", *self.types)
        key = lambda: self.one('"k"', '"l"', "null", self.exact("String", here, 1))
        yield "Map<String, %s> %s = new HashMap<String, %s>();" % (item, name, item)
        for _ in range(self.one(1, 2, 3)):
            yield 'T.say("" + %s.put(%s, %s) + %s.size());' % (name, key(), self.fitting(item, here, 2), name)
        yield 'T.say("" + %s.get(%s) + %s.containsKey(%s));' % (name, key(), name, key())

    def builders(self, here):
        name = self.name()
        yield "StringBuilder %s = new StringBuilder(%s);" % (name, self.one("", self.exact("String", here, 1)))
        for _ in range(self.one(1, 2)):
            yield "%s%s;" % (name, "".join(".append(%s)" % self.exact(self.one(self.printable(), "char[]"), here, 2) for _ in range(self.one(1, 2, 3))))
        yield 'T.say("" + %s + %s.length());' % (name, name)

    def raw(self, here):
        """A list with what it should not hold; only where javac casts too is it asked for it."""
        name, raw, got = self.name(), self.name(), self.name()
        yield "List<String> %s = new ArrayList<String>(); List %s = %s;" % (name, raw, name)
        for _ in range(self.one(1, 2)):
            yield "%s.add(%s);" % (raw, self.fitting(self.one("String", "Integer", *self.types), here, 1))
        yield self.one("String %s = %s.get(0); T.say(%s);" % (got, name, got), "for (String %s : %s) T.say(%s);" % (got, name, got), "T.say(%s.get(0));" % name,
                       "T.say(\"\" + %s.get(0).length());" % name, 'T.say("" + %s);' % name)

    def boxed(self, here):
        if not self.has_boxes:
            return
        name, item = self.name(), self.one("String", "String", "Integer", *self.types)
        yield "Box<%s> %s = %s;" % (item, name, self.made("Box<%s>" % item, here, 2))
        here.locals.append(Local(name, "Box<%s>" % item))
        source = self.name()
        yield self.one("%s.put(%s);" % (name, self.fitting(item, here, 2)), 'T.say("" + %s + Box.made);' % name, "Source<%s> %s = %s; T.say(\"\" + %s.get());" % (item, source, name, source),
                       "%s.item = %s;" % (name, self.fitting(item, here, 2)), 'T.say("" + %s.get());' % name)

    # Members and whole texts.

    def method_text(self, of, each):
        head = "%s%s%s%s %s" % (each.access, "static " if each.is_static else "", "abstract " if each.is_abstract and not of.is_interface else "", each.type, each.name)
        names = self.parameter_names(of, each.params)
        head += "(%s)%s" % (", ".join("%s %s" % pair for pair in zip(each.params, names)), " throws %s" % each.throws[0] if each.throws else "")
        if each.is_abstract:
            return head + ";"
        here = Here(of, not each.is_static, each.type, list(each.throws), [Local(name, kind) for kind, name in zip(each.params, names)])
        return "%s { %s }" % (head, self.body(here, each.type, 'T.say("%s.%s"); ' % (of.name, each.name) if self.is_likely(0.7) else ""))

    def parameter_names(self, of, params):
        """Names of parameters; some hide fields."""
        pool = [each for each in "abcdefg"]
        self.chance.shuffle(pool)
        return [pool[n] if self.is_likely(0.4) else "p%d" % n for n in range(len(params))]

    def body(self, here, result, said):
        text, ends = self.block(here, self.one(0, 1, 1, 2))
        end = " return %s;" % self.fitting(result, here, 2) if ends and result != "void" else ""
        return "if (T.out()) return%s; %s%s%s" % ("" if result == "void" else " " + self.default(result, here), said, text, end)

    def constructor_text(self, of, n, each):
        names = self.parameter_names(of, each.params)
        params = [Local(name, kind) for kind, name in zip(each.params, names)]
        early = Here(of, False, "none", [], list(params), is_guarded=False, sees_blank=False)
        arguments = lambda other: ", ".join(self.exact(kind, early, 1) for kind in other.params)
        text, is_delegating = "", n > 0 and self.is_likely(0.4)
        if is_delegating:
            text = "this(%s); " % arguments(of.constructors[0])
        elif of.above:
            above = [other for other in self.types[of.above].constructors if other.access != "private "]
            if any(other.params for other in above) or self.is_likely(0.2):
                text = "super(%s); " % arguments(self.one(*above))
        here = Here(of, True, "void", [], params, sees_blank=False)
        if not is_delegating:
            for blank in of.fields:
                if blank.is_blank:
                    hidden, blank_here = blank.name in names, Here(of, True, "none", [], params, is_guarded=False, sees_blank=False)
                    text += "%s%s = %s; " % ("this." if hidden or self.is_likely(0.3) else "", blank.name, self.fitting(blank.type, blank_here, 1))
        head = "%s%s(%s)" % (each.access, of.name, ", ".join("%s %s" % pair for pair in zip(each.params, names)))
        return "%s { %s%s }" % (head, text, self.body(here, "void", 'T.say("%s(%d)"); ' % (of.name, n)))

    def field_text(self, of, each):
        mods = "" if of.is_interface else "%s%s%s" % ("private " if each.is_private else "", "static " if each.is_static else "", "final " if each.is_final else "")
        reach = {other.name for other in of.fields[:of.fields.index(each)] if other.is_static == each.is_static}
        reach |= {other.name for other in of.fields if other.is_static and not each.is_static}
        here = Here(of, not each.is_static, "none", [], reach=reach, is_guarded=False, sees_blank=False)
        if each.is_blank or not each.is_final and not of.is_interface and self.is_likely(0.3 if each.type in PRIMITIVES else 0.1):
            value = ""
        elif each.is_final:
            is_constant = each.is_static and self.is_likely(0.4) and each.type in PRIMITIVES + ["String"]
            value = self.plain(self.one(*[low for low in PRIMITIVES if self.is_below(low, each.type)], each.type), here) if is_constant else self.traced(each.type, here, 0)
        else:
            value = self.fitting(each.type, here, self.one(1, 2)) if self.is_likely(0.15 if each.is_static else 0.3) else self.traced_plain(each.type, here)
        return "%s%s %s%s;" % (mods, each.type, each.name, " = " + value if value else "")

    def traced_plain(self, kind, here):
        value = self.plain(kind, here)
        return 'T.t("%d", %s)' % (self.number(), value) if kind in PRIMITIVES and self.is_likely(0.5) else value

    def told_by(self, of):
        """What makes the text of an object the same everywhere: toString or hashCode."""
        shown = [each.name for each in of.fields if each.type in PRIMITIVES and (not each.is_static or self.is_likely(0.3))]
        value = " + " + self.one(*shown) if shown and self.is_likely(0.7) else ""
        has_text = self.is_likely(0.6)
        if has_text and (not of.above or self.is_likely(0.4)):
            yield 'public String toString() { %sreturn %s"%s"%s; }' % (self.one("", 'T.say("text of %s"); ' % of.name), "super.toString() + " if of.above and self.is_likely(0.4) else "", of.name, value)
        if not of.above:
            yield "public int hashCode() { %sreturn %s; }" % (self.one("", 'T.say("hash of %s"); ' % of.name), self.one(*works.INTS))
        if self.is_likely(0.15):
            yield 'public boolean equals(Object o) { T.say("%s equals"); return o instanceof %s%s; }' % (of.name, of.name, self.one("", " && o == this"))

    def type_text(self, of):
        members = [self.field_text(of, each) for each in of.fields]
        others = [self.constructor_text(of, n, each) for n, each in enumerate(of.constructors)] + [self.method_text(of, each) for each in of.methods]
        others += self.told_by(of) if not of.is_interface else []
        self.chance.shuffle(others)
        for each in others:
            members.insert(self.chance.randrange(len(members) + 1), each)
        head = "%s%s %s" % ("abstract " if of.is_abstract else "", "interface" if of.is_interface else "class", of.name)
        head += " extends " + of.above if of.above else ""
        head += " %s %s" % ("extends" if of.is_interface else "implements", ", ".join(of.faces)) if of.faces else ""
        return "%s {\n%s\n}\n" % (head, "\n".join("  " + each for each in members))

    def deep_text(self, owner):
        """A method that comes back to itself, so that what is thrown below passes several frames."""
        here = Here(owner, False, "int", ["X"], [Local("n", "int", True), Local("p", self.one("int", "String", "int[]"))])
        below = "deep(n - 1, p)"
        bottom = self.one("throw new X(\"deep\");", "throw new Z();", "return %s;" % self.exact("int", here, 2), "return 1 / (n - n);", "throw new Y(\"deep\");")
        again = self.one("return %s;" % self.binary(self.one("+", "-", "*", "^"), below, self.exact("int", here, 1)), "return T.t(\"deep\", n) + %s;" % below,
                         "int r = %s; return r + n;" % below, "T.may(n); return %s;" % below)
        caught = self.one("", "", "catch (%s e) { T.say(n + T.told(e)); if (n < 2) throw e; return n; }" % self.one("X", "Z", "RuntimeException"),
                          "catch (RuntimeException e) { T.say(\"again\"); throw new X(\"\" + n); }", "catch (X e) { throw new W(e.getMessage()); }")
        last = self.one("" if caught else "finally { }", "finally { T.say(\"out \" + n); }", "finally { if (n == 3) return -1; }", "finally { if (n == 2) throw new Z(\"last\"); T.fuel--; }")
        return "static int deep(int n, %s p) throws X {\n    try { T.say(\"deep \" + n); if (n < 1) { %s } if (T.out()) T.may(1); %s } %s %s\n  }" % (
            here.locals[1].type, bottom, again, caught, last), here.locals[1].type

    def act(self, here):
        """Some statements that can end, most of them with what they throw caught."""
        text, ends = self.block(here, self.one(1, 2))
        if self.is_likely(0.8):
            return "try { %s } catch (%s e) { T.say(\"%d \" + T.told(e)); }" % (text, self.one("Throwable", "Exception", "RuntimeException") if "X" in here.handled else "RuntimeException", self.number())
        return "{ %s }" % text if ends else "if (!T.out()) { %s }" % text

    def main_text(self, words):
        owner = Planned("M", 99)
        parts, calls, count = [], [], self.one(2, 3, 4, 5)
        for n in range(count):
            here = Here(owner, False, "void", ["X"], [Local("w", "String[]")])
            acts = [self.act(here) for _ in range(self.one(2, 3, 4, 5, 6))]
            parts.append("static void go%d(String[] w) throws X {\n    %s\n  }" % (n, "\n    ".join(acts)))
            call = "T.fuel = %d; go%d(w);" % (self.one(*FUEL), n)
            if n + 1 < count or self.is_likely(0.5):
                call = "try { %s } catch (Throwable e) { T.say(T.told(e)); }" % call
            calls.append(call)
        if self.is_likely(0.5):
            text, kind = self.deep_text(owner)
            parts.append(text)
            calls.insert(0, 'T.fuel = 50; try { T.say("" + deep(%s, %s)); } catch (Throwable e) { T.say(T.told(e)); }' % (
                self.one("2", "3", "4", "5", "30"), self.exact(kind, Here(owner, False), 1)))
        if self.is_likely(0.4):
            parts.insert(0, "static %s own = %s;" % self.one(("int", self.traced("int", Here(owner, False), 1)), ("A", "null"), ("String", self.exact("String", Here(owner, False), 2))))
        if words:
            calls.insert(0, "for (String each : w) T.say(each + each.length());")
        return "class M {\n  %s\n  public static void main(String[] w) throws Exception {\n    %s\n  }\n}\n" % ("\n  ".join(parts), "\n    ".join(calls))


def program(chance, maker=Actor):
    maker = maker(chance)
    maker.plan()
    words = [maker.one("a", "bc", "-1", "x=y", "long", "é") for _ in range(maker.one(0, 1, 2, 2, 3))]
    texts = [maker.type_text(each) for each in maker.types.values()]
    texts += [TRACE, FAULTS % maker.faults["W"], maker.main_text(words)]
    chance.shuffle(texts)
    package = "p." if maker.is_likely(0.2) else ""
    head = "package p;\n" if package else ""
    head += "import java.io.PrintStream;\n"
    head += "import java.util.*;\n" if maker.has_library else ""
    head += "import box.*;\n" if maker.has_boxes else ""
    cuts = sorted(chance.randrange(len(texts) + 1) for _ in range(maker.one(0, 0, 1, 2)))
    groups = [texts[start:end] for start, end in zip([0, *cuts], [*cuts, len(texts)])]
    files = {"P%d.java" % n: head + "".join(each) for n, each in enumerate(groups)}
    libraries = {}
    if maker.has_library:
        for name in SHIPPED:
            with open(os.path.join(LIBRARY, name), encoding="utf-8") as file:
                libraries[name] = file.read()
    if maker.has_boxes:
        libraries.update(BOXES)
    return Program({**files, **libraries}, list(libraries), words, package + "M")
