"""The rules on declarations: S10 to S15, S17 to S20, S22 and S23, L6, L7, DR1 to DR20. They are read over all files of a program.

`first_broken` gives the rule that is named, with the file and the byte where it stands. Types are plain tuples here:

    ("void",)  ("prim", name)  ("class", declared type, arguments)  ("var", declared type, index)  ("array", element)

A generic class without arguments is the raw type. What a written type does not say is None.
"""
import functools
import itertools
from typing import NamedTuple

import declared
from declared import MEMBER, PART, TOP, UNIT, WRITTEN

MOST_TYPES = 4_096
MOST_METHODS = 65_536

BUILT_IN = b"""package java.lang;
import java.io.*;
public class Object { public Object() { } public String toString() { } public boolean equals(Object o) { } public int hashCode() { } }
public final class String {
  public int length() { } public char charAt(int i) { } public String substring(int i) { } public String substring(int i, int k) { }
  public int compareTo(String s) { } public boolean equals(Object o) { } public int hashCode() { } public String toString() { }
}
public final class System { public static final PrintStream out; }
public class Throwable {
  public Throwable() { } public Throwable(String s) { } public String getMessage() { } public String toString() { }
}
"""

STREAM = b"package java.io; public class PrintStream { public void println() { } %s }" % b" ".join(
    b"public void %s(%s v) { }" % (name, kind)
    for name in (b"print", b"println") for kind in b"boolean char int long char[] String Object".split())

EXCEPTIONS = [
    ("Throwable", "Exception Error"), ("Exception", "RuntimeException"),
    ("RuntimeException", "ArithmeticException NullPointerException ClassCastException ArrayStoreException "
                         "NegativeArraySizeException IndexOutOfBoundsException"),
    ("IndexOutOfBoundsException", "ArrayIndexOutOfBoundsException StringIndexOutOfBoundsException"),
    ("Error", "LinkageError"), ("LinkageError", "ExceptionInInitializerError NoClassDefFoundError"),
]


def exceptions_text():
    return b"package java.lang;" + b"".join(
        b"public class %s extends %s { public %s() { } public %s(String s) { } }" % (name, above.encode(), name, name)
        for above, names in EXCEPTIONS for name in names.encode().split())


class Found(NamedTuple):
    """A broken rule: `key` orders it among others."""
    key: tuple
    rule: str
    file: int
    at: int


def found(file, at, depth, rule):
    return Found((file.number, at, depth, int(rule.lstrip("SDR"))), rule, file.number, at)


def first_broken(texts, users):
    """The rule that is named for files with trees, of which the first `users` are the user's, or None.

    It is (rule, number of the file, offset); the last two are None where the rule has no place.
    """
    return first_broken_of(Program(texts, users))


def first_broken_of(program):
    for group in (profile_rules, size_rules, declaration_rules, member_rules):
        least = min(group(program), default=None)
        if least is not None:
            return least.rule, least.file, least.at
    return None


@functools.cache
def built_in_files():
    return [declared.read_file(text, -1, False) for text in (BUILT_IN, STREAM, exceptions_text())]


class Program:
    """The files and what they declare, the built-in types among them."""

    def __init__(self, texts, users):
        self.files = [declared.read_file(text, n, n < users) for n, text in enumerate(texts)]
        self.built_in = built_in_files()
        self.types = [each for file in self.built_in + self.files for each in file.types]
        self.own_types = [each for file in self.files for each in file.types]
        self.by_name = {}
        for each in self.types:
            self.by_name.setdefault(each.name, []).append(each)
        self.object = self.by_name["Object"][0]
        self.throwable = self.by_name["Throwable"][0]
        self.kept = {}

    def once(self, ask, *key):
        """What `ask` gives, asked once for each key."""
        key = (ask.__name__,) + key
        if key not in self.kept:
            self.kept[key] = ask()
        return self.kept[key]

    # Names.

    def meant(self, name, file, owner):
        """What a simple name means: ("var", type, index), a declared type, or None."""
        if owner is not None and name in owner.params:
            return ("var", owner, owner.params.index(name))
        seen = [each for each in self.by_name.get(name, []) if sees(file, each)]
        for level in (lambda each: imports_by_name(file, each),
                      lambda each: each.file.package == file.package, lambda each: imports_package(file, each)):
            fitting = [each for each in seen if level(each)]
            if fitting:
                return fitting[0]
        return None

    def head(self, written):
        """The declared type, or ("var", ..), that a written type begins with, or None."""
        if len(written.path) > 1:
            return None
        return self.meant(written.path[0], written.file, written.owner)

    def supers(self, of):
        return of.extends + of.implements

    def heads_above(self, of):
        """The declared types that a type's clauses name."""
        heads = [self.head(each) for each in self.supers(of)]
        return [each for each in heads if isinstance(each, declared.Type)]

    # Types.

    def said(self, written, dims=0):
        """The type that a written type says, with further brackets, or None."""
        if is_primitive(written):
            kind = ("prim", written.path[0])
        else:
            head = self.head(written)
            args = tuple(self.said(each) for each in written.args)
            if head is None or None in args:
                return None
            if isinstance(head, tuple):
                kind = None if args else head
            else:
                kind = ("class", head, args) if len(args) in (0, len(head.params)) else None
        if kind is None:
            return None
        for _ in range(written.dims + dims):
            kind = ("array", kind)
        return kind

    def direct_supers(self, of):
        """The types directly above a declared type, in its own variables."""
        def direct_supers():
            above = [self.said(each) for each in self.supers(of)]
            above = [each for each in above if each is not None and each[0] == "class"]
            needs_object = not of.extends if not of.is_interface else not above
            if needs_object and of is not self.object:
                above.insert(0, ("class", self.object, ()))
            return above
        return self.once(direct_supers, of)

    def above(self, kind):
        """The types directly above a class type."""
        _, of, args = kind
        above = self.direct_supers(of)
        if of.params and not args:
            return [erased(each) for each in above]
        return [put(each, of, args) for each in above]

    def all_above(self, kind):
        """The class types at and above one."""
        reached, open_ones = {kind: None}, [kind]
        while open_ones:
            for each in self.above(open_ones.pop()):
                if each not in reached:
                    reached[each] = None
                    open_ones.append(each)
        return list(reached)

    def self_type(self, of):
        return ("class", of, tuple(("var", of, n) for n in range(len(of.params))))

    def all_above_declared(self, of):
        def all_above_declared():
            return self.all_above(self.self_type(of))
        return self.once(all_above_declared, of)

    def seen_as(self, below, of):
        """The form in which `of` stands at or above a declared type, or None."""
        return next((each for each in self.all_above_declared(below) if each[1] is of), None)

    def is_sub(self, below, above):
        if below == above:
            return True
        if below[0] in ("void", "prim") or above[0] in ("void", "prim"):
            return False
        if above == ("class", self.object, ()):
            return True
        if below[0] == "array":
            return above[0] == "array" and self.is_sub(below[1], above[1])
        if below[0] == "var" or above[0] != "class":
            return False
        forms = self.all_above(below)
        return above in forms or (not above[2] and any(each[1] is above[1] for each in forms))

    def fits(self, below, above):
        """A subtype, or an unchecked conversion from a raw type."""
        if self.is_sub(below, above):
            return True
        if below[0] != "class" or above[0] != "class" or not above[1].params:
            return False
        forms = [each for each in self.all_above(below) if each[1] is above[1]]
        return bool(forms) and not any(each[2] for each in forms)

    def is_throwable(self, of):
        """Throwable or a class below it, as the superclasses say."""
        seen = set()
        while isinstance(of, declared.Type) and of not in seen and not of.is_interface:
            if of is self.throwable:
                return True
            seen.add(of)
            of = self.head(of.extends[0]) if of.extends else None
        return False

    def is_checked(self, kind):
        unchecked = [self.by_name[name][0] for name in ("RuntimeException", "Error")]
        return not any(self.is_sub(kind, ("class", each, ())) for each in unchecked)

    # Methods.

    def members(self, of):
        """The methods that are members of a type: its own, and those of its supertypes that it does not replace."""
        def members():
            return list(dict.fromkeys(of.methods() + self.inherited(of)))
        return self.once(members, of)

    def inherited(self, of):
        def inherited():
            handed = dict.fromkeys(each for above in self.direct_supers(of) for each in self.handed_down(above[1]))
            own = {self.signature(each, of) for each in of.methods()}
            return [each for each in handed if self.signature(each, of) not in own]
        return self.once(inherited, of)

    def handed_down(self, of):
        return [each for each in self.members(of) if "private" not in each.mods]

    def signature(self, method, seen):
        """The name and the parameter types of a method as a type at or below its own sees it."""
        def signature():
            return (method.name,) + tuple(self.in_terms_of(seen, method, self.said(each.type, each.dims)) for each in method.params)
        return self.once(signature, method, seen)

    def result(self, method, seen):
        if method.result is None:
            return ("void",)
        return self.in_terms_of(seen, method, self.said(method.result))

    def in_terms_of(self, seen, method, kind):
        form = self.seen_as(seen, method.owner)
        return put(kind, method.owner, form[2]) if form[2] or not method.owner.params else erased(kind)

    def erased_signature(self, method):
        return (method.name,) + tuple(erased(self.said(each.type, each.dims)) for each in method.params)

    def replaced(self, method):
        """The methods whose place a method takes, and those whose place these take."""
        def replaced():
            all_of_them = {}
            for above in self.direct_supers(method.owner):
                for each in self.handed_down(above[1]):
                    if self.signature(each, method.owner) == self.signature(method, method.owner):
                        all_of_them.update(dict.fromkeys([each] + self.replaced(each)))
            return list(all_of_them)
        return self.once(replaced, method)

    def meetings(self, of):
        """The pairs of one signature that a class has from its superclass and from an interface."""
        def meetings():
            if of.is_interface or of is self.object:
                return []
            inherited = set(self.inherited(of))
            first, *others = self.direct_supers(of)
            left = [each for each in self.handed_down(first[1]) if each in inherited]
            right = {each: None for above in others for each in self.handed_down(above[1]) if each in inherited}
            return [(one, other) for one in left for other in right
                    if one is not other and self.signature(one, of) == self.signature(other, of)]
        return self.once(meetings, of)

    def agree_below(self, one, other):
        """One signature in every declared type below those that declare the two."""
        below = [each for each in self.types if self.seen_as(each, one.owner) and self.seen_as(each, other.owner)]
        return all(self.signature(one, each) == self.signature(other, each) for each in below)

    def overridden(self, method):
        """The methods that an instance method overrides, also through a third."""
        return self.overriding()[method]

    def overriding(self):
        """What each method overrides: at once, or through a third, where the two have one signature wherever both are seen."""
        def overriding():
            table = {each: set(self.overridden_at_once(each)) for of in self.types for each in of.methods()}
            more = True
            while more:
                more = False
                for lower, reached in table.items():
                    further = {upper for third in reached for upper in table[third]} - reached - {lower}
                    new = {upper for upper in further if self.agree_below(lower, upper)}
                    reached |= new
                    more = more or bool(new)
            return table
        return self.once(overriding)

    def overridden_at_once(self, method):
        met = [other for of in self.types for one, other in self.meetings(of)
               if one is method and not one.owner.is_interface and self.agree_below(one, other)]
        return [each for each in self.replaced(method) + met if is_static(each) == is_static(method)]


def is_primitive(written):
    return written.path[0] in ("int", "long", "char", "boolean")


def is_static(member):
    return "static" in member.mods


def is_abstract(method):
    return method.owner.is_interface or "abstract" in method.mods


def sees(file, of):
    """A type is public or of the file's package; a library file sees no user's type."""
    return (of.file.package == file.package or "public" in of.mods) and (file.is_user or not of.file.is_user)


def imports_by_name(file, of):
    return any(not each.all and each.path == of.file.package + [of.name] for each in file.imports)


def imports_package(file, of):
    return of.file.package == ["java", "lang"] or any(each.all and each.path == of.file.package for each in file.imports)


def put(kind, of, args):
    """A type with arguments in the place of a generic type's variables."""
    if kind is None or not args:
        return kind
    if kind[0] == "var" and kind[1] is of:
        return args[kind[2]]
    if kind[0] == "array":
        return ("array", put(kind[1], of, args))
    if kind[0] == "class":
        return ("class", kind[1], tuple(put(each, of, args) for each in kind[2]))
    return kind


OBJECT = []


def erased(kind):
    """The erasure. A variable's is Object, since variables have no bounds here."""
    if kind is None:
        return None
    if kind[0] == "var":
        return ("class", OBJECT[0], ())
    if kind[0] == "array":
        return ("array", erased(kind[1]))
    if kind[0] == "class":
        return ("class", kind[1], ())
    return kind


# Rules on what the profile leaves out, and on names.

def profile_rules(program):
    for file in program.files:
        yield from file_rules(program, file)
        for written in file.written:
            yield from written_rules(program, written)
        for each in file.types:
            yield from profile_rules_of_type(program, each)
    yield from repeated_types(program)


def file_rules(program, file):
    users = [each for each in program.files if each.is_user]
    libraries = [each for each in program.files if not each.is_user]
    if file.is_user and file.package != users[0].package:
        yield found(file, file.at, UNIT, "S14")
    taken = [each.package for each in libraries] + [["java", "lang"], ["java", "io"]]
    if file.is_user and file.package in taken:
        yield found(file, file.at, UNIT, "S15")
    if not file.is_user and not file.package:
        yield found(file, file.at, UNIT, "S20")
    if file.package and any(file.package[0] == each.name for built in program.built_in for each in built.types):
        yield found(file, file.at, UNIT, "S22")


def written_rules(program, written):
    if written.is_argument and (written.dims or is_generic(program.head(written))):
        yield found(written.file, written.at, WRITTEN, "S12")
    if len(written.path) > 1:
        yield found(written.file, written.at, WRITTEN, "S13")
    if written.is_element and written.args:
        yield found(written.file, written.at, WRITTEN, "S17")


def is_generic(head):
    return isinstance(head, declared.Type) and bool(head.params)


def profile_rules_of_type(program, each):
    file = each.file
    if file.is_user and each.params:
        yield found(file, each.at, TOP, "S10")
    if file.is_user and has_generic_super(program, each):
        yield found(file, each.at, TOP, "S11")
    if not file.is_user and "protected" in each.mods:
        yield found(file, each.at, TOP, "S18")
    packages = {"java"} | {other.package[0] for other in program.files if other.package}
    if each.name in packages:
        yield found(file, each.at, TOP, "S22")
    for member in each.members:
        yield from profile_rules_of_member(each, member)


def has_generic_super(program, of):
    """A generic type above it, directly or through library types."""
    seen, open_ones = set(), list(program.heads_above(of))
    while open_ones:
        each = open_ones.pop()
        if each.params:
            return True
        if each not in seen and not each.file.is_user:
            seen.add(each)
            open_ones += program.heads_above(each)
    return False


def profile_rules_of_member(of, member):
    file = of.file
    if not file.is_user and "protected" in member.mods:
        yield found(file, member.at, MEMBER, "S18")
    if not isinstance(member, declared.FieldMember) and not member.is_constructor and is_left_out(member):
        yield found(file, member.at, MEMBER, "S19")


def is_left_out(method):
    bare = ("getClass", "notify", "notifyAll", "clone", "finalize")
    return method.name == "wait" or (method.name in bare and not method.params)


def repeated_types(program):
    """S23 at each type whose name an earlier one has."""
    names = {each.name for file in program.built_in for each in file.types}
    for each in program.own_types:
        if each.name in names:
            yield found(each.file, each.at, TOP, "S23")
        names.add(each.name)


# Sizes.

def size_rules(program):
    if len(program.own_types) > MOST_TYPES:
        yield Found((6,), "L6", None, None)
    count = sum(len(each.methods()) + len(each.constructors()) for each in program.own_types)
    if count > MOST_METHODS:
        yield Found((7,), "L7", None, None)


# DR1 to DR12.

def declaration_rules(program):
    OBJECT[:] = [program.object]
    for file in program.files:
        for each in file.imports:
            if not names_something(program, file, each):
                yield found(file, each.at, TOP, "DR1")
        for each in file.types:
            yield from type_rules(program, each)


def names_something(program, file, each):
    if each.all:
        others = [other for other in program.files + program.built_in if file.is_user or not other.is_user]
        return any(other.package == each.path for other in others)
    types = program.by_name.get(each.path[-1], [])
    return any(of.file.package == each.path[:-1] and sees(file, of) for of in types)


def type_rules(program, of):
    file = of.file
    for written in header_types(of):
        if not is_well_named(program, written):
            yield found(file, written.at, WRITTEN, "DR1")
    yield from super_rules(program, of)
    if is_above_itself(program, of):
        yield found(file, of.at, TOP, "DR3")
    if is_below_two(program, of):
        yield found(file, of.at, TOP, "DR4")
    if len(set(of.params)) < len(of.params):
        yield found(file, of.at, TOP, "DR8")
    if not has_right_modifiers(of.mods, ["public", "abstract"] + ([] if of.is_interface else ["final"])):
        yield found(file, of.at, TOP, "DR9")
    if of.params and program.is_throwable(of):
        yield found(file, of.at, TOP, "DR12")
    yield from field_rules(of)
    yield from method_rules(program, of)


def header_types(of):
    """The types that a declaration writes outside bodies and initialisers, with their arguments."""
    tops = of.extends + of.implements + [each.type for each in of.fields()]
    for each in of.methods() + of.constructors():
        tops += ([each.result] if each.result else []) + [param.type for param in each.params] + each.throws
    return list(itertools.chain.from_iterable(with_arguments(each) for each in tops))


def with_arguments(written):
    yield written
    for each in written.args:
        yield from with_arguments(each)


def is_well_named(program, written):
    if is_primitive(written):
        return True
    head = program.head(written)
    if head is None:
        return False
    count = 0 if isinstance(head, tuple) else len(head.params)
    return len(written.args) in (0, count)


def super_rules(program, of):
    """DR2, at supertypes and at the types of throws clauses."""
    for clause, wants_interface in ((of.extends, of.is_interface), (of.implements, True)):
        for each in clause:
            if program.head(each) is not None and is_wrong_super(program.head(each), each, wants_interface):
                yield found(of.file, each.at, WRITTEN, "DR2")
    said = []
    for each in of.extends + of.implements:
        kind = program.said(each)
        if kind is not None and kind in said:
            yield found(of.file, each.at, WRITTEN, "DR2")
        said.append(kind)
    for method in of.methods() + of.constructors():
        for each in method.throws:
            if program.head(each) is not None and not program.is_throwable(program.head(each)):
                yield found(of.file, each.at, WRITTEN, "DR2")


def is_wrong_super(head, written, wants_interface):
    if isinstance(head, tuple) or head.is_interface != wants_interface:
        return True
    return "final" in head.mods or (bool(head.params) and not written.args)


def is_above_itself(program, of):
    seen, open_ones = set(), list(program.heads_above(of))
    while open_ones:
        each = open_ones.pop()
        if each is of:
            return True
        if each not in seen:
            seen.add(each)
            open_ones += program.heads_above(each)
    return False


def is_below_two(program, of):
    forms = {}
    for _, each, args in program.all_above_declared(of):
        if args:
            forms.setdefault(each, set()).add(args)
    return any(len(args) > 1 for args in forms.values())


def has_right_modifiers(mods, allowed, apart=()):
    """None twice, none that does not belong there, one access at most, and no pair that contradicts itself."""
    if len(set(mods)) < len(mods) or not set(mods) <= set(allowed):
        return False
    if len(set(mods) & {"public", "protected", "private"}) > 1 or {"abstract", "final"} <= set(mods):
        return False
    return not ("abstract" in mods and set(mods) & set(apart))


def field_rules(of):
    names = set()
    access = ["public"] if of.is_interface else ["public", "protected", "private"]
    for member in of.fields():
        if not has_right_modifiers(member.mods, access + ["static", "final"]):
            yield found(of.file, member.at, MEMBER, "DR9")
        for each in member.vars:
            if each.name in names:
                yield found(of.file, each.at, PART, "DR5")
            names.add(each.name)
            if of.is_interface and not each.has_value:
                yield found(of.file, each.at, PART, "DR12")


def method_rules(program, of):
    for rule, methods in (("DR6", of.methods()), ("DR7", of.constructors())):
        seen = set()
        for each in methods:
            signature = program.erased_signature(each)
            if None not in signature and signature in seen:
                yield found(of.file, each.at, MEMBER, rule)
            seen.add(signature)
    for each in of.methods() + of.constructors():
        names = [param.name for param in each.params]
        for n, param in enumerate(each.params):
            if param.name in names[:n]:
                yield found(of.file, param.at, PART, "DR8")
        if not has_right_modifiers(each.mods, *modifiers_of_method(each)):
            yield found(of.file, each.at, MEMBER, "DR9")
        if has_wrong_body(each):
            yield found(of.file, each.at, MEMBER, "DR10")
        if each.is_constructor and each.name != of.name:
            yield found(of.file, each.at, MEMBER, "DR11")


def modifiers_of_method(method):
    if method.is_constructor:
        return ["public", "protected", "private"], []
    if method.owner.is_interface:
        return ["public", "abstract"], []
    return ["public", "protected", "private", "abstract", "static", "final"], ["private", "static", "final"]


def has_wrong_body(method):
    if method.owner.is_interface:
        return method.has_body
    if "abstract" in method.mods:
        return method.has_body or "abstract" not in method.owner.mods
    return not method.has_body


# DR13 to DR20.

ACCESS = ["private", "package", "protected", "public"]


def member_rules(program):
    OBJECT[:] = [program.object]
    for of in program.own_types:
        for method in of.methods():
            for other in program.replaced(method):
                for rule in override_rules(program, method, other, of):
                    yield found(of.file, method.at, MEMBER, rule)
        for one, other in program.meetings(of):
            for rule in meeting_rules(program, one, other, of):
                yield found(of.file, of.at, TOP, rule)
        for rule in inherited_rules(program, of):
            yield found(of.file, of.at, TOP, rule)


def meeting_rules(program, one, other, of):
    if is_static(one) != is_static(other):
        return ["DR17"]
    if one.owner.is_interface or not program.agree_below(one, other):
        return []
    return override_rules(program, one, other, of)


def override_rules(program, one, other, of):
    """The rules that a method breaks with one that it overrides or hides, both as `of` sees them."""
    if is_static(one) != is_static(other):
        return ["DR17"]
    broken = []
    if not is_right_result(program, program.result(one, of), program.result(other, of)):
        broken.append("DR13")
    if access(one) < access(other):
        broken.append("DR14")
    if not throws_no_more(program, one, other):
        broken.append("DR15")
    if "final" in other.mods:
        broken.append("DR16")
    return broken


def is_right_result(program, result, above):
    return result == above or program.is_sub(result, above)


def access(method):
    if method.owner.is_interface:
        return ACCESS.index("public")
    return max([ACCESS.index(each) for each in method.mods if each in ACCESS], default=ACCESS.index("package"))


def throws_no_more(program, one, other):
    allowed = [program.said(each) for each in other.throws]
    thrown = [program.said(each) for each in one.throws]
    return all(not program.is_checked(each) or any(program.is_sub(each, may) for may in allowed) for each in thrown)


def inherited_rules(program, of):
    members, inherited = program.members(of), program.inherited(of)
    if not of.is_interface and "abstract" not in of.mods and any(is_open(program, each, of) for each in members):
        yield "DR18"
    for one, other in pairs(inherited):
        if (program.signature(one, of) == program.signature(other, of) and not one_fits(program, one, other, of)
                and not is_overridden_by_one(program, one, other, inherited)):
            yield "DR19"
    for one, other in pairs(members):
        if (program.erased_signature(one) == program.erased_signature(other)
                and program.signature(one, of) != program.signature(other, of)):
            yield "DR20"


def pairs(methods):
    """The pairs of methods with one name and one number of parameters."""
    alike = {}
    for each in methods:
        alike.setdefault((each.name, len(each.params)), []).append(each)
    for group in alike.values():
        yield from itertools.combinations(group, 2)


def is_open(program, method, of):
    """An abstract member that no member with a body overrides."""
    if not is_abstract(method):
        return False
    closing = [each for each in program.members(of) if not is_abstract(each) and not is_static(each)]
    return not any(method in program.overridden(each) for each in closing)


def one_fits(program, one, other, of):
    left, right = program.result(one, of), program.result(other, of)
    if left == right:
        return True
    return left[0] != "prim" and right[0] != "prim" and (program.fits(left, right) or program.fits(right, left))


def is_overridden_by_one(program, one, other, inherited):
    """Whether a method that a class declares, one of these, overrides both."""
    return any(not each.owner.is_interface and {one, other} <= program.overridden(each) for each in inherited)
