"""What bodies ask of the declarations: subtypes and what fits, casts, member fields and methods, access, and the choice of a candidate.

Types are the tuples of declares.py, and besides ("null",). What a type says of a member is read through the type's form of the owner.
"""
from dataclasses import dataclass
from typing import NamedTuple

from declares import erased, put

VOID, NULL = ("void",), ("null",)
INT, LONG, CHAR, BOOLEAN = [("prim", name) for name in ("int", "long", "char", "boolean")]
NUMERIC = (INT, LONG, CHAR)
WIDER = {CHAR: (INT, LONG), INT: (LONG,), LONG: (), BOOLEAN: ()}


@dataclass(eq=False)
class Field:
    """A declared field: its owner, its variable, its type, and whether it is static, final, and final without an initialiser."""
    owner: object
    var: object
    type: tuple
    is_static: bool
    is_final: bool
    is_blank: bool
    mods: list


class Method(NamedTuple):
    """A method or constructor that stands to choose: its declaration and its parameter types at this use. A default one has none."""
    declared: object
    params: tuple


def is_reference(kind):
    return kind[0] not in ("prim", "void")


def is_static(method):
    return "static" in method.mods


class Known:
    def __init__(self, program):
        self.program = program
        self.object = ("class", program.object, ())
        self.string = ("class", program.by_name["String"][0], ())
        self.throwable = ("class", program.throwable, ())
        methods = [each for of in program.types for each in of.methods()]
        self.order = {each: n for n, each in enumerate(methods)}
        self.iterable = self.usable_iterable()

    # Subtypes.

    def is_sub(self, below, above):
        if below == above:
            return True
        if below == NULL:
            return is_reference(above)
        if above == NULL:
            return False
        if below[0] == "prim" and above[0] == "prim":
            return above in WIDER[below]
        return self.program.is_sub(below, above)

    def fits(self, below, above):
        return self.is_sub(below, above) or below != NULL and above != NULL and self.program.fits(below, above)

    def is_throwable(self, kind):
        return kind[0] == "class" and self.is_sub(kind, self.throwable)

    def usable_iterable(self):
        """The library's Iterable, where it is as the enhanced for needs it."""
        def only(package, name):
            of = next((each for each in self.program.by_name.get(name, []) if each.file.package == package and not each.file.is_user), None)
            return of if of and of.is_interface and len(of.params) == 1 else None
        iterable, iterator = only(["java", "lang"], "Iterable"), only(["java", "util"], "Iterator")
        if iterable is None or iterator is None:
            return None
        wanted = [(iterable, "iterator", ("class", iterator, (("var", iterable, 0),))), (iterator, "hasNext", BOOLEAN),
                  (iterator, "next", ("var", iterator, 0))]
        for of, name, result in wanted:
            found = [each for each in self.methods(of, name) if not each.params]
            if not found or self.program.result(found[0], of) != result or found[0].throws:
                return None
        return iterable

    def item_of(self, kind):
        """What an enhanced for over a type that is no array gives, or None."""
        if self.iterable is None or kind[0] != "class":
            return None
        forms = [each for each in self.program.all_above(kind) if each[1] is self.iterable]
        with_args = [each for each in forms if each[2]]
        return with_args[0][2][0] if with_args else self.object if forms else None

    # Casts.

    def may_cast(self, one, other):
        """Whether references of one type may be cast to the other; the same holds of comparing them."""
        if NULL in (one, other):
            return True
        one, other = erased(one), erased(other)
        if self.is_sub(one, other) or self.is_sub(other, one):
            return True
        if one[0] == other[0] == "array":
            return is_reference(one[1]) and is_reference(other[1]) and self.may_cast(one[1], other[1])
        if one[0] != "class" or other[0] != "class":
            return False
        return is_loose(one, other) or is_loose(other, one)

    def is_unchecked_cast(self, operand, target):
        """A cast to a type variable or to arguments that the operand's type does not determine."""
        if operand == NULL or not is_reference(target):
            return False
        leaf = target
        while leaf[0] == "array":
            leaf = leaf[1]
        if leaf[0] == "var":
            return not self.is_sub(operand, target)
        return target[0] == "class" and target[2] != () and not self.determines(operand, target)

    def determines(self, operand, target):
        if operand[0] != "class":
            return False
        _, of, args = target
        for form in self.program.all_above(operand):
            if form[2]:
                own = self.program.seen_as(of, form[1])
                if own and all(("var", of, n) in own[2] for n in range(len(of.params))) and put(own, of, args) == form:
                    return True
        return False

    # Members.

    def self_type(self, of):
        return self.program.self_type(of)

    def superclass(self, of):
        above = self.program.direct_supers(of)
        return above[0][1] if above and not above[0][1].is_interface and not of.is_interface else None

    def seen_type(self, through, owner, declared, is_static_member=False):
        """The type of a member as a type sees it: substituted, erased where it is raw, or as declared."""
        if is_static_member or declared is None or not owner.params:
            return declared
        form = self.form(through, owner)
        return put(declared, owner, form[2]) if form[2] else erased(declared)

    def form(self, through, owner):
        """The form in which an owner stands above a type. Variables and arrays have the members of Object."""
        if through[0] != "class":
            through = self.object
        forms = [each for each in self.program.all_above(through) if each[1] is owner]
        return next((each for each in forms if each[2]), forms[0])

    def is_raw_use(self, through, owner, kinds):
        """Whether a raw type stands between, and its erasure changes one of the types."""
        return bool(owner.params) and not self.form(through, owner)[2] and any(erased(each) != each for each in kinds)

    def own_fields(self, of):
        def own_fields():
            found = []
            for member in of.fields():
                for var in member.vars:
                    still = of.is_interface or "static" in member.mods
                    final = of.is_interface or "final" in member.mods
                    blank = final and not still and not var.has_value
                    found.append(Field(of, var, self.program.said(member.type, var.dims), still, final, blank, member.mods))
            return found
        return self.program.once(own_fields, of)

    def member_fields(self, of):
        def member_fields():
            own = self.own_fields(of)
            names = {each.var.name for each in own}
            above = dict.fromkeys(each for kind in self.program.direct_supers(of) for each in self.member_fields(kind[1]))
            return own + [each for each in above if "private" not in each.mods and each.var.name not in names]
        return self.program.once(member_fields, of)

    def field(self, of, name):
        """The one member field of a name, or None."""
        found = [each for each in self.member_fields(of) if each.var.name == name]
        return found[0] if len(found) == 1 else None

    def methods(self, of, name):
        """The member methods of a name, one of each signature."""
        def methods():
            groups = {}
            for each in self.program.members(of):
                if each.name == name:
                    groups.setdefault(self.program.signature(each, of), []).append(each)
            return [self.counted(group, of) for group in groups.values()]
        return self.program.once(methods, of, name)

    def counted(self, group, of):
        """Of members of one signature the one that counts: the type's own, what its superclass counts, the first declared."""
        own = [each for each in group if each.owner is of]
        if own or len(group) == 1:
            return (own or group)[0]
        above = self.superclass(of)
        if above is not None:
            inherited = [each for each in self.methods(above, group[0].name) if each in group]
            if inherited:
                return inherited[0]
        return min(group, key=self.order.get)

    def candidates(self, through, name, user=None):
        """The methods of a name that a type has; where a using class is given, only those that it may use."""
        of = through[1] if through[0] == "class" else self.program.object
        found = self.methods(of, name)
        if user is not None:
            found = [each for each in found if self.is_accessible(each, each.owner, user)]
        return [self.method(each, through) for each in found]

    def method(self, each, through):
        params = [self.program.said(param.type, param.dims) for param in each.params]
        return Method(each, tuple(self.seen_type(through, each.owner, param, is_static(each)) for param in params))

    def constructors(self, through, user):
        """The constructors of a class type that a class may use; one without a declaration is the default one."""
        of = through[1]
        declared = of.constructors()
        if not declared:
            return [] if of.file.number < 0 else [Method(None, ())]
        return [self.method(each, through) for each in declared if self.is_accessible(each, of, user)]

    def is_accessible(self, member, owner, user):
        if "private" in member.mods:
            return owner is user
        return owner.is_interface or "public" in member.mods or owner.file.package == user.file.package

    def choose(self, candidates, args):
        """The one applicable candidate that is at least as specific as each other one, or None."""
        fitting = [each for each in candidates if len(each.params) == len(args)
                   and all(self.fits(arg, param) for arg, param in zip(args, each.params))]
        best = [each for each in fitting if all(self.is_as_specific(each, other) for other in fitting)]
        return best[0] if len(best) == 1 else None

    def is_as_specific(self, one, other):
        return all(self.is_sub(left, right) for left, right in zip(one.params, other.params))

    def thrown_by(self, declared):
        """The checked classes that a method or constructor declares."""
        if declared is None:
            return []
        return [kind for kind in (self.program.said(each) for each in declared.throws) if self.program.is_checked(kind)]


def is_loose(one, other):
    """One is an interface, and the other an interface or a class that is not final."""
    return one[1].is_interface and (other[1].is_interface or "final" not in other[1].mods)
