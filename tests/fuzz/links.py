"""What ties the places of a class to each other when an interface is extracted from it, and what holds a place back.

A step says that where one place changes another one has to; a need says that a place may not change. Both come with the form that asks
for it, as its node, and with the kind of what it asks. Each method `form_..` and `of_..` reads one form of the program.
"""
import itertools
from collections import defaultdict
from typing import NamedTuple

import declared
from declares import OBJECT, erased, is_static
from known import NULL, is_reference
from shapes import Shapes, changed, element, fixed, in_order, is_own, is_type_name, parts, places_in, wrapped
from syntax import walk

KINDS = ["ASSIGN", "MEMBER", "FIELD", "OVERRIDE", "OVERLOAD", "RESULT", "THROWS", "ARM", "ARGUMENT"]


class Step(NamedTuple):
    begin: object
    kind: str
    node: object
    to: object


class Need(NamedTuple):
    place: object
    kind: str
    node: object


class Links:
    """The places, steps and needs of an extraction: of a class, by the name of the new interface, with methods that the class declares."""

    def __init__(self, tree, of, name, methods):
        OBJECT[:] = [tree.known.program.object]
        self.tree, self.shapes = tree, Shapes(tree, of)
        self.known, self.program = tree.known, tree.known.program
        self.of, self.extracted = of, methods
        self.new_type = declared.Type(-1, list(of.mods), True, name, [], file=of.file)
        self.new, self.old = ("class", self.new_type, ()), ("class", of, ())
        self.places = self.shapes.places
        self.steps, self.needs = {}, {}
        self.members = read_members(self.program)
        self.overloaded = read_overloaded(self.program)
        self.families = read_families(self.program)
        self.nodes = {member.declared: member for node, of in tree.pairs for member in node.members if member.kind == "Method"}
        for node, owner in tree.pairs:
            if owner.file.is_user:
                self.owner = owner
                self.read_type(node)
        self.of_families()
        self.of_results()
        self.of_hiding()
        for node, owner in tree.pairs:
            if owner.file.is_user:
                self.of_joint(node, owner)

    def step(self, begin, kind, node, to):
        if begin is not to:
            self.steps[Step(begin, kind, node, to)] = None

    def need(self, place, kind, node):
        if place is not None:
            self.needs[Need(place, kind, node)] = None

    # What fits once places have changed.

    def fits(self, below, above):
        """As it is with the new interface above the class."""
        base, dims = parts(above)
        if base == self.new:
            return below == above or self.known.fits(below, wrapped(self.old, dims))
        return self.known.fits(below, above)

    def after(self, shape):
        """The type of a shape when its head has changed."""
        return changed(shape, shape.place, self.new)

    # Flows.

    def flow(self, node, value, target):
        """A value flows to what is declared."""
        if value.place is not None:
            if target.place is not None:
                self.step(value.place, "ASSIGN", node, target.place)
            elif not self.fits(self.after(value), target.kind):
                self.need(value.place, "ASSIGN", node)
        self.same_arguments(node, value, target)

    def same_arguments(self, node, value, target):
        """The arguments of a value's type, as they are at the head of the target, are those of the target."""
        if target.args:
            form = self.shapes.form(value, target.kind[1])
            for one, other in zip(form.args if form else (), target.args):
                self.equal(node, one, other)

    def equal(self, node, one, other):
        if one.place is not None and other.place is not None:
            self.step(one.place, "ARGUMENT", node, other.place)
            self.step(other.place, "ARGUMENT", node, one.place)
        else:
            self.need(one.place, "ARGUMENT", node)
            self.need(other.place, "ARGUMENT", node)
        for left, right in zip(one.args, other.args):
            self.equal(node, left, right)

    # Members and what is written in them.

    def read_type(self, node):
        for member in node.members:
            if member.kind == "Method":
                self.result = self.shapes.result(member.declared)
                self.form_parameters(member)
            for each in walk(member):
                form = getattr(self, "form_" + each.kind.lower(), None)
                if form:
                    form(each)

    def form_parameters(self, member):
        if member.declared in self.overloaded:
            for node, shape in zip(member.params, self.shapes.params(member.declared)):
                for place in places_in(shape):
                    self.need(place, "OVERLOAD", node)

    def form_var(self, node):
        if node.init is None:
            return
        target = self.shapes.local(node.local) if hasattr(node, "local") else self.shapes.field(node.use)
        if node.init.kind == "Items":
            self.need(target.place, "ASSIGN", node.init)
            self.items(node.init, target)
        else:
            self.flow(node.init, self.shapes.value(node.init), target)

    def items(self, node, target):
        for each in node.items:
            if each.kind == "Items":
                self.items(each, element(target))
            else:
                self.flow(each, self.shapes.value(each), element(target))

    def form_newfilled(self, node):
        self.items(node.items, fixed(node.type))

    def form_assign(self, node):
        if node.op is None:
            self.flow(node.value, self.shapes.value(node.value), self.shapes.value(node.to))

    def form_return(self, node):
        if node.value is not None:
            self.flow(node.value, self.shapes.value(node.value), self.result)

    def form_throw(self, node):
        self.need(self.shapes.value(node.value).place, "THROWS", node)

    def form_foreach(self, node):
        over = self.shapes.value(node.over)
        self.flow(node.over, self.item(over), self.shapes.local(node.local))

    def item(self, over):
        """What an enhanced for over a value gives."""
        if over.kind[0] == "array":
            return element(over)
        form = self.shapes.form(over, self.known.iterable)
        return form.args[0] if form.args else fixed(self.known.object)

    def form_cast(self, node):
        value, target = self.shapes.value(node.of), self.shapes.value(node)
        if target.args:
            self.need(value.place, "ARGUMENT", node)
        for of in self.heads_above_both(value, target):
            one, other = self.shapes.form(value, of), self.shapes.form(target, of)
            if one.kind == other.kind:
                for left, right in zip(one.args, other.args):
                    self.equal(node.of, left, right)

    def heads_above_both(self, one, other):
        """The generic types of which both have a parameterization above them."""
        if one.kind[0] != "class" or other.kind[0] != "class":
            return []
        return [of for of in self.program.types if of.params and all((self.shapes.form(each, of) or fixed(NULL)).args for each in (one, other))]

    def form_cond(self, node):
        if not is_reference(node.type):
            return
        arms = [self.shapes.value(node.yes), self.shapes.value(node.no)]
        for arm, other in (arms, arms[::-1]):
            if arm.place is not None:
                self.arm(node, arm, other)
        for each, arm in zip((node.yes, node.no), arms):
            self.same_arguments(each, arm, self.shapes.value(node))

    def arm(self, node, arm, other):
        new, inner = self.after(arm), self.shapes.value(node).place
        if other.place is not None or not self.fits(new, other.kind) and self.fits(other.kind, new):
            self.step(arm.place, "ARM", node, inner)
        elif not self.fits(new, other.kind):
            self.need(arm.place, "ARM", node)

    # Uses of members.

    def form_field(self, node):
        if not is_type_name(node.of) and node.use != "length":
            self.need(self.shapes.value(node.of).place, "FIELD", node)

    def form_call(self, node):
        through = None
        if not is_own(node):
            through = self.shapes.value(node.of)
            if through.place is not None and through.kind[0] == "class":
                self.member(node, through.place)
        kind = ("class", self.owner, ()) if node.of is None else ("class", self.program.meant(node.of.name, self.owner.file, None), ()) if through is None else through.kind
        candidates = self.known.candidates(kind, node.name, None if node.of is None else self.owner)
        self.arguments(node, through, candidates)

    def form_supermethod(self, node):
        above = ("class", self.known.superclass(self.owner), ())
        self.arguments(node, None, self.known.candidates(above, node.name, self.owner))

    def form_new(self, node):
        self.arguments(node, self.shapes.value(node), self.known.constructors(node.type, self.owner))

    def form_thiscall(self, node):
        self.arguments(node, None, self.known.constructors(("class", self.owner, ()), self.owner))

    def form_supercall(self, node):
        above = ("class", self.known.superclass(self.owner), ())
        self.arguments(node, None, self.known.constructors(above, self.owner))

    def member(self, node, place):
        """What a call on a place asks of the new interface: it has the extracted methods, and those of Object that these do not replace.

        An extracted method has in it the result and the exceptions that it has in the class, and those of Object are fixed.
        """
        method = node.use
        inherited = [each for each in self.program.object.methods() if not any(each in self.program.overridden(other) for other in self.extracted)]
        found = [each for each in inherited if each is method or each in self.program.overridden(method)]
        if is_static(method) or method not in self.extracted and not found:
            self.need(place, "MEMBER", node)
            return
        candidates = [each.declared for each in self.known.candidates(self.old, node.name, self.owner)]
        others = [each for each in self.extracted + inherited if each.name == method.name and len(each.params) == len(method.params)]
        if not all(self.is_met(each, candidates) for each in others):
            self.need(place, "OVERLOAD", node)
        if method not in self.extracted:
            result = self.program.result
            if result(found[0], found[0].owner) != result(method, method.owner):
                self.need(place, "RESULT", node)
            if set(self.known.thrown_by(found[0])) != set(self.known.thrown_by(method)):
                self.need(place, "THROWS", node)

    def is_met(self, method, candidates):
        return any(each is method or method in self.program.overridden(each) for each in candidates)

    def arguments(self, node, through, candidates):
        method = node.use
        if method is None:
            return
        if method not in self.overloaded:
            for each, param in zip(node.args, self.shapes.params(method)):
                self.flow(each, self.shapes.value(each), param if through is None else self.shapes.seen(through, method.owner, param))
            return
        candidates = [each for each in candidates if len(each.params) == len(node.args)]
        for n, each in enumerate(node.args):
            self.chosen_by(each, self.shapes.value(each), [candidate.params[n] for candidate in candidates])
        for each in candidates:
            if through is not None and each.declared.owner.params:
                for param in self.shapes.params(each.declared):
                    for place in places_in(self.shapes.seen(through, each.declared.owner, param)):
                        self.need(place, "OVERLOAD", node)

    def chosen_by(self, node, value, params):
        """An argument that has a part in which of several signatures is chosen."""
        for place in places_in(value):
            new = changed(value, place, self.new)
            if any(self.fits(value.kind, each) != self.fits(new, each) for each in params):
                self.need(place, "OVERLOAD", node)

    # Methods that override, hide, or are inherited together.

    def node_of(self, method):
        """The node of a user's method, or None."""
        return self.nodes[method] if method.owner.file.is_user else None

    def method_order(self, method):
        """Sorts methods by their nodes, the user's first and those of no file last."""
        node = self.nodes.get(method)
        return in_order(node) if node else (len(self.program.files), self.known.order[method])

    def param_pairs(self, one, other):
        """The parameters of two methods at one position: the node of the first one's, and both shapes."""
        node = self.node_of(one)
        return zip(node.params if node else (), self.shapes.params(one), self.shapes.params(other))

    def same_params(self, one, other):
        """The arguments of parameters, at the first method's."""
        for node, left, right in self.param_pairs(one, other):
            self.same_arguments(node, left, right)

    def of_families(self):
        """The parameters of methods that are tied by overriding. A place is in no family with a library's method, since no library names a user's type."""
        for family in self.families.values():
            first, *others = sorted(family, key=self.method_order)
            for each in others:
                for node, left, right in self.param_pairs(each, first):
                    if left.place is not None and right.place is not None:
                        self.step(left.place, "OVERRIDE", node, right.place)
                        self.step(right.place, "OVERRIDE", node, left.place)
                self.same_params(each, first)

    def next_above(self, method):
        """What a method overrides or hides, and no other such method does in turn."""
        table = self.program.overriding()
        above = table[method]
        def is_behind(each, other):
            return other is not each and each in table[other] and other not in table[each]
        return sorted((each for each in above if not any(is_behind(each, other) for other in above)), key=self.method_order)

    def of_results(self):
        """Results of methods that override or hide others."""
        for method, node in self.nodes.items():
            if node.is_constructor or not method.owner.file.is_user:
                continue
            for above in self.next_above(method):
                one, other = self.shapes.result(method), self.shapes.result(above)
                if one is not None and other is not None:
                    self.overriding_result(node, one, other)

    def overriding_result(self, node, one, other):
        if one.place is not None:
            if other.place is not None:
                self.step(one.place, "RESULT", node, other.place)
            elif not self.fits(self.after(one), other.kind):
                self.need(one.place, "RESULT", node)
        self.same_arguments(node, one, other)

    def of_hiding(self):
        """Parameters of static methods that hide others, and of those that they hide."""
        for method, node in self.nodes.items():
            if is_static(method) and method.owner.file.is_user:
                for above in self.next_above(method):
                    self.need_heads(method)
                    self.need_heads(above, method)
                    self.same_params(method, above)

    def need_heads(self, method, told_at=None):
        """The heads of a method's parameters stay; told at those of the method itself, or of another one."""
        node = self.node_of(told_at or method)
        for param, shape in zip(node.params if node else (), self.shapes.params(method)):
            self.need(shape.place, "OVERLOAD", param)

    def of_joint(self, node, owner):
        """Methods of one signature that a type inherits, no supertype of which has both as members."""
        groups = defaultdict(list)
        for each in sorted(self.program.inherited(owner), key=self.method_order):
            groups[self.program.signature(each, owner)].append(each)
        above = [self.members[each[1]] for each in self.program.direct_supers(owner)]
        for group in groups.values():
            pairs = [(one, other) for one, other in itertools.combinations(group, 2) if not any(one in each and other in each for each in above)]
            self.joint_params(pairs)
            self.joint_results(node, [pair for pair in pairs if not self.is_settled(*pair, group)])

    def are_family(self, one, other):
        return other in self.families.get(one, [one])

    def joint_params(self, pairs):
        """Star around the first method; `pairs` are in order."""
        pairs = [pair for pair in pairs if not self.are_family(*pair)]
        for one, other in pairs:
            self.need_heads(one)
            self.need_heads(other)
        for one, other in pairs:
            if one is pairs[0][0]:
                self.same_params(other, one)

    def is_settled(self, one, other, group):
        """Whether one of the two overrides the other, or a class's method that is inherited too overrides both."""
        overridden = self.program.overridden
        return (one in overridden(other) or other in overridden(one)
                or any(not each.owner.is_interface and {one, other} <= overridden(each) for each in group))

    def joint_results(self, node, pairs):
        for pair in pairs:
            for one, other in (pair, pair[::-1]):
                left, right = self.shapes.result(one), self.shapes.result(other)
                if left is not None and left.place is not None and right.place is None:
                    new = self.after(left)
                    if not self.fits(new, right.kind) and not self.fits(right.kind, new):
                        self.need(left.place, "RESULT", node)
        results = [self.shapes.result(each) for each in dict.fromkeys(itertools.chain(*pairs))]
        results = [each for each in results if each is not None]
        least = next((each for each in results if all(self.known.is_sub(erased(each.kind), erased(other.kind)) for other in results)), None)
        for each in results if least else ():
            if each is not least:
                self.same_arguments(node, least, each)


def read_members(program):
    return {of: set(program.members(of)) for of in program.types}


def read_overloaded(program):
    """The methods that are members of some type together with one of their name and number of parameters, but another signature; constructors alike."""
    found = set()
    for of in program.types:
        groups = defaultdict(dict)
        for each in program.members(of):
            groups[each.name, len(each.params)][each] = program.signature(each, of)
        for group in groups.values():
            if len(set(group.values())) > 1:
                found |= set(group)
        constructors = defaultdict(list)
        for each in of.constructors():
            constructors[len(each.params)].append(each)
        for group in constructors.values():
            found |= set(group) if len(group) > 1 else set()
    return found


def read_families(program):
    """The instance methods that overriding ties to each one, where it ties some."""
    table = {each: others for each, others in program.overriding().items() if not is_static(each)}
    tied = defaultdict(set)
    for each, others in table.items():
        for other in others:
            tied[each].add(other)
            tied[other].add(each)
    found = {}
    for begin in tied:
        if begin in found:
            continue
        family, open_ones = {begin}, [begin]
        while open_ones:
            for each in tied[open_ones.pop()] - family:
                family.add(each)
                open_ones.append(each)
        found.update(dict.fromkeys(family, family))
    return found
