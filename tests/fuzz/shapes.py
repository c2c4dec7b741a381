"""Types together with where they are read from: the places of a class in the user's files, and the shape of each value.

A place is the node of a type that names the class: as the head of the declared type of a local, loop variable, parameter, field or result, or
as a type argument. A conditional whose type has the class as its head is a place too, its node being the conditional.
"""
from typing import NamedTuple

from declares import erased
from known import is_reference, is_static
from syntax import walk
from values import Local


class Shape(NamedTuple):
    """A type, the place of its head under all brackets (or None), and the shapes of its arguments."""
    kind: tuple
    place: object = None
    args: tuple = ()


def fixed(kind):
    """A type that is read from no place."""
    args = tuple(fixed(each) for each in kind[2]) if kind[0] == "class" else ()
    return Shape(kind, None, args)


def parts(kind):
    """What stands under all array brackets, and how many there are."""
    dims = 0
    while kind[0] == "array":
        kind, dims = kind[1], dims + 1
    return kind, dims


def wrapped(kind, dims):
    for _ in range(dims):
        kind = ("array", kind)
    return kind


def put(shape, of, args):
    """A shape with the arguments in the place of a generic type's variables."""
    base, dims = parts(shape.kind)
    if base[0] == "var" and base[1] is of:
        found = args[base[2]]
        return Shape(wrapped(found.kind, dims), found.place, found.args)
    if not shape.args:
        return shape
    own = tuple(put(each, of, args) for each in shape.args)
    return Shape(wrapped(("class", base[1], tuple(each.kind for each in own)), dims), shape.place, own)


def element(shape):
    return Shape(shape.kind[1], shape.place, shape.args)


def places_in(shape):
    """The places of a shape, its head first."""
    found = [shape.place] if shape.place is not None else []
    for each in shape.args:
        found += places_in(each)
    return list(dict.fromkeys(found))


def changed(shape, place, new):
    """The type where one place of a shape has become another type without arguments."""
    base, dims = parts(shape.kind)
    if shape.place is place:
        base = new
    elif shape.args:
        base = ("class", base[1], tuple(changed(each, place, new) for each in shape.args))
    return wrapped(base, dims)


class Shapes:
    """The places of a class, and the shapes of what is declared and of values."""

    def __init__(self, tree, of):
        self.known = tree.known
        self.program = tree.known.program
        self.of = of
        self.units = [unit for unit, file in zip(tree.units, self.program.files) if file.is_user]
        self.nodes = {}
        self.holders = {}
        self.places = []
        self.kept = {}
        for unit in self.units:
            self.read_unit(unit)
        self.places.sort(key=in_order)
        self.are_places = set(self.places)

    def read_unit(self, unit):
        for node in walk(unit):
            if node.kind == "Type":
                self.nodes[node.file, node.at] = node
                self.places += [each for each in node.args if self.is_named(each)]
            for each in declared_types(node):
                self.places += [each] if self.is_named(each) else []
            if node.kind in ("Local", "FieldDecl"):
                self.holders.update({var: node.ty for var in node.vars})
            elif node.kind in ("Param", "ForEach"):
                self.holders[node] = node.ty
            elif node.kind == "Cond" and node.type is not None and is_reference(node.type) and parts(node.type)[0] == ("class", self.of, ()):
                self.places.append(node)

    def is_named(self, node):
        return not node.is_primitive and node.head == self.of.name

    def place_of(self, node):
        return node if node in self.are_places else None

    # What is declared.

    def written(self, written, dims=0):
        """The shape of a type that a declaration writes."""
        kind = self.program.said(written, dims)
        node = self.nodes.get((written.file.number, written.at))
        args = tuple(self.written(each) for each in written.args)
        return Shape(kind, self.place_of(node), args)

    def typed(self, node, kind):
        """The shape of a type that stands in a body, of which the type is known."""
        base, _ = parts(kind)
        args = tuple(self.typed(each, inner) for each, inner in zip(node.args, base[2])) if base[0] == "class" else ()
        return Shape(kind, self.place_of(node), args)

    def local(self, local):
        return self.typed(self.holders[local.node], local.type)

    def field(self, field):
        holder = next(each for each in field.owner.fields() if field.var in each.vars)
        return self.written(holder.type, field.var.dims)

    def result(self, method):
        """The shape of a method's result, or None."""
        return self.written(method.result) if method.result else None

    def params(self, method):
        return [self.written(each.type, each.dims) for each in method.params] if method else []

    # What a receiver sees.

    def form(self, shape, owner):
        """The shape in which a declared type stands at or above a class type, or None."""
        if shape.kind[0] != "class":
            return None
        of = shape.kind[1]
        own = self.program.seen_as(of, owner)
        if own is None:
            return None
        return fixed(erased(own)) if of.params and not shape.args else put(fixed(own), of, shape.args)

    def seen(self, through, owner, shape):
        """The shape of a member's type as a receiver sees it, which may be left out where the owner is not generic."""
        if not owner.params:
            return shape
        form = self.form(through, owner)
        return put(shape, owner, form.args) if form.args else fixed(erased(shape.kind))

    # Values.

    def value(self, node):
        if id(node) not in self.kept:
            reader = getattr(self, "of_" + node.kind.lower(), None)
            self.kept[id(node)] = reader(node) if reader else fixed(node.type)
        return self.kept[id(node)]

    def of_name(self, node):
        return self.local(node.use) if isinstance(node.use, Local) else self.field(node.use)

    def of_field(self, node):
        if node.use == "length":
            return fixed(node.type)
        shape = self.field(node.use)
        return shape if node.use.is_static else self.seen(self.value(node.of), node.use.owner, shape)

    def of_superfield(self, node):
        return self.field(node.use)

    def of_index(self, node):
        return element(self.value(node.of))

    def of_call(self, node):
        shape = self.result(node.use)
        if shape is None or is_static(node.use) or is_own(node):
            return shape
        return self.seen(self.value(node.of), node.use.owner, shape)

    def of_supermethod(self, node):
        return self.result(node.use)

    def of_new(self, node):
        return self.typed(node.ty, node.type)

    def of_cast(self, node):
        return self.typed(node.ty, node.type)

    def of_paren(self, node):
        return self.value(node.of)

    def of_assign(self, node):
        return self.value(node.to)

    def of_cond(self, node):
        if not is_reference(node.type):
            return fixed(node.type)
        larger = node.yes if node.yes.type == node.type else node.no
        return Shape(node.type, self.place_of(node), self.value(larger).args)


def in_order(node):
    """What sorts nodes of user files in the order of their numbers."""
    return node.file, node.number


def is_own(node):
    """A call without a receiver, or one by the name of a type."""
    return node.of is None or is_type_name(node.of)


def is_type_name(node):
    return node.kind == "Name" and node.use is None


def declared_types(node):
    """The types that a node declares something with, those of catches aside."""
    if node.kind in ("Local", "FieldDecl", "ForEach"):
        return [node.ty]
    if node.kind == "Method":
        return ([node.result] if node.result else []) + [each.ty for each in node.params]
    return []
