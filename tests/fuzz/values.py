"""The rules on types that speak of values and of the types written in bodies: T1 to T3, T6, T8 and T18 to T60.

A node that breaks a rule has no type, and neither has one that reads a node without a type; a rule counts only where all that it
reads has one. `found` collects what is broken, as (node, number).
"""
from syntax import plain
from known import BOOLEAN, CHAR, INT, LONG, NULL, NUMERIC, VOID, Field, erased, is_reference, is_static

SHIFTS = ("<<", ">>", ">>>")


class Local:
    """A local or a parameter."""

    def __init__(self, name, kind, is_final, node):
        self.name, self.type, self.is_final, self.node = name, kind, is_final, node


def promoted(*kinds):
    return LONG if LONG in kinds else INT


class Values:
    def __init__(self, known, owner, file):
        self.known = known
        self.program = known.program
        self.owner = owner
        self.file = file
        self.found = []
        self.unchecked = []
        self.locals = []
        self.has_this = False
        self.is_static_member = False

    def fail(self, node, number):
        self.found.append((node, number))

    def hold(self, is_right, node, number, kind):
        """The type, where a rule holds."""
        if not is_right:
            self.fail(node, number)
            return None
        return kind

    # Written types.

    def written(self, node, dims=0):
        """The type that a type expression says, or None."""
        kind = ("prim", node.head) if node.is_primitive else self.named_type(node)
        if kind is None:
            return None
        for _ in range(node.dims + dims):
            kind = ("array", kind)
        return kind

    def named_type(self, node):
        args = [self.written(each) for each in node.args]
        head = self.program.meant(node.head, self.file, self.owner)
        if head is None:
            return self.fail(node, 1)
        if isinstance(head, tuple):
            if self.is_static_member:
                self.fail(node, 3)
            return self.hold(not args, node, 2, None if self.is_static_member else head)
        if len(args) not in (0, len(head.params)):
            return self.fail(node, 2)
        return None if None in args else ("class", head, tuple(args))

    # Values.

    def value(self, node):
        """The type of a value, or None."""
        kind = self.performed(node)
        if kind == VOID:
            node.type = None
            return self.fail(node, 6)
        return kind

    def performed(self, node):
        """The type of an expression that may be a call of a void method."""
        node.type = getattr(self, "of_" + node.kind.lower())(node)
        return node.type

    def all_values(self, nodes):
        """The types of all, or None where one has none."""
        kinds = [self.value(each) for each in nodes]
        return None if None in kinds else kinds

    def flow(self, node, kind, target, rule_node, number):
        """A value of a type flows to a variable; False where it does not fit."""
        if not self.known.fits(kind, target):
            self.fail(rule_node, number)
            return False
        if not self.known.is_sub(kind, target):
            self.unchecked.append(node)
        return True

    # Literals.

    def of_number(self, node, under_minus=False):
        bits = 63 if node.long else 31
        most = 2 ** bits + under_minus if node.decimal else 2 ** (bits + 1)
        return self.hold(node.value < most, node, 19 if node.long else 18, LONG if node.long else INT)

    def of_char(self, node):
        return CHAR

    def of_text(self, node):
        return self.known.string

    def of_bool(self, node):
        return BOOLEAN

    def of_null(self, node):
        return NULL

    def of_this(self, node):
        return self.hold(self.has_this, node, 24, self.known.self_type(self.owner))

    # Names and fields.

    def local(self, name):
        return next((each for each in reversed(self.locals) if each.name == name), None)

    def of_name(self, node):
        local = self.local(node.name)
        if local is not None:
            node.use = local
            return local.type
        field = self.known.field(self.owner, node.name)
        if field is None:
            return self.fail(node, 25)
        node.use = field
        kind = self.known.seen_type(self.known.self_type(self.owner), field.owner, field.type, field.is_static)
        return self.hold(field.is_static or self.has_this, node, 25, kind)

    def receiver(self, node):
        """What stands before a dot: ("type", declared type) or ("value", type), or None."""
        if node.kind == "Name" and self.local(node.name) is None and self.known.field(self.owner, node.name) is None:
            of = self.program.meant(node.name, self.file, None)
            return self.hold(of is not None, node, 26, ("type", of))
        kind = self.value(node)
        return kind and ("value", kind)

    def of_field(self, node):
        receiver = self.receiver(node.of)
        if receiver is None:
            return None
        sort, kind = receiver
        if sort == "type":
            node.use = self.accessible_field(kind, node.name)
            return self.hold(node.use and node.use.is_static, node, 28, node.use and node.use.type)
        if kind[0] == "array" and node.name == "length":
            node.use = "length"
            return INT
        node.use = self.accessible_field(kind[1], node.name) if kind[0] == "class" else None
        if node.use is None:
            return self.fail(node, 27)
        return self.known.seen_type(kind, node.use.owner, node.use.type, node.use.is_static)

    def accessible_field(self, of, name):
        field = self.known.field(of, name)
        return field if field and self.known.is_accessible(field, field.owner, self.owner) else None

    def of_superfield(self, node):
        above = self.known.superclass(self.owner)
        node.use = self.accessible_field(above, node.name) if above else None
        if not self.has_this or node.use is None:
            return self.fail(node, 30)
        return self.known.seen_type(self.known.self_type(self.owner), node.use.owner, node.use.type, node.use.is_static)

    def of_index(self, node):
        kinds = self.all_values([node.of, node.index])
        if kinds is None:
            return None
        of, at = kinds
        return self.hold(of[0] == "array" and at in (INT, CHAR), node, 31, of[-1])

    # Calls.

    def of_call(self, node):
        receiver = ("own", self.known.self_type(self.owner)) if node.of is None else self.receiver(node.of)
        args = self.all_values(node.args)
        if receiver is None:
            return None
        sort, kind = receiver
        if sort == "type":
            kind = ("class", kind, ())
        if sort == "value" and (not is_reference(kind) or kind == NULL):
            return self.fail(node, 33)
        candidates = self.known.candidates(kind, node.name, None if sort == "own" else self.owner)
        chosen = self.chosen(node, candidates, args, 36)
        if chosen is None:
            return None
        if sort == "own" and not is_static(chosen.declared) and not self.has_this:
            return self.fail(node, 32)
        if sort == "type" and not is_static(chosen.declared):
            return self.fail(node, 34)
        return self.result(node, kind, chosen, args)

    def chosen(self, node, candidates, args, number):
        """The chosen candidate, noted at the node, or None."""
        if args is None:
            return None
        found = self.known.choose(candidates, args)
        if found is None:
            return self.fail(node, number)
        node.use = found.declared
        return found

    def flow_arguments(self, node, chosen, args):
        """Notes the unchecked conversions of arguments; whether there are some."""
        count = len(self.unchecked)
        for value, kind, param in zip(node.args, args, chosen.params):
            self.flow(value, kind, param, node, 36)
        return len(self.unchecked) > count

    def note_raw(self, node, through, declared):
        kinds = [self.program.said(each.type, each.dims) for each in declared.params] if declared else []
        if declared and not is_static(declared) and self.known.is_raw_use(through, declared.owner, kinds):
            self.unchecked.append(node)

    def result(self, node, through, chosen, args):
        is_unchecked = self.flow_arguments(node, chosen, args)
        declared = chosen.declared
        self.note_raw(node, through, declared)
        if declared.result is None:
            return VOID
        kind = self.known.seen_type(through, declared.owner, self.program.said(declared.result), is_static(declared))
        return erased(kind) if is_unchecked else kind

    def of_supermethod(self, node):
        args = self.all_values(node.args)
        above = self.known.superclass(self.owner)
        if args is None:
            return None
        if not self.has_this or above is None:
            return self.fail(node, 35)
        through = self.known.self_type(self.owner)
        candidates = [self.known.method(each.declared, through) for each in self.known.candidates(("class", above, ()), node.name, self.owner)]
        chosen = self.chosen(node, candidates, args, 36)
        if chosen is None:
            return None
        if chosen.declared.owner.is_interface or "abstract" in chosen.declared.mods:
            return self.fail(node, 35)
        return self.result(node, through, chosen, args)

    def of_new(self, node):
        kind, args = self.written(node.ty), self.all_values(node.args)
        if kind is None or args is None:
            return None
        if kind[0] != "class" or kind[1].is_interface or "abstract" in kind[1].mods:
            return self.fail(node, 38)
        return kind if self.construct(node, kind, args, 38) else None

    def construct(self, node, kind, args, number):
        """Chooses a constructor of a class type; False where there is none."""
        chosen = self.chosen(node, self.known.constructors(kind, self.owner), args, number)
        if chosen is None:
            return False
        self.flow_arguments(node, chosen, args)
        self.note_raw(node, kind, chosen.declared)
        return True

    # Arrays.

    def of_newarray(self, node):
        kind, sizes = self.written(node.ty), self.all_values(node.sizes)
        if kind is None or sizes is None:
            return None
        if kind[0] == "var" or not all(each in (INT, CHAR) for each in sizes):
            return self.fail(node, 40)
        for _ in range(len(sizes) + node.extra):
            kind = ("array", kind)
        return kind

    def of_newfilled(self, node):
        kind = self.written(node.ty)
        is_right = self.items(node.items, kind)
        leaf = kind
        while leaf and leaf[0] == "array":
            leaf = leaf[1]
        if leaf and leaf[0] == "var":
            return self.fail(node, 41)
        return kind if is_right else None

    def items(self, node, kind):
        """Whether items fit an array of a type, which may be None."""
        is_right = kind is not None
        if kind is not None and kind[0] != "array":
            self.fail(node, 8)
            is_right, kind = False, None
        for each in node.items:
            is_right = self.item(each, kind and kind[1]) and is_right
        return is_right

    def item(self, node, kind):
        if node.kind == "Items":
            return self.items(node, kind)
        value = self.value(node)
        return value is not None and kind is not None and self.flow(node, value, kind, node, 8)

    # Operators.

    def of_paren(self, node):
        return self.value(node.of)

    def of_unary(self, node):
        if node.op == "-" and node.of.kind == "Number":
            kind = node.of.type = self.of_number(node.of, True)
        else:
            kind = self.value(node.of)
        if kind is None:
            return None
        if node.op == "!":
            return self.hold(kind == BOOLEAN, node, 43, BOOLEAN)
        return self.hold(kind in NUMERIC, node, 42, promoted(kind))

    def of_step(self, node):
        kind = self.variable(node.of)
        if kind is None:
            return None
        is_final = self.require_not_final(node, node.of)
        return self.hold(kind in NUMERIC, node, 44, None if is_final else kind)

    def of_cast(self, node):
        target, kind = self.written(node.ty), self.value(node.of)
        if target is None or kind is None:
            return None
        if target[0] == "prim":
            is_right = kind in NUMERIC and target in NUMERIC or kind == target == BOOLEAN
            return self.hold(is_right, node, 55, target)
        if not is_reference(kind) or not self.known.may_cast(kind, target):
            return self.fail(node, 56)
        if self.known.is_unchecked_cast(kind, target):
            self.unchecked.append(node)
        return target

    def of_binary(self, node):
        kinds = [self.value(node.left), self.value(node.right)]
        if node.op in ("&&", "||") and not set(kinds) <= {None, BOOLEAN}:
            return self.fail(node, 52)
        if None in kinds:
            return None
        number, kind = self.operate(node.op, *kinds)
        return self.hold(kind is not None, node, number, kind)

    def operate(self, op, left, right):
        """The rule of an operator, and the type of what it gives, None where the rule does not hold."""
        both = left in NUMERIC and right in NUMERIC
        if op == "+" and self.known.string in (left, right):
            return 46, self.known.string
        if op in ("*", "/", "%", "-", "+"):
            return 45, promoted(left, right) if both else None
        if op in SHIFTS:
            return 47, promoted(left) if both else None
        if op in ("<", ">", "<=", ">="):
            return 48, BOOLEAN if both else None
        if op in ("==", "!="):
            if is_reference(left) and is_reference(right):
                return 50, BOOLEAN if self.known.may_cast(left, right) else None
            return 49, BOOLEAN if both or left == right == BOOLEAN else None
        if op in ("&", "|", "^"):
            return 51, promoted(left, right) if both else BOOLEAN if left == right == BOOLEAN else None
        return 52, BOOLEAN if left == right == BOOLEAN else None

    def of_instanceof(self, node):
        kind, target = self.value(node.of), self.written(node.ty)
        if kind is None or target is None:
            return None
        leaf = target
        while leaf[0] == "array":
            leaf = leaf[1]
        is_right = is_reference(kind) and is_reference(target) and leaf[0] != "var" and self.known.may_cast(kind, target)
        return self.hold(is_right, node, 57, BOOLEAN)

    def of_cond(self, node):
        test, arms = self.value(node.test), self.all_values([node.yes, node.no])
        if test is not None and test != BOOLEAN:
            self.fail(node, 7)
        if arms is None:
            return None
        yes, no = arms
        if is_reference(yes) and is_reference(no):
            kind = no if self.known.is_sub(yes, no) else yes if self.known.is_sub(no, yes) else None
            kind = self.hold(kind is not None, node, 54, kind)
        else:
            kind = self.hold(yes == no or set(arms) == {INT, LONG}, node, 53, yes if yes == no else LONG)
        return kind if test == BOOLEAN else None

    # Assignments.

    def variable(self, node):
        """The type of what is assigned."""
        kind = self.value(node)
        inner = plain(node)
        if inner.use == "length" and kind is not None:
            inner.type = node.type = None
            return self.fail(inner, 29)
        return kind

    def require_not_final(self, node, to):
        """Whether a final variable is assigned where it may not be."""
        use = plain(to).use
        is_free = getattr(node, "is_direct", False) and isinstance(use, Field) and use.is_blank and use.owner is self.owner
        if not isinstance(use, (Local, Field)) or not use.is_final or is_free:
            return False
        self.fail(node, 60)
        return True

    def of_assign(self, node):
        kind, value = self.variable(node.to), self.value(node.value)
        if kind is None:
            return None
        is_final = self.require_not_final(node, node.to)
        if value is None:
            return None
        if node.op is not None:
            return self.compound(node, kind, value, is_final)
        is_right = self.flow(node.value, value, kind, node, 58)
        self.note_raw_field(node)
        return kind if is_right and not is_final else None

    def compound(self, node, kind, value, is_final):
        _, result = self.operate(node.op, kind, value)
        if result == self.known.string:
            is_right = node.op == "+" and kind == self.known.string
        else:
            is_right = result is not None and (kind in NUMERIC and result in NUMERIC or kind == result == BOOLEAN)
        return self.hold(is_right, node, 59, None if is_final else kind)

    def note_raw_field(self, node):
        to = plain(node.to)
        if to.kind == "Field" and isinstance(to.use, Field) and not to.use.is_static and to.of.type:
            if self.known.is_raw_use(to.of.type, to.use.owner, [to.use.type]):
                self.unchecked.append(node)
