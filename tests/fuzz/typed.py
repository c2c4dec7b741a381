"""The rules on types that speak of statements and declarations: T4, T5, T7 to T17 and T39, and the walk over a program.

`Typed` collects what is broken and the unchecked operations of a whole program; `first_broken` and `places` say it in order.
"""
from syntax import read_unit, walk
from known import BOOLEAN, CHAR, INT, NULL, Known
from values import Local, Values


class Typed:
    """The trees of a program with the types of their values. `pairs` joins each tree of a type with its declaration."""

    def __init__(self, program, texts, only_users=False):
        self.known = Known(program)
        self.units = [read_unit(text, n) for n, text in enumerate(texts) if program.files[n].is_user or not only_users]
        self.found = []
        self.unchecked = []
        self.pairs = []
        for file, unit in zip(program.files, self.units):
            for node, of in zip(unit.types, file.types):
                self.pairs.append((node, of))
                body = Bodies(self.known, of, file)
                body.declaration(node)
                self.found += body.found
                self.unchecked += body.unchecked

    def first_broken(self):
        return least(self.found)

    def unchecked_nodes(self):
        once = {id(node): node for node in self.unchecked}
        return sorted(once.values(), key=lambda node: (node.file, node.number))


def least(found):
    """The broken rule whose node comes first, with the lowest number there: (node, number), or None."""
    return min(found, key=lambda each: (each[0].file, each[0].number, each[1]), default=None)


class Bodies(Values):
    """The members of one type. What holds of the statement that is read stands in fields: the method, and what jumps may leave."""

    def __init__(self, known, owner, file):
        super().__init__(known, owner, file)
        self.method = None
        self.wanted = None
        self.loops = 0
        self.exits = 0

    def declaration(self, node):
        calls = {}
        for member in node.members:
            is_static = node.is_interface or "static" in member.mods
            self.is_static_member, self.has_this = is_static, not is_static
            if member.kind == "FieldDecl":
                self.fields(member, is_static)
            else:
                self.is_static_member, self.has_this = "static" in member.mods, "static" not in member.mods
                self.member_types([member.result, *member.params, *member.throws])
                self.one_method(member, calls)
        if not node.is_interface and not any(each.kind == "Method" and each.is_constructor for each in node.members):
            self.implied_super(node)
        self.find_circles(calls)

    def member_types(self, nodes):
        """T3 at the types that a member declares; their names are right."""
        for node in nodes:
            for each in walk(node) if node and self.is_static_member else []:
                if each.kind == "Type" and each.head in self.owner.params:
                    self.fail(each, 3)

    def fields(self, member, is_static):
        self.member_types([member.ty])
        for var in member.vars:
            declared = next(each for each in self.known.own_fields(self.owner) if each.var.at == var.at)
            var.use = declared
            if var.init is not None:
                self.initialise(var, declared.type)

    def initialise(self, var, kind):
        if var.init.kind == "Items":
            self.items(var.init, kind)
            return
        value = self.value(var.init)
        if value is not None and kind is not None:
            self.flow(var.init, value, kind, var, 4)

    # Methods and constructors.

    def one_method(self, member, calls):
        self.locals, self.loops, self.exits = [], 0, 0
        declared = next(each for each in self.owner.members if each.at == member.at)
        member.declared = declared
        for node, param in zip(member.params, declared.params):
            node.local = Local(param.name, self.program.said(param.type, param.dims), node.is_final, node)
            self.locals.append(node.local)
        self.method, self.wanted = member, declared.result and self.program.said(declared.result)
        if member.body is None:
            return
        body = member.body.body
        first = body[0] if body and body[0].kind in ("ThisCall", "SuperCall") else None
        member.first = first
        if member.is_constructor:
            if first is None:
                self.implied_super(member)
            elif first.kind == "ThisCall":
                calls[declared] = first
            if first is None or first.kind != "ThisCall":
                mark_direct(body)
        self.block(member.body)

    def implied_super(self, node):
        """T39 of the super() that is not written; `chosen_super` is the constructor."""
        node.use = None
        above = self.known.superclass(self.owner)
        if above is not None:
            chosen = self.known.choose(self.known.constructors(self.super_type(), self.owner), [])
            if chosen is None:
                self.fail(node, 39)
            else:
                node.use = chosen.declared

    def super_type(self):
        return self.program.direct_supers(self.owner)[0]

    def s_thiscall(self, node):
        self.explicit_call(node, self.known.self_type(self.owner))

    def s_supercall(self, node):
        self.explicit_call(node, self.super_type())

    def explicit_call(self, node, kind):
        self.has_this = False
        args = self.all_values(node.args)
        self.has_this = True
        if args is not None:
            self.construct(node, kind, args, 39)

    def find_circles(self, calls):
        """T39 at each this(..) by which a constructor calls itself in the end."""
        for begin, node in calls.items():
            at, seen = node.use, set()
            while at in calls and at not in seen and at is not begin:
                seen.add(at)
                at = calls[at].use
            if at is begin:
                self.fail(node, 39)

    # Statements.

    def statement(self, node):
        getattr(self, "s_" + node.kind.lower())(node)

    def block(self, node):
        count = len(self.locals)
        for each in node.body:
            self.statement(each)
        del self.locals[count:]

    s_block = block

    def declare(self, name, kind, is_final, node):
        if self.local(name) is not None:
            self.fail(node, 5)
        node.local = Local(name, kind, is_final, node)
        self.locals.append(node.local)

    def s_local(self, node):
        kind = self.written(node.ty)
        for var in node.vars:
            own = kind
            for _ in range(var.dims if kind else 0):
                own = ("array", own)
            self.declare(var.name, own, node.is_final, var)
            if var.init is not None:
                self.initialise(var, own)

    def s_empty(self, node):
        pass

    def s_value(self, node):
        self.performed(node.value)

    def test(self, node):
        kind = self.value(node.test)
        if kind is not None and kind != BOOLEAN:
            self.fail(node, 7)

    def s_if(self, node):
        self.test(node)
        self.statement(node.yes)
        if node.no:
            self.statement(node.no)

    def loop(self, body):
        self.loops, self.exits = self.loops + 1, self.exits + 1
        self.statement(body)
        self.loops, self.exits = self.loops - 1, self.exits - 1

    def s_while(self, node):
        self.test(node)
        self.loop(node.body)

    def s_do(self, node):
        self.loop(node.body)
        self.test(node)

    def s_for(self, node):
        count = len(self.locals)
        for each in node.init:
            self.statement(each)
        if node.test:
            self.test(node)
        for each in node.step:
            self.performed(each)
        self.loop(node.body)
        del self.locals[count:]

    def s_foreach(self, node):
        kind, over = self.written(node.ty), self.value(node.over)
        if over is not None:
            self.walk_over(node, kind, over)
        count = len(self.locals)
        self.declare(node.name, kind, node.is_final, node)
        self.loop(node.body)
        del self.locals[count:]

    def walk_over(self, node, kind, over):
        if over[0] == "array":
            if kind is not None:
                self.flow(node.over, over[1], kind, node, 9)
            return
        item = self.known.item_of(over)
        if item is None:
            self.fail(node, 10)
        elif kind is not None:
            self.flow(node.over, item, kind, node, 10)

    def s_switch(self, node):
        kind = self.value(node.on)
        if kind is not None and kind not in (INT, CHAR):
            self.fail(node, 11)
        count = len(self.locals)
        self.exits += 1
        seen, has_default = set(), False
        for group in node.groups:
            labels = [each for each in group.labels if each]
            kinds = [self.value(each) for each in labels]
            defaults = len(group.labels) - len(labels)
            values = [label_value(each) for each in labels]
            repeated = len(set(values)) < len(values) or seen & set(values) or defaults + has_default > 1
            wrong = kind == CHAR and any(each.kind != "Char" for each in labels)
            if None not in kinds and (repeated or wrong):
                self.fail(group, 12)
            seen |= set(values)
            has_default = has_default or defaults > 0
            for each in group.body:
                self.statement(each)
        self.exits -= 1
        del self.locals[count:]

    def s_break(self, node):
        if not self.exits:
            self.fail(node, 13)

    def s_continue(self, node):
        if not self.loops:
            self.fail(node, 13)

    def s_return(self, node):
        kind = self.value(node.value) if node.value else None
        if node.value is None:
            if self.wanted is not None:
                self.fail(node, 15)
        elif self.wanted is None:
            self.fail(node, 14)
        elif kind is not None:
            self.flow(node.value, kind, self.wanted, node, 14)

    def s_throw(self, node):
        kind = self.value(node.value)
        if kind is not None and kind != NULL and not self.known.is_throwable(kind):
            self.fail(node, 16)

    def s_try(self, node):
        self.block(node.body)
        for each in node.catches:
            count = len(self.locals)
            kind = self.written(each.param.ty, each.param.dims)
            if kind is not None and not self.known.is_throwable(kind):
                self.fail(each, 17)
            each.caught = kind
            self.declare(each.param.name, kind, each.param.is_final, each.param)
            self.block(each.body)
            del self.locals[count:]
        if node.last:
            self.block(node.last)


def label_value(node):
    """The value of a case label, as an int."""
    if node.kind == "Unary":
        return -label_value(node.of)
    if node.kind == "Number" and not node.decimal and node.value >= 2 ** 31:
        return node.value - 2 ** 32
    return node.value


def mark_direct(body):
    """Marks the assignments that may be those of final fields: `f = e;` and `this.f = e;` directly in the body of a constructor."""
    for each in body:
        if each.kind == "Value" and each.value.kind == "Assign" and each.value.op is None:
            to = each.value.to
            each.value.is_direct = to.kind == "Name" or to.kind == "Field" and to.of.kind == "This"
