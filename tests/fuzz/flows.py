"""The rules on flow but F3: what can be reached (F1, F2), exceptions (F6 to F10), final variables (F4, F5) and fields read too early (F11, F12)."""
from assigned import constant, read_too_early
from syntax import plain, walk
from typed import least
from known import NULL, Field


def first_broken(typed):
    """The first broken rule on flow of a program that is well typed: (node, number), or None."""
    found = []
    for node, of in typed.pairs:
        found += Flow(typed.known, node, of).rules()
    return least(found)


class Reach:
    """Reachability of one body. `unreached` are the statements that cannot be reached."""

    def __init__(self):
        self.unreached = []
        self.targets = []

    def all_of(self, nodes, is_reached):
        for node in nodes:
            is_reached = self.ends(node, is_reached)
        return is_reached

    def ends(self, node, is_reached):
        """Whether a statement can complete normally."""
        if not is_reached:
            self.unreached.append(node)
        reader = getattr(self, "s_" + node.kind.lower(), None)
        return reader(node, is_reached) if reader else is_reached

    def s_block(self, node, is_reached):
        return self.all_of(node.body, is_reached)

    def s_if(self, node, is_reached):
        yes = self.ends(node.yes, is_reached)
        no = self.ends(node.no, is_reached) if node.no else is_reached
        return yes or no

    def leaves(self, body, is_reached, takes_continue=True):
        """Whether a body ends, and whether a break and a continue leave it."""
        self.targets.append({"break": False, "continue": False if takes_continue else None})
        ends = body(is_reached)
        target = self.targets.pop()
        return ends, target["break"], target["continue"]

    def s_while(self, node, is_reached):
        is_entered = is_reached and constant(node.test) is not False
        _, breaks, _ = self.leaves(lambda is_in: self.ends(node.body, is_in), is_entered)
        return breaks or is_reached and constant(node.test) is not True

    def s_do(self, node, is_reached):
        ends, breaks, continues = self.leaves(lambda is_in: self.ends(node.body, is_in), is_reached)
        return breaks or (ends or continues) and constant(node.test) is not True

    def s_for(self, node, is_reached):
        test = constant(node.test) if node.test else True
        self.all_of(node.init, is_reached)
        _, breaks, _ = self.leaves(lambda is_in: self.ends(node.body, is_in), is_reached and test is not False)
        return breaks or is_reached and test is not True

    def s_foreach(self, node, is_reached):
        self.leaves(lambda is_in: self.ends(node.body, is_in), is_reached)
        return is_reached

    def s_switch(self, node, is_reached):
        def groups(is_reached):
            ends = is_reached
            for group in node.groups:
                ends = self.all_of(group.body, is_reached)
            return ends
        ends, breaks, _ = self.leaves(groups, is_reached, False)
        has_default = any(None in group.labels for group in node.groups)
        ends_in_label = not node.groups or not node.groups[-1].body
        return breaks or ends or is_reached and (not has_default or ends_in_label)

    def jump(self, word, is_reached):
        """Notes a jump, unless a finally block that cannot end swallows it."""
        for target in reversed(self.targets):
            if target == "swallows":
                break
            if target[word] is not None:
                target[word] = target[word] or is_reached
                break
        return False

    def s_break(self, node, is_reached):
        return self.jump("break", is_reached)

    def s_continue(self, node, is_reached):
        return self.jump("continue", is_reached)

    def s_return(self, node, is_reached):
        return False

    s_throw = s_return

    def s_try(self, node, is_reached):
        node.last_ends = node.last is None or self.ends(node.last, is_reached)
        if not node.last_ends:
            self.targets.append("swallows")
        ends = self.ends(node.body, is_reached)
        if not node.last_ends:
            self.targets.pop()
        for each in node.catches:
            ends = self.ends(each.body, is_reached) or ends
        return ends and node.last_ends


class Thrown:
    """The checked classes that what is read can throw, with their nodes. `found` are broken rules on catches."""

    def __init__(self, known):
        self.known = known
        self.found = []

    def of(self, node):
        if node.kind == "Try":
            return self.of_try(node)
        thrown = [each for kid in node.kids for each in self.of(kid)]
        if node.kind == "Throw" and node.value.type != NULL and self.known.program.is_checked(node.value.type):
            thrown.append((node.value.type, node))
        if node.kind in ("Call", "SuperMethod", "New", "ThisCall", "SuperCall"):
            thrown += [(kind, node) for kind in self.known.thrown_by(node.use)]
        return thrown

    def of_try(self, node):
        inside = self.of(node.body)
        earlier = []
        left = inside
        behind = []
        for each in node.catches:
            caught = each.caught
            if self.is_strict(caught) and not any(self.known.is_sub(kind, caught) or self.known.is_sub(caught, kind) for kind, _ in inside):
                self.found.append((each, 7))
            if any(self.known.is_sub(caught, other) for other in earlier):
                self.found.append((each, 8))
            earlier.append(caught)
            left = [(kind, at) for kind, at in left if not self.known.is_sub(kind, caught)]
            behind += self.of(each.body)
        last = self.of(node.last) if node.last else []
        return last if not node.last_ends else left + behind + last

    def is_strict(self, kind):
        """A checked class but Exception and Throwable."""
        return self.known.program.is_checked(kind) and kind[1].name not in ("Exception", "Throwable")


class Flow:
    """The rules on flow of one type."""

    def __init__(self, known, node, of):
        self.known, self.node, self.of = known, node, of
        self.found = []
        self.fields = [each for each in known.own_fields(of)]
        self.vars = [var for member in node.members if member.kind == "FieldDecl" for var in member.vars]
        self.blanks = [var for var in self.vars if var.use.is_blank]

    def fail(self, node, number):
        self.found.append((node, number))

    def rules(self):
        methods = [each for each in self.node.members if each.kind == "Method"]
        for each in methods:
            if each.body is not None:
                self.method(each)
        constructors = [each for each in methods if each.is_constructor]
        if not self.node.is_interface and not constructors:
            for _ in self.known.thrown_by(self.node.use):
                self.fail(self.node, 10)
            for var in self.blanks:
                self.fail(var, 4)
        for var in self.vars:
            self.field(var)
        for each in constructors:
            self.constructor(each)
        return self.found

    def method(self, member):
        reach, thrown = Reach(), Thrown(self.known)
        ends = reach.ends(member.body, True)
        for each in reach.unreached:
            self.fail(each, 1)
        if ends and member.declared.result is not None:
            self.fail(member, 2)
        for each in read_too_early(member):
            self.fail(each, 3)
        for each in walk(member.body):
            if each.kind == "Local" and each.is_final:
                for var in each.vars:
                    if var.init is None:
                        self.fail(var, 5)
        for kind, node in thrown.of(member.body):
            if not self.is_declared(member, kind):
                self.fail(node, 6)
        self.found += thrown.found
        if member.is_constructor and member.first is None:
            if not all(self.is_declared(member, kind) for kind in self.known.thrown_by(member.use)):
                self.fail(member, 10)

    def is_declared(self, member, kind):
        return any(self.known.is_sub(kind, self.known.program.said(each)) for each in member.declared.throws)

    # Fields.

    def field(self, var):
        own = var.use
        if own.is_final and own.is_static and var.init is None:
            self.fail(var, 4)
        if var.init is None:
            return
        if Thrown(self.known).of(var.init):
            self.fail(var, 9)
        later = self.fields[self.fields.index(own):]
        for name in reads(var.init):
            if name.use in later and name.use.is_static == own.is_static:
                self.fail(name, 11)
            if name.use.is_blank and name.use.owner is self.of:
                self.fail(name, 12)

    def constructor(self, member):
        """F4 and F12 in a constructor that does not begin with this(..)."""
        if member.first is not None and member.first.kind == "ThisCall":
            return
        assigned = set()
        has_return = False
        for each in member.body.body:
            for name in reads(each):
                if name.use.is_blank and name.use.owner is self.of and name.use not in assigned:
                    self.fail(name, 12)
            field = self.assigned_by(each)
            if field in assigned:
                self.fail(each.value, 4)
            if field is not None:
                if has_return:
                    self.fail(next(var for var in self.blanks if var.use == field), 4)
                assigned.add(field)
            has_return = has_return or any(inner.kind == "Return" for inner in walk(each))
        for var in self.blanks:
            if var.use not in assigned:
                self.fail(var, 4)

    def assigned_by(self, statement):
        """The field of F4 that a statement of a constructor assigns, or None."""
        value = statement.value if statement.kind == "Value" else None
        if value is None or not getattr(value, "is_direct", False):
            return None
        use = value.to.use
        return use if isinstance(use, Field) and use.is_blank and use.owner is self.of else None


def reads(node):
    """The simple names of fields that are read in a tree: all but the targets of plain assignments."""
    if node.kind == "Assign" and node.op is None:
        to = plain(node.to)
        if to.kind == "Name":
            yield from reads(node.value)
            return
    if node.kind == "Name" and isinstance(node.use, Field):
        yield node
    for kid in node.kids:
        yield from reads(kid)
