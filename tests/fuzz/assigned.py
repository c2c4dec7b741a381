"""Definite assignment (F3), read from the chapter of the language specification on it.

A state is a set of locals that are assigned, or of those that alone are not: behind a jump all are. The pair is (is the rest
assigned, the locals that are otherwise).
"""
from syntax import plain
from values import Local

ALL = (True, frozenset())
NONE = (False, frozenset())


def put_in(state, local):
    rest, others = state
    return (rest, others - {local}) if rest else (rest, others | {local})


def take_out(state, local):
    rest, others = state
    return (rest, others | {local}) if rest else (rest, others - {local})


def holds(state, local):
    return state[0] != (local in state[1])


def both(one, other):
    """What is assigned in each of two states."""
    if one[0] and other[0]:
        return (True, one[1] | other[1])
    if not one[0] and not other[0]:
        return (False, one[1] & other[1])
    (_, missing), (_, held) = (one, other) if one[0] else (other, one)
    return (False, held - missing)


def either(one, other):
    """What is assigned in one of two states."""
    if one[0] and other[0]:
        return (True, one[1] & other[1])
    if not one[0] and not other[0]:
        return (False, one[1] | other[1])
    (_, missing), (_, held) = (one, other) if one[0] else (other, one)
    return (True, missing - held)


def constant(node):
    """True or False for a literal, also in brackets, else None."""
    node = plain(node)
    return node.value if node.kind == "Bool" else None


class Assigned:
    """Reads one body; `found` are the names that are read too early."""

    def __init__(self):
        self.found = []
        self.breaks = []
        self.continues = []

    # Values: the state behind one, and for truth values the states where it is true and where it is false.

    def all_after(self, nodes, state):
        for node in nodes:
            state = self.after(node, state)
        return state

    def after(self, node, state):
        if node.kind in ("Bool", "Paren", "Cond") or node.kind == "Unary" and node.op == "!" or node.kind == "Binary" and node.op in ("&&", "||"):
            return both(*self.branches(node, state))
        if node.kind == "Name":
            if isinstance(node.use, Local) and not holds(state, node.use):
                self.found.append(node)
            return state
        if node.kind == "Assign":
            return self.after_assign(node, state)
        return self.all_after([each for each in node.kids if each.kind != "Type"], state)

    def after_assign(self, node, state):
        to = plain(node.to)
        is_local = to.kind == "Name" and isinstance(to.use, Local)
        if not is_local or node.op is not None:
            state = self.after(to, state) if is_local or to.kind != "Name" else state
        state = self.after(node.value, state)
        return put_in(state, to.use) if is_local else state

    def branches(self, node, state):
        if node.kind == "Bool":
            return (state, ALL) if node.value else (ALL, state)
        if node.kind == "Paren":
            return self.branches(node.of, state)
        if node.kind == "Unary" and node.op == "!":
            yes, no = self.branches(node.of, state)
            return no, yes
        if node.kind == "Binary" and node.op == "&&":
            yes, no = self.branches(node.left, state)
            right_yes, right_no = self.branches(node.right, yes)
            return right_yes, both(no, right_no)
        if node.kind == "Binary" and node.op == "||":
            yes, no = self.branches(node.left, state)
            right_yes, right_no = self.branches(node.right, no)
            return both(yes, right_yes), right_no
        if node.kind == "Cond":
            yes, no = self.branches(node.test, state)
            one, other = self.branches(node.yes, yes), self.branches(node.no, no)
            return both(one[0], other[0]), both(one[1], other[1])
        state = self.after(node, state)
        return state, state

    # Statements.

    def all_behind(self, nodes, state):
        for node in nodes:
            state = self.behind(node, state)
        return state

    def behind(self, node, state):
        """The state behind a statement."""
        reader = getattr(self, "s_" + node.kind.lower(), None)
        return reader(node, state) if reader else self.all_after(node.kids, state)

    def s_block(self, node, state):
        return self.all_behind(node.body, state)

    def s_local(self, node, state):
        for var in node.vars:
            state = take_out(state, var.local)
            if var.init is not None:
                state = put_in(self.after(var.init, state), var.local)
        return state

    def s_if(self, node, state):
        yes, no = self.branches(node.test, state)
        yes = self.behind(node.yes, yes)
        return both(yes, self.behind(node.no, no) if node.no else no)

    def loop(self, body, state):
        """The state behind the body with that of each continue, and the state of each break."""
        self.breaks.append(ALL)
        self.continues.append(ALL)
        state = self.behind(body, state)
        return both(state, self.continues.pop()), self.breaks.pop()

    def s_while(self, node, state):
        yes, no = self.branches(node.test, state)
        _, left = self.loop(node.body, yes)
        return both(no, left)

    def s_do(self, node, state):
        state, left = self.loop(node.body, state)
        _, no = self.branches(node.test, state)
        return both(no, left)

    def s_for(self, node, state):
        state = self.all_behind(node.init, state)
        yes, no = self.branches(node.test, state) if node.test else (state, ALL)
        state, left = self.loop(node.body, yes)
        self.all_after(node.step, state)
        return both(no, left)

    def s_foreach(self, node, state):
        state = self.after(node.over, state)
        _, left = self.loop(node.body, put_in(state, node.local))
        return both(state, left)

    def s_switch(self, node, state):
        start = state = self.after(node.on, state)
        self.breaks.append(ALL)
        for n, group in enumerate(node.groups):
            state = self.all_behind(group.body, both(start, state) if n else start)
        left = self.breaks.pop()
        has_default = any(None in group.labels for group in node.groups)
        ends_in_label = bool(node.groups) and not node.groups[-1].body
        state = both(state, left)
        return state if has_default and not ends_in_label else both(state, start)

    def s_break(self, node, state):
        self.breaks[-1] = both(self.breaks[-1], state)
        return ALL

    def s_continue(self, node, state):
        self.continues[-1] = both(self.continues[-1], state)
        return ALL

    def s_return(self, node, state):
        self.all_after(node.kids, state)
        return ALL

    s_throw = s_return

    def s_try(self, node, state):
        ends = self.behind(node.body, state)
        for each in node.catches:
            ends = both(ends, self.behind(each.body, put_in(state, each.param.local)))
        return either(ends, self.behind(node.last, state)) if node.last else ends


def read_too_early(method):
    """The names of locals in a method that are read where they are not definitely assigned."""
    reader = Assigned()
    state = NONE
    for param in method.params:
        state = put_in(state, param.local)
    reader.behind(method.body, state)
    return reader.found
