"""Trees of files with their statements and values. A file that trees.py accepts is read here once more, and its nodes are kept.

The children of a node stand in text order, so that a walk from the unit down meets nodes in the order of their numbers.
"""
import re

import lexing
import trees

ESCAPES = {"b": 8, "t": 9, "n": 10, "f": 12, "r": 13, '"': 34, "'": 39, "\\": 92}


class Node:
    """A node: its kind, its first byte, the byte behind its last one, its children, and what its kind has besides."""

    def __init__(self, kind, at, end, kids, more):
        self.kind = kind
        self.at = at
        self.end = end
        self.kids = kids
        self.number = 0
        self.file = 0
        self.type = None
        self.use = None
        self.__dict__.update(more)

    def __repr__(self):
        return "%s@%d" % (self.kind, self.at)


def read_unit(text, file):
    """The tree of a text, with its nodes numbered."""
    unit = Parser(lexing.read_tokens(text)).unit()
    for number, node in enumerate(walk(unit)):
        node.number, node.file = number, file
    return unit


def walk(node):
    """A node and all below it, in the order of their numbers."""
    open_ones = [node]
    while open_ones:
        node = open_ones.pop()
        yield node
        open_ones.extend(reversed(node.kids))


def plain(node):
    """A value without the brackets around it."""
    while node.kind == "Paren":
        node = node.of
    return node


def unit_of(text):
    """The UTF-16 unit of a character literal."""
    inner = text[1:-1].decode()
    if not inner.startswith("\\"):
        return ord(inner)
    return ESCAPES[inner[1]] if inner[1] in ESCAPES else int(inner[1:], 8)


class Parser(trees.Reader):
    """Reads by the grammar; what trees.py refuses is not looked at again."""

    def node(self, kind, at, *kids, **more):
        flat = []
        for kid in kids:
            flat.extend(kid if isinstance(kid, list) else [] if kid is None else [kid])
        end = self.tokens[self.next - 1].end if self.next else at
        return Node(kind, at, end, flat, more)

    def here(self):
        return self.tokens[self.next].at if self.next < len(self.tokens) else 0

    def name(self):
        self.take("Id")
        return self.tokens[self.next - 1].text.decode()

    def each(self, read):
        """One or more with commas between them."""
        found = [read()]
        while self.takes(","):
            found.append(read())
        return found

    # Files and declarations.

    def unit(self):
        at, imports, types = self.here(), [], []
        if self.takes("package"):
            self.path()
            self.take(";")
        while self.sees("import"):
            begin = self.here()
            self.take("import")
            self.path()
            self.takes(".", "*")
            self.take(";")
            imports.append(self.node("Import", begin))
        while not self.sees("End"):
            if not self.takes(";"):
                types.append(self.declaration())
        return self.node("Unit", at, imports, types, types=types)

    def mods(self):
        begin = self.next
        self.modifiers()
        return [token.sort for token in self.tokens[begin:self.next]]

    def declaration(self):
        at, mods = self.here(), self.mods()
        is_interface = self.takes("interface")
        if not is_interface:
            self.take("class")
        name = self.name()
        name_end = self.tokens[self.next - 1].end
        if self.takes("<"):
            self.each(self.name)
            self.take(">")
        extends = self.each(self.ref) if self.takes("extends") else []
        implements = self.each(self.ref) if self.takes("implements") else []
        self.take("{")
        members = []
        while not self.takes("}"):
            if not self.takes(";"):
                members.append(self.member())
        return self.node("TypeDecl", at, extends, implements, members, mods=mods, name=name, name_end=name_end, extends=extends, implements=implements,
                         is_interface=is_interface, members=members)

    def member(self):
        at, mods = self.here(), self.mods()
        if self.sees("Id", "("):
            return self.method(at, mods, None, True)
        if self.takes("void"):
            return self.method(at, mods, None, False)
        kind = self.type()
        if self.sees("Id", "("):
            return self.method(at, mods, kind, False)
        variables = self.each(self.variable)
        self.take(";")
        return self.node("FieldDecl", at, kind, variables, mods=mods, ty=kind, vars=variables)

    def method(self, at, mods, result, is_constructor):
        name = self.name()
        self.take("(")
        params = [] if self.sees(")") else self.each(self.formal)
        self.take(")")
        throws_at = self.here()
        throws = self.each(self.ref) if self.takes("throws") else []
        throws_end = self.tokens[self.next - 1].end
        body = None
        if not self.takes(";"):
            body = self.block(is_constructor)
        return self.node("Method", at, result, params, throws, body, mods=mods, result=result, is_constructor=is_constructor, name=name,
                         params=params, throws=throws, body=body, throws_at=throws_at, throws_end=throws_end)

    def variable(self):
        at, name, dims = self.here(), self.name(), self.brackets()
        init = self.initialiser() if self.takes("=") else None
        return self.node("Var", at, init, name=name, dims=dims, init=init)

    def initialiser(self):
        return self.items() if self.sees("{") else self.expression()

    def items(self):
        at, found = self.here(), []
        self.take("{")
        while not self.sees("}") and not self.sees(","):
            found.append(self.initialiser())
            if not self.takes(","):
                break
        self.takes(",")
        self.take("}")
        return self.node("Items", at, found, items=found)

    def formal(self):
        at, is_final = self.here(), self.takes("final")
        kind = self.type()
        name, dims = self.name(), self.brackets()
        return self.node("Param", at, kind, is_final=is_final, ty=kind, name=name, dims=dims)

    # Types.

    def ref(self):
        return self.type(False)

    def type(self, has_dims=True, has_args=True):
        at = self.here()
        if self.sorts[self.next] in trees.PRIMITIVES:
            head, is_primitive = self.sorts[self.next], True
            self.next += 1
        else:
            head, is_primitive = self.name(), False
            while self.takes("."):
                head += "." + self.name()
        args = []
        if has_args and self.takes("<"):
            args = self.each(self.type)
            self.take(">")
        dims = self.brackets() if has_dims else 0
        return self.node("Type", at, args, head=head, is_primitive=is_primitive, args=args, dims=dims)

    # Statements.

    def block(self, calls_first=False):
        at, found = self.here(), []
        self.take("{")
        while not self.takes("}"):
            found.append(self.block_statement(calls_first and not found))
        return self.node("Block", at, found, body=found)

    def block_statement(self, may_call=False):
        at = self.here()
        if may_call and (self.sees("this", "(") or self.sees("super", "(")):
            kind = "ThisCall" if self.takes("this") else "SuperCall"
            self.takes("super")
            args = self.values()
            self.take(";")
            return self.node(kind, at, args, args=args)
        if not self.begins_local():
            return self.statement()
        found = self.local()
        self.take(";")
        found.end = self.tokens[self.next - 1].end
        return found

    def begins_local(self):
        if self.sees("final") or self.sorts[self.next] in trees.PRIMITIVES:
            return True
        begin = self.next
        found = self.tried(lambda: (self.type(), self.take("Id"))) is not None
        self.next = begin
        return found

    def local(self):
        at, is_final, kind = self.here(), self.takes("final"), self.type()
        variables = self.each(self.variable)
        return self.node("Local", at, kind, variables, is_final=is_final, ty=kind, vars=variables)

    def test(self):
        self.take("(")
        found = self.expression()
        self.take(")")
        return found

    def performed(self):
        at = self.here()
        value = self.expression()
        return self.node("Value", at, value, value=value)

    def statement(self):
        special = {"{": self.block, "if": self.if_, "while": self.while_, "do": self.do, "for": self.for_,
                   "switch": self.switch, "try": self.try_}.get(self.sorts[self.next])
        if special:
            return special()
        at = self.here()
        if self.takes(";"):
            return self.node("Empty", at)
        word = self.sorts[self.next]
        if word in ("break", "continue"):
            self.next += 1
            self.take(";")
            return self.node(word.capitalize(), at)
        kind = {"return": "Return", "throw": "Throw"}.get(word, "Value")
        self.next += kind != "Value"
        value = None if self.sees(";") else self.expression()
        self.take(";")
        return self.node(kind, at, value, value=value)

    def if_(self):
        at = self.here()
        self.take("if")
        test, yes = self.test(), self.statement()
        no = self.statement() if self.takes("else") else None
        return self.node("If", at, test, yes, no, test=test, yes=yes, no=no)

    def while_(self):
        at = self.here()
        self.take("while")
        test, body = self.test(), self.statement()
        return self.node("While", at, test, body, test=test, body=body)

    def do(self):
        at = self.here()
        self.take("do")
        body = self.statement()
        self.take("while")
        test = self.test()
        self.take(";")
        return self.node("Do", at, body, test, test=test, body=body)

    def for_(self):
        at = self.here()
        self.take("for", "(")
        begin = self.next
        head = self.tried(self.for_each_head)
        if head is not None:
            is_final, kind, name = head
            over = self.expression()
            self.take(")")
            body = self.statement()
            return self.node("ForEach", at, kind, over, body, is_final=is_final, ty=kind, name=name, over=over, body=body)
        self.next = begin
        init = []
        if not self.sees(";"):
            init = [self.local()] if self.begins_local() else self.each(self.performed)
        self.take(";")
        test = None if self.sees(";") else self.expression()
        self.take(";")
        step = [] if self.sees(")") else self.each(self.expression)
        self.take(")")
        body = self.statement()
        return self.node("For", at, init, test, step, body, init=init, test=test, step=step, body=body)

    def for_each_head(self):
        is_final, kind, name = self.takes("final"), self.type(), self.name()
        self.take(":")
        return is_final, kind, name

    def switch(self):
        at = self.here()
        self.take("switch")
        on, groups = self.test(), []
        self.take("{")
        while not self.takes("}"):
            groups.append(self.group())
        return self.node("Switch", at, on, groups, on=on, groups=groups)

    def group(self):
        at, labels, body = self.here(), [], []
        while self.sees("case") or self.sees("default"):
            labels.append(self.label())
        while not (self.sees("}") or self.sees("case") or self.sees("default")):
            body.append(self.block_statement())
        return self.node("Group", at, [each for each in labels if each], body, labels=labels, body=body)

    def label(self):
        """None for default."""
        found = None
        if not self.takes("default"):
            self.take("case")
            found = self.unary()
        self.take(":")
        return found

    def try_(self):
        at = self.here()
        self.take("try")
        body, catches, last = self.block(), [], None
        while self.sees("catch"):
            begin = self.here()
            self.take("catch", "(")
            param = self.formal()
            self.take(")")
            inner = self.block()
            catches.append(self.node("Catch", begin, param, inner, param=param, body=inner))
        if self.takes("finally"):
            last = self.block()
        return self.node("Try", at, body, catches, last, body=body, catches=catches, last=last)

    # Values.

    def expression(self):
        at, left = self.here(), self.conditional()
        operator, width = self.operator()
        if operator not in trees.ASSIGNMENTS:
            return left
        self.next += width
        value = self.expression()
        return self.node("Assign", at, left, value, op=operator[:-1] or None, to=left, value=value)

    def conditional(self):
        at, test = self.here(), self.infix(12)
        if not self.takes("?"):
            return test
        yes = self.expression()
        self.take(":")
        no = self.conditional()
        return self.node("Cond", at, test, yes, no, test=test, yes=yes, no=no)

    def infix(self, loosest):
        at, left = self.here(), self.unary()
        while True:
            operator, width = self.operator()
            level = trees.LEVELS.get(operator, 99)
            if level > loosest:
                return left
            self.next += width
            if operator == "instanceof":
                kind = self.type(has_args=False)
                left = self.node("InstanceOf", at, left, kind, of=left, ty=kind)
            else:
                right = self.infix(level - 1)
                left = self.node("Binary", at, left, right, op=operator, left=left, right=right)

    def unary(self):
        at, sort = self.here(), self.sorts[self.next]
        if sort in ("+", "-", "~", "!"):
            self.next += 1
            of = self.unary()
            return self.node("Unary", at, of, op=sort, of=of)
        if sort in ("++", "--"):
            self.next += 1
            of = self.unary()
            return self.node("Step", at, of, of=of)
        return (self.cast() if sort == "(" else None) or self.postfix()

    def cast(self):
        at, begin = self.here(), self.next
        self.take("(")
        is_primitive = self.sorts[self.next] in trees.PRIMITIVES
        kind = self.tried(self.type)
        if kind is None or not self.takes(")") or not is_primitive and self.sorts[self.next] not in trees.BEGINS_UNSIGNED:
            self.next = begin
            return None
        of = self.unary()
        return self.node("Cast", at, kind, of, ty=kind, of=of)

    def postfix(self):
        at, of = self.here(), self.primary()
        if not (self.takes("++") or self.takes("--")):
            return of
        return self.node("Step", at, of, of=of)

    def primary(self):
        at, found = self.here(), self.first_primary()
        while True:
            if self.takes("."):
                found = self.named(at, found)
            elif self.sees("["):
                self.take("[")
                inner = self.expression()
                self.take("]")
                found = self.node("Index", at, found, inner, of=found, index=inner)
            else:
                return found

    def named(self, at, of):
        """What a name behind a dot says, or a name alone."""
        name_at, name = self.here(), self.name()
        if self.sees("("):
            args = self.values()
            return self.node("Call", at, of, args, of=of, name=name, args=args, name_at=name_at)
        if of is None:
            return self.node("Name", at, name=name, name_at=name_at)
        return self.node("Field", at, of, of=of, name=name, name_at=name_at)

    def first_primary(self):
        at, sort = self.here(), self.sorts[self.next]
        text = self.tokens[self.next].text
        if sort == "Id":
            return self.named(at, None)
        if sort == "new":
            return self.creation()
        self.next += 1
        if sort in ("Int", "Long"):
            is_decimal = not re.match(rb"0[xX0-9]", text)
            return self.node("Number", at, value=lexing.value_of(text), decimal=is_decimal, long=sort == "Long")
        if sort == "Char":
            return self.node("Char", at, value=unit_of(text))
        if sort in ("true", "false"):
            return self.node("Bool", at, value=sort == "true")
        if sort in ("Text", "null", "this"):
            return self.node(sort.capitalize(), at)
        if sort == "super":
            self.take(".")
            found = self.named(at, None)
            found.kind = {"Name": "SuperField", "Call": "SuperMethod"}[found.kind]
            return found
        inner = self.expression()
        self.take(")")
        return self.node("Paren", at, inner, of=inner)

    def creation(self):
        at = self.here()
        self.take("new")
        kind = self.type(has_dims=False)
        if self.sees("("):
            args = self.values()
            return self.node("New", at, kind, args, ty=kind, args=args)
        dims = self.brackets()
        if dims:
            kind.dims, kind.end = dims, self.tokens[self.next - 1].end
            items = self.items()
            return self.node("NewFilled", at, kind, items, ty=kind, items=items)
        sizes = []
        while self.sees("[") and not self.sees("[", "]"):
            self.take("[")
            sizes.append(self.expression())
            self.take("]")
        extra = self.brackets()
        return self.node("NewArray", at, kind, sizes, ty=kind, sizes=sizes, extra=extra)

    def values(self):
        self.take("(")
        found = [] if self.sees(")") else self.each(self.expression)
        self.take(")")
        return found
