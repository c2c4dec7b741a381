"""The answer of `extract-interface`: the places that change, the others with what keeps them, the edits, the new file, and the report.

    kept.py OUT CLASS NEWNAME METHOD .. -- FILE .. [+ FILE ..]     prints the report for files; nothing is written
"""
import sys

sys.dont_write_bytecode = True

import functools
import os
from collections import defaultdict
from typing import NamedTuple

import checked
import declared
import reader
from links import KINDS, Links
from shapes import in_order


class Extracted(NamedTuple):
    """The kind of the answer, the report, the exit status, the new texts by name, and what the places are tied by (None where it is refused)."""
    kind: str
    report: bytes
    status: int
    texts: dict
    links: object = None


class Kept:
    """Which places stay: those with a need, and those with a step to one that stays. `far` counts the steps to a need."""

    def __init__(self, links):
        self.links = links
        self.needs, self.steps, to = defaultdict(list), defaultdict(list), defaultdict(list)
        for each in links.needs:
            self.needs[each.place].append(each)
        for each in links.steps:
            self.steps[each.begin].append(each)
            to[each.to].append(each.begin)
        self.far = dict.fromkeys(self.needs, 0)
        last = list(self.far)
        while last:
            last = list(dict.fromkeys(begin for place in last for begin in to[place] if begin not in self.far))
            self.far.update({begin: min(self.far[each.to] for each in self.steps[begin] if each.to in self.far) + 1 for begin in last})
        self.places = [each for each in links.places if each in self.far]
        self.allowed = [each for each in links.places if each not in self.far]

    def cause(self, place):
        """The need, or the step of the reported chain."""
        def order(each):
            return in_order(each.node), KINDS.index(each.kind)
        if self.needs[place]:
            return min(self.needs[place], key=order)
        nearer = [each for each in self.steps[place] if self.far.get(each.to) == self.far[place] - 1]
        return min(nearer, key=lambda each: (order(each), in_order(each.to)))

    def changes(self):
        """The places that are types, which change."""
        return {each for each in self.allowed if each.kind == "Type"}


@functools.lru_cache(maxsize=4)
def checked_users(names, texts, users):
    """What a check says of files whose library is right."""
    return checked.check(names, texts, users, only_users=True)


def extract(names, texts, users, out, wanted, new_name, methods, check=checked.check):
    """The answer for files, of which the first `users` are the user's."""
    answer = check(tuple(names), tuple(texts), users)
    if answer.status != reader.DONE:
        return Extracted(answer.kind, answer.report, answer.status, {})
    tree = answer.tree
    unchecked = tree.unchecked_nodes()
    if unchecked:
        return refused("S21", reader.place_of(names[unchecked[0].file], texts[unchecked[0].file], unchecked[0].at))
    program = tree.known.program
    of = next((each for each in program.own_types if each.file.is_user and each.name == wanted and not each.is_interface), None)
    if of is None:
        return refused("E1", "-")
    rule = broken_rule(program, names, of, new_name, methods)
    if rule:
        return refused(rule, reader.place_of(names[of.file.number], texts[of.file.number], of.at))
    chosen = [each for each in of.methods() if each.name in methods]
    return done(names, texts, users, out, Links(tree, of, new_name, chosen))


def refused(rule, place):
    answer = reader.refused(rule, place)
    return Extracted(rule, answer.report, answer.status, {})


def new_file(names, of, new_name):
    return os.path.join(os.path.dirname(names[of.file.number]), new_name + ".java")


def broken_rule(program, names, of, new_name, methods):
    """The first broken rule on the class, the methods and the new name; a class without one of the methods comes first."""
    if {each.name for each in of.methods()}.isdisjoint(methods) or not set(methods) <= {each.name for each in of.methods()}:
        return "E3"
    packages = {each.package[0] for each in program.files + program.built_in if each.package}
    if new_name in program.by_name or new_name in packages:
        return "E2"
    chosen = [each for each in of.methods() if each.name in methods]
    if any("public" not in each.mods for each in chosen):
        return "E4"
    if any("static" in each.mods for each in chosen):
        return "E5"
    return "E6" if new_file(names, of, new_name) in names else None


def done(names, texts, users, out, links):
    kept = Kept(links)
    edits = sorted([*place_edits(links, kept), clause_edit(links)])
    created = new_text(links, kept).encode()
    file = new_file(names, links.of, links.new_type.name)
    lines = [b"edit %s %d %d %d %s" % (names[number].encode(), begin, end, len(text), text) for number, begin, end, text in edits]
    lines.append(b"create %s %d" % (file.encode(), len(created)))
    lines += [kept_line(kept, each, names, texts).encode() for each in kept.places]
    lines.append(b"done %d edits" % len(edits))
    new = {"%s/%s" % (out, name): edited(texts[number], [each[1:] for each in edits if each[0] == number]) for number, name in enumerate(names[:users])}
    new["%s/%s" % (out, file)] = created
    return Extracted("done", b"".join(line + b"\n" for line in lines), reader.DONE, new, links)


def kept_line(kept, place, names, texts):
    def shown(node):
        return reader.place_of(names[node.file], texts[node.file], node.at)
    cause = kept.cause(place)
    if hasattr(cause, "to"):
        return "kept %s because %s %s then %s" % (shown(place), cause.kind, shown(cause.node), shown(cause.to))
    return "kept %s needs %s %s" % (shown(place), cause.kind, shown(cause.node))


# The new texts.

def place_edits(links, kept):
    name = links.new_type.name.encode()
    return [(node.file, node.at, node.at + len(node.head), name) for node in kept.changes()]


def clause_edit(links):
    """What the class implements, said behind its name, its superclass or its last interface."""
    node = next(node for node, of in links.tree.pairs if of is links.of)
    name = links.new_type.name.encode()
    if node.implements:
        return node.file, node.implements[-1].end, node.implements[-1].end, b", " + name
    at = node.extends[0].end if node.extends else node.name_end
    return node.file, at, at, b" implements " + name


def edited(text, edits):
    for begin, end, new in reversed(edits):
        text = text[:begin] + new + text[end:]
    return text


def new_text(links, kept):
    of, program = links.of, links.program
    package = "package %s;\n\n" % ".".join(of.file.package) if of.file.package else ""
    imports = sorted({name for method in links.extracted for each in types_of(method) for name in imported(program, of.file, each)})
    said = "".join("import %s;\n" % each for each in imports) + ("\n" if imports else "")
    head = "%sinterface %s {\n" % ("public " if "public" in of.mods else "", links.new_type.name)
    return package + said + head + "".join("    %s\n" % method_text(links, kept, each) for each in links.extracted) + "}\n"


def types_of(method):
    return ([method.result] if method.result else []) + [each.type for each in method.params] + method.throws


def imported(program, file, written):
    """The full names of the types in a written type that a file of a package sees by an import alone."""
    head = program.head(written)
    if isinstance(head, declared.Type) and head.file.package not in (file.package, ["java", "lang"]):
        yield ".".join([*head.file.package, head.name])
    for each in written.args:
        yield from imported(program, file, each)


def method_text(links, kept, method):
    changes = kept.changes()
    def text(written, dims=0):
        is_new = links.shapes.nodes.get((written.file.number, written.at)) in changes
        args = "<%s>" % ", ".join(map(text, written.args)) if written.args else ""
        return (links.new_type.name if is_new else ".".join(written.path)) + args + "[]" * (written.dims + dims)
    params = ", ".join("%s %s" % (text(each.type, each.dims), each.name) for each in method.params)
    throws = " throws " + ", ".join(map(text, method.throws)) if method.throws else ""
    return "%s %s(%s)%s;" % (text(method.result) if method.result else "void", method.name, params, throws)


def read(names):
    texts = []
    for name in names:
        with open(name, "rb") as file:
            texts.append(file.read())
    return texts


def main():
    own, _, inputs = reader.cut(sys.argv[1:], "--")
    users, _, libraries = reader.cut(inputs, "+")
    names = users + libraries
    out, wanted, new_name, *methods = own
    answer = extract(names, read(names), len(users), out, wanted, new_name, methods)
    sys.stdout.buffer.write(answer.report)
    return answer.status


if __name__ == "__main__":
    sys.exit(main())
