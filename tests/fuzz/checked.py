"""The answer of `check`: what reader.py says of words, files and declarations, and then the rules on types and on flow.

    checked.py FILE .. [+ FILE ..]     prints the answer for files
"""
import functools
import sys

sys.dont_write_bytecode = True

import declares
import flows
import reader
import typed as types


class Checked:
    """What is right for a program: its report, the status, and the kind of the answer; `why` helps who reads a difference."""

    def __init__(self, kind, report, status, others=frozenset(), tree=None):
        self.kind, self.report, self.status, self.others, self.tree = kind, report, status, others, tree


@functools.lru_cache(maxsize=32)
def require_tree(name, text):
    """What reader.py says of one file, all files being small."""
    reader.tokens_in_file(name, text, 0)


def check(names, texts, users, has_flow=True, only_users=False):
    """The answer for files, of which the first `users` are the user's. With `only_users` the bodies of the library are taken as right."""
    try:
        for name, text in zip(names, texts):
            require_tree(name, text)
    except reader.Stopped as stop:
        return Checked(stop.answer.kind, stop.answer.report, stop.answer.status, stop.answer.others)
    program = declares.Program(texts, users)
    broken = declares.first_broken_of(program)
    if broken is not None:
        rule, file, at = broken
        answer = reader.refused(rule, "-" if file is None else reader.place_of(names[file], texts[file], at))
        return Checked(rule, answer.report, answer.status)
    declares.OBJECT[:] = [program.object]
    tree = types.Typed(program, texts, only_users)
    broken, letter = tree.first_broken(), "T"
    if broken is None and has_flow:
        broken, letter = flows.first_broken(tree), "F"
    if broken is not None:
        node, number = broken
        rule = "%s%d" % (letter, number)
        answer = reader.refused(rule, reader.place_of(names[node.file], texts[node.file], node.at))
        return Checked(rule, answer.report, answer.status, tree=tree)
    places = [reader.place_of(names[node.file], texts[node.file], node.at) for node in tree.unchecked_nodes()]
    report = "".join("unchecked %s\n" % place for place in places) + "checked %d files\n" % len(names)
    return Checked("unchecked" if places else "checked", report.encode(), reader.DONE, tree=tree)


def main():
    users, _, libraries = reader.cut(sys.argv[1:], "+")
    texts = []
    for name in users + libraries:
        with open(name, "rb") as file:
            texts.append(file.read())
    answer = check(users + libraries, texts, len(users))
    sys.stdout.write(answer.report.decode())
    return answer.status


if __name__ == "__main__":
    sys.exit(main())
