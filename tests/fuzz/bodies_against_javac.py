#!/usr/bin/env python3
"""Compares the rules on types and flow with javac 17 on random programs: bodies_against_javac.py [COUNT] [SEED]

A program that breaks no rule must compile, and one that breaks a rule must have an error in the line of it, but for what this Java
has of its own (OWN, `is_own`). Each program that differs is printed up to where it differs, for a reader to judge.
"""
import os
import random
import re
import subprocess
import sys
import tempfile
from collections import Counter

sys.dont_write_bytecode = True

import blocks
import checked

HERE = os.path.dirname(os.path.abspath(__file__))

# rules that javac does not have, or has in another form: narrowing of constants, boxing, arms of conditionals, switch on strings,
# assignments of final variables where the language asks for definite assignment, initialisers that may throw
OWN = {"T10", "T11", "T12", "T53", "T54", "T57", "T60", "F4", "F5", "F9", "F12"}

# what javac says of flow, of the first class alone for which it has something to say
OF_FLOW = """unreachable.stmt missing.ret.stmt var.might.not.have.been.initialized unreported.exception.need.to.catch.or.throw except.never.thrown.in.try
    unreported.exception.default.constructor except.already.caught var.might.already.be.assigned var.not.initialized.in.default.constructor
    illegal.forward.ref illegal.self.ref unreported.exception.implicit.close""".split()


def lay(folder, number, files):
    names = []
    for name, _, text in files:
        if name not in ("lang.java", "util.java"):
            path = os.path.join(folder, "%05d" % number, name)
            os.makedirs(os.path.dirname(path), exist_ok=True)
            with open(path, "wb") as file:
                file.write(text)
            names.append(path)
    return names


def errors_of(line, number):
    """The errors of a program as (code, file, line)."""
    found = []
    for each in line.split(";"):
        row = re.match(r"(\S+) (.*?):(-?\d+):(-?\d+)$", each)
        if row:
            found.append((row.group(1).replace("compiler.err.", ""), row.group(2).rpartition("/%05d/" % number)[2], int(row.group(3))))
    return found


def place_of(answer):
    """The file and line of a refusal."""
    name, line, _ = answer.report.decode().split()[2].rsplit(":", 2)
    return name, int(line)


def difference(answer, errors):
    """What differs, or an empty text."""
    if answer.kind in ("checked", "unchecked"):
        return "javac refuses" if errors else ""
    if not errors:
        return "" if answer.kind in OWN else "javac accepts"
    at = place_of(answer)
    if answer.kind[0] == "F" and all(code in OF_FLOW for code, _, _ in errors):
        return ""
    near = any(name == at[0] and abs(line - at[1]) <= 1 for _, name, line in errors)
    return "" if near or answer.kind[0] not in "TF" or answer.kind in OWN else "elsewhere"


def shown(number, files, answer, errors, what):
    print("== %d: %s | %s | javac: %s" % (number, what, answer.report.decode().strip().split("\n")[-1], errors[:4]))
    places = [place_of(answer)] if answer.kind not in ("checked", "unchecked") else []
    texts = {name: text.decode().split("\n") for name, _, text in files}
    for name, line in places + [(name, line) for _, name, line in errors[:2] if name in texts]:
        for n in range(max(1, line - 3), min(len(texts[name]), line + 2) + 1):
            print("%s %s:%d %s" % (">" if n == line else " ", name, n, texts[name][n - 1]))


def main():
    count = int(sys.argv[1]) if len(sys.argv) > 1 else 300
    seed = sys.argv[2] if len(sys.argv) > 2 else "1"
    counts, differing, made, lines = Counter(), Counter(), [], ""
    with tempfile.TemporaryDirectory() as folder:
        for n in range(count):
            files = blocks.spoiled_program(random.Random("%s/%d" % (seed, n)), for_javac=True)
            made.append(files)
            lines += " ".join(lay(folder, n, files)) + "\n"
        judged = subprocess.run(["java", "-Xmx1g", "-Xss64m", "-XX:TieredStopAtLevel=1", "-XX:+UseSerialGC", os.path.join(HERE, "Judge.java"), "FLOW"], input=lines, capture_output=True, text=True)
    answers = judged.stdout.split("\n")[:-1]
    if len(answers) != count:
        sys.exit(judged.stderr[-2000:])
    for number, (files, line) in enumerate(zip(made, answers)):
        answer = checked.check([name for name, _, _ in files], [text for _, _, text in files], sum(is_user for _, is_user, _ in files))
        counts[answer.kind] += 1
        if answer.kind[0] in "XGSLD":
            continue
        errors = errors_of(line, number)
        what = difference(answer, errors)
        if what:
            differing[what] += 1
            shown(number, files, answer, errors, what)
    print("%d programs, differ: %s (%s)" % (count, dict(differing), ", ".join("%s %d" % each for each in sorted(counts.items()))))


main()
