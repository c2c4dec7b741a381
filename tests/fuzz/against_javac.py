#!/usr/bin/env python3
"""Compares the plain reader's trees with javac's parser on random files: against_javac.py [COUNT] [SEED]

Each file that has a tree must be read by javac's parser, but for what javac finds while parsing and this profile finds later
(EXCUSES). Damaged files without a tree that javac reads are printed, as far as no form that only the profile leaves out
explains them, for a reader to judge.
"""
import os
import random
import re
import subprocess
import sys
import tempfile
from collections import Counter, defaultdict

import grows
import lexing
import trees

# what javac's parser says of files that have a tree here
EXCUSES = re.compile("repeated modifier|integer number too large|invalid method declaration; return type required|private interface methods are not supported")

JAVAC = ["javac", "-J-Xmx1g", "-J-Xss512m", "-proc:none", "-source", "8", "-XDshould-stop.ifError=PARSE", "-XDshould-stop.ifNoError=PARSE",
         "-Xmaxerrs", "1000000", "-Xlint:none", "-nowarn", "-encoding", "UTF-8"]


def judge(data):
    try:
        tokens = lexing.read_tokens(data)
        lexing.require_nothing_left_out(tokens)
        trees.require_tree(tokens)
    except lexing.Broken as broken:
        return broken.rule, str(broken)
    except trees.NoTree as reason:
        return "G1", str(reason)
    return "tree", ""


def files(count, seed):
    for n in range(count):
        chance = random.Random("%s/%d" % (seed, n))
        pieces = grows.unit_pieces(chance, for_javac=True)
        yield "grown", grows.lay_out(chance, pieces)
        for _ in range(2):
            yield "damaged", grows.lay_out(chance, grows.damaged(chance, grows.unit_pieces(chance, chance.choice([5, 20, 40, 80]), True)))
        if n % 10 == 0:
            yield "deep", grows.lay_out(chance, grows.deep_pieces(chance))


def main():
    count = int(sys.argv[1]) if len(sys.argv) > 1 else 300
    seed = sys.argv[2] if len(sys.argv) > 2 else "1"
    made, kinds = {}, {}
    with tempfile.TemporaryDirectory() as folder:
        names = []
        for n, (kind, data) in enumerate(files(count, seed)):
            name = os.path.join(folder, "F%05d.java" % n)
            with open(name, "wb") as file:
                file.write(data)
            made[name], kinds[name] = data, kind
            names.append(name)
        with open(os.path.join(folder, "list"), "w") as file:
            file.write("\n".join(names))
        done = subprocess.run(JAVAC + ["@" + os.path.join(folder, "list")], capture_output=True, text=True)
    errors = defaultdict(list)
    for line in (done.stderr + done.stdout).splitlines():
        found = re.match(r"(.*F\d+\.java):(\d+): error: (.*)", line)
        if found:
            errors[found.group(1)].append("%s (line %s)" % (found.group(3), found.group(2)))
    if not errors:
        sys.exit(done.stderr[-2000:])
    counts, shown = Counter(), Counter()
    for name, data in made.items():
        rule, why = judge(data)
        wrong = [each for each in errors[name] if not EXCUSES.search(each)]
        counts[kinds[name], rule, "javac refuses" if wrong else "javac excused" if errors[name] else "javac reads"] += 1
        if rule == "tree" and wrong or rule == "G1" and not errors[name]:
            key = (rule, re.sub(r"\d+", "n", why or wrong[0]))
            shown[key] += 1
            if shown[key] <= 3:
                print("==", kinds[name], rule, why, "| javac:", wrong[:2])
                print(data.decode("utf-8", "replace")[:int(os.environ.get("SHOW", "700"))])
    for key, number in sorted(counts.items()):
        print(number, *key)
    for key, number in sorted(shown.items()):
        print(number, key)


main()
