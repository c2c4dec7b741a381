"""Generalizes declared types of the random programs of acts.py and lets java 17 run what comes of it.

Of each program some heads of declared types are taken, and `allowed` says into which types each may change. Each of these changes has to be made, to be taken by
javac and to print what the program printed before; no other type of the program may be taken, of two places tried with all. An answer KEEP is shown, since it
stands for a constraint that is missing.
"""
import functools
import multiprocessing
import os
import random
import re
import shutil
import subprocess
import sys
import tempfile
from collections import Counter

import runs_against_java as runs

HEAD = re.compile(r"\b([A-Z]\w*)(?:\[\])*\s+[a-z_]\w*\s*[=;,:()]")
TYPE = re.compile(r"\b(?:class|interface)\s+([A-Z]\w*)")
ALWAYS = ["Object", "String", "Exception", "RuntimeException", "Throwable"]
PLACES = 5
WHOLE = 2
OTHERS = 2


def places(folder, made):
    """Each head that may be one of a declared type: file, line and column (from 1, in bytes), and its name."""
    for name in made.files:
        if name in made.libraries:
            continue
        with open(os.path.join(folder, name), "rb") as file:
            for number, line in enumerate(file.read().split(b"\n"), 1):
                for found in HEAD.finditer(line.decode("utf-8")):
                    yield name, number, len(line.decode("utf-8")[: found.start(1)].encode("utf-8")) + 1, found[1]


def types(folder, made):
    texts = [open(os.path.join(folder, name), encoding="utf-8").read() for name in made.files if name not in made.libraries]
    return sorted({each for text in texts for each in TYPE.findall(text)} | set(ALWAYS))


def inputs(made):
    users = [name for name in made.files if name not in made.libraries]
    return ["--", *users] + (["+", *made.libraries] if made.libraries else [])


def asked(program, folder, words):
    """What a call answers: done, the rule that is named, or another exit status; and its report."""
    done = subprocess.run([program, *words], cwd=folder, stdin=subprocess.DEVNULL, capture_output=True, timeout=runs.SECONDS_FOR_ONE)
    report = done.stdout.decode("utf-8", "replace")
    answer = report.split()
    kind = answer[1] if done.returncode == 1 and answer[:1] == ["refused"] else "done" if done.returncode == 0 else "status %s" % done.returncode
    return kind, report


def wishes(program, folder, made, chance):
    """Places with a type each, and whether `allowed` names the type."""
    heads, names = list(places(folder, made)), types(folder, made)
    for number, (file, line, col, old) in enumerate(chance.sample(heads, min(PLACES, len(heads)))):
        place = [file, str(line), str(col)]
        kind, report = asked(program, folder, ["allowed", *place, *inputs(made)])
        listed = re.findall(r"^type (\S+)$", report, re.M) if kind == "done" else []
        others = [each for each in names if each not in listed and each != old]
        for new in listed + (others if number < WHOLE else chance.sample(others, min(OTHERS, len(others)))):
            yield [*place, new], new in listed


def changed(program, case):
    """The changes of one program: of each the words, the answer, whether `allowed` names it, and where it was made a folder with the new files."""
    folder, made, seed = case
    found = []
    for number, (wish, is_listed) in enumerate(wishes(program, folder, made, random.Random(seed))):
        words = ["generalize", "out%d" % number, *wish, *inputs(made)]
        kind, _ = asked(program, folder, words)
        new = None
        if kind == "done":
            new = os.path.join(folder, "new%d" % number)
            os.makedirs(new)
            for name in made.files:
                one = os.path.join(folder, "out%d" % number, name)
                shutil.copy(one if os.path.exists(one) else os.path.join(folder, name), os.path.join(new, name))
        found.append((words, kind, is_listed, new))
    return found


def fault(kind, is_listed, new, right):
    """What is wrong with a change, or nothing."""
    if kind == "KEEP" or kind.startswith("status"):
        return kind
    if is_listed != (kind == "done"):
        return "allowed, and %s" % kind if is_listed else "not allowed, and done"
    if not new:
        return ""
    with open(os.path.join(new, "java"), "rb") as file:
        got = file.read()
    return "" if got == right else "java: %r" % got[:300]


def compare(program, seed, numbers, workers):
    """Changes the programs of these numbers and prints what is wrong. Their folders are kept; gives the exit status."""
    top = tempfile.mkdtemp(prefix="fuzz-changes-")
    cases = []
    for number in numbers:
        folder = os.path.join(top, "%s-%05d" % (seed, number))
        cases.append((folder, runs.lay(folder, seed, number), "%s/%d/changes" % (seed, number)))
    with multiprocessing.Pool(workers) as pool:
        all_found = pool.map(functools.partial(changed, program), cases, chunksize=1)
    news = [(new, made) for (_, made, _), found in zip(cases, all_found) for *_, new in found if new]
    runs.answers_of_java([(folder, made) for folder, made, _ in cases] + news)
    counts, wrong = Counter(), 0
    for (folder, _, _), found in zip(cases, all_found):
        with open(os.path.join(folder, "java"), "rb") as file:
            right = file.read()
        bad = False
        for words, kind, is_listed, new in found:
            counts[kind] += 1
            what = fault(kind, is_listed, new, right)
            if what:
                wrong, bad = wrong + 1, True
                print("WRONG %s: %s\n  %s" % (folder, what, " ".join(words)))
        if not bad:
            shutil.rmtree(folder)
    if not wrong:
        shutil.rmtree(top)
    print("%d programs, %d changes asked, %d wrong (%s)" % (len(cases), sum(counts.values()), wrong, ", ".join("%s %d" % each for each in sorted(counts.items()))))
    return 1 if wrong or not cases else 0
