"""Extracts interfaces from the classes of random programs, compares what jgen answers with the plain reader, and lets java run what comes of it.

The programs are those of acts.py, with methods that are public for the most part, and those of uses.py. Of each class some sets of methods are taken. The whole
report and all files have to be those of kept.py, and the new program has to be taken by javac and to print what the old one printed. Without a program
the files of kept.py are run.
"""
import functools
import multiprocessing
import os
import random
import re
import shutil
import tempfile
from collections import Counter

import acts
import kept
import runs_against_java as runs
import uses

SETS = 2
CLASSES = 4
WRONG = 0.06


class Open(acts.Actor):
    """A maker of programs whose instance methods are public for the most part."""
    accesses = ("public ", "public ", "public ", "")


def made_program(chance, number):
    """A program, one of four that of acts.py; those of uses.py are tried until one breaks no rule."""
    if number % 4 == 0:
        return acts.program(chance, Open)
    while True:
        made = uses.program(chance)
        if made:
            return made


def users_of(made):
    return [name for name in made.files if name not in made.libraries]


def classes_of(made):
    """The user's classes, and of each the names of its methods; of text alone."""
    found = {}
    for name in users_of(made):
        for line in re.split(r"[\r\n]+", made.files[name]):
            head = re.match(r"(?:abstract |final |public )*class (\w+)", line)
            if head:
                own = found.setdefault(head[1], {})
            method = re.match(r"\s*((?:\w+ )*)[\w<>, \[\]]+ (\w+)\([^()]*\)(?: throws \w+)? ?[{;]", line)
            if method and found and not re.match(r"\s*(return|throw|new|if|for)\b", line):
                own.setdefault(method[2], []).append("public" in method[1] and "static" not in method[1])
    return found


def wishes(made, chance):
    """Random extractions: a class, a new name, methods. Few break a rule."""
    classes = classes_of(made)
    usable_of = {name: [each for each, are_right in methods.items() if all(are_right)] for name, methods in classes.items()}
    names = [name for name in classes if usable_of[name] or chance.random() < WRONG]
    for name in chance.sample(names, min(CLASSES, len(names))):
        methods, usable = classes[name], usable_of[name]
        for n in range(SETS):
            new, some = "Face", usable if n == 0 else chance.sample(usable, chance.randint(1, len(usable))) if usable else []
            if chance.random() < WRONG:
                new = chance.choice(["java", "Object", "List", "Iterator", "A", "box", "p", "lib", "T", "U0", "P0", "P1", "lang"])
            if chance.random() < WRONG or not some:
                some = chance.sample(sorted(methods), min(len(methods), 2)) + chance.choice([[], ["none"]])
            of = chance.choice(["J", "Key", "none", "String"]) if chance.random() < WRONG / 3 else name
            if some:
                yield of, new, some


def lay(folder, made):
    os.makedirs(folder)
    for name, text in made.files.items():
        with open(os.path.join(folder, name), "wb") as file:
            file.write(text.encode())


def inputs(made):
    return ["--", *users_of(made)] + (["+", *made.libraries] if made.libraries else [])


def right_answer(made, words):
    names = users_of(made) + made.libraries
    return kept.extract(names, [made.files[each].encode() for each in names], len(users_of(made)), *words[:3], words[3:], check=kept.checked_users)


def files_below(folder):
    found = {}
    for place, _, files in os.walk(folder):
        for name in files:
            with open(os.path.join(place, name), "rb") as file:
                found[os.path.relpath(os.path.join(place, name), folder)] = file.read()
    return found


def difference(program, folder, made, words, right):
    """What jgen answers otherwise than the plain reader, or nothing."""
    status, report = runs.answer_of(program, folder, ["extract-interface", *words, *inputs(made)])
    if status != right.status:
        return "exit status %s, where %s is right: %s" % (status, right.status, report.decode("utf-8", "replace")[:300])
    if report != right.report:
        pairs = zip(right.report.split(b"\n") + [b"nothing"], report.split(b"\n") + [b"nothing"])
        one, other = next((pair for pair in pairs if pair[0] != pair[1]), (b"nothing", b"nothing"))
        return "%r is right, got %r" % (one.decode(), other.decode("utf-8", "replace"))
    got = {os.path.join(words[0], name): data for name, data in files_below(os.path.join(folder, words[0])).items()}
    return "" if got == right.texts else "other files: %s" % ", ".join(sorted(name for name in {**got, **right.texts} if got.get(name) != right.texts.get(name)))


def extracted(program, top, seed, number):
    """The extractions of one program: its folder, the program, and of each the words, the plain reader's answer, what differs, and the folder of the new files."""
    folder = os.path.join(top, "%s-%05d" % (seed, number))
    made = made_program(random.Random("%s/%d" % (seed, number)), number)
    lay(folder, made)
    found = []
    for n, wish in enumerate(wishes(made, random.Random("%s/%d/extract" % (seed, number)))):
        words = ["out%d" % n, *wish[:2], *wish[2]]
        right = right_answer(made, words)
        what = difference(program, folder, made, words, right) if program else ""
        new = os.path.join(folder, "new%d" % n) if right.texts else None
        if new:
            lay(new, made._replace(files={**{each: made.files[each] for each in made.libraries},
                                          **{os.path.relpath(each, words[0]): data.decode() for each, data in right.texts.items()}}))
        found.append((words, right.kind, right.report, what, new))
    return folder, made, found


def fault_of_java(new, right):
    """What java makes of the new files otherwise."""
    with open(os.path.join(new, "java"), "rb") as file:
        got = file.read()
    return "" if got == right else "java: %r" % got[:300]


def counted(report, counts):
    """Counts the places that change and those that stay, by kind and by how many steps lead to the need."""
    lines = report.decode().split("\n")
    then = {}
    for line in lines:
        words = line.split(" ")
        if words[0] == "kept":
            then[words[1]] = words[6] if words[2] == "because" else None
            counts["%s %s" % (words[2], words[3])] += 1
    for place in then:
        steps = 0
        while then[place]:
            place, steps = then[place], steps + 1
        counts["steps %d" % min(steps, 9)] += 1
    counts["places changed"] += max(0, sum(line.startswith("edit ") for line in lines) - 1)
    counts["places kept"] += len(then)


def compare(program, seed, numbers, workers):
    """Extracts from the programs of these numbers and prints what is wrong. Their folders are kept; gives the exit status."""
    top = tempfile.mkdtemp(prefix="fuzz-extract-")
    with multiprocessing.Pool(workers) as pool:
        cases = pool.map(functools.partial(extracted, program, top, seed), numbers, chunksize=1)
    news = [(new, made) for _, made, found in cases for *_, new in found if new]
    runs.answers_of_java([(folder, made) for folder, made, _ in cases] + news)
    kinds, counts, wrong = Counter(), Counter(), 0
    for folder, _, found in cases:
        with open(os.path.join(folder, "java"), "rb") as file:
            right = file.read()
        is_taken = right.startswith(b"printed")
        kinds["old: " + (runs.end_of(right) if is_taken else "refused by javac")] += 1
        bad = False
        for words, kind, report, what, new in found:
            kinds[kind] += 1
            counted(report, counts)
            what = what or (fault_of_java(new, right) if new and is_taken else "")
            if what:
                wrong, bad = wrong + 1, True
                print("WRONG %s: %s\n  extract-interface %s" % (folder, what, " ".join(words)))
        if not bad:
            shutil.rmtree(folder)
    if not wrong:
        shutil.rmtree(top)
    print(", ".join("%s %d" % each for each in sorted(counts.items())))
    print("%d programs, %d extractions asked, %d wrong (%s)" % (len(cases), sum(len(found) for *_, found in cases), wrong, ", ".join("%s %d" % each for each in sorted(kinds.items()))))
    return 1 if wrong or not cases else 0
