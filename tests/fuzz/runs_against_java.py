"""Compares `run` with java 17 on the random programs of acts.py."""
import functools
import multiprocessing
import os
import random
import shutil
import subprocess
import sys
import tempfile
from collections import Counter

import acts

HERE = os.path.dirname(os.path.abspath(__file__))
SECONDS_FOR_ONE = 300
JAVA = ["java", "-Xmx2g", "-XX:TieredStopAtLevel=1", "-XX:+UseSerialGC", "-Dfile.encoding=UTF-8", os.path.join(HERE, "Runner.java")]
STATUSES = {"normal": 0, "threw": 10}
BOUND = 11


def lay(folder, seed, number):
    """Writes the files of a program and gives it."""
    made = acts.program(random.Random("%s/%d" % (seed, number)))
    os.makedirs(folder)
    for name, text in made.files.items():
        with open(os.path.join(folder, name), "w", encoding="utf-8") as file:
            file.write(text)
    return made


def answers_of_java(programs):
    """Lets java run each program; what it reports is a file of the folder."""
    lines = "".join("\t".join([folder, made.main, *made.words]) + "\n" for folder, made in programs)
    done = subprocess.run(JAVA, input=lines.encode(), stderr=subprocess.PIPE)
    if done.returncode:
        sys.exit(done.stderr.decode("utf-8", "replace")[-3000:])


def words_of(made, steps=acts.STEPS):
    users = [name for name in made.files if name not in made.libraries]
    words = ["run", str(steps), "M", *(["=", *made.words] if made.words else []), "--", *users]
    return words + (["+", *made.libraries] if made.libraries else [])


def answer_of(program, folder, words):
    """The exit status and the report of the program."""
    try:
        done = subprocess.run([program, *words], cwd=folder, stdin=subprocess.DEVNULL, capture_output=True, timeout=SECONDS_FOR_ONE)
    except subprocess.TimeoutExpired:
        return "none after %d seconds" % SECONDS_FOR_ONE, b""
    return done.returncode, done.stdout


def end_of(report):
    return report.decode("utf-8", "replace").rstrip("\n").rpartition("\n")[2]


def difference(status, report, right):
    """A line on what differs, or an empty text. Where java throws an error for want of memory jgen ends in another way, and nothing is compared."""
    if b"java.lang.OutOfMemoryError" in right:
        return ""
    if report != right:
        pairs = zip(right.split(b"\n") + [b"nothing"], report.split(b"\n") + [b"nothing"])
        differing = [pair for pair in enumerate(pairs, 1) if pair[1][0] != pair[1][1]]
        # the count of bytes differs wherever something else does
        line, (one, other) = next((pair for pair in differing if pair[0] > 1), differing[0])
        return "line %d: java %r, got %r; status %s" % (line, one[:300], other[:300], status)
    if status != STATUSES.get(end_of(right).split()[1]):
        return "exit status %s, and %s" % (status, end_of(right))
    return ""


def difference_of_bound(program, folder, made, right):
    """What differs in a run of fewer steps: it reports the same, or a front of what is printed and that it came to its bound."""
    steps = len(right) * 7919 % 1500
    status, report = answer_of(program, folder, words_of(made, steps))
    if report == right:
        return ""
    printed = report.partition(b"\n")[2].removesuffix(b"\nend bound\n")
    is_front = right.partition(b"\n")[2].startswith(printed) and report == b"printed %d\n%s\nend bound\n" % (len(printed), printed)
    return "" if is_front and status == BOUND else "no front of the report with %d steps; status %s" % (steps, status)


def compared(program, case):
    """How java ends a program, and what differs."""
    folder, made = case
    with open(os.path.join(folder, "java"), "rb") as file:
        right = file.read()
    if not program:
        return end_of(right), ""
    status, report = answer_of(program, folder, words_of(made))
    with open(os.path.join(folder, "jgen"), "wb") as file:
        file.write(report)
    what = difference(status, report, right)
    if not what and folder.endswith("0"):
        what = difference_of_bound(program, folder, made, right)
    return end_of(right), what


def compare(program, seed, numbers, workers):
    """Runs the programs of these numbers and prints what differs. Their folders are kept; gives the exit status."""
    top = tempfile.mkdtemp(prefix="fuzz-runs-")
    programs = []
    for number in numbers:
        folder = os.path.join(top, "%s-%05d" % (seed, number))
        programs.append((folder, lay(folder, seed, number)))
    answers_of_java(programs)
    counts, differing = Counter(), 0
    with multiprocessing.Pool(workers) as pool:
        for (folder, made), (end, what) in zip(programs, pool.imap(functools.partial(compared, program), programs)):
            counts[" ".join(end.split()[:2]) if end.startswith("end") else "refused by javac"] += 1
            if what:
                differing += 1
                print("DIFFERENCE %s: %s\n  %s" % (folder, what, " ".join(words_of(made))))
            else:
                shutil.rmtree(folder)
    if not differing:
        shutil.rmtree(top)
    print("%d programs run, %d differences (%s)" % (len(programs), differing, ", ".join("%s %d" % each for each in sorted(counts.items()))))
    return 1 if differing or not programs else 0
