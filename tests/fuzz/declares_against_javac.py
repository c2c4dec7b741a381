#!/usr/bin/env python3
"""Compares the rules on declarations with javac 17 on random programs: declares_against_javac.py [COUNT] [SEED]

A program that breaks no rule must have no error on declarations, and one that breaks a DR rule must have an error of the
kind that the rule has. What javac says of values, bodies and file names is left aside, and so are the S rules, which javac
does not have. Each program that differs is printed, for a reader to judge.
"""
import os
import random
import re
import subprocess
import sys
import tempfile
from collections import Counter

sys.dont_write_bytecode = True

import declares
import programs
import reader

HERE = os.path.dirname(os.path.abspath(__file__))

# errors that are no matter of declarations
ASIDE = """expected class.public.should.be.in.file non-static.cant.be.ref cant.apply.symbol cant.apply.symbols unreported.exception.default.constructor
    unreported.exception.need.to.catch.or.throw var.might.not.have.been.initialized report.access prob.found.req illegal.start.of.stmt
    cant.inherit.from.sealed name.clash.same.erasure.no.hide""".split()

# what each rule may be to javac, which puts one error at a place: an error that stands there for another reason hides it
KINDS = {
    "DR1": "cant.resolve cant.resolve.location doesnt.exist not.def.public.cant.access wrong.number.type.args cant.apply.diamond "
           "cant.resolve.location.args type.doesnt.take.params not.def.public import.requires.canonical type.var.more.than.once "
           "type.found.req incompatible.types improperly.formed.type.param.missing dot.class",
    "DR2": "intf.expected.here no.intf.expected.here cant.inherit.from.final repeated.interface incompatible.types type.found.req prob.found.req "
           "cant.inherit.diff.arg",
    "DR3": "cyclic.inheritance intf.expected.here no.intf.expected.here cant.inherit.from.final", "DR4": "cant.inherit.diff.arg does.not.override.abstract", "DR5": "already.defined",
    "DR6": "already.defined name.clash.same.erasure", "DR7": "already.defined name.clash.same.erasure", "DR8": "already.defined",
    "DR9": "repeated.modifier illegal.combination.of.modifiers mod.not.allowed.here feature.not.supported.in.source.plural",
    "DR10": "abstract.meth.cant.have.body missing.meth.body.or.decl.abstract does.not.override.abstract intf.meth.cant.have.body "
            "missing.meth.body.or.decl.abstract mod.not.allowed.here feature.not.supported.in.source.plural",
    "DR11": "invalid.meth.decl.ret.type.req", "DR12": "generic.throwable expected =.expected",
    "DR13": "override.incompatible.ret types.incompatible override.static override.weaker.access override.meth", "DR14": "override.weaker.access",
    "DR15": "override.meth.doesnt.throw override.weaker.access override.incompatible.ret override.meth", "DR16": "override.meth", "DR17": "override.static override.meth does.not.override.abstract",
    "DR18": "does.not.override.abstract", "DR19": "types.incompatible does.not.override.abstract override.incompatible.ret",
    "DR20": "name.clash.same.erasure.no.override name.clash.same.erasure.no.override.1 name.clash.same.erasure",
}


def lay(folder, number, chance, sources):
    """Puts a program into a folder of its own, a file for each type, as javac wants public types; gives the names."""
    names = []
    for n, source in enumerate(sources):
        for each in source.types or [None]:
            path = os.path.join(folder, "%05d" % number, str(n), "%s.java" % (each.name if each else "None"))
            os.makedirs(os.path.dirname(path), exist_ok=True)
            alone = programs.Source(source.name, source.is_user, source.package, source.imports, [each] if each else [])
            with open(path, "wb") as file:
                file.write(programs.lay_out(chance, programs.pieces(alone)))
            names.append(path)
    return names


def codes(line):
    return {each.split(" ")[0].replace("compiler.err.", "") for each in line.split(";") if each}


def is_alone(files, broken, line):
    """What javac can't judge: S rules, what a library sees and packages above others, and static members with type variables."""
    return "non-static.cant.be.ref" in line or broken is not None and (
        broken[0][0] == "S" or broken[0] == "DR1" and (not files[broken[1]][1] or files[broken[1]][2][broken[2]:].startswith(b"import")))


def is_alike(broken, errors):
    if broken is None:
        return errors <= set(ASIDE)
    return bool(errors & set(KINDS[broken[0]].split()))


def shown(number, files, broken, line):
    """A program for whoever has to look at it, with the errors that are not left aside."""
    rule = "fine" if broken is None else "%s %s:%d:%d" % (broken[0], files[broken[1]][0], *reader.Lines(files[broken[1]][2]).place(broken[2]))
    errors = [re.sub(r" .*/\d{5}/", " ", each).replace("compiler.err.", "") for each in line.split(";") if not codes(each) <= set(ASIDE)]
    print("== %d: %s | javac: %s" % (number, rule, "; ".join(errors) or "fine"))
    for name, _, text in files:
        print("--", name)
        print(text.decode().replace("\r\n", "\n").replace("\r", "\n"))


def main():
    count = int(sys.argv[1]) if len(sys.argv) > 1 else 300
    seed = sys.argv[2] if len(sys.argv) > 2 else "1"
    counts, differing, made, lines = Counter(), 0, [], ""
    with tempfile.TemporaryDirectory() as folder:
        for n in range(count):
            chance = random.Random("%s/%d" % (seed, n))
            sources = programs.random_sources(chance, for_javac=True)
            made.append(programs.texts_of(chance, sources))
            lines += " ".join(lay(folder, n, chance, sources)) + "\n"
        judged = subprocess.run(["java", "-Xmx1g", os.path.join(HERE, "Judge.java")], input=lines, capture_output=True, text=True)
    answers = judged.stdout.split("\n")[:-1]
    if len(answers) != count:
        sys.exit(judged.stderr[-2000:])
    for number, (files, line) in enumerate(zip(made, answers)):
        broken = declares.first_broken([text for _, _, text in files], sum(is_user for _, is_user, _ in files))
        errors = codes(line)
        if is_alone(files, broken, line):
            counts["not compared"] += 1
            continue
        counts[broken[0] if broken else "fine"] += 1
        if not is_alike(broken, errors):
            differing += 1
            shown(number, files, broken, line)
    print("%d programs, %d differ (%s)" % (count, differing, ", ".join("%s %d" % each for each in sorted(counts.items()))))


main()
