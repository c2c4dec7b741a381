"""The maker of random command lines: right ones of each command, and ones that break one rule or two."""
from dataclasses import dataclass, field
from typing import Optional

import lexing

PATHS = ["A.java", "B.java", "C.java", "src/A.java", "src/B.java", "src/p/A.java", "a", "-", "--x", "...", "a..b", "x/y/z",
         "lang.java", "util.java", "$/_", "A", "I.java", "src/I.java", "out", "+a", "0"]
OUTS = ["out", "o", "out/x", "src", "-", "...", "A.java2", "a-b/c.d", "src/p", "0"]
IDS = ["A", "B", "Main", "I", "m", "n", "String", "_", "$", "x1", "Object", "main", "Class", "int1", "TRUE", "Ab_$9"]
BAD_PATHS = ["", ".", "..", "/A.java", "A.java/", "../A.java", "./A.java", "a//b", "A java", "a+b", "A\\B", "ä", "A\n", "*",
             "a/./b", "a/..", "~", "src/", "//", "A.java,B.java", "ａ", "a:b", "\x7f", "+"]
BAD_IDS = ["", "1A", "A.B", "A[]", "A B", "a-b", "Ä", " A", "A\n", "-", "A;", *sorted(lexing.KEYWORDS)]
NUMBERS = ["1", "2", "5", "10", "100", "1000", "4294967296", "9999999999"]
BAD_NUMBERS = ["", "00", "01", "+1", "-1", "1 ", " 1", "12345678901", "10000000000", "1.0", "0x1", "a", "١", "1_0", "-0", "²", "1L",
               "99999999999999999999999"]
ARGUMENTS = ["", "x", "=", "+", "-", "---", "ä", "a b", "1", "\n", "*"]
NO_COMMANDS = ["", "Check", "check ", "generalise", "help", "--", "-h", "use-supertype", "extract_interface", "pullup", "infer",
               "workload1", "run\n", "ä", "--help", "--version"]


@dataclass
class Line:
    """A command line in its parts. `libs` is None where no `+` stands."""
    command: str
    own: list
    dashes: list
    users: list
    libs: Optional[list]
    names: list = field(default_factory=list)  # what each own word is

    def words(self):
        return [self.command, *self.own, *self.dashes, *self.users, *([] if self.libs is None else ["+", *self.libs])]

    def inputs(self):
        return self.users + (self.libs or [])

    def at(self, *names):
        """The places of the own words that are one of these."""
        return [n for n, name in enumerate(self.names) if name in names and n < len(self.own)]


COMMANDS = {
    "check": [], "run": ["N", "CLASS"], "allowed": ["FILE", "LINE", "COL"],
    "generalize": ["OUT", "FILE", "LINE", "COL", "TYPE"], "extract-interface": ["OUT", "CLASS", "NEWNAME", "METHOD"],
    "pull-up": ["OUT", "CLASS", "SUPER", "MEMBER"], "infer-type-arguments": ["OUT"], "workload": ["K"],
}


def right_line(chance, command=None):
    command = command or chance.choice([*COMMANDS, "generalize", "extract-interface", "pull-up", "run"])
    names = list(COMMANDS[command])
    paths = chance.sample(PATHS, chance.randint(1, 5))
    count = chance.randint(1, len(paths))
    users, libs = paths[:count], paths[count:] or chance.choice([None, []])
    if command == "workload":
        return Line(command, [chance.choice(NUMBERS)], [], [], None, names)
    own = [right_word(chance, name, users) for name in names]
    if command == "run" and chance.random() < 0.6:
        more = [chance.choice(ARGUMENTS) for _ in range(chance.randint(0, 3))]
        own, names = own + ["=", *more], names + ["="] + ["argument"] * len(more)
    if command in ("extract-interface", "pull-up"):
        more = chance.sample([each for each in IDS if each != own[3]], chance.choice([0, 0, 1, 2]))
        own, names = own + more, names + [names[3]] * len(more)
    return Line(command, own, ["--"], users, libs, names)


def right_word(chance, name, users):
    if name == "OUT":
        return chance.choice(OUTS)
    if name == "FILE":
        return chance.choice(users)
    if name == "N" and chance.random() < 0.3:
        return "0"
    return chance.choice(NUMBERS if name in ("N", "LINE", "COL", "K") else IDS)


# What breaks a rule, where the command has what it takes.

def change(chance, line, names, choices):
    places = line.at(*names)
    if places:
        line.own[chance.choice(places)] = chance.choice(choices)


def break_command(chance, line):
    line.command = chance.choice(NO_COMMANDS + list(COMMANDS))


def break_shape(chance, line):
    way = chance.randrange(5)
    if way == 0 and line.own:
        line.own.pop(chance.randrange(len(line.own)))
    elif way == 1:
        line.own.insert(chance.randint(0, len(line.own)), chance.choice(["x", "=", "1", "", "+", *line.users[:1]]))
    elif way == 2:
        line.dashes = [] if line.dashes else ["--"]
    elif way == 3:
        change(chance, line, ["="], ["==", "", "x", "+"])
    else:
        line.dashes = line.dashes + ["--"]


def break_number(chance, line):
    change(chance, line, ["N", "LINE", "COL", "K"], BAD_NUMBERS + ["0"] * 6)


def break_users(chance, line):
    line.users = []


def break_path(chance, line):
    way = chance.randrange(4)
    if way == 0:
        change(chance, line, ["OUT"], BAD_PATHS)
    elif way == 1 and line.users:
        line.users[chance.randrange(len(line.users))] = chance.choice(BAD_PATHS)
    elif way == 2:
        line.libs = [*(line.libs or []), chance.choice(BAD_PATHS)]
    elif line.inputs():
        again = chance.choice(line.inputs())
        if chance.random() < 0.5:
            line.users.insert(chance.randint(0, len(line.users)), again)
        else:
            line.libs = [*(line.libs or []), again]


def break_output(chance, line):
    """An input that has the name of an output, or nearly."""
    outs = [line.own[n] for n in line.at("OUT")]
    if not outs or not line.users:
        return
    file = chance.choice(line.users)
    names = [outs[0] + "/" + file, outs[0] + "/" + file, outs[0] + file, outs[0] + "/" + file + "x"]
    names += [outs[0] + "/" + lib for lib in line.libs or []]
    for new in [line.own[n] for n in line.at("NEWNAME")]:
        folder = file.rpartition("/")[0]
        names += ["/".join([outs[0], *([folder] if folder else []), new + ".java"])] * 3
        names += [outs[0] + "/" + new + ".java", outs[0] + "/src/" + new + ".java", outs[0] + "/" + new, new + ".java"]
    name = chance.choice(names)
    if chance.random() < 0.5:
        line.users.append(name)
    else:
        line.libs = [*(line.libs or []), name]


def break_identifier(chance, line):
    change(chance, line, ["CLASS", "SUPER", "TYPE", "NEWNAME", "METHOD", "MEMBER"], BAD_IDS)


def break_place(chance, line):
    if line.at("FILE"):
        change(chance, line, ["FILE"], PATHS + (line.libs or []) * 5 + BAD_PATHS[:4])
    elif line.at("METHOD", "MEMBER"):
        places = line.at("METHOD", "MEMBER")
        line.own.append(line.own[chance.choice(places)])
        line.names.append(line.names[places[0]])
    if line.at("CLASS", "SUPER") and chance.random() < 0.3:
        change(chance, line, ["CLASS", "SUPER", "NEWNAME"], [line.own[n] for n in line.at("CLASS", "METHOD", "MEMBER")])


BREAKS = [break_command, break_shape, break_shape, break_number, break_number, break_users, break_path, break_path, break_output,
          break_output, break_identifier, break_place, break_place]


def random_line(chance):
    """A line that is right, or breaks one rule or two, or nearly."""
    line = right_line(chance)
    for _ in range(chance.choice([0, 1, 1, 1, 2, 2])):
        chance.choice(BREAKS)(chance, line)
    return line
