"""Small changes of programs that break a rule on types or flow, or nearly: of what stands there, and by what is put in."""
import functools
import os
import re

import lexing
import syntax
import trees

NAMES = ["statements", "statements with the library", "members", "types", "members of a generic class"]  # the parts of the file `forms`
OPERATORS = "|| && | ^ & == != < > <= >= << >> >>> + - * / %".split()
KINDS = "int long char boolean String Object X Y A int[] String[] Object[] Nothing RuntimeException".split()
LITERALS = ["1", "0", "-1", "1L", "'a'", "true", "false", "null", '"s"', "2147483648", "-2147483648", "9223372036854775808L", "0x1FFFFFFFF", "this", "new Object()", "new X()",
            "new int[1]", "zz", "X", "(1)", "(null)", "System.out", "System.out.println()", "super.toString()", "this.toString()", "new int[1].length"]


def split_line(text):
    """A line end behind each statement, so that places differ in their lines too."""
    return text.replace("; ", ";\n    ").replace("{ ", "{\n    ")


def spoil(chance, files):
    """The files with one change; as they are, where none is found that keeps a tree."""
    libraries = [n for n, (name, _, _) in enumerate(files) if name.startswith("box/")]
    users = [n for n, (_, is_user, _) in enumerate(files) if is_user]
    for _ in range(10):
        number = chance.choice(libraries if libraries and chance.random() < 0.12 else users)
        name, is_user, text = files[number]
        unit = syntax.read_unit(text, number)
        change = chance.choice(CHANGES)(chance, unit, text, bool(libraries), is_user)
        if change is None:
            continue
        begin, end, new = change
        changed = text[:begin] + new.encode() + text[end:]
        if changed != text and has_tree(changed):
            return files[:number] + [(name, is_user, changed)] + files[number + 1:]
    return files


def has_tree(text):
    try:
        tokens = lexing.read_tokens(text)
        lexing.require_nothing_left_out(tokens)
        trees.require_tree(tokens)
    except (lexing.Broken, trees.NoTree):
        return False
    return True


def one(chance, unit, *kinds):
    found = [node for node in syntax.walk(unit) if node.kind in kinds]
    return chance.choice(found) if found else None


def text_of(node, text):
    return text[node.at:node.end].decode()


@functools.cache
def forms(name):
    """The forms of the file `forms` that stand below a name."""
    with open(os.path.join(os.path.dirname(os.path.abspath(__file__)), "forms"), encoding="utf-8") as file:
        parts = file.read().split("\n= ")
    return next(part.split("\n", 1)[1].split("\n") for part in (part.rstrip("\n") for part in parts[1:]) if part.split("\n", 1)[0] == name)


# Changes: each gives (begin, end, new text) or None.

VALUES = ("Number Char Text Bool Null This Name Field SuperField Index Call SuperMethod New NewArray NewFilled Paren Unary Step Cast Binary "
          "InstanceOf Cond Assign").split()
JUMPS = ["Break", "Continue", "Return", "Throw"]
SIMPLE = ["Local", "Value", "If", "While", "Do", "For", "ForEach", "Switch", "Try", "Return", "Throw", "Break", "Continue", "Block", "Empty", "SuperCall", "ThisCall"]


def swap_value(chance, unit, text, has_library, is_user):
    node, other = one(chance, unit, *VALUES), one(chance, unit, *VALUES)
    return node and (node.at, node.end, text_of(other, text))


def put_literal(chance, unit, text, has_library, is_user):
    node = one(chance, unit, *VALUES)
    return node and (node.at, node.end, chance.choice(LITERALS))


def change_literal(chance, unit, text, has_library, is_user):
    node = one(chance, unit, "Number", "Char", "Text", "Bool", "Null")
    return node and (node.at, node.end, chance.choice(LITERALS[:13]))


def drop_cast(chance, unit, text, has_library, is_user):
    node = one(chance, unit, "Cast", "Paren")
    return node and (node.at, node.end, text_of(node.of, text))


def add_cast(chance, unit, text, has_library, is_user):
    node = one(chance, unit, *VALUES)
    return node and (node.at, node.end, "((%s) (%s))" % (chance.choice(KINDS), text_of(node, text)))


def drop_statement(chance, unit, text, has_library, is_user):
    node = one(chance, unit, *(chance.choice([SIMPLE, ["Return", "Throw", "Break"]])))
    return node and (node.at, node.end, chance.choice(["", ";"]))


def drop_initialiser(chance, unit, text, has_library, is_user):
    found = [node for node in syntax.walk(unit) if node.kind == "Var" and node.init]
    node = chance.choice(found) if found else None
    return node and (node.at, node.end, node.name + "[]" * node.dims)


def rename(chance, unit, text, has_library, is_user):
    found = [(row.start(), row.end()) for row in re.finditer(rb"[A-Za-z_$][A-Za-z0-9_$]*", text) if row.group().decode() not in lexing.KEYWORDS]
    at, end = chance.choice(found)
    other = chance.choice(found)
    return at, end, chance.choice([text[other[0]:other[1]].decode()] * 3 + ["zz"])


def change_operator(chance, unit, text, has_library, is_user):
    node = one(chance, unit, "Binary", "Binary", "Assign", "Unary")
    if node is None:
        return None
    if node.kind == "Binary":
        return node.left.end, node.right.at, " %s " % chance.choice(OPERATORS)
    if node.kind == "Assign":
        return node.to.end, node.value.at, " %s= " % chance.choice(["", "", "+", "-", "<<", "&", "|", "^", "*"])
    return node.at, node.of.at, chance.choice(["-", "+", "~", "!"])


def change_type(chance, unit, text, has_library, is_user):
    node, other = one(chance, unit, "Type"), one(chance, unit, "Type")
    return node and (node.at, node.end, chance.choice([text_of(other, text), chance.choice(KINDS)]))


def change_modifier(chance, unit, text, has_library, is_user):
    node = one(chance, unit, "Method", "FieldDecl", "TypeDecl", "Local", "Param")
    if node is None:
        return None
    words = ["static", "final", "private", "public", "abstract"] if node.kind not in ("Local", "Param") else ["final"]
    if getattr(node, "mods", []) and chance.random() < 0.5:
        mod = chance.choice(node.mods)
        return node.at, node.at + len(text_of(node, text)), re.sub(r"\b%s\b" % mod, "", text_of(node, text), count=1)
    return node.at, node.at, chance.choice(words) + " "


def drop_throws(chance, unit, text, has_library, is_user):
    found = [node for node in syntax.walk(unit) if node.kind == "Method" and node.throws]
    node = chance.choice(found) if found else None
    return node and (node.throws_at, node.throws_end, chance.choice(["", "throws Y", "throws RuntimeException"]))


def add_throws(chance, unit, text, has_library, is_user):
    found = [node for node in syntax.walk(unit) if node.kind == "Method" and not node.throws]
    node = chance.choice(found) if found else None
    return node and (node.throws_at, node.throws_at, " throws %s " % chance.choice(["X", "Exception", "Y"]))


def add_behind_jump(chance, unit, text, has_library, is_user):
    node = one(chance, unit, *JUMPS)
    return node and (node.end, node.end, " " + chance.choice([";", "System.out.println();", "int zz;", "break;", "{ }"]))


def double(chance, unit, text, has_library, is_user):
    node = one(chance, unit, *SIMPLE, "Group")
    return node and (node.end, node.end, " " + text_of(node, text))


def move(chance, unit, text, has_library, is_user):
    node, other = one(chance, unit, *SIMPLE), one(chance, unit, *SIMPLE)
    return node and (node.at, node.at, text_of(other, text) + " ")


def put_statement(chance, unit, text, has_library, is_user):
    blocks = [node for node in syntax.walk(unit) if node.kind in ("Block", "Group")]
    if not blocks:
        return None
    block = chance.choice(blocks)
    places = [each.at for each in block.body if each.kind not in ("ThisCall", "SuperCall")]
    places += [block.end - 1] if block.kind == "Block" else []
    at = chance.choice(places) if places else block.end
    table = forms("statements with the library" if has_library and chance.random() < 0.45 else "statements")
    return at, at, chance.choice(table) + " "


def put_member(chance, unit, text, has_library, is_user):
    node = one(chance, unit, "TypeDecl")
    table = forms("members" if is_user else "members of a generic class")
    return node and (node.end - 1, node.end - 1, "  %s\n" % chance.choice(table))


def put_type(chance, unit, text, has_library, is_user):
    return (len(text), len(text), chance.choice(forms("types")) + "\n") if is_user else put_member(chance, unit, text, has_library, is_user)


CHANGES = [swap_value, swap_value, put_literal, put_literal, change_literal, drop_cast, add_cast, drop_statement, drop_statement, drop_initialiser, rename, rename,
           change_operator, change_operator, change_type, change_type, change_modifier, change_modifier, drop_throws, add_throws, add_behind_jump, double, move,
           put_statement, put_statement, put_statement, put_statement, put_member, put_member, put_type, put_type, put_type]
