"""The tokens of a file, and the rules X1 to X6 and S1 to S9."""
import functools
import re
from typing import NamedTuple

KEYWORDS = frozenset("""
    abstract assert boolean break byte case catch char class const continue default do double else enum extends
    final finally float for goto if implements import instanceof int interface long native new package private
    protected public return short static strictfp super switch synchronized this throw throws transient try void
    volatile while true false null
    """.split())

ESCAPE = rb"\\(?:[btnfr\"'\\]|[0-3][0-7]{0,2}|[4-7][0-7]?)"
EXPONENT = rb"[eE][+-]?[0-9]+"

# Alternatives in such an order that the first that matches is the longest token.
TOKEN = re.compile(rb"""
      (?P<white>   [ \t\f\n\r]+ )
    | (?P<comment> //[^\n\r]* | /\*.*?\*/ )
    | (?P<word>    [A-Za-z_$][A-Za-z0-9_$]* )
    | (?P<float>   (?: [0-9]+\.[0-9]* (?:%(exponent)s)? | \.[0-9]+ (?:%(exponent)s)? | [0-9]+ %(exponent)s ) [fFdD]?
                 | [0-9]+[fFdD] )
    | (?P<number>  0[xX][0-9a-fA-F]+[lL]? | (?!0[xX])[0-9]+[lL]? )
    | (?P<char>    ' (?: %(escape)s | [^'\\\r\n\x80-\xff] | [\xc2-\xdf][\x80-\xbf] | [\xe0-\xef][\x80-\xbf]{2} ) ' )
    | (?P<text>    " (?: %(escape)s | [^"\\\r\n] )* " )
    | (?P<op>      \.\.\. | <<= | \+\+ | -- | && | \|\| | == | <= | >= | != | << | \+= | -= | \*= | /= | &= | \|= | \^= | %%=
                 | [(){}\[\];,.=<>!~?:+*&|^%%@-] | /(?!\*) )
    """ % {b"escape": ESCAPE, b"exponent": EXPONENT}, re.VERBOSE | re.DOTALL)


class Broken(Exception):
    """A rule that a text breaks, and the byte at which it does."""

    def __init__(self, rule, at):
        super().__init__("%s at byte %d" % (rule, at))
        self.rule = rule
        self.at = at


class Token(NamedTuple):
    """`sort` is the text of an operator or a keyword, else Id, Int, Long, Float, Char or Text."""
    sort: str
    text: bytes
    at: int
    end: int


def require_text(data):
    """X6: bytes that are no UTF-8, or a backslash after an even number of backslashes before `u`."""
    found = [row.end() - 1 for row in re.finditer(rb"\\+(?=u)", data) if len(row.group()) % 2 == 1][:1]
    try:
        data.decode("utf-8")
    except UnicodeDecodeError as error:
        found.append(error.start)
    if found:
        raise Broken("X6", min(found))


@functools.lru_cache(maxsize=32)
def read_tokens(data):
    """The tokens of a text, a list that nobody changes; Broken with the X rule that it breaks first."""
    require_text(data)
    tokens = []
    at = 0
    while at < len(data):
        found = TOKEN.match(data, at)
        if found is None:
            raise Broken(what_is_wrong(data, at), at)
        kind, text = found.lastgroup, found.group()
        if kind == "number":
            if is_octal(text) and re.search(rb"[89]", text):
                raise Broken("X2", at)
            tokens.append(Token("Long" if text[-1:] in b"lL" else "Int", text, at, found.end()))
        elif kind == "word":
            word = text.decode()
            tokens.append(Token(word if word in KEYWORDS else "Id", text, at, found.end()))
        elif kind == "op":
            tokens.append(Token(text.decode(), text, at, found.end()))
        elif kind in ("float", "char", "text"):
            tokens.append(Token(kind.capitalize(), text, at, found.end()))
        at = found.end()
    return tokens


def is_octal(text):
    return text[:1] == b"0" and text[1:2].isdigit()


def what_is_wrong(data, at):
    """The rule that holds where no token, comment or white space begins."""
    if re.compile(rb"0[xX]").match(data, at):
        return "X2"
    return {b"'": "X3", b'"': "X4", b"/": "X5"}.get(data[at:at + 1], "X1")


def value_of(text):
    """The value of an integer literal, or one that is too large where it has very many digits."""
    digits = text.rstrip(b"lL")
    if len(digits.lstrip(b"0xX")) > 1000:
        return 2 ** 64
    if digits[:2] in (b"0x", b"0X"):
        return int(digits[2:], 16)
    return int(digits, 8) if is_octal(digits) else int(digits)


LEFT_OUT = {
    "synchronized": "S1", "volatile": "S1", "native": "S2", "strictfp": "S2", "transient": "S2", "const": "S2",
    "goto": "S2", "enum": "S3", "assert": "S4", "@": "S6", "float": "S7", "double": "S7", "Float": "S7", "byte": "S8",
    "short": "S8", "...": "S9",
}


def require_nothing_left_out(tokens):
    """S1 to S9: the first token that this Java leaves out."""
    depth, before = 0, ""
    for token in tokens:
        rule = LEFT_OUT.get(token.sort)
        if token.sort in ("class", "interface") and before != "." and depth > 0:
            rule = "S5"
        if rule is not None:
            raise Broken(rule, token.at)
        depth += {"{": 1, "}": -1}.get(token.sort, 0)
        before = token.sort
