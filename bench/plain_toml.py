"""Documents of TOML 1.1, by Python's reader of TOML 1.0.

What only 1.1 allows is first written as 1.0 has it: inside the braces of a table line feeds, comments and a last
comma; the escapes \\e and \\xHH; times without seconds. So are a leap second and the year 0, of which Python has none.
Beyond the grammar a number has limits, and so has what stands inside one another.
"""
import math
import re
import tomllib

MOST_DEPTH = 80  # of arrays and tables in braces
MOST_PARTS = 80  # of a key

TOKEN = re.compile(
    r'''
    (?P<escaped> """ (?: [^"\\] | \\. | "{1,2} (?!") )*+ "{3,5} | " (?!"") (?: [^"\\\n] | \\. )* " )
  | (?P<plain> \'{3} .*? \'{3,5} | \' (?!\'\') [^\'\n]* \' )
  | (?P<comment> \#[^\n]* )
  | (?P<blank> [ \t]+ )
  | (?P<end> \n )
  | (?P<mark> [][{}=,] )
  | (?P<word> [^][{}=,\s"'\#]+ )
  | (?P<other> . )
    ''',
    re.VERBOSE | re.DOTALL,
)
BETWEEN = {"comment", "blank", "end"}
# what a text has to have of them to be one of 1.1 alone
NEWER = re.compile(r"\\[ex]|\{|[0-9]:[0-9]|0000-")
ESCAPE = re.compile(r"\\(?:(e)|x([0-9A-Fa-f]{2})|.)", re.DOTALL)
NO_SECONDS = re.compile(r"(?<![0-9:+-])([0-9]{2}:[0-9]{2})(?![0-9:.])")
LEAP_SECOND = re.compile(r"(?<![0-9:+-])([0-9]{2}:[0-9]{2}):60(?![0-9:])")
YEAR_0 = re.compile(r"^0000-")
NO_COMMENT = re.compile(r"[\0-\x08\x0b-\x1f\x7f]")


def tokens_of(text):
    """Each token with its kind."""
    return [(found.lastgroup, found.group()) for found in TOKEN.finditer(text)]


def neighbours(tokens):
    """Of each token the one before and the one behind it that is neither blank nor comment, or nothing."""
    before, behind, last = [], [], ""
    for kind, token in tokens:
        before.append(last)
        last = last if kind in BETWEEN else token
    last = ""
    for kind, token in reversed(tokens):
        behind.append(last)
        last = last if kind in BETWEEN else token
    return zip(before, reversed(behind))


def older_escape(found):
    if found.group(1):
        return r"\u001b"
    return rf"\u00{found.group(2)}" if found.group(2) else found.group()


def older_word(word):
    return YEAR_0.sub("0004-", LEAP_SECOND.sub(r"\1:59", NO_SECONDS.sub(r"\1:00", word)))


def older_in_braces(kind, token, before, behind):
    """What stands for a token right inside the braces of a table."""
    if token == "," and behind == "}" and before not in ("{", ","):
        return ""
    stands_between = before in ("{", ",") or behind in ("}", ",")
    return " " if kind in ("comment", "end") and stands_between and not NO_COMMENT.search(token) else token


def older(text):
    """A text of version 1.1 as 1.0 has it. One that is no document stays none."""
    tokens, done, inside = tokens_of(text), [], []
    for (kind, token), (before, behind) in zip(tokens, neighbours(tokens)):
        if token in ("[", "{"):
            inside.append(token)
        elif token in ("]", "}") and inside:
            inside.pop()
        if kind == "escaped":
            token = ESCAPE.sub(older_escape, token)
        elif kind == "word":
            token = older_word(token)
        elif inside[-1:] == ["{"]:
            token = older_in_braces(kind, token, before, behind)
        done.append(token)
    return "".join(done)


def is_too_deep(text):
    """Whether too much stands inside one another in a text, or a key has too many parts, if it is a document."""
    if text.count("[") + text.count("{") <= MOST_DEPTH and text.count(".") < MOST_PARTS:
        return False
    depth = deepest = dots = most_dots = 0
    for kind, token in tokens_of(text):
        if kind == "word":
            dots += token.count(".")
            most_dots = max(most_dots, dots)
        elif kind in ("mark", "end"):
            dots = 0
            depth += (token in ("[", "{")) - (token in ("]", "}"))
            deepest = max(deepest, depth)
    return deepest > MOST_DEPTH or most_dots >= MOST_PARTS


def has_long_number(value):
    """Whether a whole number of 65 bits or more stands in a value: no document has one, but Python reads it."""
    if type(value) is int:
        return not -(2**63) <= value < 2**63
    inner = value.values() if type(value) is dict else value if type(value) is list else []
    return any(map(has_long_number, inner))


def float_of(text):
    """The float that a text spells, which is infinite only where it says so."""
    value = float(text)
    if math.isinf(value) and "inf" not in text:
        raise ValueError("a float past the greatest")
    return value


def loads(text):
    """The document of version 1.0 that a text spells, or None."""
    try:
        return tomllib.loads(text, parse_float=float_of)
    # which is also how Python tells of a number of too many digits
    except (ValueError, RecursionError):
        return None


def document_of(text):
    """The document that a text spells, or None."""
    text = text.replace("\r\n", "\n")
    # a carriage return is nothing but a part of a line's end. Python takes long for much inside one another
    if "\r" in text or is_too_deep(text):
        return None
    document = loads(text)
    if document is None and NEWER.search(text):
        document = loads(older(text))
    return None if document is None or has_long_number(document) else document
