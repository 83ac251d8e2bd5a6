"""Writes a document of TOML otherwise: the same one in another spelling, or one that is none by a little.

Numbers in other bases and past their bits, keys in quotes and in parts, tables in braces over lines, headers, and much
inside one another.
"""
import re

from damage_configs import PAIR

NUMBER = re.compile(r"\b[0-9]{1,40}\b")
TABLE = re.compile(r"\{.*\}")
HEADER = re.compile(r"\[\[(\w+)\]\]")
DEPTHS = [1, 2, 10, 77, 78, 79, 80, 81, 82, 83, 100, 400, 3_000]
GREAT_NUMBERS = ["9223372036854775807", "9223372036854775808", "-9223372036854775808", "-9223372036854775809",
                 "18446744073709551616", "0x7fffffffffffffff", "0x8000000000000000", "1e308", "1e309", "-1e400",
                 "1e-400", "9" * 40, "9" * 5_000, "inf", "-nan", "+inf", "0o777777777777777777777", "0b" + "1" * 64]
VALUES = ["2000-01-01", "2000-02-30", "2000-01-01T12:30:00Z", "2000-01-01 12:30", "2000-01-01T12:30+01:00", "12:30",
          "12:30:00", "12:30.5", "12:60", "12:30:60", "24:00", "0000-01-01", '"text"', "'text'", '"""a\nb"""',
          "'''a\nb'''", '"\\x41\\e"', '"\\x4"', '"\\u0041"', '"\\ud800"', '"\\U00110000"', '"\\q"', '""', "[1, 2,]",
          "[,]", "[1,,2]", "{ a = 1, }", "{ , }", "{ a = 1,, b = 2 }", "{\n a = 1 }", "{ a\n = 1 }",
          "{ a = 1\n, # it\n b = 2,\n}", "{ a.b = 1 }", "{ a = 1, a = 2 }", "{ a.b = 1, a = 2 }",
          "{ a = { b = 1 }, a.c = 2 }", "[{ a = 1 }, { a = 2 }]", "True", "", "[1 2]", "1 2", "_1", "1_", "1__2", "01",
          "+01", "1.", ".5", "1.5", "1e5", "1_0.0_1", "0X1", "0xg", "0b2", "+0x1"]
LINES = ["[channel]", "[flow]", "[[channel]]", "[[flow]]", "[[station]]", "[channel.long]", "[[channel.long]]",
         "[flow.a]", "[[flow.a]]", "[a]", "[a.b]", "[[a]]", "[ a . b ]", "[a", "[]", "[[]]", "[a]]", "[[a] ]",
         "a.b = 1", "a = 1", "a.b.c = 1", "a", "= 1", '"" = 1', "'a b' = 1", '"a\\tb" = 1', '"""a""" = 1', "a b = 1",
         "a . b = 1", "a..b = 1", "\u00e9 = 1", "# a comment", "#", "# \u00e9", "# \x01", "\t", "id = 1",
         "long.bits = 4", "flow = []", "station = [{}]", "channel.id = 1"]


def with_match(chance, text, pattern, change):
    """A text with one place of a pattern changed, if there is any."""
    found = list(pattern.finditer(text))
    if not found:
        return text
    one = chance.choice(found)
    return text[: one.start()] + change(one) + text[one.end() :]


def other_base(chance, text):
    def change(found):
        number = int(found.group())
        forms = [f"{number:#x}", f"{number:#X}", f"{number:#o}", f"{number:#b}", f"{number:_}", f"+{number}",
                 f"-{number}", f"0{number}", f"{number}.0", f"{number}e0", f"0x{number:08x}", f"0x{number:x}_0",
                 f"0x_{number:x}", f"{number}_"]
        return chance.choice(forms)

    return with_match(chance, text, NUMBER, change)


def great_number(chance, text):
    return with_match(chance, text, NUMBER, lambda found: chance.choice(GREAT_NUMBERS))


def other_value(chance, text):
    return with_match(chance, text, PAIR, lambda found: f"{found.group(1)} = {chance.choice(VALUES)}")


def other_key(chance, text):
    def change(found):
        key, value = found.groups()
        escaped = rf"\x{ord(key[0]):02x}" if chance.random() < 0.5 else rf"\u{ord(key[0]):04X}"
        keys = [f'"{key}"', f"'{key}'", f'"{escaped}{key[1:]}"', f"{key}.a", f"a.{key}", f'"{key} "', f'"""{key}"""']
        marks = [" = ", "=", "\t=  ", " =\n", "\n= ", " == ", " : ", " "]
        return chance.choice([key, *keys]) + chance.choice([" = ", *marks]) + value

    return with_match(chance, text, PAIR, change)


def table_over_lines(chance, text):
    """A table in braces with line feeds, comments and a last comma, where 1.1 has them and where it hasn't."""
    def change(found):
        inside = found.group()[1:-1].strip()
        for old in ", ", " = ":
            new = [old, f"{old}\n", f"\n{old}", f" # a comment\n{old}", f"{old}\r\n", f"{old}# {{\n"]
            if chance.random() < (0.8 if old == ", " else 0.1):
                inside = inside.replace(old, chance.choice(new), chance.choice([1, -1]))
        end = chance.choice(["", ",", ",\n", "\n", ", # it\n", ",,", " ,\n ", " # \x01\n", "\r"])
        start = chance.choice(["{ ", "{\n", "{", "{ # it\n", "{,"])
        return start + inside + end + chance.choice(["}", "}", "}", " }", ""])

    return with_match(chance, text, TABLE, change)


def list_over_lines(chance, text):
    def change(found):
        key, value = found.groups()
        return f"{key} = " + value.replace(chance.choice("[],"), chance.choice(["[\n", "\n]", ",\n", ",# it\n", ", "]))

    return with_match(chance, text, PAIR, change)


def much_inside(chance, text):
    """Lists, tables or parts of a key inside one another, near how many are read and far past it."""
    depth = chance.choice(DEPTHS)
    values = ["[" * depth + "]" * depth, "[" * depth + "1" + "]" * depth, "{a=" * depth + "1" + "}" * depth,
              "[{a=" * (depth // 2) + "[]" + "}]" * (depth // 2), "[" * depth, "{a=" * depth]
    if chance.random() < 0.6:
        value = chance.choice(values)
        return with_match(chance, text, PAIR, lambda found: f"{found.group(1)} = {value}")
    key = ".".join(["a"] * depth)
    return line_put(chance, text, chance.choice([f"{key} = 1", f"[{key}]", f"[[{key}]]", f"b = {{ {key} = 1 }}"]))


def line_put(chance, text, line):
    lines = text.split("\n")
    lines.insert(chance.randint(0, len(lines)), line)
    return "\n".join(lines)


def line_added(chance, text):
    return line_put(chance, text, chance.choice(LINES))


def table_moved(chance, text):
    """A part between blank lines at another place."""
    parts = text.split("\n\n")
    part = parts.pop(chance.randrange(len(parts)))
    parts.insert(chance.randint(0, len(parts)), part)
    return "\n\n".join(parts)


def header_changed(chance, text):
    def change(found):
        name = found.group(1)
        return chance.choice([f"[{name}]", f"[[ {name} ]]", f"[['{name}']]", f"[[{name}.a]]", f"[[{name}]",
                              f"[ [{name}]]", f"[[{name}]] # it", f"[[{name}]] 1", f"{name} = []"])

    return with_match(chance, text, HEADER, change)


WAYS = [other_base, other_base, great_number, other_value, other_value, other_key, table_over_lines, table_over_lines,
        list_over_lines, much_inside, line_added, line_added, table_moved, header_changed]


def written_otherwise(chance, text):
    for _ in range(chance.choice([1, 1, 1, 2, 3])):
        text = chance.choice(WAYS)(chance, text)
    return text
