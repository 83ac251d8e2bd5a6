"""Writes a configuration in other forms of TOML 1.1, and tells on which lines its tables and keys stand then.

The text has to have the form of those in crates/mapsim/cases/configs: a header in double brackets or a key on each
line, profiles in braces. Forms are comments and blank lines, also with what looks like headers and keys; other
spelling of headers and keys; lists and profiles over several lines; profiles as dotted keys or behind headers of their
own, also behind all other tables; tables of each kind as one list of tables in braces; CR LF.
"""
import re
from typing import NamedTuple

HEADER = re.compile(r"\[\[(\w+)\]\]")
ENTRY = re.compile(r"(\w+) = (.*?)(?: # [\w ]*)?", re.DOTALL)
# between the keys of a profile
COMMA = re.compile(r", (?=\w+ = )")
LISTS = ["channel", "flow", "station"]
DECOYS = ["# a comment", "#", "# [[flow]]", "# id = 7", "# [channel.long]", "# ]] }", '# """', "# '''", "# it's", "",
          "  ", "\t# \u00e9 [["]
BEHIND = ["", "", "", "", " # id = 3", " # ]", ' # "', "\t# [[flow]]", "  "]


class Entry(NamedTuple):
    """A key with its value, or of a profile with its keys, and the line on which it stood."""

    line: int
    key: str
    value: str
    inner: list | None = None


class Section(NamedTuple):
    """A table: the list that it is of, none of the top level, the line of its header, and its keys."""

    list: str
    line: int
    entries: list


class Layout(NamedTuple):
    """A text, and where what stood on a line of the plain one stands now: the line of a header, by its line; the lines
    of a key, by its line and name, of a profile with the name "" also that of its own key or header; and the lines of
    each table, by its name, as `flow 2`."""

    text: str
    headers: dict
    keys: dict
    tables: dict


def sections_of(text):
    """The tables of a text of the plain form, or None."""
    sections, lines, at = [Section("", 1, [])], text.split("\n"), 0
    while at < len(lines):
        line, start = lines[at], at + 1
        at += 1
        header = HEADER.fullmatch(line)
        if header:
            sections.append(Section(header.group(1), start, []))
            continue
        if not line.strip() or line.startswith("#"):
            continue
        for quotes in '"""', "'''":
            if line.count(quotes) == 1:
                while at < len(lines) and quotes not in lines[at]:
                    line, at = f"{line}\n{lines[at]}", at + 1
                line, at = "\n".join([line, *lines[at : at + 1]]), at + 1
        entry = ENTRY.fullmatch(line)
        if not entry:
            return None
        key, value = entry.groups()
        inner = None
        if value.startswith("{ ") and value.endswith(" }"):
            inner = [tuple(pair.split(" = ", 1)) for pair in COMMA.split(value[2:-2])]
            if any(len(pair) != 2 for pair in inner):
                return None
        sections[-1].entries.append(Entry(start, key, value, inner))
    return sections


class Writer:
    """Lines as they are written, and where the keys stand on them."""

    def __init__(self, chance):
        self.chance, self.lines = chance, [""]
        self.headers, self.keys, self.tables = {}, {}, {}
        self.counts = dict.fromkeys(LISTS, 0)
        # profiles of the last channel that are put behind all tables
        self.last = []

    def line(self):
        return len(self.lines)

    def write(self, text):
        """Adds to the last line, and begins others."""
        first, *others = text.split("\n")
        self.lines[-1] += first
        self.lines += others

    def often(self, share):
        return self.chance.random() < share

    def end(self):
        """Ends a line, and perhaps writes others that say nothing."""
        self.write(self.chance.choice(BEHIND) + "\n")
        while self.often(0.1):
            self.write(self.chance.choice(DECOYS) + "\n")

    def between(self):
        """What may stand between the parts of a list or of a table in braces."""
        while self.often(0.15):
            self.write(self.chance.choice(["", " # ]", " # }, id = 1", " # '"]) + "\n" + self.chance.choice(["", "  "]))
        self.write(self.chance.choice(["", " "]))

    def spelled(self, key):
        if self.often(0.85):
            return key
        return self.chance.choice([f'"{key}"', f"'{key}'", rf'"\u{ord(key[0]):04x}{key[1:]}"',
                                   rf'"\x{ord(key[0]):02x}{key[1:]}"'])

    def equals(self):
        self.write(self.chance.choice([" = ", " = ", " = ", "=", "\t=  "]))

    def value(self, value):
        """A value, a list of numbers perhaps over several lines."""
        if self.often(0.7) or not re.fullmatch(r"[][0-9, ]+", value):
            return self.write(value)
        for part in re.findall(r"[][,]|\d+", value):
            self.write(part)
            if part != "]":
                self.between()

    def met(self, line, key):
        self.keys.setdefault((line, key), set()).add(self.line())

    def pair(self, line, key, value, name):
        """A key, which is found by its line and name."""
        self.met(line, name)
        self.write(key)
        self.equals()
        self.value(value)

    def braces(self, line, pairs):
        """A profile in braces."""
        is_long = self.often(0.3)
        self.write("{" + " " * (not is_long))
        for place, (key, value) in enumerate(pairs):
            if place > 0:
                self.write("," + " " * (not is_long))
            if is_long:
                self.between()
            self.pair(line, self.spelled(key), value, key)
        if is_long:
            self.between()
        self.write("}")

    def entry(self, entry):
        """A key in a table in braces, or the whole of what a line has."""
        self.met(entry.line, "" if entry.inner else entry.key)
        self.write(self.spelled(entry.key))
        self.equals()
        if entry.inner:
            self.braces(entry.line, entry.inner)
        else:
            self.value(entry.value)

    def dotted(self, entry):
        for key, value in entry.inner:
            # of a missing key any of them is the profile's
            self.met(entry.line, "")
            self.pair(entry.line, f"{self.spelled(entry.key)}{self.chance.choice(['.', '.', ' . '])}{key}", value, key)
            self.end()

    def behind_header(self, entry):
        self.met(entry.line, "")
        self.write(self.chance.choice([f"[channel.{entry.key}]", f'[ channel . "{entry.key}" ]']))
        self.end()
        for key, value in entry.inner:
            self.pair(entry.line, self.spelled(key), value, key)
            self.end()

    def entries(self, section, is_last):
        """The keys of a table, each on a line."""
        later = []
        for entry in section.entries:
            way = self.chance.random() if entry.inner and section.list == "channel" else 1
            if way < 0.15:
                later.append(entry)
            elif way < 0.3:
                self.dotted(entry)
            else:
                self.entry(entry)
                self.end()
        if is_last and self.often(0.5):
            self.last = later
        else:
            self.behind_headers(later)

    def behind_headers(self, entries):
        for entry in entries:
            self.behind_header(entry)

    def table(self, section, body):
        """A table that begins here."""
        first = self.line()
        self.headers[section.line] = first
        body()
        if section.list:
            name = f"{section.list} {self.counts[section.list]}"
            self.counts[section.list] += 1
            self.tables[name] = range(first, self.line() + 1)

    def with_header(self, section, is_last):
        def body():
            spelled = self.spelled(section.list)
            self.write(self.chance.choice([f"[[{spelled}]]"] * 3 + [f"[[ {spelled} ]]", f"[[\t{spelled}]]"]))
            self.end()
            self.entries(section, is_last)

        self.table(section, body)

    def in_braces(self, sections):
        """All tables of a list as one key of the top level."""
        self.write(f"{self.spelled(sections[0].list)} = [")
        for place, section in enumerate(sections):
            if place > 0:
                self.write(",")
            self.between()
            self.table(section, lambda section=section: self.in_one(section))
        self.between()
        self.write("]")
        self.end()

    def in_one(self, section):
        self.write("{")
        for place, entry in enumerate(section.entries):
            if place > 0:
                self.write(",")
            self.between()
            self.entry(entry)
        self.write("}")


def plain(text, sections):
    """The layout of a text as it is."""
    tables, counts = {}, dict.fromkeys(LISTS, 0)
    ends = [section.line for section in sections[1:]] + [text.count("\n") + 2]
    for section, end in zip(sections, ends):
        if section.list:
            tables[f"{section.list} {counts[section.list]}"] = range(section.line, end)
            counts[section.list] += 1
    keys = {(entry.line, key): {entry.line} for section in sections for entry in section.entries
            for key in ["", entry.key, *(key for key, _value in entry.inner or [])]}
    return Layout(text, {section.line: section.line for section in sections}, keys, tables)


def laid_out(chance, text):
    """A text in other forms, now and then as it is; None where it hasn't the plain form."""
    sections = sections_of(text)
    if sections is None:
        return None
    if chance.random() < 0.2:
        return plain(text, sections)
    writer = Writer(chance)
    if writer.often(0.05):
        writer.write("\ufeff")
    while writer.often(0.2):
        writer.write(chance.choice(DECOYS) + "\n")
    top, tables = sections[0], sections[1:]
    channels = [section for section in tables if section.list == "channel"]
    # a list in braces stands before all headers, whose keys would else be its table's
    braced = [name for name in LISTS if writer.often(0.15) and any(section.list == name for section in tables)]
    writer.table(top, lambda: writer.entries(top, False))
    for name in braced:
        writer.in_braces([section for section in tables if section.list == name])
    for section in tables:
        if section.list not in braced:
            writer.with_header(section, section.list == "channel" and section is channels[-1])
    writer.behind_headers(writer.last)
    lines = writer.lines
    text = ("\r\n" if writer.often(0.2) else "\n").join(lines)
    return Layout(text, writer.headers, writer.keys, writer.tables)
