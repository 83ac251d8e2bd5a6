"""Damages a trace by its fields: numbers near their limits and past them, other spellings, fields and rows too many and
too few, quotes, blank lines, headers of another version."""
import damage_bytes

HEADERS = [b"tick,channel,sid,units", b"tick,channel,sid,units,kind"]
LIMITS = [0, 1, 2, 3, 9, 10, 160, 254, 255, 256, 319, 320, 321, 640, 15_871, 16_383, 16_384, 65_535, 65_536,
          999_999_999]
LIMITS += [2**31, 4_294_967_295, 4_294_967_296, 9_999_999_999, 10_000_000_000, 2**63, 2**64, 10**30]
BAD_FIELDS = [b"", b" ", b"x", b"-1", b"+1", b"1.0", b"0x1", b"1e3", b"1_0", b"\xff", b"\xc3\xa9", "\u0661".encode(),
              b"\0", b"1 ", b" 1", b"1\t", b"#", b"''"]
BAD_HEADERS = [b"tick,channel,sid", b"tick,channel,sid,unit", b"Tick,channel,sid,units", b"tick,channel,sid,units,",
               b"tick,channel,sid,units,kinds", b"tick, channel,sid,units", b"tick;channel;sid;units", b"",
               b"sid,channel,tick,units", b"tick,channel,sid,units,kind,kind", b"\xef\xbb\xbftick,channel,sid,units"]


class Rows:
    """The header and the rows of a trace as lists of fields, and what ends each."""

    def __init__(self, text):
        self.records = [line.split(b",") for line in text.splitlines()]
        self.ends = [b"\n"] * len(self.records)
        # which of these lists of fields were damaged
        self.damaged = []

    def text(self):
        return b"".join(b",".join(fields) + end for fields, end in zip(self.records, self.ends))

    def place(self, chance):
        """The place of a row; of the header where there are no others, and now and then."""
        at = 0 if len(self.records) == 1 or chance.random() < 0.05 else chance.randrange(1, len(self.records))
        self.damaged.append(self.records[at])
        return at

    def add(self, at, fields):
        self.records.insert(at, fields)
        self.ends.insert(at, b"\n")
        self.damaged.append(fields)

    def lines(self):
        """The lines on which what was damaged begins, with those that its end adds: all, where the header was."""
        lines, line = set(), 1
        is_header = any(self.records[0] is damaged for damaged in self.damaged)
        for fields, end in zip(self.records, self.ends):
            feeds = (b",".join(fields) + end).count(b"\n")
            if is_header or any(fields is damaged for damaged in self.damaged):
                lines.update(range(line, line + max(feeds, 1)))
            line += feeds
        return lines


def field_of(chance, rows):
    """The fields of a row, and the place of one of them."""
    fields = rows.records[rows.place(chance)]
    if not fields:
        fields.append(b"")
    return fields, chance.randrange(len(fields))


def number_changed(chance, rows):
    fields, at = field_of(chance, rows)
    near = int(fields[at]) + chance.choice([-1, 1, 256, 65_536, 2**32]) if fields[at].isdigit() else 0
    fields[at] = b"%d" % chance.choice([max(near, 0), chance.choice(LIMITS), chance.choice(LIMITS)])


def row_of_limits(chance, rows):
    """A row whose numbers are all limits of their fields, or one more."""
    greatest = [4_294_967_295, 255, 16_383, 65_535, 2]
    fields = [b"%d" % (number + (chance.random() < 0.05)) for number in greatest[: len(rows.records[0])]]
    rows.add(chance.randint(1, len(rows.records)), fields)


def digits_changed(chance, rows):
    """Leading zeros, up to ten digits in all and past them."""
    fields, at = field_of(chance, rows)
    fields[at] = fields[at].rjust(chance.choice([5, 9, 10, 10, 11, 12, 30]), b"0")


def field_spoiled(chance, rows):
    fields, at = field_of(chance, rows)
    fields[at] = chance.choice(BAD_FIELDS)


def field_added(chance, rows):
    fields, at = field_of(chance, rows)
    fields.insert(chance.choice([at, len(fields)]), chance.choice([b"", b"0", b"1", b"2", b"x"]))


def field_dropped(chance, rows):
    fields, at = field_of(chance, rows)
    del fields[at]


def field_quoted(chance, rows):
    """A field in quotes, or a part of it; quotes inside, doubled or not; quotes that stay open."""
    fields, at = field_of(chance, rows)
    text = fields[at]
    middle = chance.randint(0, len(text))
    fields[at] = chance.choice([
        b'"' + text + b'"', b'"' + text + b'"', b'"' + text, text + b'"', b'"' + text[:middle] + b'"' + text[middle:],
        b'"' + text[:middle] + b'""' + text[middle:] + b'"', b'"' + text + b'" ', b' "' + text + b'"',
        b'"' + text + b'\n"', b'"' + text + b',"', b'""' + text, b'"' + text + b'"""',
    ])


def end_changed(chance, rows):
    at = rows.place(chance)
    rows.ends[at] = chance.choice([b"\r\n", b"\r", b"\n\n", b"\r\n\r\n", b"\n\r", b"\n \n", b'\n""\n', b"\n,\n", b"",
                                   b" \n"])


def all_ends_changed(chance, rows):
    rows.ends = [chance.choice([b"\r\n", b"\r"])] * len(rows.ends)


def row_doubled(chance, rows):
    rows.add(chance.randint(1, len(rows.records)), list(rows.records[rows.place(chance)]))


def header_changed(chance, rows):
    rows.records[0] = chance.choice([*HEADERS, *HEADERS, *BAD_HEADERS]).split(b",")
    rows.damaged.append(rows.records[0])


def version_changed(_chance, rows):
    """Every row in the other version: its last field dropped, or a kind added."""
    kinds = len(rows.records[0]) == 5
    for fields in rows.records[1:]:
        if kinds and fields:
            fields.pop()
        else:
            fields.append(b"0")
    rows.records[0] = HEADERS[0 if kinds else 1].split(b",")
    rows.damaged.append(rows.records[0])


def kind_changed(chance, rows):
    """A mark with units, a kind that is none, or a request that is told as one."""
    fields, _at = field_of(chance, rows)
    if len(fields) == 5:
        fields[4] = chance.choice([b"0", b"1", b"2", b"3", b"255"])
        fields[3] = chance.choice([b"0", b"0", b"1", fields[3]])


DAMAGES = 2 * [number_changed, number_changed, digits_changed, field_spoiled, field_quoted, field_quoted, end_changed,
               row_doubled, kind_changed]
DAMAGES += [row_of_limits, field_added, field_dropped, all_ends_changed, header_changed, version_changed]


def spread(chance, rows):
    """Other ends of lines and blank lines here and there, which are no damage."""
    for at, end in enumerate(rows.ends):
        if end == b"\n" and chance.random() < 0.1:
            rows.ends[at] = chance.choice([b"\r\n", b"\n\n", b"\r\n\r\n", b"\n\r\n\n"])


def damaged_once(chance, text):
    """A trace with one damage: what it is called, the trace, and the lines that it is on."""
    rows, damage = Rows(text), chance.choice(DAMAGES)
    damage(chance, rows)
    spread(chance, rows)
    return damage.__name__, rows.text(), rows.lines()


def damaged(chance, text):
    """A trace with some damage by its fields, and perhaps by its bytes."""
    rows = Rows(text)
    for _ in range(chance.choice([1, 1, 1, 2, 3, 6])):
        chance.choice(DAMAGES)(chance, rows)
    text = rows.text()
    return damage_bytes.damaged(chance, text) if chance.random() < 0.2 else text
