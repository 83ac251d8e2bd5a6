"""Damages any text by its bytes and lines, as a bad disk, another editor or a careless hand might."""
import string

BYTE_ORDER_MARK = b"\xef\xbb\xbf"
# what texts of one of our formats have of their own, or may not have at all
PIECES = [b"", b"\0", b"\xff", b"\xc3\x28", b"\xed\xa0\x80", b"\x7f", BYTE_ORDER_MARK, b" ", b"\t", b"\r", b"\n",
          b"\r\n", b"%%\n", b"%%", b"%%\r\n", b"\n%%\n", b'"', b'""', b'"""', b"'", b"'''", b"#", b",", b".", b"=",
          b"[", b"]", b"{", b"}", b"[[", b"]]", b"-", b"+", b"_", b"0", b"9", b"1e5", b"0x", b"\\", b"\\e", b"\\x41",
          b"\\u0041", b"inf", b"true", "\u00b2".encode(), "\u0663".encode(), b"99999999999999999999", b"#\n", b",\n"]


def byte_changed(chance, text):
    at = chance.randrange(len(text))
    byte = chance.choice([0, 255, text[at] ^ 1 << chance.randrange(8), (text[at] + 1) % 256, chance.randrange(256),
                          chance.choice(text), ord(chance.choice(string.printable))])
    return text[:at] + bytes([byte]) + text[at + 1 :]


def cut(chance, text):
    return text[: chance.randrange(len(text))]


def beheaded(chance, text):
    return text[chance.randint(1, len(text)) :]


def slice_of(chance, text, longest=40):
    start = chance.randrange(len(text))
    return start, min(start + chance.randint(1, longest), len(text))


def slice_dropped(chance, text):
    start, end = slice_of(chance, text, chance.choice([1, 1, 40]))
    return text[:start] + text[end:]


def slice_doubled(chance, text):
    start, end = slice_of(chance, text, chance.choice([1, 40]))
    return text[:end] + text[start:]


def piece_added(chance, text):
    at = chance.choice([0, len(text), *[chance.randint(0, len(text)) for _ in range(8)]])
    noise = bytes(chance.randrange(256) for _ in range(chance.randint(1, 4)))
    return text[:at] + chance.choice([*PIECES, noise]) + text[at:]


def piece_written_over(chance, text):
    start, end = slice_of(chance, text, 4)
    return text[:start] + chance.choice(PIECES) + text[end:]


def with_lines(chance, text, change):
    """A text whose lines, which keep their ends, were changed."""
    lines = text.splitlines(keepends=True)
    change(lines, chance.randrange(len(lines)), chance.randrange(len(lines)))
    return b"".join(lines)


def line_doubled(chance, text):
    return with_lines(chance, text, lambda lines, one, other: lines.insert(other, lines[one]))


def line_dropped(chance, text):
    return with_lines(chance, text, lambda lines, one, _other: lines.pop(one))


def lines_swapped(chance, text):
    def swap(lines, one, other):
        lines[one], lines[other] = lines[other], lines[one]

    return with_lines(chance, text, swap)


def other_line_ends(chance, text):
    """Each line feed, or one of them, written otherwise."""
    end = chance.choice([b"\r\n", b"\r\n", b"\r", b"\n\n", b" \n", b"\n\r", b""])
    if chance.random() < 0.5:
        return text.replace(b"\n", end)
    parts = text.split(b"\n")
    at = chance.randrange(len(parts))
    return b"\n".join(parts[:at]) + (end if at > 0 else b"") + b"\n".join(parts[at:])


def emptied(_chance, _text):
    return b""


DAMAGES = 3 * [byte_changed, byte_changed, cut, slice_dropped, slice_doubled, piece_added, piece_added,
               piece_written_over]
DAMAGES += 2 * [line_doubled, line_dropped, lines_swapped, other_line_ends] + [beheaded, emptied]


def damaged(chance, text, most=3):
    """A text with some damage."""
    for _ in range(chance.choice([1, 1, 1, most])):
        # what is empty has nothing to damage, but it may get something
        text = chance.choice(DAMAGES if text else [piece_added])(chance, text)
    return text
