"""A plain second reader of maps files, from the rules alone (docs/FORMATS.md)."""
from typing import NamedTuple

from plain_reader import Fault

RECORD_HEAD_BYTES = 6
HEAD_BYTES = 16
MOST_ELEMENTS = 240
MOST_BACKOFF = 15
NOBODY = 0
NULL = 7


class Element(NamedTuple):
    sid: int
    iuc: int
    offset: int


def pieces_of(text):
    """The round and the body of each record, or None for the body of one that is cut."""
    at = 0
    while at < len(text):
        round_number = int.from_bytes(text[at : at + 4], "big")
        start = at + RECORD_HEAD_BYTES
        at = start + int.from_bytes(text[at + 4 : start], "big")
        yield round_number, text[start:at] if start <= len(text) and at <= len(text) else None


def elements_of(body):
    """The elements of a body, whatever they are."""
    words = (int.from_bytes(body[at : at + 4], "big") for at in range(HEAD_BYTES, len(body), 4))
    return [Element(word >> 18, word >> 14 & 0xF, word & 0x3FFF) for word in words]


def null_of(elements):
    """The place of the Null, or how many elements there are where there is none."""
    return next((at for at, element in enumerate(elements) if element.iuc == NULL), len(elements))


def fault_of_elements(elements):
    """Why these are the elements of no MAP, up to M7, or None."""
    null = null_of(elements)
    if null == len(elements) or elements[null].sid != NOBODY:
        return "M5"
    offsets = [element.offset for element in elements]
    if any(before >= behind for before, behind in zip(offsets[:null], offsets[1 : null + 1])):
        return "M6"
    if any(element.iuc == NULL or element.offset != offsets[null] for element in elements[null + 1 :]):
        return "M7"
    return None


def fault_of(body):
    """Why the bytes are no MAP body, or None."""
    if len(body) < HEAD_BYTES:
        return "M1"
    if len(body) != HEAD_BYTES + 4 * body[2]:
        return "M2"
    if body[3] != 0:
        return "M3"
    if body[2] > MOST_ELEMENTS:
        return "M4"
    elements = elements_of(body)
    if fault := fault_of_elements(elements):
        return fault
    if max(body[12:HEAD_BYTES]) > MOST_BACKOFF:
        return "M8"
    return "M9" if elements[0].offset != 0 else None


def lines_of(round_number, body):
    """The line of each element of a MAP, with its length."""
    elements = elements_of(body)
    null, offsets = null_of(elements), [element.offset for element in elements]
    for at, (sid, iuc, offset) in enumerate(elements):
        length = offsets[at + 1] - offset if at < null else 0
        yield f"{round_number} {body[0]} {offset} {length} {sid} {iuc}\n"


def dump(text):
    """The lines of the MAPs of a file up to the first that has a fault, and this fault, or None."""
    pieces, lines = list(pieces_of(text)), []
    if any(body is None for _round, body in pieces):
        return "", Fault("M11")
    for number, (round_number, body) in enumerate(pieces):
        if fault := fault_of(body):
            return "".join(lines), Fault(f"{fault} {number}")
        lines += lines_of(round_number, body)
    return "".join(lines), None
