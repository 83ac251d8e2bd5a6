"""What the tools beside the program read: a configuration's channels, and the MAPs of a maps file. docs/FORMATS.md has both
formats. It is written for itself, shares nothing with the crates, and stands apart from what is proved."""
import dataclasses
import struct
import tomllib

# a tick has 6,250 nanoseconds
NANOSECONDS_PER_TICK = 6_250
NULL = 7


class Refused(Exception):
    """Why a file can't be used."""


@dataclasses.dataclass(frozen=True)
class Element:
    sid: int
    iuc: int
    offset: int


@dataclasses.dataclass(frozen=True)
class Map:
    """A MAP: its round, its body as bytes, and what of the body is read here."""

    round: int
    body: bytes
    channel: int
    alloc_start: int
    # those before the Null
    elements: list
    # in minislots
    length: int
    # the SIDs behind the Null
    pendings: list


@dataclasses.dataclass(frozen=True)
class Plant:
    """What of a configuration is used here: the length of a round, and of each channel's minislot by its id, in ticks."""

    round_ticks: int
    minislot_ticks: dict

    def start_of(self, one):
        """When a MAP starts, in nanoseconds."""
        return one.alloc_start * self.minislot_ticks[one.channel] * NANOSECONDS_PER_TICK


def plant_of(path):
    """Reads a configuration. What else mapsim would refuse isn't looked for, and Python's TOML is version 1.0."""
    try:
        with open(path, encoding="utf-8-sig") as file:
            table = tomllib.loads(file.read())
        return Plant(table["round_ticks"], {it["id"]: 1 << it["minislot_log2"] for it in table["channel"]})
    except OSError as error:
        raise Refused(f"{path}: {error.strerror}") from None
    except (ValueError, KeyError, TypeError):
        raise Refused(f"{path}: no configuration in TOML 1.0") from None


def map_of(round_number, body, where):
    """Reads the body of a MAP."""
    if len(body) < 16 or len(body) != 16 + 4 * body[2]:
        raise Refused(f"{where}: its length isn't that of a MAP with so many elements")
    words = struct.unpack(f">{body[2]}I", body[16:])
    elements = [Element(word >> 18, word >> 14 & 15, word & 0x3FFF) for word in words]
    null = next((at for at, it in enumerate(elements) if it.iuc == NULL), None)
    if null is None:
        raise Refused(f"{where}: no Null ends its elements")
    before = elements[:null]
    offsets = [it.offset for it in elements[: null + 1]]
    if offsets[0] != 0 or any(a >= b for a, b in zip(offsets, offsets[1:])):
        raise Refused(f"{where}: its offsets don't rise from 0")
    pendings = [it.sid for it in elements[null + 1 :]]
    return Map(round_number, body, body[0], int.from_bytes(body[4:8]), before, offsets[-1], pendings)


def maps_of(path, plant):
    """Reads a maps file that was written with this configuration, MAP by MAP."""
    try:
        with open(path, "rb") as file:
            text = file.read()
    except OSError as error:
        raise Refused(f"{path}: {error.strerror}") from None
    at, index = 0, 0
    while at < len(text):
        where = f"{path}: record {index}"
        end = at + 6 + int.from_bytes(text[at + 4 : at + 6])
        if len(text) < at + 6 or len(text) < end:
            raise Refused(f"{where}: the file ends inside it")
        one = map_of(int.from_bytes(text[at : at + 4]), text[at + 6 : end], where)
        if one.channel not in plant.minislot_ticks:
            raise Refused(f"{where}: the configuration has no channel {one.channel}")
        ticks = plant.minislot_ticks[one.channel]
        if one.alloc_start * ticks != one.round * plant.round_ticks or one.length * ticks != plant.round_ticks:
            raise Refused(f"{where}: its minislots aren't those of its round in this configuration")
        yield one
        at, index = end, index + 1
