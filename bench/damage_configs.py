#!/usr/bin/env python3
"""Prints damaged configurations as stored cases of mapsim, crates/mapsim/cases/config_damage.toml: each is the changes
of the configuration four_types of those cases, and the answer of the plain reader.

Damage is a number near some limit or from another place, a value of another kind, a key dropped, added or doubled,
a list with an item more or less, two values swapped, or a table copied; up to four of these at once. No damage is a
document that is read in one version of TOML alone; bench/damage_documents.py has such. Answers come in like shares, as
far as there are such lines.

usage: bench/damage_configs.py SEED COUNT
"""
import json
import random
import re
import sys
from collections import Counter
from os.path import commonprefix
from pathlib import Path
from typing import NamedTuple

from plain_reader import answer

CONFIG = Path(__file__).parent.parent / "crates/mapsim/cases/configs/four_types.toml"
HEAD = """\
# What a plain second reader, written apart from the program, answers to random damage.
# Of a run of no rounds, which is refused behind the configuration: an accepted one gives RU1.

case = [
    # of configs/four_types.toml"""
LONGEST_LINE = 240
# numbers near which something is accepted no more: limits of keys, reserves, grants, jitter, and of whole numbers
LIMITS = [1, 2, 4, 6, 7, 15, 16, 64, 100, 127, 160, 223, 253, 255, 256, 320, 640, 1_024, 3_600, 4_096, 10_000, 15_871]
LIMITS += [20_000, 40_000, 65_535, 65_536, 10_000_000, 16_777_216, 1_000_000_000, 2**32, 2**63]
OTHER_KINDS = ["1.0", "'1'", "[1]", "{}", "true", "2000-01-01", "[[1]]", "[]"]
KEYS = ["other", "priority", "start_us", "grant_bytes", "sid", "id", "max_minislots", "channel", "min_rate"]
# values at which a rule of a key, or of several, holds last or first fails
AIMS = {
    "round_ticks": [0, 1, 2, 4, 128, 319, 321, 4_096, 4_097], "lead_ticks": [0, 1, 65_536, 65_537],
    "id": [0, 1, 2, 255, 256, 65_535, 65_536], "type": [1, 2, 3, 4, 5, 6, 7], "priority": [-1, 0, 7, 8],
    "minislot_log2": [-1, 0, 6, 7, 8], "rate_log2": [-1, 0, 5, 6], "ucd_count": [-1, 0, 255, 256],
    "ranging_backoff": ["[0, 15]", "[15, 0]", "[16, 0]", "[0, 16]", "[-1, 0]", "[0]", "[0, 0, 0]"],
    "data_backoff": ["[0, 15]", "[15, 0]", "[16, 0]", "[0, 16]", "[0, -1]", "[]", "[0, 0, 0]"],
    "request_minislots": [0, 1, 63, 64, 65], "station_minislots": [0, 1, 63, 64, 65],
    "contention_minislots": [-1, 0, 160, 161, 320, 321, 4_096, 4_097],
    "maintenance_minislots": [-1, 0, 160, 161, 320, 321, 4_096, 4_097], "maintenance_every": [0, 1, 65_536, 65_537],
    "bits": [1, 2, 6, 7], "preamble": [-1, 0, 1_024, 1_025], "guard": [-1, 0, 255, 256], "fec_t": [-1, 0, 1, 16, 17],
    "fec_k": [15, 16, 223, 224, 253, 254], "max_minislots": [0, 1, 255, 256], "shortened": ["true", "false"],
    "channel": [0, 1, 2, 10, 20, 255, 256], "sid": [0, 1, 15_871, 15_872],
    "channels": ["[1]", "[2]", "[1, 2]", "[2, 1]", "[1, 1]", "[10, 20]", "[9]", "[0]", "[255]", "[256]", "[]"],
    "clusters": ["[[0]]", "[[1]]", "[[291]]", "[[15871]]", "[[15872]]", "[[1, 2]]", "[[1], [1]]", "[[1], [2]]",
                 "[[1, 2], [2, 1]]", "[[1, 2], [1, 3]]", "[[1], []]", "[[1], [2], [3]]", "[]"],
    "rate": [-1, 0, 1, 2, 1_280_000, 1_000_000_000, 1_000_000_001], "burst": [0, 1, 16_777_216, 16_777_217],
    "min_rate": [-1, 0, 1, 2, 1_280_001, 1_000_000_000, 1_000_000_001], "unit": [0, 1, 2, 3, 4, 8, 16, 32],
    "headers": ["true", "false", "false"], "start_us": [-1, 0, 10_000_000, 10_000_001],
    "interval_us": [99, 100, 101, 1_000, 20_000, 10_000_000, 10_000_001],
    "jitter_us": [-1, 0, 99, 100, 101, 999, 1_000, 9_999_999, 10_000_000, 10_000_001],
    "grant_bytes": [0, 1, 1_000, 10_000, 65_535, 65_536], "grants_per_interval": [0, 1, 127, 128],
}
# a key of a table and its value: a list, or a word or number
PAIR = re.compile(r"\b(\w+) = (\[.*\]|[\w.-]+)")


def change(text, start, end, new):
    """A change of text[start:end] to `new`, with words before it until it is the first place that reads so."""
    place = start
    while text.find(text[place:end]) < place:
        place = max(text.rfind(blank, 0, place - 1) for blank in " \n") + 1
    return text[place:end], text[place:start] + new


def with_value(text, pair, value):
    """A change of a key's value."""
    return change(text, *pair.span(), f"{pair.group(1)} = {value}")


def any_pair(chance, text, value=r"."):
    """A key whose value begins so, anywhere."""
    return chance.choice([pair for pair in PAIR.finditer(text) if re.match(value, pair.group(2))])


def other_number(chance, text):
    pair = any_pair(chance, text, r"\[*\d")
    found = chance.choice(list(re.finditer(r"\d+", pair.group(2))))
    near = chance.choice(LIMITS) + chance.choice([-1, 0, 0, 1])
    elsewhere = int(chance.choice(re.findall(r"\b\d+\b", text)))
    beside = int(found.group()) + chance.choice([-1, 1, 2**8, 2**16, 2**32])
    number = chance.choice([near, elsewhere, elsewhere, beside])
    return [with_value(text, pair, f"{pair.group(2)[: found.start()]}{number}{pair.group(2)[found.end() :]}")]


def other_kind(chance, text):
    return [with_value(text, any_pair(chance, text), chance.choice(OTHER_KINDS))]


def flipped(chance, text):
    pair = any_pair(chance, text, "true|false")
    return [with_value(text, pair, "false" if pair.group(2) == "true" else "true")]


def dropped(chance, text):
    start, end = any_pair(chance, text).span()
    if text.startswith(", ", end):
        follower = text[end + 2 :].split(" ", 1)[0]
        return [change(text, start, end + 2 + len(follower), follower)]
    if text.startswith(" }", end):
        return [change(text, text.rfind(",", 0, start), end + 2, " }")]
    return [change(text, start, end, "# dropped")]


def added(chance, text):
    pair = any_pair(chance, text)
    between = ", " if "{" in text[text.rfind("\n", 0, pair.start()) : pair.start()] else "\n"
    return [change(text, *pair.span(), f"{pair.group()}{between}{chance.choice(KEYS)} = 1")]


def other_count(chance, text):
    """A list, or a list in it, with an item more or less."""
    pair = any_pair(chance, text, r"\[")
    whole = json.loads(pair.group(2))
    items = chance.choice([whole, *(item for item in whole if type(item) is list)])
    if items and chance.random() < 0.5:
        items.pop(chance.randrange(len(items)))
    else:
        items.append(chance.choice([*items, chance.choice(LIMITS)]))
    return [with_value(text, pair, json.dumps(whole))]


def swapped(chance, text):
    """The values of one key in two tables, swapped."""
    one = any_pair(chance, text)
    other = chance.choice([pair for pair in PAIR.finditer(text) if pair.group(1) == one.group(1)])
    one, other = sorted([one, other], key=lambda pair: pair.start())
    # the later one first, so that the earlier one stands where it stood
    second = with_value(text, other, one.group(2))
    return [second, with_value(text.replace(*second, 1), one, other.group(2))]


def copied(chance, text):
    """A flow or a station twice, the first time perhaps with another id."""
    start = chance.choice([found.start() for found in re.finditer(r"\[\[(flow|station)\]\]", text)])
    header, table = text[start:].split("\n\n", 1)[0].rstrip("\n").split("\n", 1)
    table = re.sub(r"\d+", chance.choice(["77", r"\g<0>"]), table, count=1)
    return [change(text, start, start + len(header), f"{header}\n{table}\n{header}")]


def at_limit(chance, text):
    """A key, and a value for it at which some rule holds last, or first fails. That may be another of its table."""
    pairs = [pair for pair in PAIR.finditer(text) if pair.group(1) in AIMS]
    if not pairs:
        return None
    key = chance.choice(sorted({pair.group(1) for pair in pairs}))
    pair = chance.choice([pair for pair in pairs if pair.group(1) == key])
    value = chance.choice(AIMS[key])
    if pair.group(2).isdigit() and chance.random() < 0.3:
        table = text[text.rfind("[[", 0, pair.start()) + 1 :].split("[[", 1)[0]
        value = int(chance.choice(re.findall(r"\b\d+\b", table))) + chance.choice([-1, 0, 0, 1])
    return pair, str(value)


def aimed(chance, text):
    """A text with a key at such a value."""
    found = at_limit(chance, text)
    if found is None:
        return text
    pair, value = found
    return text[: pair.start(2)] + value + text[pair.end(2) :]


def put_at_limit(chance, text):
    return [with_value(text, *at_limit(chance, text))]


def misspelled(chance, text):
    """A key with a letter more, less or otherwise, or as the key of something else."""
    pair = any_pair(chance, text)
    key, at = pair.group(1), chance.randrange(len(pair.group(1)))
    other = chance.choice([key[:at] + key[at + 1 :] or "x", f"{key}s", key.replace("_", ""), key.upper(),
                           key[:at] + "x" + key[at + 1 :], chance.choice(KEYS)])
    return [change(text, *pair.span(), f"{other} = {pair.group(2)}")]


def strayed(chance, text):
    """A key and its value also behind some other key."""
    pair, other = any_pair(chance, text), any_pair(chance, text)
    between = ", " if "{" in text[text.rfind("\n", 0, other.start()) : other.start()] else "\n"
    return [change(text, *other.span(), f"{other.group()}{between}{pair.group()}")]


def as_text(chance, text):
    """A value as a text, also one over several lines with what looks like a table in it."""
    pair = any_pair(chance, text)
    value = pair.group(2)
    texts = [f'"{value}"', f"'{value}'", '"fast"', '"a # b"', '"[[flow]]"', f'"""\n[[flow]]\nid = {value}\n"""',
             "'''\nid = 1\n'''", '"\\u0041\\t\\""']
    return [with_value(text, pair, chance.choice(texts))]


# numbers are damaged as often as all else
DAMAGES = [flipped, dropped, dropped, added, other_kind, other_count, other_count, swapped, copied]
DAMAGES += len(DAMAGES) * [other_number]
# of one damage alone, each as often, and those that stored cases don't have
ONE_BY_ONE = [*dict.fromkeys(DAMAGES), put_at_limit, put_at_limit, misspelled, strayed, as_text]


def damaged(chance, text):
    """A text with some damage, and the changes that made it."""
    changes = []
    for _ in range(chance.choice([1, 1, 1, 2, 2, 3, 4])):
        for old, new in chance.choice(DAMAGES)(chance, text):
            if old != new:
                text = text.replace(old, new, 1)
                changes.append((old, new))
    return text, changes


class Place(NamedTuple):
    """A changed key: its line in the text that the change makes, its name there, and the line of its table's header,
    which is 1 of the top level. Of a table that was copied, it is the header of the copy."""

    line: int
    key: str
    header: int


def line_of(text, at):
    return 1 + text.count("\n", 0, at)


def place_of(text, old, new):
    """Where a change stands in the text that it makes."""
    same = commonprefix([old, new])
    at = text.index(old) + len(same)
    made = text.replace(old, new, 1)
    # what stands behind a key that stays is an added one
    if new[len(same) :].startswith((", ", "\n")):
        at += 1 if new[len(same)] == "\n" else 2
    line = made.rfind("\n", 0, at) + 1
    keys = [found for found in re.finditer(r"(\w+) = ", made[line : made.find("\n", at)]) if found.start() <= at - line]
    header = max(made.rfind("\n[[", 0, at + 1) + 1, 0)
    is_inside = made.startswith("[[", header)
    return Place(line_of(made, at), keys[-1].group(1) if keys else "", line_of(made, header) if is_inside else 1)


def damaged_once(chance, text):
    """A text with one damage: what it is called, the text, and its places."""
    damage = chance.choice(ONE_BY_ONE)
    places = []
    for old, new in damage(chance, text):
        if old != new:
            places.append(place_of(text, old, new))
            text = text.replace(old, new, 1)
    return damage.__name__, text, places


def unique(text, old, new):
    """The change of the first place that reads so, with words beside it until it is the only one."""
    at = text.index(old)
    start, end = at, at + len(old)
    while text.count(text[start:end]) > 1:
        if start > 0:
            start = max(text.rfind(blank, 0, start - 1) for blank in " \n") + 1
        else:
            end = min((place for blank in " \n" if (place := text.find(blank, end + 1)) >= 0), default=len(text))
    return text[start:end], text[start:at] + new + text[at + len(old) : end]


def case(number, found, changes):
    """The stored case of some changes, of which the plain reader found this."""
    text, alone = CONFIG.read_text(), []
    for old, new in changes:
        alone.append(list(unique(text, old, new)))
        text = text.replace(old, new, 1)
    last = changes[-1][1].strip().split("\n")[-1]
    fault = "RU1" if found == "ok" else found
    error = f"error = {json.dumps(f'fault {fault}' + chr(10))}"
    return (
        f"    {{ name = {json.dumps(f'{number}: {last}')}, words = [\"pipe\", \"--rounds\", \"0\"], "
        f'config = "four_types", '
        f'change = {json.dumps(alone)}, trace = "", {error}, status = 3 }},'
    )


def cases(seed, count):
    """So many damaged configurations, of different answers."""
    chance, base, counts, seen = random.Random(seed), CONFIG.read_text(), Counter(), set()
    while len(seen) < count:
        text, changes = damaged(chance, base)
        found = answer(text.encode())
        code = found.split(" ")[0]
        line = f"{found} | " + " ; ".join(f"{old} -> {new}" for old, new in changes)
        if changes and counts[code] < count / 13 and len(line) <= LONGEST_LINE and line not in seen:
            counts[code] += 1
            seen.add(line)
            yield case(len(seen), found, changes)


if __name__ == "__main__":
    print(HEAD, *cases(int(sys.argv[1]), int(sys.argv[2])), "]", sep="\n")
