#!/usr/bin/env python3
"""What stands in the maps file and the report of a replay whose writers fail, worked out from the rules alone, of what
plain_scheduler.py writes. tools/run-cases has it for the cases with `each_room`.

Rounds are written in batches. One ends with the round that brings it to 256 rounds, 48 KiB of records or 64 KiB of lines,
and the last one at the end, with the lines behind all rounds. Of each batch the records are written first, and then the
lines. Where the maps file fails, the lines of the rounds whose records it has whole are still written. The fault tells the
greatest number of rounds that both files have whole.

  bench/plain_batches.py CONFIG TRACE ROUNDS    prints places at which one writer fails, or both, each with the fault, as
                                                those cases have them
"""
import itertools
import random
import sys
import tomllib
from pathlib import Path
from typing import NamedTuple

import plain_scheduler
import plain_trace
import records

MOST_ROUNDS, ENOUGH_RECORDS, ENOUGH_LINES = 256, 48 * 1024, 64 * 1024
MOST_ROOM = sys.maxsize
PLACES, IN_A_LINE = 60, 6
# of two places around ends, how far each is from its own
NEAR = (-1, -1), (-1, 1), (0, 0), (1, -1), (1, 1)


class Left(NamedTuple):
    """What both files hold behind a fault."""

    maps: bytes
    report: bytes
    fault: str


def whole(parts, held):
    """How many parts stand whole in so many first bytes of all parts."""
    return sum(end <= held for end in itertools.accumulate(map(len, parts)))


class Written:
    """What a replay writes: the records and the lines of each round, and the lines behind all rounds."""

    def __init__(self, maps, report):
        all_records = records.records_of(maps)
        rounds = all_records[-1].round + 1 if all_records else 0
        self.records, self.lines, self.last = [b""] * rounds, [b""] * rounds, b""
        for record in all_records:
            self.records[record.round] += record.text()
        for line in report.splitlines(keepends=True):
            if line[:1] in b"GM":
                self.lines[int(line.split(b",")[1])] += line
            else:
                self.last += line

    def batches(self):
        """The first round of each batch, and the one behind its last."""
        first = held = told = 0
        for end, (some_records, some_lines) in enumerate(zip(self.records, self.lines), 1):
            held, told = held + len(some_records), told + len(some_lines)
            if end - first >= MOST_ROUNDS or held >= ENOUGH_RECORDS or told >= ENOUGH_LINES:
                yield first, end
                first, held, told = end, 0, 0
        yield first, len(self.records)

    def left(self, maps_room=MOST_ROOM, report_room=MOST_ROOM):
        """What is left where the files have room for so many bytes, of which one at least isn't enough."""
        maps = report = b""
        batches = list(self.batches())
        for first, end in batches:
            maps += b"".join(self.records[first:end])
            has_failed = len(maps) > maps_room
            maps = maps[:maps_room]
            report += b"".join(self.lines[first : whole(self.records, len(maps))])
            if (first, end) == batches[-1] and not has_failed:
                report += self.last
            if has_failed or len(report) > report_room:
                report = report[:report_room]
                done = min(whole(self.records, len(maps)), whole(self.lines, len(report)))
                return Left(maps, report, f"{'RU4' if has_failed else 'RU5'} {done}")
        raise ValueError("there is room for all")


def written(config, trace, rounds):
    """What a replay of these texts writes, which have no fault."""
    maps, report, _summary = plain_scheduler.schedule(tomllib.loads(config.decode()), plain_trace.rows_of(trace), rounds)
    return Written(maps, report)


# The places of cases.


def ends_of(parts):
    """Where each number of parts ends."""
    return [0, *itertools.accumulate(map(len, parts))]


def of_one(parts, last, batches, drawn):
    """Places before, at and behind the end of a batch and of the file, and others by chance, each in some round's part."""
    ends = ends_of(parts)
    most = ends[-1] + len(last)
    near = (0, *(ends[end] for _first, end in batches), most)
    places = {at for end in near for at in (end - 1, end, end + 1) if 0 <= at < most}
    while len(places) < PLACES:
        number = drawn.randrange(len(parts))
        places.add(drawn.randint(ends[number], ends[number + 1]))
    return [(at,) for at in sorted(places)]


def of_both(run, batches, drawn):
    """Pairs of places: those before, at and behind the end of a batch, and others by chance, of the maps file in a batch and
    of the report among the lines of the rounds whose records stand whole then."""
    record_ends, line_ends, pairs = ends_of(run.records), ends_of(run.lines), set()
    for end in (0, *(end for _first, end in batches)):
        near = ((record_ends[end] + one, line_ends[end] + other) for one, other in NEAR)
        pairs |= {(at, told) for at, told in near if 0 <= at < record_ends[-1] and told >= 0}
    while len(pairs) < PLACES:
        first, end = drawn.choice(batches)
        at = drawn.randrange(record_ends[first], record_ends[end])
        pairs.add((at, drawn.randint(line_ends[first], line_ends[whole(run.records, at)])))
    return sorted(pairs)


def show(name, places, run, names):
    """Prints these places of files, each with its fault."""
    rooms = [{f"{file}_room": at for file, at in zip(names, one)} for one in places]
    texts = [f'[{", ".join(map(str, room.values()))}, "{run.left(**room).fault}"]' for room in rooms]
    print(name)
    for at in range(0, len(texts), IN_A_LINE):
        print(f"    {', '.join(texts[at : at + IN_A_LINE])},")


def main(config, trace, rounds):
    run, drawn = written(Path(config).read_bytes(), Path(trace).read_bytes(), int(rounds)), random.Random(1)
    batches = [(first, end) for first, end in run.batches() if first < end]
    for name, parts, last in ("maps", run.records, b""), ("report", run.lines, run.last):
        show(name, of_one(parts, last, batches, drawn), run, [name])
    show("both", of_both(run, batches, drawn), run, ["maps", "report"])


if __name__ == "__main__":
    if len(sys.argv) != 4:
        sys.exit(__doc__)
    main(*sys.argv[1:])
