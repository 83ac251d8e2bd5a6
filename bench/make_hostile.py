#!/usr/bin/env python3
"""Files for timing a checker: for each way to walk them that could take the square of their size, files that ask for
it, and lawful ones of about that size beside.

  bench/make_hostile.py FOLDER [--bytes N] [KIND..]

Writes FOLDER/KIND.toml, .csv, .maps and .report, and the same of KIND_lawful, whose maps file and report have about N
bytes in all (1,000,000), or as many as the rounds of a run have; hostile ones with long numbers have up to twice as
many. Prints for each a line `KIND rounds N maps BYTES report BYTES ANSWER`; the answer is what `mapsim check` has to
print. All are written where none is named.

  lines_over_each_other     half of the lines lie on the same minislots of the first MAP
  empty_intervals           half of the lines have no minislot, on the first MAP, from the greatest start down
  every_map_broken          each MAP has a wrong SID for its contention
  no_line                   1,024 calls of 127 grants each, 20 times a round, and a report that names none of them
  lines_of_no_entry         1,024 calls, and misses of flows that aren't there, by falling id
  one_line_many_times       the last occurrence is told by half of the lines
  open_told_often           each line grants the one occurrence, whose window is open at the end; up to 4,999 rounds
  lines_of_missed_polls     a silent call of 127 grants, polled 20 times a round: a line stands for all 127; it holds
  calls_of_the_last_flow    1,024 calls, of which the last alone is granted: it holds; up to 4,999 rounds
  span_of_all_rounds        a bucket's law is broken by the span of all rounds with a claim, and by no shorter one
  huge_credits              credits of 2^64 - 1, of flows without a limit
  huge_rated_credits        the same of flows with a rate
  claims_of_one_cluster     a hundred claims of one cluster in each round
  claims_of_the_last_flow   1,024 flows with rates, of which the last alone has claims: it holds
  many_final_lines          1,024 flows, and final lines of flows that aren't there, by falling id
  rounds_that_lack          lines of rounds that the run lacks, from the greatest down
  channels_that_lack        lines of channels that the table lacks, from the greatest down
  lines_turned_round        the report from its end to its beginning: it holds
  maps_turned_round         the lines of each MAP from the last to the first: it holds
  first_line_at_the_end     the first line behind all others: it holds
  falling_occurrences       a call whose grants of an interval are told from the last to the first, over two rounds: it
                            holds
  one_long_number           one line, of one long number
  line_feeds                line feeds alone
  no_last_line_feed         a line feed less
  null_records              half of the maps file is records of the Null alone
  empty_records             half of the maps file is records without a body
  turned_channels           sixteen channels with falling ids, and records by rising id
  no_records                67,108,864 rounds of one tick each, and files of no bytes at all
"""
import argparse
import dataclasses
import pathlib
import sys
import tomllib

import make_loads
import records

MOST = 2**64 - 1
# A MAP here has 160 minislots, the last ten for contention. These many are granted, from the first on.
GRANTS = 100
CONTENTION_START = 150
MOST_FLOWS = 1_024
# What starts at the latest time doesn't come up in these many rounds of 2 ms.
LATEST = 10_000_000
ROUNDS_BEFORE_LATEST = 4_999
MOST_RUN_TICKS = 67_108_864
# So many rounds of 320 ticks fit into a run, and one more.
MOST_ROUNDS = MOST_RUN_TICKS // make_loads.ROUND_TICKS - 1
UNSOLICITED, SHORT = 11, 9
BURST = 3_044
UNITS_PER_BYTE = 1_280_000
CREDIT = 4
NO_USELESS_ROW = "U,0,0,0"

CALL = """[[flow]]
id = {id}
type = 6
channels = [1]
clusters = [[{id}]]
start_us = {start}
interval_us = {interval}
jitter_us = {jitter}
grant_bytes = 1
grants_per_interval = {grants}
"""

ASKING = """[[flow]]
id = {id}
type = 2
channels = [1]
clusters = [[{id}]]
priority = 0
rate = {rate}
burst = {burst}
unit = 1
headers = true
"""


@dataclasses.dataclass(frozen=True)
class Case:
    """Files to be judged, and the answer."""

    config: str
    rounds: int
    maps: bytes
    lines: list
    rows: list = ()
    header: str = make_loads.HEADER
    # what the report is where it isn't its lines
    text: bytes | None = None
    answer: str = "holds"

    def report(self):
        return self.text if self.text is not None else "".join(f"{line}\n" for line in self.lines).encode("ascii")

    def trace(self):
        return self.header + "".join(f"{row}\n" for row in self.rows)

    def size(self):
        return len(self.maps) + len(self.report())

    def but(self, answer, **others):
        """The same files with others in place of some."""
        return dataclasses.replace(self, answer=answer, **others)

    def first_half(self):
        return self.lines[: len(self.lines) // 2]

    def second_half(self):
        return self.lines[len(self.lines) // 2 :]


def config_of(flows, channels=(1,)):
    return "\n".join([make_loads.TOP, *(make_loads.PLAIN_CHANNEL.format(id=id) for id in channels), *flows])


def call(id, start=0, interval=2_000, jitter=1_999, grants=GRANTS):
    """A call with grants of one minislot. Without more said its windows are the rounds."""
    return CALL.format(id=id, start=start, interval=interval, jitter=jitter, grants=grants)


def asking(id, rate=0, burst=BURST):
    """A flow whose claims of some bytes are one minislot long, short grants."""
    return ASKING.format(id=id, rate=rate, burst=burst)


def records_of(config, rounds, grants_of=lambda _round: []):
    """The records of a run of one channel or of idle ones, with the grants (start, slots, SID, IUC) of each round."""
    plant = records.Plant(tomllib.loads(config))
    return [plant.record(number, channel, grants_of(number)) for number in range(rounds) for channel in plant.channels]


def maps_of(*of):
    return b"".join(record.text() for record in records_of(*of))


def of_size(size, make, most_rounds=MOST_ROUNDS):
    """What is made of such a number of rounds that it has about so many bytes, or of the most rounds."""
    a_round = (make(12).size() - make(2).size()) // 10
    rounds = max(size // a_round, 2)
    return make(min(rounds, most_rounds))


# Lawful runs of so many rounds


def idle(rounds, channels=(1,)):
    """No flow at all."""
    config = config_of([], channels)
    return Case(config, rounds, maps_of(config, rounds), [NO_USELESS_ROW])


def granted(round_number, id, i, k, start):
    """The line of a call's grant."""
    return f"G,{round_number},1,ugs,{id},{i},{k},{id},{UNSOLICITED},{start},1,0"


def calls(rounds, id=1, others=()):
    """A call that is granted all it has, from the first minislot of each round on, and others, which never come up."""
    config = config_of([*others, call(id)])
    lines = [granted(number, id, number, k, k) for number in range(rounds) for k in range(GRANTS)]
    grants = [(k, 1, id, UNSOLICITED) for k in range(GRANTS)]
    return Case(config, rounds, maps_of(config, rounds, lambda _round: grants), [*lines, NO_USELESS_ROW])


def misses(rounds):
    """A call of 127 grants, 20 times a round, that is missed each time."""
    config = config_of([call(1, interval=100, jitter=0, grants=127)])
    lines = [f"M,{i // 20},1,ugs,1,{i},{k}" for i in range(20 * rounds) for k in range(127)]
    return Case(config, rounds, maps_of(config, rounds), [*lines, NO_USELESS_ROW])


def missed_polls(rounds):
    """The same of a call that is silent from round 1 on, where it starts: it has one poll each time."""
    config = config_of([call(1, 2_000, 100, 0, 127).replace("type = 6", "type = 5")])
    lines = [f"M,{number},1,ad,1,{20 * (number - 1) + i},0" for number in range(1, rounds) for i in range(20)]
    case = Case(config, rounds, maps_of(config, rounds), [*lines, "A,1,0", NO_USELESS_ROW], ["160,1,1,0,1"])
    return dataclasses.replace(case, header=make_loads.HEADER_WITH_KINDS)


def finals(config, spent, ids):
    """The final lines of flows, all without anything outstanding. The buckets of these flows lack so many bytes, and
    those of others are full."""
    lines = []
    for flow in tomllib.loads(config)["flow"]:
        left = flow["burst"] - (spent if flow["id"] in ids else 0)
        lines.append(f"F,{flow['id']},0,0,{left * UNITS_PER_BYTE if flow['rate'] else '-'}")
    return lines


def claim(round_number, id, start, credit=CREDIT):
    """The line of a claim."""
    return f"G,{round_number},1,req,{id},0,0,{id},{SHORT},{start},1,{credit}"


def claims(rounds, ids=range(1, GRANTS + 1), rate=0, others=()):
    """Flows that ask for some bytes in each round but the first, and have them at once, and others, which never ask."""
    config = config_of([*others, *(asking(id, rate) for id in ids)])
    grants = [(start, 1, id, SHORT) for start, id in enumerate(ids)]
    rows = [row_of(number, id, CREDIT) for number in range(1, rounds) for id in ids]
    lines = [claim(number, id, start) for number in range(1, rounds) for start, id in enumerate(ids)]
    # a round brings a bucket more than its claim takes
    lines += [*finals(config, CREDIT, ids), NO_USELESS_ROW]
    return Case(config, rounds, maps_of(config, rounds, lambda number: grants if number > 0 else []), lines, rows)


def row_of(round_number, id, count):
    """A row of the trace that asks for so many bytes in a round, not the first."""
    return f"{320 * round_number - 160},1,{id},{count}"


# The kinds: each makes hostile files and lawful ones


def lines_over_each_other(size):
    lawful = of_size(size, calls)
    grants = [(k, 1, 1, UNSOLICITED) for k in range(GRANTS)]
    # the element up to the contention is theirs, so that the first place that fails is where they begin
    slots = CONTENTION_START - GRANTS
    first = [*grants, (GRANTS, slots, 1, UNSOLICITED)]
    maps = maps_of(lawful.config, lawful.rounds, lambda number: grants if number > 0 else first)
    over = [f"G,0,1,ugs,1,0,0,1,{UNSOLICITED},{GRANTS},{slots},0" for _ in lawful.second_half()]
    return lawful.but(f"broken P3 0 1 {GRANTS}", maps=maps, lines=lawful.first_half() + over), lawful


def empty_intervals(size):
    lawful = of_size(size, calls)
    starts = [MOST - number for number in range(len(lawful.second_half()))]
    lines = [f"G,0,1,ugs,1,0,0,1,{UNSOLICITED},{start},0,0" for start in starts]
    return lawful.but(f"broken P3 0 1 {starts[-1]}", lines=lawful.first_half() + lines), lawful


def every_map_broken(size):
    lawful = of_size(size, calls)
    broken = records.records_of(lawful.maps)
    for record in broken:
        record.elements[record.null() - 1][0] = records.NOBODY
    maps = b"".join(record.text() for record in broken)
    return lawful.but(f"broken P3 0 1 {CONTENTION_START}", maps=maps), lawful


def no_line(size):
    lawful = of_size(size, idle)
    # later flows start sooner, 20 of them in the first round
    flows = [call(id, 100 * (MOST_FLOWS - id), 100, 0, 127) for id in range(1, MOST_FLOWS + 1)]
    return lawful.but(f"broken P4 0 1 {MOST_FLOWS - 19}", config=config_of(flows)), lawful


def latest_calls(count):
    """Calls that never come up."""
    return [call(id, LATEST) for id in range(1, count + 1)]


def lines_of_no_entry(size):
    lawful = of_size(size, misses, ROUNDS_BEFORE_LATEST)
    ids = [MOST - number for number in range(len(lawful.lines) - 1)]
    lines = [*(f"M,0,1,ugs,{id},0,0" for id in ids), NO_USELESS_ROW]
    return lawful.but(f"broken P4 0 1 {ids[-1]}", config=config_of(latest_calls(MOST_FLOWS)), lines=lines), lawful


def one_line_many_times(size):
    half = of_size(size // 2, misses)
    lines = half.lines[:-1] + len(half.lines) * half.lines[-2:-1] + half.lines[-1:]
    return half.but(f"broken P4 {half.rounds - 1} 1 1", lines=lines), of_size(size, misses)


def open_told_often(size):
    lawful = of_size(size, calls, ROUNDS_BEFORE_LATEST)
    config = config_of([call(1, 0, LATEST, LATEST - 1, 1)])
    lines = [granted(number, 1, 0, 0, k) for number in range(lawful.rounds) for k in range(GRANTS)]
    return lawful.but("broken P4 0 1 1", config=config, lines=[*lines, NO_USELESS_ROW]), lawful


def lines_of_missed_polls(size):
    return of_size(size, missed_polls), of_size(size, misses)


def calls_of_the_last_flow(size):
    others = latest_calls(MOST_FLOWS - 1)
    many = of_size(size, lambda rounds: calls(rounds, MOST_FLOWS, others), ROUNDS_BEFORE_LATEST)
    return many, calls(many.rounds, MOST_FLOWS)


def spent_at_once(rounds, last):
    """A flow that has its whole burst of 8 bytes at first, then as much as each round brings, 4 bytes, and `last` in
    the last round."""
    config = config_of([asking(1, 16_000, 8)])
    credits = [8, *((rounds - 3) * [4]), last]
    rows = [row_of(number, 1, credit) for number, credit in enumerate(credits, 1)]
    lines = [claim(number, 1, 0, credit) for number, credit in enumerate(credits, 1)]
    maps = maps_of(config, rounds, lambda number: [(0, 1, 1, SHORT)] if number > 0 else [])
    return Case(config, rounds, maps, [*lines, *finals(config, 8, [1]), NO_USELESS_ROW], rows)


def span_of_all_rounds(size):
    lawful = of_size(size, lambda rounds: spent_at_once(rounds + 1, 4))
    broken = spent_at_once(lawful.rounds, 5)
    return broken.but(f"broken P5 {lawful.rounds - 1} 0 1"), lawful


def with_credits(case, credit):
    """The lines with other credits."""
    return [f"{line.rsplit(',', 1)[0]},{credit}" if line[0] == "G" else line for line in case.lines]


def huge_credits(size):
    lawful = of_size(size, claims)
    return lawful.but("broken P6 1 0 1", lines=with_credits(lawful, MOST)), lawful


def huge_rated_credits(size):
    lawful = of_size(size, lambda rounds: claims(rounds, rate=1_280_000))
    return lawful.but("broken P5 1 0 1", lines=with_credits(lawful, MOST)), lawful


def claims_of_one_cluster(size):
    lawful = of_size(size, claims)
    config = config_of([asking(1)])
    grants = [(k, 1, 1, SHORT) for k in range(GRANTS)]
    maps = maps_of(config, lawful.rounds, lambda number: grants if number > 0 else [])
    rows = [row_of(number, 1, GRANTS * CREDIT) for number in range(1, lawful.rounds)]
    lines = [claim(number, 1, k) for number in range(1, lawful.rounds) for k in range(GRANTS)]
    lines += [*finals(config, GRANTS * CREDIT, [1]), NO_USELESS_ROW]
    return lawful.but("broken P6 1 1 1", config=config, maps=maps, rows=rows, lines=lines), lawful


def flows_that_never_ask(count):
    return [asking(id, 1) for id in range(1, count + 1)]


def claims_of_the_last_flow(size):
    others = flows_that_never_ask(MOST_FLOWS - 1)
    many = of_size(size, lambda rounds: claims(rounds, [MOST_FLOWS], 1_280_000, others))
    return many, claims(many.rounds, [MOST_FLOWS], 1_280_000)


def many_final_lines(size):
    asking_ids, others = range(MOST_FLOWS - GRANTS + 1, MOST_FLOWS + 1), flows_that_never_ask(MOST_FLOWS - GRANTS)
    half = of_size(size // 2, lambda rounds: claims(rounds, asking_ids, 0, others))
    ids = [MOST - number for number in range(len(half.lines))]
    lines = half.lines + [f"F,{id},1,0,-" for id in ids]
    return half.but(f"broken P6 {half.rounds} 0 {ids[-1]}", lines=lines), of_size(size, claims)


def with_field(lines, field, numbers):
    """Lines with other numbers in a field."""
    changed = []
    for line, number in zip(lines, numbers):
        fields = line.split(",")
        fields[field] = str(number)
        changed.append(",".join(fields))
    return changed


def rounds_that_lack(size):
    lawful = of_size(size, calls)
    rounds = [MOST - number for number in range(len(lawful.lines) - 1)]
    return lawful.but(f"broken P3 {rounds[-1]} 1 0", lines=with_field(lawful.lines, 1, rounds)), lawful


def channels_that_lack(size):
    lawful = of_size(size, calls)
    channels = [MOST - number for number in range(len(lawful.lines) - 1)]
    lines = with_field(with_field(lawful.lines, 1, [0] * len(channels)), 2, channels)
    return lawful.but(f"broken P3 0 {channels[-1]} 0", lines=lines), lawful


def lines_turned_round(size):
    lawful = of_size(size, calls)
    return lawful.but("holds", lines=lawful.lines[::-1]), lawful


def in_turn(items, count):
    """So many items after another from the last to the first."""
    return [item for at in range(0, len(items), count) for item in reversed(items[at : at + count])]


def maps_turned_round(size):
    lawful = of_size(size, calls)
    return lawful.but("holds", lines=[*in_turn(lawful.lines[:-1], GRANTS), NO_USELESS_ROW]), lawful


def first_line_at_the_end(size):
    lawful = of_size(size, calls)
    return lawful.but("holds", lines=lawful.lines[1:] + lawful.lines[:1]), lawful


def falling_occurrences(size):
    lawful = of_size(size, calls)
    rounds, half = 2 * lawful.rounds, GRANTS // 2
    places = [(number, start) for number in range(rounds) for start in range(half)]
    occurrences = in_turn([(i, k) for i in range(lawful.rounds) for k in range(GRANTS)], GRANTS)
    lines = [granted(number, 1, *named, start) for (number, start), named in zip(places, occurrences)]
    config = config_of([call(1, interval=4_000, jitter=3_999)])
    maps = maps_of(config, rounds, lambda _round: [(start, 1, 1, UNSOLICITED) for start in range(half)])
    return Case(config, rounds, maps, [*lines, NO_USELESS_ROW]), lawful


def one_long_number(size):
    lawful = of_size(size, calls)
    return lawful.but("fault CK1 1", text=b"U," + b"9" * len(lawful.report())), lawful


def line_feeds(size):
    lawful = of_size(size, calls)
    return lawful.but("fault CK1 1", text=b"\n" * len(lawful.report())), lawful


def no_last_line_feed(size):
    lawful = of_size(size, calls)
    return lawful.but(f"fault CK1 {len(lawful.lines)}", text=lawful.report()[:-1]), lawful


def with_records(lawful, answer, other):
    """The first half of a maps file, and as many bytes of another record, over and over."""
    front = lawful.rounds // 2
    own = records_of(lawful.config, lawful.rounds)
    maps = b"".join(record.text() for record in own[:front])
    others = []
    while len(maps) + len(others) * len(other(front)) < len(lawful.maps):
        others.append(other(front + len(others)))
    return lawful.but(f"{answer} {front}", maps=maps + b"".join(others))


def null_records(size):
    lawful = of_size(size, idle)
    plant = records.Plant(tomllib.loads(lawful.config))

    def null_alone(number):
        null = [records.NOBODY, records.NULL, 0]
        return records.Record(number, plant.head(number, plant.channels[0]), [null]).text()

    return with_records(lawful, "broken P2 0 0", null_alone), lawful


def empty_records(size):
    lawful = of_size(size, idle)

    def no_body(number):
        return number.to_bytes(4, "big") + bytes(2)

    return with_records(lawful, "broken P1 0 0", no_body), lawful


def turned_channels(size):
    lawful = of_size(size, lambda rounds: idle(rounds, range(16, 0, -1)))
    own = sorted(records_of(lawful.config, lawful.rounds), key=lambda record: (record.round, record.head[0]))
    return lawful.but("broken P2 0 0 0", maps=b"".join(record.text() for record in own)), lawful


def no_records(_size):
    config = idle(1).config.replace("round_ticks = 320", "round_ticks = 1")
    config = config.replace("minislot_log2 = 1", "minislot_log2 = 0")
    config = config.replace("contention_minislots = 10", "contention_minislots = 0")
    return Case(config, MOST_RUN_TICKS, b"", [], answer="broken P2 0 0 0"), idle(1)


KINDS = [lines_over_each_other, empty_intervals, every_map_broken, no_line, lines_of_no_entry, one_line_many_times,
         open_told_often, lines_of_missed_polls, calls_of_the_last_flow, span_of_all_rounds, huge_credits,
         huge_rated_credits, claims_of_one_cluster, claims_of_the_last_flow, many_final_lines, rounds_that_lack,
         channels_that_lack, lines_turned_round, maps_turned_round, first_line_at_the_end, falling_occurrences,
         one_long_number, line_feeds, no_last_line_feed, null_records, empty_records, turned_channels, no_records]
BY_NAME = {kind.__name__: kind for kind in KINDS}


def write(folder, name, case):
    """Writes the files of a case: configuration, trace, maps file and report. Answers their paths."""
    config, trace, maps, report = (folder / f"{name}.{ending}" for ending in ("toml", "csv", "maps", "report"))
    config.write_text(case.config, encoding="ascii")
    trace.write_text(case.trace(), encoding="ascii")
    maps.write_bytes(case.maps)
    report.write_bytes(case.report())
    return config, trace, maps, report


def chosen(words, names, size):
    """Name, hostile case and lawful one of each kind that the words ask for, here and in measure_checks.py."""
    unknown = [name for name in names if name not in BY_NAME]
    if unknown:
        words.error(f"no kind: {' '.join(unknown)}")
    return ((name, *BY_NAME[name](size)) for name in names or BY_NAME)


def main():
    words = argparse.ArgumentParser(description=__doc__, formatter_class=argparse.RawDescriptionHelpFormatter)
    words.add_argument("folder", type=pathlib.Path, metavar="FOLDER")
    words.add_argument("--bytes", type=int, default=1_000_000, metavar="N", help="of each maps file with its report")
    words.add_argument("kinds", nargs="*", metavar="KIND", help="by default all: " + ", ".join(BY_NAME))
    given = words.parse_intermixed_args()
    cases = chosen(words, given.kinds, given.bytes)
    given.folder.mkdir(parents=True, exist_ok=True)
    for name, hostile, lawful in cases:
        for name, case in ((name, hostile), (f"{name}_lawful", lawful)):
            write(given.folder, name, case)
            sizes = f"maps {len(case.maps)} report {len(case.report())}"
            print(name, "rounds", case.rounds, sizes, case.answer, flush=True)


if __name__ == "__main__":
    sys.exit(main())
