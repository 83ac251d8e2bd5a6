"""A plain, slow second checker of schedules: it tells what `mapsim check` prints of a maps file and a report.

It is written from the rules alone and shares nothing with the crates; so where the two answers differ, one of them is
wrong. What a burst costs and what a trace asks for is as bench/plain_scheduler.py has it. No rule asks how a round was
planned, so minimum rates are nothing to it. It looks at every minislot, every occurrence and every span of rounds, so
the runs should be short. bench/plain_program.py is a program of it.
"""
import collections
import re
import tomllib
from typing import NamedTuple

import plain_maps
import plain_scheduler
import plain_trace

# In quarter microseconds, as all times are here that come of the configuration's microseconds.
TICK = 25
UNITS_PER_BYTE = 1_280_000
SEGMENT_HEADER = 8
BROADCAST = 0x3FFF
NOBODY = 0
REQUEST, INITIAL_MAINTENANCE, STATION_MAINTENANCE, UNSOLICITED = 1, 3, 4, 11

CALENDAR_WORDS = {b"ugs", b"ad", b"rtp", b"nrtp", b"station"}
ALL_WORDS = CALENDAR_WORDS | {b"req"}
NUMBER = re.compile(rb"0|[1-9][0-9]{0,19}")
GREATEST = 2**64 - 1


class Place(NamedTuple):
    """Where a rule fails. What the third number is, the rule says; numbers that don't apply are 0."""

    round: int
    channel: int
    third: int


# The lines of a report


class Grant(NamedTuple):
    round: int
    channel: int
    entry: str
    id: int
    i: int
    k: int
    sid: int
    iuc: int
    start: int
    slots: int
    credit: int


class Missed(NamedTuple):
    round: int
    channel: int
    entry: str
    id: int
    i: int
    k: int


class Final(NamedTuple):
    flow: int
    cluster: int
    outstanding: int
    # None: the flow has no limit
    units: int | None


class Activity(NamedTuple):
    """Whether a flow is active in the end: 1, or 0 where it is silent."""

    flow: int
    active: int


class Useless(NamedTuple):
    """How many rows of the trace are no asks."""

    unknown: int
    not_requestable: int
    late: int


class BadLine(Exception):
    """Says the number, from 1, of a line of the report that is none."""


def number_of(field):
    """The number that a field spells, or None."""
    value = int(field) if NUMBER.fullmatch(field) else None
    return None if value is None or value > GREATEST else value


def numbers_of(fields):
    """The numbers that fields spell, or None."""
    numbers = [number_of(field) for field in fields]
    return None if None in numbers else numbers


def line_of(text):
    """The line that a text spells, without its line feed, or None."""
    letter, *fields = text.split(b",")
    if letter == b"G" and len(fields) == 11 and fields[2] in ALL_WORDS:
        form, word = Grant, fields.pop(2)
    elif letter == b"M" and len(fields) == 6 and fields[2] in CALENDAR_WORDS:
        form, word = Missed, fields.pop(2)
    elif letter == b"F" and len(fields) == 4:
        has_no_limit = fields[3] == b"-"
        numbers = numbers_of(fields[:3] if has_no_limit else fields)
        return numbers and Final(*numbers, *([None] if has_no_limit else []))
    elif (letter, len(fields)) in ((b"U", 3), (b"A", 2)):
        numbers = numbers_of(fields)
        return numbers and (Useless if letter == b"U" else Activity)(*numbers)
    else:
        return None
    numbers = numbers_of(fields)
    return numbers and form(*numbers[:2], word.decode(), *numbers[2:])


def lines_of(report):
    """The lines of a report, of which each has to end with a line feed."""
    *texts, rest = report.split(b"\n")
    lines = [line_of(text) for text in texts]
    if None in lines:
        raise BadLine(lines.index(None) + 1)
    if rest:
        raise BadLine(len(lines) + 1)
    return lines


# The records of a maps file


class Span(NamedTuple):
    """Some minislots of a MAP, up to `end`, with their SID and IUC: an interval, a gap or an element."""

    start: int
    end: int
    sid: int
    iuc: int


class Map(NamedTuple):
    round: int
    channel: int
    ucd_count: int
    alloc_start: int
    ack: int
    backoffs: list
    # those before the Null
    elements: list
    # the offset of the Null
    length: int


def map_of(round_number, body):
    """The MAP that a body spells, or None where it isn't in the grammar, as where it is cut."""
    if body is None or plain_maps.fault_of(body):
        return None
    elements = plain_maps.elements_of(body)
    null = plain_maps.null_of(elements)
    spans = [Span(one.offset, behind.offset, one.sid, one.iuc) for one, behind in zip(elements[:null], elements[1:])]
    alloc_start, ack = (int.from_bytes(body[at : at + 4], "big") for at in (4, 8))
    return Map(round_number, body[0], body[1], alloc_start, ack, list(body[12:16]), spans, elements[null].offset)


def maps_of(text):
    """The MAPs of a maps file, with None for each record that is cut or has a body that isn't in the grammar."""
    return [map_of(round_number, body) for round_number, body in plain_maps.pieces_of(text)]


# What is asked of a run


class Entry(NamedTuple):
    """An entry of a channel's calendar; its times are in quarter microseconds. `poll` has the minislots of a poll in an
    interval in which its flow is silent, and is None where no flow can be."""

    word: str
    id: int
    channel: int
    sid: int
    iuc: int
    slots: int
    grants: int
    poll: int | None
    start: int
    interval: int
    jitter: int


class Run:
    """A configuration, the rows of a trace and a number of rounds, and what they ask of a schedule."""

    def __init__(self, tables, rows, rounds):
        self.tables, self.rounds = tables, rounds
        self.round_ticks, self.lead_ticks = self.tables["round_ticks"], self.tables["lead_ticks"]
        self.channels = [plain_scheduler.Channel(table, self.round_ticks) for table in self.tables["channel"]]
        self.channel_ids = [channel.id for channel in self.channels]
        self.by_id = {channel.id: channel for channel in self.channels}
        self.flows = self.tables.get("flow", [])
        self.asking = {flow["id"]: flow for flow in self.flows if flow["type"] not in (5, 6)}
        self.entries = {(entry.word, entry.id): entry for entry in self.all_entries()}
        cuts, marks, useless = plain_scheduler.requests(tables, rows, rounds)
        self.useless = Useless(*useless)
        self.asked = collections.Counter()
        for number, cut in cuts.items():
            for (place, cluster), count in cut.items():
                self.asked[number, self.flows[place]["id"], cluster] += count
        # of each flow that can be silent, whether it is active, round by round
        self.activity = {flow["id"]: list(self.activity_of(place, marks))
                         for place, flow in enumerate(self.flows) if flow["type"] == 5}

    def activity_of(self, place, marks):
        """Whether the flow at a place is active in each round, by its last mark."""
        is_active = True
        for number in range(self.rounds):
            is_active = {0: is_active, 1: False, 2: True}[marks[number][place]]
            yield is_active

    def all_entries(self):
        """What the flows and stations have in the calendars of channels."""
        words = {6: "ugs", 5: "ad", 4: "rtp", 3: "nrtp"}
        for flow in self.flows:
            if flow["type"] in words:
                channel = self.by_id[flow["channels"][0]]
                iuc, slots, grants = REQUEST, channel.t["request_minislots"], 1
                poll = slots if flow["type"] == 5 else None
                if flow["type"] in (5, 6):
                    iuc, slots = UNSOLICITED, channel.cost(channel.unsolicited, flow["grant_bytes"])
                    grants = flow["grants_per_interval"]
                sid = flow["clusters"][0][0]
                word = words[flow["type"]]
                yield Entry(word, flow["id"], channel.id, sid, iuc, slots, grants, poll, *times_of(flow))
        for station in self.tables.get("station", []):
            slots = self.by_id[station["channel"]].t["station_minislots"]
            yield Entry("station", station["id"], station["channel"], station["sid"], STATION_MAINTENANCE, slots, 1,
                        None, *times_of(station))

    def order(self, place):
        """The order of places: by round, then channel (0, those of the table, others by number), then the third."""
        if place.channel == 0:
            channel = (0, 0)
        elif place.channel in self.by_id:
            channel = (1, self.channel_ids.index(place.channel))
        else:
            channel = (2, place.channel)
        return place.round, channel, place.third

    @property
    def round_time(self):
        return self.round_ticks * TICK

    @property
    def end(self):
        return self.rounds * self.round_time

    def headings(self, number):
        """What record `number` has to say beside its elements."""
        round_number, place = divmod(number, len(self.channels))
        channel = self.channels[place]
        ack = max(round_number * self.round_ticks - self.lead_ticks, 0) // channel.ticks
        backoffs = channel.t["ranging_backoff"] + channel.t["data_backoff"]
        alloc_start = round_number * channel.len
        return (round_number, channel.id, channel.t["ucd_count"], alloc_start, ack, backoffs, channel.len)

    def reserves(self, round_number, channel):
        maintenance, contention = channel.t["maintenance_minislots"], channel.t["contention_minislots"]
        if maintenance > 0 and round_number % channel.t["maintenance_every"] == 0:
            yield Span(0, maintenance, BROADCAST, INITIAL_MAINTENANCE)
        if contention > 0:
            yield Span(channel.len - contention, channel.len, BROADCAST, REQUEST)

    def ideal(self, entry, i):
        return entry.start + i * entry.interval

    def is_silent(self, entry, i):
        """Whether an interval has a poll in place of its grants: its flow was silent in the round of the ideal time."""
        return entry.poll is not None and not self.activity[entry.id][self.ideal(entry, i) // self.round_time]

    def count(self, entry, i):
        """How many occurrences an interval has."""
        return 1 if self.is_silent(entry, i) else entry.grants

    def kind(self, entry, i):
        """The IUC and the minislots of each."""
        return (REQUEST, entry.poll) if self.is_silent(entry, i) else (entry.iuc, entry.slots)

    def is_occurrence(self, entry, i, k):
        return self.ideal(entry, i) < self.end and k < self.count(entry, i)

    def occurrences(self, entry):
        """All (i, k) of an entry."""
        i = 0
        while self.ideal(entry, i) < self.end:
            yield from ((i, k) for k in range(self.count(entry, i)))
            i += 1

    def closing_round(self, entry, i):
        """The round that holds the end of the window, or None where the run ends before."""
        window_end = self.ideal(entry, i) + entry.jitter
        return window_end // self.round_time if window_end < self.end else None

    def is_in_window(self, entry, i, round_number, start):
        """Whether minislot `start` of the MAP of a round begins in the window."""
        channel = self.by_id[entry.channel]
        begins = (round_number * channel.len + start) * channel.ticks * TICK
        return self.ideal(entry, i) <= begins <= self.ideal(entry, i) + entry.jitter


def times_of(table):
    """Start, interval and jitter of a flow or station, in quarter microseconds."""
    return (4 * table[key] for key in ("start_us", "interval_us", "jitter_us"))


class Files(NamedTuple):
    maps: list
    lines: list

    def of(self, *forms):
        """The lines of some kinds."""
        return [line for line in self.lines if isinstance(line, forms)]

    def claims(self):
        """The lines of requested grants."""
        return [line for line in self.of(Grant) if line.entry == "req"]


# The rules. Each part of a rule answers all places at which it fails, and a part's places come before the next part's.


def fails_grammar(_run, files):
    for number, one in enumerate(files.maps):
        if one is None:
            yield Place(0, 0, number)


def fails_headings(run, files):
    wanted = run.rounds * len(run.channels)
    for number, one in enumerate(files.maps):
        found = (one.round, one.channel, one.ucd_count, one.alloc_start, one.ack, one.backoffs, one.length)
        if number >= wanted or found != run.headings(number):
            yield Place(0, 0, number)
    if len(files.maps) < wanted:
        yield Place(0, 0, len(files.maps))


def fails_line_of_the_run(run, files):
    for line in files.of(Grant, Missed):
        if line.round >= run.rounds or line.channel not in run.by_id:
            yield Place(line.round, line.channel, 0)


def gaps_of(holders, request_minislots):
    """The gap at each minislot that nobody holds, and None at the others."""
    gaps, start = [], 0
    while start < len(holders):
        end = start + 1
        while end < len(holders) and bool(holders[end]) == bool(holders[start]):
            end += 1
        sid = BROADCAST if end - start >= request_minislots else NOBODY
        gaps += (end - start) * [None if holders[start] else Span(start, end, sid, REQUEST)]
        start = end
    return gaps


def fails_spans(run, files):
    lines = collections.defaultdict(list)
    for line in files.of(Grant):
        lines[line.round, line.channel].append(line)
    for one in files.maps:
        channel = run.by_id[one.channel]
        intervals = list(run.reserves(one.round, channel))
        intervals += [Span(line.start, line.start + line.slots, line.sid, line.iuc)
                      for line in lines[one.round, one.channel]]
        holders = [[] for _ in range(channel.len)]
        for interval in intervals:
            if interval.start == interval.end:
                yield Place(one.round, one.channel, interval.start)
            elif interval.start >= channel.len:
                yield Place(one.round, one.channel, channel.len)
            for offset in range(interval.start, min(interval.end, channel.len)):
                holders[offset].append(interval)
        gaps = gaps_of(holders, channel.t["request_minislots"])
        for element in one.elements:
            for offset in range(element.start, element.end):
                wanted = holders[offset] or [gaps[offset]]
                if wanted != [element]:
                    yield Place(one.round, one.channel, offset)


def is_right_for(run, entry, line):
    """Whether a line that names an occurrence of an entry tells it rightly."""
    if line.channel != entry.channel:
        return False
    if isinstance(line, Missed):
        return line.round == run.closing_round(entry, line.i)
    told = (line.sid, line.iuc, line.slots, line.credit)
    return told == (entry.sid, *run.kind(entry, line.i), 0) and run.is_in_window(entry, line.i, line.round, line.start)


def fails_marks(run, files):
    named = collections.defaultdict(list)
    for line in files.of(Grant, Missed):
        if line.entry == "req":
            continue
        entry = run.entries.get((line.entry, line.id))
        if entry is None or not run.is_occurrence(entry, line.i, line.k):
            yield Place(line.round, line.channel, line.id)
            continue
        named[line.entry, line.id, line.i, line.k].append(line)
        if not is_right_for(run, entry, line):
            yield Place(line.round, line.channel, line.id)
    for (word, id, i, _k), lines in named.items():
        if run.closing_round(run.entries[word, id], i) is None and len(lines) > 1:
            yield from (Place(line.round, line.channel, line.id) for line in lines)
    for entry in run.entries.values():
        for i, k in run.occurrences(entry):
            closing = run.closing_round(entry, i)
            if closing is not None and len(named.get((entry.word, entry.id, i, k), [])) != 1:
                yield Place(closing, entry.channel, entry.id)
                # the later ones of this entry close no sooner, and there may be far more of them than lines
                break


def fails_rate(run, files):
    credits = collections.Counter()
    for line in files.claims():
        credits[line.id, line.round] += line.credit
    for flow in run.asking.values():
        if flow["rate"] == 0:
            continue
        for last in range(run.rounds):
            credited = 0
            # spans that end with `last`, the shortest first
            for first in range(last, -1, -1):
                credited += credits[flow["id"], first]
                grown = (last - first) * run.round_ticks * flow["rate"]
                if credited * UNITS_PER_BYTE > flow["burst"] * UNITS_PER_BYTE + grown:
                    yield Place(last, 0, flow["id"])
                    break


def is_right_claim(run, line):
    """Whether a line of a requested grant is right by itself."""
    flow = run.asking.get(line.id)
    if flow is None or line.channel not in flow["channels"] or line.i >= len(flow["clusters"]):
        return False
    sid = flow["clusters"][line.i][flow["channels"].index(line.channel)]
    header = SEGMENT_HEADER if flow["headers"] else 0
    cost = run.by_id[line.channel].grant_cost(line.credit + header)
    return line.k == 0 and line.sid == sid and line.credit >= 1 and (line.slots, line.iuc) == cost


def clusters_of(run):
    """The id and the cluster of each cluster that asks."""
    return [(id, cluster) for id, flow in run.asking.items() for cluster in range(len(flow["clusters"]))]


def fails_claims(run, files):
    told, credits = collections.Counter(), collections.Counter()
    for line in files.claims():
        told[line.id, line.i, line.channel, line.round] += 1
        credits[line.round, line.id, line.i] += line.credit
    for line in files.claims():
        if not is_right_claim(run, line) or told[line.id, line.i, line.channel, line.round] > 1:
            yield Place(line.round, line.channel, line.id)
    for id, cluster in clusters_of(run):
        outstanding = 0
        for round_number in range(run.rounds):
            outstanding += run.asked[round_number, id, cluster] - credits[round_number, id, cluster]
            if outstanding < 0:
                yield Place(round_number, 0, id)


def finals_of(run, files):
    """The lines of all clusters that ask, as the trace and the claims give them."""
    credits = collections.Counter()
    for line in files.claims():
        credits[line.id, line.i, line.round] += line.credit
    for id, flow in run.asking.items():
        units = most = flow["burst"] * UNITS_PER_BYTE
        left = [0 for _ in flow["clusters"]]
        for round_number in range(run.rounds):
            if round_number > 0:
                units = min(units + run.round_ticks * flow["rate"], most)
            for cluster in range(len(left)):
                credited = credits[id, cluster, round_number]
                left[cluster] += run.asked[round_number, id, cluster] - credited
                units -= credited * UNITS_PER_BYTE
        yield from (Final(id, cluster, count, units if flow["rate"] else None) for cluster, count in enumerate(left))


def fails_finals(run, files):
    wanted, found = collections.Counter(finals_of(run, files)), collections.Counter(files.of(Final))
    for final in (wanted - found) + (found - wanted):
        yield Place(run.rounds, 0, final.flow)


def fails_activity(run, files):
    wanted = collections.Counter(Activity(id, int(rounds[-1])) for id, rounds in run.activity.items())
    found = collections.Counter(files.of(Activity))
    for one in (wanted - found) + (found - wanted):
        yield Place(run.rounds, 0, one.flow)


def fails_useless(run, files):
    if files.of(Useless) != [run.useless]:
        yield Place(run.rounds, 0, 0)


RULES = [
    ("P1", [fails_grammar]),
    ("P2", [fails_headings]),
    ("P3", [fails_line_of_the_run, fails_spans]),
    ("P4", [fails_marks]),
    ("P5", [fails_rate]),
    ("P6", [fails_claims, fails_finals, fails_activity, fails_useless]),
]


def verdict(tables, rows, rounds, maps, lines):
    """What the rules say of a maps file and the lines of a report: `holds`, or `broken P3 1 1 150`."""
    run, files = Run(tables, rows, rounds), Files(maps_of(maps), lines)
    for code, parts in RULES:
        for fails in parts:
            first = min(fails(run, files), key=run.order, default=None)
            if first is not None:
                return f"broken {code} {first.round} {first.channel} {first.third}"
    return "holds"


def judge(config_text, trace_text, rounds, maps_bytes, report_bytes):
    """What is answered of these files, of which the configuration and the trace have no fault: `holds`,
    `broken P3 1 1 150` or `fault CK1 4`."""
    try:
        lines = lines_of(report_bytes)
    except BadLine as bad:
        return f"fault CK1 {bad}"
    rows = plain_trace.rows_of(trace_text.encode())
    return verdict(tomllib.loads(config_text), rows, rounds, maps_bytes, lines)


STATUSES = {"holds": 0, "broken": 1, "fault": 3}


def status_of(line):
    """The status that goes with an answer."""
    return STATUSES[line.split(" ")[0]]
