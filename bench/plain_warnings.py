"""A plain second reader of what looks wrong in tables and rows that are accepted, from the rules alone. Each answer is
numbers: how many rows or windows, and the lines of the first."""
import plain_scheduler
import plain_trace

MOST_WINDOWS = 10_000
CALLS, REQUESTING = (5, 6), (2, 3, 4)


def owners_of(tables):
    """The flows by the channels and SIDs that they have."""
    return {pair: index for index, flow in enumerate(tables.get("flow", [])) for sids in flow["clusters"]
            for pair in zip(flow["channels"], sids)}


def takes(flow, kind):
    """Whether rows of this kind do something with a flow."""
    return flow["type"] in REQUESTING and kind == 0 or flow["type"] == 5 and kind > 0


class Rows:
    """What is in the rows of a trace: of each SID that no flow has, and of each that has rows that do nothing, how many
    rows, and the line of the first; the same of late rows; the rounds that take in all that do something, if any does;
    and the indices of the flows that make requests, and that no row names."""

    def __init__(self, tables, trace, rounds):
        self.unknown, self.unused, self.late, self.rounds = {}, {}, [0, 0], None
        flows, owners, named = tables.get("flow", []), owners_of(tables), set()
        lines = list(plain_trace.lines_of_records(trace))[1:]
        for line, (tick, channel, sid, _units, kind) in zip(lines, plain_trace.rows_of(trace)):
            owner = owners.get((channel, sid))
            named.add(owner)
            if owner is None or not takes(flows[owner], kind):
                rows = (self.unknown if owner is None else self.unused).setdefault((channel, sid), [0, line])
                rows[0] += 1
                continue
            round = plain_scheduler.ceil_div(tick + tables["lead_ticks"], tables["round_ticks"])
            self.rounds = max(self.rounds or 1, round + 1)
            if round >= rounds:
                self.late = [self.late[0] + 1, self.late[1] or line]
        self.silent = [index for index, flow in enumerate(flows)
                       if flow["type"] in REQUESTING and index not in named]


def has_room(channel, slots, start, end):
    """Whether a grant fits in a MAP with its reserves alone where it begins between two times, in quarters of a
    microsecond."""
    keys, minislot = channel.t, channel.ticks * plain_scheduler.TICK
    for slot in range(plain_scheduler.ceil_div(start, minislot), end // minislot + 1):
        map, offset = divmod(slot, channel.len)
        reserve = keys["maintenance_minislots"] if map % keys["maintenance_every"] == 0 else 0
        if reserve <= offset and offset + slots <= channel.len - keys["contention_minislots"]:
            return True
    return False


def windows_of(tables, rounds):
    """Of each entry of a calendar with windows that close in the run and that no schedule can grant: the list of its
    table, its id, and whether no minislot begins in them, or none of these has room for a grant. Behind it how many
    they are of how many, the interval of the first and the round in which it closes."""
    found = {}
    quarters = tables["round_ticks"] * plain_scheduler.TICK
    for table in tables["channel"]:
        channel = plain_scheduler.Channel(table, tables["round_ticks"])
        minislot = channel.ticks * plain_scheduler.TICK
        for entry in plain_scheduler.calendar_of(channel, tables.get("flow", []), tables.get("station", [])):
            kind = "station" if entry.word == "station" else "flow"
            starts = range(entry.start, rounds * quarters - entry.jitter, entry.interval)[:MOST_WINDOWS]
            for place, start in enumerate(starts):
                end = start + entry.jitter
                if has_room(channel, entry.n, start, end):
                    continue
                is_empty = plain_scheduler.ceil_div(start, minislot) > end // minislot
                count, *first = found.get((kind, entry.id, is_empty), (0, len(starts), place, end // quarters))
                found[kind, entry.id, is_empty] = count + 1, *first
    return found
