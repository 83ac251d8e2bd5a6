"""A second scheduler, from the rules alone. It shares nothing with the crates, and is compared with mapsim by
bench/compare_schedulers.py and bench/compare_programs.py."""
import struct
import tomllib
from collections import defaultdict

import plain_trace

BYTE = 1280000  # bucket units in a byte
TICK = 25  # quarter microseconds in a tick
MOST = 100  # assignments in a MAP

def ceil_div(a, b):
    return -(-a // b)

class Profile:
    def __init__(self, t):
        self.bits, self.preamble, self.guard = t["bits"], t["preamble"], t["guard"]
        self.t, self.k, self.shortened = t["fec_t"], t["fec_k"], t["shortened"]
    def coded(self, b):
        if self.t == 0:
            return b
        word = self.k + 2 * self.t
        if not self.shortened:
            return ceil_div(b, self.k) * word
        full, rest = divmod(b, self.k)
        return full * word + (max(rest, 16) + 2 * self.t if rest else 0)

class Channel:
    def __init__(self, t, round_ticks):
        self.t = t
        self.id = t["id"]
        self.ticks = 1 << t["minislot_log2"]
        self.symbols = 1 << (t["minislot_log2"] + t["rate_log2"])
        self.len = round_ticks // self.ticks
        assert self.len * self.ticks == round_ticks
        self.long, self.short, self.unsolicited = (Profile(t[name]) for name in ("long", "short", "unsolicited"))
        self.short_max = t["short"]["max_minislots"]
        self.caps = {}
        self.costs = {}
    def cost(self, profile, b):
        return ceil_div(profile.preamble + profile.guard + ceil_div(8 * profile.coded(b), profile.bits), self.symbols)
    def grant_cost(self, b):
        if b not in self.costs:
            long, short = self.cost(self.long, b), self.cost(self.short, b)
            self.costs[b] = (short, 9) if short <= self.short_max and short <= long else (long, 10)
        return self.costs[b]
    def capacity(self, n):
        if n not in self.caps:
            low, high = -1, 98305
            while high - low > 1:
                mid = (low + high) // 2
                if self.cost(self.long, mid) <= n:
                    low = mid
                else:
                    high = mid
            self.caps[n] = max(low, 0)
        return self.caps[n]

class Board:
    def __init__(self, length):
        self.len, self.taken = length, []  # (start, n, sid, iuc), by start
    def runs(self):
        at = 0
        for start, n, _, _ in self.taken:
            if start > at:
                yield at, start - at
            at = start + n
        if at < self.len:
            yield at, self.len - at
    def idle(self):
        return self.len - sum(n for _, n, _, _ in self.taken)
    def put(self, start, n, sid, iuc):
        assert n >= 1 and any(s <= start and start + n <= s + m for s, m in self.runs())
        self.taken.append((start, n, sid, iuc))
        self.taken.sort()

class Entry:
    """What a channel's calendar has of a flow or a station; times are in quarter microseconds. A flow with activity
    detection has grants while it is active, and while it is silent a poll of `poll` minislots in each interval."""
    def __init__(self, word, table, sid, iuc, n, grants, poll=None):
        self.word, self.id, self.sid, self.iuc, self.n, self.grants = word, table["id"], sid, iuc, n, grants
        self.poll, self.is_active = poll, True
        self.start, self.interval, self.jitter = (4 * table[key] for key in ("start_us", "interval_us", "jitter_us"))
        self.next = 0      # the first interval that wasn't looked at
        self.waiting = []  # occurrences (i, k) that are not settled, in order, with their IUC and minislots
    def due(self, end):
        """All that is ideal before a time, which is the end of the round, and isn't settled."""
        while self.start + self.next * self.interval < end:
            if self.is_active:
                self.waiting += [(self.next, k, self.iuc, self.n) for k in range(self.grants)]
            else:
                self.waiting.append((self.next, 0, 1, self.poll))
            self.next += 1
        return self.waiting

def calendar_of(channel, flows, stations):
    """The entries of a channel in order."""
    here = [f for f in flows if f["type"] != 2 and f["channels"][0] == channel.id]
    entries = []
    poll = channel.t["request_minislots"]
    for kind, word in (6, "ugs"), (5, "ad"), (4, "rtp"), (3, "nrtp"):
        for f in sorted((f for f in here if f["type"] == kind), key=lambda f: f["id"]):
            sid = f["clusters"][0][0]
            if kind in (5, 6):
                n = channel.cost(channel.unsolicited, f["grant_bytes"])
                entries.append(Entry(word, f, sid, 11, n, f["grants_per_interval"], poll if kind == 5 else None))
            else:
                entries.append(Entry(word, f, sid, 1, poll, 1))
    for s in sorted((s for s in stations if s["channel"] == channel.id), key=lambda s: s["id"]):
        entries.append(Entry("station", s, s["sid"], 4, channel.t["station_minislots"], 1))
    return entries

def earliest(board, n, first, last):
    """The least minislot from `first` to `last` where n minislots fit."""
    if len(board.taken) < MOST:
        for start, m in board.runs():
            at = max(start, first)
            if at <= last and at + n <= start + m:
                return at
    return None

def settle(entry, r, channel, board, granted, missed, seen):
    """The occurrences of an entry in a round: granted, missed, or waiting on."""
    minislot = channel.ticks * TICK
    begin = r * channel.len
    end = (begin + channel.len) * minislot
    left = []
    for i, k, iuc, n in entry.due(end):
        ideal = entry.start + i * entry.interval
        first = max(ceil_div(ideal, minislot) - begin, 0)
        last = min((ideal + entry.jitter) // minislot - begin, channel.len - 1)
        at = earliest(board, n, first, last)
        if at is not None:
            board.put(at, n, entry.sid, iuc)
            granted.append((at, f"G,{r},{channel.id},{entry.word},{entry.id},{i},{k},"
                                f"{entry.sid},{iuc},{at},{n},0\n"))
            seen["waited, then granted"] += ideal < begin * minislot
            seen["polled while silent"] += entry.poll is not None and iuc == 1
            seen["settled as another kind than the flow's"] += entry.poll is not None and (iuc == 1) == entry.is_active
            seen["granted " + entry.word] += 1
        elif ideal + entry.jitter < end:
            missed.append(f"M,{r},{channel.id},{entry.word},{entry.id},{i},{k}\n")
            seen["missed without a minislot"] += ceil_div(ideal, minislot) > (ideal + entry.jitter) // minislot
            seen["missed at a full board"] += len(board.taken) == MOST
            seen["waited, then missed"] += ideal < begin * minislot
            seen["missed " + entry.word] += 1
        else:
            left.append((i, k, iuc, n))
            seen["waits to a round's very end"] += ideal + entry.jitter == end
    entry.waiting = left

def divide(x, weights):
    total = sum(weights)
    if x >= total:
        return list(weights)
    shares = [x * w // total for w in weights]
    for i, w in enumerate(weights):
        if sum(shares) == x:
            break
        if shares[i] < w:
            shares[i] += 1
    assert sum(shares) == x
    return shares

class Budgets:
    """What may still be granted in a round: minislots by channel, bytes by flow (None without limit)."""
    def __init__(self, by_id, boards, allowance):
        self.by_id, self.allowance = by_id, allowance
        self.slots = {c: boards[c].idle() for c in by_id}
    def share(self, f, fi, demand, firsts, h):
        """What a turn gets on each channel of its flow, beside what it has there."""
        if self.allowance[fi] is not None:
            demand = min(demand, self.allowance[fi])
        weights = [max(self.by_id[c].capacity(self.slots[c]) - h - first, 0) for c, first in zip(f["channels"], firsts)]
        more = divide(demand, weights)
        if self.allowance[fi] is not None:
            self.allowance[fi] -= sum(more)
        for c, first, second in zip(f["channels"], firsts, more):
            if first + second:
                self.slots[c] -= self.by_id[c].grant_cost(first + second + h)[0]
                assert self.slots[c] >= 0
        return more

def plan(table, r, by_id, boards, turns, outstanding, units, reserve_units, seen):
    """The shares of a round, turn by turn: first what minimum rates reserve, then all the rest. Spends the reserves."""
    flows = table.get("flow", [])
    budgets = Budgets(by_id, boards, [units[i] // BYTE if f.get("rate") else None for i, f in enumerate(flows)])
    reserved = {}
    for fi, ci in turns:
        f = flows[fi]
        reserved[fi, ci] = [0] * len(f["channels"])
        if not f.get("min_rate"):
            continue
        h = 8 if f["headers"] else 0
        most = min(outstanding[fi, ci], reserve_units[fi] // BYTE)
        seen["reserves below what is outstanding"] += 0 < most < outstanding[fi, ci]
        seen["reserves above what is outstanding"] += 0 < outstanding[fi, ci] < reserve_units[fi] // BYTE
        reserved[fi, ci] = budgets.share(f, fi, most, reserved[fi, ci], h)
        given = sum(reserved[fi, ci])
        seen["first shares"] += given > 0
        seen["first shares short of what is reserved"] += given < most
        reserve_units[fi] -= given * BYTE
        assert reserve_units[fi] >= 0
    planned = []
    for fi, ci in turns:
        f, firsts = flows[fi], reserved[fi, ci]
        h = 8 if f["headers"] else 0
        for c, first in zip(f["channels"], firsts):
            if first:
                budgets.slots[c] += by_id[c].grant_cost(first + h)[0]
                seen["first shares that keep their short cost alone"] += by_id[c].capacity(budgets.slots[c]) - h < first
        more = budgets.share(f, fi, outstanding[fi, ci] - sum(firsts), firsts, h)
        seen["second shares on first ones"] += any(a and b for a, b in zip(firsts, more))
        planned += [(fi, ci, at, c, a + b) for at, (c, a, b) in enumerate(zip(f["channels"], firsts, more)) if a + b]
    return planned

def requests(table, rows, rounds):
    """What the rows of a trace ask for: bytes by round and turn, a flow's place and a cluster; marks by round and flow,
    which are 1 for silent and 2 for active; and how many rows are unknown, not requestable and late."""
    P, L = table["round_ticks"], table["lead_ticks"]
    flows = table.get("flow", [])
    sids = {}  # a flow and a cluster
    for fi, f in enumerate(flows):
        for ci, cluster in enumerate(f["clusters"]):
            for c, s in zip(f["channels"], cluster, strict=True):
                assert (c, s) not in sids
                sids[c, s] = fi, ci
    cuts = defaultdict(lambda: defaultdict(int))
    marks = defaultdict(lambda: defaultdict(int))
    unknown = not_requestable = late = 0
    for tick, channel, sid, n, kind in rows:
        if (channel, sid) not in sids:
            unknown += 1
            continue
        fi, ci = sids[channel, sid]
        if flows[fi]["type"] == 6 or (kind != 0) != (flows[fi]["type"] == 5):
            not_requestable += 1
            continue
        r = ceil_div(tick + L, P)
        if r >= rounds:
            late += 1
        elif kind:
            marks[r][fi] = max(kind, marks[r][fi])
        else:
            cuts[r][fi, ci] += n * flows[fi]["unit"]
    return cuts, marks, (unknown, not_requestable, late)

def simulate(config_text, trace_text, rounds, seen=None):
    """The maps file, the report and the summary of a run, of texts that have no fault."""
    return schedule(tomllib.loads(config_text), plain_trace.rows_of(trace_text.encode()), rounds, seen)

def schedule(table, rows, rounds, seen=None):
    """The same of the tables of the configuration and the rows of the trace."""
    seen = defaultdict(int) if seen is None else seen
    P, L = table["round_ticks"], table["lead_ticks"]
    channels = [Channel(c, P) for c in table["channel"]]
    by_id = {c.id: c for c in channels}
    flows, stations = table.get("flow", []), table.get("station", [])
    calendars = {c.id: calendar_of(c, flows, stations) for c in channels}
    asks = [f["type"] not in (5, 6) for f in flows]
    turns = [(fi, ci) for fi, f in enumerate(flows) if asks[fi] for ci in range(len(f["clusters"]))]
    outstanding = {t: 0 for t in turns}
    units = [f["burst"] * BYTE if asks[fi] else 0 for fi, f in enumerate(flows)]
    reserve_units = list(units)
    turns.sort(key=lambda t: (-flows[t[0]]["priority"], flows[t[0]]["id"], t[1]))
    cuts, marks, (unknown, not_requestable, late) = requests(table, rows, rounds)
    is_active = [True] * len(flows)
    listeners = {fi: next(e for e in calendars[f["channels"][0]] if (e.word, e.id) == ("ad", f["id"]))
                 for fi, f in enumerate(flows) if f["type"] == 5}
    maps, report, granted, missed = bytearray(), [], 0, 0
    for r in range(rounds):
        for t, n in cuts[r].items() if r in cuts else ():
            outstanding[t] += n
        for fi, kind in marks[r].items() if r in marks else ():
            seen["falls silent"] += is_active[fi] and kind == 1
            seen["speaks again"] += not is_active[fi] and kind == 2
            is_active[fi] = kind == 2
            listeners[fi].is_active = is_active[fi]
        if r > 0:
            for i, f in enumerate(flows):
                if f.get("rate"):
                    units[i] = min(units[i] + P * f["rate"], f["burst"] * BYTE)
                if f.get("min_rate"):
                    reserve_units[i] = min(reserve_units[i] + P * f["min_rate"], f["burst"] * BYTE)
        boards = {}
        grants, misses = defaultdict(list), defaultdict(list)
        for c in channels:
            board = boards[c.id] = Board(c.len)
            if r % c.t["maintenance_every"] == 0 and c.t["maintenance_minislots"]:
                board.put(0, c.t["maintenance_minislots"], 0x3fff, 3)
            if c.t["contention_minislots"]:
                board.put(c.len - c.t["contention_minislots"], c.t["contention_minislots"], 0x3fff, 1)
            for entry in calendars[c.id]:
                settle(entry, r, c, board, grants[c.id], misses[c.id], seen)
        planned = plan(table, r, by_id, boards, turns, outstanding, units, reserve_units, seen)
        # place
        credited = defaultdict(int)
        for fi, ci, at, c, share in planned:
            f, channel, board = flows[fi], by_id[c], boards[c]
            h = 8 if f["headers"] else 0
            if len(board.taken) >= MOST:
                seen["claims at a full board"] += 1
                continue
            n, iuc = channel.grant_cost(share + h)
            start = next((s for s, m in board.runs() if m >= n), None)
            credit = share
            if start is None:
                best = None
                for s, m in board.runs():
                    if best is None or m > best[1]:
                        best = s, m
                if best is None:
                    continue
                credit = channel.capacity(best[1]) - h
                if credit < 1:
                    seen["claims that no run carries"] += 1
                    continue
                seen["claims cut to the longest run"] += 1
                start = best[0]
                n, iuc = channel.grant_cost(credit + h)
            sid = f["clusters"][ci][at]
            board.put(start, n, sid, iuc)
            credited[fi, ci] += credit
            grants[c].append((start, f"G,{r},{c},req,{f['id']},{ci},0,{sid},{iuc},{start},{n},{credit}\n"))
        for t, n in credited.items():
            outstanding[t] -= n
            assert outstanding[t] >= 0
            if flows[t[0]]["rate"]:
                units[t[0]] -= n * BYTE
                assert units[t[0]] >= 0
        pendings = defaultdict(list)
        for fi, ci in turns:
            if outstanding[fi, ci] and not credited.get((fi, ci)):
                pendings[flows[fi]["channels"][0]].append(flows[fi]["clusters"][ci][0])
        for c in channels:
            board = boards[c.id]
            elements = [(s, sid, iuc) for s, _, sid, iuc in board.taken]
            for s, m in board.runs():
                elements.append((s, 0x3fff if m >= c.t["request_minislots"] else 0, 1))
            elements.sort()
            elements.append((c.len, 0, 7))
            elements += [(c.len, sid, 10) for sid in pendings[c.id][:38]]
            assert len(elements) <= 240
            ack = max(r * P - L, 0) // c.ticks
            body = struct.pack(">BBBBII", c.id, c.t["ucd_count"], len(elements), 0, r * c.len, ack)
            body += bytes(c.t["ranging_backoff"] + c.t["data_backoff"])
            for offset, sid, iuc in elements:
                body += struct.pack(">I", sid << 18 | iuc << 14 | offset)
            maps += struct.pack(">IH", r, len(body)) + body
            assert len(board.taken) <= MOST
            seen["full boards"] += len(board.taken) == MOST
            report += [line for _, line in sorted(grants[c.id])] + misses[c.id]
            granted += len(grants[c.id])
            missed += len(misses[c.id])
    for fi, f in enumerate(flows):
        for ci in range(len(f["clusters"]) if asks[fi] else 0):
            report.append(f"F,{f['id']},{ci},{outstanding[fi, ci]},{units[fi] if f['rate'] else '-'}\n")
    report += [f"A,{f['id']},{int(is_active[fi])}\n" for fi, f in enumerate(flows) if f["type"] == 5]
    seen["open at the end"] += sum(len(e.waiting) for entries in calendars.values() for e in entries)
    report.append(f"U,{unknown},{not_requestable},{late}\n")
    said = (f"rounds {rounds} granted {granted} missed {missed} unknown {unknown} "
            f"not_requestable {not_requestable} late {late}\n")
    return bytes(maps), "".join(report).encode(), said
