#!/usr/bin/env python3
"""Compares mapsim with bench/plain_scheduler.py on random configurations and traces.

  bench/compare_schedulers.py FIRST LAST [PROGRAM [WORKERS]]

The seeds go from FIRST to below LAST. PROGRAM is crates/mapsim/out/mapsim where none is named; another one, such as
bench/plain/target/release/plain, is compared in its place. WORKERS is how many it has (1). Where the two
differ, the configuration, the trace and the number of rounds are left in a folder `schedulers-SEED` of the system's
folder for temporary files. The last line counts how often each case of a rule came up. Status 2: the words are wrong."""
import collections
import json
import pathlib
import random
import struct
import subprocess
import sys
import tempfile
import tomllib

HERE = pathlib.Path(__file__).resolve().parent
sys.path.insert(0, str(HERE))
import plain_scheduler

# whole, since it is run in other folders
PROGRAM = str(pathlib.Path(sys.argv[3] if len(sys.argv) > 3 else HERE.parent / "crates/mapsim/out/mapsim").resolve())
WORKERS = sys.argv[4] if len(sys.argv) > 4 else "1"
HEADER = "tick,channel,sid,units"
SILENT, ACTIVE = 1, 2
MAX_TICK = 4_294_967_295
MAX_SID = 15_871
MAX_RUN_TICKS = 67_108_864
# In a run, about.
MOST_OCCURRENCES = 60_000
PLAIN_PROFILE = "{ bits = 4, preamble = 24, guard = 8, fec_t = 0, fec_k = 200, shortened = false }"


def profile(chance, is_short=False):
    fec_t = chance.choice([0, 0, 0, 1, 2, 4, 8, 16, chance.randint(0, 16)])
    fec_k = chance.choice([16, 17, 200, 220, 253, chance.randint(16, 253)])
    fec_k = min(fec_k, 255 - 2 * fec_t)
    bits = chance.randint(2, 6)
    preamble = chance.choice([0, 0, 1, 16, 24, 24, 56, 104, chance.randint(0, 128),
                              1024 if chance.random() < .1 else 32])
    guard = chance.choice([0, 0, 8, 8, 22, chance.randint(0, 255)])
    shortened = chance.choice(["true", "false"])
    keys = f"bits = {bits}, preamble = {preamble}, guard = {guard}, fec_t = {fec_t}, fec_k = {fec_k}, " \
           f"shortened = {shortened}"
    if is_short:
        keys += f", max_minislots = {chance.choice([1, 2, 5, 10, 30, 255, chance.randint(1, 255)])}"
    return "{ " + keys + " }"


def ticks_of_a_round(chance, longest):
    """Ticks of a round, a multiple of the longest minislot."""
    way = chance.random()
    if way < .1:
        return longest
    if way < .2:
        return 4096
    if way < .7:
        return longest * chance.randint(1, max(1, 640 // longest))
    return longest * chance.randint(1, 4096 // longest)


def reserves(chance, length, reserved):
    """Minislots of contention and of maintenance in a MAP of this length."""
    way = chance.random() if reserved is None else (0 if reserved else 1)
    if way < .06:
        contention = chance.randint(0, length)
        maintenance = length - contention
    elif way < .5:
        contention = chance.randint(0, length // 10)
        maintenance = chance.randint(0, length // 10)
    elif way < .7:
        contention, maintenance = min(10, length), 0
    elif way < .8:
        contention = chance.randint(0, length)
        maintenance = chance.randint(0, length - contention)
    else:
        contention = maintenance = 0
    return min(contention, 4096), min(maintenance, 4096)


def channel_table(chance, id, log, length, reserved):
    contention, maintenance = reserves(chance, length, reserved)
    long = profile(chance)
    short = profile(chance, True)
    if chance.random() < .4:  # ties and near ones
        short = long[:-2] + f", max_minislots = {chance.choice([1, 3, 10, 40, 255])} }}"
    if chance.random() < .2:
        long = PLAIN_PROFILE
    return f"""
[[channel]]
id = {id}
minislot_log2 = {log}
rate_log2 = {chance.choice([0, 1, 2, 3, 4, 5, 5, 5])}
ucd_count = {chance.randint(0, 255)}
ranging_backoff = [{chance.randint(0, 15)}, {chance.randint(0, 15)}]
data_backoff = [{chance.randint(0, 15)}, {chance.randint(0, 15)}]
request_minislots = {chance.choice([1, 2, 2, 3, 8, 64, chance.randint(1, 64)])}
contention_minislots = {contention}
maintenance_minislots = {maintenance}
maintenance_every = {chance.choice([1, 1, 2, 3, 5, 7, 65536])}
station_minislots = {chance.randint(1, 64)}
long = {long}
short = {short}
unsolicited = {profile(chance)}
"""


def free_sid(chance, channel, used):
    """A SID that no cluster has on this channel."""
    while True:
        if chance.random() < .2:
            sid = chance.choice([chance.randint(1, 200), chance.randint(1, MAX_SID), MAX_SID, 1])
        else:
            sid = chance.randint(1, MAX_SID)
        if (channel, sid) not in used:
            return sid


def clusters_on(chance, channels, used):
    """One or two SID clusters on these channels."""
    clusters = []
    for _ in range(chance.choice([1, 1, 2])):
        cluster = []
        for channel in channels:
            sid = free_sid(chance, channel, used)
            used.add((channel, sid))
            cluster.append(sid)
        clusters.append(cluster)
    return clusters


def min_rate(chance, rate):
    """The line of a minimum rate, which is at most `rate` where that is a limit; or none."""
    most = rate or 10**9
    found = chance.choice([None, None, 0, 1, most, min(most, 1280000), chance.randint(0, min(most, 10**6)),
                           chance.randint(0, min(most, 10**8)), chance.randint(0, most)])
    return "" if found is None else f"min_rate = {found}\n"


def flow_table(chance, id, channels, clusters, levels):
    rate = chance.choice([0, 0, chance.randint(1, 2000), chance.randint(10**5, 10**7), 1280000,
                          chance.randint(10**6, 10**9), 10**9, 1])
    burst = chance.choice([1, 10, 1522, 3044, chance.randint(1, 20000), chance.randint(1, 16777216), 16777216])
    unit = chance.choice([1, 2, 4, 8, 16])
    headers = "true" if len(channels) > 1 or chance.random() < .6 else "false"
    return f"""
[[flow]]
id = {id}
type = 2
channels = {channels}
clusters = {clusters}
priority = {chance.choice(levels)}
rate = {rate}
burst = {burst}
unit = {unit}
headers = {headers}
{min_rate(chance, rate)}"""


def config(chance, channels=None, flows=None, logs=None, round_ticks=None, reserved=None):
    """A configuration of best-effort flows: the text, ticks of a round and of the lead, what may be asked for by
    channel and SID, and the ids of channels."""
    count = len(logs) if logs is not None else channels or chance.randint(1, 6)
    if logs is None:
        logs = [chance.choice([0, 1, 1, 2, 3, 4, 5, 6, 7]) for _ in range(count)]
    if round_ticks is None:
        round_ticks = ticks_of_a_round(chance, 1 << max(logs))
    lead = chance.choice([1, round_ticks // 2 or 1, round_ticks, round_ticks + 1, 2 * round_ticks,
                          chance.randint(1, 3 * round_ticks), 160])
    lead = min(lead, 65536)
    text = f"round_ticks = {round_ticks}\nlead_ticks = {lead}\n"
    ids = chance.sample(range(1, 256), count)
    if chance.random() < .5:
        ids = sorted(ids)
    for id, log in zip(ids, logs):
        text += channel_table(chance, id, log, round_ticks >> log, reserved)
    flows = chance.randint(1, chance.choice([1, 3, 8, 30])) if flows is None else flows
    flow_ids = chance.sample(range(1, chance.choice([max(flows, 40) + 1, 65536])), flows)
    if chance.random() < .4:
        flow_ids = sorted(flow_ids)
    used, asks = set(), []
    levels = chance.choice([[0], [0, 7], list(range(8))])
    for flow_id in flow_ids:
        channels_of_flow = chance.sample(ids, min(count, 8, chance.choice([1, 1, 2, 3, 4, 8])))
        if chance.random() < .5:
            channels_of_flow.sort(key=ids.index)
        clusters = clusters_on(chance, channels_of_flow, used)
        text += flow_table(chance, flow_id, channels_of_flow, clusters, levels)
        for cluster in clusters:
            asks += zip(channels_of_flow, cluster)
    return text, round_ticks, lead, asks, ids


def times(chance, round_ticks, minislot):
    """Start, interval and jitter in microseconds; a round has so many ticks of 6.25."""
    a_round = round_ticks * 25 // 4
    interval = chance.choice([100, 100, chance.randint(100, 400), chance.randint(100, 4000), a_round, a_round // 2,
                              2 * a_round, 3 * a_round + 1, 10000, chance.randint(100, 40000), 10_000_000])
    interval = min(max(interval, 100), 10_000_000)
    jitter = chance.choice([0, 0, 1, chance.randint(0, 60), minislot * 25 // 4, interval // 2, interval - 1,
                            interval - 1, chance.randint(0, interval - 1), a_round - 1, a_round, 500])
    jitter = min(jitter, interval - 1)
    # also such that a window ends exactly where a round does, or just before or after
    start = chance.choice([0, 0, chance.randint(0, 100), chance.randint(0, a_round), a_round - jitter,
                           2 * a_round - jitter, a_round - jitter - 1, a_round - jitter + 1, a_round,
                           chance.randint(0, 20 * a_round), interval])
    if chance.random() < .03:
        start = chance.choice([10_000_000, 5_000_000, 1_000_000])
    start = min(max(start, 0), 10_000_000)
    return f"start_us = {start}\ninterval_us = {interval}\njitter_us = {jitter}\n", interval


class Calendars:
    """A configuration that gets polled flows, unsolicited grants and stations."""

    def __init__(self, chance, text, round_ticks, asks, ids):
        self.chance, self.round_ticks, self.ids = chance, round_ticks, ids
        tables = tomllib.loads(text)
        self.channels = {table["id"]: plain_scheduler.Channel(table, round_ticks) for table in tables["channel"]}
        self.flows = tables.get("flow", [])
        # what may be asked for with SIDs of calls, and the channels and SIDs of those that fall silent
        self.text, self.asks, self.more, self.silent = text, asks, [], []
        self.used, self.flow_ids = set(asks), {flow["id"] for flow in self.flows}
        # occurrences of a round at most
        self.pace = 0.

    def times(self, channel):
        """The keys of intervals, and how many of these a round has."""
        keys, interval = times(self.chance, self.round_ticks, channel.ticks)
        return keys, self.round_ticks * 6.25 / interval

    def poll(self):
        """Makes some flows polled ones."""
        head, *rest = self.text.split("\n[[flow]]\n")
        done = [head]
        polled = self.chance.choice([0, .3, .7, 1])
        for part, flow in zip(rest, self.flows, strict=True):
            channel = self.channels[flow["channels"][0]]
            if self.chance.random() < polled and channel.t["request_minislots"] <= channel.len:
                keys, pace = self.times(channel)
                part = part.replace("type = 2\n", f"type = {self.chance.choice([3, 4])}\n") + keys
                self.pace += pace
            done.append(part)
        self.text = "\n[[flow]]\n".join(done)

    def add_call(self, crowded, kinds=(5, 5, 5, 6)):
        """Adds a flow of unsolicited grants, with activity detection or without, if it fits."""
        chance = self.chance
        kind = chance.choice(kinds)
        id = chance.choice(self.ids)
        channel = self.channels[id]
        if crowded:
            size = chance.choice([1, 16])
        else:
            size = chance.choice([1, 16, 66, 200, chance.randint(1, 3000), chance.randint(1, 65535)])
        if channel.cost(channel.unsolicited, size) > channel.len:
            return
        if kind == 5 and channel.t["request_minislots"] > channel.len:
            return
        sid = next(sid for sid in iter(lambda: chance.randint(1, MAX_SID), 0) if (id, sid) not in self.used)
        ids = iter(lambda: chance.randint(1, chance.choice([2 * len(self.flow_ids) + 4, 65535])), 0)
        flow_id = next(flow_id for flow_id in ids if flow_id not in self.flow_ids)
        self.used.add((id, sid))
        self.flow_ids.add(flow_id)
        keys, pace = self.times(channel)
        grants = chance.choice([1, 1, 1, 2, 3, 8, 127, chance.randint(1, 127)])
        self.pace += pace * grants
        if chance.random() < .3:
            self.more.append((id, sid))
        if kind == 5:
            self.silent.append((id, sid))
        self.text += f"""
[[flow]]
id = {flow_id}
type = {kind}
channels = [{id}]
clusters = [[{sid}]]
{keys}grant_bytes = {size}
grants_per_interval = {grants}
"""

    def add_station(self, number):
        """Adds a station, if it fits."""
        id = self.chance.choice(self.ids)
        channel = self.channels[id]
        if channel.t["station_minislots"] > channel.len:
            return
        keys, pace = self.times(channel)
        self.pace += pace
        shared = (sid for channel_id, sid in self.used if channel_id == id)
        self.text += f"""
[[station]]
id = {number}
channel = {id}
sid = {self.chance.choice([self.chance.randint(1, MAX_SID), *shared])}
{keys}"""


def with_calendar(chance, text, round_ticks, asks, ids, crowded):
    """Makes some flows polled ones, and adds flows of unsolicited grants and stations: the text, what may be asked for
    with SIDs of these, what may be marked, and the occurrences of a round at most."""
    made = Calendars(chance, text, round_ticks, asks, ids)
    made.poll()
    for _ in range(chance.choice([0, 1, 2, 2, 6, 20] if not crowded else [20, 60, 110])):
        made.add_call(crowded)
    # most have a flow that falls silent; where grants and polls are longer than a MAP, none fits
    tries = 5 if chance.random() < .95 else 0
    while not made.silent and tries > 0:
        made.add_call(crowded, kinds=(5,))
        tries -= 1
    numbers = list(range(1, 256))
    chance.shuffle(numbers)
    for number in numbers[:chance.choice([0, 0, 1, 3, 10] if not crowded else [0, 30, 120])]:
        made.add_station(number)
    return made.text, asks + made.more, made.silent, made.pace


def units(chance, size):
    size = size if size != "mix" else chance.choice(["small", "mid", "huge"])
    by_size = {"small": chance.randint(0, 5), "mid": chance.randint(0, 600), "huge": chance.randint(0, 65535)}
    return by_size[size]


def tick(chance, round_ticks, lead, rounds):
    span = round_ticks * rounds + lead
    found = chance.choice([chance.randint(0, span), chance.randint(0, span), round_ticks * chance.randint(0, rounds),
                           round_ticks * chance.randint(0, rounds) + 1])
    if chance.random() < .02:
        found = chance.choice([MAX_TICK, span + chance.randint(0, 100), 2**31, 2**32 - lead])
    return min(found, MAX_TICK)


def marked(chance, rows, silent, round_ticks, lead, rounds):
    """Rows of version 2: requests, and marks of flows that fall silent and speak again. Some of both are of flows of
    another type."""
    rows = [row + (0,) if chance.random() < .97 else row[:3] + (0, chance.choice([SILENT, ACTIVE])) for row in rows]
    hot = chance.sample(silent, min(len(silent), chance.choice([1, 3, 100])))
    for _ in range(chance.choice([1, 3, 20, 100, 300]) if hot else 0):
        channel, sid = chance.choice(hot)
        kind = chance.choice([SILENT, SILENT, ACTIVE]) if chance.random() < .97 else 0
        row = (tick(chance, round_ticks, lead, rounds), channel, sid, 0 if kind else chance.randint(0, 9), kind)
        rows.insert(chance.randint(0, len(rows)), row)
    return rows


def trace(chance, round_ticks, lead, asks, silent, ids, rounds, count=None):
    """Rows of requests, some of them for SIDs that nobody has. Most traces have marks, where a flow falls silent."""
    rows = []
    count = chance.choice([0, 3, 20, 100, 300, 1500]) if count is None else count
    hot = chance.sample(asks, min(len(asks), chance.choice([1, 3, 100]))) if asks else []
    size = chance.choice(["small", "mid", "huge", "mix"])
    while len(rows) < count:
        at = tick(chance, round_ticks, lead, rounds)
        for _ in range(chance.choice([1, 1, 1, 5, 40])):
            if chance.random() < .04 or not hot:
                channel = chance.choice(ids + [chance.randint(0, 255)])
                sid = chance.choice([0, 16383, 15872, chance.randint(0, 16383)])
                rows.append((at, channel, sid, chance.randint(0, 65535)))
            else:
                channel, sid = chance.choice(hot)
                rows.append((at, channel, sid, units(chance, size)))
    rows = rows[:count]
    has_marks = chance.random() < (.85 if silent else .25)
    if has_marks:
        rows = marked(chance, rows, silent, round_ticks, lead, rounds)
    if chance.random() < .5:
        rows.sort()
    header = HEADER + (",kind\n" if has_marks else "\n")
    return header + "".join(",".join(map(str, row)) + "\n" for row in rows)


def run(text, requests, rounds):
    """What the program answers: its status, what it printed, and its files."""
    with tempfile.TemporaryDirectory() as folder:
        folder = pathlib.Path(folder)
        (folder / "config").write_text(text)
        (folder / "trace").write_text(requests)
        words = [PROGRAM, "replay", "--config", "config", "--trace", "trace", "--rounds", str(rounds), "--maps", "maps",
                 "--report", "report", "--workers", WORKERS]
        done = subprocess.run(words, cwd=folder, capture_output=True, timeout=600)
        files = [(folder / name).read_bytes() if (folder / name).exists() else None for name in ("maps", "report")]
        return done.returncode, done.stdout, done.stderr, *files


def count_maps(maps, counts):
    """Counts what the MAPs of a maps file have."""
    has_pending, at = False, 0
    while at < len(maps):
        _round, length = struct.unpack_from(">IH", maps, at)
        body = maps[at + 6:at + 6 + length]
        at += 6 + length
        elements = [int.from_bytes(body[16 + 4 * number:20 + 4 * number], "big") for number in range(body[2])]
        null = next(number for number, element in enumerate(elements) if element >> 14 & 15 == 7)
        pendings = len(elements) - null - 1
        counts["max pendings"] = max(counts["max pendings"], pendings)
        counts["max elements"] = max(counts["max elements"], len(elements))
        counts["max len"] = max(counts["max len"], elements[null] & 0x3fff)
        has_pending = has_pending or pendings > 0
    counts["with pending"] += has_pending


def compare(text, requests, rounds, name, counts):
    """Whether both schedulers do the same."""
    maps, report, said = plain_scheduler.simulate(text, requests, rounds, seen=counts)
    found = run(text, requests, rounds)
    is_same = found == (0, said.encode(), b"", maps, report)
    counts["runs"] += 1
    counts["runs with activity detection"] += "type = 5" in text
    counts["traces with marks"] += requests.startswith(HEADER + ",kind")
    counts["both"] += "type = 5" in text and requests.startswith(HEADER + ",kind")
    counts["rounds"] += rounds
    counts["grants"] += report.count(b"G,")
    counts["same" if is_same else "DIFFER"] += 1
    counts["map bytes"] += len(maps)
    codes = {line.split(b",")[8] for line in report.split(b"\n") if line[:1] == b"G"}
    counts["with short"] += b"9" in codes
    counts["with long"] += b"10" in codes
    count_maps(maps, counts)
    if not is_same:
        folder = pathlib.Path(tempfile.gettempdir()) / f"schedulers-{name}"
        folder.mkdir(parents=True, exist_ok=True)
        (folder / "config").write_text(text)
        (folder / "trace").write_text(requests)
        (folder / "rounds").write_text(str(rounds))
        status, printed, errors, its_maps, its_report = found
        print("DIFFER", name, status, printed, errors, its_maps == maps, its_report == report, flush=True)
    return is_same


def shape(chance, kind):
    """How the configuration of a kind of seed differs from a usual one."""
    if kind == 15:
        return {"channels": 16, "flows": chance.randint(1, 60)}
    if kind == 16:
        return {"reserved": True}
    if kind == 17:
        return {"flows": chance.randint(39, 120), "channels": chance.randint(1, 3)}
    if kind == 18:
        return {"channels": chance.randint(2, 8), "flows": chance.randint(1, 3)}
    if kind == 19:
        return {"round_ticks": 4096, "logs": [0] * chance.randint(1, 3), "flows": chance.randint(60, 150)}
    return {}


def inputs(seed, most_rounds=MAX_RUN_TICKS):
    """Configuration, trace and rounds of a seed."""
    chance = random.Random(seed)
    kind = seed % 20
    text, round_ticks, lead, asks, ids = config(chance, **shape(chance, kind))
    silent, pace = [], 0
    # four of five seeds have a calendar, and some of these are crowded
    if seed % 5:
        text, asks, silent, pace = with_calendar(chance, text, round_ticks, asks, ids, chance.random() < .15)
    rounds = chance.choice([1, 2, 3, 8, 20, 60, 200, 1500 if kind < 12 else 30])
    rounds = min(rounds, int(MOST_OCCURRENCES / max(pace, 1)) + 1)
    rounds = min(rounds, MAX_RUN_TICKS // round_ticks, most_rounds)
    if kind == 19:
        rounds = min(rounds, 30)
    requests = trace(chance, round_ticks, lead, asks, silent, ids, rounds, count=1500 if kind in (17, 19) else None)
    return text, requests, rounds


def main():
    if len(sys.argv) not in (3, 4, 5) or not (sys.argv[1] + sys.argv[2]).isdigit():
        print(__doc__, file=sys.stderr)
        sys.exit(2)
    first, last = int(sys.argv[1]), int(sys.argv[2])
    counts = collections.Counter()
    for seed in range(first, last):
        text, requests, rounds = inputs(seed)
        try:
            compare(text, requests, rounds, f"s{seed}", counts)
        except Exception as fault:
            print("ERROR", seed, repr(fault), flush=True)
            counts["error"] += 1
    print(json.dumps(counts))


if __name__ == "__main__":
    main()
