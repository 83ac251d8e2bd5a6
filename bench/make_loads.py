#!/usr/bin/env python3
"""Loads for benchmarks: a configuration and a trace by name, the same on every machine.

  bench/make_loads.py FOLDER [--part N] [LOAD..]

Writes FOLDER/LOAD.toml and FOLDER/LOAD.csv, and prints a line `LOAD rounds N` for each. A round has 320 ticks, 2 ms.
With --part there are N times fewer rounds and requests, so that instructions can be counted. Where no load is named,
the first six are written.

  voice            16 channels, 1,000 unsolicited flows, 256 stations, no request; 30,000 rounds
  data             16 channels, 1,000 best-effort flows with rates, over 4 to 8 each; 1,000,000 requests, 50,000 rounds
  mixed            16 channels, 1,024 flows of types 2, 3, 4 and 6, 256 stations; 1,000,000 requests, 50,000 rounds
  full             16 channels, some 60 grants each a round: 960 calls, 64 data flows; 200,000 requests, 10,000 rounds
  sparse           4 channels, 16 flows, 16 stations: hardly a round has work; 2,000 requests, 200,000 rounds
  single           1 channel, 1 best-effort flow without a limit; 1,000,000 requests, 200,000 rounds

  one_flow         examples/base.toml, five requests of 160 bytes in each round; 1,000,000 requests, 200,000 rounds
  twelve_flows     examples/bonded.toml, five requests in each round, which ask for some four fifths of what the
                   channels carry; 1,000,000 requests, 200,000 rounds
  ten_calls        1 channel, 10 unsolicited flows: one has a grant in each round, the others start after the end of the
                   run; 3,000 rounds
  thousand_calls   the same with 1,000 unsolicited flows
  reserved         as data, and every other flow has a minimum rate, a quarter of its rate; 1,000,000 requests,
                   50,000 rounds
  talking          16 channels, 1,024 flows with activity detection, which fall silent and speak again; 1,000,000 marks,
                   50,000 rounds
  overloaded       16 channels, 1,000 best-effort flows of two clusters over 8 channels, all with channel 1 first, which
                   ask for some four times what fits; 1,000,000 requests, 8,000 rounds
  far_one          1,024 polls, one in 20 to 100 ms each, on one channel; 3,000 rounds
  far_two          1,024 polls, one in 40 ms each, on two channels; 3,000 rounds
  far_all          1,024 polls, one in 20 to 100 ms each, on 16 channels; 1,500 rounds
  far_long         1,024 polls, one in 200 to 2,000 ms each, on one channel; 3,000 rounds
  far_half         the same of 512 polls
  greatest_tables  16 channels, 1,024 flows of 8 channels and 2 clusters, 256 stations; 0 rounds, so mapsim reads the
                   tables and answers fault RU1
"""
import argparse
import collections.abc
import dataclasses
import pathlib
import random

EXAMPLES = pathlib.Path(__file__).resolve().parent.parent / "examples"
ROUND_TICKS = 320
HEADER = "tick,channel,sid,units\n"
HEADER_WITH_KINDS = "tick,channel,sid,units,kind\n"
TOP = f"round_ticks = {ROUND_TICKS}\nlead_ticks = 160\n"

CHANNEL_OF_LOADS = """[[channel]]
id = {id}
minislot_log2 = 1
rate_log2 = 5
ucd_count = 1
ranging_backoff = [2, 6]
data_backoff = [3, 8]
request_minislots = 2
contention_minislots = 10
maintenance_minislots = 4
maintenance_every = 16
station_minislots = 4
long = {{ bits = 6, preamble = 24, guard = 8, fec_t = 8, fec_k = 200, shortened = true }}
short = {{ bits = 4, preamble = 24, guard = 8, fec_t = 4, fec_k = 78, shortened = true, max_minislots = 10 }}
unsolicited = {{ bits = 4, preamble = 24, guard = 8, fec_t = 4, fec_k = 100, shortened = true }}
"""

PLAIN_CHANNEL = """[[channel]]
id = {id}
minislot_log2 = 1
rate_log2 = 5
ucd_count = 0
ranging_backoff = [2, 6]
data_backoff = [3, 8]
request_minislots = 2
contention_minislots = 10
maintenance_minislots = 0
maintenance_every = 1
station_minislots = 4
long = {{ bits = 4, preamble = 24, guard = 8, fec_t = 0, fec_k = 200, shortened = false }}
short = {{ bits = 4, preamble = 24, guard = 8, fec_t = 0, fec_k = 200, shortened = false, max_minislots = 10 }}
unsolicited = {{ bits = 4, preamble = 24, guard = 8, fec_t = 0, fec_k = 200, shortened = false }}
"""

PLAIN_CALL = """[[flow]]
id = {id}
type = 6
channels = [1]
clusters = [[{id}]]
start_us = {start}
interval_us = 2000
jitter_us = 500
grant_bytes = 214
grants_per_interval = 1
"""

GREATEST_FLOW = """[[flow]]
id = {id}
type = 4
channels = [1, 2, 3, 4, 5, 6, 7, 8]
clusters = {clusters}
priority = {priority}
rate = 0
burst = 3044
unit = 4
headers = true
start_us = 0
interval_us = 20000
jitter_us = 800
"""

GREATEST_STATION = """[[station]]
id = {id}
channel = {channel}
sid = {id}
start_us = 0
interval_us = 1000000
jitter_us = 100000
"""

# Channel, SID and units of the requests of twelve_flows, of each cluster in turn.
REQUESTS_OF_TWELVE = [
    (1, 101, 40), (3, 302, 2000), (2, 203, 200), (1, 104, 300), (3, 354, 300), (2, 205, 5000), (4, 406, 200),
    (1, 156, 200), (3, 307, 25), (2, 208, 60), (3, 309, 250), (4, 410, 300), (3, 311, 100),
]


@dataclasses.dataclass
class Load:
    """A configuration, how many rounds and requests belong to it, and the rows of its trace by these two numbers."""

    config: str
    rounds: int
    requests: int
    rows: collections.abc.Callable
    header: str = HEADER


class RandomPlant:
    """A configuration that grows table by table, and the clusters that ask in its trace. All of it draws from one
    sequence of random numbers, so the order of the calls matters."""

    def __init__(self, channels):
        self.random = random.Random(20261123)
        self.tables = [TOP] + [CHANNEL_OF_LOADS.format(id=id) for id in range(1, channels + 1)]
        self.channels = channels
        self.last_sids = {}
        self.asking = []

    def next_sid(self, channel):
        """A SID that no flow has on this channel."""
        self.last_sids[channel] = self.last_sids.get(channel, 0) + 1
        return self.last_sids[channel]

    def times(self, least, most, jitter):
        """The keys of intervals."""
        interval = self.random.randint(least, most)
        start = self.random.randint(0, interval)
        jitter = self.random.randint(0, min(jitter, interval - 1))
        return f"start_us = {start}\ninterval_us = {interval}\njitter_us = {jitter}\n"

    def add_call(self, id, channel, least=10_000, most=20_000, jitter=800, sizes=(60, 220), type=6):
        """A flow with unsolicited grants; now and then it has two calls."""
        sid = self.next_sid(channel)
        grant_bytes = self.random.randint(*sizes)
        calls = 2 if self.random.randint(0, 15) == 0 else 1
        times = self.times(least, most, jitter)
        self.tables.append(f"[[flow]]\nid = {id}\ntype = {type}\nchannels = [{channel}]\nclusters = [[{sid}]]\n"
                           f"grant_bytes = {grant_bytes}\ngrants_per_interval = {calls}\n{times}")

    def add_data(self, id, type, channels, clusters, rate, burst, min_rate=0):
        """A flow that makes requests, with polls where it isn't of best effort."""
        sids = [[self.next_sid(channel) for channel in channels] for _ in range(clusters)]
        unit = 2 ** self.random.randint(0, 4)
        priority = self.random.randint(0, 7)
        polls = self.times(5_000, 40_000, 2_000) if type != 2 else ""
        minimum = f"min_rate = {min_rate}\n" if min_rate > 0 else ""
        self.tables.append(f"[[flow]]\nid = {id}\ntype = {type}\nchannels = {channels}\nclusters = {sids}\n"
                           f"priority = {priority}\nrate = {rate}\nburst = {burst}\nunit = {unit}\n"
                           f"headers = true\n{minimum}{polls}")
        self.asking += [(channels[0], cluster[0], 3_000 // unit) for cluster in sids]

    def add_poll(self, id, channel, least, most):
        """A flow that is polled on one channel."""
        sid = self.next_sid(channel)
        times = self.times(least, most, 2_000)
        self.tables.append(f"[[flow]]\nid = {id}\ntype = 4\nchannels = [{channel}]\nclusters = [[{sid}]]\npriority = 0\n"
                           f"rate = 0\nburst = 3044\nunit = 1\nheaders = true\n{times}")

    def bonded(self, least, most):
        """Some of the channels."""
        count = self.random.randint(least, most)
        return self.random.sample(range(1, self.channels + 1), count)

    def rate(self):
        return self.random.randint(500_000, 20_000_000)

    def burst(self):
        return self.random.randint(3_044, 100_000)

    def add_stations(self, count):
        """Stations, on each channel in turn."""
        for id in range(1, count + 1):
            self.tables.append(f"[[station]]\nid = {id}\nchannel = {1 + id % self.channels}\nsid = {15_000 + id}\n"
                               + self.times(500_000, 2_000_000, 20_000))

    def rows(self, requests, rounds):
        """Rows of a trace: ticks rise on the whole, and neighbours may change places."""
        last = max(rounds * ROUND_TICKS - 700, 0)
        for number in range(requests):
            channel, sid, most = self.random.choice(self.asking)
            tick = max(number * last // requests - self.random.randint(0, 200), 0)
            yield f"{tick},{channel},{sid},{self.random.randint(1, most)}\n"

    def marks(self, count, rounds):
        """Rows of marks, as many of which say that a flow is silent as that it is active."""
        last = max(rounds * ROUND_TICKS - 700, 0)
        for number in range(count):
            channel = self.random.randint(1, self.channels)
            sid = self.random.randint(1, self.last_sids[channel])
            yield f"{number * last // count},{channel},{sid},0,{self.random.randint(1, 2)}\n"

    def load(self, rounds, requests):
        return Load("\n".join(self.tables), rounds, requests, self.rows)


def voice():
    plant = RandomPlant(16)
    for number in range(1_000):
        plant.add_call(number + 1, 1 + number % 16)
    plant.add_stations(256)
    return plant.load(30_000, 0)


def data():
    plant = RandomPlant(16)
    for number in range(1_000):
        plant.add_data(number + 1, 2, plant.bonded(4, 8), 1, plant.rate(), plant.burst())
    return plant.load(50_000, 1_000_000)


def mixed():
    plant = RandomPlant(16)
    for number in range(1_024):
        if number % 8 < 3:
            plant.add_call(number + 1, 1 + number // 8 % 16)
            continue
        channels, clusters = plant.bonded(1, 8), plant.random.randint(1, 2)
        rate = 0 if plant.random.randint(0, 3) == 0 else plant.rate()
        plant.add_data(number + 1, {3: 4, 4: 3}.get(number % 8, 2), channels, clusters, rate, plant.burst())
    plant.add_stations(256)
    return plant.load(50_000, 1_000_000)


def full():
    plant = RandomPlant(16)
    for number in range(960):
        plant.add_call(number + 1, 1 + number % 16, 1_700, 2_600, 800, (8, 24))
    for number in range(64):
        plant.add_data(2_000 + number, 2, plant.bonded(4, 8), 1, 0, 100_000)
    plant.add_stations(256)
    return plant.load(10_000, 200_000)


def sparse():
    plant = RandomPlant(4)
    for number in range(8):
        plant.add_call(number + 1, 1 + number % 4, 5_000_000, 10_000_000, 2_000)
    for number in range(8):
        plant.add_data(100 + number, 2, [1, 2, 3, 4], 1, 1_000_000, 3_044)
    plant.add_stations(16)
    return plant.load(200_000, 2_000)


def single():
    plant = RandomPlant(1)
    plant.add_data(1, 2, [1], 1, 0, 3_044)
    return plant.load(200_000, 1_000_000)


def five_a_round(asks):
    """Rows of a trace with five requests in each round, the asks in turn."""
    def rows(requests, _rounds):
        for number in range(requests):
            channel, sid, units = asks[number % len(asks)]
            yield f"{number // 5 * ROUND_TICKS + number % 5},{channel},{sid},{units}\n"
    return rows


def one_flow():
    config = (EXAMPLES / "base.toml").read_text(encoding="ascii")
    return Load(config, 200_000, 1_000_000, five_a_round([(1, 291, 40)]))


def twelve_flows():
    config = (EXAMPLES / "bonded.toml").read_text(encoding="ascii")
    return Load(config, 200_000, 1_000_000, five_a_round(REQUESTS_OF_TWELVE))


def no_rows(_requests, _rounds):
    return iter(())


def calls(count):
    """One channel with so many calls, of which the first alone has grants in the run."""
    starts = [100] + [10_000_000] * (count - 1)
    flows = [PLAIN_CALL.format(id=number + 1, start=start) for number, start in enumerate(starts)]
    return Load(TOP + PLAIN_CHANNEL.format(id=1) + "".join(flows), 3_000, 0, no_rows)


def reserved():
    plant = RandomPlant(16)
    for number in range(1_000):
        channels, rate = plant.bonded(4, 8), plant.rate()
        plant.add_data(number + 1, 2, channels, 1, rate, plant.burst(), number % 2 * rate // 4)
    return plant.load(50_000, 1_000_000)


def talking():
    plant = RandomPlant(16)
    for number in range(1_024):
        plant.add_call(number + 1, 1 + number % 16, type=5)
    return Load("\n".join(plant.tables), 50_000, 1_000_000, plant.marks, HEADER_WITH_KINDS)


def overloaded():
    plant = RandomPlant(16)
    for number in range(1_000):
        plant.add_data(number + 1, 2, [1, *plant.random.sample(range(2, 17), 7)], 2, 0, 100_000)
    return plant.load(8_000, 1_000_000)


def far(channels, polls, least, most, rounds):
    """Polls that are due many rounds ahead; their intervals are in microseconds."""
    plant = RandomPlant(channels)
    for number in range(polls):
        plant.add_poll(number + 1, 1 + number % channels, least, most)
    return plant.load(rounds, 0)


def greatest_tables():
    channels = [PLAIN_CHANNEL.format(id=id) for id in range(1, 17)]
    flows = [GREATEST_FLOW.format(id=id, clusters=[[2 * id - 1] * 8, [2 * id] * 8], priority=id % 8)
             for id in range(1, 1_025)]
    stations = [GREATEST_STATION.format(id=id, channel=id % 16 + 1) for id in range(1, 257)]
    return Load("\n".join([TOP, *channels, *flows, *stations]), 0, 0, no_rows)


RANDOM_LOADS = {"voice": voice, "data": data, "mixed": mixed, "full": full, "sparse": sparse, "single": single}
LOADS = {
    **RANDOM_LOADS,
    "one_flow": one_flow,
    "twelve_flows": twelve_flows,
    "ten_calls": lambda: calls(10),
    "thousand_calls": lambda: calls(1_000),
    "reserved": reserved,
    "talking": talking,
    "overloaded": overloaded,
    "far_one": lambda: far(1, 1_024, 20_000, 100_000, 3_000),
    "far_two": lambda: far(2, 1_024, 40_000, 40_000, 3_000),
    "far_all": lambda: far(16, 1_024, 20_000, 100_000, 1_500),
    "far_long": lambda: far(1, 1_024, 200_000, 2_000_000, 3_000),
    "far_half": lambda: far(1, 512, 200_000, 2_000_000, 3_000),
    "greatest_tables": greatest_tables,
}


def make(folder, name, part=1):
    """Writes a load into the folder, and answers its rounds and requests."""
    load = LOADS[name]()
    rounds, requests = load.rounds // part, load.requests // part
    (folder / f"{name}.toml").write_text(load.config, encoding="ascii")
    with open(folder / f"{name}.csv", "w", encoding="ascii") as trace:
        trace.write(load.header)
        trace.writelines(load.rows(requests, rounds))
    return rounds, requests


def add_arguments(words):
    """The words that name loads, here and in measure.py."""
    words.add_argument("--part", type=int, default=1, metavar="N", help="N times fewer rounds and requests")
    words.add_argument("loads", nargs="*", metavar="LOAD", help="by default the first six: " + ", ".join(LOADS))


def chosen(words, given):
    """The names of the loads that the words ask for."""
    unknown = [name for name in given.loads if name not in LOADS]
    if unknown:
        words.error(f"no load: {' '.join(unknown)}")
    if given.part < 1:
        words.error("--part is 1 or more")
    return given.loads or list(RANDOM_LOADS)


def main():
    words = argparse.ArgumentParser(description=__doc__, formatter_class=argparse.RawDescriptionHelpFormatter)
    words.add_argument("folder", type=pathlib.Path, metavar="FOLDER")
    add_arguments(words)
    given = words.parse_intermixed_args()
    names = chosen(words, given)
    given.folder.mkdir(parents=True, exist_ok=True)
    for name in names:
        rounds, _requests = make(given.folder, name, given.part)
        print(name, "rounds", rounds)


if __name__ == "__main__":
    main()
