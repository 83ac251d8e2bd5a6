#!/usr/bin/env python3
"""Measures `mapsim lint`, and prints tables as docs/FIGURES.md has them.

  bench/measure_lint.py greatest [KIND..]  lint of the greatest inputs, beside a replay of one round, which reads them:
                                           KINDS
  bench/measure_lint.py loads [LOAD..]     lint of each load of bench/make_loads.py, for its rounds, and what it finds

  --runs N          runs of each measurement, of which the least and the most time is told (5)
  --program FILE    the program (crates/mapsim/out/mapsim)

The greatest trace has 1,000,000 rows of 33 bytes. What lint finds is counted by the kind of the finding, the numbers in
it left out. Memory is what GNU time says, and `-` where there is no GNU time. These are benchmarks, and no tests.

Status 0: all ran; 2: one didn't, or the words are wrong.
"""
import argparse
import collections
import os
import pathlib
import re
import subprocess
import sys
import tempfile
import time

import make_loads
import measure
import plain_reader
from measure_checks import cells_of

ROWS = 1_000_000
LEAST_INTERVAL = make_loads.PLAIN_CALL.replace("interval_us = 2000", "interval_us = 100").replace("jitter_us = 500",
                                                                                                  "jitter_us = 99")
# statuses of lint, of a replay, and of one that refuses what it reads
LINTED, REPLAYED, REFUSED = (0, 1, 3), (0,), (3,)


def tables():
    """The greatest tables."""
    return make_loads.greatest_tables().config


def rows(row):
    """A trace of so many rows, each of 33 bytes: the numbers of a row by its own."""
    lines = (b"%010d,%04d,%06d,%06d,%02d\n" % row(number) for number in range(ROWS))
    return b"tick,channel,sid,units,kind\n" + b"".join(lines)


def known(number):
    return number // 2, number % 8 + 1, number % 2_048 + 1, number % 1_000, 0


def unknown(number):
    return number // 2, number % 247 + 9, number % 16_384, number % 1_000, 0


def wrong(number):
    return number // 2, 1, 1, 1, 3


def wrong_tables():
    """Tables of which each key of a flow is wrong."""
    return re.sub(r"(?m)^(priority|rate|burst|unit|start_us) = \d+$", r"\1 = 'none'", tables())


def long_tables():
    """The greatest tables with keys that are none, up to the last byte of a configuration."""
    config = make_loads.greatest_tables().config
    lines = [f"k{number} = 0\n" for number in range(400_000)]
    room = plain_reader.MOST_BYTES - len(config)
    return "".join(lines)[:room].rsplit("\n", 1)[0] + "\n" + config


def calls():
    """A channel with as many calls as there are flows, each due in each 100 us."""
    flows = [LEAST_INTERVAL.format(id=id, start=id % 100) for id in range(1, 1_025)]
    return make_loads.TOP + make_loads.PLAIN_CHANNEL.format(id=1) + "".join(flows)


def full_maps():
    """The same where the reserves fill each MAP, so that no occurrence has room."""
    return calls().replace("contention_minislots = 10", "contention_minislots = 160")


NO_ROWS = make_loads.HEADER.encode()
# the configuration, the trace, the rounds and the status of a replay of one round
KINDS = {
    "tables": (tables, lambda: NO_ROWS, 200_000, REPLAYED),
    "rows": (tables, lambda: rows(known), 2_000, REPLAYED),
    "late_rows": (tables, lambda: rows(known), 1, REPLAYED),
    "unknown_rows": (tables, lambda: rows(unknown), 2_000, REPLAYED),
    "wrong_rows": (tables, lambda: rows(wrong), 2_000, REFUSED),
    "wrong_tables": (wrong_tables, lambda: NO_ROWS, 1, REFUSED),
    "long_tables": (long_tables, lambda: NO_ROWS, 1, REFUSED),
    "calls": (calls, lambda: NO_ROWS, 200_000, REPLAYED),
    "full_maps": (full_maps, lambda: NO_ROWS, 200_000, REPLAYED),
}


def timed(program, words, statuses):
    """Seconds by the clock, and the most memory in KB, or None, of a run with these words; and what it printed."""
    before = [measure.GNU_TIME, "-q", "-f", "%M KB"] if os.access(measure.GNU_TIME, os.X_OK) else []
    start = time.perf_counter()
    done = subprocess.run([*before, program, *words], stdin=subprocess.DEVNULL, capture_output=True, text=True)
    seconds = time.perf_counter() - start
    if done.returncode not in statuses:
        raise measure.Stop(f"{words}: status {done.returncode}, {done.stderr.strip()[-300:]}")
    memory = re.search(r"^(\d+) KB$", done.stderr, re.MULTILINE)
    return (seconds, int(memory[1]) if memory else None), done.stdout


def lint_words(config, trace, rounds):
    return ["lint", "--config", config, "--trace", trace, "--rounds", str(rounds)]


def measure_greatest(_words, given, folder):
    measure.head("Kind", "Bytes", "Rounds", "Seconds of a replay of a round", "Its most memory, MB", "Seconds of lint",
                 "Its most memory, MB", "Lines")
    config, trace = folder / "config", folder / "trace"
    for name in given.names or KINDS:
        make_config, make_trace, rounds, status = KINDS[name]
        config.write_text(make_config(), encoding="ascii")
        trace.write_bytes(make_trace())
        outputs = ["--maps", folder / "maps", "--report", folder / "report"]
        replay = ["replay", "--config", config, "--trace", trace, "--rounds", "1", *outputs]
        replayed = [timed(given.program, replay, status)[0] for _ in range(given.runs)]
        linted = [timed(given.program, lint_words(config, trace, rounds), LINTED) for _ in range(given.runs)]
        size = config.stat().st_size + trace.stat().st_size
        measure.row(name, f"{size:,}", f"{rounds:,}", *cells_of(replayed), *cells_of([run for run, _out in linted]),
                    linted[0][1].count("\n"))


def kinds_of(output):
    """How many findings there are of each kind."""
    texts = (line.split(": ", 2)[-1] for line in output.splitlines())
    return collections.Counter(re.sub(r"\d+", "N", text) for text in texts)


def measure_loads(words, given, folder):
    measure.head("Load", "Seconds of lint", "Its most memory, MB", "Findings")
    found = {}
    given.loads, given.part = given.names, 1
    for name in make_loads.chosen(words, given):
        rounds, _requests = make_loads.make(folder, name)
        files = lint_words(folder / f"{name}.toml", folder / f"{name}.csv", max(rounds, 1))
        linted = [timed(given.program, files, LINTED) for _ in range(given.runs)]
        found[name] = kinds_of(linted[0][1])
        measure.row(name, *cells_of([run for run, _output in linted]), found[name].total())
    for name, counts in found.items():
        for text, count in counts.most_common(12):
            print(f"{name}: {count} {text}")


TABLES = {"greatest": measure_greatest, "loads": measure_loads}


def main():
    words = argparse.ArgumentParser(description=__doc__.replace("KINDS", ", ".join(KINDS)),
                                    formatter_class=argparse.RawDescriptionHelpFormatter)
    words.add_argument("table", choices=TABLES)
    words.add_argument("names", nargs="*", metavar="NAME", help="of kinds or loads; by default all kinds, or six loads")
    words.add_argument("--runs", type=int, default=5, metavar="N")
    words.add_argument("--program", default=measure.TOP / "crates/mapsim/out/mapsim", metavar="FILE")
    given = words.parse_intermixed_args()
    if given.runs < 1 or given.table == "greatest" and not set(given.names) <= set(KINDS):
        words.error("no such kind, or no runs")
    with tempfile.TemporaryDirectory(prefix="measure-") as folder:
        try:
            TABLES[given.table](words, given, pathlib.Path(folder))
        except (measure.Stop, OSError) as why:
            print(f"measure_lint: {why}", file=sys.stderr)
            return 2
    return 0


if __name__ == "__main__":
    sys.exit(main())
