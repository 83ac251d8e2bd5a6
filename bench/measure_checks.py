#!/usr/bin/env python3
"""Measures `mapsim check`, and prints tables as docs/FIGURES.md has them.

  bench/measure_checks.py loads [LOAD..]     a replay of each load of bench/make_loads.py, by one worker, and a check of
                                             what it wrote
  bench/measure_checks.py hostile [KIND..]   a check of the files of each kind of bench/make_hostile.py, and of the
                                             lawful ones beside them
  bench/measure_checks.py instructions [LOAD..]
                                             instructions of a check of what a replay of each load wrote, by valgrind's
                                             callgrind, and its memory

  --shuffled        of `instructions`: the lines of each report in another order
  --part N          of `loads` and `instructions`: N times fewer rounds and requests (1, and 20 of `instructions`)
  --bytes N         of `hostile`: bytes of each maps file with its report (1,000,000)
  --runs N          runs of each measurement, of which the least and the most time is told (5)
  --program FILE    the program (crates/mapsim/out/mapsim)

Each answer has to be the one that is wanted. Memory is what GNU time says, and `-` where there is no GNU time. These
are benchmarks, and no tests.

Status 0: all ran, and answered as wanted; 2: one didn't, or the words are wrong.
"""
import argparse
import os
import pathlib
import random
import re
import subprocess
import sys
import tempfile
import time

import make_hostile
import make_loads
import measure


def check(before, program, files, rounds, wanted):
    """A check of configuration, trace, maps and report, behind the words `before`. What it told on standard error."""
    options = [word for name, path in zip(("config", "trace", "maps", "report"), files) for word in (f"--{name}", path)]
    done = subprocess.run([*before, program, "check", *options, "--rounds", str(rounds)], stdin=subprocess.DEVNULL,
                          capture_output=True, text=True)
    if wanted not in (done.stdout + done.stderr).splitlines():
        raise measure.Stop(f"{files[0].stem}: wanted {wanted}, found {(done.stdout + done.stderr).strip()[-300:]}")
    return done.stderr


def timed_check(program, files, rounds, wanted):
    """Seconds by the clock, and the most memory in KB, or None, of a check."""
    before = [measure.GNU_TIME, "-q", "-f", "%M KB"] if os.access(measure.GNU_TIME, os.X_OK) else []
    start = time.perf_counter()
    told = check(before, program, files, rounds, wanted)
    seconds = time.perf_counter() - start
    memory = re.search(r"^(\d+) KB$", told, re.MULTILINE)
    return seconds, int(memory[1]) if memory else None


def cells_of(runs):
    """The time and the most memory of some runs."""
    memory = [kilobytes for _seconds, kilobytes in runs if kilobytes is not None]
    seconds = measure.span([seconds for seconds, _kilobytes in runs], measure.show_seconds)
    return seconds, f"{max(memory) / 1_000:.1f}" if memory else "-"


def measure_loads(words, given, folder):
    measure.head("Load", "Rounds", "Bytes of output", "Seconds of the replay", "Its most memory, MB",
                 "Seconds of the check", "Its most memory, MB")
    given.loads = given.names
    for name in make_loads.chosen(words, given):
        replays = measure.Replays(given.program, folder, name, given.part)
        replayed = [replays.timed(1) for _ in range(given.runs)]
        files = [folder / f"{name}.toml", folder / f"{name}.csv", *replays.outputs]
        checked = [timed_check(given.program, files, replays.rounds, "holds") for _ in range(given.runs)]
        measure.row(name, f"{replays.rounds:,}", f"{replays.output_bytes():,}", *cells_of(replayed), *cells_of(checked))


def measure_hostile(words, given, folder):
    measure.head("Kind", "Answer", "Bytes", "Seconds", "Most memory, MB", "Lawful bytes", "Seconds", "Most memory, MB")
    for name, *cases in make_hostile.chosen(words, given.names, given.bytes):
        cells = []
        for case in cases:
            files = make_hostile.write(folder, name, case)
            runs = [timed_check(given.program, files, case.rounds, case.answer) for _ in range(given.runs)]
            cells += [f"{case.size():,}", *cells_of(runs)]
        measure.row(name, cases[0].answer, *cells)


def shuffle(path):
    """Writes a report anew, with its lines in an order that is the same each time."""
    lines = path.read_bytes().splitlines(keepends=True)
    random.Random(1).shuffle(lines)
    path.write_bytes(b"".join(lines))


def measure_instructions(words, given, folder):
    measure.head("Load", "Rounds", "Bytes of output", "Millions of instructions of the check", "Its most memory, MB")
    given.loads = given.names
    for name in make_loads.chosen(words, given):
        replays = measure.Replays(given.program, folder, name, given.part)
        replays.run()
        if given.shuffled:
            shuffle(replays.outputs[1])
        files = [folder / f"{name}.toml", folder / f"{name}.csv", *replays.outputs]
        told = check(measure.CALLGRIND, given.program, files, replays.rounds, "holds")
        _seconds, memory = cells_of([timed_check(given.program, files, replays.rounds, "holds")])
        counted = f"{measure.collected(told) / 1e6:.1f}"
        measure.row(name, f"{replays.rounds:,}", f"{replays.output_bytes():,}", counted, memory)


TABLES = {"loads": measure_loads, "hostile": measure_hostile, "instructions": measure_instructions}


def main():
    words = argparse.ArgumentParser(description=__doc__, formatter_class=argparse.RawDescriptionHelpFormatter)
    words.add_argument("table", choices=TABLES)
    words.add_argument("names", nargs="*", metavar="NAME", help="of loads or kinds; by default six loads, or all kinds")
    words.add_argument("--part", type=int, metavar="N")
    words.add_argument("--shuffled", action="store_true")
    words.add_argument("--bytes", type=int, default=1_000_000, metavar="N")
    words.add_argument("--runs", type=int, default=5, metavar="N")
    words.add_argument("--program", default=measure.TOP / "crates/mapsim/out/mapsim", metavar="FILE")
    given = words.parse_intermixed_args()
    if given.part is None:
        given.part = measure.COUNTED_PART if given.table == "instructions" else 1
    if given.runs < 1:
        words.error("--runs is 1 or more")
    with tempfile.TemporaryDirectory(prefix="measure-") as folder:
        try:
            TABLES[given.table](words, given, pathlib.Path(folder))
        except (measure.Stop, OSError) as why:
            print(f"measure_checks: {why}", file=sys.stderr)
            return 2
    return 0


if __name__ == "__main__":
    sys.exit(main())
