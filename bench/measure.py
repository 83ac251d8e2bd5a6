#!/usr/bin/env python3
"""Measures mapsim on the loads of bench/make_loads.py, and prints tables as docs/FIGURES.md has them.

  bench/measure.py times [LOAD..]          the least and the most time of some runs, and the most memory
  bench/measure.py workers [LOAD..]        microseconds a round by numbers of workers, median and least, and as parts of
                                           those of the first number
  bench/measure.py instructions [LOAD..]   instructions by valgrind's callgrind: a whole replay, a round, a request read
  bench/measure.py bytes [LOAD..]          compares what some numbers of workers print and write
  bench/measure.py plain [LOAD..]          builds the plain program of bench/plain, and measures it beside mapsim on all
                                           loads, where none is named: instructions, seconds by numbers of workers, the
                                           ratios of both, and whether it prints and writes the same bytes

  --part N          N times fewer rounds and requests
  --runs N          runs of each measurement of `times` and `plain` (5), and of `workers` (9, and a figure takes no
                    fewer)
  --workers N,..    numbers of workers: `times` and `plain` take each (1; 1,2,4), `workers` and `bytes` compare the first
                    with the others (1,2,4 and 1,2,4,16)
  --beside N        so many processes spin, each on a processor if it gets one, while `workers` measures (0)
  --against FILE    a second program, which `workers` measures too
  --folder FOLDER   where the files of a measurement lie for its time (where temporary files do). A disk that still writes
                    what the run before wrote holds up the next one; a folder in memory, as /dev/shm, doesn't
  --program FILE    the program (crates/mapsim/out/mapsim)

`workers` is one series over all loads: in each of its rounds each program replays each load once by each number of
workers, in an order by chance. So what else the machine does meets all alike. All of them write the same files in turn.
So does `plain`. It counts instructions, with one worker, of a twentieth of what it times. A ratio is mapsim's figure
divided by that of the plain program. Where there is no cargo it says so, and measures mapsim alone.

`instructions` counts with one worker. A round is the difference of a replay and of one of half its rounds, over the
same trace, and a round without requests the same over a trace with no row. A request read is the difference of these
two traces in one round, in which nearly all requests come late. Memory is what GNU time says, and `-` where there is no
GNU time. These are benchmarks, and no tests.

Status 0: all ran; 1: bytes differ; 2: a run failed, or the words are wrong.
"""
import argparse
import contextlib
import copy
import hashlib
import os
import pathlib
import random
import re
import shutil
import statistics
import subprocess
import sys
import tempfile
import time

import make_loads

TOP = pathlib.Path(__file__).resolve().parent.parent
GNU_TIME = "/usr/bin/time"
CALLGRIND = ["valgrind", "--tool=callgrind", "--callgrind-out-file=/dev/null"]
PLAIN = TOP / "bench/plain"
# Instructions are counted of so many times fewer rounds and requests.
COUNTED_PART = 20
# What spins until the process that started it is gone.
BUSY = "import os\nstarter = os.getppid()\nwhile os.getppid() == starter:\n    for _ in range(1_000_000): pass"


class Stop(Exception):
    """What ends the program with status 2."""


class Replays:
    """Replays of one load: its files in a folder, and its numbers."""

    def __init__(self, program, folder, name, part):
        self.program, self.folder, self.name, self.part = program, folder, name, part
        self.rounds, self.requests = make_loads.make(folder, name, part)
        (folder / "empty.csv").write_text(make_loads.HEADER, encoding="ascii")
        self.outputs = [folder / "maps", folder / "report"]

    def run(self, rounds=None, workers=1, trace=None, before=()):
        """One replay, behind the words `before`. What it printed, and what it told on standard error."""
        rounds = self.rounds if rounds is None else rounds
        maps, report = self.outputs
        words = [*before, self.program, "replay", "--config", self.folder / f"{self.name}.toml",
                 "--trace", self.folder / f"{trace or self.name}.csv", "--rounds", str(rounds),
                 "--workers", str(workers), "--maps", maps, "--report", report]
        done = subprocess.run(words, stdin=subprocess.DEVNULL, capture_output=True, text=True)
        # of no rounds the tables alone are read
        wanted, refusal = (3, "fault RU1") if rounds == 0 else (0, "")
        if done.returncode != wanted or refusal not in done.stderr:
            raise Stop(f"{self.name}: status {done.returncode}: {done.stderr.strip()[-300:]}")
        return done.stdout, done.stderr

    def timed(self, workers):
        """Seconds by the clock, and the most memory in KB, or None."""
        before = [GNU_TIME, "-q", "-f", "%M KB"] if os.access(GNU_TIME, os.X_OK) else []
        # else the program would cut off what the run before wrote, and wait for the disk to be done with it
        self.remove_outputs()
        start = time.perf_counter()
        _printed, told = self.run(workers=workers, before=before)
        seconds = time.perf_counter() - start
        memory = re.search(r"^(\d+) KB$", told, re.MULTILINE)
        return seconds, int(memory[1]) if memory else None

    def instructions(self, rounds=None, trace=None):
        """Instructions of one replay with one worker."""
        _printed, told = self.run(rounds, trace=trace, before=CALLGRIND)
        return collected(told)

    def sums(self, workers):
        """Sums of what is printed and written by so many workers. A run of no rounds makes no file."""
        self.remove_outputs()
        printed, _told = self.run(workers=workers)
        written = [path.read_bytes() for path in self.outputs if path.exists()]
        return [hashlib.sha256(part).hexdigest() for part in (printed.encode(), *written)]

    def remove_outputs(self):
        for path in self.outputs:
            path.unlink(missing_ok=True)

    def by(self, program):
        """The same replays by another program."""
        other = copy.copy(self)
        other.program = program
        return other

    def output_bytes(self):
        return sum(path.stat().st_size for path in self.outputs if path.exists())


def collected(told):
    """Instructions, as callgrind tells them on standard error."""
    return int(re.search(r"Collected : (\d+)", told)[1])


def row(*cells):
    print("| " + " | ".join(str(cell) for cell in cells) + " |", flush=True)


def head(*names):
    row(*names)
    print("|" + "---|" * len(names), flush=True)


def span(values, form):
    """The least and the greatest of some values in words."""
    least, most = form(min(values)), form(max(values))
    return least if least == most else f"{least} to {most}"


def show_seconds(seconds):
    return f"{seconds:.1f}" if seconds >= 0.1 else f"{seconds:.3f}"


def measure_times(replays_of, given):
    """The table of times. Answers the status."""
    head("Load", "Rounds", "Requests", "Workers", "Seconds", "Most memory, MB", "Bytes of trace", "Bytes of output")
    for replays in replays_of:
        for workers in given.workers or [1]:
            runs = [replays.timed(workers) for _ in range(given.runs)]
            memory = [kilobytes for _seconds, kilobytes in runs if kilobytes is not None]
            row(replays.name, f"{replays.rounds:,}", f"{replays.requests:,}", workers,
                span([seconds for seconds, _kilobytes in runs], show_seconds),
                f"{max(memory) / 1_000:.1f}" if memory else "-",
                f"{(replays.folder / f'{replays.name}.csv').stat().st_size:,}", f"{replays.output_bytes():,}")
    return 0


@contextlib.contextmanager
def busy(count):
    """So many processes spin meanwhile."""
    spinning = [subprocess.Popen([sys.executable, "-c", BUSY]) for _ in range(count)]
    try:
        yield
    finally:
        for process in spinning:
            process.kill()
            process.wait()


def in_one_series(measured, given):
    """Seconds of the runs of each that is measured, replays and a number of workers."""
    seconds = {one: [] for one in measured}
    with busy(given.beside):
        for _ in range(given.runs):
            for replays, workers in random.sample(measured, len(measured)):
                seconds[replays, workers].append(replays.timed(workers)[0])
    return seconds


def of_programs(replays, given):
    """Replays of a load by each program, with the word that names it."""
    yield replays, "program"
    if given.against:
        yield replays.by(given.against), "against"


def a_round_takes(seconds, replays):
    """The median and the least of some runs, in microseconds a round."""
    return [of(seconds) / replays.rounds * 1e6 for of in (statistics.median, min)]


def measure_workers(replays_of, given):
    """The table of times by numbers of workers. Answers the status."""
    first, *others = numbers_of_workers = given.workers or [1, 2, 4]
    each = [one for replays in replays_of for one in of_programs(replays, given)]
    seconds = in_one_series([(replays, workers) for replays, _name in each for workers in numbers_of_workers], given)
    head("Load", "Program", "Rounds", f"us a round by {first}: median (least)",
         *(f"by {workers}: the same, as parts of that" for workers in others))
    for replays, name in each:
        base, least = a_round_takes(seconds[replays, first], replays)
        rest = [a_round_takes(seconds[replays, workers], replays) for workers in others]
        row(replays.name, name, f"{replays.rounds:,}", f"{base:.1f} ({least:.1f})",
            *(f"{took:.1f} ({at_least:.1f}), {took / base:.2f} ({at_least / least:.2f})" for took, at_least in rest))
    return 0


def a_round(replays, trace=None):
    """Instructions of a round: a replay less one of half its rounds."""
    half = replays.rounds // 2
    return (replays.instructions(trace=trace) - replays.instructions(half, trace)) // (replays.rounds - half)


def measure_instructions(replays_of, _given):
    """The table of instructions. Answers the status."""
    head("Load", "Rounds", "Requests", "Millions in all", "A round, with all that is read", "A round with its requests",
         "A round without requests", "A request read")
    for replays in replays_of:
        whole = replays.instructions()
        if replays.rounds < 2:
            row(replays.name, replays.rounds, replays.requests, f"{whole / 1e6:.1f}", "-", "-", "-", "-")
            continue
        busy, read = "-", "-"
        if replays.requests:
            busy = f"{a_round(replays):,}"
            read = f"{(replays.instructions(1) - replays.instructions(1, 'empty')) // replays.requests:,}"
        row(replays.name, f"{replays.rounds:,}", f"{replays.requests:,}", f"{whole / 1e6:.1f}",
            f"{whole // replays.rounds:,}", busy, f"{a_round(replays, 'empty'):,}", read)
    return 0


def measure_bytes(replays_of, given):
    """The table of equal bytes. Answers the status."""
    first, *others = given.workers or [1, 2, 4, 16]
    status = 0
    head("Load", "Rounds", *(f"{workers} workers as {first}" for workers in others))
    for replays in replays_of:
        wanted = replays.sums(first)
        same = [replays.sums(workers) == wanted for workers in others]
        row(replays.name, f"{replays.rounds:,}", *("the same bytes" if is_same else "OTHER BYTES" for is_same in same))
        status = max(status, 0 if all(same) else 1)
    return status


def built_plain():
    """The plain program, built; or None where there is no cargo."""
    if shutil.which("cargo") is None:
        print("measure: there is no cargo, so the plain program is left out", file=sys.stderr)
        return None
    # one crate after another, for what else the machine does
    built = subprocess.run(["cargo", "build", "--release", "--quiet", "-j1"], cwd=PLAIN, capture_output=True, text=True)
    if built.returncode != 0:
        raise Stop(f"the plain program can't be built: {built.stderr.strip()[-300:]}")
    return PLAIN / "target/release/plain"


def pair_of(replays, plain):
    """The replays of a load by mapsim, and by the plain program where there is one."""
    return [replays, replays.by(plain)] if plain else [replays]


def counted(pair):
    """Instructions of a part of a load by each program."""
    replays = pair[0]
    folder = replays.folder / "counted"
    folder.mkdir(exist_ok=True)
    small = Replays(replays.program, folder, replays.name, replays.part * COUNTED_PART)
    return [small.by(one.program).instructions() for one in pair]


def cells(figures, show):
    """A figure of mapsim, that of the plain program, and their ratio."""
    mine, *plain = map(show, figures)
    return [mine, *plain, f"{figures[0] / figures[1]:.2f}"] if plain else [mine, "-", "-"]


def write_the_same(pair, numbers_of_workers):
    """Whether the plain program prints and writes what mapsim does, by each number of workers."""
    wanted = pair[0].sums(1)
    return all(one.sums(workers) == wanted for one in pair[1:] for workers in numbers_of_workers)


def measure_plain(replays_of, given):
    """The table of both programs. Answers the status."""
    plain, numbers_of_workers, status = built_plain(), given.workers or [1, 2, 4], 0
    pairs = [pair_of(replays, plain) for replays in replays_of]
    counts = [counted(pair) for pair in pairs]
    each = [(one, workers) for pair in pairs for one in pair for workers in numbers_of_workers]
    seconds = {one: statistics.median(runs) for one, runs in in_one_series(each, given).items()}
    figures = [f"Millions of instructions, of 1/{COUNTED_PART}", *(f"Seconds by {n}: median" for n in numbers_of_workers)]
    head("Load", "Rounds", *(name for figure in figures for name in (figure, "plain", "ratio")), "Bytes")
    for pair, count in zip(pairs, counts):
        is_same = write_the_same(pair, numbers_of_workers)
        row(pair[0].name, f"{pair[0].rounds:,}", *cells(count, lambda number: f"{number / 1e6:.1f}"),
            *(cell for workers in numbers_of_workers
              for cell in cells([seconds[one, workers] for one in pair], "{:.3f}".format)),
            "-" if plain is None else "the same" if is_same else "OTHER")
        status = max(status, 0 if is_same else 1)
    return status


TABLES = {"times": measure_times, "workers": measure_workers, "instructions": measure_instructions,
          "bytes": measure_bytes, "plain": measure_plain}


def numbers(text):
    """A list of numbers that commas part."""
    return [int(number) for number in text.split(",")]


def main():
    words = argparse.ArgumentParser(description=__doc__, formatter_class=argparse.RawDescriptionHelpFormatter)
    words.add_argument("table", choices=TABLES)
    make_loads.add_arguments(words)
    words.add_argument("--runs", type=int, metavar="N")
    words.add_argument("--workers", type=numbers, metavar="N,..")
    words.add_argument("--beside", type=int, default=0, metavar="N")
    words.add_argument("--against", metavar="FILE")
    words.add_argument("--folder", metavar="FOLDER")
    words.add_argument("--program", default=TOP / "crates/mapsim/out/mapsim", metavar="FILE")
    given = words.parse_intermixed_args()
    if given.table == "plain":
        given.loads = given.loads or list(make_loads.LOADS)
    names = make_loads.chosen(words, given)
    if given.runs is None:
        given.runs = 9 if given.table == "workers" else 5
    if given.runs < 1 or given.beside < 0:
        words.error("--runs is 1 or more, and --beside 0 or more")
    if given.table != "workers" and (given.beside or given.against):
        words.error("--beside and --against are for workers alone")
    with tempfile.TemporaryDirectory(prefix="measure-", dir=given.folder) as folder:
        replays_of = (Replays(given.program, pathlib.Path(folder), name, given.part) for name in names)
        try:
            return TABLES[given.table](replays_of, given)
        except (Stop, OSError) as why:
            print(f"measure: {why}", file=sys.stderr)
            return 2


if __name__ == "__main__":
    sys.exit(main())
