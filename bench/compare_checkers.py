#!/usr/bin/env python3
"""Compares `mapsim check` with bench/plain_checker.py on random schedules, lawful ones and damaged ones.

  bench/compare_checkers.py [FIRST LAST]   the seeds of configuration and trace, from FIRST to below LAST (0 300)

  --damages N      damaged files of each schedule (6)
  --rounds N       the most rounds of a schedule (6)
  --reordered      the lines of each report, of the lawful one too, shuffled, turned round, or with one of them moved
  --program FILE   the program (crates/mapsim/out/mapsim)

The schedules are those that `mapsim replay` makes of the seeds of bench/compare_schedulers.py. One with a report of
more than 100,000 bytes is passed over, as the plain checker is slow. bench/damage_schedules.py damages them. The lawful
files have to be judged `holds`. Where the answers differ, in the line or the status, a line names the seed and the
number of the damage, and the files are left in a folder `checkers-SEED-NUMBER` of the system's folder for temporary
files.

The last line counts the answers of the plain checker, and how many answers were the same. Status 0: all were; 1: not.
"""
import argparse
import collections
import json
import pathlib
import random
import shutil
import subprocess
import sys
import tempfile

import compare_schedulers
import damage_schedules
import plain_checker

PROGRAM = pathlib.Path(__file__).resolve().parent.parent / "crates/mapsim/out/mapsim"
MOST_REPORT_BYTES = 100_000
SECONDS = 600
USAGE_FAULT = 2


class Stop(Exception):
    """Why a seed can't be compared."""


class Seed:
    """The files of a seed in a folder."""

    def __init__(self, folder, program, seed, most_rounds):
        self.folder, self.program = folder, program
        self.config, self.trace, self.rounds = compare_schedulers.inputs(seed, most_rounds)
        (folder / "config").write_text(self.config)
        (folder / "trace").write_text(self.trace)
        # no option has it, but who looks at what differs needs it
        (folder / "rounds").write_text(f"{self.rounds}\n")

    def run(self, command):
        """What a command of the program answers: its status, and what it printed on both streams."""
        words = [self.program, command, "--config", "config", "--trace", "trace", "--rounds", str(self.rounds),
                 "--maps", "maps", "--report", "report"]
        done = subprocess.run(words, cwd=self.folder, capture_output=True, timeout=SECONDS)
        return done.returncode, done.stdout.decode(errors="replace"), done.stderr.decode(errors="replace")

    def replay(self):
        """The maps file and the report that the program makes."""
        status, _printed, errors = self.run("replay")
        if status != 0:
            raise Stop(f"replay: status {status}: {errors.strip()}")
        return (self.folder / "maps").read_bytes(), (self.folder / "report").read_bytes()

    def judge(self, maps, report):
        """What both checkers answer of these files: the plain one's line, and what each does."""
        (self.folder / "maps").write_bytes(maps)
        (self.folder / "report").write_bytes(report)
        line = plain_checker.judge(self.config, self.trace, self.rounds, maps, report)
        printed, errors = ("", f"{line}\n") if line.startswith("fault") else (f"{line}\n", "")
        found = self.run("check")
        if found[0] == USAGE_FAULT:
            raise Stop(f"check: {found[2].splitlines()[0]}")
        return line, (plain_checker.status_of(line), printed, errors), found


def word_of(line):
    """What an answer is counted as: `holds`, or its code."""
    return line if line == "holds" else line.split(" ")[1]


def compare(seed, given, counts, folder):
    """Judges the lawful files of a seed, which are number 0, and damaged ones."""
    files = Seed(folder, given.program, seed, given.rounds)
    lawful = files.replay()
    if len(lawful[1]) > MOST_REPORT_BYTES:
        counts["passed over"] += 1
        return
    for number in range(given.damages + 1):
        maps, report, names = *lawful, ["lawful"]
        if number > 0:
            chance = random.Random(f"{seed} {number}")
            maps, report, names = damage_schedules.damaged(chance, files.config, files.rounds, *lawful)
        if given.reordered:
            report, name = damage_schedules.reordered(random.Random(f"order {seed} {number}"), report)
            names = [*names, name]
        line, wanted, found = files.judge(maps, report)
        counts["pairs"] += 1
        counts[word_of(line)] += 1
        if found == wanted and (number > 0 or line == "holds"):
            counts["same"] += 1
            continue
        counts["DIFFER"] += 1
        kept = pathlib.Path(tempfile.gettempdir()) / f"checkers-{seed}-{number}"
        shutil.copytree(folder, kept, dirs_exist_ok=True)
        print("DIFFER", seed, number, *names, "plain", wanted, "program", found, kept, flush=True)


def main():
    words = argparse.ArgumentParser(description=__doc__, formatter_class=argparse.RawDescriptionHelpFormatter)
    words.add_argument("first", type=int, nargs="?", default=0, metavar="FIRST")
    words.add_argument("last", type=int, nargs="?", default=300, metavar="LAST")
    words.add_argument("--damages", type=int, default=6, metavar="N")
    words.add_argument("--rounds", type=int, default=6, metavar="N")
    words.add_argument("--reordered", action="store_true")
    words.add_argument("--program", type=pathlib.Path, default=PROGRAM, metavar="FILE")
    given = words.parse_args()
    given.program = given.program.resolve()
    counts = collections.Counter()
    for seed in range(given.first, given.last):
        with tempfile.TemporaryDirectory(prefix="checkers-") as folder:
            try:
                compare(seed, given, counts, pathlib.Path(folder))
            except (Stop, OSError, subprocess.TimeoutExpired) as why:
                counts["ERROR"] += 1
                print("ERROR", seed, why, flush=True)
    print(json.dumps(counts))
    return 1 if counts["DIFFER"] or counts["ERROR"] else 0


if __name__ == "__main__":
    sys.exit(main())
