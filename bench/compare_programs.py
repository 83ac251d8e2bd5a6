#!/usr/bin/env python3
"""Compares mapsim with bench/plain_program.py on generated and damaged inputs: configurations, traces, standard input,
maps files, reports and whole runs, in status, both streams and files.

  bench/compare_programs.py FIRST LAST   the inputs from number FIRST to below LAST

  --program FILE       the program (crates/mapsim/out/mapsim)
  --processes N        processes (as many as there are processors)
  --kind KIND          inputs of this kind alone, in place of a mixture: KINDS

An input is made of its number alone, whatever else is asked for but a kind. Where the two answers differ, a line names
the number, and what was run is left in a folder `programs-NUMBER` of the system's folder for temporary files. The last
lines count the answers of the second program by kind: `ok`, what `check` prints, or the code of a fault; and behind
them inputs and differences. Stopped by hand, it counts what it has compared. Status 0: no answers differed; 1: some did.
"""
import argparse
import collections
import multiprocessing
import os
import pathlib
import signal
import sys
import tempfile
import time

from damaged_inputs import KINDS, input_of

PROGRAM = pathlib.Path(__file__).resolve().parent.parent / "crates/mapsim/out/mapsim"
MEMORY = pathlib.Path("/dev/shm")
FILES = ["config", "trace", "maps", "report"]
SECONDS = 120
# inputs that a process compares before it tells of them
CHUNK = 250
SHOWN = 300
# what is counted beside the answers of each kind
DIFFER = "differences"


def found_of(one, program, folder):
    """What the program does with an input in a folder: its status, both streams, and the files that stand then."""
    for name in FILES:
        (folder / name).unlink(missing_ok=True)
    for name, text in {"input": b"", **one.files}.items():
        (folder / name).write_bytes(text)
    streams = [(os.POSIX_SPAWN_OPEN, 0, "input", os.O_RDONLY, 0)]
    for number, name in (1, "output"), (2, "error"):
        streams.append((os.POSIX_SPAWN_OPEN, number, name, os.O_WRONLY | os.O_CREAT | os.O_TRUNC, 0o600))
    started = os.posix_spawn(program, ["mapsim", *one.words], {}, file_actions=streams)
    # a run without end is stopped, which its status tells
    signal.signal(signal.SIGALRM, lambda *_: os.kill(started, signal.SIGKILL))
    signal.alarm(SECONDS)
    status = os.waitstatus_to_exitcode(os.waitpid(started, 0)[1])
    signal.alarm(0)
    output, error = ((folder / name).read_bytes() for name in ("output", "error"))
    return status, output, error, {name: (folder / name).read_bytes() for name in FILES if (folder / name).exists()}


def wanted_of(one):
    """The same of the second program. What it doesn't write stays as it was."""
    files = {name: text for name, text in one.files.items() if name in FILES}
    return one.answer.status, one.answer.output.encode(), one.answer.error.encode(), files | one.answer.files


def word_of(answer):
    """What an answer is counted as."""
    if answer.error:
        return answer.error.split()[1]
    words = answer.output.split(None, 2)[:2]
    return " ".join(words) if words[:1] == ["broken"] else "holds" if words == ["holds"] else "ok"


def keep(number, one, found):
    """Leaves the input, and answers a line that says what differs."""
    kept = pathlib.Path(tempfile.gettempdir()) / f"programs-{number}"
    kept.mkdir(exist_ok=True)
    (kept / "words").write_text(" ".join(one.words) + "\n")
    for name, text in one.files.items():
        (kept / name).write_bytes(text)
    both = zip(("status", "output", "error", "files"), found, wanted_of(one))
    return " | ".join(f"{name} {str(mine)[:SHOWN]} plain {str(other)[:SHOWN]}" for name, mine, other in both
                      if mine != other)


def compare(first, last, given, folder):
    """Compares inputs: the counts, and a line for each that differs."""
    counts, lines = collections.Counter(), []
    for number in range(first, last):
        try:
            kind, one = input_of(number, given.kind)
        # no input may stop the second program
        except Exception as fault:
            counts[DIFFER] += 1
            lines.append(f"ERROR {number} {fault!r}")
            continue
        found = found_of(one, given.program, folder)
        counts[kind, word_of(one.answer)] += 1
        if found != wanted_of(one):
            counts[DIFFER] += 1
            lines.append(f"DIFFER {number} {kind} {keep(number, one, found)}")
    return counts, lines


def compare_chunk(job):
    """Compares some inputs in a process of their own, whose folder is where it runs."""
    first, last, given = job
    return compare(first, last, given, pathlib.Path.cwd())


def start(folders):
    # the first process alone is stopped by hand
    signal.signal(signal.SIGINT, signal.SIG_IGN)
    os.chdir(folders.get())


def counted(jobs, processes, compare):
    """Compares the inputs of all jobs by a function, or as many as come before it is stopped by hand, and prints what
    differs."""
    counts, folders = collections.Counter(), multiprocessing.Queue()
    with tempfile.TemporaryDirectory(prefix="compare-", dir=MEMORY if MEMORY.is_dir() else None) as folder:
        for number in range(processes):
            (pathlib.Path(folder) / str(number)).mkdir()
            folders.put(f"{folder}/{number}")
        with multiprocessing.Pool(processes, start, [folders]) as pool:
            stops = []
            signal.signal(signal.SIGINT, lambda *_: stops.append(True))
            for found, lines in pool.imap_unordered(compare, jobs):
                counts += found
                for line in lines:
                    print(line, flush=True)
                if stops:
                    print("stopped", flush=True)
                    break
    return counts


def told(counts):
    """The lines that count the answers."""
    inputs = 0
    for kind in KINDS:
        here = {key[1]: count for key, count in counts.items() if key[0] == kind}
        if here:
            inputs += sum(here.values())
            yield f"{kind} {sum(here.values())}: " + ", ".join(f"{word} {here[word]}" for word in sorted(here))
    yield f"inputs {inputs} differences {counts[DIFFER]}"


def main():
    words = argparse.ArgumentParser(description=__doc__.replace("KINDS", ", ".join(KINDS)),
                                    formatter_class=argparse.RawDescriptionHelpFormatter)
    words.add_argument("first", type=int, metavar="FIRST")
    words.add_argument("last", type=int, metavar="LAST")
    words.add_argument("--program", type=pathlib.Path, default=PROGRAM, metavar="FILE")
    words.add_argument("--processes", type=int, default=len(os.sched_getaffinity(0)), metavar="N")
    words.add_argument("--kind", choices=KINDS)
    given = words.parse_args()
    given.program = given.program.resolve(strict=True)
    began = time.monotonic()
    jobs = [(first, min(first + CHUNK, given.last), given) for first in range(given.first, given.last, CHUNK)]
    counts = counted(jobs, given.processes, compare_chunk)
    print(*told(counts), f"seconds {time.monotonic() - began:.0f}", sep="\n")
    return 1 if counts[DIFFER] else 0


if __name__ == "__main__":
    sys.exit(main())
