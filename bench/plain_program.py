#!/usr/bin/env python3
"""A second program beside mapsim, of bench/plain_reader.py, plain_trace.py, plain_maps.py, plain_scheduler.py and
plain_checker.py: the same words, and the same lines, files and statuses.

  bench/plain_program.py [replay|check|dump|pipe] [OPTION..]

Help, and what is said of words that are none, are Python's, and no fault of a full device is told. But for these
`tools/run-cases --program bench/plain_program.py` finds that it does what the stored cases say, in some ten minutes.
bench/compare_programs.py compares it with mapsim.
"""
import argparse
import os
import sys
from typing import NamedTuple

import plain_checker
import plain_maps
import plain_reader
import plain_scheduler
import plain_trace
from plain_reader import Fault

MOST_INPUT_BYTES = 37_748_740
MOST_RUN_TICKS = 67_108_864
MOST_WORKERS = 64
GREATEST_WORD = 2**32 - 1
PIECE_BYTES = 2**20
MARK = b"%%\n"
OF_A_DEVICE, REFUSED = 4, 3


class Answer(NamedTuple):
    """What a run does: its status, both streams, and the maps file and the report where it writes them."""

    status: int
    output: str
    error: str = ""
    files: dict = {}


def refused(fault, output="", files={}):
    """The answer of a fault."""
    status = OF_A_DEVICE if str(fault).startswith("io ") else REFUSED
    return Answer(status, output, f"fault {fault}\n", files)


def tables_for(config, rounds, workers=1):
    """The tables of a configuration that has no fault, for a run of so many rounds by so many workers."""
    tables = plain_reader.tables_of(config)
    if rounds == 0 or rounds * tables["round_ticks"] > MOST_RUN_TICKS:
        raise Fault("RU1")
    if not 1 <= workers <= MOST_WORKERS:
        raise Fault("RU2")
    return tables


def parts_of(text):
    """The configuration and the trace of a text, between which the mark stands."""
    if len(text) > MOST_INPUT_BYTES:
        raise Fault("pipe")
    front, mark, trace = (b"\n" + text).partition(b"\n" + MARK)
    if not mark:
        raise Fault("pipe")
    return (front + b"\n")[1:], trace


def replay(config, trace, rounds, workers):
    files = {}
    try:
        tables = tables_for(config, rounds, workers)
        files = {"maps": b"", "report": b""}
        rows = plain_trace.rows_of(trace)
    except Fault as fault:
        return refused(fault, files=files)
    maps, report, summary = plain_scheduler.schedule(tables, rows, rounds)
    return Answer(0, summary, files={"maps": maps, "report": report})


def check(config, trace, rounds, maps, report):
    try:
        tables = tables_for(config, rounds)
        rows = plain_trace.rows_of(trace)
        lines = plain_checker.lines_of(report)
    except Fault as fault:
        return refused(fault)
    except plain_checker.BadLine as line:
        return refused(f"CK1 {line}")
    verdict = plain_checker.verdict(tables, rows, rounds, maps, lines)
    return Answer(plain_checker.status_of(verdict), f"{verdict}\n")


def dump(maps):
    lines, fault = plain_maps.dump(maps)
    return refused(fault, lines) if fault else Answer(0, lines)


def pipe(text, rounds, workers):
    try:
        config, trace = parts_of(text)
        tables = tables_for(config, rounds, workers)
        rows = plain_trace.rows_of(trace)
    except Fault as fault:
        return refused(fault)
    maps, report, _summary = plain_scheduler.schedule(tables, rows, rounds)
    return Answer(0, plain_maps.dump(maps)[0] + report.decode())


# The program. What is made and read stands in the order that the faults of files have.


def tried(name, act, *words):
    """What is done with a file, or the fault of its name."""
    try:
        return act(*words)
    except OSError:
        raise Fault(f"io {name}") from None


def opened(path, name, flags=os.O_RDONLY):
    return tried(name, os.open, path, flags, 0o666)


def bytes_from(descriptor, name):
    pieces = iter(lambda: tried(name, os.read, descriptor, PIECE_BYTES), b"")
    return b"".join(pieces)


def bytes_of(path, name):
    return bytes_from(opened(path, name), name)


def replay_files(given):
    config = bytes_of(given.config, "config")
    tables_for(config, given.rounds, given.workers)
    trace = opened(given.trace, "trace")
    made = [opened(path, name, os.O_WRONLY | os.O_CREAT | os.O_TRUNC)
            for path, name in ((given.maps, "maps"), (given.report, "report"))]
    answer = replay(config, bytes_from(trace, "trace"), given.rounds, given.workers)
    for descriptor, text in zip(made, answer.files.values()):
        with open(descriptor, "wb") as file:
            file.write(text)
    return answer


def check_files(given):
    config = bytes_of(given.config, "config")
    tables_for(config, given.rounds)
    trace = bytes_of(given.trace, "trace")
    plain_trace.rows_of(trace)
    maps = bytes_of(given.maps, "maps")
    return check(config, trace, given.rounds, maps, bytes_of(given.report, "report"))


def answer_of(given):
    """What a run with these words does."""
    try:
        if given.command == "replay":
            return replay_files(given)
        if given.command == "check":
            return check_files(given)
        if given.command == "dump":
            return dump(bytes_of(given.maps, "maps"))
        return pipe(sys.stdin.buffer.read(), given.rounds, given.workers)
    except Fault as fault:
        return refused(fault)


def whole_number(word):
    if not (word.isdigit() and int(word) <= GREATEST_WORD):
        raise argparse.ArgumentTypeError(f"{word} is no whole number up to {GREATEST_WORD}")
    return int(word)


def given_by(words):
    parser = argparse.ArgumentParser(prog="mapsim", allow_abbrev=False)
    commands = parser.add_subparsers(dest="command", required=True)
    for name, files in ("replay", True), ("check", True), ("dump", False), ("pipe", False):
        command = commands.add_parser(name, allow_abbrev=False)
        for option in ("config", "trace", "maps", "report") if files else ("maps",) if name == "dump" else ():
            command.add_argument(f"--{option}", required=True)
        if name != "dump":
            command.add_argument("--rounds", type=whole_number, required=files, default=2)
        if name in ("replay", "pipe"):
            command.add_argument("--workers", type=whole_number, default=1)
    return parser.parse_args(words or ["pipe"])


def main(words):
    answer = answer_of(given_by(words))
    sys.stdout.write(answer.output)
    sys.stderr.write(answer.error)
    return answer.status


if __name__ == "__main__":
    sys.exit(main(sys.argv[1:]))
