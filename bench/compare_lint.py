#!/usr/bin/env python3
"""Compares `mapsim lint` with the plain readers of bench/ on damaged configurations, traces and schedules: the error
that it tells first, its line, its status, and the form of all that it prints; and on lawful ones what it warns of.

  bench/compare_lint.py FIRST LAST   the inputs from number FIRST to below LAST

  --program FILE       the program (crates/mapsim/out/mapsim)
  --processes N        processes (as many as there are processors)
  --kind KIND          inputs of this kind alone, in place of a mixture: KINDS

An input is made of its number alone, whatever else is asked for but a kind. Of the kinds `table` and `row` it has one
damage whose line is known, of `looks` none, and of the others any: as bench/damaged_inputs.py makes them.

The first error has to have the code of the plain readers and the checker, and of a configuration the table; where they
find nothing, there may be none. Its line and column have to be some of the file's, and each line of the output one of
lint's forms. Status 0 is nothing found, 1 warnings alone, 3 an error. Of one damage the line is

  C2           the table's header, or line 1 of the top level; of a key of a profile the profile's key, or its header
  C3           the damaged key's, or, where two values were swapped, that of the key that is in the table of the fault.
               A flow's type that was changed to another one makes keys wrong that the flow had: theirs. Of a code that
               is too long, that of fec_k or of fec_t
  C4 to C14    one of the table that the fault names
  TR2, TR3     the damaged row's; where the header was damaged, any row's. And of all damaged traces that on which the
               record of the fault begins, where LF ends a line

Of a verdict the line of the report, or the record and the byte of the maps file, has to be one that the rule and the
place of the checker are about. Of `looks` the warnings are compared with bench/plain_warnings.py: SIDs that no flow
has, and those of calls, late rows, flows that no row names, and windows that no schedule could grant, with numbers and
lines; and how many rounds take in all rows.

Of C2 and C3 the header of the table counts as `header` where another line is the right one. Where these are more than
one in twenty of all with a known line, they are wrong. Each input that is wrong has a line, and what was run is left in
a folder `lint-NUMBER` of the system's folder for temporary files. Behind them a table counts inputs by what the plain
readers answer. Status 0: nothing was wrong; 1: something was.
"""
import argparse
import collections
import itertools
import os
import pathlib
import random
import re
import sys
import tempfile
import time
from typing import NamedTuple

import compare_programs
import damage_configs
import damage_traces
import damaged_inputs
import lay_out_configs
import plain_program
import plain_reader
import plain_trace
import plain_warnings
from plain_reader import Fault

# where a base has a configuration of the plain form, one key on each line
PLAIN = [number for number in range(damaged_inputs.BASES)
         if number >= damaged_inputs.BASES // 2 or damaged_inputs.STORED[number % len(damaged_inputs.STORED)]
         not in ("other_form", "no_flows")]
FINDING = re.compile(r"(config|trace|maps|report)(?::(\d+):(\d+))?: (error (\w+)|warning|note): (.+)")
MORE = re.compile(r"(config|trace|maps|report): .*\b\d+ more\b.*")
TABLE = re.compile(r"(the top level|(?:channel|flow|station) \d+)")
# what a warning says, by its kind: the channel, SID and rows, the flow or station and its windows
UNKNOWN = [re.compile(r"sid: no flow has SID (?P<sid>\d+) on channel (?P<channel>\d+)\b.*: (?P<rows>\d+) rows?\b.*"),
           re.compile(r"channel: no channel has id (?P<channel>\d+), .* SID (?P<sid>\d+): (?P<rows>\d+) rows?\b.*")]
UNUSED = [re.compile(r"sid: SID (?P<sid>\d+) on channel (?P<channel>\d+) is of .*: (?P<rows>\d+) rows?\b.*")]
LATE = re.compile(r"tick: too late for .*: (?P<rows>\d+) rows?\b.*")
SILENT = re.compile(r"flow (\d+) \(id \d+\): no row of the trace .*")
WINDOWS = re.compile(r"(flow|station) \d+ \(id (\d+)\), \w+: (?:(no minislot begins)|.*) in (\d+) of (?:the first )?"
                     r"(\d+) windows? .* interval (\d+), .* closes in round (\d+);.*")
OTHERS = re.compile(r"(\d+) more (?!channel).*")
NOTE = re.compile(r"(\d+) rounds? takes? in all rows")
RECORD = re.compile(r"record (\d+), at byte (\d+)")
MOST_WARNINGS = 10
CONTROL = re.compile(r"[\0-\x09\x0b-\x1f\x7f-\x9f]")
# inputs that a process compares before it tells of them
CHUNK = 100
# of so many with a known line one may have the header's
HEADERS_SHARE = 20
WITH_PLACE = {"C2", "C3", "TR2", "TR3"}


class Input(NamedTuple):
    """The words and files of a run, the fault that is found first, such as `C3 flow 2` or `P2 1 0 3`, or none, and the
    lines that its finding may have, if they are known, with that of the table's header. Of one that is compared by its
    warnings also the tables, the trace and the rounds."""

    words: list
    files: dict
    fault: str | None
    lines: set | None = None
    header: int | None = None
    looks: tuple | None = None


# What is found first


def fault_of(config, trace, rounds):
    """The first fault of a configuration, the rounds and a trace, or None. Of these the last two may be missing."""
    try:
        tables = plain_reader.tables_of(config)
        if rounds is not None and not 0 < rounds * tables["round_ticks"] <= plain_program.MOST_RUN_TICKS:
            return "RU1"
        if trace is not None:
            plain_trace.rows_of(trace)
    except Fault as fault:
        return str(fault)
    return None


def fault_of_check(answer):
    """That of what `check` answers."""
    if answer.error:
        return answer.error.removeprefix("fault ").strip()
    return answer.output.removeprefix("broken ").strip() if answer.output.startswith("broken ") else None


def line_of_row(trace, fault):
    """The lines on which the record of a fault of the trace begins, or None where it isn't one of a record."""
    code, *number = fault.split(" ")
    if code not in ("TR1", "TR2", "TR3"):
        return None
    place = int(number[0]) if number else 1
    for count, line in enumerate(plain_trace.lines_of_records(trace), 1):
        if count == place:
            return {line}
    return None


# The kinds of inputs


def words_of(files, rounds=None):
    words = ["lint"]
    for name in files:
        words += [f"--{name}", name]
    return words + ([] if rounds is None else ["--rounds", str(rounds)])


def of_texts(config, trace, rounds):
    """A run over a configuration and perhaps a trace, where any line will do that isn't that of a row."""
    fault = fault_of(config, trace, rounds)
    files = {"config": config} if trace is None else {"config": config, "trace": trace}
    lines = line_of_row(trace, fault) if fault and fault.startswith("TR") else None
    return Input(words_of(files, rounds), files, fault, lines)


def keys_at_fault(sections, place, places, code):
    """The lines and keys of the plain text that a fault of this table may be told of."""
    name, index = place.split(" ")
    tables = [section for section in sections if section.list == ("" if name == "top" else name)]
    entries, here = tables[int(index)].entries, {(entry.line, entry.key) for entry in tables[int(index)].entries}
    here |= {(entry.line, key) for entry in entries for key, _value in entry.inner or []}
    found = {(spot.line, spot.key) for spot in places} & here
    profiles = [entry for entry in entries if entry.inner]
    if code == "C2":
        keys = plain_reader.PROFILES
        return {(entry.line, "") for entry in profiles if entry.key in keys
                and plain_reader.lacks(keys[entry.key], dict(entry.inner))}
    if any(key in ("fec_k", "fec_t") for _line, key in found):
        found |= {(entry.line, key) for entry in profiles for key in ("fec_k", "fec_t")
                  if any(line == entry.line for line, _key in found)}
    type = next((entry.value for entry in entries if entry.key == "type"), "")
    if name == "flow" and any(key == "type" for _line, key in found) and type in list("23456"):
        known = plain_reader.flow_keys(int(type)) | plain_reader.optional_keys(int(type))
        found |= {(entry.line, entry.key) for entry in entries if entry.key not in known}
    return found


def lines_of_fault(chance, plain, places):
    """A text in some form with what its first fault is, and where that may be told."""
    layout = lay_out_configs.laid_out(chance, plain)
    sections = lay_out_configs.sections_of(plain)
    config = layout.text.encode()
    fault = fault_of(config, None, None)
    if fault is None or " " not in fault:
        return config, fault, None, None
    code, place = fault.split(" ", 1)
    name, index = place.split(" ")
    header = 1 if name == "top" else layout.tables[place][0]
    if code not in ("C2", "C3"):
        return config, fault, set(layout.tables[place]), None
    found = keys_at_fault(sections, place, places, code)
    lines = set().union(*(layout.keys.get(pair, set()) for pair in found))
    # a key that is missing, but in no profile
    return config, fault, lines or ({header} if code == "C2" else set()), header


def of_table(chance, one):
    """A configuration with one damage, in some form."""
    while True:
        try:
            _name, plain, places = damage_configs.damaged_once(chance, one.config)
        except (IndexError, ValueError, TypeError):
            continue
        if places and lay_out_configs.sections_of(plain) is not None:
            break
    config, fault, lines, header = lines_of_fault(chance, plain, places)
    return Input(words_of({"config": 0}), {"config": config}, fault, lines, header)


def of_row(chance, one):
    """A trace with one damage. The line of its first fault is one of the damage."""
    config, rounds = one.config.encode(), chance.choice([None, one.rounds])
    _name, trace, lines = damage_traces.damaged_once(chance, one.trace)
    found = of_texts(config, trace, rounds)
    if found.lines and found.fault != "TR1":
        return found._replace(lines=found.lines & lines)
    return found


def of_configuration(chance, one):
    config = damaged_inputs.damaged_config(chance, one.config)
    return of_texts(config, None, chance.choice([None, None, one.rounds, 0]))


def of_trace(chance, one):
    trace = damage_traces.damaged(chance, one.trace)
    return of_texts(one.config.encode(), trace, chance.choice([None, damaged_inputs.numbers(chance, one)[0]]))


def of_schedule(chance, one):
    made = damaged_inputs.of_schedule(chance, one)
    return Input(["lint", *made.words[1:]], made.files, fault_of_check(made.answer))


def of_check(chance, one):
    made = damaged_inputs.of_check(chance, one)
    return Input(["lint", *made.words[1:]], made.files, fault_of_check(made.answer))


def of_looks(chance, one):
    """A configuration and a trace without a fault."""
    config = one.config.encode()
    rounds = chance.choice([1, 2, one.rounds, chance.randint(1, 200)]) if chance.random() < 0.9 else None
    made = of_texts(config, one.trace, rounds)
    tables = plain_reader.tables_of(config)
    return made if made.fault else made._replace(looks=(tables, one.trace, rounds))


# of so many inputs, how many are of a kind
KINDS = {
    "table": (of_table, 8_000), "row": (of_row, 2_500), "configuration": (of_configuration, 12_000),
    "trace": (of_trace, 8_000), "schedule": (of_schedule, 2_000), "check": (of_check, 1_000),
    "looks": (of_looks, 3_000),
}


def input_of(number, kind=None):
    """The kind of an input, and the input."""
    chance = random.Random(f"lint {number}")
    kind = kind or chance.choices(list(KINDS), [weight for _of, weight in KINDS.values()])[0]
    base = chance.choice(PLAIN) if kind == "table" else chance.randrange(damaged_inputs.BASES)
    return kind, KINDS[kind][0](chance, damaged_inputs.base(base))


# What lint says


def lines_of(output):
    return output.decode().removesuffix("\n").split("\n") if output else []


def wrong_form(output):
    """The first line of an output that has no form of lint's, or None."""
    try:
        text = output.decode()
    except UnicodeDecodeError:
        return "no UTF-8"
    if CONTROL.search(text) or (text and not text.endswith("\n")):
        return repr(text)
    return next((line for line in lines_of(output) if not (FINDING.fullmatch(line) or MORE.fullmatch(line))), None)


def judge(one, found):
    """What is wrong with what lint does with an input, or how well its first error has its line: `exact`, `header`, or
    nothing where no line is known."""
    status, output, error, files = found
    if files != one.files:
        return "files are changed", ""
    if one.fault == "RU1":
        is_told = error == b"fault RU1\n" and status == 3
        return (None if is_told else f"status {status}, {error} for RU1"), ""
    if error:
        return f"error stream {error}", ""
    form = wrong_form(output)
    if form is not None:
        return f"form: {form}", ""
    lines = [FINDING.fullmatch(line) for line in lines_of(output)]
    findings = [line for line in lines if line and line.group(4) != "note"]
    wanted = 3 if any(line.group(5) for line in findings) else 1 if findings else 0
    if status != wanted:
        return f"status {status}, and {wanted} goes with what is printed", ""
    if one.fault is None:
        wrong = "an error, and there is none" if status == 3 else None
        return wrong or one.looks and wrong_looks(lines, *one.looks), ""
    if status != 3 or not findings[0].group(5):
        return f"no error first, and there is {one.fault}", ""
    return judged_first(one, findings[0])


def fits_verdict(report, line, rule, round, channel, place):
    """Whether a verdict may be about a line of the report."""
    fields = report.split(b"\n")[line - 1].decode(errors="replace").split(",")
    if fields[0] in "FA":
        return rule == "P6" and int(fields[1]) == place
    if fields[0] == "U":
        return rule == "P6" and place == 0
    here, id = (int(fields[1]), int(fields[2])), int(fields[4])
    if rule == "P3":
        return here == (round, channel)
    # an occurrence may be told of in any round, and on any channel
    return id == place and (rule == "P4" or here[0] == round and channel in (0, here[1]))


def start_of_record(maps, number):
    """Where a record of a maps file begins."""
    at = 0
    for _ in range(number):
        at += 6 + int.from_bytes(maps[at + 4 : at + 6], "big")
    return at


def wrong_verdict(one, first):
    """What is wrong with where a verdict is told of, or None."""
    rule, *numbers = one.fault.split(" ")
    round, channel, place = map(int, numbers)
    if first.group(1) == "report":
        line = int(first.group(2) or 0)
        if line and not fits_verdict(one.files["report"], line, rule, round, channel, place):
            return f"line {line} of the report for {one.fault}"
        return None if rule in ("P3", "P4", "P5", "P6") else f"the report for {one.fault}"
    record = RECORD.match(first.group(6))
    if first.group(1) != "maps" or not record:
        return None if rule == "P6" else f"no place for {one.fault}"
    number, at = map(int, record.groups())
    if at != start_of_record(one.files["maps"], number) or rule in ("P1", "P2") and number != place:
        return f"record {number} at {at} for {one.fault}"
    return None


def judged_first(one, first):
    """The same of the first finding beside the fault of an input."""
    code, _, place = one.fault.partition(" ")
    if first.group(5) != code:
        return f"{first.group(5)} in place of {one.fault}", ""
    if code[0] == "P":
        return wrong_verdict(one, first), ""
    source = "report" if code == "CK1" else "trace" if code[0] == "T" else "config"
    if first.group(1) != source:
        return f"{first.group(1)} in place of {source}", ""
    table = TABLE.match(first.group(6))
    named = table.group().replace("the top level", "top 0") if table else ""
    if code[0] == "C" and code != "CK1" and named != place:
        return f"table {named} in place of {place}", ""
    line, column = int(first.group(2) or 0), int(first.group(3) or 0)
    lines = one.files[source].decode(errors="replace").split("\n")
    if not 1 <= line <= len(lines) or not 1 <= column <= len(lines[line - 1]) + 1:
        return f"no place {line}:{column}", ""
    return judged_line(one, code, place, line)


def judged_line(one, code, place, line):
    """The same of its line."""
    if code == "CK1":
        return None if line == int(place) else f"line {line} in place of {place}", ""
    if one.lines is None:
        return None, ""
    if line in one.lines:
        return None, "exact"
    if line == one.header:
        return None, "header"
    return f"line {line} in place of {sorted(one.lines)[:9]}", ""


def rows_told(findings, patterns):
    """What is told of rows by channel and SID: how many there are, and the line of the first."""
    told = {}
    for finding in findings:
        for found in filter(None, (pattern.fullmatch(finding.group(6)) for pattern in patterns)):
            told[int(found["channel"]), int(found["sid"])] = [int(found["rows"]), int(finding.group(2))]
    return told


def wrong_looks(lines, tables, trace, rounds):
    """What is wrong with the warnings of an input without a fault, or None."""
    findings = [line for line in lines if line and line.group(4) == "warning"]
    texts = [finding.group(6) for finding in findings]
    most = plain_program.MOST_RUN_TICKS // tables["round_ticks"]
    notes = [int(found.group(1)) for line in lines if line and (found := NOTE.match(line.group(6)))]
    rows = plain_warnings.Rows(tables, trace, rounds or most)
    if notes != [rows.rounds] * (rounds is None and rows.rounds is not None and rows.rounds <= most):
        return f"note: {notes} in place of {rows.rounds}"
    rounds = rounds or most
    late = [[int(found["rows"]), int(finding.group(2))] for finding in findings
            if (found := LATE.fullmatch(finding.group(6)))]
    silent = {int(found.group(1)) for found in map(SILENT.fullmatch, texts) if found}
    windows = {(found.group(1), int(found.group(2)), found.group(3) is not None): tuple(map(int, found.groups()[3:]))
               for found in map(WINDOWS.fullmatch, texts) if found}
    lost = plain_warnings.windows_of(tables, rounds)
    compared = [
        ("unknown", rows_told(findings, UNKNOWN), rows.unknown), ("unused", rows_told(findings, UNUSED), rows.unused),
        ("silent", dict.fromkeys(silent), dict.fromkeys(rows.silent)),
    ]
    for kind in itertools.product(("flow", "station"), (False, True)):
        told, wanted = ({key: value for key, value in of.items() if (key[0], key[2]) == kind} for of in (windows, lost))
        compared.append(("windows", told, wanted))
    others = sum(int(found.group(1)) for found in map(OTHERS.fullmatch, texts) if found)
    for name, told, wanted in compared:
        if len(told) != min(len(wanted), MOST_WARNINGS) or not told.items() <= wanted.items():
            return f"{name}: {told} in place of {wanted}"
        others -= len(wanted) - len(told)
    if others != 0:
        return f"{others} more than there are"
    return None if late == [rows.late] * (rows.late[0] > 0) else f"late: {late} in place of {rows.late}"


def keep(number, one, found):
    """Leaves the input and what lint printed."""
    kept = pathlib.Path(tempfile.gettempdir()) / f"lint-{number}"
    kept.mkdir(exist_ok=True)
    (kept / "words").write_text(" ".join(one.words) + "\n")
    for name, text in {**one.files, "output": found[1], "error": found[2]}.items():
        (kept / name).write_bytes(text)


def compare(first, last, given, folder):
    """Compares inputs: the counts by kind, code and how well, and a line for each that is wrong."""
    counts, lines = collections.Counter(), []
    for number in range(first, last):
        kind, one = input_of(number, given.kind)
        found = compare_programs.found_of(one, given.program, folder)
        wrong, how = judge(one, found)
        code = (one.fault or "none").split(" ")[0]
        if wrong:
            how = "wrong"
            keep(number, one, found)
            lines.append(f"WRONG {number} {kind} {one.fault}: {wrong} | {found[1][:200]}")
        counts[kind, code, how] += 1
    return counts, lines


def compare_chunk(job):
    """Compares some inputs in a process of their own, whose folder is where it runs."""
    first, last, given = job
    return compare(first, last, given, pathlib.Path.cwd())


def told(counts):
    """The table of the counts."""
    yield f"{'kind':14}{'answer':8}{'inputs':>8}{'exact':>8}{'header':>8}{'wrong':>8}"
    hows = ["exact", "header", "wrong"]
    for kind in KINDS:
        codes = sorted({code for of, code, _how in counts if of == kind}, key=lambda code: (code[:1], len(code), code))
        for code in codes:
            here = {how: counts[kind, code, how] for how in [*hows, ""]}
            yield f"{kind:14}{code:8}{sum(here.values()):8}" + "".join(f"{here[how]:8}" for how in hows)


def share(counts):
    """Of those answered C2, C3, TR2 and TR3 with one damage: how many there are, and how many headers."""
    known = {key: count for key, count in counts.items() if key[0] in ("table", "row") and key[1] in WITH_PLACE}
    return sum(known.values()), sum(count for key, count in known.items() if key[2] == "header")


def main():
    words = argparse.ArgumentParser(description=__doc__.replace("KINDS", ", ".join(KINDS)),
                                    formatter_class=argparse.RawDescriptionHelpFormatter)
    words.add_argument("first", type=int, metavar="FIRST")
    words.add_argument("last", type=int, metavar="LAST")
    words.add_argument("--program", type=pathlib.Path, default=compare_programs.PROGRAM, metavar="FILE")
    words.add_argument("--processes", type=int, default=len(os.sched_getaffinity(0)), metavar="N")
    words.add_argument("--kind", choices=KINDS)
    given = words.parse_args()
    given.program = given.program.resolve(strict=True)
    began = time.monotonic()
    jobs = [(first, min(first + CHUNK, given.last), given) for first in range(given.first, given.last, CHUNK)]
    counts = compare_programs.counted(jobs, given.processes, compare_chunk)
    known, headers = share(counts)
    wrong = sum(count for key, count in counts.items() if key[2] == "wrong")
    print(*told(counts), f"of one damage, answered C2, C3, TR2 or TR3: {known}, with the header's line {headers}",
          f"inputs {sum(counts.values())} wrong {wrong} seconds {time.monotonic() - began:.0f}", sep="\n")
    return 1 if wrong or headers * HEADERS_SHARE > known else 0


if __name__ == "__main__":
    sys.exit(main())
