"""Inputs of mapsim by number, for bench/compare_programs.py, with what bench/plain_program.py does with them: lawful
configurations, traces, maps files and reports, damaged in one way or another, and some that aren't."""
import functools
import pathlib
import random
from typing import NamedTuple

import compare_schedulers
import damage_bytes
import damage_configs
import damage_documents
import damage_schedules
import damage_traces
import plain_program
import plain_reader
import plain_scheduler
import plain_trace
from plain_program import Answer

CONFIGS = pathlib.Path(__file__).resolve().parent.parent / "crates/mapsim/cases/configs"
STORED = ["base", "four_types", "two_channels", "unsolicited", "reserved", "reserved_channels", "short_maps", "no_flows",
          "other_form", "activity"]
# from which inputs are made; those up to half of them are of stored configurations
BASES = 600
MOST_CONFIG_BYTES = 4_000
MOST_OCCURRENCES = 300
MOST_ROWS = 40
TOO_MANY_ROUNDS = [plain_program.MOST_RUN_TICKS + 1, plain_program.GREATEST_WORD]
MARKS = 4 * [b"%%\n"] + [b"%%\r\n", b"%%", b"%%\n%%\n", b" %%\n", b"%% \n", b"%\n", b"", b"\n%%\n", b"%%%\n", b"# %%\n"]


class Input(NamedTuple):
    """The words of a run, the files that it finds, and what the second program does with them."""

    words: list
    files: dict
    answer: Answer


# What is damaged


class Base:
    """A configuration, a trace and a number of rounds that have no fault, and what a run makes of them."""

    def __init__(self, config, trace, rounds):
        self.config, self.trace, self.rounds = config, trace, rounds

    @functools.cached_property
    def run(self):
        """The maps file and the report."""
        rows = plain_trace.rows_of(self.trace)
        return plain_scheduler.schedule(plain_reader.tables_of(self.config.encode()), rows, self.rounds)[:2]


def sids_of(tables):
    """What may be asked for by channel and SID, and what may be marked."""
    pairs = [(flow["type"], pair) for flow in tables.get("flow", [])
             for sids in flow["clusters"] for pair in zip(flow["channels"], sids)]
    return [pair for _type, pair in pairs], [pair for type, pair in pairs if type == 5]


def with_trace(chance, config):
    """A configuration with a trace for it."""
    tables = plain_reader.tables_of(config.encode())
    asks, silent = sids_of(tables)
    rounds, ids = chance.choice([1, 2, 2, 3, 3, 4, 6]), [table["id"] for table in tables["channel"]]
    trace = compare_schedulers.trace(chance, tables["round_ticks"], tables["lead_ticks"], asks, silent, ids, rounds,
                                     chance.choice([0, 1, 3, 8, 20, 40]))
    return Base(config, "".join(trace.splitlines(keepends=True)[:MOST_ROWS]).encode(), rounds)


def small_config(chance):
    """A random configuration, with a calendar or without, that is soon read and replayed."""
    while True:
        text, round_ticks, _lead, asks, ids = compare_schedulers.config(
            chance, channels=chance.choice([1, 1, 2, 3]), flows=chance.randint(0, 4))
        pace = 0
        if chance.random() < 0.7:
            text, _asks, _silent, pace = compare_schedulers.with_calendar(chance, text, round_ticks, asks, ids, False)
        if len(text) <= MOST_CONFIG_BYTES and pace <= MOST_OCCURRENCES:
            return text


@functools.cache
def base(number):
    chance = random.Random(f"base {number}")
    if number < BASES // 2:
        return with_trace(chance, (CONFIGS / f"{STORED[number % len(STORED)]}.toml").read_text("utf-8"))
    return with_trace(chance, small_config(chance))


# The kinds of inputs


def numbers(chance, one):
    """How many rounds and workers a run has; a few have too many or none."""
    rounds = chance.choice([0, *TOO_MANY_ROUNDS]) if chance.random() < 0.02 else one.rounds
    workers = chance.choice([0, 65, plain_program.GREATEST_WORD, 64] if chance.random() < 0.01 else [1, 1, 1, 1, 2, 3])
    return rounds, workers


def piped(text, rounds, workers):
    words = ["pipe", "--rounds", str(rounds), "--workers", str(workers)]
    return Input(words, {"input": text}, plain_program.pipe(text, rounds, workers))


def replayed(config, trace, rounds, workers):
    words = ["replay", "--config", "config", "--trace", "trace", "--rounds", str(rounds), "--workers", str(workers),
             "--maps", "maps", "--report", "report"]
    return Input(words, {"config": config, "trace": trace}, plain_program.replay(config, trace, rounds, workers))


def checked(config, trace, rounds, maps, report):
    words = ["check", "--config", "config", "--trace", "trace", "--rounds", str(rounds), "--maps", "maps",
             "--report", "report"]
    files = {"config": config, "trace": trace, "maps": maps, "report": report}
    return Input(words, files, plain_program.check(config, trace, rounds, maps, report))


def with_damaged_tables(chance, text):
    """A configuration whose keys and values are damaged, where they stand as that damage has to find them."""
    try:
        return damage_configs.damaged(chance, text)[0]
    except (IndexError, ValueError):
        return text


def damaged_config(chance, text):
    way = chance.random()
    if way < 0.2:
        for _ in range(chance.choice([1, 1, 2, 3])):
            text = damage_configs.aimed(chance, text)
    if 0.15 < way < 0.5:
        text = with_damaged_tables(chance, text)
    if 0.45 < way < 0.75:
        text = damage_documents.written_otherwise(chance, text)
    text = text.encode()
    return damage_bytes.damaged(chance, text) if way > 0.7 else text


def of_configuration(chance, one):
    config = damaged_config(chance, one.config)
    end = b"" if config.endswith(b"\n") else b"\n"
    return piped(config + end + plain_program.MARK + one.trace, *numbers(chance, one))


def of_trace(chance, one):
    trace, (rounds, workers) = damage_traces.damaged(chance, one.trace), numbers(chance, one)
    if chance.random() < 0.2:
        return replayed(one.config.encode(), trace, rounds, workers)
    return piped(one.config.encode() + plain_program.MARK + trace, rounds, workers)


def of_input(chance, one):
    """Standard input as a whole, and above all the mark in it."""
    text = one.config.encode() + chance.choice(MARKS) + one.trace
    if chance.random() < 0.7:
        text = damage_bytes.damaged(chance, text)
    return piped(text, *numbers(chance, one))


def of_maps(chance, one):
    maps = damage_schedules.damaged_maps(chance, one.run[0])
    return Input(["dump", "--maps", "maps"], {"maps": maps}, plain_program.dump(maps))


def of_schedule(chance, one):
    rounds = one.rounds + chance.choice([-1, 1]) if chance.random() < 0.03 else numbers(chance, one)[0]
    maps, report, _names = damage_schedules.damaged(chance, one.config, one.rounds, *one.run)
    return checked(one.config.encode(), one.trace, rounds, maps, report)


def of_check(chance, one):
    """All that `check` reads, each damaged now and then."""
    config, trace, (maps, report) = one.config.encode(), one.trace, one.run
    if chance.random() < 0.3:
        config = damaged_config(chance, one.config)
    if chance.random() < 0.5:
        trace = damage_traces.damaged(chance, trace)
    if chance.random() < 0.2:
        maps = damage_bytes.damaged(chance, maps)
    if chance.random() < 0.2:
        report = damage_bytes.damaged(chance, report)
    return checked(config, trace, numbers(chance, one)[0], maps, report)


def of_run(chance, _one):
    """A run of its own that has no fault."""
    one = with_trace(chance, small_config(chance))
    return replayed(one.config.encode(), one.trace, *numbers(chance, one))


def of_great_size(chance, one):
    """A text at the limit of its bytes or records, or right past it."""
    config, trace, more = one.config.encode(), one.trace, chance.choice([0, 1])
    way = chance.choice(["configuration", "trace", "records", "input"])
    if way == "configuration":
        config = config.ljust(plain_reader.MOST_BYTES - 1, b" ") + b"\n" + b"\n" * more
    elif way == "trace":
        trace = trace.ljust(plain_trace.MOST_BYTES + more, b"\n")
    elif way == "records":
        row = trace.splitlines(keepends=True)[-1]
        trace += row * (plain_trace.MOST_RECORDS + more - trace.count(b"\n"))
    else:
        room = plain_program.MOST_INPUT_BYTES + more - len(config) - len(plain_program.MARK)
        trace = trace.ljust(room, b"\n")
    return piped(config + plain_program.MARK + trace, *numbers(chance, one))


# of so many inputs, how many are of a kind
KINDS = {
    "configuration": (of_configuration, 34_000), "trace": (of_trace, 20_000), "input": (of_input, 4_000),
    "maps": (of_maps, 20_000), "schedule": (of_schedule, 12_000), "check": (of_check, 4_000), "run": (of_run, 6_000),
    "great": (of_great_size, 2),
}


def input_of(number, kind=None):
    """The kind of an input, and the input."""
    chance = random.Random(number)
    kind = kind or chance.choices(list(KINDS), [weight for _of, weight in KINDS.values()])[0]
    return kind, KINDS[kind][0](chance, base(chance.randrange(BASES)))
