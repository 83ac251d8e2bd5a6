#!/usr/bin/env python3
"""Damages a lawful maps file and its report: one to three random changes, as a wrong scheduler or a bad disk might.

  bench/damage_schedules.py --config F --rounds N --maps F --report F --seed N --to FOLDER

writes FOLDER/maps and FOLDER/report, and prints the names of the changes. bench/compare_checkers.py has the checkers
judge such files.

Some changes are of bytes, elements, records or lines alone. Others change a line and its MAP together, or a claim and
the final line of its cluster, so that a later rule is the first to fail, or none. A maps file alone is damaged so that
it is none as often as not.
"""
import argparse
import pathlib
import random
import struct
import sys

import damage_bytes
import plain_maps
import plain_reader
import records

UNITS_PER_BYTE = 1_280_000
WORDS = ["ugs", "ad", "rtp", "nrtp", "station", "req"]
# places of fields in the lines of grants; those of missed occurrences end with K
ROUND, CHANNEL, WORD, ID, I, K, SID, IUC, START, SLOTS, CREDIT = range(1, 12)
# limits of fields, of what stands in a MAP, and of numbers in a machine
LIMITS = [0, 1, 2, 7, 9, 10, 11, 100, 127, 160, 4_095, 4_096, 16_383, 16_384, 65_535, 65_536, 98_296, 98_297, 98_304]
LIMITS += [2**31, 2**32 - 1, 2**32, 2**62, 2**63, 2**64 - 1]


class Schedule:
    """A lawful maps file and report taken apart, with what the configuration says of them."""

    def __init__(self, tables, rounds, maps, report):
        self.plant, self.rounds = records.Plant(tables), rounds
        self.channels = {channel.id: channel for channel in self.plant.channels}
        self.flows = {flow["id"]: flow for flow in tables.get("flow", []) if flow["type"] not in (5, 6)}
        self.records = records.records_of(maps)
        self.lines = [line.split(",") for line in report.decode("ascii").splitlines()]

    def maps(self):
        return b"".join(record.text() for record in self.records)

    def report(self):
        return "".join(",".join(line) + "\n" for line in self.lines).encode("ascii")

    def of(self, letters, has_claims=True):
        """The lines of these letters."""
        return [line for line in self.lines if line[0] in letters and (has_claims or line[WORD] != "req")]

    def claims(self):
        """The lines of requested grants, of flows and channels that are there."""
        lines = [line for line in self.of("G") if line[WORD] == "req" and int(line[ID]) in self.flows]
        return [line for line in lines if int(line[CHANNEL]) in self.channels]

    def grants(self, round_number, id):
        """What the lines grant in a MAP."""
        lines = [line for line in self.of("G") if line[ROUND : CHANNEL + 1] == [str(round_number), str(id)]]
        return [tuple(int(line[field]) for field in (START, SLOTS, SID, IUC)) for line in lines]

    def idle_runs(self, round_number, id):
        """The start and the length of each idle run of a MAP, as its lines tell."""
        channel = self.channels[id]
        runs, at = [], 0
        for start, slots, *_ in sorted([*self.plant.reserves(round_number, channel), *self.grants(round_number, id)]):
            if start > at:
                runs.append((at, start - at))
            at = max(at, start + slots)
        if at < channel.len:
            runs.append((at, channel.len - at))
        return runs

    def tell(self, *places):
        """Makes these MAPs follow the lines, with the pendings that they had."""
        for record in self.records:
            if (record.round, record.head[0]) in places:
                channel = self.channels[record.head[0]]
                pendings = record.elements[record.null() + 1 :]
                grants = self.grants(record.round, channel.id)
                record.elements = self.plant.elements(record.round, channel, grants) + pendings

    def tell_final(self, id, cluster, bytes_back):
        """Makes the final lines of a flow follow its claims, of which a cluster's are less by so many bytes."""
        flow = self.flows.get(id)
        if flow is None:
            return
        units = most = flow["burst"] * UNITS_PER_BYTE
        for round_number in range(self.rounds):
            units = min(units + self.plant.round_ticks * flow["rate"], most) if round_number > 0 else most
            here = [line for line in self.claims() if (line[ROUND], line[ID]) == (str(round_number), str(id))]
            units -= sum(int(line[CREDIT]) for line in here) * UNITS_PER_BYTE
        for line in self.of("F"):
            if line[1] == str(id):
                line[3] = str(max(int(line[3]) + (bytes_back if line[2] == str(cluster) else 0), 0))
                line[4] = str(max(units, 0)) if flow["rate"] > 0 else "-"


def place_of(line):
    """The round and the channel of a line."""
    return int(line[ROUND]), int(line[CHANNEL])


def other_number(chance, number, beside):
    """A number near this one, another of the same kind, or some limit."""
    near = max(number + chance.choice([-1, 1, -1, 1, chance.randint(-20, 20)]), 0)
    other = chance.choice(beside)
    wrapped = number + chance.choice([2**8, 2**14, 2**16, 2**32, 2**63])
    return chance.choice([near, near, near, other, other, chance.choice(LIMITS), wrapped])


# The changes. Each answers whether it could be made.


def any_element(chance, schedule):
    """A record and the place of one of its elements, or None where earlier changes left none."""
    record = chance.choice(schedule.records)
    return record, chance.randrange(len(record.elements)) if record.elements else None


def element_field(chance, schedule):
    record, at = any_element(chance, schedule)
    if at is None:
        return False
    field = chance.randrange(3)
    beside = [element[field] for element in record.elements]
    record.elements[at][field] = other_number(chance, record.elements[at][field], beside)
    return True


def element_added(chance, schedule):
    record, at = any_element(chance, schedule)
    if at is None:
        return False
    sid, iuc, offset = record.elements[at]
    offset += chance.choice([0, 0, 1, 1, chance.randint(0, 20)])
    record.elements.insert(at + chance.choice([0, 1, 1]), [sid, chance.choice([iuc, iuc, 1, 10]), offset])
    return True


def element_removed(chance, schedule):
    record, at = any_element(chance, schedule)
    if at is not None:
        del record.elements[at]
    return at is not None


def pending_changed(chance, schedule):
    """What stands after the Null isn't judged, as long as it is in the grammar."""
    record = chance.choice(schedule.records)
    null = record.null()
    if null == len(record.elements):
        return False
    sid, iuc = chance.choice([(chance.randrange(16_384), 10), (291, chance.randrange(16))])
    record.elements.insert(chance.randint(null + 1, len(record.elements)), [sid, iuc, record.elements[null][2]])
    return True


def head_byte(chance, schedule):
    head = chance.choice(schedule.records).head
    at = chance.choice([0, 1, 3, *range(4, 16)])
    head[at] = chance.choice([(head[at] + 1) % 256, (head[at] - 1) % 256, chance.randrange(16), 255])
    return True


def null_changed(chance, schedule):
    """Another SID of the Null, another IUC, or a second one."""
    record, at = any_element(chance, schedule)
    if at is None:
        return False
    null = record.elements[min(record.null(), len(record.elements) - 1)]
    change = chance.choice([(null, 0, 1), (null, 1, chance.randrange(16)), (record.elements[at], 1, records.NULL)])
    element, field, value = change
    element[field] = value
    return True


def all_offsets_moved(chance, schedule):
    """So that the first isn't 0, but all else is in order."""
    record = chance.choice(schedule.records)
    for element in record.elements:
        element[2] += 1
    return bool(record.elements)


def elements_without_end(chance, schedule):
    """As many elements as a MAP may have, and some more, in order."""
    record = chance.choice(schedule.records)
    count = chance.choice([239, 240, 241, 242, 255])
    pendings = chance.choice([0, 38])
    record.elements = [[at, 10, at] for at in range(count - pendings - 1)]
    record.elements += [[records.NOBODY, records.NULL, count]] + [[1, 10, count]] * pendings
    return True


def record_round(chance, schedule):
    record = chance.choice(schedule.records)
    record.round = other_number(chance, record.round, [other.round for other in schedule.records])
    return True


def record_removed(chance, schedule):
    del schedule.records[chance.randrange(len(schedule.records))]
    return True


def record_doubled(chance, schedule):
    schedule.records.insert(chance.randint(0, len(schedule.records)), chance.choice(schedule.records))
    return True


def records_swapped(chance, schedule):
    one, other = chance.randrange(len(schedule.records)), chance.randrange(len(schedule.records))
    schedule.records[one], schedule.records[other] = schedule.records[other], schedule.records[one]
    return one != other


def line_removed(chance, schedule):
    lines = schedule.of(chance.choice(["GM", "GM", "M", "F", "A", "U"]))
    if lines:
        schedule.lines.remove(chance.choice(lines))
    return bool(lines)


def line_doubled(chance, schedule):
    lines = schedule.of(chance.choice(["GM", "M", "F", "A", "U"]))
    if lines:
        schedule.lines.insert(chance.randint(0, len(schedule.lines)), list(chance.choice(lines)))
    return bool(lines)


def lines_moved(chance, schedule):
    """The order of lines isn't judged."""
    chance.shuffle(schedule.lines)
    return len(schedule.lines) > 1


def changed_field(chance, schedule, line):
    """Changes a field of a line."""
    field = chance.randrange(1, len(line))
    if line[0] in "GM" and field == WORD:
        line[WORD] = chance.choice(WORDS)
        return
    beside = [other[field] for other in schedule.lines if other[0] == line[0]]
    if line[field] == "-":
        line[field] = chance.choice([*beside, "0", "1280000"])
    else:
        numbers = [int(number) for number in beside if number != "-"]
        line[field] = str(other_number(chance, int(line[field]), numbers))


def line_field(chance, schedule):
    lines = schedule.of(chance.choice(["G", "G", "M", "F", "A", "U"]))
    if lines:
        changed_field(chance, schedule, chance.choice(lines))
    return bool(lines)


def line_added(chance, schedule):
    """A line that is another one but for one or two fields."""
    lines = schedule.of(chance.choice(["GM", "M", "F", "A", "U"]))
    if lines:
        line = list(chance.choice(lines))
        schedule.lines.insert(chance.randint(0, len(schedule.lines)), line)
        for _ in range(chance.choice([1, 1, 2])):
            changed_field(chance, schedule, line)
    return bool(lines)


def grant_of(chance, schedule):
    lines = schedule.of("G")
    return chance.choice(lines) if lines else None


def grant_field(chance, schedule):
    """SID, IUC, start or slots of a grant and of its element."""
    line = grant_of(chance, schedule)
    if line is None:
        return False
    field = chance.choice([SID, IUC, START, SLOTS])
    line[field] = str(other_number(chance, int(line[field]), [int(other[field]) for other in schedule.of("G")]))
    schedule.tell(place_of(line))
    return True


def put(chance, schedule, line, round_number, channel):
    """Moves a grant to an idle run of a MAP, if there is one that it fits."""
    if channel not in schedule.channels:
        return False
    slots = int(line[SLOTS])
    runs = [(start, length) for start, length in schedule.idle_runs(round_number, channel) if length >= slots]
    if not runs:
        return False
    before = place_of(line)
    start, length = chance.choice(runs)
    at = start + chance.choice([0, length - slots, chance.randint(0, length - slots)])
    line[ROUND], line[CHANNEL], line[START] = str(round_number), str(channel), str(at)
    schedule.tell(before, place_of(line))
    return True


def grant_moved(chance, schedule):
    line = grant_of(chance, schedule)
    return line is not None and put(chance, schedule, line, *place_of(line))


def grant_to_another_round(chance, schedule):
    line = grant_of(chance, schedule)
    if line is None:
        return False
    near = place_of(line)[0] + chance.choice([-1, 1])
    to = chance.choice([near % schedule.rounds, chance.randrange(schedule.rounds)])
    return put(chance, schedule, line, to, int(line[CHANNEL]))


def grant_to_another_channel(chance, schedule):
    line = grant_of(chance, schedule)
    return line is not None and put(chance, schedule, line, int(line[ROUND]), chance.choice(list(schedule.channels)))


def grant_removed(chance, schedule):
    """A grant less, with its element; the final lines follow."""
    line = grant_of(chance, schedule)
    if line is None:
        return False
    schedule.lines.remove(line)
    schedule.tell(place_of(line))
    if line[WORD] == "req":
        schedule.tell_final(int(line[ID]), int(line[I]), int(line[CREDIT]))
    return True


def grant_missed(chance, schedule):
    """An occurrence that is missed though it was granted."""
    lines = [line for line in schedule.of("G", has_claims=False)]
    if not lines:
        return False
    line = chance.choice(lines)
    line[0] = "M"
    del line[K + 1 :]
    schedule.tell(place_of(line))
    return True


def missed_granted(chance, schedule):
    """An occurrence that is granted though it was missed, as another one of its entry is."""
    alike = {(line[WORD], line[ID]): line for line in schedule.of("G", has_claims=False)}
    missed = [line for line in schedule.of("M") if (line[WORD], line[ID]) in alike]
    if not missed:
        return False
    line = chance.choice(missed)
    line[0] = "G"
    line += alike[line[WORD], line[ID]][SID:]
    # where there is no room it stands over another one
    if not put(chance, schedule, line, *place_of(line)):
        schedule.tell(place_of(line))
    return True


def credited_otherwise(chance, schedule):
    """Another credit, and the final lines follow; now and then the slots do too."""
    claims = schedule.claims()
    if not claims:
        return False
    line = chance.choice(claims)
    before = int(line[CREDIT])
    after = chance.choice([before - 1, before + 1, before + 1, before + 1, before // 2, 2 * before, 2**64 - 1])
    line[CREDIT] = str(after)
    schedule.tell_final(int(line[ID]), int(line[I]), before - after)
    if chance.random() < 0.5 and after < 98_000:
        header = 8 if schedule.flows[int(line[ID])]["headers"] else 0
        slots, iuc = schedule.channels[int(line[CHANNEL])].grant_cost(after + header)
        line[SLOTS], line[IUC] = str(slots), str(iuc)
        schedule.tell(place_of(line))
    return True


def claim_added(chance, schedule):
    """A claim of a cluster that has bytes outstanding at the end, if it fits somewhere; the final lines follow."""
    waiting = [line for line in schedule.of("F") if int(line[3]) > 0 and int(line[1]) in schedule.flows]
    if not waiting:
        return False
    final = chance.choice(waiting)
    flow = schedule.flows[int(final[1])]
    place = chance.randrange(len(flow["channels"]))
    channel = schedule.channels[flow["channels"][place]]
    credit = min(chance.choice([1, 1, 10, 200, int(final[3])]), int(final[3]), 98_000)
    slots, iuc = channel.grant_cost(credit + (8 if flow["headers"] else 0))
    cluster = int(final[2])
    if cluster >= len(flow["clusters"]):
        return False
    numbers = [flow["clusters"][cluster][place], iuc, 0, slots, credit]
    line = ["G", "0", str(channel.id), "req", final[1], final[2], "0", *(str(number) for number in numbers)]
    round_number = chance.choice([schedule.rounds - 1, chance.randrange(schedule.rounds)])
    if not put(chance, schedule, line, round_number, channel.id):
        return False
    schedule.lines.append(line)
    schedule.tell(place_of(line))
    schedule.tell_final(flow["id"], cluster, -credit)
    return True


def maps_bytes(chance, maps, report):
    return damage_bytes.damaged(chance, maps), report


def report_bytes(chance, maps, report):
    return maps, damage_bytes.damaged(chance, report)


def line_form(chance, maps, report):
    """Makes a line of the report one that is none, most likely."""
    lines = report.split(b"\n")
    at = chance.randrange(len(lines))
    fields = lines[at].split(b",")
    field = chance.randrange(len(fields))
    text = fields[field]
    spellings = [b"0" + text, b" " + text, text + b"\r", b"+" + text, b"", b"-", b"18446744073709551616", text + b".0",
                 text + b"\n", text.swapcase(), text + b",", text + b",0"]
    fields[field] = chance.choice(spellings)
    if chance.random() < 0.2:
        del fields[field]
    lines[at] = b",".join(fields)
    return maps, b"\n".join(lines)


class Maps:
    """A maps file alone, taken apart."""

    def __init__(self, text):
        self.records = records.records_of(text)


def body_spoiled(chance, body):
    """A body cut, made longer, or with another byte of its head."""
    at = chance.randrange(records.HEAD_BYTES)
    return chance.choice([
        body[: chance.randrange(len(body))], body[:at], body[:-1], body[:-4], body + bytes(chance.choice([1, 4, 400])),
        body[:2] + bytes([chance.randrange(256)]) + body[3:],
        body[:at] + bytes([chance.choice([0, 1, 15, 16, 255])]) + body[at + 1 :],
    ])


def with_body_spoiled(chance, text):
    """A maps file of which one body is none, most likely, and has its length told rightly."""
    pieces = list(plain_maps.pieces_of(text))
    at = chance.randrange(len(pieces))
    pieces[at] = pieces[at][0], body_spoiled(chance, pieces[at][1])
    return b"".join(struct.pack(">IH", number, len(body)) + body for number, body in pieces)


ELEMENTS = [element_field, element_field, element_added, element_removed, pending_changed]
HEADS = [head_byte, record_round, record_removed, record_doubled, records_swapped]
LINES = [line_removed, line_doubled, lines_moved, line_added, line_field, line_field, line_field, line_field]
GRANTS = [grant_field, grant_field, grant_moved, grant_moved, grant_moved, grant_to_another_round, grant_removed,
          grant_to_another_channel, grant_missed, missed_granted, missed_granted]
CLAIMS = [credited_otherwise, credited_otherwise, claim_added]
# those that a maps file alone can have
OF_MAPS = [*ELEMENTS, *HEADS, null_changed, null_changed, all_offsets_moved, elements_without_end, elements_without_end]
# these come behind the others, which need lines and records that are some
BYTES = [maps_bytes, maps_bytes, report_bytes, line_form, line_form]
# so that each rule fails about as often as the others
KINDS = [ELEMENTS, HEADS, LINES, LINES, LINES, GRANTS, GRANTS, GRANTS, CLAIMS, CLAIMS, CLAIMS, BYTES]


def changed(chance, config_text, rounds, maps, report):
    """A maps file and a report with one to three changes, some of which may leave all as it was, and their names."""
    schedule = Schedule(plain_reader.tables_of(config_text.encode()), rounds, maps, report)
    names, last, wanted = [], [], chance.choice([1, 1, 1, 2, 3])
    while len(names) < wanted:
        change = chance.choice(chance.choice(KINDS))
        if change in BYTES:
            last.append(change)
        # earlier changes may have left no record and no line
        elif not schedule.records or not schedule.lines or not change(chance, schedule):
            continue
        names.append(change.__name__)
    maps, report = schedule.maps(), schedule.report()
    for change in last:
        maps, report = change(chance, maps, report)
    return maps, report, names


def damaged_maps(chance, text):
    """A maps file with some damage, by its records, by a body or by its bytes."""
    way = chance.random()
    if way < 0.5:
        maps = Maps(text)
        for _ in range(chance.choice([1, 1, 1, 2, 4])):
            if maps.records:
                chance.choice(OF_MAPS)(chance, maps)
        text = b"".join(record.text() for record in maps.records)
    elif way < 0.7:
        text = with_body_spoiled(chance, text)
    return damage_bytes.damaged(chance, text) if way > 0.7 or way < 0.05 else text


def damaged(chance, config_text, rounds, maps, report):
    """Another maps file and report than these, which are lawful, and the names of the changes that made them."""
    while True:
        others = changed(chance, config_text, rounds, maps, report)
        if others[:2] != (maps, report):
            return others


def shuffled(chance, lines):
    chance.shuffle(lines)


def turned_round(_chance, lines):
    lines.reverse()


def one_moved(chance, lines):
    lines.insert(chance.randrange(len(lines)), lines.pop(chance.randrange(len(lines))))


def reordered(chance, report):
    """A report with the same lines in another order, most likely, and the name of the change."""
    lines = report.splitlines(keepends=True)
    change = chance.choice([shuffled, turned_round, one_moved])
    if lines:
        change(chance, lines)
    return b"".join(lines), change.__name__


def main():
    words = argparse.ArgumentParser(description=__doc__, formatter_class=argparse.RawDescriptionHelpFormatter)
    for name in ("config", "maps", "report"):
        words.add_argument(f"--{name}", type=pathlib.Path, required=True, metavar="F")
    words.add_argument("--rounds", type=int, required=True, metavar="N")
    words.add_argument("--seed", required=True, metavar="N")
    words.add_argument("--to", type=pathlib.Path, required=True, metavar="FOLDER")
    given = words.parse_args()
    maps, report, names = damaged(random.Random(given.seed), given.config.read_text("utf-8"), given.rounds,
                                  given.maps.read_bytes(), given.report.read_bytes())
    given.to.mkdir(parents=True, exist_ok=True)
    (given.to / "maps").write_bytes(maps)
    (given.to / "report").write_bytes(report)
    print("\n".join(names))


if __name__ == "__main__":
    sys.exit(main())
