"""A plain second reader of traces, from the rules alone (docs/FORMATS.md). Python's `csv` splits records."""
import csv
import io
import re
import sys

from plain_reader import Fault

MOST_BYTES = 33_554_432
MOST_RECORDS = 1_000_001
BYTE_ORDER_MARK = b"\xef\xbb\xbf"
FIRST_VERSION = ["tick", "channel", "sid", "units"]
HEADERS = (FIRST_VERSION, [*FIRST_VERSION, "kind"])
GREATEST = (4_294_967_295, 255, 16_383, 65_535, 2)
NUMBER = re.compile("[0-9]{1,10}")

csv.field_size_limit(sys.maxsize)


def records_of(text):
    """The fields of each record. Each byte is a character."""
    lines = io.StringIO(text.removeprefix(BYTE_ORDER_MARK).decode("latin-1"), newline="")
    return (record for record in csv.reader(lines) if record)


def lines_of_records(text):
    """The line on which each record begins, counted from 1. A line ends with LF."""
    feeds = 0

    def counted(lines):
        nonlocal feeds
        for line in lines:
            feeds += line.count("\n")
            yield line

    begins = 1
    for record in csv.reader(counted(io.StringIO(text.decode("latin-1"), newline=""))):
        if record:
            yield begins
        begins = 1 + feeds


def row_of(record):
    """Tick, channel, SID, units and kind of a record, or None where a field isn't in its range."""
    if not all(map(NUMBER.fullmatch, record)):
        return None
    row = [int(field) for field in record]
    if any(number > greatest for number, greatest in zip(row, GREATEST)):
        return None
    is_mark_with_units = len(row) == 5 and row[4] > 0 and row[3] > 0
    return None if is_mark_with_units else (*row, 0)[:5]


def rows_of(text):
    """The rows of a trace: tick, channel, SID, units and kind, which is 0 in the first version."""
    if len(text) > MOST_BYTES:
        raise Fault("TR4")
    records = records_of(text)
    header = next(records, None)
    if header not in HEADERS:
        raise Fault("TR1")
    rows = []
    for number, record in enumerate(records, 2):
        if number > MOST_RECORDS:
            raise Fault("TR4")
        if len(record) != len(header):
            raise Fault(f"TR2 {number}")
        row = row_of(record)
        if row is None:
            raise Fault(f"TR3 {number}")
        rows.append(row)
    return rows
