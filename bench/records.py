"""Records of maps files, taken apart and put together, for the programs here that make files of their own."""
import dataclasses
import struct

import plain_scheduler

BROADCAST = 0x3FFF
NOBODY = 0
REQUEST, INITIAL_MAINTENANCE, NULL = 1, 3, 7
HEAD_BYTES = 16
COUNT = 2


@dataclasses.dataclass
class Record:
    """A record with a head of 16 bytes and all its elements, the Null among them, as lists of SID, IUC and offset."""

    round: int
    head: bytearray
    elements: list

    def text(self):
        """Its bytes, with its own count of elements and the length of its body. What passes its bits loses the rest."""
        body = bytearray(self.head)
        body[COUNT] = len(self.elements) & 0xFF
        for sid, iuc, offset in self.elements:
            body += struct.pack(">I", (sid & 0x3FFF) << 18 | (iuc & 0xF) << 14 | offset & 0x3FFF)
        return struct.pack(">IH", self.round & 0xFFFFFFFF, len(body)) + body

    def null(self):
        """The place of its Null among the elements, or their number where there is none."""
        nulls = (at for at, (_sid, iuc, _offset) in enumerate(self.elements) if iuc == NULL)
        return next(nulls, len(self.elements))


def records_of(text):
    """The records of a lawful maps file."""
    records, at = [], 0
    while at < len(text):
        round_number, length = struct.unpack_from(">IH", text, at)
        words = struct.unpack_from(f">{(length - HEAD_BYTES) // 4}I", text, at + 6 + HEAD_BYTES)
        elements = [[word >> 18, word >> 14 & 0xF, word & 0x3FFF] for word in words]
        records.append(Record(round_number, bytearray(text[at + 6 : at + 6 + HEAD_BYTES]), elements))
        at += 6 + length
    return records


class Plant:
    """The heads and elements of a configuration's MAPs, with what a report grants in them."""

    def __init__(self, tables):
        self.round_ticks, self.lead_ticks = tables["round_ticks"], tables["lead_ticks"]
        self.channels = [plain_scheduler.Channel(table, self.round_ticks) for table in tables["channel"]]

    def head(self, round_number, channel):
        ack = max(round_number * self.round_ticks - self.lead_ticks, 0) // channel.ticks
        numbers = struct.pack(">BBBBII", channel.id, channel.t["ucd_count"], 0, 0, round_number * channel.len, ack)
        return bytearray(numbers + bytes(channel.t["ranging_backoff"] + channel.t["data_backoff"]))

    def reserves(self, round_number, channel):
        """The reserves as (start, slots, SID, IUC)."""
        reserves = []
        maintenance, contention = channel.t["maintenance_minislots"], channel.t["contention_minislots"]
        if maintenance > 0 and round_number % channel.t["maintenance_every"] == 0:
            reserves.append((0, maintenance, BROADCAST, INITIAL_MAINTENANCE))
        if contention > 0:
            reserves.append((channel.len - contention, contention, BROADCAST, REQUEST))
        return reserves

    def elements(self, round_number, channel, grants):
        """The elements of a MAP with grants (start, slots, SID, IUC), up to the Null. What is empty, overlaps an
        earlier one or starts outside has none."""
        elements, at = [], 0

        def add_gap(end):
            is_wide = end - at >= channel.t["request_minislots"]
            if end > at:
                elements.append([BROADCAST if is_wide else NOBODY, REQUEST, at])

        for start, slots, sid, iuc in sorted([*self.reserves(round_number, channel), *grants]):
            if slots > 0 and at <= start < channel.len:
                add_gap(start)
                elements.append([sid, iuc, start])
                at = min(start + slots, channel.len)
        add_gap(channel.len)
        return [*elements, [NOBODY, NULL, channel.len]]

    def record(self, round_number, channel, grants=()):
        """The record of a MAP with these grants and without pendings."""
        elements = self.elements(round_number, channel, grants)
        return Record(round_number, self.head(round_number, channel), elements)
