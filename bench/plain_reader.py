#!/usr/bin/env python3
"""A plain, slow second reader of configurations: it prints `ok`, or the first fault as `C8 channel 0`.

It is written from the rules alone (docs/FORMATS.md), in their order, and shares nothing with the crates; so where the
two answers differ, one of them is wrong.

usage: bench/plain_reader.py < FILE
"""
import sys

import plain_toml

MOST_BYTES = 4_194_304
TYPES = (2, 3, 4, 5, 6)
GRANTED = (5, 6)  # those that have unsolicited grants, and make no requests


class Fault(Exception):
    """Why something is refused: a code, and the place that it names."""


def refuse_if(is_wrong, code, place):
    """Refuses the table at `place` with the fault `code` where it is wrong."""
    if is_wrong:
        raise Fault(f"{code} {place}")


# The kinds of values: each answers whether a value is of its kind and in its range. `True` is no whole number.


def number(least, most):
    return lambda value: type(value) is int and least <= value <= most


def one_of(*numbers):
    return lambda value: type(value) is int and value in numbers


def flag(value):
    return type(value) is bool


def table(value):
    return type(value) is dict


def items(fewest, most, keeps):
    return lambda value: type(value) is list and fewest <= len(value) <= most and all(map(keeps, value))


TOP_NEEDED = {"round_ticks": number(1, 4_096), "lead_ticks": number(1, 65_536), "channel": items(1, 16, table)}
TOP_OPTIONAL = {"flow": items(0, 1_024, table), "station": items(0, 256, table)}
BACKOFFS = items(2, 2, number(0, 15))
CHANNEL = {
    "id": number(1, 255), "minislot_log2": number(0, 7), "rate_log2": number(0, 5), "ucd_count": number(0, 255),
    "ranging_backoff": BACKOFFS, "data_backoff": BACKOFFS, "request_minislots": number(1, 64),
    "contention_minislots": number(0, 4_096), "maintenance_minislots": number(0, 4_096),
    "maintenance_every": number(1, 65_536), "station_minislots": number(1, 64),
    "long": table, "short": table, "unsolicited": table,
}
PROFILE = {
    "bits": number(2, 6), "preamble": number(0, 1_024), "guard": number(0, 255), "fec_t": number(0, 16),
    "fec_k": number(16, 253), "shortened": flag,
}
PROFILES = {"long": PROFILE, "short": PROFILE | {"max_minislots": number(1, 255)}, "unsolicited": PROFILE}
SID = number(1, 15_871)
TIMES = {
    "start_us": number(0, 10_000_000), "interval_us": number(100, 10_000_000), "jitter_us": number(0, 10_000_000),
}
STATION = {"id": number(1, 65_535), "channel": number(1, 255), "sid": SID} | TIMES
REQUESTS = {
    "priority": number(0, 7), "rate": number(0, 1_000_000_000), "burst": number(1, 16_777_216),
    "unit": one_of(1, 2, 4, 8, 16), "headers": flag,
}
MIN_RATE = {"min_rate": number(0, 1_000_000_000)}
GRANTS = {"grant_bytes": number(1, 65_535), "grants_per_interval": number(1, 127)}


def flow_keys(kind):
    """The keys of a flow of this type, with the kinds of their values."""
    most_channels, most_clusters = (1, 1) if kind in GRANTED else (8, 2)
    keys = {
        "id": number(1, 65_535), "type": one_of(*TYPES), "channels": items(1, most_channels, number(1, 255)),
        # how many SIDs a cluster has is looked at later, beside the channels
        "clusters": items(1, most_clusters, items(0, sys.maxsize, SID)),
    }
    return keys | (GRANTS if kind in GRANTED else REQUESTS) | (TIMES if kind != 2 else {})


def optional_keys(kind):
    """Those that a flow of this type may have or not."""
    return {} if kind in GRANTED else MIN_RATE


def lacks(keys, found):
    return any(key not in found for key in keys)


def strays(keys, found):
    return any(key not in keys or not keys[key](value) for key, value in found.items())


def passes_codeword(profile):
    return profile["fec_k"] + 2 * profile["fec_t"] > 255


def ceiling(dividend, divisor):
    return -(-dividend // divisor)


def coded_bytes(profile, count):
    """What is sent for so many bytes: with a code, full codewords and a last one that is as long or shortened."""
    data, parity = profile["fec_k"], 2 * profile["fec_t"]
    if parity == 0:
        return count
    if not profile["shortened"]:
        return ceiling(count, data) * (data + parity)
    rest = count % data
    return count // data * (data + parity) + (max(rest, 16) + parity if rest > 0 else 0)


def cost(channel, profile, count):
    """The minislots of a burst of so many bytes."""
    symbols = ceiling(8 * coded_bytes(profile, count), profile["bits"])
    per_minislot = 2 ** (channel["minislot_log2"] + channel["rate_log2"])
    return ceiling(profile["preamble"] + profile["guard"] + symbols, per_minislot)


def map_len(document, channel):
    """The minislots of the channel's MAPs."""
    return document["round_ticks"] // 2 ** channel["minislot_log2"]


def judge_channel(place, document, earlier, channel):
    profiles = [(keys, channel.get(key)) for key, keys in PROFILES.items()]
    refuse_if(lacks(CHANNEL, channel), "C2", place)
    refuse_if(any(table(profile) and lacks(keys, profile) for keys, profile in profiles), "C2", place)
    refuse_if(strays(CHANNEL, channel), "C3", place)
    refuse_if(any(strays(keys, profile) or passes_codeword(profile) for keys, profile in profiles), "C3", place)
    refuse_if(channel["id"] in [other["id"] for other in earlier], "C5", place)
    refuse_if(document["round_ticks"] % 2 ** channel["minislot_log2"] != 0, "C8", place)
    reserves = channel["contention_minislots"] + channel["maintenance_minislots"]
    refuse_if(reserves > map_len(document, channel), "C9", place)


def sids_of(flow):
    """The SIDs of a flow, each with its channel."""
    return [pair for sids in flow["clusters"] for pair in zip(flow["channels"], sids)]


def judge_flow(place, document, earlier, flow):
    refuse_if("type" not in flow, "C2", place)
    refuse_if(not one_of(*TYPES)(flow["type"]), "C3", place)
    kind, keys = flow["type"], flow_keys(flow["type"])
    refuse_if(lacks(keys, flow), "C2", place)
    refuse_if(strays(keys | optional_keys(kind), flow), "C3", place)
    by_id = {channel["id"]: channel for channel in document["channel"]}
    ids = flow["channels"]
    refuse_if(any(number not in by_id for number in ids), "C4", place)
    refuse_if(flow["id"] in [other["id"] for other in earlier] or len(set(ids)) < len(ids), "C5", place)
    refuse_if(any(len(sids) != len(ids) for sids in flow["clusters"]), "C7", place)
    sids, taken = sids_of(flow), [pair for other in earlier for pair in sids_of(other)]
    refuse_if(len(set(sids)) < len(sids) or any(pair in taken for pair in sids), "C6", place)
    refuse_if(kind != 2 and flow["jitter_us"] >= flow["interval_us"], "C10", place)
    first = by_id[ids[0]]
    poll = 0 if kind in (2, 6) else first["request_minislots"]
    grant = cost(first, first["unsolicited"], flow["grant_bytes"]) if kind in GRANTED else 0
    refuse_if(max(poll, grant) > map_len(document, first), "C11", place)
    refuse_if(kind not in GRANTED and not flow["headers"] and len(ids) > 1, "C12", place)
    refuse_if(kind not in GRANTED and 0 < flow["rate"] < flow.get("min_rate", 0), "C14", place)


def judge_station(place, document, earlier, station):
    refuse_if(lacks(STATION, station), "C2", place)
    refuse_if(strays(STATION, station), "C3", place)
    by_id = {channel["id"]: channel for channel in document["channel"]}
    refuse_if(station["channel"] not in by_id, "C4", place)
    refuse_if(station["id"] in [other["id"] for other in earlier], "C5", place)
    refuse_if(station["jitter_us"] >= station["interval_us"], "C10", place)
    channel = by_id[station["channel"]]
    refuse_if(channel["station_minislots"] > map_len(document, channel), "C11", place)


def judge(document):
    """Refuses the first fault of a document: of the top level, then of each list's tables in their order."""
    refuse_if(lacks(TOP_NEEDED, document), "C2", "top 0")
    refuse_if(strays(TOP_NEEDED | TOP_OPTIONAL, document), "C3", "top 0")
    for key, judge_one in ("channel", judge_channel), ("flow", judge_flow), ("station", judge_station):
        tables = document.get(key, [])
        for index, found in enumerate(tables):
            judge_one(f"{key} {index}", document, tables[:index], found)


def document_of(text):
    """The document that the bytes spell."""
    try:
        document = plain_toml.document_of(text.decode("utf-8-sig")) if len(text) <= MOST_BYTES else None
    except UnicodeDecodeError:
        document = None
    if document is None:
        raise Fault("C1")
    return document


def tables_of(text):
    """The configuration that the bytes spell, as it stands in the document."""
    document = document_of(text)
    judge(document)
    return document


def answer(text):
    """What these bytes are answered with: `ok`, or their first fault."""
    try:
        tables_of(text)
    except Fault as fault:
        return str(fault)
    return "ok"


if __name__ == "__main__":
    print(answer(sys.stdin.buffer.read()))
