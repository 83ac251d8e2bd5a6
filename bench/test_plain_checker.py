#!/usr/bin/env python3
"""Tests bench/plain_checker.py on small files made by hand, and on what bench/plain_scheduler.py makes.

  bench/test_plain_checker.py [SEEDS]

It judges the schedules of so many seeds of bench/compare_schedulers.py, 100 where none is named, which have to hold.
Each failure is a line. Status: 0 all passed, 1 some failed."""
import pathlib
import sys
import tomllib

import compare_schedulers
import make_hostile
import plain_checker
import plain_scheduler
import records

EXAMPLES = pathlib.Path(__file__).resolve().parent.parent / "examples"
BASE = (EXAMPLES / "base.toml").read_text("ascii")
HEADER = "tick,channel,sid,units\n"
MARKS_HEADER = "tick,channel,sid,units,kind\n"
ONE_REQUEST = HEADER + "0,1,291,250\n"
FLOW = BASE[BASE.index("[[flow]]"):]
CHANNEL = BASE[BASE.index("[[channel]]") : BASE.index("[[flow]]")]
NO_FLOWS = BASE.removesuffix(FLOW)
MOST = 2**64 - 1

# The stored run: its maps file and its report.
STORED_MAPS = bytes.fromhex("00000000 001c 01000300 00000000 00000000 02060308 fffc4000 fffc4096 0001c0a0"
                            "00000001 0020 01000400 000000a0 00000050 02060308 048e8000 fffc4020 fffc4096 0001c0a0")
STORED_REPORT = b"G,1,1,req,1,0,0,291,10,0,32,1000\nF,1,0,0,-\nU,0,0,0\n"


def call(start, jitter, interval=10_000, grants=1, id=1, channel=1, sid=513):
    """A flow of unsolicited grants of one minislot."""
    return (f"[[flow]]\nid = {id}\ntype = 6\nchannels = [{channel}]\nclusters = [[{sid}]]\nstart_us = {start}\n"
            f"interval_us = {interval}\njitter_us = {jitter}\ngrant_bytes = 16\ngrants_per_interval = {grants}\n")


def told(config, rounds, report):
    """A maps file that follows a report: its grants, the reserves, and gaps."""
    plant, text = records.Plant(tomllib.loads(config)), b""
    rows = [line.split(",") for line in report.splitlines() if line.startswith("G")]
    for number in range(rounds):
        for channel in plant.channels:
            here = [row for row in rows if row[1:3] == [str(number), str(channel.id)]]
            grants = [(int(row[9]), int(row[10]), int(row[7]), int(row[8])) for row in here]
            text += plant.record(number, channel, grants).text()
    return text


class Tests:
    """How many verdicts were as wanted, and how many not."""

    def __init__(self):
        self.passed = self.failed = 0

    def judges(self, name, wanted, config, trace, rounds, maps, report):
        self.same(name, plain_checker.judge(config, trace, rounds, maps, report), wanted)

    def same(self, name, found, wanted):
        if found == wanted:
            self.passed += 1
        else:
            self.failed += 1
            print(f"{name}: {found}, wanted {wanted}")

    def stored(self, name, wanted, maps=STORED_MAPS, report=STORED_REPORT, config=BASE, trace=ONE_REQUEST):
        """Judges the stored run with a change."""
        self.judges(name, wanted, config, trace, 2, maps, report)

    def told(self, name, wanted, config, report, rounds=2, trace=HEADER):
        """Judges a report with a maps file that follows it."""
        self.judges(name, wanted, config, trace, rounds, told(config, rounds, report), report.encode())

    def made(self, name, config, trace, rounds):
        """What the second scheduler makes has to hold. Answers its files."""
        maps, report, _said = plain_scheduler.simulate(config, trace, rounds)
        self.judges(name, "holds", config, trace, rounds, maps, report)
        return maps, report


def replaced(data, at, new):
    return data[:at] + new + data[at + len(new) :]


def stored_run(tests):
    tests.stored("stored run", "holds")
    shifted = bytes.fromhex("00000001 001c 01000300 000000a0 00000050 02060308 fffc4000 048e8080 0001c0a0")
    line = b"G,1,1,req,1,0,0,291,10,128,32,1000\n"
    report = line + STORED_REPORT.split(b"\n", 1)[1]
    tests.stored("a grant over the contention", "broken P3 1 1 150", STORED_MAPS[:34] + shifted, report)
    tests.stored("Reserved of the first body", "broken P1 0 0 0", replaced(STORED_MAPS, 9, b"\1"))
    tests.stored("round of the first record", "broken P2 0 0 0", replaced(STORED_MAPS, 0, b"\0\0\0\5"))
    tests.stored("credit of the claim", "broken P6 2 0 1", report=STORED_REPORT.replace(b"1000\n", b"999\n"))


def prefixes(tests):
    """Each prefix of the stored run's maps file and report."""
    for length in range(len(STORED_MAPS)):
        wanted = {0: "broken P2 0 0 0", 34: "broken P2 0 0 1"}.get(length, f"broken P1 0 0 {int(length > 34)}")
        tests.stored(f"{length} bytes of the maps file", wanted, STORED_MAPS[:length])
    whole = {0: "broken P3 1 1 0", 1: "broken P6 2 0 1", 2: "broken P6 2 0 0"}
    for length in range(len(STORED_REPORT)):
        front = STORED_REPORT[:length]
        lines = front.count(b"\n")
        wanted = whole[lines] if front[-1:] in (b"", b"\n") else f"fault CK1 {lines + 1}"
        tests.stored(f"{length} bytes of the report", wanted, report=front)


def report_lines(tests):
    """What is a line, and what is none."""
    for line in ("", "U,0,0", "U,0,0,0,0", "U,00,0,0", "U,0,0,", "U,0,0,+1", "U,0,0,-", "u,0,0,0", "U,0,0, 0",
                 "U,0,0,0\r", "F,1,0,0", "F,1,0,-,-", "F,1,0,0,--", "F,1,0,0,01", "G,1", "M,0,1,req,1,0,0",
                 "M,0,1,ugs,1,0", "M,0,1,UGS,1,0,0", "M,0,1,ugs,1,0,0,0", "G,0,1,ugs,1,0,0,513,11,0,1",
                 "G,0,1,AD,1,0,0,513,11,0,1,0", "A,1", "A,1,-", "A,1,1,1",
                 "G,0,1,ugs,1,0,0,513,11,0,1,-", f"U,0,0,{MOST + 1}", "U,0,0," + "9" * 5_000, "\u0661,0,0,0"):
        text = STORED_REPORT + line.encode() + b"\n" + STORED_REPORT
        tests.stored(f"a line {line[:40]}", "fault CK1 4", report=text)
    tests.stored("two bad lines, the second cut", "fault CK1 2", report=b"U,0,0,0\nU\nU,0")
    tests.stored("a bad line before a broken maps file", "fault CK1 1", b"\0", b"\n")
    tests.stored("the greatest number", "broken P6 2 0 0", report=STORED_REPORT + f"U,0,0,{MOST}\n".encode())
    lines = STORED_REPORT.splitlines(keepends=True)
    tests.stored("lines in another order", "holds", report=b"".join(reversed(lines)))


def bodies(tests):
    """What of the first body is no body, and what isn't judged behind that."""
    for name, at, new in (("count", 8, b"\2"), ("greatest count", 8, b"\xff"), ("backoff", 18, b"\x10"),
                          ("first offset", 22, b"\xff\xfc\x40\x01"), ("SID of the Null", 30, b"\0\5\xc0\xa0"),
                          ("no Null", 30, b"\0\0\xc0\xa0"), ("offsets that stay", 26, b"\xff\xfc\x40\0"),
                          ("a Null that falls back", 30, b"\0\1\xc0\x95"), ("length of the body", 4, b"\0\x1b")):
        tests.stored(name, "broken P1 0 0 0", replaced(STORED_MAPS, at, new))
    tests.stored("a body of no elements", "broken P1 0 0 0", bytes.fromhex("00000000 0010 01000000") + bytes(12))
    null_alone = bytes.fromhex("00000000 0014 01000100 00000000 00000000 02060308 0001c000")
    tests.stored("a Null alone", "broken P2 0 0 0", null_alone + STORED_MAPS[34:])
    pending = bytes.fromhex("00000000 0020 01000400 00000000 00000000 02060308 fffc4000 fffc4096 0001c0a0 048e80a0")
    tests.stored("a pending", "holds", pending + STORED_MAPS[34:])
    for name, word in ("before the Null's offset", "0006809f"), ("of a second Null", "0001c0a0"):
        tests.stored(f"a pending {name}", "broken P1 0 0 0",
                     pending[:-4] + bytes.fromhex(word) + STORED_MAPS[34:])
    many = 240
    crowd = bytes.fromhex("00000000 03d0 0100f000 00000000 00000000 02060308 fffc4000 fffc4096 0001c0a0")
    tests.stored("240 elements", "holds", crowd + (many - 3) * bytes.fromhex("048e80a0") + STORED_MAPS[34:])
    crowd = replaced(replaced(crowd, 8, b"\xf1"), 4, b"\3\xd4")
    tests.stored("241 elements", "broken P1 0 0 0", crowd + (many - 2) * bytes.fromhex("048e80a0") + STORED_MAPS[34:])
    longer = replaced(STORED_MAPS, 38, b"\0\x24")
    tests.stored("a whole body in a longer record, which is cut", "broken P1 0 0 1", longer)
    broken_twice = replaced(replaced(STORED_MAPS, 9, b"\1"), 43, b"\1")
    tests.stored("two bodies", "broken P1 0 0 0", broken_twice)
    tests.stored("a bad body before a cut record", "broken P1 0 0 0", replaced(STORED_MAPS, 9, b"\1")[:-1])


def headings(tests):
    """What of the second record isn't what it has to say."""
    for name, at, new in (("round", 37, b"\2"), ("channel", 40, b"\2"), ("UCD Count", 41, b"\1"),
                          ("Alloc Start Time", 47, b"\xa1"), ("Ack Time", 51, b"\x51"), ("a backoff", 55, b"\7"),
                          ("offset of the Null", 71, b"\xa1")):
        tests.stored(name, "broken P2 0 0 1", replaced(STORED_MAPS, at, new))
    tests.stored("turned records", "broken P2 0 0 0", STORED_MAPS[34:] + STORED_MAPS[:34])
    tests.stored("a record too many", "broken P2 0 0 2", STORED_MAPS + STORED_MAPS[34:])
    third = bytes.fromhex("00000002 001c 01000300 00000140 000000f0 02060308 fffc4000 fffc4096 0001c0a0")
    tests.stored("a record of a round too many", "broken P2 0 0 2", STORED_MAPS + third)
    tests.judges("the same in a longer run", "broken P6 3 0 1", BASE, ONE_REQUEST, 3, STORED_MAPS + third,
                 STORED_REPORT.replace(b"F,1,0,0,-\n", b""))
    wrong = replaced(STORED_MAPS, 41, b"\1")
    tests.stored("a record too many, and a wrong one", "broken P2 0 0 1", wrong + STORED_MAPS)


TWO_CHANNELS = NO_FLOWS.replace("id = 1\n", "id = 2\n") + CHANNEL
IDLE = NO_FLOWS.replace("contention_minislots = 10", "contention_minislots = 0")


def spans(tests):
    """Lines that the run lacks, and intervals beside, over and behind others."""
    for name, lines, wanted in (
        ("of a round", ["M,2,1,ugs,1,0,0"], "2 1 0"),
        ("of channel 0", ["G,1,0,req,1,0,0,291,10,0,32,1000"], "1 0 0"),
        ("of a channel", [f"G,1,{MOST},req,1,0,0,291,10,0,32,1000"], f"1 {MOST} 0"),
        ("of the greatest round", [f"M,{MOST},1,ugs,1,0,0"], f"{MOST} 1 0"),
        ("by round", ["M,5,9,ugs,1,0,0", "M,3,9,ugs,1,0,0"], "3 9 0"),
        ("in table order", ["M,5,1,ugs,1,0,0", "M,5,3,ugs,1,0,0", "M,5,2,ugs,1,0,0"], "5 2 0"),
        ("with channel 0 first", ["M,5,2,ugs,1,0,0", "M,5,0,ugs,1,0,0"], "5 0 0"),
        ("by number behind the table", ["M,5,255,ugs,1,0,0", "M,5,3,ugs,1,0,0"], "5 3 0"),
    ):
        # an empty interval in round 0 fails too, but behind these
        report = "G,0,2,req,1,0,0,291,10,7,0,0\n" + "".join(f"{line}\n" for line in lines)
        tests.told(f"a line {name}", f"broken P3 {wanted}", TWO_CHANNELS, report)
    for name, lines, wanted in (
        ("an empty one", ["7,0"], "7"), ("an empty one far behind", [f"{MOST},0"], f"{MOST}"),
        ("an empty one, and one behind the end", ["161,0", "160,1"], "160"),
        ("one behind the end", ["160,1"], "160"), ("one far behind the end", ["1000,1"], "160"),
        ("the greatest one", [f"{MOST},{MOST}"], "160"), ("one over the end", ["150,11"], "150"),
        ("one over the whole", [f"0,{MOST}"], "0"), ("two over each other", ["10,20", "29,1"], "29"),
        ("one twice", ["10,20", "10,20"], "10"), ("an empty one in another", ["10,20", "15,0"], "15"),
        ("three, the third over the end", ["0,160", "159,2"], "159"),
    ):
        report = "".join(f"G,1,1,req,1,0,0,291,10,{line},0\n" for line in lines)
        tests.told(name, f"broken P3 1 1 {wanted}", IDLE, report)
    tests.told("adjacent ones", "broken P6 1 0 1", IDLE + FLOW,
               "".join(f"G,1,1,req,1,0,0,291,10,{start},40,1\n" for start in (0, 40, 80, 120)))
    second = STORED_MAPS[34:]
    for name, new, wanted in (
        ("SID of a grant", second.replace(b"\x04\x8e\x80\0", b"\x04\x92\x80\0"), "0"),
        ("IUC of a grant", second.replace(b"\x04\x8e\x80\0", b"\x04\x8e\x40\0"), "0"),
        ("end of a grant", second.replace(b"\xff\xfc\x40\x20", b"\xff\xfc\x40\x21"), "0"),
        ("SID of a gap", second.replace(b"\xff\xfc\x40\x20", b"\0\0\x40\x20"), "32"),
        ("IUC of a gap", second.replace(b"\xff\xfc\x40\x20", b"\xff\xfc\x80\x20"), "32"),
        ("a gap in two", second.replace(b"\0\x20\1\0\4", b"\0\x24\1\0\5").replace(b"\xff\xfc\x40\x20",
                                                                            b"\xff\xfc\x40\x20\xff\xfc\x40\x40"), "32"),
        ("SID of the contention", second.replace(b"\xff\xfc\x40\x96", b"\0\0\x40\x96"), "150"),
        ("a gap and the contention in one", second.replace(b"\0\x20\1\0\4", b"\0\x1c\1\0\3").replace(
            b"\xff\xfc\x40\x96", b""), "32"),
    ):
        tests.stored(name, f"broken P3 1 1 {wanted}", STORED_MAPS[:34] + new)
    maintenance = BASE.replace("maintenance_minislots = 0", "maintenance_minislots = 3").replace(
        "maintenance_every = 1", "maintenance_every = 2")
    tests.stored("maintenance that isn't there", "broken P3 0 1 0", config=maintenance)
    narrow = IDLE.replace("request_minislots = 2", "request_minislots = 3")
    tests.told("gaps that are narrow and wide", "broken P6 1 1 9", narrow,
               "G,1,1,req,9,0,0,291,10,2,2,0\nG,1,1,req,9,0,0,291,10,7,153,0\n")


OPEN = IDLE + call(1_000, 9_000, 20_000)
CLOSING = IDLE + call(100, 1_000)


def marks(tests):
    """Occurrences and the lines that name them."""
    config = NO_FLOWS + call(1, 0)
    maps, report = tests.made("a window without a minislot", config, HEADER, 6)
    tests.judges("a closing occurrence without its line", "broken P4 0 1 1", config, HEADER, 6, maps,
                 report.split(b"\n", 1)[1])
    end = "U,0,0,0\n"
    for name, config, lines, wanted in (
        ("granted in its window", CLOSING, ["G,0,1,ugs,1,0,0,513,11,8,1,0"], "holds"),
        ("granted at its end", CLOSING, ["G,0,1,ugs,1,0,0,513,11,88,1,0"], "holds"),
        ("granted before its window", CLOSING, ["G,0,1,ugs,1,0,0,513,11,7,1,0"], "broken P4 0 1 1"),
        ("granted behind its window", CLOSING, ["G,0,1,ugs,1,0,0,513,11,89,1,0"], "broken P4 0 1 1"),
        ("granted a round too late", CLOSING, ["G,1,1,ugs,1,0,0,513,11,8,1,0"], "broken P4 1 1 1"),
        ("missed though there is room", CLOSING, ["M,0,1,ugs,1,0,0"], "holds"),
        ("missed a round too late", CLOSING, ["M,1,1,ugs,1,0,0"], "broken P4 1 1 1"),
        ("not named", CLOSING, [], "broken P4 0 1 1"),
        ("named twice", CLOSING, ["G,0,1,ugs,1,0,0,513,11,9,1,0", "M,0,1,ugs,1,0,0"], "broken P4 0 1 1"),
        ("named twice, a round later", CLOSING, ["M,0,1,ugs,1,0,0", "M,1,1,ugs,1,0,0"], "broken P4 0 1 1"),
        ("of another SID", CLOSING, ["G,0,1,ugs,1,0,0,514,11,9,1,0"], "broken P4 0 1 1"),
        ("of another IUC", CLOSING, ["G,0,1,ugs,1,0,0,513,10,9,1,0"], "broken P4 0 1 1"),
        ("of another length", CLOSING, ["G,0,1,ugs,1,0,0,513,11,9,2,0"], "broken P4 0 1 1"),
        ("with a credit", CLOSING, ["G,0,1,ugs,1,0,0,513,11,9,1,1"], "broken P4 0 1 1"),
        ("of another kind", CLOSING, ["M,0,1,rtp,1,0,0", "M,0,1,ugs,1,0,0"], "broken P4 0 1 1"),
        ("of another flow", CLOSING, ["M,1,1,ugs,2,0,0", "M,0,1,ugs,1,0,0"], "broken P4 1 1 2"),
        ("of a k that isn't there", CLOSING, ["M,0,1,ugs,1,0,1", "M,0,1,ugs,1,0,0"], "broken P4 0 1 1"),
        ("of the greatest k", CLOSING, [f"M,1,1,ugs,1,0,{MOST}", "M,0,1,ugs,1,0,0"], "broken P4 1 1 1"),
        ("of an i behind the run", CLOSING, ["M,1,1,ugs,1,1,0", "M,0,1,ugs,1,0,0"], "broken P4 1 1 1"),
        ("of the greatest i", CLOSING, [f"M,1,1,ugs,1,{MOST},0", "M,0,1,ugs,1,0,0"], "broken P4 1 1 1"),
        ("open and not named", OPEN, [], "holds"),
        ("open and granted", OPEN, ["G,1,1,ugs,1,0,0,513,11,159,1,0"], "holds"),
        ("open and missed", OPEN, ["M,1,1,ugs,1,0,0"], "broken P4 1 1 1"),
        ("open and granted before its window", OPEN, ["G,0,1,ugs,1,0,0,513,11,79,1,0"], "broken P4 0 1 1"),
        ("open and granted twice", OPEN,
         ["G,1,1,ugs,1,0,0,513,11,3,1,0", "G,0,1,ugs,1,0,0,513,11,80,1,0"], "broken P4 0 1 1"),
        ("open and granted twice, the first one first", OPEN,
         ["G,0,1,ugs,1,0,0,513,11,80,1,0", "G,1,1,ugs,1,0,0,513,11,3,1,0"], "broken P4 0 1 1"),
        ("open, granted and missed", OPEN,
         ["M,1,1,ugs,1,0,0", "G,0,1,ugs,1,0,0,513,11,80,1,0"], "broken P4 0 1 1"),
        ("a window that ends with the run", IDLE + call(1_000, 3_000), [], "holds"),
        ("a window that ends before the run does", IDLE + call(1_000, 2_999), [], "broken P4 1 1 1"),
        ("a window that ends with a round", IDLE + call(1_000, 1_000), ["M,1,1,ugs,1,0,0"], "holds"),
        ("an ideal time at the run's end", IDLE + call(4_000, 0), [], "holds"),
        ("the second of two grants", IDLE + call(100, 1_000, grants=2), ["M,0,1,ugs,1,0,0"], "broken P4 0 1 1"),
    ):
        tests.told(name, wanted, config, "".join(f"{line}\n" for line in lines) + end)
    both = TWO_CHANNELS + call(100, 1_000) + call(2_100, 0, id=3, sid=514)
    for name, lines, wanted in (
        ("on its channel", ["M,0,1,ugs,1,0,0", "M,1,1,ugs,3,0,0"], "holds"),
        # it names its occurrence, so the line alone fails
        ("on another channel", ["M,0,2,ugs,1,0,0", "M,1,1,ugs,3,0,0"], "broken P4 0 2 1"),
        ("in table order, channel 2 first", ["M,1,2,ugs,3,0,0"], "broken P4 0 1 1"),
        ("two on channel 2", ["M,0,2,ugs,3,0,0", "M,0,2,ugs,1,0,0"], "broken P4 0 2 1"),
    ):
        tests.told(name, wanted, both, "".join(f"{line}\n" for line in lines) + end)
    polled = FLOW.replace("type = 2", "type = 4") + "start_us = 0\ninterval_us = 10000\njitter_us = 500\n"
    station = "[[station]]\nid = 1\nchannel = 1\nsid = 5\nstart_us = 0\ninterval_us = 10000\njitter_us = 500\n"
    lines = "G,0,1,rtp,1,0,0,291,1,0,2,0\nG,0,1,station,1,0,0,5,4,2,4,0\n"
    rest = "F,1,0,0,-\nU,0,0,0\n"
    tests.told("a poll and a station", "holds", NO_FLOWS + polled + station, lines + rest, rounds=1)
    tests.told("a poll as of a flow of type 3", "broken P4 0 1 1", NO_FLOWS + polled + station,
               lines.replace("rtp", "nrtp") + rest, rounds=1)
    tests.told("a poll of type 3", "holds", (NO_FLOWS + polled + station).replace("type = 4", "type = 3"),
               lines.replace("rtp", "nrtp") + rest, rounds=1)


RATED = BASE.replace("rate = 0\n", "rate = 1280000\n").replace("burst = 3044", "burst = 1522")
RATED_REQUEST = HEADER + "0,1,291,2500\n"
TWO_CLUSTERS = BASE.replace("clusters = [[291]]", "clusters = [[291], [292]]")


def claims(tests):
    """Buckets, claims, and the lines behind all rounds."""
    maps, report = tests.made("a bucket that drains", RATED, RATED_REQUEST, 4)
    slower = RATED.replace("rate = 1280000", "rate = 640000")
    tests.judges("a bucket half as fast", "broken P5 2 0 1", slower, RATED_REQUEST, 4, maps, report)
    smaller = RATED.replace("burst = 1522", "burst = 1521")
    tests.judges("a smaller burst", "broken P5 1 0 1", smaller, RATED_REQUEST, 4, maps, report)
    for name, old, new, wanted in (
        ("a bucket's units", b"7838,0", b"7838,1", "broken P6 4 0 1"),
        ("a bucket without a limit", b"7838,0", b"7838,-", "broken P6 4 0 1"),
        ("a credit of the next byte", b",320\nG,3", b",321\nG,3", "broken P5 2 0 1"),
        ("a credit of a byte less", b",320\nG,3", b",319\nG,3", "broken P6 4 0 1"),
        ("the greatest credit", b",320\nG,3", f",{MOST}\nG,3".encode(), "broken P5 2 0 1"),
        # the bucket knows flows, and nothing else of a line
        ("a cluster that isn't there", b"G,2,1,req,1,0,", b"G,2,1,req,1,9,", "broken P6 2 1 1"),
        ("a flow that isn't there", b"G,2,1,req,1,0,", b"G,2,1,req,2,0,", "broken P6 2 1 2"),
        ("a byte more, of a cluster that isn't there", b"G,2,1,req,1,0,0,291,10,0,11,320",
         b"G,2,1,req,1,9,0,291,10,0,11,321", "broken P5 2 0 1"),
    ):
        assert report.count(old) == 1
        tests.judges(name, wanted, RATED, RATED_REQUEST, 4, maps, report.replace(old, new))
    for name, old, new, wanted in (
        ("a claim's k", b"req,1,0,0,", b"req,1,0,1,", "1 1 1"),
        ("a claim's flow", b"req,1,", b"req,2,", "1 1 2"),
        ("a claim's cluster", b"req,1,0,", b"req,1,1,", "1 1 1"),
        ("the greatest credit without a limit", b"1000\n", f"{MOST}\n".encode(), "1 0 1"),
        ("a credit of 0", b"1000\n", b"0\n", "1 1 1"),
        ("a byte too much", b"1000\n", b"1001\n", "1 0 1"),
        ("outstanding bytes", b"F,1,0,0,-", b"F,1,0,1,-", "2 0 1"),
        ("units of no limit", b"F,1,0,0,-", b"F,1,0,0,0", "2 0 1"),
        ("an F line twice", b"F,1,0,0,-", b"F,1,0,0,-\nF,1,0,0,-", "2 0 1"),
        ("an F line of no cluster", b"F,1,0,0,-", b"F,1,0,0,-\nF,1,1,0,-", "2 0 1"),
        ("an F line of no flow", b"F,1,0,0,-", b"F,1,0,0,-\nF,2,0,0,-", "2 0 2"),
        ("F lines by flow", b"F,1,0,0,-", b"F,9,0,0,-\nF,7,0,0,-\nF,1,0,0,-", "2 0 7"),
        ("an F line of flow 0", b"F,1,0,0,-", b"F,0,0,0,-", "2 0 0"),
        ("no F line", b"F,1,0,0,-\n", b"", "2 0 1"),
        ("no F line and no U line", b"F,1,0,0,-\nU,0,0,0\n", b"", "2 0 1"),
        ("no U line", b"U,0,0,0\n", b"", "2 0 0"),
        ("a U line twice", b"U,0,0,0\n", b"U,0,0,0\nU,0,0,0\n", "2 0 0"),
        ("a count of the U line", b"U,0,0,0\n", b"U,0,0,1\n", "2 0 0"),
    ):
        assert STORED_REPORT.count(old) == 1
        tests.stored(name, f"broken P6 {wanted}", report=STORED_REPORT.replace(old, new))
    end = "F,1,0,0,0\nU,0,0,0\n"
    tests.told("a claim in the first round, over the burst", "broken P5 0 0 1", RATED,
               "G,0,1,req,1,0,0,291,10,0,49,1523\n" + end, trace=RATED_REQUEST)
    tests.told("a span from the first round on", "broken P5 1 0 1", RATED,
               "G,0,1,req,1,0,0,291,10,0,49,1522\nG,1,1,req,1,0,0,291,10,0,49,321\n" + end, trace=RATED_REQUEST)
    tests.told("no byte in a right cost", "broken P6 1 1 1", BASE, "G,1,1,req,1,0,0,291,9,0,1,0\nF,1,0,0,-\nU,0,0,0\n")
    tests.told("a right cost with another IUC", "broken P6 1 1 1", BASE,
               "G,1,1,req,1,0,0,291,9,0,32,1000\nF,1,0,0,-\nU,0,0,0\n", trace=ONE_REQUEST)
    tests.told("a right cost with one minislot more", "broken P6 1 1 1", BASE,
               "G,1,1,req,1,0,0,291,10,0,33,1000\nF,1,0,0,-\nU,0,0,0\n", trace=ONE_REQUEST)
    tests.told("a channel that the flow hasn't", "broken P6 1 2 1", TWO_CHANNELS + FLOW,
               "G,1,2,req,1,0,0,291,10,0,32,1000\nF,1,0,0,-\nU,0,0,0\n", trace=ONE_REQUEST)
    rows = HEADER + "0,1,291,250\n0,1,292,250\n"
    front, end = "G,1,1,req,1,0,0,291,10,0,32,1000\n", "F,1,0,0,-\nF,1,1,0,-\nU,0,0,0\n"
    second = "G,1,1,req,1,1,0,292,10,32,32,1000\n"
    tests.told("two clusters", "holds", TWO_CLUSTERS, front + second + end, trace=rows)
    tests.told("SIDs of two clusters swapped", "broken P6 1 1 1", TWO_CLUSTERS,
               front.replace("291", "292") + second.replace("292", "291") + end, trace=rows)
    tests.told("the sum before the line", "broken P6 1 0 1", TWO_CLUSTERS,
               front.replace("1000\n", "1001\n").replace("291", "292") + second + end, trace=rows)
    halves = "G,1,1,req,1,0,0,291,10,0,17,500\nG,1,1,req,1,0,0,291,10,17,17,500\n"
    tests.told("two claims of a cluster", "broken P6 1 1 1", BASE, halves + "F,1,0,0,-\nU,0,0,0\n", trace=ONE_REQUEST)
    apart = halves.replace("G,1,1,req,1,0,0,291,10,17", "G,2,1,req,1,0,0,291,10,17")
    tests.told("two claims in two rounds", "holds", BASE, apart + "F,1,0,0,-\nU,0,0,0\n", 3, ONE_REQUEST)
    early = apart.replace("G,1,", "G,0,")
    tests.told("a claim before it was asked", "broken P6 0 0 1", BASE, early + "F,1,0,0,-\nU,0,0,0\n", 3, ONE_REQUEST)
    # the least credit past what costs are told for fits no MAP, so any cost that does is another
    more = front.replace(",1000\n", ",98297\n")
    asked = HEADER + "".join("0,1,291,60000\n" for _ in range(2))
    tests.told("more bytes than costs are told for", "broken P6 1 1 1", BASE, more + end, trace=asked)
    tests.told("a claim of a flow of type 6", "broken P6 1 1 1", IDLE + call(9_000, 0),
               "G,1,1,req,1,0,0,513,10,0,32,1000\nU,0,0,0\n")
    useless = HEADER + "0,1,999,10\n0,1,513,10\n1000000,1,291,10\n"
    tests.made("rows that are no asks", BASE + call(10_000_000, 0, id=2), useless, 2)
    tests.told("counts of rows that are no asks", "holds", BASE + call(10_000_000, 0, id=2), "F,1,0,0,-\nU,1,1,1\n",
               trace=useless)


# A call of two grants in each round, which is silent in round 1.
SILENT_CALL = NO_FLOWS + call(0, 1_000, 2_000, 2).replace("type = 6", "type = 5")
SILENT_ONCE = MARKS_HEADER + "0,1,513,0,1\n400,1,513,0,2\n"
SILENT_MAPS = bytes.fromhex(
    "00000000 0024 01000500 00000000 00000000 02060308 0806c000 0806c001 fffc4002 fffc4096 0001c0a0"
    "00000001 0020 01000400 000000a0 00000050 02060308 08044000 fffc4002 fffc4096 0001c0a0"
    "00000002 0024 01000500 00000140 000000f0 02060308 0806c000 0806c001 fffc4002 fffc4096 0001c0a0")
SILENT_REPORT = b"""G,0,1,ad,1,0,0,513,11,0,1,0
G,0,1,ad,1,0,1,513,11,1,1,0
G,1,1,ad,1,1,0,513,1,0,2,0
G,2,1,ad,1,2,0,513,11,0,1,0
G,2,1,ad,1,2,1,513,11,1,1,0
A,1,1
U,0,0,0
"""


def activity(tests):
    """Flows that fall silent: what a round's marks make of their grants, and the lines of their activity."""
    for name, rows, wanted in (
        ("both marks of the call", SILENT_ONCE, "holds"),
        ("marks in another order", MARKS_HEADER + "400,1,513,0,2\n0,1,513,0,1\n", "holds"),
        ("a mark that is told twice", SILENT_ONCE + "300,1,513,0,1\n", "holds"),
        ("both marks in round 2", SILENT_ONCE + "400,1,513,0,1\n", "holds"),
        ("no mark as silent", MARKS_HEADER + "400,1,513,0,2\n", "broken P4 1 1 1"),
        ("no marks, in version 1", HEADER, "broken P4 1 1 1"),
        ("no mark as active", MARKS_HEADER + "0,1,513,0,1\n", "broken P4 2 1 1"),
        ("both marks in round 1", SILENT_ONCE + "0,1,513,0,2\n", "broken P4 1 1 1"),
        ("a mark of nobody", SILENT_ONCE + "0,1,514,0,1\n", "broken P6 3 0 0"),
        ("a request of the call", SILENT_ONCE + "0,1,513,1,0\n", "broken P6 3 0 0"),
    ):
        tests.judges(name, wanted, SILENT_CALL, rows, 3, SILENT_MAPS, SILENT_REPORT)
    for name, old, new, wanted in (
        ("another activity", b"A,1,1\n", b"A,1,0\n", "broken P6 3 0 1"),
        ("an activity of 2", b"A,1,1\n", b"A,1,2\n", "broken P6 3 0 1"),
        ("the greatest activity", b"A,1,1\n", f"A,1,{MOST}\n".encode(), "broken P6 3 0 1"),
        ("no activity", b"A,1,1\n", b"", "broken P6 3 0 1"),
        ("activity twice", b"A,1,1\n", b"A,1,1\nA,1,1\n", "broken P6 3 0 1"),
        ("activity of nobody", b"A,1,1\n", b"A,9,1\nA,1,1\n", "broken P6 3 0 9"),
        ("activity behind counts", b"A,1,1\nU,0,0,0\n", b"U,0,0,0\nA,1,1\n", "holds"),
        ("activity before counts", b"A,1,1\nU,0,0,0\n", b"U,1,0,0\nA,1,0\n", "broken P6 3 0 1"),
        ("counts", b"U,0,0,0\n", b"U,0,1,0\n", "broken P6 3 0 0"),
        ("a poll with the word of unsolicited grants", b"ad,1,1,0", b"ugs,1,1,0", "broken P4 1 1 1"),
        ("a poll of a k that isn't there", b"ad,1,1,0", b"ad,1,1,1", "broken P4 1 1 1"),
        ("a poll told as a grant", b"513,1,0,2,0", b"513,11,0,2,0", "broken P3 1 1 0"),
    ):
        assert SILENT_REPORT.count(old) == 1
        tests.judges(name, wanted, SILENT_CALL, SILENT_ONCE, 3, SILENT_MAPS, SILENT_REPORT.replace(old, new))
    both = SILENT_ONCE + "0,1,513,0,2\n"
    for name, rows, rounds in (("a call that falls silent once", SILENT_ONCE, 3),
                               ("marks of a round together", both, 3),
                               ("a call that stays silent", MARKS_HEADER + "0,1,513,0,1\n", 9)):
        tests.made(name, SILENT_CALL, rows, rounds)
    tests.stored("activity of a flow that tells none", "broken P6 2 0 1", report=STORED_REPORT + b"A,1,1\n")
    for line in ("A,1,01", f"A,1,{MOST + 1}", "a,1,1", "B,1,1", "G,0,1,ad,1,0,0,513,11,0,1"):
        tests.stored(f"a line {line}", "fault CK1 4", report=STORED_REPORT + f"{line}\n".encode())
    # grants of an interval that wait for the next round, in which the flow falls silent
    waiting = (IDLE.replace("maintenance_minislots = 0", "maintenance_minislots = 159").replace(
        "maintenance_every = 1", "maintenance_every = 2") + call(500, 1_999, 2_000, 2).replace("type = 6", "type = 5"))
    _maps, report = tests.made("a mark while a grant waits", waiting, MARKS_HEADER + "0,1,513,0,1\n", 3)
    tests.same("what waits is granted", report.splitlines()[:3],
               [b"G,0,1,ad,1,0,0,513,11,159,1,0", b"G,1,1,ad,1,0,1,513,11,0,1,0", b"G,1,1,ad,1,1,0,513,1,40,2,0"])
    rows = MARKS_HEADER + "0,1,291,0,1\n0,1,291,5,0\n0,1,513,5,0\n0,1,999,0,2\n1000000,1,513,0,1\n"
    _maps, report = tests.made("marks of another type", BASE + call(0, 100).replace("type = 6", "type = 5").replace(
        "id = 1\n", "id = 2\n"), rows, 2)
    tests.same("counts of them", report.splitlines()[-2:], [b"A,2,1", b"U,1,2,1"])


def made_ones(tests, seeds):
    """What the second scheduler makes of the examples and of random configurations holds."""
    for name, rounds in ("plant", 4), ("bonded", 6), ("voice", 12), ("silence", 25):
        config, trace = ((EXAMPLES / f"{name}.{kind}").read_text("ascii") for kind in ("toml", "csv"))
        tests.made(name, config, trace, rounds)
    for seed in range(seeds):
        tests.made(f"seed {seed}", *compare_schedulers.inputs(seed, 6))


def hostile_ones(tests):
    """The files of bench/make_hostile.py have the answers that it tells."""
    for name, kind in make_hostile.BY_NAME.items():
        for case in kind(4_000):
            tests.judges(name, case.answer, case.config, case.trace(), case.rounds, case.maps, case.report())


def main():
    tests = Tests()
    for test in (stored_run, prefixes, report_lines, bodies, headings, spans, marks, claims, activity, hostile_ones):
        test(tests)
    made_ones(tests, int(sys.argv[1]) if len(sys.argv) > 1 else 100)
    print(f"{tests.passed} passed, {tests.failed} failed")
    return 1 if tests.failed else 0


if __name__ == "__main__":
    sys.exit(main())
