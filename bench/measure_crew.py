#!/usr/bin/env python3
"""Measures rounds by workers that are started anew in each phase, and by workers that are kept.

  bench/measure_crew.py

  --samples N      samples of each measurement (15)
  --rounds N       rounds of a sample (200)
  --workers N,..   numbers of workers (1,2,4)
  --turns N,..     what an item takes, in turns of a loop of some 1.6 nanoseconds (300,1600,3500)

A round is two phases of 16 items by `us_crew`, and does nothing else. The program that is measured is written, proved
and built in a folder of its own, over the crates as they stand here, which takes some minutes. A line for each number
of turns and of workers: the least and the median of the samples, in microseconds a round. These are benchmarks, and no
tests.

Status 0: measured; 2: the program wasn't proved or failed, or the words are wrong.
"""
import argparse
import collections
import os
import pathlib
import shutil
import statistics
import subprocess
import sys
import tempfile

TOP = pathlib.Path(__file__).resolve().parent.parent
LIBRARIES = ("us_slots", "us_crew")
NAME = "crew_times"

CRATE = {
    "src/main.rt": """\
//! Times of rounds of two phases by workers: started anew for each phase, and kept.
#![tactic(auto)]

ghost use Rattle.std.specs.Prelude.{◌≡◌, ⊤};
ghost use Rattle.crew_times.specs.Turned.{turned_by};

use std::alloc::Global;
use std::io::Print;
use std::sync::Wait;
use std::thread::Threads;
use std::time::{Clock, Instant};
use us_crew::{Beside, Crew, Mailboxes, OpenGate, Phase, Work, map_kept, map_owned, with_crew};
use us_slots::NoMemory;

const ITEMS: u64 = 16;

const PHASES: u32 = 2 * @ROUNDS@;

/// Turns a number so many times: some processor time, and nothing else.
#[derive(Clone, Copy)]
struct Turning {
    turns: u32,
}

impl Work<u64, u64, NoMemory> for Turning {
    ghost accepts = { λ _ _ _. ⊤ };

    ghost value = { λ work _ number. turned_by number work.turns };

    ghost may_fail = { λ _ _ _ _. ⊤ };

    ghost must_fail = { λ _ _ _. ⊥ };

    fn run(&self, _alloc: Global, _index: usize, number: u64) -> Result<u64, NoMemory> {
        Ok(turned(number, self.turns))
    }
}

fn turned(first: u64, turns: u32) -> u64
    ensures { result ≡ turned_by first turns }
{
    let mut number = first;
    for _ in 0..turns {
        number = number.wrapping_mul(number).wrapping_add(1);
    }
    number
}

fn items(alloc: Global) -> anyhow::Result<Vec<u64>> {
    let mut all = Vec::new(alloc);
    for number in 0..ITEMS {
        all.push(number)?;
    }
    Ok(all)
}

/// Rounds by workers that are started anew.
fn rounds_anew<R: Threads + Wait + Sync>(
    rt: &R,
    alloc: Global,
    work: Turning,
    workers: usize,
) -> anyhow::Result<()> {
    for _ in 0..PHASES {
        map_owned(rt, alloc, &work, Phase::Fill, items(alloc)?, workers, &OpenGate)?;
    }
    Ok(())
}

type Turns = Mailboxes<Turning, OpenGate, u64, u64, NoMemory>;

/// Rounds by workers that are kept.
fn rounds_kept<H: Wait>(
    crew: &Crew<'_, H>,
    mailboxes: &Turns,
    alloc: Global,
    work: Turning,
) -> anyhow::Result<()> {
    for _ in 0..PHASES {
        map_kept(crew, mailboxes, alloc, work, Phase::Fill, items(alloc)?, OpenGate)?;
    }
    Ok(())
}

/// Prints how long a sample took, in nanoseconds, and by which workers.
fn print_sample<R: Clock + Print>(
    rt: &R,
    start: Instant,
    work: Turning,
    workers: usize,
    which: &str,
) -> anyhow::Result<()> {
    let took = start.elapsed(rt)?.as_nanos();
    println!(rt; "{} {workers} {which} {took}", work.turns)?;
    Ok(())
}

/// Samples of rounds by workers that are kept, with the crew of these workers.
#[derive(Drop)]
struct Kept<'a, R> {
    rt: &'a R,
    alloc: Global,
    work: Turning,
    workers: usize,
    mailboxes: &'a Turns,
}

impl<'a, R: Clock + Print, H: Wait> Beside<H> for Kept<'a, R> {
    type Output = anyhow::Result<()>;

    ghost can_run = { λ _. ⊤ };

    ghost gives = { λ _ _. ⊤ };

    fn run(self, crew: &Crew<'_, H>) -> anyhow::Result<()> {
        for _ in 0..@SAMPLES@ {
            let start = Instant::now(self.rt)?;
            rounds_kept(crew, self.mailboxes, self.alloc, self.work)?;
            print_sample(self.rt, start, self.work, self.workers, "kept")?;
        }
        Ok(())
    }
}

/// Prints samples of rounds by workers that are kept,
fn print_kept<R: Threads + Wait + Sync + Clock + Print>(
    rt: &R,
    alloc: Global,
    work: Turning,
    workers: usize,
) -> anyhow::Result<()> {
    let helpers = workers.saturating_sub(1);
    let mailboxes = Mailboxes::open(alloc, helpers)?;
    let mailboxes = &mailboxes;
    with_crew(
        rt,
        helpers,
        mailboxes,
        Kept {
            rt,
            alloc,
            work,
            workers,
            mailboxes,
        },
    )
}

/// and by workers that are started anew.
fn print_anew<R: Threads + Wait + Sync + Clock + Print>(
    rt: &R,
    alloc: Global,
    work: Turning,
    workers: usize,
) -> anyhow::Result<()> {
    for _ in 0..@SAMPLES@ {
        let start = Instant::now(rt)?;
        rounds_anew(rt, alloc, work, workers)?;
        print_sample(rt, start, work, workers, "anew")?;
    }
    Ok(())
}

fn main(rt: HostRuntime) -> anyhow::Result<()> {
    for (turns, workers) in [@CASES@] {
        let work = Turning { turns };
        print_anew(&rt, rt.alloc(), work, workers)?;
        print_kept(&rt, rt.alloc(), work, workers)?;
    }
    Ok(())
}
""",
    "specs/Lib.antt": "pub mod Turned\n",
    "specs/Turned.antt": """\
use Rattle.std.specs.Prelude.{ℕ, zero, suc, ◌+◌, ◌*◌, ◌%◌, ◌^◌}

abbrev pub turned_by : ℕ → ℕ → ℕ
turned_by first zero = first
turned_by first (suc turns) = (turned_by first turns * turned_by first turns % 2 ^ 64 + 1) % 2 ^ 64
""",
    "proofs/turned/Invariants.antt": """\
use Rattle.std.proofs.Common.{◌≡◌}
use Rattle.crew_times.specs.Turned.{turned_by}
use Rattle.crew_times.proofs.turned.Given as goal

abbrev pub invariant-loop : goal.invariant-loop
invariant-loop l = l.number ≡ turned_by l.fn.first l.counter
""",
    "proofs/print_kept/Answers.antt": """\
use denote.Param.Send.{sendable}
use Rattle.std.proofs.Common.{rules}
use Rattle.us_slots.proofs.memory.NoMemory.TheSendSync.{the_send as no_memory_send}
use Rattle.us_crew.proofs.SendLemmas.{mailboxes_sync}
use Rattle.crew_times.proofs.Turning.TheSendSync.{the_send as turning_send}
use Rattle.crew_times.proofs.print_kept.Goals as goal

pub with_crew-requires-sync-M : goal.with_crew-requires-sync-M
with_crew-requires-sync-M g c κs within = search (mailboxes_sync, no_memory_send, turning_send, sendable, rules)
""",
}


def stop(why):
    """Ends with status 2."""
    print(f"measure_crew: {why}", file=sys.stderr)
    sys.exit(2)


def write_crate(root, words):
    """The repository of the program that is measured, over copies of the crates below it."""
    lines = [line for line in (TOP / "crates.txt").read_text().split("\n") if line.split(":")[0].split()[:1]
             and line.split(":")[0].split()[0] in LIBRARIES]
    (root / "crates.txt").write_text("\n".join([*lines, f"{NAME}: us_crew us_slots anyhow", ""]))
    shutil.copy(TOP / "HANDLES", root)
    for library in LIBRARIES:
        shutil.copytree(TOP / "crates" / library, root / "crates" / library)
    cases = ", ".join(f"({turns}, {workers})" for turns in words.turns for workers in words.workers)
    for path, text in CRATE.items():
        file = root / "crates" / NAME / path
        file.parent.mkdir(parents=True, exist_ok=True)
        file.write_text(text.replace("@ROUNDS@", str(words.rounds)).replace("@SAMPLES@", str(words.samples))
                        .replace("@CASES@", cases))


def samples_of(root):
    """Nanoseconds of all samples, by turns, workers and way."""
    done = subprocess.run(["rt", "run"], cwd=root / "crates" / NAME, capture_output=True, text=True)
    found = collections.defaultdict(list)
    for line in done.stdout.split("\n"):
        words = line.split()
        if len(words) == 4 and words[2] in ("anew", "kept"):
            found[int(words[0]), int(words[1]), words[2]].append(int(words[3]))
    if done.returncode or not found:
        stop((done.stdout + done.stderr)[-2000:])
    return found


def numbers(text):
    """Some whole numbers, from 1 up."""
    found = [int(part) for part in text.split(",")]
    if min(found) < 1:
        raise argparse.ArgumentTypeError("a number is below 1")
    return found


def main():
    parser = argparse.ArgumentParser(usage=__doc__)
    parser.add_argument("--samples", type=int, default=15)
    parser.add_argument("--rounds", type=int, default=200)
    parser.add_argument("--workers", type=numbers, default=[1, 2, 4])
    parser.add_argument("--turns", type=numbers, default=[300, 1_600, 3_500])
    words = parser.parse_args()
    with tempfile.TemporaryDirectory() as folder:
        root = pathlib.Path(folder)
        write_crate(root, words)
        found = samples_of(root)
    print(f"load {os.getloadavg()[0]:.1f} on {os.cpu_count()} processors; microseconds a round, least / median")
    for turns in words.turns:
        for workers in words.workers:
            told = [f"{min(took) / words.rounds / 1000:.0f}/{statistics.median(took) / words.rounds / 1000:.0f}"
                    for took in (found[turns, workers, way] for way in ("anew", "kept"))]
            print(f"{turns} turns, {workers} workers: anew {told[0]}, kept {told[1]}")


main()
