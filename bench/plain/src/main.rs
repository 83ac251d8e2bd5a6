//! A plain upstream scheduler beside `mapsim`: the same words of `replay`, and the same maps file, report and line for
//! inputs without a fault. It is written from the rules, for speed, without proofs, and shares nothing with the crates.
//!
//! In reading order:
//!
//! - `toml`, `config`: the configuration as tables
//! - `elements`, `bursts`: SIDs and IUCs; what a burst costs, and what minislots carry
//! - `trace`: what is asked for in each round
//! - `board`: the minislots of one MAP
//! - `calendar`, `wheel`: what a channel grants at intervals
//! - `planner`, `limits`, `budgets`: what is granted of what was asked for
//! - `text`, `starts`, `records`, `lines`, `sheets`: maps file and report
//! - `crew`, `replay`: all rounds, by one worker or several

mod bits;
mod board;
mod budgets;
mod bursts;
mod calendar;
mod config;
mod crew;
mod elements;
mod limits;
mod lines;
mod planner;
mod records;
mod replay;
mod sheets;
mod starts;
mod text;
mod toml;
mod trace;
mod wheel;

use std::fs::{self, File};
use std::process::ExitCode;

/// What is wrong, in a line.
pub type Fault = String;

const MOST_RUN_TICKS: u64 = 67_108_864;
const MOST_WORKERS: u32 = 64;
const REFUSED: u8 = 3;
const USAGE: &str = "usage: plain replay --config F --trace F --rounds N --maps F --report F [--workers N]";

/// The words that the program was called with.
struct Words {
    config: String,
    trace: String,
    maps: String,
    report: String,
    rounds: u32,
    workers: u32,
}

impl Words {
    fn read() -> Option<Words> {
        let mut words = std::env::args().skip(1);
        let mut given = [None, None, None, None, None, None];
        if words.next()? != "replay" {
            return None;
        }
        while let Some(option) = words.next() {
            let options = ["--config", "--trace", "--maps", "--report", "--rounds", "--workers"];
            let place = options.iter().position(|name| *name == option)?;
            given[place] = Some(words.next()?);
        }
        let [config, trace, maps, report, rounds, workers] = given;
        let workers = workers.map_or(Some(1), |word| word.parse().ok())?;
        Some(Words {
            config: config?,
            trace: trace?,
            maps: maps?,
            report: report?,
            rounds: rounds?.parse().ok()?,
            workers,
        })
    }
}

/// Names the file in a fault of it.
fn of_file<T>(found: std::io::Result<T>, path: &str) -> Result<T, Fault> {
    found.map_err(|fault| format!("{path}: {fault}"))
}

/// Replays as the words say. Answers the line that tells what came of it.
fn run(words: &Words) -> Result<String, Fault> {
    let text = of_file(fs::read(&words.config), &words.config)?;
    let config = config::read(&text).map_err(|fault| format!("{}: {fault}", words.config))?;
    if words.rounds == 0 || u64::from(words.rounds) * u64::from(config.round_ticks) > MOST_RUN_TICKS {
        return Err("fault RU1".into());
    }
    if !(1..=MOST_WORKERS).contains(&words.workers) {
        return Err("fault RU2".into());
    }
    let text = of_file(fs::read(&words.trace), &words.trace)?;
    let maps = of_file(File::create(&words.maps), &words.maps)?;
    let report = of_file(File::create(&words.report), &words.report)?;
    let trace = trace::read(&text, &config, words.rounds).map_err(|fault| format!("{}: {fault}", words.trace))?;
    drop(text);
    let lines =
        of_file(replay::replay(&config, &trace, words.rounds, words.workers as usize, &maps, &report), "output")?;
    let trace::Passed { unknown, not_requestable, late } = trace.passed;
    Ok(format!(
        "rounds {} granted {} missed {} unknown {unknown} not_requestable {not_requestable} late {late}",
        words.rounds, lines.granted, lines.missed
    ))
}

fn main() -> ExitCode {
    let Some(words) = Words::read() else {
        eprintln!("{USAGE}");
        return ExitCode::from(2);
    };
    match run(&words) {
        Ok(line) => {
            println!("{line}");
            ExitCode::SUCCESS
        }
        Err(fault) => {
            eprintln!("{fault}");
            ExitCode::from(REFUSED)
        }
    }
}
