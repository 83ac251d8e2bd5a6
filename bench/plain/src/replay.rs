//! All rounds of a run, by one worker or several.
//!
//! A calendar depends on nothing that is requested, and texts depend on boards alone. So rounds go in batches, and each
//! batch goes through four stages: calendars fill its boards, the calling thread plans it and places its grants, its
//! texts are put together, and they are saved. At any time four successive batches are in one stage each, and whichever
//! worker is free does what has to be done beside the plan.

use crate::board::Board;
use crate::calendar::Calendar;
use crate::config::Config;
use crate::crew::Crew;
use crate::lines;
use crate::planner::{Boards, Planner};
use crate::sheets::{Lines, Scribes, Sheet};
use crate::trace::Trace;
use std::fs::File;
use std::io::{self, Write};
use std::sync::{Mutex, MutexGuard, RwLock, RwLockReadGuard, RwLockWriteGuard};
use std::thread;

/// The bytes of both files that a batch is to come to, for one worker and for several.
const BATCH_BYTES: usize = 1 << 16;
const SHARED_BATCH_BYTES: usize = 1 << 20;
const FIRST_BATCH_ROUNDS: usize = 16;
const MOST_BATCH_ROUNDS: usize = 256;
/// Several workers divide the texts of a batch into so many sheets each.
const SHEETS_OF_A_WORKER: usize = 2;

/// Where some rounds one after another are kept.
struct Batch {
    /// Boards of these rounds and maybe more, by channel.
    boards: Vec<RwLock<Vec<Board>>>,
    /// Their texts, one sheet behind another.
    sheets: Vec<RwLock<Sheet>>,
}

/// A batch by its place, and which rounds it has.
#[derive(Clone, Copy)]
struct Rounds {
    batch: usize,
    first: u32,
    count: usize,
}

/// What any worker can do beside the plan.
enum Task {
    /// Fills the boards of a channel.
    Fill {
        rounds: Rounds,
        channel: usize,
    },
    /// Puts a sheet together.
    Write {
        rounds: Rounds,
        sheet: usize,
    },
    SaveMaps {
        batch: usize,
    },
    SaveReport {
        batch: usize,
    },
}

/// What all workers share. Who takes a lock never waits for one: no two tasks of a step need the same.
struct Run<'r> {
    calendars: Vec<Mutex<Calendar>>,
    scribes: Scribes<'r>,
    batches: [Batch; 4],
    maps: &'r File,
    report: &'r File,
    /// The first fault of a file, if there was one.
    saved: Mutex<io::Result<()>>,
}

fn locked<T>(lock: &Mutex<T>) -> MutexGuard<'_, T> {
    lock.lock().expect("no worker panicked")
}

fn shared<T>(lock: &RwLock<T>) -> RwLockReadGuard<'_, T> {
    lock.read().expect("no worker panicked")
}

fn changed<T>(lock: &RwLock<T>) -> RwLockWriteGuard<'_, T> {
    lock.write().expect("no worker panicked")
}

impl Run<'_> {
    fn run(&self, task: Task) {
        match task {
            Task::Fill { rounds, channel } => self.fill(rounds, channel),
            Task::Write { rounds, sheet } => self.write(rounds, sheet),
            Task::SaveMaps { batch } => self.save(batch, self.maps, |sheet| sheet.maps.as_bytes()),
            Task::SaveReport { batch } => self.save(batch, self.report, |sheet| sheet.report.as_bytes()),
        }
    }

    fn fill(&self, Rounds { batch, first, count }: Rounds, channel: usize) {
        let calendar = &mut *locked(&self.calendars[channel]);
        let boards = &mut *changed(&self.batches[batch].boards[channel]);
        if boards.len() < count {
            boards.resize_with(count, Board::default);
        }
        for (round, board) in (first..).zip(&mut boards[..count]) {
            calendar.fill(round, board);
        }
    }

    fn plan(&self, Rounds { batch, first, count }: Rounds, planner: &mut Planner, trace: &Trace) {
        let mut boards: Vec<_> = self.batches[batch].boards.iter().map(changed).collect();
        let mut boards: Vec<&mut [Board]> = boards.iter_mut().map(|boards| &mut boards[..]).collect();
        for (round, at) in (first..).zip(0..count) {
            planner.serve(round, trace.cut(round), &mut Boards { of_rounds: &mut boards, at });
        }
    }

    fn write(&self, Rounds { batch, first, count }: Rounds, number: usize) {
        let Batch { boards, sheets } = &self.batches[batch];
        let boards: Vec<_> = boards.iter().map(shared).collect();
        let boards: Vec<&[Board]> = boards.iter().map(|boards| &boards[..]).collect();
        let sheet = &mut *changed(&sheets[number]);
        sheet.clear();
        for at in count * number / sheets.len()..count * (number + 1) / sheets.len() {
            for (channel, boards) in boards.iter().enumerate() {
                sheet.add(&self.scribes, channel, first + at as u32, &boards[at]);
            }
        }
    }

    fn save(&self, batch: usize, mut file: &File, text: fn(&Sheet) -> &[u8]) {
        for sheet in &self.batches[batch].sheets {
            if let Err(fault) = file.write_all(text(&shared(sheet))) {
                *locked(&self.saved) = Err(fault);
            }
        }
    }

    /// What has to be done in a step beside the plan.
    fn tasks(&self, [filled, _, written, saved]: [Rounds; 4]) -> Vec<Task> {
        let mut tasks = Vec::new();
        if filled.count > 0 {
            tasks.extend((0..self.calendars.len()).map(|channel| Task::Fill { rounds: filled, channel }));
        }
        if written.count > 0 {
            let sheets = 0..self.batches[written.batch].sheets.len();
            tasks.extend(sheets.map(|sheet| Task::Write { rounds: written, sheet }));
        }
        if saved.count > 0 {
            tasks.extend([Task::SaveReport { batch: saved.batch }, Task::SaveMaps { batch: saved.batch }]);
        }
        tasks
    }

    /// How many rounds a batch has that comes to so many bytes, as one that was written tells.
    fn rounds_of(&self, wanted: usize, Rounds { batch, count, .. }: Rounds) -> Option<usize> {
        let bytes: usize = self.batches[batch].sheets.iter().map(|sheet| shared(sheet).bytes()).sum();
        Some((count * wanted).checked_div(bytes)?.clamp(1, MOST_BATCH_ROUNDS))
    }

    /// Takes all batches through all stages.
    fn lead(&self, crew: &Crew<Task>, planner: &mut Planner, trace: &Trace, rounds: u32, batch_bytes: usize) {
        let (mut next, mut batch_rounds) = (0, FIRST_BATCH_ROUNDS);
        // the batch that is filled, the one that is planned, the one that is written and the one that is saved
        let mut stages = [0, 1, 2, 3].map(|batch| Rounds { batch, first: 0, count: 0 });
        loop {
            stages[0] = Rounds { first: next, count: batch_rounds.min((rounds - next) as usize), ..stages[0] };
            next += stages[0].count as u32;
            if stages.iter().all(|rounds| rounds.count == 0) || locked(&self.saved).is_err() {
                return;
            }
            crew.work(self.tasks(stages), || self.plan(stages[1], planner, trace), |task| self.run(task));
            batch_rounds = self.rounds_of(batch_bytes, stages[2]).filter(|rounds| *rounds > 0).unwrap_or(batch_rounds);
            stages.rotate_right(1);
        }
    }

    fn lines(&self) -> Lines {
        let mut sum = Lines::default();
        for sheet in self.batches.iter().flat_map(|batch| &batch.sheets) {
            let Lines { granted, missed } = shared(sheet).lines;
            sum.granted += granted;
            sum.missed += missed;
        }
        sum
    }
}

/// Replays a trace for so many rounds by so many workers, and writes maps file and report.
pub fn replay(
    config: &Config,
    trace: &Trace,
    rounds: u32,
    workers: usize,
    maps: &File,
    mut report: &File,
) -> io::Result<Lines> {
    let channels = config.channels.len();
    let calendar = |channel| Calendar::new(config, channel, trace.marks[channel].clone(), rounds);
    let calendars: Vec<_> = (0..channels).map(calendar).collect();
    let mut planner = Planner::new(config);
    let (sheets, batch_bytes) =
        if workers == 1 { (1, BATCH_BYTES) } else { (SHEETS_OF_A_WORKER * workers, SHARED_BATCH_BYTES) };
    let batch = || Batch {
        boards: (0..channels).map(|_| RwLock::default()).collect(),
        sheets: (0..sheets).map(|_| RwLock::new(Sheet::new())).collect(),
    };
    let run = Run {
        scribes: Scribes::new(config, &calendars, &planner.seats),
        calendars: calendars.into_iter().map(Mutex::new).collect(),
        batches: [(); 4].map(|()| batch()),
        maps,
        report,
        saved: Mutex::new(Ok(())),
    };
    let crew = Crew::new();
    thread::scope(|scope| {
        for _ in 1..workers {
            scope.spawn(|| crew.help(|task| run.run(task)));
        }
        run.lead(&crew, &mut planner, trace, rounds, batch_bytes);
        crew.end();
    });
    let lines = run.lines();
    let Run { calendars, saved, .. } = run;
    saved.into_inner().expect("no worker panicked")?;
    let calendars: Vec<_> =
        calendars.into_iter().map(|calendar| calendar.into_inner().expect("no worker panicked")).collect();
    let states = planner.states(rounds - 1);
    report.write_all(lines::last(config, &states, &calendars, &trace.passed).as_bytes())?;
    Ok(lines)
}
