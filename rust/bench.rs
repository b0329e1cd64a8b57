//! Times each function of libcard_c.a against the baseline, alternating in one process, and prints a Markdown table; then the
//! search for a set by itself (search.rs).
//!
//! Each call gets a table of its own in the state that the case is about, since many calls change it; the tables are renewed
//! outside the timed part. A row is the median of several runs, and says between what its ratios lay.

mod baseline;
mod card_c;
mod search;
mod tables;
mod timing;

use model::commands::{
    ASYNCHRONOUS_EVENT_REQUEST, CONFIGURATION, EVENT_NOTICES, GET_FEATURES, GET_LOG_PAGE, IDENTIFY, LIST_PAGE, NOTICES_BIT,
    SET_FEATURES, SET_LIST, SET_PAGE, WINDOW,
};
use model::status;
use std::time::Instant;
use tables::{bodies, command_of, configuration, prepared, Others, State, MIDDLE};
use timing::{median, opaque};
use trials::entries::Entries;

const BATCH: usize = 32;
/// How many batches make a round at most; of large tables there are fewer, so that a round takes about as long.
const BATCHES: usize = 200;
const SETS_IN_A_ROUND: usize = 3_200;
const ROUNDS: usize = 21;
const RUNS: usize = 5;

/// What is timed.
#[derive(Clone, Copy)]
enum Timed {
    SetUp,
    Command { opcode: u8, dwords: [u32; 4] },
    Reads,
    Writes,
    Excursion,
    Tick,
}

struct Case {
    name: &'static str,
    state: State,
    timed: Timed,
}

const fn command(name: &'static str, state: State, opcode: u8, dwords: [u32; 4]) -> Case {
    Case { name, state, timed: Timed::Command { opcode, dwords } }
}

const CASES: [Case; 16] = [
    Case { name: "set-up", state: State::InD, timed: Timed::SetUp },
    command("Set 13h, enable", State::InD, SET_FEATURES, [CONFIGURATION as u32, MIDDLE, 1, 0]),
    command("Get 13h", State::InD, GET_FEATURES, [CONFIGURATION as u32, MIDDLE, 0, 0]),
    command("Set 14h, select D", State::Recovered, SET_FEATURES, [WINDOW as u32, MIDDLE, 1, 0]),
    command("Get 14h", State::InD, GET_FEATURES, [WINDOW as u32, MIDDLE, 0, 0]),
    command("Set 0Bh, on", State::InD, SET_FEATURES, [EVENT_NOTICES as u32, NOTICES_BIT, 0, 0]),
    command("Get 0Bh", State::Awaited, GET_FEATURES, [EVENT_NOTICES as u32, 0, 0, 0]),
    command("request", State::Awaited, ASYNCHRONOUS_EVENT_REQUEST, [0; 4]),
    command("page 0Ah, 512 bytes, clearing", State::Listed, GET_LOG_PAGE, [SET_PAGE as u32 | 127 << 16, MIDDLE & !0xFFFF, 0, 0]),
    command("page 0Bh, 136 bytes", State::Listed, GET_LOG_PAGE, [LIST_PAGE as u32 | 33 << 16, 0, 0, 0]),
    command("Identify", State::InD, IDENTIFY, [SET_LIST as u32, 0, 0, 0]),
    Case { name: "reads", state: State::InD, timed: Timed::Reads },
    Case { name: "writes", state: State::InD, timed: Timed::Writes },
    Case { name: "excursion", state: State::InD, timed: Timed::Excursion },
    Case { name: "excursion with a notice", state: State::Awaited, timed: Timed::Excursion },
    Case { name: "tick", state: State::InD, timed: Timed::Tick },
];

fn main() {
    println!("| call | sets | windows | card_c, ns | baseline, ns | ratio | between |");
    println!("|---|---:|---|---:|---:|---:|---|");
    let mut worst: f64 = 0.0;
    for case in &CASES {
        for sets in [1, 8, 31, 64] {
            for (others, windows) in [(Others::Alike, "one"), (Others::Mixed, "mixed")] {
                // One set has no others.
                if sets == 1 && matches!(others, Others::Mixed) {
                    continue;
                }
                let row = compare(case, sets, others);
                worst = worst.max(row.ratio);
                println!("| {} | {} | {} |{}", case.name, sets, windows, row.text());
            }
        }
    }
    println!("\nmedians of {RUNS} runs of {ROUNDS} rounds each; the highest ratio is {worst:.2}");
    search::print();
}

struct Row {
    ours: f64,
    baseline: f64,
    ratio: f64,
    lowest: f64,
    highest: f64,
}

impl Row {
    fn text(&self) -> String {
        let Row { ours, baseline, ratio, lowest, highest } = self;
        format!(" {ours:.0} | {baseline:.0} | {ratio:.2} | {lowest:.2} to {highest:.2} |")
    }
}

/// The medians of the runs: ns for each call, and the ratio of the two.
fn compare(case: &Case, sets: u16, others: Others) -> Row {
    let mut bench = Bench::new(case, sets, others);
    let (mut ours, mut baselines, mut ratios) = (Vec::new(), Vec::new(), Vec::new());
    for _ in 0..RUNS {
        let (own, baseline) = run(&mut bench);
        ours.push(own);
        baselines.push(baseline);
        ratios.push(own / baseline);
    }
    let ratio = median(&mut ratios);
    Row { ours: median(&mut ours), baseline: median(&mut baselines), ratio, lowest: ratios[0], highest: ratios[RUNS - 1] }
}

/// The medians of the rounds of one run, in ns for each call.
fn run(bench: &mut Bench) -> (f64, f64) {
    let (ours, baseline) = (opaque(&card_c::ENTRIES), opaque(&baseline::ENTRIES));
    let mut rounds: [Vec<f64>; 2] = [Vec::new(), Vec::new()];
    for _ in 0..ROUNDS {
        rounds[0].push(bench.round(&ours));
        rounds[1].push(bench.round(&baseline));
    }
    (median(&mut rounds[0]), median(&mut rounds[1]))
}

struct Bench {
    timed: Timed,
    status: u16,
    set: u16,
    batches: usize,
    table: Vec<u8>,
    tables: Vec<u8>,
    bodies: Vec<u8>,
    command: [u8; 64],
    data: [u8; 512],
    answer: [u8; 4096],
    reply: [u8; 16],
}

impl Bench {
    fn new(case: &Case, sets: u16, others: Others) -> Bench {
        let set = sets / 2 + 1;
        let all: Vec<u16> = (1..=sets).collect();
        let (command, status) = match case.timed {
            Timed::Command { opcode, dwords } => (command_of(opcode, dwords, set), status_of(opcode)),
            _ => ([0; 64], status::SUCCESS),
        };
        let table = prepared(&all, set, case.state, others);
        Bench {
            timed: case.timed,
            status,
            set,
            batches: BATCHES.min(SETS_IN_A_ROUND / usize::from(sets)),
            tables: table.repeat(BATCH),
            table,
            bodies: bodies(&all),
            command,
            data: configuration(),
            answer: [0; 4096],
            reply: [0; 16],
        }
    }

    /// So many batches; ns for each call.
    fn round(&mut self, entries: &Entries) -> f64 {
        let mut nanoseconds = 0;
        for _ in 0..self.batches {
            self.tables.chunks_exact_mut(self.table.len()).for_each(|table| table.copy_from_slice(&self.table));
            let start = Instant::now();
            let statuses = self.batch(entries);
            nanoseconds += start.elapsed().as_nanos();
            assert_eq!(statuses, self.status, "a timed call is refused");
        }
        nanoseconds as f64 / (BATCH * self.batches) as f64
    }

    fn batch(&mut self, entries: &Entries) -> u16 {
        let Bench { bodies, command, data, answer, reply, set, .. } = self;
        let tables = self.tables.chunks_exact_mut(self.table.len());
        match self.timed {
            Timed::SetUp => all(tables, |table| (entries.set_up)(table, bodies)),
            Timed::Command { .. } => all(tables, |table| (entries.command)(table, command, data, answer, reply)),
            Timed::Reads => all(tables, |table| (entries.reads)(table, *set, 1, reply)),
            Timed::Writes => all(tables, |table| (entries.writes)(table, *set, 1, reply)),
            Timed::Excursion => all(tables, |table| (entries.excursion)(table, *set, reply)),
            Timed::Tick => all(tables, |table| (entries.tick)(table, 1, answer, reply)),
        }
    }
}

fn all<'a>(tables: impl Iterator<Item = &'a mut [u8]>, call: impl FnMut(&'a mut [u8]) -> u16) -> u16 {
    tables.map(call).fold(0, |statuses, number| statuses | number)
}

/// What a command answers that is carried out.
fn status_of(opcode: u8) -> u16 {
    if opcode == ASYNCHRONOUS_EVENT_REQUEST {
        status::WAITING
    } else {
        status::SUCCESS
    }
}
