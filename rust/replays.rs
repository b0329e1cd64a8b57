//! Makes replay files and prints what the model says of them.

use model::commands::{CONFIGURATION, SET_FEATURES, WINDOW};
use model::layout::{read_table, table_bytes, BODY_BYTES, MAX_SETS};
use model::set::DAY;
use model::{status, tape};
use std::env;
use std::fs::File;
use std::io::{self, BufWriter, Write};
use std::process::exit;
use trials::damage::damage_bodies;
use trials::random::Random;
use trials::samples::{self, Item};

const USAGE: &str = "\
replays make SEED FILE          writes a random replay file, valid or damaged
replays print [FILE]            prints the model's printout of FILE, or of standard input
replays events SETS ITEMS FILE  writes a file of SETS sets in D and ITEMS events, besides the commands that bring them to D";

fn main() -> io::Result<()> {
    let arguments: Vec<String> = env::args().skip(1).collect();
    let arguments: Vec<&str> = arguments.iter().map(String::as_str).collect();
    match arguments[..] {
        ["make", seed, file] => make(&Random::new(number(seed)), &mut create(file)?),
        ["print", file] => model::replay(File::open(file)?, io::stdout().lock()),
        ["print"] => model::replay(io::stdin().lock(), io::stdout().lock()),
        ["events", sets, items, file] => events(number(sets), number(items), &mut create(file)?),
        _ => refuse(USAGE),
    }
}

fn create(file: &str) -> io::Result<BufWriter<File>> {
    Ok(BufWriter::new(File::create(file)?))
}

fn number(text: &str) -> u64 {
    text.parse().unwrap_or_else(|_| refuse("SEED, SETS and ITEMS are numbers"))
}

fn refuse(why: &str) -> ! {
    eprintln!("{}", why);
    exit(2)
}

fn make(random: &Random, file: &mut impl Write) -> io::Result<()> {
    let mut bodies = samples::bodies(random);
    if random.once_in(5) {
        damage_bodies(random, &mut bodies);
    }
    write_bodies(file, &bodies)?;
    let mut table = [0; table_bytes(MAX_SETS)];
    if model::set_up(&mut table, &bodies) == status::SUCCESS {
        make_items(random, file, &mut table)?;
    } else if random.once_in(2) {
        // What follows a refused set-up is not looked at.
        file.write_all(&random.bytes(random.place(200)))?;
    }
    make_end(random, file)?;
    file.flush()
}

/// Each body with its kind; a cut body remains one.
fn write_bodies(file: &mut impl Write, bodies: &[u8]) -> io::Result<()> {
    for body in bodies.chunks(BODY_BYTES) {
        file.write_all(&[tape::SET_ATTRIBUTES])?;
        file.write_all(body)?;
    }
    Ok(())
}

/// Items that suit the card as it stands after those before.
fn make_items(random: &Random, file: &mut impl Write, table: &mut [u8]) -> io::Result<()> {
    let items = match random.below(20) {
        0 => 0,
        1 => random.between(1_000, 4_000),
        _ => random.below(400),
    };
    for _ in 0..items {
        let card = read_table(table).expect("the model leaves a legal table");
        let item = with_or_without_data(random, samples::item(random, &card));
        write_item(file, &item)?;
        apply(table, &item);
    }
    Ok(())
}

fn with_or_without_data(random: &Random, item: Item) -> Item {
    match item {
        Item::Command { command, .. } if random.once_in(12) => Item::Command { command, data: Vec::new() },
        _ => item,
    }
}

fn apply(table: &mut [u8], item: &Item) {
    match item {
        Item::Command { command, data } => model::command(table, command, data, &mut [0; 4096], &mut []),
        Item::Reads { set, count } => model::reads(table, *set, *count, &mut []),
        Item::Writes { set, count } => model::writes(table, *set, *count, &mut []),
        Item::Excursion { set } => model::excursion(table, *set, &mut []),
        Item::Tick { milliseconds } => model::tick(table, *milliseconds, &mut [], &mut []),
    };
}

fn write_item(file: &mut impl Write, item: &Item) -> io::Result<()> {
    match item {
        Item::Command { command, data } if data.is_empty() => write_parts(file, tape::COMMAND, command, &[]),
        Item::Command { command, data } => write_parts(file, tape::COMMAND_WITH_DATA, command, data),
        Item::Reads { set, count } => write_parts(file, tape::READS, &set.to_le_bytes(), &count.to_le_bytes()),
        Item::Writes { set, count } => write_parts(file, tape::WRITES, &set.to_le_bytes(), &count.to_le_bytes()),
        Item::Excursion { set } => write_parts(file, tape::EXCURSION, &set.to_le_bytes(), &[]),
        Item::Tick { milliseconds } => write_parts(file, tape::TICK, &milliseconds.to_le_bytes(), &[]),
    }
}

fn write_parts(file: &mut impl Write, kind: u8, first: &[u8], second: &[u8]) -> io::Result<()> {
    file.write_all(&[kind])?;
    file.write_all(first)?;
    file.write_all(second)
}

/// Nothing, or an unknown kind, a late 07h whole or cut, or an item whose body is cut.
fn make_end(random: &Random, file: &mut impl Write) -> io::Result<()> {
    let (kind, length) = match random.below(12) {
        0 => (random.between(8, 255) as u8, 200),
        1 => (tape::SET_ATTRIBUTES, 200),
        2 => (tape::COMMAND, 64),
        3 => (tape::COMMAND_WITH_DATA, 576),
        4 => (random.pick(&[tape::READS, tape::WRITES, tape::TICK]), 4),
        5 => (random.pick(&[0, tape::EXCURSION]), 2),
        _ => return Ok(()),
    };
    write_parts(file, kind, &random.bytes(random.place(length)), &[])
}

/// Recovery takes 1 ms, so that a set which an excursion drove out of D is back after one tick; all other limits are as large as
/// can be, so that nothing else drives it out.
fn events(sets: u64, items: u64, file: &mut impl Write) -> io::Result<()> {
    if !(1..=MAX_SETS as u64).contains(&sets) {
        refuse("SETS is 1 to 64");
    }
    let random = Random::new(sets);
    (1..=sets as u16).try_for_each(|set| write_bodies(file, &lasting_body(set)))?;
    (1..=sets as u16).try_for_each(|set| write_item(file, &enable(set)))?;
    write_item(file, &Item::Tick { milliseconds: 1 })?;
    (1..=sets as u16).try_for_each(|set| write_item(file, &select_d(set)))?;
    let mut out_of_d = None;
    for _ in 0..items {
        let set = random.between(1, sets) as u16;
        match out_of_d.take() {
            Some(left) => {
                write_item(file, &Item::Tick { milliseconds: 1 })?;
                write_item(file, &select_d(left))?;
            }
            None => {
                let item = event(&random, set);
                out_of_d = Some(set).filter(|_| matches!(item, Item::Excursion { .. }));
                write_item(file, &item)?;
            }
        }
    }
    file.flush()
}

fn event(random: &Random, set: u16) -> Item {
    let count = random.below(16) as u16;
    match random.below(64) {
        0 => Item::Excursion { set },
        1..=15 => Item::Tick { milliseconds: 1 },
        16..=39 => Item::Reads { set, count },
        _ => Item::Writes { set, count },
    }
}

fn lasting_body(set: u16) -> Vec<u8> {
    let mut body = Vec::with_capacity(BODY_BYTES);
    body.extend(set.to_le_bytes());
    body.extend(1u16.to_le_bytes());
    body.extend([0; 40]);
    for number in [u64::from(u32::MAX), u64::from(u32::MAX), DAY, 1, 1] {
        body.extend(number.to_le_bytes());
    }
    body
}

fn enable(set: u16) -> Item {
    let mut data = vec![0; 512];
    data[0..2].copy_from_slice(&0xC007u16.to_le_bytes());
    for threshold in data[32..56].chunks_exact_mut(8) {
        threshold.copy_from_slice(&1_000u64.to_le_bytes());
    }
    Item::Command { command: set_feature(CONFIGURATION, set), data }
}

fn select_d(set: u16) -> Item {
    Item::Command { command: set_feature(WINDOW, set), data: Vec::new() }
}

/// Set Features with 1 in CDW12: to enable the mode, or to select D.
fn set_feature(fid: u8, set: u16) -> Vec<u8> {
    let mut command = vec![0; 64];
    command[0] = SET_FEATURES;
    command[40] = fid;
    command[44..46].copy_from_slice(&set.to_le_bytes());
    command[48] = 1;
    command
}
