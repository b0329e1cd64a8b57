//! Random calls of the two functions over references: set-up from a list of three sets or of 64, and events of one lent record.

use crate::calls::{Call, Function, Outcome, Takes};
use crate::counts::wrong_need;
use crate::damage::{damage_bodies, damage_table};
use crate::entries::MODEL;
use crate::holding::first_difference;
use crate::random::Random;
use crate::samples::{self, Item};
use model::layout::field::{IDENTIFIER, LISTED, MINIMUM_HIGH, NEED, WINDOW};
use model::layout::{read_body, read_row, read_table, table_bytes, word_of, write_table, BODY_BYTES, HEADER_BYTES, MAX_SETS};
use model::notices::Notices;
use model::set::{Attributes, Set, EVENT_MASK};
use model::status;
use std::collections::BTreeMap;

const BATCH: u64 = 100;

/// What must be met, each in one call of a thousand.
const MET: [&str; 13] = [
    "set-up of 3 sets 0000",
    "set-up of 3 sets 07C2",
    "set-up of 3 sets 07C4",
    "set-up of 64 sets 0000",
    "set-up of 64 sets 07C2",
    "set-up of 64 sets 07C4",
    "event 0000",
    "event 07C3",
    "event that changes the record",
    "event that lists its set",
    "event that drives its set out of D",
    "event that leaves a need below high",
    "event 07C3 for its need alone",
];

/// Gives so many calls to one that takes them and to the model. Answers whether both agreed and enough was met.
pub fn hold_lending(name: &str, taker: &mut dyn Takes, seed: u64, calls: u64) -> bool {
    println!("{} held to the model: seed {}, {} calls", name, seed, calls);
    let random = Random::new(seed);
    let mut counts: BTreeMap<&str, u64> = MET.iter().map(|&met| (met, 0)).collect();
    let mut table = new_card(&random);
    for done in (0..calls).step_by(BATCH as usize) {
        let batch: Vec<Call> = (0..BATCH).map(|_| next_call(&random, &mut table)).collect();
        let outcomes: Vec<Outcome> = batch.iter().map(|call| MODEL.outcome(call)).collect();
        for met in batch.iter().zip(&outcomes).flat_map(|(call, outcome)| met_by(call, outcome)) {
            *counts.get_mut(met).expect("the name is in the list") += 1;
        }
        if let Some(place) = first_difference(name, taker, &batch, &outcomes) {
            println!("at call {} of seed {}", done + place as u64, seed);
            return false;
        }
    }
    for (met, count) in &counts {
        println!("{:>9}  {}", count, met);
    }
    let enough = counts.values().all(|&count| count >= calls / 1_000);
    println!("{}", if enough { "no difference" } else { "no difference, but some count is under the floor" });
    enough
}

/// A card of one set.
fn new_card(random: &Random) -> Vec<u8> {
    let mut table = vec![0; table_bytes(1)];
    assert_eq!(model::set_up(&mut table, &samples::body(random, random.between(1, 65_535) as u16)), status::SUCCESS);
    settled(table)
}

/// The table with its flag raised and notices off. A record that is lent by itself has no header: so no event may change it.
fn settled(mut table: Vec<u8>) -> Vec<u8> {
    let mut card = read_table(&table).expect("the model leaves a legal table");
    card.notices = Notices { flag: true, ..Notices::default() };
    write_table(&mut table, &card);
    table
}

fn next_call(random: &Random, table: &mut Vec<u8>) -> Call {
    if random.once_in(3) {
        return set_up(random);
    }
    if random.once_in(200) {
        *table = new_card(random);
    }
    loop {
        let card = read_table(table).expect("the model leaves a legal table");
        let item = samples::item(random, &card);
        if matches!(item, Item::Reads { .. } | Item::Writes { .. } | Item::Excursion { .. }) {
            let lent = if random.once_in(4) { damaged(random, table) } else { table.clone() };
            let call = event(random, item, &lent);
            if *table == lent {
                *table = MODEL.outcome(&call).regions.table.content().to_vec();
            }
            return call;
        }
        // Commands and ticks only bring the set into other windows.
        *table = settled(MODEL.outcome(&samples::call(random, item, table)).regions.table.content().to_vec());
    }
}

/// A lent record has no name but its own.
fn event(random: &Random, item: Item, table: &[u8]) -> Call {
    let set = word_of(&table[HEADER_BYTES..], IDENTIFIER) as u16;
    let function = match item {
        Item::Reads { count, .. } => Function::Reads { set, count },
        Item::Writes { count, .. } => Function::Writes { set, count },
        _ => Function::Excursion { set },
    };
    Call::plain(random, function, table, &[])
}

/// Damage that a record can hold: it has no unused bits, and four bytes for each typical, time and count.
fn damaged(random: &Random, table: &[u8]) -> Vec<u8> {
    loop {
        let mut spoiled = table.to_vec();
        damage_table(random, &mut spoiled);
        let is_whole = spoiled.len() == table.len() && spoiled[..HEADER_BYTES] == table[..HEADER_BYTES];
        if is_whole && read_row(&spoiled[HEADER_BYTES..]).map_or(false, |set| has_known_bits(&set) && has_small_counts(&set)) {
            return spoiled;
        }
    }
}

fn has_known_bits(set: &Set) -> bool {
    (set.configuration.enev | set.events) & !EVENT_MASK == 0
}

fn has_small_counts(set: &Set) -> bool {
    has_small_limits(&set.attributes)
        && set.charges.iter().chain([&set.n_time, &set.need]).all(|&count| count <= u64::from(u32::MAX))
}

fn has_small_limits(of: &Attributes) -> bool {
    [of.reads_typical, of.writes_typical, of.time_maximum, of.minimum_high, of.minimum_low]
        .iter()
        .all(|&limit| limit <= u64::from(u32::MAX))
}

/// Whether each body is one of attributes that a record can hold.
fn fit_attributes(bodies: &[u8]) -> bool {
    bodies
        .chunks_exact(BODY_BYTES)
        .all(|body| has_small_limits(&read_body(body.try_into().expect("a body is cut to its length"))))
}

fn set_up(random: &Random) -> Call {
    let sets = random.pick(&[3, 3, MAX_SETS]);
    let needed = table_bytes(sets);
    let length = random.pick(&[needed, needed, needed + 8 * random.place(40), random.place(needed)]);
    let bodies = loop {
        let mut bodies = samples::bodies_of(random, sets as u64, random.once_in(16));
        if random.once_in(2) {
            damage_bodies(random, &mut bodies);
        }
        if bodies.len() == sets * BODY_BYTES && fit_attributes(&bodies) {
            break bodies;
        }
    };
    Call::plain(random, Function::SetUp, &random.bytes(length), &bodies)
}

fn met_by(call: &Call, outcome: &Outcome) -> Vec<&'static str> {
    let word = |table: &[u8], field: usize| word_of(&table[HEADER_BYTES..], field);
    let (before, after) = (call.regions.table.content(), outcome.regions.table.content());
    let is_full = call.regions.data.content().len() == MAX_SETS * BODY_BYTES;
    match (call.function, outcome.status) {
        (Function::SetUp, status::SUCCESS) if is_full => vec!["set-up of 64 sets 0000"],
        (Function::SetUp, status::TOO_SHORT) if is_full => vec!["set-up of 64 sets 07C2"],
        (Function::SetUp, _) if is_full => vec!["set-up of 64 sets 07C4"],
        (Function::SetUp, status::SUCCESS) => vec!["set-up of 3 sets 0000"],
        (Function::SetUp, status::TOO_SHORT) => vec!["set-up of 3 sets 07C2"],
        (Function::SetUp, _) => vec!["set-up of 3 sets 07C4"],
        (_, status::SUCCESS) => {
            let effects = [
                ("event 0000", true),
                ("event that changes the record", before != after),
                ("event that lists its set", word(before, LISTED) < word(after, LISTED)),
                ("event that drives its set out of D", word(before, WINDOW) != word(after, WINDOW)),
                (
                    "event that leaves a need below high",
                    word(before, NEED) < word(after, NEED) && word(after, NEED) < word(after, MINIMUM_HIGH),
                ),
            ];
            effects.iter().filter(|(_, met)| *met).map(|&(name, _)| name).collect()
        }
        _ if wrong_need(before).is_some() => vec!["event 07C3", "event 07C3 for its need alone"],
        _ => vec!["event 07C3"],
    }
}
