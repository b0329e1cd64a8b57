//! Holds an implementation to the model: the same calls to both, then status and every byte of every region compared.

use crate::calls::{Call, Function, Outcome, Takes};
use crate::counts::Counts;
use crate::damage::{damage_bodies, damage_table};
use crate::entries::MODEL;
use crate::random::Random;
use crate::samples;
use model::layout::{read_table, table_bytes, write_table, Card, BODY_BYTES};
use model::status;

/// How many calls are handed over at once.
const BATCH: u64 = 100;

/// A call of random content, and whether its table was spoiled.
pub struct Trial {
    pub call: Call,
    pub is_damaged: bool,
}

/// A card that lives through the trials which were not damaged.
struct World {
    random: Random,
    table: Vec<u8>,
    card: Card,
}

impl World {
    fn new(seed: u64) -> World {
        let random = Random::new(seed);
        let table = samples::table(&random);
        let card = read_table(&table).expect("set-up makes a legal table");
        World { random, table, card }
    }

    fn next_trial(&self) -> Trial {
        if self.random.once_in(30) {
            self.set_up_trial()
        } else {
            self.item_trial()
        }
    }

    fn set_up_trial(&self) -> Trial {
        let random = &self.random;
        let mut bodies = samples::bodies(random);
        if random.once_in(2) {
            damage_bodies(random, &mut bodies);
        }
        let needed = table_bytes(bodies.len() / BODY_BYTES);
        let length = match random.below(8) {
            0 => needed - 1 - random.place(needed),
            1 => needed - random.between(1, 8) as usize,
            2 => needed + random.place(24),
            3 => 20_000,
            _ => needed,
        };
        let table = random.bytes(length);
        Trial { call: Call::plain(random, Function::SetUp, &table, &bodies), is_damaged: false }
    }

    fn item_trial(&self) -> Trial {
        let random = &self.random;
        let mut table = self.table.clone();
        let is_damaged = random.once_in(5);
        if is_damaged {
            damage_table(random, &mut table);
        }
        let past = match random.below(24) {
            0..=1 => random.place(40),
            2 => 10_000,
            _ => 0,
        };
        table.extend(random.bytes(past));
        Trial { call: samples::call(random, samples::item(random, &self.card), &table), is_damaged }
    }

    /// Takes over the table that a trial has left, where the trial was given the card's own table or a new set-up.
    fn go_on(&mut self, trial: &Trial, outcome: &Outcome, counts: &mut Counts) {
        if trial.is_damaged || status::is_refusal(outcome.status) {
            return;
        }
        let left = outcome.regions.table.content();
        let card = read_table(left).expect("the model leaves a legal table");
        let is_set_up = trial.call.function == Function::SetUp;
        if !is_set_up {
            counts.changes(&trial.call, &self.card, &card);
        }
        // A card is renewed by few of the set-ups, so that it has a history.
        if !is_set_up || self.random.once_in(8) {
            self.table = left[..table_bytes(card.sets.len())].to_vec();
            self.card = card;
        }
        if self.random.once_in(12) {
            self.vary_times();
        }
    }

    /// Any need from low to high is legal, whatever the window before, and any time below its bound: so a set is now and then given
    /// others, since items alone seldom come to many of them.
    fn vary_times(&mut self) {
        let place = self.random.place(self.card.sets.len());
        samples::put_any_times(&self.random, &mut self.card.sets[place]);
        write_table(&mut self.table, &self.card);
    }
}

/// Gives so many trials to one that takes calls and to the model. Prints what was met and answers whether both agreed and every
/// status and branch was met often enough.
pub fn hold(name: &str, taker: &mut dyn Takes, seed: u64, trials: u64) -> bool {
    println!("{} held to the model: seed {}, {} items", name, seed, trials);
    let mut world = World::new(seed);
    let mut counts = Counts::new();
    let mut done = 0;
    while done < trials {
        let (mut calls, mut outcomes) = (Vec::new(), Vec::new());
        for _ in done..trials.min(done + BATCH) {
            let trial = world.next_trial();
            let outcome = MODEL.outcome(&trial.call);
            counts.outcome(&trial, &outcome);
            world.go_on(&trial, &outcome, &mut counts);
            calls.push(trial.call);
            outcomes.push(outcome);
        }
        if let Some(place) = first_difference(name, taker, &calls, &outcomes) {
            println!("at item {} of seed {}", done + place as u64, seed);
            return false;
        }
        done += calls.len() as u64;
    }
    let floor = trials / 10_000;
    let met = counts.print(floor);
    println!("{}", if met { "no difference" } else { "no difference, but some count is under the floor" });
    met
}

/// Gives the calls to one that takes them. Prints the first call on which it differs from the model, and answers its place.
pub fn first_difference(name: &str, taker: &mut dyn Takes, calls: &[Call], outcomes: &[Outcome]) -> Option<usize> {
    difference(name, calls, &taker.outcomes(calls), outcomes)
}

/// The same of outcomes that are there already.
pub fn difference(name: &str, calls: &[Call], theirs: &[Outcome], outcomes: &[Outcome]) -> Option<usize> {
    let place = theirs.iter().zip(outcomes).position(|(theirs, model)| theirs != model)?;
    println!("DIFFERENCE of {} and the model", name);
    calls[place].print(&[(name, &theirs[place]), ("model", &outcomes[place])]);
    Some(place)
}

/// The seed and the number of items that a program was given, or its own; what follows them is the program over words.
pub fn arguments(seed: u64, items: u64) -> (u64, u64, Vec<String>) {
    let number = |place: usize, otherwise: u64| match std::env::args().nth(place) {
        None => otherwise,
        Some(text) => text.parse().expect("SEED and ITEMS are numbers"),
    };
    (number(1, seed), number(2, items), std::env::args().skip(3).collect())
}
