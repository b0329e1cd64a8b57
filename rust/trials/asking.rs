//! A host that asks for the list of sets until it has them all. 02: "An Identify answer still holds 31 entries, so the host asks
//! again from the last identifier plus one; show that asking so until a count below 31, or a last identifier of 65,535, gives each
//! set once." Between two asks other items are carried out. What the answers hold, one after the other, is held to the sets of the
//! card; beside it page 0Bh is read, of cards with many sets listed.

use crate::calls::{Call, Outcome, Takes};
use crate::entries::MODEL;
use crate::holding::difference;
use crate::random::Random;
use crate::samples;
use model::layout::{little_endian, read_table, write_table, Card, MAX_SETS};
use model::set::{Attributes, EXCURSION};
use model::status;
use std::collections::BTreeMap;

/// What must be met, each by one host of a hundred.
const MET: [&str; 14] = [
    "31 entries with more to come",
    "asked again",
    "asked a third time",
    "a count of 0 at the end",
    "31 entries, the last of them 65,535",
    "asked from 0",
    "asked from 1",
    "asked from elsewhere",
    "the table changed between two asks",
    "page 0Bh of 64 sets with slots 31, 32 and 63 listed",
    "page 0Bh of 64 sets, all listed",
    "page 0Bh at offset 136",
    "page 0Bh refused at offset 140",
    "64 sets in three answers",
];

type Counts = BTreeMap<&'static str, u64>;

/// Has so many hosts ask one that takes calls. Answers whether it did what the model does, each host got just the sets that it
/// asked for, and enough was met.
pub fn hold_asking(name: &str, taker: &mut dyn Takes, seed: u64, hosts: u64) -> bool {
    println!("{} asked for all its sets: seed {}, {} hosts", name, seed, hosts);
    let random = Random::new(seed);
    let mut counts: Counts = MET.iter().map(|&met| (met, 0)).collect();
    for host in 0..hosts {
        let asked = Asked::new(&random, &mut counts);
        let theirs = taker.outcomes(&asked.calls);
        let held = match difference(name, &asked.calls, &theirs, &asked.outcomes) {
            Some(place) => Err(format!("at call {}", place)),
            None => asked.hold(&theirs),
        };
        if let Err(why) = held {
            println!("{}, of host {} of seed {}", why, host, seed);
            return false;
        }
    }
    for (met, count) in &counts {
        println!("{:>9}  {}", count, met);
    }
    let enough = counts.values().all(|&count| count >= hosts / 100);
    println!("{}", if enough { "each set once" } else { "each set once, but some count is under the floor" });
    enough
}

/// What an Identify answer says.
struct Answer {
    count: usize,
    /// Of each entry the identifier and what else it holds: group, random read typical, optimal write size, total, unallocated.
    entries: Vec<(u16, [u128; 5])>,
}

impl Answer {
    /// "byte 0 count; entries of 128 bytes from byte 128 [...]. Entry: 1:0 identifier, 3:2 group, 11:8 random read typical, 15:12
    /// optimal write size, 31:16 total, 47:32 unallocated".
    fn read(page: &[u8]) -> Answer {
        let count = usize::from(page[0]);
        let entry = |bytes: &[u8]| {
            let number = |from: usize, to: usize| little_endian(&bytes[from..to]);
            (number(0, 2) as u16, [number(2, 4), number(8, 12), number(12, 16), number(16, 32), number(32, 48)])
        };
        Answer { count, entries: page[128..].chunks_exact(128).take(count).map(entry).collect() }
    }

    fn last(&self) -> u16 {
        self.entries.last().map_or(0, |entry| entry.0)
    }

    /// Where the host asks again: "from the last identifier plus one", "until a count below 31, or a last identifier of 65,535".
    fn again(&self) -> Option<u16> {
        if self.count < 31 || self.last() == 65_535 {
            return None;
        }
        Some(self.last() + 1)
    }
}

fn entry_of(of: &Attributes) -> (u16, [u128; 5]) {
    let parts = [of.group.into(), of.random_read_typical.into(), of.optimal_write_size.into(), of.total, of.unallocated];
    (of.identifier, parts)
}

/// One host: the calls on its card, the asks among them, and what the model makes of each.
struct Asked {
    start: u16,
    /// The card as it was at the start.
    card: Card,
    calls: Vec<Call>,
    outcomes: Vec<Outcome>,
    /// The places of the asks.
    asks: Vec<usize>,
}

impl Asked {
    fn new(random: &Random, counts: &mut Counts) -> Asked {
        let (card, mut table) = new_card(random);
        let start = samples::start_of_asking(random, &card.sets);
        meet(counts, ["asked from 0", "asked from 1", "asked from elsewhere"][usize::from(start.min(2))]);
        let mut asked = Asked { start, card, calls: Vec::new(), outcomes: Vec::new(), asks: Vec::new() };
        let mut from = Some(start);
        while let Some(first) = from {
            asked.asks.push(asked.calls.len());
            let page = asked.give(samples::identify_call(random, first, &table), &mut table);
            let answer = Answer::read(&page);
            from = answer.again();
            asked.count(counts, &answer, first);
            let before = table.clone();
            asked.give_others(random, counts, &mut table);
            if from.is_some() && table != before {
                meet(counts, "the table changed between two asks");
            }
        }
        asked
    }

    /// Carries a call out on the table, and answers what the answer buffer holds then.
    fn give(&mut self, call: Call, table: &mut Vec<u8>) -> Vec<u8> {
        let outcome = MODEL.outcome(&call);
        *table = outcome.regions.table.content().to_vec();
        let answer = outcome.regions.answer.content().to_vec();
        self.calls.push(call);
        self.outcomes.push(outcome);
        answer
    }

    /// Some items, and a read of page 0Bh, whole or about its end.
    fn give_others(&mut self, random: &Random, counts: &mut Counts, table: &mut Vec<u8>) {
        for _ in 0..random.below(4) {
            let card = read_table(table).expect("the model leaves a legal table");
            let call = samples::call(random, samples::item(random, &card), table);
            self.give(call, table);
        }
        let (dwords, offset) = random.pick(&[(34, 0), (34, 0), (34, 136), (1, 136), (1, 140), (35, 0), (1, 132)]);
        let card = read_table(table).expect("the model leaves a legal table");
        self.give(samples::call(random, samples::list_read(random, dwords, offset), table), table);
        let number = self.outcomes.last().map_or(status::SUCCESS, |outcome| outcome.status);
        count_list_read(counts, &card, (dwords, offset), number);
    }

    fn count(&self, counts: &mut Counts, answer: &Answer, from: u16) {
        let wanted = self.card.sets.iter().filter(|set| set.attributes.identifier >= from).count();
        let asks = self.asks.len();
        let met = [
            ("31 entries with more to come", answer.count == 31 && wanted > 31),
            ("asked again", asks == 2),
            ("asked a third time", asks == 3),
            ("a count of 0 at the end", asks > 1 && answer.count == 0),
            ("31 entries, the last of them 65,535", answer.count == 31 && answer.last() == 65_535),
            ("64 sets in three answers", asks == 3 && answer.count == 2 && self.card.sets.len() == MAX_SETS),
        ];
        met.iter().filter(|(_, holds)| *holds).for_each(|(name, _)| meet(counts, name));
    }

    /// Whether the answers to the asks hold just the sets at or above the start, each once and rising, in three answers at the
    /// most, of which each but the last has 31.
    fn hold(&self, theirs: &[Outcome]) -> Result<(), String> {
        let answers: Vec<Answer> = self.asks.iter().map(|&place| Answer::read(theirs[place].regions.answer.content())).collect();
        let joined: Vec<_> = answers.iter().flat_map(|answer| &answer.entries).cloned().collect();
        let attributes = self.card.sets.iter().map(|set| &set.attributes);
        let wanted: Vec<_> = attributes.filter(|of| of.identifier >= self.start).map(entry_of).collect();
        if joined != wanted {
            let identifiers = |entries: &[(u16, [u128; 5])]| entries.iter().map(|entry| entry.0).collect::<Vec<u16>>();
            return Err(format!("asked from {}: {:?}, not {:?}", self.start, identifiers(&joined), identifiers(&wanted)));
        }
        if answers.len() > 3 || answers[..answers.len() - 1].iter().any(|answer| answer.count != 31) {
            let counts: Vec<usize> = answers.iter().map(|answer| answer.count).collect();
            return Err(format!("asked from {}: answers of {:?} sets", self.start, counts));
        }
        Ok(())
    }
}

/// A card of about as many sets as one answer holds, or two, or as many as there may be. None of them is listed, or half, or all.
fn new_card(random: &Random) -> (Card, Vec<u8>) {
    let most = MAX_SETS as u64;
    let sets = random.pick(&[31, 32, 62, 63, most, most, random.between(1, most)]);
    let mut table = samples::table_from(&samples::bodies_of(random, sets, random.once_in(2)));
    let mut card = read_table(&table).expect("set-up makes a legal table");
    let listed = random.below(3);
    for set in &mut card.sets {
        if random.below(2) < listed {
            set.events = EXCURSION;
            set.listed = true;
        }
    }
    write_table(&mut table, &card);
    (card, table)
}

fn count_list_read(counts: &mut Counts, card: &Card, part: (u64, u64), number: u16) {
    let is_whole = part == (34, 0) && number == status::SUCCESS && card.sets.len() == MAX_SETS;
    let are_listed = |slots: &[usize]| slots.iter().all(|&slot| card.sets.get(slot).map_or(false, |set| set.listed));
    let met = [
        ("page 0Bh of 64 sets with slots 31, 32 and 63 listed", is_whole && are_listed(&[31, 32, 63])),
        ("page 0Bh of 64 sets, all listed", is_whole && card.sets.iter().all(|set| set.listed)),
        ("page 0Bh at offset 136", part.1 == 136 && number == status::SUCCESS),
        ("page 0Bh refused at offset 140", part.1 == 140 && number == status::INVALID_FIELD),
    ];
    met.iter().filter(|(_, holds)| *holds).for_each(|(name, _)| meet(counts, name));
}

fn meet(counts: &mut Counts, name: &str) {
    *counts.get_mut(name).expect("the name is in the list") += 1;
}
