//! Each set of each card is found, and no other. 02: "With 64 sets, each media event walks the table to find its slot. Make the
//! search quicker using the rising order. Its answers stay". A quicker search may lose one slot of cards of some size, or find a
//! set where there is none: so cards of every size are tried, and on each every identifier that is in the table or beside one that
//! is. Nothing is left to chance, and how often each place is named is known beforehand.

use crate::calls::{Call, Function, Outcome, Regions, Takes};
use crate::entries::MODEL;
use crate::holding::difference;
use crate::random::Random;
use crate::samples::Fields;
use model::commands::{CONFIGURATION, GET_FEATURES, GET_LOG_PAGE, SET_FEATURES, SET_PAGE, WINDOW};
use model::layout::{read_table, table_bytes, word_of, write_table, Card, HEADER_BYTES, MAX_SETS, ROW_BYTES};
use model::notices::Notices;
use model::pages::{CONFIGURATION_BYTES, SET_PAGE_BYTES};
use model::set::{Attributes, Configuration, Set, Window, EVENT_MASK, EXCEEDED};
use model::status;
use std::collections::BTreeSet;
use std::sync::mpsc::{channel, Receiver, RecvTimeoutError};
use std::thread;
use std::time::Duration;

/// A search that does not end says nothing. So long without an answer to the calls on one card, which are fewer than 200, is taken
/// for that.
const LIMIT: Duration = Duration::from_secs(60);

const REPLY_BYTES: usize = 16;

/// How the identifiers of so many sets may lie.
const LAYOUTS: [(&str, fn(usize) -> Vec<u16>); 5] = [
    ("1, 2, 3 ..", |sets| (1..=sets).map(|slot| slot as u16).collect()),
    ("1, 2, 3 .. with one left out about the middle", all_but_one),
    ("2, 4, 6 ..", |sets| (1..=sets).map(|slot| 2 * slot as u16).collect()),
    (".. 65,531, 65,533, 65,535", |sets| (0..sets).rev().map(|left| u16::MAX - 2 * left as u16).collect()),
    ("1,000, 1,001, 1,003, 1,006, 2,006 ..", uneven),
];

/// From the middle on each set is one slot before the one that its number would have.
fn all_but_one(sets: usize) -> Vec<u16> {
    (0..sets).map(|slot| if slot < sets / 2 { slot + 1 } else { slot + 2 }).map(|identifier| identifier as u16).collect()
}

/// Steps of 1, 2, 3 and 1,000: between two neighbours lie no identifier, one, two, and many.
fn uneven(sets: usize) -> Vec<u16> {
    let steps = [1_000, 1, 2, 3].iter().cycle().take(sets);
    let next = |identifier: &mut u16, step: &u16| {
        *identifier += step;
        Some(*identifier)
    };
    steps.scan(0, next).collect()
}

/// Where the identifier that an item names lies on its card.
#[derive(Clone, Copy)]
enum Place {
    First,
    Last,
    Middle,
    Elsewhere,
    Below,
    Between,
    Above,
}

/// Of each place how often it is named, in the five layouts of 1 to 64 sets together. The sizes add up to 2,080 sets.
/// - Every card has a first set; the 63 of two sets or more have a last one besides. About the middle, and neither first nor last,
///   is one set of each odd size from 3 to 63 and two of each even size from 4 to 64. All other sets lie elsewhere.
/// - Below the first are 0 in the first two layouts, and of one set in the second also the 1 that is left out; 0 and 1 in the
///   third; 0, 1 and the identifier before it in each of the last two.
/// - Between n sets lie none in the first layout; in the second, of two sets or more, the one that is left out; n - 1 in the third
///   and fourth: 2,016 each. In the fifth the neighbours that are named are none, 1, 2 and 2 in turn, thus 5 for each four steps,
///   and 0, 0, 1 or 3 for those left over: for 0 to 63 steps 4 x 5 x (0 + 1 + .. + 15) + 16 x (0 + 0 + 1 + 3) = 2,464.
/// - Above the last are the identifier after it and 65,535; but none where 65,535 is the last, in the fourth layout.
const PLACES: [(&str, u64); 7] = [
    ("found at the first slot", 5 * 64),
    ("found at the last slot", 5 * 63),
    ("found about the middle", 5 * (31 + 2 * 31)),
    ("found elsewhere", 5 * (2_080 - 64 - 63 - 93)),
    ("absent, below the first", (1 + 1 + 2 + 3 + 3) * 64 + 1),
    ("absent, between two", 63 + 2_016 + 2_016 + 2_464),
    ("absent, above the last", (2 + 2 + 2 + 2) * 64),
];

/// The kinds of items that name a set: "events other than ticks, feature commands and reads of 0Ah".
#[derive(Clone, Copy, Debug, PartialEq, Eq)]
enum Kind {
    Reads,
    Writes,
    Excursion,
    SetConfiguration,
    GetConfiguration,
    SetWindow,
    GetWindow,
    ReadPage,
}

const KINDS: [Kind; 8] = [
    Kind::Reads,
    Kind::Writes,
    Kind::Excursion,
    Kind::SetConfiguration,
    Kind::GetConfiguration,
    Kind::SetWindow,
    Kind::GetWindow,
    Kind::ReadPage,
];

impl Kind {
    /// "unknown set 07C0h" of events, "set not in the table (commands)" 0002h.
    fn refusal(self) -> u16 {
        match self {
            Kind::Reads | Kind::Writes | Kind::Excursion => status::UNKNOWN_SET,
            _ => status::INVALID_FIELD,
        }
    }

    /// Whether it changes the set that it names, as the sets are here: it charges one, takes it out of D, or clears its events.
    fn changes(self) -> bool {
        !matches!(self, Kind::GetConfiguration | Kind::GetWindow)
    }

    fn call(self, random: &Random, set: u16, table: &[u8]) -> Call {
        let low = u32::from(set);
        let n = Window::N as u32;
        let dwords = (SET_PAGE_BYTES / 4 - 1) as u32;
        match self {
            Kind::Reads => event(random, Function::Reads { set, count: 1 }, table),
            Kind::Writes => event(random, Function::Writes { set, count: 1 }, table),
            Kind::Excursion => event(random, Function::Excursion { set }, table),
            Kind::SetConfiguration => command(random, SET_FEATURES, [CONFIGURATION.into(), low, 1], table),
            Kind::GetConfiguration => command(random, GET_FEATURES, [CONFIGURATION.into(), low, 0], table),
            Kind::SetWindow => command(random, SET_FEATURES, [WINDOW.into(), low, n], table),
            Kind::GetWindow => command(random, GET_FEATURES, [WINDOW.into(), low, 0], table),
            Kind::ReadPage => command(random, GET_LOG_PAGE, [u32::from(SET_PAGE) | dwords << 16, low << 16, 0], table),
        }
    }
}

fn event(random: &Random, function: Function, table: &[u8]) -> Call {
    Call { function, regions: Regions::new(random, table, [&[], &[], &[], &random.bytes(REPLY_BYTES)]) }
}

/// A command with these dwords 10 to 12. Its data, which only Set 13h reads, have no event enabled and no threshold.
fn command(random: &Random, opcode: u8, dwords: [u32; 3], table: &[u8]) -> Call {
    let command = Fields { opcode, identifier: None, dwords: [dwords[0], dwords[1], dwords[2], 0] }.command(random);
    let data = [0; CONFIGURATION_BYTES];
    let (answer, reply) = (random.bytes(SET_PAGE_BYTES), random.bytes(REPLY_BYTES));
    Call { function: Function::Command, regions: Regions::new(random, table, [&command, &data, &answer, &reply]) }
}

/// The set of a slot. Its attributes, thresholds and counts are unlike those of every other slot, so that an answer from there
/// shows; and it is in D, where every item counts.
fn set_of(slot: usize, identifier: u16) -> Set {
    let own = 1 + slot as u64;
    Set {
        attributes: Attributes {
            identifier,
            group: 100 + own as u16,
            random_read_typical: 200 + own as u32,
            optimal_write_size: 300 + own as u32,
            total: 400 + u128::from(own),
            unallocated: 300 + u128::from(own),
            reads_typical: 1_000 + own,
            writes_typical: 2_000 + own,
            time_maximum: 3_000 + own,
            minimum_high: 200 + own,
            minimum_low: 100 + own,
        },
        window: Window::D,
        configuration: Configuration { enev: EVENT_MASK, thresholds: [100 + own, 200 + own, 300 + own] },
        charges: [own, 2 * own, 3 * own],
        n_time: 0,
        need: 0,
        events: EXCEEDED,
        listed: slot % 2 == 1,
    }
}

/// What an item names, and the slot of that set where there is one.
struct Naming {
    set: u16,
    slot: Option<usize>,
    kind: Kind,
}

impl Naming {
    fn new(card: &Card, set: u16, met: &mut Met) -> Naming {
        let slot = card.sets.iter().position(|at| at.attributes.identifier == set);
        if let Some(slot) = slot {
            met.slots[slot] += 1;
        }
        Naming { set, slot, kind: met.next(place_of(card, set, slot)) }
    }

    /// Whether an outcome is that of this set and of no other, by 01 alone: its own row changes, where one does, and what is read
    /// is its own. Where there is no such set nothing is written.
    fn is_told_by(&self, call: &Call, outcome: &Outcome) -> bool {
        let (given, left) = (&call.regions, &outcome.regions);
        let slot = match self.slot {
            None => return outcome.status == self.kind.refusal() && left.table == given.table && left.answer == given.answer,
            Some(slot) => slot,
        };
        let pairs = rows(given.table.content()).zip(rows(left.table.content()));
        let changed: Vec<usize> = pairs.enumerate().filter(|(_, (before, after))| before != after).map(|(row, _)| row).collect();
        let expected = if self.kind.changes() { vec![slot] } else { vec![] };
        outcome.status == status::SUCCESS && changed == expected && self.is_read_from(slot, outcome)
    }

    /// "reads threshold 39:32" of Get 13h and "39:32 reads typical" of page 0Ah, which no other set has; and of Get 14h the
    /// window, which here no other set is in.
    fn is_read_from(&self, slot: usize, outcome: &Outcome) -> bool {
        let own = 1 + slot as u64;
        let (answer, reply) = (outcome.regions.answer.content(), outcome.regions.reply.content());
        match self.kind {
            Kind::GetConfiguration => word_of(answer, 4) == 100 + own,
            Kind::ReadPage => word_of(answer, 4) == 1_000 + own,
            Kind::GetWindow => reply[..4] == [Window::N as u8, 0, 0, 0],
            _ => true,
        }
    }
}

fn rows(table: &[u8]) -> impl Iterator<Item = &[u8]> {
    table[HEADER_BYTES..].chunks_exact(ROW_BYTES)
}

fn place_of(card: &Card, set: u16, slot: Option<usize>) -> Place {
    let (sets, first) = (card.sets.len(), card.sets[0].attributes.identifier);
    let last = card.sets[sets - 1].attributes.identifier;
    match slot {
        Some(0) => Place::First,
        Some(slot) if slot == sets - 1 => Place::Last,
        Some(slot) if slot == sets / 2 || slot == (sets - 1) / 2 => Place::Middle,
        Some(_) => Place::Elsewhere,
        None if set < first => Place::Below,
        None if set > last => Place::Above,
        None => Place::Between,
    }
}

/// The card's table. To Get 14h the set that it names is lent in N, since it reads nothing that tells two sets in D apart.
fn table_for(card: &Card, of: &Naming) -> Vec<u8> {
    let mut lent = card.clone();
    if let (Some(slot), Kind::GetWindow) = (of.slot, of.kind) {
        lent.sets[slot].window = Window::N;
        lent.sets[slot].charges = [0; 3];
        lent.sets[slot].need = lent.sets[slot].attributes.minimum_low;
    }
    let mut table = vec![0; table_bytes(lent.sets.len())];
    write_table(&mut table, &lent);
    assert_eq!(read_table(&table), Some(lent), "the table is legal");
    table
}

/// How often each place was named by each kind of item, and each slot found.
struct Met {
    places: [[u64; KINDS.len()]; PLACES.len()],
    slots: [u64; MAX_SETS],
}

impl Met {
    /// The kind of item that names a place next. They take turns, and each round begins with the next kind: so at each place every
    /// kind is met as often as any other, give or take one, and does not fall to the same layout each time.
    fn next(&mut self, place: Place) -> Kind {
        let counts = &mut self.places[place as usize];
        let turn = counts.iter().sum::<u64>() as usize;
        let kind = (turn + turn / KINDS.len()) % KINDS.len();
        counts[kind] += 1;
        KINDS[kind]
    }

    /// Prints the counts, and answers whether they are the expected ones: slot k is found on the cards that have more than k sets.
    fn print(&self) -> bool {
        let mut all = true;
        for ((name, expected), counts) in PLACES.iter().zip(&self.places) {
            let (total, least) = (counts.iter().sum::<u64>(), counts.iter().min().copied().unwrap_or(0));
            println!("{:>9}  {}, by each kind of item {} or more", total, name, least);
            all &= total == *expected && least >= expected / KINDS.len() as u64;
        }
        let cards = |slot: usize| (LAYOUTS.len() * (MAX_SETS - slot)) as u64;
        let slots = (0..MAX_SETS).filter(|&slot| self.slots[slot] == cards(slot)).count();
        println!("{:>9}  slots found on each card that has them", slots);
        all && slots == MAX_SETS
    }
}

/// Names each identifier of each card to one that takes calls, its neighbours, 0, 1 and 65,535. Answers whether it did what the
/// model does, each answer is that of the set named, and each place was named just as often as it has to be.
pub fn hold_finding(name: &str, taker: &mut dyn Takes) -> bool {
    println!("{} asked for each set of each card: {} sizes, {} layouts", name, MAX_SETS, LAYOUTS.len());
    let random = Random::new(0); // fills only what no document names, and what no function may keep
    let mut met = Met { places: [[0; KINDS.len()]; PLACES.len()], slots: [0; MAX_SETS] };
    let (begun, cards) = channel();
    thread::spawn(move || end_if_silent(cards));
    for sets in 1..=MAX_SETS {
        for (layout, identifiers) in LAYOUTS {
            let on = format!("on a card of {} sets, {}", sets, layout);
            begun.send(on.clone()).expect("the watch lasts as long as the trial");
            if let Err(why) = hold_card(name, taker, &random, &identifiers(sets), &mut met) {
                println!("{} {}", why, on);
                return false;
            }
        }
    }
    let right = met.print();
    println!("{}", if right { "each set found, and no other" } else { "each set found, but some count is not the expected one" });
    right
}

/// Names identifiers on one card, each on the same table.
fn hold_card(name: &str, taker: &mut dyn Takes, random: &Random, identifiers: &[u16], met: &mut Met) -> Result<(), String> {
    let sets = identifiers.iter().enumerate().map(|(slot, &identifier)| set_of(slot, identifier)).collect();
    let card = Card { sets, notices: Notices::default() };
    let beside = |&identifier: &u16| [identifier - 1, identifier, identifier.saturating_add(1)];
    let named: BTreeSet<u16> = identifiers.iter().flat_map(beside).chain([0, 1, u16::MAX]).collect();
    let namings: Vec<Naming> = named.into_iter().map(|set| Naming::new(&card, set, met)).collect();
    let call = |of: &Naming| of.kind.call(random, of.set, &table_for(&card, of));
    let calls: Vec<Call> = namings.iter().map(call).collect();
    let outcomes: Vec<Outcome> = calls.iter().map(|call| MODEL.outcome(call)).collect();
    let theirs = taker.outcomes(&calls);
    let wrong = || namings.iter().zip(&calls).zip(&theirs).position(|((of, call), theirs)| !of.is_told_by(call, theirs));
    match difference(name, &calls, &theirs, &outcomes).or_else(wrong) {
        None => Ok(()),
        Some(at) => Err(format!("{:?} of {}, whose slot is {:?},", namings[at].kind, namings[at].set, namings[at].slot)),
    }
}

fn end_if_silent(cards: Receiver<String>) {
    let mut on = String::new();
    loop {
        match cards.recv_timeout(LIMIT) {
            Ok(card) => on = card,
            Err(RecvTimeoutError::Disconnected) => return,
            Err(RecvTimeoutError::Timeout) => {
                println!("no answer in {} s {}", LIMIT.as_secs(), on);
                std::process::exit(1);
            }
        }
    }
}
