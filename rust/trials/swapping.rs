//! Items that name different sets may change places, and a set's record and answers are those of that set alone: a random history
//! is played in order, with such neighbours exchanged, and once more for each set on a card of its own. Of notices: "swapping may
//! move one to the other item".

use crate::calls::{Call, Function};
use crate::entries::Entries;
use crate::random::Random;
use crate::samples;
use model::layout::field::{IDENTIFIER, LISTED};
use model::layout::{header, put_word, read_table, word_of, HEADER_BYTES, MAX_SETS, ROW_BYTES};
use model::pages::IDENTIFY_ENTRIES;

/// How many items a card lives through.
const HISTORY: u64 = 200;
const REPLY_BYTES: usize = 16;
/// Of a reply bytes 7:0 are an item's own answer, and the rest is the notice beside it.
const OWN_BYTES: usize = 8;

/// What an item answered.
#[derive(PartialEq, Eq)]
struct Answer {
    status: u16,
    data: Vec<u8>,
    reply: [u8; OWN_BYTES],
}

/// The notice that went beside an answer, if one did.
type Notice = Option<[u8; REPLY_BYTES - OWN_BYTES]>;

/// Carries out an item on a table; the call has none of its own.
fn play(entries: &Entries, item: &Call, table: &mut [u8]) -> (Answer, Notice) {
    let regions = &item.regions;
    let (mut data, mut reply) = (regions.answer.content().to_vec(), [0xA5; REPLY_BYTES]);
    let inputs = [regions.command.content(), regions.data.content()];
    let status = entries.carry_out(item.function, table, inputs, &mut data, &mut reply);
    let (own, notice) = reply.split_at(OWN_BYTES);
    let half = |bytes: &[u8]| bytes.try_into().expect("a reply is cut in two");
    (Answer { status, data, reply: half(own) }, Some(half(notice)).filter(|notice| *notice != [0; OWN_BYTES]))
}

fn rows(table: &[u8]) -> impl Iterator<Item = &[u8]> {
    table[HEADER_BYTES..].chunks_exact(ROW_BYTES)
}

fn listed(table: &[u8]) -> u64 {
    rows(table).map(|row| word_of(row, LISTED)).sum()
}

/// One card in three forms: its items in order, neighbours exchanged, and each set on a card of its own.
struct History<'a> {
    entries: &'a Entries,
    whole: Vec<u8>,
    exchanged: Vec<u8>,
    alone: Vec<(u16, Vec<u8>)>,
}

impl History<'_> {
    /// The sets start with the records that they have.
    fn new(entries: &Entries, table: Vec<u8>) -> History {
        let own_card = |row: &[u8]| {
            let mut own = table[..HEADER_BYTES].to_vec();
            put_word(&mut own, header::SETS, 1);
            own.extend_from_slice(row);
            (word_of(row, IDENTIFIER) as u16, own)
        };
        History { entries, exchanged: table.clone(), alone: rows(&table).map(own_card).collect(), whole: table }
    }

    /// Plays an item on the whole card, and on the cards of the sets that it may reach: the one it names, or with a tick all. An
    /// item that names a set is answered there as it is on the whole card.
    fn play(&mut self, item: &Call) -> Result<(Answer, Notice), String> {
        let (answer, notice) = play(self.entries, item, &mut self.whole);
        let named = item.set_named();
        let is_tick = matches!(item.function, Function::Tick { .. });
        for (_, own) in self.alone.iter_mut().filter(|(set, _)| is_tick || named == Some(*set)) {
            if play(self.entries, item, own).0 != answer {
                return Err("a set alone answers something else".into());
            }
        }
        if rows(&self.whole).zip(&self.alone).any(|(row, (_, own))| row != &own[HEADER_BYTES..]) {
            return Err("a set alone has another record".into());
        }
        Ok((answer, notice))
    }

    /// Plays two items that name different sets, in order and exchanged. The notices that they give one after the other are the
    /// same; which of the two items gives one may change.
    fn play_pair(&mut self, items: [&Call; 2], met: &mut Met) -> Result<(), String> {
        let before = self.whole.clone();
        let first = self.play(items[0])?;
        let between = self.whole.clone();
        let second = self.play(items[1])?;
        met.changing += u64::from(before != between && between != self.whole);
        met.large += u64::from(rows(&before).count() > IDENTIFY_ENTRIES);
        met.listing += u64::from(listed(&before) < listed(&between) || listed(&between) < listed(&self.whole));
        let other_second = play(self.entries, items[1], &mut self.exchanged);
        let other_first = play(self.entries, items[0], &mut self.exchanged);
        if other_second.0 != second.0 || other_first.0 != first.0 {
            return Err("exchanged, an item answers something else".into());
        }
        let notices: Vec<_> = first.1.iter().chain(&second.1).collect();
        if !notices.iter().copied().eq(other_second.1.iter().chain(&other_first.1)) {
            return Err("exchanged, two items give other notices".into());
        }
        met.noticed += u64::from(!notices.is_empty());
        met.moved += u64::from(first.1 != other_first.1);
        self.same_table()
    }

    /// Plays an item at its place in both orders.
    fn play_single(&mut self, item: &Call) -> Result<(), String> {
        let answer = self.play(item)?;
        if play(self.entries, item, &mut self.exchanged) != answer {
            return Err("after an exchange, an item answers something else".into());
        }
        self.same_table()
    }

    fn same_table(&self) -> Result<(), String> {
        if self.whole == self.exchanged {
            Ok(())
        } else {
            Err("exchanged, two items leave another table".into())
        }
    }
}

/// What was met.
#[derive(Default)]
struct Met {
    items: u64,
    pairs: u64,
    /// Pairs of which both items change the table.
    changing: u64,
    /// Pairs of which one lists a set.
    listing: u64,
    /// Pairs of which one gives a notice.
    noticed: u64,
    /// Pairs whose notice goes to the other item where they are exchanged.
    moved: u64,
    /// Pairs on a card of more sets than one Identify answer holds.
    large: u64,
}

impl Met {
    fn print(&self) {
        println!("{:>9}  items", self.items);
        println!("{:>9}  pairs exchanged", self.pairs);
        println!("{:>9}  of which both items change the table", self.changing);
        println!("{:>9}  of which one lists a set", self.listing);
        println!("{:>9}  of which one gives a notice", self.noticed);
        println!("{:>9}  of which the other gives it where they are exchanged", self.moved);
        println!("{:>9}  of which on a card of more than 31 sets", self.large);
    }

    /// Whether enough of the pairs did something. Seldom do both items of a pair list a set, so that a notice moves.
    fn is_enough(&self, items: u64) -> bool {
        self.changing >= items / 10
            && self.listing >= items / 100
            && self.noticed >= items / 1_000
            && self.moved >= items / 10_000
            && self.large >= items / 500
    }
}

/// Plays histories of at least so many items. Answers whether the order made no difference, and enough of the pairs did something:
/// for each ten items one pair of which both change the table, for each hundred one that lists a set, for each thousand one that
/// gives a notice, and for each ten thousand one whose notice moves; and for each five hundred one on a card of more than 31 sets.
pub fn hold_swapping(name: &str, entries: &Entries, seed: u64, items: u64) -> bool {
    println!("{}: neighbours exchanged, and each set alone: seed {}, {} items", name, seed, items);
    let random = Random::new(seed);
    let mut met = Met::default();
    while met.items < items {
        let mut history = History::new(entries, new_table(&random));
        let end = met.items + HISTORY;
        while met.items < end {
            if let Err(why) = step(&random, &mut history, &mut met) {
                println!("DIFFERENCE at item {} of seed {}: {}", met.items, seed, why);
                return false;
            }
        }
    }
    met.print();
    let enough = met.is_enough(items);
    println!("{}", if enough { "no difference" } else { "no difference, but some count is under the floor" });
    enough
}

/// A card of two sets at least, and mostly of few: those are quicker.
fn new_table(random: &Random) -> Vec<u8> {
    let most = if random.once_in(8) { MAX_SETS } else { 4 };
    loop {
        let table = samples::table(random);
        if (2..=most).contains(&rows(&table).count()) {
            return table;
        }
    }
}

/// An item that names a set with one that names another, or else the item by itself.
fn step(random: &Random, history: &mut History, met: &mut Met) -> Result<(), String> {
    let card = read_table(&history.whole).ok_or("the table is not legal any more")?;
    let (one, other) = (random.place(card.sets.len()), random.place(card.sets.len()));
    let next = |slot: usize| {
        let item = match random.below(20) {
            0..=4 => samples::item(random, &card),
            5..=7 if !card.notices.can_send() => samples::notice_item(random, &card),
            _ => samples::telling_item(random, &card.sets[slot]),
        };
        samples::call(random, item, &[])
    };
    let first = next(one);
    met.items += 1;
    let second = first.set_named().map(|_| next(other)).filter(|second| second.set_named().is_some());
    match second {
        Some(second) if first.set_named() != second.set_named() => {
            met.items += 1;
            met.pairs += 1;
            history.play_pair([&first, &second], met).map_err(|why| {
                first.print(&[]);
                second.print(&[]);
                why
            })
        }
        _ => history.play_single(&first),
    }
}
