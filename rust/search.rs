//! Times the search for a set by itself. The proved one of libsearch_c.a, on words and on bytes, takes turns with two ordinary ones
//! on the same table: a walk from slot to slot, and the standard library's `binary_search_by_key`. Then a whole media event that
//! names the same set, and how much of it a search takes. A search does not wait for the one before it, so that these are the times
//! of many searches, and less than what one takes of a call that waits for it.

use crate::card_c;
use crate::tables::{prepared, Others, State};
use crate::timing::{median, opaque};
use model::layout::{header, HEADER_BYTES, HEADER_WORDS, MAX_SETS, ROW_BYTES, ROW_WORDS, WORD_BYTES};
use std::slice;
use std::time::Instant;
use trials::random::Random;

/// How many searches are timed together; and where they are for different sets, so many that the processor does not learn them.
const SEARCHES: usize = 2_048;
const UNFORESEEN: usize = 65_536;
/// How many events are, each of which needs a table of its own.
const EVENTS: usize = 32;
const ROUNDS: usize = 41;
const RUNS: usize = 5;

#[link(name = "search_c", kind = "static")]
extern "C" {
    fn search_words(table: *const u64, length: usize, set: u16) -> usize;
    fn search_bytes(table: *const u8, length: usize, set: u16) -> usize;
}

/// A search in a legal table of so many words or bytes: the slot, or `MAX_SETS` where the set is not there. Those in Rust are given
/// as C's are, so that each search is one call of the same kind.
type Search<T> = unsafe extern "C" fn(*const T, usize, u16) -> usize;

const SEARCHES_OF_WORDS: [Search<u64>; 3] = [search_words, walk::<u64, ROW_WORDS>, halves::<u64, ROW_WORDS>];
const SEARCHES_OF_BYTES: [Search<u8>; 3] = [search_bytes, walk::<u8, ROW_BYTES>, halves::<u8, ROW_BYTES>];

/// What a table is lent in: words, or their bytes.
trait Unit: Sized {
    const HEADER: usize;
    fn word(units: &[Self]) -> u64;
    fn sets(table: &[Self]) -> u64;
}

impl Unit for u64 {
    const HEADER: usize = HEADER_WORDS;

    fn word(words: &[u64]) -> u64 {
        words[0]
    }

    fn sets(table: &[u64]) -> u64 {
        table[header::SETS]
    }
}

impl Unit for u8 {
    const HEADER: usize = HEADER_BYTES;

    fn word(bytes: &[u8]) -> u64 {
        u64::from_le_bytes(bytes[..WORD_BYTES].try_into().unwrap())
    }

    fn sets(table: &[u8]) -> u64 {
        u8::word(&table[WORD_BYTES * header::SETS..])
    }
}

/// The rows of a legal table, as many as its header says. A row begins with the word of its identifier.
unsafe fn rows<'a, T: Unit, const ROW: usize>(table: *const T, length: usize) -> &'a [[T; ROW]] {
    let table = slice::from_raw_parts(table, length);
    let rows = &table[T::HEADER..][..T::sets(table) as usize * ROW];
    slice::from_raw_parts(rows.as_ptr().cast(), rows.len() / ROW)
}

unsafe extern "C" fn walk<T: Unit, const ROW: usize>(table: *const T, length: usize, set: u16) -> usize {
    rows::<T, ROW>(table, length).iter().position(|row| T::word(row) == u64::from(set)).unwrap_or(MAX_SETS)
}

unsafe extern "C" fn halves<T: Unit, const ROW: usize>(table: *const T, length: usize, set: u16) -> usize {
    rows::<T, ROW>(table, length).binary_search_by_key(&u64::from(set), |row| T::word(row)).unwrap_or(MAX_SETS)
}

/// A card: how many sets, and how far their identifiers lie apart, from that number on. Where they lie 1 apart none is left out.
#[derive(Clone, Copy)]
struct Sets {
    count: u16,
    step: u16,
}

impl Sets {
    fn all() -> impl Iterator<Item = Sets> {
        [1, 2].into_iter().flat_map(|step| [1, 8, 31, 64].into_iter().map(move |count| Sets { count, step }))
    }

    fn identifier(self, slot: u16) -> u16 {
        self.step * (slot + 1)
    }

    /// Its table, with all sets in D.
    fn table(self) -> Vec<u8> {
        let all: Vec<u16> = (0..self.count).map(|slot| self.identifier(slot)).collect();
        prepared(&all, all[0], State::InD, Others::Alike)
    }

    fn text(self) -> String {
        let identifiers = if self.step == 1 { "1, 2, 3 .." } else { "2, 4, 6 .." };
        format!("{} | {}", self.count, identifiers)
    }
}

/// Which set is looked for.
#[derive(Clone, Copy)]
enum Named {
    First,
    Middle,
    Last,
    /// Right below the one in the middle; where that is a set, above the last.
    Absent,
    /// Another each time, so that no branch is foreseen.
    Any,
    /// The same, one in two of them not there.
    AnyOrNone,
}

const NAMED: [(Named, &str); 6] = [
    (Named::First, "the first"),
    (Named::Middle, "the middle"),
    (Named::Last, "the last"),
    (Named::Absent, "none"),
    (Named::Any, "any"),
    (Named::AnyOrNone, "any or none"),
];

impl Named {
    /// The sets to look for one after the other.
    fn identifiers(self, sets: Sets) -> Vec<u16> {
        let (middle, last) = (sets.identifier(sets.count / 2), sets.identifier(sets.count - 1));
        let random = Random::new(1);
        let one = match self {
            Named::First => sets.identifier(0),
            Named::Middle => middle,
            Named::Last => last,
            Named::Absent if sets.step == 1 => last + 1,
            Named::Absent => middle - 1,
            Named::Any => return (0..UNFORESEEN).map(|_| sets.identifier(random.below(sets.count.into()) as u16)).collect(),
            Named::AnyOrNone => return (0..UNFORESEEN).map(|_| random.between(1, 2 * u64::from(sets.count)) as u16).collect(),
        };
        vec![one; SEARCHES]
    }
}

/// Prints the tables.
pub fn print() {
    let words_of = |table: Vec<u8>| table.chunks_exact(WORD_BYTES).map(u8::word).collect();
    search_rows("on words", &SEARCHES_OF_WORDS, words_of);
    search_rows("on bytes", &SEARCHES_OF_BYTES, |table| table);
    event_rows();
}

fn search_rows<T>(title: &str, searches: &[Search<T>; 3], form: impl Fn(Vec<u8>) -> Vec<T>) {
    let columns = "ours, ns | walk, ns | ours / walk | between | halves, ns | ours / halves | between";
    println!("\n| search {title} for | sets | identifiers | {columns} |");
    println!("|---|---:|---|---:|---:|---:|---|---:|---:|---|");
    for sets in Sets::all() {
        let table = form(sets.table());
        hold(searches, &table, sets);
        for (named, name) in NAMED {
            let named = named.identifiers(sets);
            let searches = opaque(searches);
            let times = Times::take(|which| search_all(searches[which], &table, &named));
            let [ours, walk, halves] = times.medians();
            let (by_walk, by_halves) = (times.ratio(0, 1).text(), times.ratio(0, 2).text());
            println!("| {name} | {} | {ours:.1} | {walk:.1} | {by_walk} | {halves:.1} | {by_halves} |", sets.text());
        }
    }
}

/// A whole event, in which the legality of all rows is tested, and what a search by itself takes beside it: the proved one, and a
/// walk.
fn event_rows() {
    println!("\n| reads of | sets | identifiers | call, ns | search, ns | search / call | walk, ns | walk / call |");
    println!("|---|---:|---|---:|---:|---:|---:|---:|");
    for sets in Sets::all() {
        let table = sets.table();
        for (named, name) in NAMED {
            let named = named.identifiers(sets);
            let [ours, walk, _] = opaque(&SEARCHES_OF_BYTES);
            let mut events = Events { table: &table, tables: table.repeat(EVENTS), named: &named, next: 0 };
            let times = Times::take(|which| match which {
                0 => events.some(),
                1 => search_all(ours, &table, &named),
                _ => search_all(walk, &table, &named),
            });
            let [call, search, walk] = times.medians();
            let (of_call, by_walk) = (times.ratio(1, 0).median, times.ratio(2, 0).median);
            println!("| {name} | {} | {call:.0} | {search:.1} | {of_call:.3} | {walk:.1} | {by_walk:.3} |", sets.text());
        }
    }
}

/// The three find the same, of every identifier up to one above the last.
fn hold<T>(searches: &[Search<T>; 3], table: &[T], sets: Sets) {
    let identifiers: Vec<u16> = (0..sets.count).map(|slot| sets.identifier(slot)).collect();
    for set in 0..=sets.identifier(sets.count) {
        let expected = identifiers.iter().position(|&identifier| identifier == set).unwrap_or(MAX_SETS);
        for search in searches {
            assert_eq!(found(*search, table, set), expected, "set {set} of {}", sets.text());
        }
    }
}

fn found<T>(search: Search<T>, table: &[T], set: u16) -> usize {
    // The table is a legal one, made by the model.
    unsafe { search(table.as_ptr(), table.len(), set) }
}

/// ns for each search.
fn search_all<T>(search: Search<T>, table: &[T], sets: &[u16]) -> f64 {
    let start = Instant::now();
    let slots = sets.iter().fold(0, |slots, &set| slots | found(search, table, set));
    let time = start.elapsed().as_nanos() as f64;
    // A use of what was found, so that it is looked for.
    assert!(slots < 2 * MAX_SETS);
    time / sets.len() as f64
}

/// Reads of one set after the other, each on a table of its own, since it is charged there.
struct Events<'a> {
    table: &'a [u8],
    tables: Vec<u8>,
    named: &'a [u16],
    next: usize,
}

impl Events<'_> {
    /// ns for each event of as many as there are tables.
    fn some(&mut self) -> f64 {
        let size = self.table.len();
        self.tables.chunks_exact_mut(size).for_each(|table| table.copy_from_slice(self.table));
        let sets = &self.named[self.next..][..EVENTS];
        self.next = (self.next + EVENTS) % self.named.len();
        let start = Instant::now();
        for (table, &set) in self.tables.chunks_exact_mut(size).zip(sets) {
            (card_c::ENTRIES.reads)(table, set, 1, &mut []);
        }
        start.elapsed().as_nanos() as f64 / EVENTS as f64
    }
}

/// The times of three, in turns: the median of each run's rounds.
struct Times([Vec<f64>; 3]);

/// The median of the runs' ratios, and between what they lay.
struct Ratio {
    median: f64,
    lowest: f64,
    highest: f64,
}

impl Ratio {
    fn text(&self) -> String {
        format!("{:.2} | {:.2} to {:.2}", self.median, self.lowest, self.highest)
    }
}

impl Times {
    fn take(mut timed: impl FnMut(usize) -> f64) -> Times {
        let mut runs = Times(Default::default());
        for _ in 0..RUNS {
            let mut rounds: [Vec<f64>; 3] = Default::default();
            for _ in 0..ROUNDS {
                for (which, times) in rounds.iter_mut().enumerate() {
                    times.push(timed(which));
                }
            }
            for (rounds, times) in rounds.iter_mut().zip(&mut runs.0) {
                times.push(median(rounds));
            }
        }
        runs
    }

    fn medians(&self) -> [f64; 3] {
        self.0.clone().map(|mut times| median(&mut times))
    }

    fn ratio(&self, of: usize, to: usize) -> Ratio {
        let mut ratios: Vec<f64> = self.0[of].iter().zip(&self.0[to]).map(|(of, to)| of / to).collect();
        let median = median(&mut ratios);
        Ratio { median, lowest: ratios[0], highest: ratios[RUNS - 1] }
    }
}
