//! The table's words (docs/LAYOUT.md) and the sets they stand for, and the bodies of set-up.

use crate::notices::{Notices, MAX_WAITING};
use crate::set::{Attributes, Configuration, Set, Window};

/// 01: "Up to 31 sets." 02: "Raise the limit to 64."
pub const MAX_SETS: usize = 64;
pub const WORD_BYTES: usize = 8;
pub const ROW_WORDS: usize = field::LISTED + 1;
pub const HEADER_WORDS: usize = header::REQUESTS + MAX_WAITING;
pub const HEADER_BYTES: usize = WORD_BYTES * HEADER_WORDS;
pub const ROW_BYTES: usize = WORD_BYTES * ROW_WORDS;
/// "07h set attributes in the order above, 84".
pub const BODY_BYTES: usize = 84;

/// The number of this layout: a table that has another was written by another version.
pub const LAYOUT_NUMBER: u64 = 0x1_0003;

/// The place of each word in the header. The identifiers of the waiting requests have four, the oldest first.
pub mod header {
    pub const LAYOUT: usize = 0;
    pub const SETS: usize = 1;
    pub const ON: usize = 2;
    pub const MASKED: usize = 3;
    pub const FLAG: usize = 4;
    pub const WAITING: usize = 5;
    pub const REQUESTS: usize = 6;
}

/// The place of each word in its row. A capacity has two, the lower first.
pub mod field {
    pub const IDENTIFIER: usize = 0;
    pub const GROUP: usize = 1;
    pub const RANDOM_READ: usize = 2;
    pub const WRITE_SIZE: usize = 3;
    pub const TOTAL: usize = 4;
    pub const TOTAL_UPPER: usize = 5;
    pub const UNALLOCATED: usize = 6;
    pub const UNALLOCATED_UPPER: usize = 7;
    pub const READS_TYPICAL: usize = 8;
    pub const WRITES_TYPICAL: usize = 9;
    pub const TIME_MAXIMUM: usize = 10;
    pub const MINIMUM_HIGH: usize = 11;
    pub const MINIMUM_LOW: usize = 12;
    pub const ENEV: usize = 13;
    pub const READS_THRESHOLD: usize = 14;
    pub const WRITES_THRESHOLD: usize = 15;
    pub const TIME_THRESHOLD: usize = 16;
    pub const WINDOW: usize = 17;
    pub const READS: usize = 18;
    pub const WRITES: usize = 19;
    pub const TIME: usize = 20;
    pub const N_TIME: usize = 21;
    pub const NEED: usize = 22;
    pub const EVENTS: usize = 23;
    pub const LISTED: usize = 24;
}

/// How many bytes the table of so many sets takes.
pub const fn table_bytes(sets: usize) -> usize {
    HEADER_BYTES + ROW_BYTES * sets
}

/// What a table stands for.
#[derive(Clone, Debug, PartialEq, Eq)]
pub struct Card {
    pub sets: Vec<Set>,
    pub notices: Notices,
}

impl Card {
    /// 01: "1 to 31 sets, identifiers strictly rising, statics in range; [...]". 02: "Raise the limit to 64."; "at most four
    /// waiting, and no flag [...]".
    fn is_legal(&self) -> bool {
        (1..=MAX_SETS).contains(&self.sets.len())
            && self.sets.iter().all(Set::is_legal)
            && is_rising(&self.sets)
            && self.notices.is_legal()
    }
}

/// The card of a legal table. None where the table is not legal or its slice too short.
pub fn read_table(table: &[u8]) -> Option<Card> {
    let words = table.get(..HEADER_BYTES)?;
    let sets = word_of(words, header::SETS);
    if word_of(words, header::LAYOUT) != LAYOUT_NUMBER || sets > MAX_SETS as u64 {
        return None;
    }
    let rows = table.get(HEADER_BYTES..table_bytes(sets as usize))?;
    let sets = rows.chunks_exact(ROW_BYTES).map(read_row).collect::<Option<_>>()?;
    Some(Card { sets, notices: read_notices(words)? }).filter(Card::is_legal)
}

/// Writes header and rows; "words past it are neither read nor written".
pub fn write_table(table: &mut [u8], card: &Card) {
    let words = header_of(card).into_iter().chain(card.sets.iter().flat_map(row_of));
    for (place, word) in table.chunks_exact_mut(WORD_BYTES).zip(words) {
        place.copy_from_slice(&word.to_le_bytes());
    }
}

/// What the header says of notices, whether legal or not, if it says anything: no word is too large for its field, and the places
/// past the waiting requests are zero.
fn read_notices(words: &[u8]) -> Option<Notices> {
    let waiting = usize::try_from(word_of(words, header::WAITING)).ok().filter(|&waiting| waiting <= MAX_WAITING)?;
    let requests: [u64; MAX_WAITING] = std::array::from_fn(|place| word_of(words, header::REQUESTS + place));
    let (used, unused) = requests.split_at(waiting);
    if unused.iter().any(|&word| word != 0) {
        return None;
    }
    Some(Notices {
        on: mark(word_of(words, header::ON))?,
        masked: mark(word_of(words, header::MASKED))?,
        flag: mark(word_of(words, header::FLAG))?,
        waiting: used.iter().map(|&word| word.try_into().ok()).collect::<Option<_>>()?,
    })
}

fn header_of(card: &Card) -> [u64; HEADER_WORDS] {
    let Card { sets, notices } = card;
    let request = |place: usize| notices.waiting.get(place).copied().unwrap_or(0).into();
    [
        LAYOUT_NUMBER,
        sets.len() as u64,
        notices.on.into(),
        notices.masked.into(),
        notices.flag.into(),
        notices.waiting.len() as u64,
        request(0),
        request(1),
        request(2),
        request(3),
    ]
}

/// "identifiers strictly rising".
pub fn is_rising(sets: &[Set]) -> bool {
    sets.windows(2).all(|two| two[0].attributes.identifier < two[1].attributes.identifier)
}

/// The attributes of one body, whether in range or not: "identifier; endurance group; random read typical (4 bytes); optimal
/// write size (4); total and unallocated capacity (16 each [...]). These last five take 8 bytes each."
pub fn read_body(body: &[u8; BODY_BYTES]) -> Attributes {
    let number = |from: usize, to: usize| little_endian(&body[from..to]);
    Attributes {
        identifier: number(0, 2) as u16,
        group: number(2, 4) as u16,
        random_read_typical: number(4, 8) as u32,
        optimal_write_size: number(8, 12) as u32,
        total: number(12, 28),
        unallocated: number(28, 44),
        reads_typical: number(44, 52) as u64,
        writes_typical: number(52, 60) as u64,
        time_maximum: number(60, 68) as u64,
        minimum_high: number(68, 76) as u64,
        minimum_low: number(76, 84) as u64,
    }
}

/// "All numbers little-endian." Of at most 16 bytes.
pub fn little_endian(bytes: &[u8]) -> u128 {
    bytes.iter().rev().fold(0, |number, &byte| number << 8 | u128::from(byte))
}

/// The word at a place, counted in words.
pub fn word_of(bytes: &[u8], place: usize) -> u64 {
    let word = &bytes[WORD_BYTES * place..WORD_BYTES * (place + 1)];
    u64::from_le_bytes(word.try_into().expect("a word is cut to its length"))
}

pub fn put_word(bytes: &mut [u8], place: usize, word: u64) {
    bytes[WORD_BYTES * place..WORD_BYTES * (place + 1)].copy_from_slice(&word.to_le_bytes());
}

/// The set of a row, whether legal or not, if there is one: a word that is too large for its field has some of its "unused bits"
/// set.
pub fn read_row(bytes: &[u8]) -> Option<Set> {
    let row = |field: usize| word_of(bytes, field);
    Some(Set {
        attributes: Attributes {
            identifier: row(field::IDENTIFIER).try_into().ok()?,
            group: row(field::GROUP).try_into().ok()?,
            random_read_typical: row(field::RANDOM_READ).try_into().ok()?,
            optimal_write_size: row(field::WRITE_SIZE).try_into().ok()?,
            total: capacity(row(field::TOTAL), row(field::TOTAL_UPPER)),
            unallocated: capacity(row(field::UNALLOCATED), row(field::UNALLOCATED_UPPER)),
            reads_typical: row(field::READS_TYPICAL),
            writes_typical: row(field::WRITES_TYPICAL),
            time_maximum: row(field::TIME_MAXIMUM),
            minimum_high: row(field::MINIMUM_HIGH),
            minimum_low: row(field::MINIMUM_LOW),
        },
        configuration: Configuration {
            enev: row(field::ENEV).try_into().ok()?,
            thresholds: [row(field::READS_THRESHOLD), row(field::WRITES_THRESHOLD), row(field::TIME_THRESHOLD)],
        },
        window: window(row(field::WINDOW))?,
        charges: [row(field::READS), row(field::WRITES), row(field::TIME)],
        n_time: row(field::N_TIME),
        need: row(field::NEED),
        events: row(field::EVENTS).try_into().ok()?,
        listed: mark(row(field::LISTED))?,
    })
}

fn row_of(set: &Set) -> [u64; ROW_WORDS] {
    let Set { attributes, window, configuration, charges, n_time, need, events, listed } = set;
    [
        attributes.identifier.into(),
        attributes.group.into(),
        attributes.random_read_typical.into(),
        attributes.optimal_write_size.into(),
        attributes.total as u64,
        (attributes.total >> 64) as u64,
        attributes.unallocated as u64,
        (attributes.unallocated >> 64) as u64,
        attributes.reads_typical,
        attributes.writes_typical,
        attributes.time_maximum,
        attributes.minimum_high,
        attributes.minimum_low,
        configuration.enev.into(),
        configuration.thresholds[0],
        configuration.thresholds[1],
        configuration.thresholds[2],
        *window as u64,
        charges[0],
        charges[1],
        charges[2],
        *n_time,
        *need,
        (*events).into(),
        (*listed).into(),
    ]
}

fn capacity(lower: u64, upper: u64) -> u128 {
    u128::from(upper) << 64 | u128::from(lower)
}

fn window(word: u64) -> Option<Window> {
    [Window::Off, Window::D, Window::N].iter().copied().find(|&window| window as u64 == word)
}

fn mark(word: u64) -> Option<bool> {
    match word {
        0 => Some(false),
        1 => Some(true),
        _ => None,
    }
}
