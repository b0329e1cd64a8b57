//! Spoiled tables and bodies. Some of what comes out is still legal, as it should be: both sides of each bound are wanted.

use crate::random::Random;
use model::layout::field::*;
use model::layout::{header, put_word, word_of, BODY_BYTES, HEADER_BYTES, HEADER_WORDS, LAYOUT_NUMBER, MAX_SETS};
use model::layout::{ROW_BYTES, ROW_WORDS, WORD_BYTES};
use model::set::Window;

/// The bounds of the fields, and their neighbours.
const LIMITS: [u64; 24] = [
    0,
    1,
    2,
    3,
    31,
    32,
    63,
    64,
    65,
    0xFFFF,
    0x1_0000,
    0x1_0001,
    0xFFFF_FFFF,
    0x1_0000_0000,
    0x1_0000_0001,
    86_399_999,
    86_400_000,
    86_400_001,
    0x4000,
    0x8000,
    0xC007,
    0xC008,
    0x8000_0000_0000_0000,
    u64::MAX,
];

/// Spoils a legal table in some way.
pub fn damage_table(random: &Random, table: &mut Vec<u8>) {
    match random.below(24) {
        0 => spoil_header(random, table),
        1 => swap_rows(random, table),
        2 => repeat_row(random, table),
        3 => cut_words(random, table),
        4 => cut_bytes(random, table),
        5 => *table = random_table(random),
        6 => spoil_byte(random, table),
        7 => {
            spoil_row_word(random, table);
            spoil_row_word(random, table);
        }
        8 => add_row(random, table),
        9 => spoil_layout(random, table),
        10..=12 => spoil_notices(random, table),
        13..=14 => spoil_need(random, table),
        _ => spoil_row_word(random, table),
    }
}

fn spoil_header(random: &Random, table: &mut [u8]) {
    let sets = (table.len() / ROW_BYTES) as u64;
    let near = random.between(MAX_SETS as u64 - 1, MAX_SETS as u64 + 2);
    let number = random.pick(&[sets - 1, sets + 1, near, random.pick(&LIMITS), sets | 1 << random.below(64), random.uneven()]);
    put_word(table, header::SETS, number);
}

/// Another number of the layout; or a table of a layout before.
fn spoil_layout(random: &Random, table: &mut Vec<u8>) {
    if random.once_in(2) {
        return age(random, table);
    }
    let sets = word_of(table, header::SETS);
    let near = random.pick(&[LAYOUT_NUMBER - 1, LAYOUT_NUMBER + 1, LAYOUT_NUMBER ^ 1 << random.below(64)]);
    put_word(table, header::LAYOUT, random.pick(&[near, sets, random.pick(&LIMITS), random.uneven()]));
}

/// Rows without the need, as layout 65,538 had them and those before; and perhaps the header of those, which had the number of sets
/// alone, or that and 65,537 before it.
fn age(random: &Random, table: &mut Vec<u8>) {
    put_word(table, header::LAYOUT, random.pick(&[LAYOUT_NUMBER, LAYOUT_NUMBER - 1, LAYOUT_NUMBER - 1, LAYOUT_NUMBER - 2]));
    if !random.once_in(4) {
        *table = without_needs(table);
    }
    if random.once_in(2) {
        drop(table.drain(WORD_BYTES * header::ON..HEADER_BYTES));
        drop(table.drain(..WORD_BYTES * random.pick(&[header::LAYOUT, header::SETS])));
    }
}

/// The table with rows as the layouts before had them.
pub fn without_needs(table: &[u8]) -> Vec<u8> {
    let (head, rows) = table.split_at(HEADER_BYTES);
    let mut older = head.to_vec();
    for row in rows.chunks_exact(ROW_BYTES) {
        older.extend_from_slice(&row[..WORD_BYTES * NEED]);
        older.extend_from_slice(&row[WORD_BYTES * (NEED + 1)..]);
    }
    older
}

/// Puts another need into a row: 0, about low, about high, or below the N time; outside N mostly one that would be legal in it.
/// Sometimes the N time is put about it too.
fn spoil_need(random: &Random, table: &mut [u8]) {
    let row = any_row(random, table);
    let (low, high, n_time) = (word_of(row, MINIMUM_LOW), word_of(row, MINIMUM_HIGH), word_of(row, N_TIME));
    let between = random.between(low, high);
    let need = random.pick(&[0, low - 1, low, high, high + 1, n_time.saturating_sub(1), between, between]);
    put_word(row, NEED, need);
    if word_of(row, WINDOW) == Window::N as u64 && random.once_in(3) {
        put_word(row, N_TIME, random.pick(&[need, need + 1, high]));
    }
}

fn any_row<'a>(random: &Random, table: &'a mut [u8]) -> &'a mut [u8] {
    let start = HEADER_BYTES + ROW_BYTES * random.place(table.len() / ROW_BYTES);
    &mut table[start..start + ROW_BYTES]
}

/// Puts other words into the places of notices and requests; one of both can be enough to make a flag that could be served at once.
fn spoil_notices(random: &Random, table: &mut [u8]) {
    for _ in 0..random.between(1, 3) {
        let place = random.between(header::ON as u64, HEADER_WORDS as u64 - 1) as usize;
        let old = word_of(table, place);
        let small = random.below(if place == header::WAITING { 6 } else { 3 });
        let new = match random.below(8) {
            0 => random.pick(&LIMITS),
            1 => old ^ 1 << random.below(64),
            2 => old.wrapping_add(1),
            3 => old.wrapping_sub(1),
            4 => old | 0x1_0000,
            _ => small,
        };
        put_word(table, place, new);
    }
}

/// Adds the last row again, with a higher identifier: of 64 sets that is one too many, and else legal.
fn add_row(random: &Random, table: &mut Vec<u8>) {
    let last = table.len() - ROW_BYTES;
    let sets = word_of(table, header::SETS);
    let identifier = word_of(&table[last..], IDENTIFIER) + random.between(0, 2);
    table.extend_from_within(last..);
    put_word(&mut table[last + ROW_BYTES..], IDENTIFIER, identifier);
    put_word(table, header::SETS, sets + 1);
}

/// The largest legal value of a word of a row, or the word that bounds it.
fn bound(row: &[u8], field: usize) -> u64 {
    match field {
        IDENTIFIER | GROUP => 0xFFFF,
        RANDOM_READ | WRITE_SIZE | READS_TYPICAL | WRITES_TYPICAL => 0xFFFF_FFFF,
        UNALLOCATED => word_of(row, TOTAL),
        UNALLOCATED_UPPER => word_of(row, TOTAL_UPPER),
        TIME_MAXIMUM | MINIMUM_HIGH => 86_400_000,
        MINIMUM_LOW | NEED => word_of(row, MINIMUM_HIGH),
        N_TIME => word_of(row, NEED),
        READS => word_of(row, READS_TYPICAL),
        WRITES => word_of(row, WRITES_TYPICAL),
        TIME => word_of(row, TIME_MAXIMUM),
        WINDOW => 2,
        ENEV | EVENTS => 0xC007,
        LISTED => 1,
        _ => u64::MAX,
    }
}

/// Puts another word into one place of one row.
fn spoil_row_word(random: &Random, table: &mut [u8]) {
    let row = any_row(random, table);
    let field = random.place(ROW_WORDS);
    let old = word_of(row, field);
    let bound = bound(row, field);
    let neighbour = word_of(row, random.place(ROW_WORDS));
    let new = match random.below(10) {
        0..=1 => random.pick(&LIMITS),
        2..=3 => random.pick(&[0, bound, bound.wrapping_add(1)]),
        4 => old ^ 1 << random.below(64),
        5 => old.wrapping_add(1),
        6 => old.wrapping_sub(1),
        7 => random.uneven(),
        _ => random.pick(&[neighbour, neighbour.wrapping_add(1), neighbour.wrapping_sub(1)]),
    };
    put_word(row, field, new);
}

fn swap_rows(random: &Random, table: &mut [u8]) {
    let (first, second) = two_rows(random, table);
    for byte in 0..ROW_BYTES {
        table.swap(first + byte, second + byte);
    }
}

fn repeat_row(random: &Random, table: &mut [u8]) {
    let (first, second) = two_rows(random, table);
    table.copy_within(first..first + ROW_BYTES, second);
}

fn two_rows(random: &Random, table: &[u8]) -> (usize, usize) {
    let rows = table.len() / ROW_BYTES;
    let row = || HEADER_BYTES + ROW_BYTES * random.place(rows);
    (row(), row())
}

fn cut_words(random: &Random, table: &mut Vec<u8>) {
    let words = random.place(table.len() / WORD_BYTES);
    table.truncate(WORD_BYTES * words);
}

fn cut_bytes(random: &Random, table: &mut Vec<u8>) {
    let length = match random.below(3) {
        0 => random.place(HEADER_BYTES + 4),
        1 => table.len() - 1 - random.place(8),
        _ => random.place(table.len()),
    };
    table.truncate(length);
}

fn spoil_byte(random: &Random, table: &mut [u8]) {
    let place = random.place(table.len());
    table[place] = random.word() as u8;
}

fn random_table(random: &Random) -> Vec<u8> {
    let length = random.place(700);
    let mut table = random.bytes(length);
    if length >= HEADER_BYTES && random.once_in(2) {
        table[..HEADER_BYTES].fill(0);
        put_word(&mut table, header::LAYOUT, LAYOUT_NUMBER);
        put_word(&mut table, header::SETS, random.between(1, 3));
    }
    table
}

/// Where each attribute lies in a body, and how long it is.
const ATTRIBUTES: [(usize, usize); 11] =
    [(0, 2), (2, 2), (4, 4), (8, 4), (12, 16), (28, 16), (44, 8), (52, 8), (60, 8), (68, 8), (76, 8)];

/// Spoils good bodies in some way.
pub fn damage_bodies(random: &Random, bodies: &mut Vec<u8>) {
    match random.below(11) {
        0 => bodies.clear(),
        1 => bodies.truncate(random.place(bodies.len())),
        2 => bodies.extend(random.bytes(random.pick(&[1, 83, 84, 85]))),
        3..=4 => repeat_bodies(random, bodies),
        5 => swap_bodies(random, bodies),
        6 => *bodies = random.bytes(random.pick(&[1, 83, 84, 85, 168])),
        _ => spoil_attribute(random, bodies),
    }
}

/// Far or just too many bodies, or enough, in an order that does not rise.
fn repeat_bodies(random: &Random, bodies: &mut Vec<u8>) {
    let whole = bodies.clone();
    let sets = random.pick(&[MAX_SETS, MAX_SETS + 1, MAX_SETS + 1, MAX_SETS + 2, 2 * MAX_SETS, 200]);
    while bodies.len() < sets * BODY_BYTES {
        bodies.extend_from_slice(&whole);
    }
    bodies.truncate(sets * BODY_BYTES);
    if random.once_in(2) {
        number_bodies(bodies);
    }
}

/// Makes the identifiers rise, so that only the number of sets is wrong.
fn number_bodies(bodies: &mut [u8]) {
    for (number, body) in bodies.chunks_exact_mut(BODY_BYTES).enumerate() {
        body[0..2].copy_from_slice(&(number as u16 + 1).to_le_bytes());
    }
}

fn swap_bodies(random: &Random, bodies: &mut [u8]) {
    let sets = bodies.len() / BODY_BYTES;
    let (first, second) = (BODY_BYTES * random.place(sets), BODY_BYTES * random.place(sets));
    for byte in 0..BODY_BYTES {
        bodies.swap(first + byte, second + byte);
    }
}

fn spoil_attribute(random: &Random, bodies: &mut [u8]) {
    let body = BODY_BYTES * random.place(bodies.len() / BODY_BYTES);
    let (at, length) = random.pick(&ATTRIBUTES);
    let field = &mut bodies[body + at..body + at + length];
    let bit = random.place(8 * length);
    match random.below(6) {
        0 => field[bit / 8] ^= 1 << (bit % 8),
        1 => field.iter_mut().for_each(|byte| *byte = random.word() as u8),
        2 => field.fill(0),
        _ => {
            let number = u128::from(random.pick(&LIMITS)).to_le_bytes();
            field.copy_from_slice(&number[..length]);
        }
    }
}
