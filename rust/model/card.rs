//! The functions on a lent table, with the inputs of the C functions of include/card.h.

use crate::commands::{carry_out, Answer, Outcome};
use crate::layout::{is_rising, read_body, read_table, table_bytes, write_table, Card, BODY_BYTES, MAX_SETS};
use crate::notices::{Notices, NOTICE_DWORD0};
use crate::set::{Quantity, Set, DAY};
use crate::status;

/// 01: "Set-up: number of sets, order, an attribute or a body's length wrong 07C4h, then table slice too short 07C2h." 02: "Set-up
/// refuses 65 with 07C4h."
pub fn set_up(table: &mut [u8], bodies: &[u8]) -> u16 {
    match new_sets(bodies) {
        None => status::BAD_SET_UP,
        Some(sets) if table.len() < table_bytes(sets.len()) => status::TOO_SHORT,
        Some(sets) => {
            // Notices "start off and empty".
            write_table(table, &Card { sets, notices: Notices::default() });
            status::SUCCESS
        }
    }
}

fn new_sets(bodies: &[u8]) -> Option<Vec<Set>> {
    let number = bodies.len() / BODY_BYTES;
    if bodies.len() % BODY_BYTES != 0 || !(1..=MAX_SETS).contains(&number) {
        return None;
    }
    let sets: Vec<Set> = bodies.chunks_exact(BODY_BYTES).map(new_set).collect();
    Some(sets).filter(|sets| sets.iter().all(Set::is_legal) && is_rising(sets))
}

fn new_set(body: &[u8]) -> Set {
    Set::new(read_body(body.try_into().expect("bodies are cut to this length")))
}

/// Carries out a command. "Data is handed back as that part of the caller's buffer which was written; bytes after it are
/// untouched, and a success without data writes none."
pub fn command(table: &mut [u8], command: &[u8], data: &[u8], answer: &mut [u8], reply: &mut [u8]) -> u16 {
    let given = on_card(table, |card| carry_out(card, command, data, answer.len()));
    answer[..given.data.len()].copy_from_slice(&given.data);
    told(given, reply)
}

/// "A read [...] event of k (0..65,535)".
pub fn reads(table: &mut [u8], set: u16, count: u16, reply: &mut [u8]) -> u16 {
    media_event(table, set, |set| set.charge(Quantity::Reads, count.into()), reply)
}

/// "A [...] write event of k (0..65,535)".
pub fn writes(table: &mut [u8], set: u16, count: u16, reply: &mut [u8]) -> u16 {
    media_event(table, set, |set| set.charge(Quantity::Writes, count.into()), reply)
}

/// "An excursion counts only in D."
pub fn excursion(table: &mut [u8], set: u16, reply: &mut [u8]) -> u16 {
    media_event(table, set, Set::excursion, reply)
}

/// "A tick of t (0..86,400,000 ms) goes to every set." "Events: bad table 07C3h; [...] tick too long 07C5h." Nothing is written to
/// its answer buffer.
pub fn tick(table: &mut [u8], milliseconds: u32, _answer: &mut [u8], reply: &mut [u8]) -> u16 {
    let milliseconds = u64::from(milliseconds);
    let given = on_card(table, |card| {
        if milliseconds > DAY {
            return Err(status::LONG_TICK);
        }
        card.sets.iter_mut().for_each(|set| set.tick(milliseconds));
        Ok(Answer::default())
    });
    told(given, reply)
}

/// "Events: bad table 07C3h; unknown set 07C0h".
fn media_event(table: &mut [u8], identifier: u16, rule: impl FnOnce(&mut Set), reply: &mut [u8]) -> u16 {
    let given = on_card(table, |card| {
        let named = card.sets.iter_mut().find(|set| set.attributes.identifier == identifier);
        rule(named.ok_or(status::UNKNOWN_SET)?);
        Ok(Answer::default())
    });
    told(given, reply)
}

/// What an item answers. "Each refusal is given [...] with dword 0 zero, no data, nothing written."
fn on_card(table: &mut [u8], rule: impl FnOnce(&mut Card) -> Outcome) -> Answer {
    ruled(table, rule).unwrap_or_else(|status| Answer { status, ..Answer::default() })
}

/// Lends the table's card to a rule and keeps what it made of it. "table not legal, or slice too short" comes first.
fn ruled(table: &mut [u8], rule: impl FnOnce(&mut Card) -> Outcome) -> Outcome {
    let mut card = read_table(table).ok_or(status::BAD_TABLE)?;
    let before = card.sets.clone();
    let mut answer = rule(&mut card)?;
    answer.notice = card.notices.settle(has_listed(&before, &card.sets));
    write_table(table, &card);
    Ok(answer)
}

/// "When an item lists one or more sets that weren't listed".
fn has_listed(before: &[Set], after: &[Set]) -> bool {
    before.iter().zip(after).any(|(before, after)| !before.listed && after.listed)
}

/// Writes what a call says beside its status, and answers the status. Bytes 3:0 dword 0, 7:4 the length of the data; where a notice
/// goes beside the answer, 8 is 1, 11:10 the request's identifier and 15:12 its dword 0; the rest zero; as far as the region reaches.
fn told(given: Answer, reply: &mut [u8]) -> u16 {
    let mut bytes = [0; 16];
    bytes[0..4].copy_from_slice(&given.dword0.to_le_bytes());
    bytes[4..8].copy_from_slice(&(given.data.len() as u32).to_le_bytes());
    if let Some(identifier) = given.notice {
        bytes[8] = 1;
        bytes[10..12].copy_from_slice(&identifier.to_le_bytes());
        bytes[12..16].copy_from_slice(&NOTICE_DWORD0.to_le_bytes());
    }
    for (place, byte) in reply.iter_mut().zip(bytes) {
        *place = byte;
    }
    given.status
}
