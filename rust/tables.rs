//! Tables in the state that a timed call is about, made by the model, and the commands that name a set.

use model::commands::{ASYNCHRONOUS_EVENT_REQUEST, CONFIGURATION, EVENT_NOTICES, NOTICES_BIT, SET_FEATURES, WINDOW};
use model::layout::table_bytes;
use model::set::DAY;
use model::status;
use trials::entries::MODEL;

const RECOVERY: u32 = 20;
/// Half of what a set may spend in D: so one that leaves it has a need to reckon, and no division is of nothing.
const SPENT: u32 = DAY as u32 / 2;

/// The state of the named set before the timed call.
#[derive(Clone, Copy)]
pub enum State {
    /// In D, and charges that do not drive it out.
    InD,
    /// In N, with its time spent.
    Recovered,
    /// In N, with events and listed.
    Listed,
    /// In D, with notices on and a request that waits: an event completes it.
    Awaited,
}

/// The other sets: all as the named one is, or some off, some in D and some in N, so that a branch by the window is not foreseen.
#[derive(Clone, Copy)]
pub enum Others {
    Alike,
    Mixed,
}

/// Feature commands name the set in CDW11 15:0, page 0Ah in 31:16; `MIDDLE` there stands for the set in the middle. What has none
/// of its bits stands for itself.
pub const MIDDLE: u32 = 0x0001_0001;

/// The bodies of sets with these identifiers, as set-up takes them.
pub fn bodies(sets: &[u16]) -> Vec<u8> {
    sets.iter().flat_map(|&set| body(set)).collect()
}

fn body(set: u16) -> Vec<u8> {
    let mut body = Vec::new();
    body.extend(set.to_le_bytes());
    body.extend(1u16.to_le_bytes());
    body.extend(100u32.to_le_bytes());
    body.extend(4096u32.to_le_bytes());
    body.extend((1u128 << 70).to_le_bytes());
    body.extend((1u128 << 69).to_le_bytes());
    for number in [u64::from(u32::MAX), u64::from(u32::MAX), DAY, RECOVERY.into(), 5] {
        body.extend(number.to_le_bytes());
    }
    body
}

pub fn configuration() -> [u8; 512] {
    let mut data = [0; 512];
    data[0..2].copy_from_slice(&0xC007u16.to_le_bytes());
    for threshold in data[32..56].chunks_exact_mut(8) {
        threshold.copy_from_slice(&1_000u64.to_le_bytes());
    }
    data
}

pub fn command_of(opcode: u8, dwords: [u32; 4], set: u16) -> [u8; 64] {
    let mut command = [0; 64];
    command[0] = opcode;
    let times = if dwords[1] & MIDDLE == 0 { 1 } else { u32::from(set) };
    let named = [dwords[0], dwords[1] * times, dwords[2], dwords[3]];
    for (place, dword) in command[40..56].chunks_exact_mut(4).zip(named) {
        place.copy_from_slice(&dword.to_le_bytes());
    }
    command
}

/// The table of a case, made by the model. Of mixed sets one in three is off, one in D and one in N.
pub fn prepared(sets: &[u16], named: u16, state: State, others: Others) -> Vec<u8> {
    let mut table = vec![0; table_bytes(sets.len())];
    let mut statuses = (MODEL.set_up)(&mut table, &bodies(sets));
    let alike = |set: u16| set == named || matches!(others, Others::Alike);
    let is_on = |set: u16| alike(set) || set % 3 != 0;
    let enters_d = |set: u16| if alike(set) { !matches!(state, State::Recovered) } else { set % 3 == 1 };
    for set in sets.iter().copied().filter(|&set| is_on(set)) {
        statuses |= set_feature(&mut table, CONFIGURATION, set);
    }
    statuses |= (MODEL.tick)(&mut table, RECOVERY, &mut [], &mut []);
    for set in sets.iter().copied().filter(|&set| is_on(set) && enters_d(set)) {
        statuses |= set_feature(&mut table, WINDOW, set);
    }
    statuses |= (MODEL.tick)(&mut table, SPENT, &mut [], &mut []);
    if matches!(state, State::Listed) {
        for set in sets.iter().copied().filter(|&set| alike(set)) {
            statuses |= (MODEL.excursion)(&mut table, set, &mut []);
        }
    }
    if matches!(state, State::Awaited) {
        statuses |= given(&mut table, SET_FEATURES, [EVENT_NOTICES.into(), NOTICES_BIT, 0, 0]);
        assert_eq!(given(&mut table, ASYNCHRONOUS_EVENT_REQUEST, [0; 4]), status::WAITING, "a request is refused");
    }
    assert_eq!(statuses, status::SUCCESS, "the case cannot be prepared");
    table
}

/// The model's status of a command that names no set and has no data.
fn given(table: &mut [u8], opcode: u8, dwords: [u32; 4]) -> u16 {
    (MODEL.command)(table, &command_of(opcode, dwords, 0), &[], &mut [], &mut [])
}

/// Set Features with 1 in CDW12: enables the mode, or selects D.
fn set_feature(table: &mut [u8], fid: u8, set: u16) -> u16 {
    let command = command_of(SET_FEATURES, [fid.into(), MIDDLE, 1, 0], set);
    (MODEL.command)(table, &command, &configuration(), &mut [], &mut [])
}
