//! Random cards and items. Numbers are small and chosen near the set's limits, so that thresholds, typicals, maximums and recovery
//! times are met and crossed often.

use crate::calls::{Call, Function, Regions};
use crate::random::Random;
use model::commands::{
    ASYNCHRONOUS_EVENT_REQUEST, COMMAND_BYTES, CONFIGURATION, EVENT_NOTICES, GET_FEATURES, GET_LOG_PAGE, IDENTIFY, LIST_PAGE,
    NOTICES_BIT, SET_FEATURES, SET_LIST, SET_PAGE, WINDOW,
};
use model::layout::{table_bytes, Card, BODY_BYTES, MAX_SETS};
use model::notices::Notices;
use model::pages::{IDENTIFY_BYTES, IDENTIFY_ENTRIES, LIST_PAGE_BYTES, SET_PAGE_BYTES};
use model::set::{Quantity, Set, Window, DAY, EXCEEDED};
use model::status;

const OPCODES: [u8; 5] = [GET_LOG_PAGE, IDENTIFY, SET_FEATURES, GET_FEATURES, ASYNCHRONOUS_EVENT_REQUEST];
const SAVE: u32 = 1 << 31;
const RETAIN: u32 = 1 << 15;

/// What a card is given after its set-up.
#[derive(Clone, Debug)]
pub enum Item {
    Command { command: Vec<u8>, data: Vec<u8> },
    Reads { set: u16, count: u16 },
    Writes { set: u16, count: u16 },
    Excursion { set: u16 },
    Tick { milliseconds: u32 },
}

/// Good bodies of 1 to 64 sets: mostly of few, which are quicker, and else often of about as many as one Identify answer holds, or
/// two.
pub fn bodies(random: &Random) -> Vec<u8> {
    let most = MAX_SETS as u64;
    let sets = match random.below(24) {
        0..=1 => 1,
        2..=3 => most,
        4 => random.pick(&[30, 31, 32, 33, 61, 62, 63]),
        5..=6 => random.between(1, most),
        _ => random.between(1, 6),
    };
    bodies_of(random, sets, random.once_in(16))
}

/// Good bodies of so many sets. Their identifiers rise from the least, or up to the largest that there is.
pub fn bodies_of(random: &Random, sets: u64, to_the_last: bool) -> Vec<u8> {
    let largest_step = random.pick(&[1, 2, 3, 1_000]);
    let steps: Vec<u64> = (0..sets).map(|_| random.between(1, largest_step)).collect();
    let mut identifier = if to_the_last { u64::from(u16::MAX) - steps.iter().sum::<u64>() } else { 0 };
    let mut bodies = Vec::new();
    for step in steps {
        identifier += step;
        bodies.extend(body(random, identifier as u16));
    }
    bodies
}

/// A card just set up.
pub fn table(random: &Random) -> Vec<u8> {
    table_from(&bodies(random))
}

/// A card just set up from good bodies.
pub fn table_from(bodies: &[u8]) -> Vec<u8> {
    let mut table = vec![0; table_bytes(bodies.len() / BODY_BYTES)];
    assert_eq!(model::set_up(&mut table, bodies), status::SUCCESS);
    table
}

/// A good body.
pub fn body(random: &Random, identifier: u16) -> Vec<u8> {
    let total = u128::from(random.uneven()) << 64 | u128::from(random.word());
    let unallocated = match random.below(4) {
        0 => total,
        1 => 0,
        _ => total >> random.below(128),
    };
    let high = if random.once_in(12) { random.between(DAY / 2, DAY) } else { time(random, 12) };
    let low = random.between(1, high);
    let mut body = Vec::with_capacity(BODY_BYTES);
    body.extend(identifier.to_le_bytes());
    body.extend((random.between(1, 65_535) as u16).to_le_bytes());
    body.extend((random.word() as u32).to_le_bytes());
    body.extend((random.uneven() as u32).to_le_bytes());
    body.extend(total.to_le_bytes());
    body.extend(unallocated.to_le_bytes());
    for number in [typical(random), typical(random), maximum(random, high - low), high, low] {
        body.extend(number.to_le_bytes());
    }
    body
}

fn typical(random: &Random) -> u64 {
    match random.below(16) {
        0 => u64::from(u32::MAX),
        1 => random.between(1, u64::from(u32::MAX)),
        2 => random.between(1, 200_000),
        3 => 1,
        _ => random.between(1, 40),
    }
}

fn time(random: &Random, common: u64) -> u64 {
    match random.below(24) {
        0 => DAY,
        1 => random.between(1, DAY),
        2 => 1,
        _ => random.between(1, common),
    }
}

/// A time maximum. Often it is some times the way from low to high, so that the need of many a short window is a whole number; and
/// mostly long where that way is, so that the two are multiplied to more than 32 bits.
fn maximum(random: &Random, way: u64) -> u64 {
    match random.below(3) {
        0 => (way * random.between(1, 5)).clamp(1, DAY),
        _ if way > DAY / 8 => random.between(DAY / 8, DAY),
        _ => time(random, 60),
    }
}

/// Gives a set any times that are legal in its window, often an edge: in D a time, and in N a need and a time. The need may be one
/// that no window of this set makes.
pub fn put_any_times(random: &Random, set: &mut Set) {
    let (low, high, maximum) = (set.attributes.minimum_low, set.attributes.minimum_high, set.attributes.time_maximum);
    match set.window {
        Window::Off => (),
        Window::D => {
            set.charges[Quantity::Time as usize] = random.pick(&[0, maximum - 1, random.below(maximum), random.below(maximum)])
        }
        Window::N => {
            set.need = random.pick(&[low, high, random.between(low, high), random.between(low, high)]);
            set.n_time = random.pick(&[0, set.need, set.need - 1, random.between(0, set.need)]);
        }
    }
}

/// An item for a card.
pub fn item(random: &Random, card: &Card) -> Item {
    let sets = &card.sets;
    let set = &sets[random.place(sets.len())];
    match random.below(45) {
        0..=9 => Item::Reads { set: event_set(random, set), count: event_count(random, set, Quantity::Reads) },
        10..=15 => Item::Writes { set: event_set(random, set), count: event_count(random, set, Quantity::Writes) },
        16 => Item::Excursion { set: event_set(random, set) },
        17..=21 => Item::Tick { milliseconds: milliseconds(random, set) },
        22..=26 => notice_item(random, card),
        _ => command_item(random, sets),
    }
}

/// A command about notices, or what they are about. What keeps the next notice from being sent is often done away with, else few
/// would be sent; and often not, since all that withholds one is wanted too.
pub fn notice_item(random: &Random, card: &Card) -> Item {
    let Notices { on, masked, flag, waiting } = &card.notices;
    let listed = card.sets.iter().find(|set| set.listed);
    let mut fields = match (random.below(16), listed) {
        (4..=6, _) if *masked && *flag => set_notices(random, !*on),
        (0..=6, _) if *masked => lifting_read(random, &card.sets),
        (0..=6, _) if !*on => set_notices(random, true),
        (0..=2, _) if waiting.is_empty() => request(random),
        (0..=6, _) => return listing_item(random, card),
        (7..=12, _) if card.notices.can_send() && could_list_several(card) => return listing_item(random, card),
        (7..=11, Some(set)) if *flag => clearing_read(random, set),
        (7..=12, _) => set_notices(random, random.once_in(2)),
        (13, _) => get_notices(random),
        _ => request(random),
    };
    if random.once_in(8) {
        fields.mutate(random, &card.sets[0]);
    }
    Item::Command { command: fields.command(random), data: Vec::new() }
}

/// What may list a set: a tick that is time up for each of several, or a select D.
fn listing_item(random: &Random, card: &Card) -> Item {
    if could_list_several(card) {
        return Item::Tick { milliseconds: DAY as u32 };
    }
    Item::Command { command: select_ready(random, &card.sets).command(random), data: Vec::new() }
}

/// Whether time up would list several sets.
fn could_list_several(card: &Card) -> bool {
    let could_list = |set: &&Set| set.window == Window::D && !set.listed && set.configuration.enev & EXCEEDED != 0;
    card.sets.iter().filter(could_list).count() > 1
}

/// An item that in most cases changes this set: it names it, or is the tick that it waits for.
pub fn telling_item(random: &Random, set: &Set) -> Item {
    let identifier = set.attributes.identifier;
    let command = |fields: Fields| Item::Command { command: fields.command(random), data: configuration(random, set) };
    if set.events != 0 && random.once_in(2) {
        return command(clearing_read(random, set));
    }
    match set.window {
        Window::N if !set.too_early_for_d() => command(select(random, set, Window::D as u32)),
        Window::N if random.once_in(2) => Item::Tick { milliseconds: milliseconds(random, set) },
        Window::D if !random.once_in(8) => match random.below(8) {
            0 => Item::Excursion { set: identifier },
            1..=4 => Item::Reads { set: identifier, count: event_count(random, set, Quantity::Reads) },
            _ => Item::Writes { set: identifier, count: event_count(random, set, Quantity::Writes) },
        },
        _ => command(set_configuration(random, set)),
    }
}

/// The call that hands an item to a card. A command is sometimes too long or too short, and so are its data and its buffers.
pub fn call(random: &Random, item: Item, table: &[u8]) -> Call {
    let plain = |function: Function| Call::item(random, function, table);
    match item {
        Item::Command { command, data } => command_call(random, command, data, table),
        Item::Reads { set, count } => plain(Function::Reads { set, count }),
        Item::Writes { set, count } => plain(Function::Writes { set, count }),
        Item::Excursion { set } => plain(Function::Excursion { set }),
        Item::Tick { milliseconds } => plain(Function::Tick { milliseconds }),
    }
}

fn command_call(random: &Random, mut command: Vec<u8>, mut data: Vec<u8>, table: &[u8]) -> Call {
    if random.once_in(24) {
        let length = random.pick(&[COMMAND_BYTES - 1, COMMAND_BYTES + 1, random.place(81)]);
        command.resize(length, 0);
    }
    if random.once_in(10) {
        let length = random.pick(&[0, 511, 513, random.place(601)]);
        data.resize(length, 0x5A);
    }
    let answer = random.bytes(answer_bytes(random, &command));
    let reply = random.bytes(if random.once_in(4) { random.place(25) } else { 16 });
    Call { function: Function::Command, regions: Regions::new(random, table, [&command, &data, &answer, &reply]) }
}

/// The length of an answer buffer, often just what a log read of this command needs, or one less.
fn answer_bytes(random: &Random, command: &[u8]) -> usize {
    let asked = command.get(42..44).map_or(0, |count| 4 * (usize::from(count[0]) + 1 + 256 * usize::from(count[1] & 3)));
    match random.below(12) {
        0..=5 => 4096,
        6..=7 => asked,
        8 => asked.saturating_sub(1),
        9 => random.pick(&[0, LIST_PAGE_BYTES - 1, LIST_PAGE_BYTES, 511, 512, 513, 4095, 4097]),
        _ => random.place(4201),
    }
}

fn event_set(random: &Random, set: &Set) -> u16 {
    if random.once_in(24) {
        other_set(random, set)
    } else {
        set.attributes.identifier
    }
}

/// An identifier that is near or random, and may be in the table or not.
fn other_set(random: &Random, set: &Set) -> u16 {
    let identifier = set.attributes.identifier;
    random.pick(&[0, identifier - 1, identifier.wrapping_add(1), random.word() as u16, u16::MAX])
}

fn event_count(random: &Random, set: &Set, quantity: Quantity) -> u16 {
    let count = match random.below(8) {
        0..=2 => random.below(4),
        3..=5 => near_an_edge(random, set, quantity),
        6 => random.below(50),
        _ => random.word(),
    };
    count.min(u64::from(random.pick(&[u16::MAX, u16::MAX, 100]))) as u16
}

fn milliseconds(random: &Random, set: &Set) -> u32 {
    let recovery = if set.window == Window::N { set.need - set.n_time } else { set.attributes.minimum_high };
    let number = match random.below(24) {
        0..=8 => random.below(4),
        9..=13 => near_an_edge(random, set, Quantity::Time),
        14..=19 => random.pick(&[recovery, recovery + 1, recovery.saturating_sub(1), set.attributes.minimum_high]),
        20 => set.estimate(Quantity::Time) + random.below(2 * set.attributes.minimum_high),
        21 => random.pick(&[DAY - 1, DAY, DAY + 1]),
        22 => random.below(100),
        _ => random.word(),
    };
    number as u32
}

/// What brings the estimate to its threshold, or to zero, or one off.
fn near_an_edge(random: &Random, set: &Set, quantity: Quantity) -> u64 {
    let estimate = set.estimate(quantity);
    let threshold = set.configuration.thresholds[quantity as usize];
    let edge = random.pick(&[estimate, estimate.saturating_sub(threshold)]);
    random.pick(&[edge, edge + 1, edge.saturating_sub(1)])
}

/// The fields of a command that 01 and 02 name.
pub(crate) struct Fields {
    pub(crate) opcode: u8,
    /// None where it may be any: only a request's is read.
    pub(crate) identifier: Option<u16>,
    pub(crate) dwords: [u32; 4],
}

impl Fields {
    /// The whole command; what no document names holds anything.
    pub(crate) fn command(&self, random: &Random) -> Vec<u8> {
        let mut command = random.bytes(COMMAND_BYTES);
        command[0] = self.opcode;
        if let Some(identifier) = self.identifier {
            command[2..4].copy_from_slice(&identifier.to_le_bytes());
        }
        for (place, dword) in command[40..56].chunks_exact_mut(4).zip(self.dwords) {
            place.copy_from_slice(&dword.to_le_bytes());
        }
        command
    }

    /// Spoils one field.
    fn mutate(&mut self, random: &Random, set: &Set) {
        let other = u32::from(other_set(random, set));
        let dword = random.place(4);
        match random.below(9) {
            0 => self.opcode = random.pick(&[0, 1, 3, 5, 7, 8, 11, 13, random.word() as u8]),
            1 => self.dwords[0] = self.dwords[0] & !0xFF | random.between(0, 0x18) as u32,
            2 => self.dwords[0] |= SAVE,
            3 => self.dwords[0] ^= 1 << random.between(8, 10),
            4 => self.dwords[1] = self.dwords[1] & !0xFFFF | other,
            5 => self.dwords[1] = self.dwords[1] & 0xFFFF | other << 16,
            6 => self.dwords[dword] ^= 1 << random.below(32),
            7 => self.dwords[dword] = random.word() as u32,
            _ => self.opcode = random.pick(&OPCODES),
        }
    }
}

fn command_item(random: &Random, sets: &[Set]) -> Item {
    let set = &sets[random.place(sets.len())];
    if random.once_in(50) {
        return Item::Command { command: random.bytes(COMMAND_BYTES), data: configuration(random, set) };
    }
    let mut fields = match random.below(18) {
        0..=1 => set_configuration(random, set),
        2..=4 => select_ready(random, sets),
        5..=6 => set_window(random, set),
        7 => get_feature(random, set, CONFIGURATION),
        8 => get_feature(random, set, WINDOW),
        9..=12 => get_log_page(random, set, SET_PAGE, SET_PAGE_BYTES),
        13..=15 => get_log_page(random, set, LIST_PAGE, LIST_PAGE_BYTES),
        _ => identify(random, start_of_asking(random, sets)),
    };
    if random.once_in(5) {
        fields.mutate(random, set);
    }
    let takes_data = fields.opcode == SET_FEATURES && fields.dwords[0] as u8 == CONFIGURATION;
    let data = if takes_data || random.once_in(4) { configuration(random, set) } else { Vec::new() };
    Item::Command { command: fields.command(random), data }
}

/// A command on a feature of a set; bits that do not count are random.
fn feature(random: &Random, opcode: u8, fid: u8, set: &Set, ignored: u32) -> Fields {
    let set = u32::from(set.attributes.identifier);
    let noise = random.word();
    Fields {
        opcode,
        identifier: None,
        dwords: [
            u32::from(fid) | noise as u32 & ignored,
            set | (noise >> 16) as u32 & 0xFFFF_0000,
            random.word() as u32,
            random.word() as u32,
        ],
    }
}

fn set_configuration(random: &Random, set: &Set) -> Fields {
    let mut fields = feature(random, SET_FEATURES, CONFIGURATION, set, 0x7FFF_FF00);
    let enable = !random.once_in(5);
    fields.dwords[2] = fields.dwords[2] & !1 | u32::from(enable);
    fields
}

fn select(random: &Random, set: &Set, window: u32) -> Fields {
    let mut fields = feature(random, SET_FEATURES, WINDOW, set, 0x7FFF_FF00);
    fields.dwords[2] = fields.dwords[2] & !7 | window;
    fields
}

/// Selects D for a set that may enter it, where there is one: else large cards would hardly leave N.
fn select_ready(random: &Random, sets: &[Set]) -> Fields {
    let start = random.place(sets.len());
    let ready = |set: &&Set| set.window == Window::N && !set.too_early_for_d();
    let set = sets[start..].iter().chain(&sets[..start]).find(ready).unwrap_or(&sets[start]);
    select(random, set, Window::D as u32)
}

fn set_window(random: &Random, set: &Set) -> Fields {
    let window = random.pick(&[1, 1, 1, 2, random.below(8) as u32]);
    select(random, set, window)
}

fn get_feature(random: &Random, set: &Set, fid: u8) -> Fields {
    feature(random, GET_FEATURES, fid, set, 0xFFFF_F800)
}

/// An Asynchronous Event Request, of which only the identifier is read. Equal ones are wanted, and 0, which is one too.
fn request(random: &Random) -> Fields {
    let identifier = random.pick(&[0, 1, 1, u16::MAX, random.word() as u16]);
    Fields { opcode: ASYNCHRONOUS_EVENT_REQUEST, identifier: Some(identifier), ..anything(random, 0, u32::MAX) }
}

/// Notices switched on or off; all other bits of CDW11 are random, also those that name a set in other features.
fn set_notices(random: &Random, on: bool) -> Fields {
    let mut fields = anything(random, EVENT_NOTICES, 0x7FFF_FF00);
    fields.opcode = SET_FEATURES;
    fields.dwords[1] = fields.dwords[1] & !NOTICES_BIT | if on { NOTICES_BIT } else { 0 };
    fields
}

fn get_notices(random: &Random) -> Fields {
    Fields { opcode: GET_FEATURES, ..anything(random, EVENT_NOTICES, 0xFFFF_F800) }
}

/// Dwords of which only CDW10 is not wholly random: it has the FID, and of its other bits those that do not count are random.
fn anything(random: &Random, fid: u8, ignored: u32) -> Fields {
    let dword = || random.word() as u32;
    Fields { opcode: 0, identifier: None, dwords: [u32::from(fid) | dword() & ignored, dword(), dword(), dword()] }
}

/// A read of 0Ah with Retain 0, from any offset.
fn clearing_read(random: &Random, set: &Set) -> Fields {
    let mut fields = get_log_page(random, set, SET_PAGE, SET_PAGE_BYTES);
    fields.dwords[0] &= !RETAIN;
    fields
}

/// A read of 0Bh with Retain 0, from any offset.
fn lifting_read(random: &Random, sets: &[Set]) -> Fields {
    let mut fields = get_log_page(random, &sets[0], LIST_PAGE, LIST_PAGE_BYTES);
    fields.dwords[0] &= !RETAIN;
    fields
}

fn get_log_page(random: &Random, set: &Set, page: u8, page_bytes: usize) -> Fields {
    let page_bytes = page_bytes as u64;
    log_read(random, set.attributes.identifier, page, dwords(random, page_bytes), offset(random, page_bytes))
}

/// A read of page 0Bh of so many dwords from an offset.
pub fn list_read(random: &Random, dwords: u64, offset: u64) -> Item {
    let fields = log_read(random, random.word() as u16, LIST_PAGE, dwords, offset);
    Item::Command { command: fields.command(random), data: Vec::new() }
}

fn log_read(random: &Random, set: u16, page: u8, dwords: u64, offset: u64) -> Fields {
    let count = (dwords - 1) as u32;
    let set = u32::from(set);
    let retain = if random.once_in(2) { RETAIN } else { 0 };
    let ignored = random.word() as u32 & 0x7F00;
    Fields {
        opcode: GET_LOG_PAGE,
        identifier: None,
        dwords: [u32::from(page) | ignored | retain | count << 16, count >> 16 | set << 16, offset as u32, (offset >> 32) as u32],
    }
}

fn dwords(random: &Random, page_bytes: u64) -> u64 {
    match random.below(16) {
        0..=5 => random.between(1, 8),
        6..=9 => page_bytes / 4,
        10..=12 => random.between(1, 200),
        13 => random.between(1, 1_024),
        14 => random.pick(&[1_023, 1_024, 1_025]),
        _ => random.pick(&[1 << 16, 1 << 16 | 1, 1 << 32, random.between(1, 1 << 32)]),
    }
}

fn offset(random: &Random, page_bytes: u64) -> u64 {
    match random.below(16) {
        0..=7 => 0,
        8..=11 => 4 * random.between(0, page_bytes / 4),
        12 => random.pick(&[page_bytes - 4, page_bytes, page_bytes + 4]),
        13 => random.below(page_bytes + 8),
        14 => random.pick(&[1 << 32, 1 << 63, u64::MAX - 3, 4 | 1 << 40]),
        _ => random.word(),
    }
}

/// Where a host may start to ask for the list of sets, or ask again: below all sets, at one, near it, after as many as one answer
/// holds, or two, where just as many are left, and anywhere.
pub fn start_of_asking(random: &Random, sets: &[Set]) -> u16 {
    let set = &sets[random.place(sets.len())];
    let near = other_set(random, set);
    let after = |entries: usize| sets.get(entries - 1).map_or(0, |last| last.attributes.identifier.saturating_add(1));
    let left = sets.len().checked_sub(IDENTIFY_ENTRIES).map_or(0, |slot| sets[slot].attributes.identifier);
    let again = random.pick(&[after(IDENTIFY_ENTRIES), after(2 * IDENTIFY_ENTRIES), left, left]);
    random.pick(&[0, 0, 1, set.attributes.identifier, near, again, again, random.word() as u16])
}

/// An Identify that is carried out, of the sets from this identifier on.
pub fn identify_call(random: &Random, from: u16, table: &[u8]) -> Call {
    let command = identify(random, from).command(random);
    let answer = random.bytes(IDENTIFY_BYTES + random.pick(&[0, 0, random.place(40)]));
    Call { function: Function::Command, regions: Regions::new(random, table, [&command, &[], &answer, &random.bytes(16)]) }
}

fn identify(random: &Random, from: u16) -> Fields {
    let from = u32::from(from);
    let noise = random.word();
    Fields {
        opcode: IDENTIFY,
        identifier: None,
        dwords: [
            u32::from(SET_LIST) | noise as u32 & 0xFFFF_FF00,
            from | (noise >> 16) as u32 & 0xFFFF_0000,
            random.word() as u32,
            random.word() as u32,
        ],
    }
}

/// The data of feature 13h; the bytes that hold no field are random.
fn configuration(random: &Random, set: &Set) -> Vec<u8> {
    let enev = random.pick(&[0xC007, 0xC007, 0x0007, 0x4001, 0x8000, 0, 1 << random.below(16), random.word() as u16]);
    let mut data = random.bytes(512);
    data[0..2].copy_from_slice(&enev.to_le_bytes());
    for (place, quantity) in data[32..56].chunks_exact_mut(8).zip([Quantity::Reads, Quantity::Writes, Quantity::Time]) {
        place.copy_from_slice(&threshold(random, set.attributes.limit(quantity)).to_le_bytes());
    }
    data
}

fn threshold(random: &Random, limit: u64) -> u64 {
    match random.below(12) {
        0 => 0,
        1 => limit,
        2 => limit + 1,
        3 => random.uneven(),
        4 => u64::MAX,
        _ => random.between(1, limit.min(30)),
    }
}
