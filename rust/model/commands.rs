//! The commands, each with its checks in the order of 01's table of status numbers. A check stands only where its field exists.

use crate::layout::{little_endian, Card};
use crate::notices::Notices;
use crate::pages;
use crate::set::{Configuration, Set, Window};
use crate::status;

pub const COMMAND_BYTES: usize = 64;

/// "Opcodes: 02h Get Log Page, 06h Identify, 09h Set Features, 0Ah Get Features."
pub const GET_LOG_PAGE: u8 = 0x02;
pub const IDENTIFY: u8 = 0x06;
pub const SET_FEATURES: u8 = 0x09;
pub const GET_FEATURES: u8 = 0x0A;
/// "Add Asynchronous Event Request (opcode 0Ch)".
pub const ASYNCHRONOUS_EVENT_REQUEST: u8 = 0x0C;

/// "feature 0Bh bit 12 for Get and Set Features".
pub const EVENT_NOTICES: u8 = 0x0B;
pub const NOTICES_BIT: u32 = 1 << 12;
/// Feature 13h, the mode's configuration, and 14h, its window.
pub const CONFIGURATION: u8 = 0x13;
pub const WINDOW: u8 = 0x14;

/// Log page 0Ah of one set, and 0Bh, the list of sets with events.
pub const SET_PAGE: u8 = 0x0A;
pub const LIST_PAGE: u8 = 0x0B;

/// Identify CNS 04h, the list of sets.
pub const SET_LIST: u8 = 0x04;

/// "over 1,024 dwords".
const MAX_DWORDS: u64 = 1024;

/// What an item that is carried out answers.
#[derive(Debug, Default, PartialEq, Eq)]
pub struct Answer {
    pub status: u16,
    pub dword0: u32,
    pub data: Vec<u8>,
    /// The request that is completed "beside the item's own answer".
    pub notice: Option<u16>,
}

impl Answer {
    fn dword(dword0: u32) -> Answer {
        Answer { dword0, ..Answer::default() }
    }

    fn data(data: Vec<u8>) -> Answer {
        Answer { data, ..Answer::default() }
    }
}

pub type Outcome = Result<Answer, u16>;

/// Carries out a command on the card of a legal table. `room` is the length of the answer buffer.
pub fn carry_out(card: &mut Card, command: &[u8], data: &[u8], room: usize) -> Outcome {
    let command = Command(command.try_into().map_err(|_| status::BAD_COMMAND)?);
    match command.opcode() {
        GET_LOG_PAGE => get_log_page(card, &command, room),
        IDENTIFY => identify(&card.sets, &command, room),
        SET_FEATURES => set_features(card, &command, data),
        GET_FEATURES => get_features(card, &command, room),
        ASYNCHRONOUS_EVENT_REQUEST => event_request(&mut card.notices, &command),
        _ => Err(status::INVALID_OPCODE),
    }
}

/// The 64 bytes of a submission queue entry. "Reserved bits are ignored. NSID isn't read."
struct Command<'a>(&'a [u8; COMMAND_BYTES]);

impl Command<'_> {
    fn opcode(&self) -> u8 {
        self.0[0]
    }

    /// The command identifier: bytes 3:2.
    fn identifier(&self) -> u16 {
        self.high_half(0)
    }

    /// "bit 15 Retain".
    fn retains(&self) -> bool {
        self.dword(10) >> 15 & 1 == 1
    }

    /// Command dword 0, 10, 11, 12 or 13.
    fn dword(&self, number: usize) -> u32 {
        little_endian(&self.0[4 * number..4 * number + 4]) as u32
    }

    /// Bits 15:0 of a dword.
    fn low_half(&self, number: usize) -> u16 {
        self.dword(number) as u16
    }

    /// Bits 31:16 of a dword.
    fn high_half(&self, number: usize) -> u16 {
        (self.dword(number) >> 16) as u16
    }

    /// The FID, the log page or the CNS: CDW10 7:0.
    fn subject(&self) -> u8 {
        self.dword(10) as u8
    }
}

/// "FID or CNS not listed".
fn listed_feature(command: &Command) -> Result<u8, u16> {
    match command.subject() {
        fid @ (EVENT_NOTICES | CONFIGURATION | WINDOW) => Ok(fid),
        _ => Err(status::INVALID_FIELD),
    }
}

/// "set not in the table (commands)".
fn named_set(sets: &mut [Set], identifier: u16) -> Result<&mut Set, u16> {
    sets.iter_mut().find(|set| set.attributes.identifier == identifier).ok_or(status::INVALID_FIELD)
}

/// "14h while off".
fn refuse_off(set: &Set) -> Result<(), u16> {
    refuse_if(set.window == Window::Off, status::INVALID_FIELD)
}

/// "data in or answer buffer shorter than needed".
fn refuse_short(length: usize, needed: usize) -> Result<(), u16> {
    refuse_if(length < needed, status::TOO_SHORT)
}

fn refuse_if(holds: bool, number: u16) -> Result<(), u16> {
    if holds {
        Err(number)
    } else {
        Ok(())
    }
}

/// "each answered 07C8h (waiting, no refusal)".
fn event_request(notices: &mut Notices, command: &Command) -> Outcome {
    notices.request(command.identifier())?;
    Ok(Answer { status: status::WAITING, ..Answer::default() })
}

/// "Save in CDW10 bit 31 (Set)". "CDW11 15:0 is the set."; "FID 0Bh [...] name[s] no set".
fn set_features(card: &mut Card, command: &Command, data: &[u8]) -> Outcome {
    let fid = listed_feature(command)?;
    refuse_if(command.dword(10) >> 31 == 1, status::NOT_SAVEABLE)?;
    let set = |sets| named_set(sets, command.low_half(11));
    match fid {
        EVENT_NOTICES => set_notices(&mut card.notices, command),
        CONFIGURATION => set_configuration(set(&mut card.sets)?, command, data),
        _ => set_window(set(&mut card.sets)?, command),
    }
}

/// Bit 12 of CDW11, as the Base Specification has it; the others stand for notices that the card has not.
fn set_notices(notices: &mut Notices, command: &Command) -> Outcome {
    notices.on = command.dword(11) & NOTICES_BIT != 0;
    Ok(Answer::default())
}

/// "13h: CDW12 bit 0 is enable; 512 data bytes hold ENEV 1:0, reads threshold 39:32, writes 47:40, time 55:48".
fn set_configuration(set: &mut Set, command: &Command, data: &[u8]) -> Outcome {
    refuse_short(data.len(), pages::CONFIGURATION_BYTES)?;
    let threshold = |at: usize| little_endian(&data[at..at + 8]) as u64;
    let configuration =
        Configuration { enev: little_endian(&data[0..2]) as u16, thresholds: [threshold(32), threshold(40), threshold(48)] };
    set.configure(command.dword(12) & 1 == 1, &configuration);
    Ok(Answer::default())
}

/// "14h: CDW12 2:0 is 1 (D) or 2 (N)."
fn set_window(set: &mut Set, command: &Command) -> Outcome {
    refuse_off(set)?;
    match command.dword(12) & 7 {
        1 => {
            refuse_if(set.too_early_for_d(), status::TOO_EARLY)?;
            set.select_d();
        }
        2 => set.select_n(),
        _ => return Err(status::INVALID_FIELD),
    }
    Ok(Answer::default())
}

/// "Select in CDW10 10:8 (Get)". "Get returns enable with the 512 bytes, or the window, in dword 0."
fn get_features(card: &mut Card, command: &Command, room: usize) -> Outcome {
    let fid = listed_feature(command)?;
    refuse_if(command.dword(10) >> 8 & 7 != 0, status::INVALID_FIELD)?;
    let set = |sets| named_set(sets, command.low_half(11));
    match fid {
        EVENT_NOTICES => Ok(Answer::dword(if card.notices.on { NOTICES_BIT } else { 0 })),
        CONFIGURATION => get_configuration(set(&mut card.sets)?, room),
        _ => get_window(set(&mut card.sets)?),
    }
}

fn get_configuration(set: &Set, room: usize) -> Outcome {
    refuse_short(room, pages::CONFIGURATION_BYTES)?;
    let enable = set.window != Window::Off;
    Ok(Answer { dword0: enable.into(), ..Answer::data(pages::configuration_page(&set.configuration)) })
}

fn get_window(set: &Set) -> Outcome {
    refuse_off(set)?;
    Ok(Answer::dword(set.window as u32))
}

/// "Log: CDW10 7:0 page".
fn get_log_page(card: &mut Card, command: &Command, room: usize) -> Outcome {
    match command.subject() {
        SET_PAGE => get_set_page(&mut card.sets, command, room),
        LIST_PAGE => get_list_page(card, command, room),
        _ => Err(status::INVALID_LOG_PAGE),
    }
}

/// "Any successful read with Retain 0 clears that set's events and listed mark, after the bytes are taken."
fn get_set_page(sets: &mut [Set], command: &Command, room: usize) -> Outcome {
    let part = PagePart::asked(command, pages::SET_PAGE_BYTES)?;
    let set = named_set(sets, command.high_half(11))?;
    refuse_short(room, part.length)?;
    let data = part.of(&pages::set_page(set));
    if !command.retains() {
        set.clear_events();
    }
    Ok(Answer::data(data))
}

/// "A successful read of 0Bh with Retain 0 lifts the mask and drops the flag; 01's "reading changes nothing" is amended to that."
fn get_list_page(card: &mut Card, command: &Command, room: usize) -> Outcome {
    let part = PagePart::asked(command, pages::LIST_PAGE_BYTES)?;
    refuse_short(room, part.length)?;
    if !command.retains() {
        card.notices.lift();
    }
    Ok(Answer::data(part.of(&pages::list_page(&card.sets))))
}

/// The bytes of a page that a log read asks for.
struct PagePart {
    offset: usize,
    length: usize,
}

impl PagePart {
    /// "CDW10 [...] 31:16 low count; CDW11 15:0 high count [...]; CDW12 and CDW13 low and high byte offset. Dwords moved are
    /// count + 1." Refused: "offset not a multiple of 4 or greater than page size; over 1,024 dwords".
    fn asked(command: &Command, page_bytes: usize) -> Result<PagePart, u16> {
        let offset = u64::from(command.dword(13)) << 32 | u64::from(command.dword(12));
        let count = u64::from(command.low_half(11)) << 16 | u64::from(command.high_half(10));
        let dwords = count + 1;
        refuse_if(offset % 4 != 0 || offset > page_bytes as u64 || dwords > MAX_DWORDS, status::INVALID_FIELD)?;
        Ok(PagePart { offset: offset as usize, length: 4 * dwords as usize })
    }

    /// "Bytes past the page are zero."
    fn of(&self, page: &[u8]) -> Vec<u8> {
        let mut bytes = page[self.offset..].to_vec();
        bytes.resize(self.length, 0);
        bytes
    }
}

/// 01: "Identify 04h, 4,096 bytes: [...] sets with identifier at or above CDW11 15:0." 02: "An Identify answer still holds 31
/// entries".
fn identify(sets: &[Set], command: &Command, room: usize) -> Outcome {
    refuse_if(command.subject() != SET_LIST, status::INVALID_FIELD)?;
    refuse_short(room, pages::IDENTIFY_BYTES)?;
    Ok(Answer::data(pages::identify_page(sets, command.low_half(11))))
}
