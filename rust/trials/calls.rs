//! A call of one of the card's functions, with all that is lent to it; and what takes such calls.

use crate::entries::Entries;
use crate::random::Random;
use model::commands::{
    ASYNCHRONOUS_EVENT_REQUEST, COMMAND_BYTES, EVENT_NOTICES, GET_FEATURES, GET_LOG_PAGE, IDENTIFY, LIST_PAGE, SET_FEATURES,
    SET_LIST, SET_PAGE,
};
use model::layout::little_endian;
use model::tape;

const GUARD_BYTES: usize = 16;

/// A lent region with random bytes before and after it. It starts at any alignment.
#[derive(Clone, PartialEq, Eq)]
pub struct Region {
    bytes: Vec<u8>,
    start: usize,
    length: usize,
}

impl Region {
    pub fn new(random: &Random, content: &[u8]) -> Region {
        let start = GUARD_BYTES + random.place(8);
        let mut bytes = random.bytes(start);
        bytes.extend_from_slice(content);
        bytes.extend(random.bytes(GUARD_BYTES));
        Region { bytes, start, length: content.len() }
    }

    pub fn lend(&mut self) -> &mut [u8] {
        &mut self.bytes[self.start..self.start + self.length]
    }

    pub fn content(&self) -> &[u8] {
        &self.bytes[self.start..self.start + self.length]
    }

    /// Guard, content and guard in hex.
    fn dump(&self) -> String {
        let (before, rest) = self.bytes.split_at(self.start);
        let (content, after) = rest.split_at(self.length);
        let hex = |bytes: &[u8]| String::from_utf8_lossy(&tape::hexadecimal(bytes)).into_owned();
        format!("{} [{} bytes: {}] {}", hex(before), content.len(), hex(content), hex(after))
    }
}

/// All that is lent to one call. Set-up's bodies lie in `data`.
#[derive(Clone, PartialEq, Eq)]
pub struct Regions {
    pub table: Region,
    pub command: Region,
    pub data: Region,
    pub answer: Region,
    pub reply: Region,
}

impl Regions {
    /// The table; then the command, the data, the answer buffer and the reply.
    pub fn new(random: &Random, table: &[u8], others: [&[u8]; 4]) -> Regions {
        let region = |content: &[u8]| Region::new(random, content);
        let [command, data, answer, reply] = others;
        Regions {
            table: region(table),
            command: region(command),
            data: region(data),
            answer: region(answer),
            reply: region(reply),
        }
    }

    pub fn named(&self) -> [(&'static str, &Region); 5] {
        [
            ("table", &self.table),
            ("command", &self.command),
            ("data or bodies", &self.data),
            ("answer", &self.answer),
            ("reply", &self.reply),
        ]
    }
}

/// Which function is called, with its numbers.
#[derive(Clone, Copy, Debug, PartialEq, Eq)]
pub enum Function {
    SetUp,
    Command,
    Reads { set: u16, count: u16 },
    Writes { set: u16, count: u16 },
    Excursion { set: u16 },
    Tick { milliseconds: u32 },
}

pub struct Call {
    pub function: Function,
    pub regions: Regions,
}

/// The status that a call answered, and what it left.
#[derive(PartialEq, Eq)]
pub struct Outcome {
    pub status: u16,
    pub regions: Regions,
}

impl Call {
    /// A call with no command; its data are set-up's bodies, or none.
    pub fn plain(random: &Random, function: Function, table: &[u8], data: &[u8]) -> Call {
        Call { function, regions: Regions::new(random, table, [&[], data, &[], &[]]) }
    }

    /// A media event or a tick: with a reply that is sometimes too short or too long, and a tick with an answer buffer of any length.
    pub fn item(random: &Random, function: Function, table: &[u8]) -> Call {
        let is_tick = matches!(function, Function::Tick { .. });
        let answer = random.bytes(if is_tick { random.place(300) } else { 0 });
        let reply = random.bytes(if random.once_in(4) { random.place(25) } else { 16 });
        Call { function, regions: Regions::new(random, table, [&[], &[], &answer, &reply]) }
    }

    /// FID and set of a Set Features.
    pub fn set_features(&self) -> Option<(u8, u16)> {
        let command = self.whole_command()?;
        (command[0] == SET_FEATURES).then(|| (command[40], half(command, 44)))
    }

    /// FID of a Get Features.
    pub fn get_features(&self) -> Option<u8> {
        let command = self.whole_command()?;
        (command[0] == GET_FEATURES).then(|| command[40])
    }

    pub fn is_request(&self) -> bool {
        self.whole_command().map_or(false, |command| command[0] == ASYNCHRONOUS_EVENT_REQUEST)
    }

    /// Retain of a read of 0Bh.
    pub fn list_read(&self) -> Option<bool> {
        let command = self.whole_command()?;
        (command[0] == GET_LOG_PAGE && command[40] == LIST_PAGE).then(|| command[41] & 0x80 != 0)
    }

    /// Offset and dwords of a read of 0Bh.
    pub fn list_part(&self) -> Option<(u64, u64)> {
        self.list_read()?;
        self.whole_command().map(part_of)
    }

    /// Set, offset and dwords of a read of 0Ah.
    pub fn set_page_part(&self) -> Option<(u16, u64, u64)> {
        let command = self.whole_command()?;
        let (offset, dwords) = part_of(command);
        (command[0] == GET_LOG_PAGE && command[40] == SET_PAGE).then(|| (half(command, 46), offset, dwords))
    }

    /// The identifier from which an Identify lists sets.
    pub fn identify_from(&self) -> Option<u16> {
        let command = self.whole_command()?;
        (command[0] == IDENTIFY && command[40] == SET_LIST).then(|| half(command, 44))
    }

    /// The set that the item names: "events other than ticks, feature commands and reads of 0Ah"; but "Opcode 0Ch and FID 0Bh [...]
    /// name no set".
    pub fn set_named(&self) -> Option<u16> {
        match self.function {
            Function::Reads { set, .. } | Function::Writes { set, .. } | Function::Excursion { set } => Some(set),
            Function::SetUp | Function::Tick { .. } => None,
            Function::Command => {
                let command = self.whole_command()?;
                match (command[0], command[40]) {
                    (SET_FEATURES | GET_FEATURES, EVENT_NOTICES) => None,
                    (SET_FEATURES | GET_FEATURES, _) => Some(half(command, 44)),
                    (GET_LOG_PAGE, SET_PAGE) => Some(half(command, 46)),
                    _ => None,
                }
            }
        }
    }

    fn whole_command(&self) -> Option<&[u8]> {
        if self.function != Function::Command {
            return None;
        }
        Some(self.regions.command.content()).filter(|command| command.len() == COMMAND_BYTES)
    }

    /// Prints what was given, the status of each outcome, and the regions that it left otherwise.
    pub fn print(&self, outcomes: &[(&str, &Outcome)]) {
        println!("{:?}", self.function);
        for (region, given) in self.regions.named() {
            println!("given {}: {}", region, given.dump());
        }
        for (whose, outcome) in outcomes {
            println!("{}: status {:04X}", whose, outcome.status);
            for ((region, left), (_, given)) in outcome.regions.named().into_iter().zip(self.regions.named()) {
                if left != given {
                    println!("{} {}: {}", whose, region, left.dump());
                }
            }
        }
    }
}

/// Offset and dwords of a log read.
fn part_of(command: &[u8]) -> (u64, u64) {
    let count = u64::from(half(command, 44)) << 16 | u64::from(half(command, 42));
    (little_endian(&command[48..56]) as u64, count + 1)
}

fn half(command: &[u8], at: usize) -> u16 {
    u16::from_le_bytes([command[at], command[at + 1]])
}

/// Something that takes calls: functions in this process, or a program in another.
pub trait Takes {
    /// Carries out each call on copies of its regions.
    fn outcomes(&mut self, calls: &[Call]) -> Vec<Outcome>;
}

impl Takes for Entries {
    fn outcomes(&mut self, calls: &[Call]) -> Vec<Outcome> {
        calls.iter().map(|call| self.outcome(call)).collect()
    }
}

impl Entries {
    pub fn outcome(&self, call: &Call) -> Outcome {
        let mut regions = call.regions.clone();
        let Regions { table, command, data, answer, reply } = &mut regions;
        let status =
            self.carry_out(call.function, table.lend(), [command.content(), data.content()], answer.lend(), reply.lend());
        Outcome { status, regions }
    }

    /// Calls the function; the inputs are the command and the data.
    pub fn carry_out(
        &self,
        function: Function,
        table: &mut [u8],
        inputs: [&[u8]; 2],
        answer: &mut [u8],
        reply: &mut [u8],
    ) -> u16 {
        let [command, data] = inputs;
        match function {
            Function::SetUp => (self.set_up)(table, data),
            Function::Command => (self.command)(table, command, data, answer, reply),
            Function::Reads { set, count } => (self.reads)(table, set, count, reply),
            Function::Writes { set, count } => (self.writes)(table, set, count, reply),
            Function::Excursion { set } => (self.excursion)(table, set, reply),
            Function::Tick { milliseconds } => (self.tick)(table, milliseconds, answer, reply),
        }
    }
}
