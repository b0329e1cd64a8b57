//! Drives a proved program that carries out calls: `calling`, over the functions on words, or `lending`, over those that take
//! references. crates/streams/src/lib.rt says what they read and write.

use crate::calls::{Call, Function, Outcome, Takes};
use model::layout::{HEADER_BYTES, ROW_BYTES, WORD_BYTES};
use model::notices::NOTICE_DWORD0;
use model::tape;
use std::io::{BufReader, Read, Write};
use std::ops::Range;
use std::process::{ChildStdin, ChildStdout, Command, Stdio};
use std::thread;

/// A command that hands back the part of the answer buffer which was written.
const COMMAND_PART: u8 = 0x08;

/// What is written before the table and the answer buffer.
const HEAD_BYTES: usize = 14;

/// What of a table is lent to the program: its words, or to an event only the record of its set.
#[derive(Clone, Copy, PartialEq, Eq)]
pub enum Lent {
    Words,
    Record,
}

impl Lent {
    /// Where that lies in a table's bytes.
    fn place(self, call: &Call) -> Range<usize> {
        if self == Lent::Record && call.function != Function::SetUp {
            return HEADER_BYTES..HEADER_BYTES + ROW_BYTES;
        }
        0..call.regions.table.content().len() / WORD_BYTES * WORD_BYTES
    }
}

pub struct Program {
    lent: Lent,
    input: ChildStdin,
    output: BufReader<ChildStdout>,
    /// Commands are carried out by `command` and by `command_part` in turn.
    command: u8,
}

impl Program {
    /// Starts the program, given as its name and arguments. It ends with its input.
    pub fn start(lent: Lent, program: &[String]) -> Program {
        let mut child = Command::new(&program[0])
            .args(&program[1..])
            .stdin(Stdio::piped())
            .stdout(Stdio::piped())
            .spawn()
            .expect("the program starts");
        let input = child.stdin.take().expect("its input is a pipe");
        let output = child.stdout.take().expect("its output is a pipe");
        Program { lent, input, output: BufReader::with_capacity(1 << 16, output), command: COMMAND_PART }
    }

    fn kind(&mut self, function: Function) -> u8 {
        match function {
            Function::SetUp => tape::SET_ATTRIBUTES,
            Function::Command => {
                self.command = if self.command == COMMAND_PART { tape::COMMAND } else { COMMAND_PART };
                self.command
            }
            Function::Reads { .. } => tape::READS,
            Function::Writes { .. } => tape::WRITES,
            Function::Excursion { .. } => tape::EXCURSION,
            Function::Tick { .. } => tape::TICK,
        }
    }
}

impl Takes for Program {
    fn outcomes(&mut self, calls: &[Call]) -> Vec<Outcome> {
        let kinds: Vec<u8> = calls.iter().map(|call| self.kind(call.function)).collect();
        let mut bytes = Vec::new();
        for (&kind, call) in kinds.iter().zip(calls) {
            put_call(&mut bytes, self.lent, kind, call);
        }
        let Program { lent, input, output, .. } = self;
        // Both pipes are short: what is written waits until what was answered is read.
        thread::scope(|scope| {
            scope.spawn(|| input.write_all(&bytes).expect("the program takes every call"));
            kinds.iter().zip(calls).map(|(&kind, call)| take_answer(output, *lent, kind, call)).collect()
        })
    }
}

fn put_call(bytes: &mut Vec<u8>, lent: Lent, kind: u8, call: &Call) {
    let (set, number) = match call.function {
        Function::SetUp | Function::Command => (0, 0),
        Function::Reads { set, count } | Function::Writes { set, count } => (set, u32::from(count)),
        Function::Excursion { set } => (set, 0),
        Function::Tick { milliseconds } => (0, milliseconds),
    };
    let regions = &call.regions;
    let (table, answer) = (&regions.table.content()[lent.place(call)], regions.answer.content());
    let (command, data) = (regions.command.content(), regions.data.content());
    bytes.extend([kind, 0]);
    bytes.extend(set.to_le_bytes());
    bytes.extend(number.to_le_bytes());
    for length in [table.len() / WORD_BYTES, answer.len(), command.len(), data.len()] {
        bytes.extend((length as u16).to_le_bytes());
    }
    for part in [table, answer, command, data] {
        bytes.extend_from_slice(part);
    }
}

/// What a call answered and left, with the regions as the C functions would leave them.
fn take_answer(output: &mut impl Read, lent: Lent, kind: u8, call: &Call) -> Outcome {
    let mut read = |bytes: &mut [u8]| output.read_exact(bytes).expect("the program answers every call");
    let mut regions = call.regions.clone();
    let mut head = [0; HEAD_BYTES];
    read(&mut head);
    let (status, reply) = (u16::from_le_bytes([head[0], head[1]]), reply_of(&head));
    let length = u32::from_le_bytes([reply[4], reply[5], reply[6], reply[7]]);
    let mut part = vec![0; if kind == COMMAND_PART { length as usize } else { 0 }];
    read(&mut part);
    read(&mut regions.table.lend()[lent.place(call)]);
    read(regions.answer.lend());
    assert!(regions.answer.content().starts_with(&part), "the part handed back is not the start of the answer buffer");
    if call.function != Function::SetUp {
        for (place, byte) in regions.reply.lend().iter_mut().zip(reply) {
            *place = byte;
        }
    }
    Outcome { status, regions }
}

/// The reply of the C functions: dword 0, length, and where a notice goes beside the answer, its mark, identifier and dword 0.
fn reply_of(head: &[u8; HEAD_BYTES]) -> [u8; 16] {
    let mut reply = [0; 16];
    reply[..8].copy_from_slice(&head[4..12]);
    reply[8..10].copy_from_slice(&head[2..4]);
    reply[10..12].copy_from_slice(&head[12..14]);
    if head[2..4] != [0, 0] {
        reply[12..].copy_from_slice(&NOTICE_DWORD0.to_le_bytes());
    }
    reply
}
