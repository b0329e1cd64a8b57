//! "Replay file and its printout".

use crate::card;
use crate::commands::COMMAND_BYTES;
use crate::layout::{little_endian, table_bytes, BODY_BYTES, MAX_SETS};
use crate::status;
use std::io::{self, BufRead, BufReader, BufWriter, Read, Write};

/// "One byte of kind, then a body".
pub const COMMAND: u8 = 0x01;
pub const COMMAND_WITH_DATA: u8 = 0x02;
pub const READS: u8 = 0x03;
pub const WRITES: u8 = 0x04;
pub const EXCURSION: u8 = 0x05;
pub const TICK: u8 = 0x06;
pub const SET_ATTRIBUTES: u8 = 0x07;

/// "The answer buffer has 4,096 bytes."
const ANSWER_BYTES: usize = 4096;
const REPLY_BYTES: usize = 16;

/// Replays a file on a new card and prints what each item answers.
pub fn replay(input: impl Read, output: impl Write) -> io::Result<()> {
    let mut input = BufReader::new(input);
    let mut output = BufWriter::new(output);
    print(&mut input, &mut output)?;
    output.flush()
}

/// "Kinds 07h come first and aren't counted as items." "If set-up is refused, only the first line." "a cut 07h prints "bad 0"
/// alone."
fn print(input: &mut impl BufRead, output: &mut impl Write) -> io::Result<()> {
    let bodies = match read_bodies(input)? {
        None => return writeln!(output, "bad 0"),
        Some(bodies) => bodies,
    };
    let mut player = Player::new();
    let number = card::set_up(&mut player.table, &bodies);
    writeln!(output, "sets {} {:04X}", bodies.len() / BODY_BYTES, number)?;
    if number == status::SUCCESS {
        player.play(input, output)?;
    }
    Ok(())
}

/// The leading bodies of kind 07h, or None where the last of them is cut.
fn read_bodies(input: &mut impl BufRead) -> io::Result<Option<Vec<u8>>> {
    let mut bodies = Vec::new();
    let mut body = [0; BODY_BYTES];
    while input.fill_buf()?.first() == Some(&SET_ATTRIBUTES) {
        input.consume(1);
        if !is_filled(input, &mut body)? {
            return Ok(None);
        }
        bodies.extend_from_slice(&body);
    }
    Ok(Some(bodies))
}

/// Whether the file goes on for as many bytes; they are read.
fn is_filled(input: &mut impl Read, bytes: &mut [u8]) -> io::Result<bool> {
    match input.read_exact(bytes) {
        Ok(()) => Ok(true),
        Err(error) if error.kind() == io::ErrorKind::UnexpectedEof => Ok(false),
        Err(error) => Err(error),
    }
}

/// The length of an item's body; none of an "unknown kind" or "a late 07h".
fn body_bytes(kind: u8) -> Option<usize> {
    match kind {
        COMMAND => Some(COMMAND_BYTES),
        COMMAND_WITH_DATA => Some(576),
        READS | WRITES | TICK => Some(4),
        EXCURSION => Some(2),
        _ => None,
    }
}

/// The card that a file is replayed on, and the buffers lent to it.
struct Player {
    table: [u8; table_bytes(MAX_SETS)],
    answer: [u8; ANSWER_BYTES],
    reply: [u8; REPLY_BYTES],
}

impl Player {
    fn new() -> Player {
        Player { table: [0; table_bytes(MAX_SETS)], answer: [0; ANSWER_BYTES], reply: [0; REPLY_BYTES] }
    }

    /// "a line per item of status, dword 0 and, if given, data, all upper-case hex; then "end N"." "Unknown kind, a late 07h or a
    /// cut body: "bad N" with the number of items done, then stop". A notice's line follows its item's, and is no item.
    fn play(&mut self, input: &mut impl BufRead, output: &mut impl Write) -> io::Result<()> {
        let mut kind = [0];
        let mut body = [0; 576];
        let mut done: u64 = 0;
        while is_filled(input, &mut kind)? {
            let whole = match body_bytes(kind[0]) {
                Some(length) if is_filled(input, &mut body[..length])? => &body[..length],
                _ => return writeln!(output, "bad {}", done),
            };
            let number = self.item(kind[0], whole);
            self.print_line(number, output)?;
            self.print_notice(output)?;
            done += 1;
        }
        writeln!(output, "end {}", done)
    }

    /// Does one item and answers its status.
    fn item(&mut self, kind: u8, body: &[u8]) -> u16 {
        let half = |at: usize| little_endian(&body[at..at + 2]) as u16;
        match kind {
            READS => card::reads(&mut self.table, half(0), half(2), &mut self.reply),
            WRITES => card::writes(&mut self.table, half(0), half(2), &mut self.reply),
            EXCURSION => card::excursion(&mut self.table, half(0), &mut self.reply),
            TICK => card::tick(&mut self.table, little_endian(body) as u32, &mut [], &mut self.reply),
            _ => {
                let (command, data) = body.split_at(COMMAND_BYTES);
                card::command(&mut self.table, command, data, &mut self.answer, &mut self.reply)
            }
        }
    }

    fn print_line(&self, number: u16, output: &mut impl Write) -> io::Result<()> {
        write!(output, "{:04X} {:08X}", number, little_endian(&self.reply[0..4]))?;
        let data = &self.answer[..little_endian(&self.reply[4..8]) as usize];
        if !data.is_empty() {
            output.write_all(b" ")?;
            output.write_all(&hexadecimal(data))?;
        }
        output.write_all(b"\n")
    }

    /// "replay adds a line: identifier, dword 0".
    fn print_notice(&self, output: &mut impl Write) -> io::Result<()> {
        if self.reply[8] == 0 {
            return Ok(());
        }
        writeln!(output, "{:04X} {:08X}", little_endian(&self.reply[10..12]), little_endian(&self.reply[12..16]))
    }
}

/// Two upper-case digits for each byte.
pub fn hexadecimal(bytes: &[u8]) -> Vec<u8> {
    let digit = |value: u8| b"0123456789ABCDEF"[usize::from(value)];
    bytes.iter().flat_map(|&byte| [digit(byte >> 4), digit(byte & 15)]).collect()
}
