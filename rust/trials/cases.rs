//! Cases with their outcomes worked out by hand. cases.txt says how they are written.

use crate::calls::{Call, Function, Outcome, Regions, Takes};
use crate::damage::without_needs;
use crate::entries::MODEL;
use crate::random::Random;
use model::commands::{
    ASYNCHRONOUS_EVENT_REQUEST, COMMAND_BYTES, CONFIGURATION, EVENT_NOTICES, GET_FEATURES, GET_LOG_PAGE, IDENTIFY, LIST_PAGE,
    SET_FEATURES, SET_LIST,
};
use model::layout::{header, put_word, word_of, BODY_BYTES, HEADER_WORDS, LAYOUT_NUMBER, MAX_SETS, ROW_WORDS, WORD_BYTES};
use model::status;
use std::collections::BTreeMap;

/// For the functions on a table, and for those over references.
pub const CASES: &str = include_str!("cases.txt");
pub const LENT_CASES: &str = include_str!("lent.txt");

/// The names of a row's words, in their order.
const FIELDS: [&str; ROW_WORDS] = [
    "identifier",
    "group",
    "random-read",
    "write-size",
    "total",
    "total-upper",
    "unallocated",
    "unallocated-upper",
    "reads-typical",
    "writes-typical",
    "time-maximum",
    "minimum-high",
    "minimum-low",
    "enev",
    "reads-threshold",
    "writes-threshold",
    "time-threshold",
    "window",
    "reads",
    "writes",
    "time",
    "n-time",
    "need",
    "events",
    "listed",
];

/// The names of the header's words, in their order.
const HEADER: [&str; HEADER_WORDS] =
    ["layout", "sets", "on", "masked", "flag", "waiting", "request-1", "request-2", "request-3", "request-4"];

/// The thirteen numbers of a set's attributes, which are also the first words of its row, and their widths in a body.
type Attributes = [u64; 13];
const WIDTHS: [usize; 13] = [2, 2, 4, 4, 8, 8, 8, 8, 8, 8, 8, 8, 8];

/// Room for one set more than a card may have.
const ROOM: usize = HEADER_WORDS + (MAX_SETS + 1) * ROW_WORDS;
/// As many bodies as a case may lend: far more than a card may have.
const BODIES: u64 = 200;
const ANSWER_BYTES: usize = 4096;
const LONG_TICK: u32 = 86_400_001;

struct Cases<'a> {
    name: &'a str,
    taker: &'a mut dyn Takes,
    random: Random,
    attributes: BTreeMap<&'a str, Attributes>,
    data: BTreeMap<&'a str, [u64; 4]>,
    /// The card's sets, in the order of their rows.
    sets: Vec<Attributes>,
    table: Vec<u8>,
    goes_on: bool,
    done: usize,
}

/// Gives every case to one that takes calls and to the model. Answers whether each did what the case says.
pub fn hold_cases(name: &str, taker: &mut dyn Takes, text: &str) -> bool {
    let lines = whole_lines(text);
    let random = Random::new(0);
    let (attributes, data) = (BTreeMap::new(), BTreeMap::new());
    let mut cases = Cases { name, taker, random, attributes, data, sets: Vec::new(), table: Vec::new(), goes_on: false, done: 0 };
    for (number, line) in &lines {
        if let Err(why) = cases.line(line) {
            println!("{} in line {} of the cases: {}", why, number, line);
            return false;
        }
    }
    println!("{} does what {} calls of the cases say", name, cases.done);
    true
}

/// The lines with their numbers, each with those that go on with it.
fn whole_lines(text: &str) -> Vec<(usize, String)> {
    let mut lines: Vec<(usize, String)> = Vec::new();
    for (place, line) in text.lines().enumerate() {
        match lines.last_mut() {
            Some((_, before)) if line.starts_with(' ') => before.push_str(line),
            _ => lines.push((place + 1, line.to_string())),
        }
    }
    lines
}

type Tried = Result<(), String>;

impl<'a> Cases<'a> {
    fn line(&mut self, line: &'a str) -> Tried {
        let (given, expected) = line.split_once(" -> ").unwrap_or((line, ""));
        let words: Vec<&str> = given.split_whitespace().collect();
        match words[..] {
            [] | ["#" | "==", ..] => (),
            ["attributes", name, "=", ref numbers @ ..] => drop(self.attributes.insert(name, all_numbers(numbers))),
            ["data", name, "=", ref numbers @ ..] => drop(self.data.insert(name, all_numbers(numbers))),
            ["card", ref sets @ ..] => self.new_card(sets),
            ["put", ref words @ ..] => self.table = self.with(words),
            ["anew"] => self.goes_on = false,
            ["onward"] => self.goes_on = true,
            ["damage", "strange", ref words @ ..] => return self.damage(words, 8, LONG_TICK, Some(status::BAD_TABLE)),
            ["damage", ref words @ ..] => return self.damage(words, self.last_but_one(), 1, Some(status::BAD_TABLE)),
            ["edge", ref words @ ..] => return self.damage(words, self.last_but_one(), 1, None),
            ["set-up", ref words @ ..] => return self.set_up(words, hexadecimal(expected) as u16),
            ["each", ref words @ ..] => return self.each(words, expected),
            _ => return self.item(&words, expected),
        }
        Ok(())
    }

    /// All rows are there, those past the card's sets too.
    fn new_card(&mut self, sets: &[&str]) {
        self.sets = match sets {
            ["many", sets, first, step] => {
                let identifier = |place: u64| number(first) + number(step) * place;
                (0..number(sets)).map(|place| numbered(self.attributes["7"], identifier(place))).collect()
            }
            _ => sets.iter().map(|name| self.attributes[name]).collect(),
        };
        self.table = vec![0; WORD_BYTES * ROOM];
        put_header(&mut self.table, self.sets.len().min(MAX_SETS));
        for (slot, attributes) in self.sets.iter().enumerate() {
            put_row(&mut self.table, slot, attributes);
        }
    }

    /// The set that is charged where a table is tried for legality.
    fn last_but_one(&self) -> u16 {
        self.sets[self.sets.len() - 2][0] as u16
    }

    fn place(&self, word: &str) -> usize {
        match word.split_once('.') {
            None if word == "past" => HEADER_WORDS + self.sets.len() * ROW_WORDS,
            None => HEADER.iter().position(|&name| name == word).unwrap_or_else(|| panic!("{} is no word of the header", word)),
            Some((set, field)) => {
                let slot = self.sets.iter().position(|attributes| attributes[0] == number(set)).expect("a set of the card");
                HEADER_WORDS + slot * ROW_WORDS + field_place(field)
            }
        }
    }

    /// The table with other words, and as much of it as `words=` lends, which comes last, as `rows=` and `header=` do.
    fn with(&self, words: &[&str]) -> Vec<u8> {
        let mut table = self.table.clone();
        for word in words {
            match word.split_once('=').expect("a word and its value") {
                ("words", lent) => table.truncate(WORD_BYTES * lent_words(lent)),
                ("rows", "24") => table = without_needs(&table),
                ("header", kept) => {
                    drop(table.drain(WORD_BYTES * header::ON..WORD_BYTES * HEADER_WORDS));
                    drop(table.drain(..WORD_BYTES * (header::ON - number(kept) as usize)));
                }
                (word, value) => put_word(&mut table, self.place(word), number(value)),
            }
        }
        table
    }

    /// Every function on a table with other words: each refuses it with the status, or none does.
    fn damage(&mut self, words: &[&str], set: u16, milliseconds: u32, refusal: Option<u16>) -> Tried {
        let table = self.with(words);
        let media = [
            Function::Reads { set, count: 1 },
            Function::Writes { set, count: 1 },
            Function::Excursion { set },
            Function::Tick { milliseconds },
        ];
        let mut calls: Vec<Call> = media.iter().map(|&function| Call::item(&self.random, function, &table)).collect();
        let feature = [u32::from(CONFIGURATION), u32::from(set), 1, 0];
        let notices = [EVENT_NOTICES.into(), 1 << 12, 0, 0];
        let views = [
            (SET_FEATURES, feature),
            (GET_FEATURES, feature),
            (SET_FEATURES, notices),
            (GET_FEATURES, notices),
            (GET_LOG_PAGE, [LIST_PAGE.into(), 0, 0, 0]),
            (IDENTIFY, [SET_LIST.into(), 0, 0, 0]),
            (ASYNCHRONOUS_EVENT_REQUEST, [0; 4]),
        ];
        for (opcode, dwords) in views {
            let command = Command { data: vec![0; 512], ..Command::new(opcode.into(), dwords) };
            calls.push(command.call(&self.random, &table));
        }
        for call in calls {
            let expected = match refusal {
                Some(number) => refused(&call, number),
                None => self.model_outcome(&call, number_on(&call, &table))?,
            };
            self.check(&call, expected)?;
        }
        Ok(())
    }

    /// What the model makes of a call, where only the status was worked out.
    fn model_outcome(&self, call: &Call, number: u16) -> Result<Outcome, String> {
        let outcome = MODEL.outcome(call);
        if outcome.status == number {
            return Ok(outcome);
        }
        call.print(&[("model", &outcome)]);
        Err("the model answers otherwise".into())
    }

    fn set_up(&mut self, words: &[&str], answered: u16) -> Tried {
        let mut bodies: Vec<Attributes> = (1..=BODIES).map(|number| numbered(self.attributes["plain"], 10 * number)).collect();
        let (mut lent, mut length) = (ROOM, 0);
        for word in words {
            match word.split_once('=').expect("a word and its value") {
                ("bodies", bodies) => length = span(bodies, BODY_BYTES, 0),
                ("words", words) => lent = lent_words(words),
                (word, value) => {
                    let (set, field) = word.split_once('.').expect("a set and its field");
                    bodies[number(set) as usize / 10 - 1][field_place(field)] = number(value);
                }
            }
        }
        let bytes: Vec<u8> = bodies.iter().flat_map(body).collect();
        // Set-up has no table before it: any words will do.
        let table = self.random.bytes(WORD_BYTES * lent);
        let call = Call::plain(&self.random, Function::SetUp, &table, &bytes[..length]);
        let mut expected = refused(&call, answered);
        if answered == status::SUCCESS {
            let table = expected.regions.table.lend();
            let sets = length / BODY_BYTES;
            put_header(table, sets);
            for (slot, attributes) in bodies[..sets].iter().enumerate() {
                put_row(table, slot, attributes);
            }
        }
        self.check(&call, expected)
    }

    /// An item for every set of the card, its name in the place of the star.
    fn each(&mut self, words: &[&str], expected: &str) -> Tried {
        for slot in 0..self.sets.len().min(MAX_SETS) {
            let name = self.sets[slot][0].to_string();
            let words: Vec<&str> = words.iter().map(|&word| if word == "*" { &name } else { word }).collect();
            self.item(&words, expected)?;
        }
        Ok(())
    }

    fn item(&mut self, words: &[&str], expected: &str) -> Tried {
        let table = &self.table;
        let plain = |function: Function| Call::item(&self.random, function, table);
        let short = |text: &str| number(text) as u16;
        let call = match *words {
            ["reads", set, count] => plain(Function::Reads { set: short(set), count: short(count) }),
            ["writes", set, count] => plain(Function::Writes { set: short(set), count: short(count) }),
            ["excursion", set] => plain(Function::Excursion { set: short(set) }),
            ["tick", milliseconds] => plain(Function::Tick { milliseconds: number(milliseconds) as u32 }),
            _ => Command::read(words, &self.data).call(&self.random, table),
        };
        let expected = self.outcome(&call, expected)?;
        if self.goes_on {
            self.table = expected.regions.table.content().to_vec();
        }
        self.check(&call, expected)
    }

    /// What a case says of a call.
    fn outcome(&self, call: &Call, expected: &str) -> Result<Outcome, String> {
        let mut words = expected.split_whitespace();
        let answered = hexadecimal(words.next().ok_or("no outcome")?) as u16;
        let mut outcome = refused(call, answered);
        let (mut dword0, mut data) = (0, Vec::new());
        let mut reply = [0; 16];
        for word in words {
            match word.split_once(['=', ':'].as_ref()) {
                None => return self.model_outcome(call, answered),
                Some(("dword", value)) => dword0 = number(value) as u32,
                Some(("notice", identifier)) => put_notice(&mut reply, number(identifier) as u16),
                Some(("data", length)) => data.resize(number(length) as usize, 0),
                Some(("lists", sets)) => data = self.set_list(sets),
                Some((offset, dword)) if word.contains(':') => {
                    let dword = hexadecimal(dword) as u32;
                    data[number(offset) as usize..][..4].copy_from_slice(&dword.to_le_bytes());
                }
                Some((word, value)) => put_word(outcome.regions.table.lend(), self.place(word), number(value)),
            }
        }
        outcome.regions.answer.lend()[..data.len()].copy_from_slice(&data);
        reply[0..4].copy_from_slice(&dword0.to_le_bytes());
        reply[4..8].copy_from_slice(&(data.len() as u32).to_le_bytes());
        // As far as it reaches, and no byte past the sixteenth.
        outcome.regions.reply.lend().iter_mut().zip(reply).for_each(|(place, byte)| *place = byte);
        Ok(outcome)
    }

    /// "byte 0 count; entries of 128 bytes from byte 128 [...]. Entry: 1:0 identifier, 3:2 group, 11:8 random read typical, 15:12
    /// optimal write size, 31:16 total, 47:32 unallocated, rest zero." "An Identify answer still holds 31 entries".
    fn set_list(&self, sets: &str) -> Vec<u8> {
        let place = |set: &str| self.sets.iter().position(|a| a[0] == number(set)).expect("a set of the card");
        let shown: Vec<&Attributes> = match sets.split_once("..") {
            Some((first, last)) => self.sets[place(first)..=place(last)].iter().collect(),
            None if sets == "none" => Vec::new(),
            None => sets.split(',').map(|set| &self.sets[place(set)]).collect(),
        };
        assert!(shown.len() <= 31, "a case lists more than an answer can hold: {}", sets);
        let mut page = vec![0; 4096];
        page[0] = shown.len() as u8;
        for (entry, attributes) in page[128..].chunks_exact_mut(128).zip(shown) {
            for (at, width, value) in
                [(0, 2, 0), (2, 2, 1), (8, 4, 2), (12, 4, 3), (16, 8, 4), (24, 8, 5), (32, 8, 6), (40, 8, 7)]
            {
                entry[at..at + width].copy_from_slice(&attributes[value].to_le_bytes()[..width]);
            }
        }
        page
    }

    /// Whether the model and the one that is held answer and leave just that. A command is given twice: `calling` carries it out
    /// by two functions, in turn.
    fn check(&mut self, call: &Call, expected: Outcome) -> Tried {
        self.compare("model", call, &expected, MODEL.outcome(call))?;
        for _ in 0..if call.function == Function::Command { 2 } else { 1 } {
            self.done += 1;
            let theirs = self.taker.outcomes(std::slice::from_ref(call)).remove(0);
            self.compare(self.name, call, &expected, theirs)?;
        }
        Ok(())
    }

    fn compare(&self, whose: &str, call: &Call, expected: &Outcome, outcome: Outcome) -> Tried {
        if outcome == *expected {
            return Ok(());
        }
        call.print(&[("the case", expected), (whose, &outcome)]);
        Err(format!("{} does something else than the case", whose))
    }
}

/// The status, dword 0 and length of zero, and nothing written.
fn refused(call: &Call, status: u16) -> Outcome {
    let mut regions = call.regions.clone();
    // As far as it reaches, and no byte past the sixteenth.
    regions.reply.lend().iter_mut().take(16).for_each(|byte| *byte = 0);
    Outcome { status, regions }
}

/// What an item of `edge` answers: only a request tells how it was carried out, and is refused where four wait.
fn number_on(call: &Call, table: &[u8]) -> u16 {
    match call.is_request() {
        false => status::SUCCESS,
        true if word_of(table, header::WAITING) == 4 => status::TOO_MANY_REQUESTS,
        true => status::WAITING,
    }
}

/// "that request completes with dword 0 = 000B0402h": byte 8 is 1, 11:10 the identifier, 15:12 its dword 0.
fn put_notice(reply: &mut [u8; 16], identifier: u16) {
    reply[8] = 1;
    reply[10..12].copy_from_slice(&identifier.to_le_bytes());
    reply[12..16].copy_from_slice(&[0x02, 0x04, 0x0B, 0x00]);
}

/// A command with its lengths, as a case gives it.
struct Command {
    opcode: u32,
    dwords: [u32; 4],
    length: usize,
    data: Vec<u8>,
    room: usize,
    /// What lies in the bytes that the case does not give.
    filler: u8,
}

impl Command {
    fn new(opcode: u32, dwords: [u32; 4]) -> Command {
        Command { opcode, dwords, length: COMMAND_BYTES, data: Vec::new(), room: ANSWER_BYTES, filler: 0 }
    }

    fn read(words: &[&str], data: &BTreeMap<&str, [u64; 4]>) -> Command {
        let is_option = |word: &&str| word.contains('=') || ["retain", "ones"].contains(word);
        let (options, numbers): (Vec<&str>, Vec<&str>) = words[1..].iter().partition(|word| is_option(word));
        let numbers: Vec<u64> = numbers.iter().map(|text| number(text)).collect();
        let at = |place: usize| numbers.get(place).map_or(0, |&number| number as u32);
        let mut command = match words[0] {
            "set" => Command::new(SET_FEATURES.into(), [at(0), at(1), at(2), 0]),
            "get" => Command::new(GET_FEATURES.into(), [at(0), at(1), 0, 0]),
            "log" => Command::new(GET_LOG_PAGE.into(), [at(0), at(1) << 16, 0, 0]),
            "identify" => Command::new(IDENTIFY.into(), [SET_LIST.into(), at(0), 0, 0]),
            "request" => Command::new(u32::from(ASYNCHRONOUS_EVENT_REQUEST) | at(0) << 16, [0; 4]),
            "command" => Command::new(at(0), [at(1), at(2), at(3), at(4)]),
            _ => panic!("{} is no item", words[0]),
        };
        command.filler = if options.contains(&"ones") { 0xFF } else { 0 };
        for option in options {
            command.option(option, data);
        }
        command
    }

    fn option(&mut self, option: &str, data: &BTreeMap<&str, [u64; 4]>) {
        match option.split_once('=') {
            None if option == "retain" => self.dwords[0] |= 1 << 15,
            None => assert_eq!(option, "ones"),
            Some(("dwords", dwords)) => {
                let count = number(dwords) - 1;
                self.dwords[0] |= (count as u32) << 16;
                self.dwords[1] |= (count >> 16) as u32;
            }
            Some(("offset", offset)) => {
                self.dwords[2] = number(offset) as u32;
                self.dwords[3] = (number(offset) >> 32) as u32;
            }
            Some(("bytes", length)) => self.length = number(length) as usize,
            Some(("room", room)) => self.room = number(room) as usize,
            Some((_, given)) => {
                let (length, name) = given.split_once(':').expect("a length and a name");
                self.data = configuration(&data[name], number(length) as usize, self.filler);
            }
        }
    }

    fn call(&self, random: &Random, table: &[u8]) -> Call {
        let mut command = vec![self.filler; self.length.max(COMMAND_BYTES)];
        command[0..4].copy_from_slice(&self.opcode.to_le_bytes());
        for (place, dword) in command[40..56].chunks_exact_mut(4).zip(self.dwords) {
            place.copy_from_slice(&dword.to_le_bytes());
        }
        command.truncate(self.length);
        let answer = random.bytes(self.room);
        Call { function: Function::Command, regions: Regions::new(random, table, [&command, &self.data, &answer, &[0xA5; 16]]) }
    }
}

/// "512 data bytes hold ENEV 1:0, reads threshold 39:32, writes 47:40, time 55:48".
fn configuration(numbers: &[u64; 4], length: usize, filler: u8) -> Vec<u8> {
    let mut data = vec![filler; length.max(512)];
    data[0..2].copy_from_slice(&numbers[0].to_le_bytes()[..2]);
    for (place, threshold) in data[32..56].chunks_exact_mut(8).zip(&numbers[1..]) {
        place.copy_from_slice(&threshold.to_le_bytes());
    }
    data.truncate(length);
    data
}

fn numbered(attributes: Attributes, identifier: u64) -> Attributes {
    let mut other = attributes;
    other[0] = identifier;
    other
}

fn body(attributes: &Attributes) -> Vec<u8> {
    attributes.iter().zip(WIDTHS).flat_map(|(number, width)| number.to_le_bytes().into_iter().take(width)).collect()
}

/// A new header: notices "start off and empty".
fn put_header(table: &mut [u8], sets: usize) {
    table[..WORD_BYTES * HEADER_WORDS].fill(0);
    put_word(table, header::LAYOUT, LAYOUT_NUMBER);
    put_word(table, header::SETS, sets as u64);
}

/// A new set: its attributes, and zero in every other word.
fn put_row(table: &mut [u8], slot: usize, attributes: &Attributes) {
    for field in 0..ROW_WORDS {
        put_word(table, HEADER_WORDS + slot * ROW_WORDS + field, attributes.get(field).copied().unwrap_or(0));
    }
}

fn field_place(name: &str) -> usize {
    FIELDS.iter().position(|&field| field == name).unwrap_or_else(|| panic!("{} is no field", name))
}

fn lent_words(text: &str) -> usize {
    span(text, ROW_WORDS, HEADER_WORDS)
}

/// "3+7": so many of a size, and so many more, or fewer.
fn span(text: &str, size: usize, before: usize) -> usize {
    let sign = text.find(['+', '-'].as_ref()).unwrap_or(text.len());
    let whole = before + size * number(&text[..sign]) as usize;
    match text[sign..].parse::<isize>() {
        Ok(more) => (whole as isize + more) as usize,
        Err(_) => whole,
    }
}

fn all_numbers<const N: usize>(texts: &[&str]) -> [u64; N] {
    let numbers: Vec<u64> = texts.iter().map(|text| number(text)).collect();
    numbers.try_into().expect("as many numbers as there are")
}

/// A decimal number, or a hexadecimal one that ends with an h.
fn number(text: &str) -> u64 {
    match text.strip_suffix('h') {
        Some(digits) => hexadecimal(digits),
        None => text.parse().unwrap_or_else(|_| panic!("{} is no number", text)),
    }
}

fn hexadecimal(digits: &str) -> u64 {
    u64::from_str_radix(digits, 16).unwrap_or_else(|_| panic!("{} is no hexadecimal number", digits))
}
