//! 01's whole run and its edges, and W1, W2 and W4 of 02, on the set of the run and on others like it.

use crate::commands::{
    ASYNCHRONOUS_EVENT_REQUEST, CONFIGURATION, EVENT_NOTICES, GET_FEATURES, GET_LOG_PAGE, IDENTIFY, LIST_PAGE, SET_FEATURES,
    SET_LIST, SET_PAGE, WINDOW,
};
use crate::layout::{field, header, little_endian, put_word, read_body, read_table, table_bytes, write_table, HEADER_BYTES};
use crate::notices::Notices;
use crate::set::{Quantity, Set, Window, DAY, QUANTITIES};
use crate::{card, status, tape};

/// "Whole run: set 7, typicals 100 and 50, maximum 1000, high 20, low 5."
fn body() -> Vec<u8> {
    body_of(7)
}

fn body_of(set: u16) -> Vec<u8> {
    let mut body = Vec::new();
    body.extend(set.to_le_bytes());
    body.extend(1u16.to_le_bytes());
    body.extend(2u32.to_le_bytes());
    body.extend(3u32.to_le_bytes());
    body.extend(5u128.to_le_bytes());
    body.extend(4u128.to_le_bytes());
    for number in [100u64, 50, 1000, 20, 5] {
        body.extend(number.to_le_bytes());
    }
    body
}

fn command(opcode: u8, dwords: [u32; 4]) -> Vec<u8> {
    let mut command = vec![0; 40];
    command[0] = opcode;
    command.extend(dwords.iter().flat_map(|dword| dword.to_le_bytes()));
    command.resize(64, 0);
    command
}

fn configuration(enev: u16, thresholds: [u64; 3]) -> Vec<u8> {
    let mut data = vec![0; 32];
    data[..2].copy_from_slice(&enev.to_le_bytes());
    data.extend(thresholds.iter().flat_map(|threshold| threshold.to_le_bytes()));
    data.resize(512, 0);
    data
}

fn enable() -> Vec<u8> {
    command(SET_FEATURES, [CONFIGURATION.into(), 7, 1, 0])
}

fn select_d() -> Vec<u8> {
    command(SET_FEATURES, [WINDOW.into(), 7, 1, 0])
}

fn select_n() -> Vec<u8> {
    command(SET_FEATURES, [WINDOW.into(), 7, 2, 0])
}

/// Page 0Ah or 0Bh, so many dwords from an offset.
fn log(page: u8, retain: bool, dwords: u32, offset: u32) -> Vec<u8> {
    command(GET_LOG_PAGE, [(dwords - 1) << 16 | u32::from(retain) << 15 | u32::from(page), 7 << 16, offset, 0])
}

/// An Asynchronous Event Request with this command identifier.
fn request(identifier: u16) -> Vec<u8> {
    let mut command = command(ASYNCHRONOUS_EVENT_REQUEST, [0; 4]);
    command[2..4].copy_from_slice(&identifier.to_le_bytes());
    command
}

/// The request that a reply says is completed, with its dword 0; none has eight zeros.
fn notice_in(reply: &[u8; 16]) -> Option<(u16, u32)> {
    match reply[8..] {
        [0, 0, 0, 0, 0, 0, 0, 0] => None,
        [1, 0, ref rest @ ..] => Some((little_endian(&rest[..2]) as u16, little_endian(&rest[2..]) as u32)),
        _ => panic!("bytes 9:8 of a reply are 0 or 1"),
    }
}

const DWORD0: u32 = 0x000B_0402;

/// A card with the set of the run.
struct Card(Vec<u8>);

impl Card {
    fn new() -> Card {
        let mut table = vec![0xA5; table_bytes(1)];
        assert_eq!(card::set_up(&mut table, &body()), status::SUCCESS);
        Card(table)
    }

    /// In D, after the recovery time, with the run's configuration.
    fn in_d() -> Card {
        Card::in_d_with(0x4001, [10, 0, 0])
    }

    fn in_d_with(enev: u16, thresholds: [u64; 3]) -> Card {
        let mut card = Card::new();
        card.enable(enev, thresholds);
        card.tick(20);
        assert_eq!(card.give(&select_d(), &[]).0, status::SUCCESS);
        assert_eq!(card.set().window, Window::D);
        card
    }

    fn enable(&mut self, enev: u16, thresholds: [u64; 3]) {
        assert_eq!(self.give(&enable(), &configuration(enev, thresholds)), (status::SUCCESS, 0, vec![]));
    }

    /// Status, dword 0 and data.
    fn give(&mut self, command: &[u8], data: &[u8]) -> (u16, u32, Vec<u8>) {
        let mut answer = vec![0xEE; 4096];
        let mut reply = [0xEE; 16];
        let number = card::command(&mut self.0, command, data, &mut answer, &mut reply);
        let length = little_endian(&reply[4..8]) as usize;
        assert!(answer[length..].iter().all(|&byte| byte == 0xEE));
        (number, little_endian(&reply[0..4]) as u32, answer[..length].to_vec())
    }

    fn reads(&mut self, count: u16) {
        assert_eq!(card::reads(&mut self.0, 7, count, &mut []), status::SUCCESS);
    }

    /// The same, and the notice that goes beside it.
    fn noticed_reads(&mut self, count: u16) -> Option<(u16, u32)> {
        let mut reply = [0xEE; 16];
        assert_eq!(card::reads(&mut self.0, 7, count, &mut reply), status::SUCCESS);
        assert_eq!(reply[..8], [0; 8]);
        notice_in(&reply)
    }

    /// Status, and the notice that goes beside it.
    fn noticed(&mut self, command: &[u8]) -> (u16, Option<(u16, u32)>) {
        let mut reply = [0xEE; 16];
        let number = card::command(&mut self.0, command, &[], &mut [0; 136], &mut reply);
        (number, notice_in(&reply))
    }

    fn request(&mut self, identifier: u16) -> (u16, Option<(u16, u32)>) {
        self.noticed(&request(identifier))
    }

    fn switch(&mut self, on: bool) -> (u16, Option<(u16, u32)>) {
        self.noticed(&command(SET_FEATURES, [EVENT_NOTICES.into(), u32::from(on) << 12, 0, 0]))
    }

    /// A read of 0Bh.
    fn look(&mut self, retain: bool) {
        assert_eq!(self.noticed(&log(LIST_PAGE, retain, 1, 0)), (status::SUCCESS, None));
    }

    fn notices(&self) -> Notices {
        read_table(&self.0).expect("the table is legal").notices
    }

    fn tick(&mut self, milliseconds: u32) {
        assert_eq!(card::tick(&mut self.0, milliseconds, &mut [], &mut []), status::SUCCESS);
    }

    fn set(&self) -> Set {
        read_table(&self.0).expect("the table is legal").sets[0].clone()
    }

    fn listed(&mut self) -> u128 {
        little_endian(&self.give(&log(LIST_PAGE, true, 2, 0), &[]).2)
    }
}

fn printout(file: &[u8]) -> String {
    let mut output = Vec::new();
    tape::replay(file, &mut output).expect("memory can be read and written");
    String::from_utf8(output).expect("a printout is plain text")
}

fn set_up_file() -> Vec<u8> {
    let mut file = vec![tape::SET_ATTRIBUTES];
    file.extend(body());
    file
}

fn whole_run_file() -> Vec<u8> {
    let mut file = set_up_file();
    let mut add = |kind: u8, parts: &[&[u8]]| {
        file.push(kind);
        parts.iter().for_each(|part| file.extend_from_slice(part));
    };
    add(tape::COMMAND_WITH_DATA, &[&enable(), &configuration(0x4001, [10, 0, 0])]);
    add(tape::TICK, &[&20u32.to_le_bytes()]);
    add(tape::COMMAND, &[&select_d()]);
    add(tape::READS, &[&7u16.to_le_bytes(), &91u16.to_le_bytes()]);
    add(tape::COMMAND, &[&log(LIST_PAGE, false, 3, 0)]);
    add(tape::READS, &[&7u16.to_le_bytes(), &10u16.to_le_bytes()]);
    add(tape::COMMAND, &[&command(GET_FEATURES, [WINDOW.into(), 7, 0, 0])]);
    add(tape::COMMAND, &[&select_d()]);
    file
}

#[test]
fn whole_run() {
    let expected = "sets 1 0000\n0000 00000000\n0000 00000000\n0000 00000000\n0000 00000000\n\
                    0000 00000000 010000000000000007000000\n0000 00000000\n0000 00000002\n07C1 00000000\nend 8\n";
    assert_eq!(printout(&whole_run_file()), expected);
}

#[test]
fn files_that_end_early() {
    assert_eq!(printout(&[]), "sets 0 07C4\n");
    assert_eq!(printout(&[0xFF]), "sets 0 07C4\n");
    assert_eq!(printout(&set_up_file()), "sets 1 0000\nend 0\n");
    assert_eq!(printout(&set_up_file()[..84]), "bad 0\n");
    let with = |rest: &[u8]| printout(&[&set_up_file(), rest].concat());
    assert_eq!(with(&set_up_file()), "sets 2 07C4\n");
    assert_eq!(with(&set_up_file()[..84]), "bad 0\n");
    assert_eq!(with(&[6, 1, 0, 0, 0, 7, 0]), "sets 1 0000\n0000 00000000\nbad 1\n");
    assert_eq!(with(&[6, 1, 0, 0, 0, 8]), "sets 1 0000\n0000 00000000\nbad 1\n");
    assert_eq!(with(&[5, 8, 0, 6, 1, 0, 0]), "sets 1 0000\n07C0 00000000\nbad 1\n");
}

#[test]
fn edge_1_ninety_reads_do_not_warn() {
    let mut card = Card::in_d();
    card.reads(90);
    assert_eq!((card.set().events, card.set().listed, card.set().window), (0, false, Window::D));
}

#[test]
fn edge_2_ninety_one_reads_warn() {
    let mut card = Card::in_d();
    card.reads(91);
    assert_eq!((card.set().events, card.set().listed, card.set().window), (0x0001, true, Window::D));
}

#[test]
fn edge_3_a_hundred_reads_stay_in_d() {
    let mut card = Card::in_d();
    card.reads(100);
    assert_eq!((card.set().events, card.set().window), (0x0001, Window::D));
}

#[test]
fn edge_4_a_hundred_and_one_reads_at_once_leave_d() {
    let mut card = Card::in_d();
    card.reads(101);
    assert_eq!((card.set().events, card.set().listed, card.set().window), (0x4001, true, Window::N));
}

#[test]
fn edges_5_to_7_ticks_in_d() {
    for (milliseconds, window, n_time) in [(999, Window::D, 0), (1000, Window::N, 0), (1007, Window::N, 7)] {
        let mut card = Card::in_d();
        card.tick(milliseconds);
        assert_eq!((card.set().window, card.set().n_time), (window, n_time));
    }
}

/// 01: "8* enabled, N time 19, select D: 07C1h. 9* N time 20: D." 02: "cases 8 and 9 now speak of the need", which after enabling
/// is high, 20.
#[test]
fn edges_8_and_9_select_d_when_the_need_is_spent() {
    for (milliseconds, number, window) in [(19, status::TOO_EARLY, Window::N), (20, status::SUCCESS, Window::D)] {
        let mut card = Card::new();
        card.enable(0x4001, [10, 0, 0]);
        card.tick(milliseconds);
        assert_eq!(card.give(&select_d(), &[]), (number, 0, vec![]));
        assert_eq!(card.set().window, window);
    }
}

#[test]
fn edge_10_later_enabling_does_not_list() {
    let mut card = Card::in_d_with(0, [0; 3]);
    assert_eq!(card::excursion(&mut card.0, 7, &mut []), status::SUCCESS);
    assert_eq!((card.set().events, card.set().listed, card.set().window), (0x8000, false, Window::N));
    card.enable(0x8000, [0; 3]);
    assert_eq!((card.set().events, card.set().listed, card.listed()), (0x8000, false, 0));
}

#[test]
fn edge_11_the_end_of_the_page_is_zeros() {
    let mut card = Card::in_d();
    assert_eq!(card.give(&log(SET_PAGE, true, 2, 512), &[]), (status::SUCCESS, 0, vec![0; 8]));
}

#[test]
fn edge_12_past_the_end_of_the_page_is_refused() {
    let mut card = Card::in_d();
    assert_eq!(card.give(&log(SET_PAGE, true, 2, 516), &[]), (status::INVALID_FIELD, 0, vec![]));
}

#[test]
fn edge_13_threshold_zero_never_warns() {
    let mut card = Card::in_d_with(0xC007, [0; 3]);
    card.reads(100);
    assert_eq!(card.set().events, 0);
    card.reads(1);
    assert_eq!(card.set().events, 0x4000);
}

#[test]
fn edge_14_identify_from_eight_finds_none() {
    let mut card = Card::new();
    let from = |first: u32| command(IDENTIFY, [SET_LIST.into(), first, 0, 0]);
    assert_eq!(card.give(&from(8), &[]), (status::SUCCESS, 0, vec![0; 4096]));
    let entry = card.give(&from(7), &[]).2[128..256].to_vec();
    assert_eq!(entry[..16], [7, 0, 1, 0, 0, 0, 0, 0, 2, 0, 0, 0, 3, 0, 0, 0]);
    assert_eq!((little_endian(&entry[16..32]), little_endian(&entry[32..48])), (5, 4));
}

#[test]
fn repeated_select_d_does_not_refill() {
    let mut card = Card::in_d();
    card.reads(60);
    assert_eq!(card.give(&select_d(), &[]).0, status::SUCCESS);
    card.reads(41);
    assert_eq!(card.set().window, Window::N);
}

#[test]
fn no_second_warning_after_a_clearing_read() {
    let mut card = Card::in_d();
    card.reads(91);
    assert_eq!(card.give(&log(SET_PAGE, false, 128, 0), &[]).2[2..4], [1, 0]);
    assert_eq!((card.set().events, card.set().listed), (0, false));
    card.reads(1);
    assert_eq!(card.set().events, 0);
}

#[test]
fn legal_tables_are_kept_word_for_word() {
    let mut card = Card::in_d();
    card.reads(91);
    let mut copy = vec![0; card.0.len()];
    write_table(&mut copy, &read_table(&card.0).expect("the table is legal"));
    assert_eq!(copy, card.0);
}

fn state(on: bool, masked: bool, flag: bool, waiting: &[u16]) -> Notices {
    Notices { on, masked, flag, waiting: waiting.to_vec() }
}

#[test]
fn notices_start_off_and_empty() {
    assert_eq!(Card::new().notices(), state(false, false, false, &[]));
}

#[test]
fn four_requests_wait_and_a_fifth_is_too_many() {
    let mut card = Card::new();
    for identifier in [9, 9, 0, 0xFFFF] {
        assert_eq!(card.request(identifier), (0x07C8, None));
    }
    let before = card.0.clone();
    assert_eq!(card.request(5), (0x0105, None));
    assert_eq!(card.0, before);
    assert_eq!(card.notices().waiting, [9, 9, 0, 0xFFFF]);
}

#[test]
fn a_listing_completes_the_oldest_request_and_masks_further_notices() {
    let mut card = Card::in_d();
    assert_eq!(card.switch(true), (0, None));
    assert_eq!((card.request(0x1234).0, card.request(0x5678).0), (0x07C8, 0x07C8));
    assert_eq!(card.noticed_reads(90), None);
    assert_eq!(card.noticed_reads(1), Some((0x1234, DWORD0)));
    assert_eq!(card.notices(), state(true, true, false, &[0x5678]));
    // The set is listed: an event more lists none that was not.
    assert_eq!(card.noticed_reads(10), None);
    assert_eq!((card.set().events, card.notices()), (0x4001, state(true, true, false, &[0x5678])));
}

#[test]
fn what_cannot_be_sent_is_remembered() {
    for (on, masked, waiting) in [(false, false, &[7][..]), (true, true, &[7]), (true, false, &[]), (false, true, &[])] {
        let mut card = Card::in_d();
        let mut held = read_table(&card.0).expect("the table is legal");
        held.notices = state(on, masked, false, waiting);
        write_table(&mut card.0, &held);
        assert_eq!(card.noticed_reads(91), None);
        assert_eq!(card.notices(), state(on, masked, true, waiting));
    }
}

#[test]
fn the_flag_is_served_by_a_request_and_by_switching_on() {
    let mut card = Card::in_d();
    assert_eq!(card.switch(true), (0, None));
    assert_eq!(card.noticed_reads(91), None);
    assert_eq!(card.request(0), (0x07C8, Some((0, DWORD0))));
    assert_eq!(card.notices(), state(true, true, false, &[]));

    let mut card = Card::in_d();
    assert_eq!((card.request(3), card.request(2)), ((0x07C8, None), (0x07C8, None)));
    assert_eq!(card.noticed_reads(91), None);
    assert_eq!(card.switch(false), (0, None));
    // A flag stays though its set is cleared.
    assert_eq!(card.give(&log(SET_PAGE, false, 128, 0), &[]).0, 0);
    assert_eq!((card.listed(), card.switch(true)), (0, (0, Some((3, DWORD0)))));
    assert_eq!(card.notices(), state(true, true, false, &[2]));
}

#[test]
fn only_a_read_of_0bh_without_retain_lifts_and_it_sends_nothing() {
    let mut card = Card::in_d();
    card.switch(true);
    card.request(1);
    card.request(2);
    assert_eq!(card.noticed_reads(91), Some((1, DWORD0)));
    assert_eq!(card.give(&log(SET_PAGE, false, 128, 0), &[]).0, 0);
    assert_eq!(card.noticed_reads(10), None);
    assert_eq!(card.notices(), state(true, true, true, &[2]));
    card.look(true);
    assert_eq!(card.noticed(&log(LIST_PAGE, false, 35, 0)), (status::TOO_SHORT, None));
    assert_eq!(card.notices(), state(true, true, true, &[2]));
    assert_eq!((card.switch(false), card.switch(true)), ((0, None), (0, None)));
    assert_eq!(card.notices(), state(true, true, true, &[2]));
    assert_eq!(card.noticed(&log(LIST_PAGE, false, 1, 136)), (status::SUCCESS, None));
    assert_eq!((card.notices(), card.set().listed), (state(true, false, false, &[2]), true));
}

#[test]
fn feature_0bh_has_one_bit_and_names_no_set() {
    let mut card = Card::new();
    let get = |select: u32| command(GET_FEATURES, [u32::from(EVENT_NOTICES) | select << 8, 8, 0, 0]);
    let set = |bits: u32| command(SET_FEATURES, [EVENT_NOTICES.into(), bits, 0, 0]);
    assert_eq!(card.give(&get(0), &[]), (0, 0, vec![]));
    assert_eq!(card.give(&set(0xFFFF_FFFF), &[]), (0, 0, vec![]));
    assert_eq!(card.give(&get(0), &[]), (0, 0x1000, vec![]));
    assert_eq!(card.give(&set(0xFFFF_EFFF), &[]), (0, 0, vec![]));
    assert_eq!(card.give(&get(0), &[]), (0, 0, vec![]));
    assert_eq!(card.give(&get(1), &[]), (status::INVALID_FIELD, 0, vec![]));
    let save = command(SET_FEATURES, [u32::from(EVENT_NOTICES) | 1 << 31, 0x1000, 0, 0]);
    assert_eq!(card.give(&save, &[]), (status::NOT_SAVEABLE, 0, vec![]));
}

#[test]
fn a_tick_that_lists_two_sets_gives_one_notice() {
    let mut table = vec![0; table_bytes(2)];
    assert_eq!(card::set_up(&mut table, &[body(), body_of(9)].concat()), status::SUCCESS);
    let mut card = Card(table);
    card.switch(true);
    card.request(1);
    card.request(2);
    for set in [7, 9] {
        let enable = command(SET_FEATURES, [CONFIGURATION.into(), set, 1, 0]);
        assert_eq!(card.give(&enable, &configuration(0x4000, [0; 3])).0, status::SUCCESS);
    }
    card.tick(20);
    for set in [7, 9] {
        assert_eq!(card.noticed(&command(SET_FEATURES, [WINDOW.into(), set, 1, 0])), (status::SUCCESS, None));
    }
    let mut reply = [0xEE; 16];
    assert_eq!(card::tick(&mut card.0, 1000, &mut [], &mut reply), status::SUCCESS);
    assert_eq!(notice_in(&reply), Some((1, DWORD0)));
    assert_eq!((card.notices(), card.listed()), (state(true, true, false, &[2]), 2));
}

#[test]
fn a_select_d_that_warns_gives_a_notice() {
    let mut card = Card::new();
    card.enable(0x0001, [101, 0, 0]);
    card.tick(20);
    card.switch(true);
    card.request(0xABCD);
    assert_eq!(card.noticed(&select_d()), (status::SUCCESS, Some((0xABCD, DWORD0))));
}

/// 02: "Legal: at most four waiting, and no flag that could be served at once."
#[test]
fn a_flag_that_could_be_served_is_not_legal() {
    use header::*;
    let is_legal = |words: &[(usize, u64)]| {
        let mut table = Card::new().0;
        words.iter().for_each(|&(place, word)| put_word(&mut table, place, word));
        read_table(&table).is_some()
    };
    assert!(!is_legal(&[(ON, 1), (FLAG, 1), (WAITING, 1)]));
    assert!(is_legal(&[(ON, 1), (FLAG, 1)]));
    assert!(is_legal(&[(FLAG, 1), (WAITING, 1)]));
    assert!(is_legal(&[(ON, 1), (MASKED, 1), (FLAG, 1), (WAITING, 4)]));
    assert!(!is_legal(&[(WAITING, 5)]));
    assert!(!is_legal(&[(WAITING, 1), (REQUESTS + 1, 1)]));
    assert!(!is_legal(&[(WAITING, 1), (REQUESTS, 0x1_0000)]));
    assert!(!is_legal(&[(ON, 2)]));
}

#[test]
fn replay_adds_a_line_for_the_notice() {
    let mut file = whole_run_file();
    let at = set_up_file().len();
    let on = command(SET_FEATURES, [EVENT_NOTICES.into(), 1 << 12, 0, 0]);
    let first = [&[tape::COMMAND][..], &on, &[tape::COMMAND], &request(0x00A5)].concat();
    file.splice(at..at, first);
    let expected = "sets 1 0000\n0000 00000000\n07C8 00000000\n0000 00000000\n0000 00000000\n0000 00000000\n0000 00000000\n\
                    00A5 000B0402\n0000 00000000 010000000000000007000000\n0000 00000000\n0000 00000002\n07C1 00000000\nend 10\n";
    assert_eq!(printout(&file), expected);
}

/// A card of sets like that of the run.
fn card_of(sets: &[u16]) -> Card {
    let mut table = vec![0xA5; table_bytes(sets.len())];
    assert_eq!(card::set_up(&mut table, &bodies_of(sets)), status::SUCCESS);
    Card(table)
}

fn bodies_of(sets: &[u16]) -> Vec<u8> {
    sets.iter().flat_map(|&set| body_of(set)).collect()
}

/// 10, 20 and so on.
fn tens(number: u16) -> Vec<u16> {
    (1..=number).map(|place| 10 * place).collect()
}

/// 02: "Raise the limit to 64."; "Set-up refuses 65 with 07C4h.", also where the table is too short.
#[test]
fn set_up_takes_64_sets_and_refuses_65() {
    assert_eq!(table_bytes(64), 12_880);
    let set_up = |sets: u16, length: usize| card::set_up(&mut vec![0xA5; length], &bodies_of(&tens(sets)));
    assert_eq!((set_up(64, 12_880), set_up(64, 12_879)), (0x0000, 0x07C2));
    let mut table = vec![0xA5; 20_000];
    assert_eq!(card::set_up(&mut table, &bodies_of(&tens(65))), 0x07C4);
    assert_eq!(table, [0xA5; 20_000]);
    assert_eq!((set_up(65, 0), set_up(66, 20_000), set_up(200, 40_000)), (0x07C4, 0x07C4, 0x07C4));
}

#[test]
fn a_table_of_64_sets_is_legal_and_one_of_65_is_not() {
    let mut table = card_of(&tens(64)).0;
    assert_eq!(read_table(&table).expect("the table is legal").sets.len(), 64);
    // A 65th row like the others, and room for it.
    table.extend_from_within(12_880 - 200..);
    put_word(&mut table[12_880..], 0, 650);
    assert!(read_table(&table).is_some());
    put_word(&mut table, header::SETS, 65);
    assert!(read_table(&table).is_none());
}

/// 02: "Page 0Bh becomes 136 bytes.": of 64 sets all may be listed, and the last entry ends the page.
#[test]
fn page_0bh_has_136_bytes() {
    let mut card = card_of(&tens(64));
    for set in tens(64) {
        let enable = command(SET_FEATURES, [CONFIGURATION.into(), set.into(), 1, 0]);
        assert_eq!(card.give(&enable, &configuration(0x8000, [0; 3])).0, status::SUCCESS);
    }
    card.tick(20);
    for set in tens(64) {
        assert_eq!(card.give(&command(SET_FEATURES, [WINDOW.into(), set.into(), 1, 0]), &[]).0, status::SUCCESS);
        assert_eq!(card::excursion(&mut card.0, set, &mut []), status::SUCCESS);
    }
    let mut page = vec![64, 0, 0, 0, 0, 0, 0, 0];
    page.extend(tens(64).iter().flat_map(|set| set.to_le_bytes()));
    assert_eq!(page.len(), 136);
    let mut look = |dwords: u32, offset: u32| card.give(&log(LIST_PAGE, true, dwords, offset), &[]);
    assert_eq!(look(34, 0), (status::SUCCESS, 0, page.clone()));
    // The entries of slots 32 and 33 lie where the page of 31 sets ended, those of 62 and 63 at the end of this one.
    assert_eq!(look(1, 72).2, [330u16.to_le_bytes(), 340u16.to_le_bytes()].concat());
    assert_eq!(look(2, 132).2, [&630u16.to_le_bytes()[..], &640u16.to_le_bytes(), &[0; 4]].concat());
    page.extend([0; 4]);
    assert_eq!(look(35, 0).2, page);
    assert_eq!(look(1, 136), (status::SUCCESS, 0, vec![0; 4]));
    assert_eq!(look(1, 140), (status::INVALID_FIELD, 0, vec![]));
}

/// 02: "so the host asks again from the last identifier plus one; [...] until a count below 31, or a last identifier of 65,535".
/// The count of each answer, and the identifiers of all one after the other.
fn ask(card: &mut Card, start: u16) -> (Vec<u8>, Vec<u16>) {
    let (mut counts, mut identifiers, mut from) = (Vec::new(), Vec::new(), start);
    loop {
        let page = card.give(&command(IDENTIFY, [SET_LIST.into(), from.into(), 0, 0]), &[]).2;
        let entries = &page[128..128 * (1 + usize::from(page[0]))];
        identifiers.extend(entries.chunks_exact(128).map(|entry| little_endian(&entry[0..2]) as u16));
        counts.push(page[0]);
        match identifiers.last() {
            Some(&last) if page[0] == 31 && last < 65_535 => from = last + 1,
            _ => return (counts, identifiers),
        }
    }
}

#[test]
fn asking_again_gives_each_set_once() {
    let cases: [(u16, &[u8]); 9] = [
        (1, &[1]),
        (30, &[30]),
        (31, &[31, 0]),
        (32, &[31, 1]),
        (40, &[31, 9]),
        (61, &[31, 30]),
        (62, &[31, 31, 0]),
        (63, &[31, 31, 1]),
        (64, &[31, 31, 2]),
    ];
    for (sets, counts) in cases {
        let all = tens(sets);
        let mut card = card_of(&all);
        for start in [0, 1, 10] {
            assert_eq!(ask(&mut card, start), (counts.to_vec(), all.clone()));
        }
    }
    // From elsewhere: 33 sets are at or above 311, 31 above 330, and 30 above 340.
    let mut card = card_of(&tens(64));
    let from = |place: usize| tens(64)[place..].to_vec();
    assert_eq!(ask(&mut card, 311), (vec![31, 2], from(31)));
    assert_eq!(ask(&mut card, 331), (vec![31, 0], from(33)));
    assert_eq!(ask(&mut card, 341), (vec![30], from(34)));
    assert_eq!(ask(&mut card, 641), (vec![0], vec![]));
}

#[test]
fn a_last_identifier_of_65535_ends_the_asking() {
    for (sets, counts) in [(1, &[1][..]), (31, &[31]), (32, &[31, 1]), (62, &[31, 31]), (63, &[31, 31, 1]), (64, &[31, 31, 2])] {
        let all: Vec<u16> = (0..sets).map(|place| 65_535 - 2 * (sets - 1 - place)).collect();
        assert_eq!(ask(&mut card_of(&all), 0), (counts.to_vec(), all));
    }
}

/// "sets N SSSS" has the number of bodies, however many they are.
#[test]
fn replay_counts_all_bodies() {
    for (sets, expected) in [(64, "sets 64 0000\nend 0\n"), (65, "sets 65 07C4\n"), (100, "sets 100 07C4\n")] {
        let file: Vec<u8> = tens(sets).iter().flat_map(|&set| [vec![tape::SET_ATTRIBUTES], body_of(set)].concat()).collect();
        assert_eq!(printout(&file), expected);
    }
}

/// The ways to leave D before the time is up.
const EARLY_EXITS: [fn(&mut Card); 4] = [
    |card| assert_eq!(card.give(&select_n(), &[]).0, status::SUCCESS),
    |card| assert_eq!(card::excursion(&mut card.0, 7, &mut []), status::SUCCESS),
    |card| card.reads(101),
    |card| assert_eq!(card::writes(&mut card.0, 7, 51, &mut []), status::SUCCESS),
];

/// In N with the need of a window of so many ms, left by a select N.
fn in_n_after(s: u32) -> Card {
    let mut card = Card::in_d();
    card.tick(s);
    EARLY_EXITS[0](&mut card);
    card
}

fn is_in_n(card: &Card, need: u64, n_time: u64) -> bool {
    let set = card.set();
    (set.window, set.need, set.n_time, set.charges) == (Window::N, need, n_time, [0; 3])
}

/// 02: "The need after a window of s ms is low + (high - low) x s / maximum, rounded up [...]. With high 20, low 5, maximum 1000:
/// s = 400 needs 11, s = 401 needs 12." A window of no time needs low, and one of 999 ms 5 + 14.985, thus 20. However D is left, a
/// ms before the need is too early.
#[test]
fn the_need_of_a_window_left_early() {
    for (s, need) in [(0, 5), (1, 6), (66, 6), (67, 7), (400, 11), (401, 12), (933, 19), (934, 20), (999, 20)] {
        for leave in EARLY_EXITS {
            let mut card = Card::in_d();
            card.tick(s);
            leave(&mut card);
            assert!(is_in_n(&card, need, 0));
            card.tick(need as u32 - 1);
            assert_eq!(card.give(&select_d(), &[]), (status::TOO_EARLY, 0, vec![]));
            assert!(is_in_n(&card, need, need - 1));
            card.tick(1);
            assert_eq!(card.give(&select_d(), &[]), (status::SUCCESS, 0, vec![]));
            assert_eq!((card.set().window, card.set().need, card.set().n_time), (Window::D, 0, 0));
        }
    }
}

/// 02: "Time up counts s as maximum.", whatever was spent before the tick; and the excess "stops at the need".
#[test]
fn the_need_of_a_full_window() {
    for (before, last, n_time) in
        [(0, 1000, 0), (400, 600, 0), (999, 1, 0), (0, 1007, 7), (400, 619, 19), (400, 620, 20), (400, 5000, 20)]
    {
        let mut card = Card::in_d();
        card.tick(before);
        card.tick(last);
        assert!(is_in_n(&card, 20, n_time));
        let number = if n_time == 20 { status::SUCCESS } else { status::TOO_EARLY };
        assert_eq!(card.give(&select_d(), &[]).0, number);
    }
}

/// 02: "after enabling it is high": from off, from D whatever its time, and from N, where a lower need was nearly spent.
#[test]
fn the_need_after_enabling() {
    let mut card = Card::new();
    assert_eq!((card.set().need, card.set().n_time), (0, 0));
    card.enable(0, [0; 3]);
    assert!(is_in_n(&card, 20, 0));
    let mut card = Card::in_d();
    card.tick(400);
    card.enable(0, [0; 3]);
    assert!(is_in_n(&card, 20, 0));
    let mut card = in_n_after(400);
    card.tick(10);
    card.enable(0, [0; 3]);
    assert!(is_in_n(&card, 20, 0));
    card.tick(19);
    card.enable(0, [0; 3]);
    assert!(is_in_n(&card, 20, 0));
}

/// 01: "Selecting the window already held succeeds and changes nothing". Nor does any other item that is given in N change the
/// need, but disabling.
#[test]
fn what_keeps_the_need() {
    let mut card = in_n_after(400);
    card.tick(4);
    let before = card.0.clone();
    for leave in EARLY_EXITS {
        leave(&mut card);
    }
    assert_eq!(card.give(&select_d(), &[]).0, status::TOO_EARLY);
    card.give(&log(SET_PAGE, true, 128, 0), &[]);
    assert_eq!(card.0, before);
    card.tick(6);
    assert!(is_in_n(&card, 11, 10));
    card.tick(86_400_000);
    assert!(is_in_n(&card, 11, 11));
    assert_eq!(card.give(&select_n(), &[]).0, status::SUCCESS);
    assert!(is_in_n(&card, 11, 11));
    let disable = command(SET_FEATURES, [CONFIGURATION.into(), 7, 0, 0]);
    assert_eq!(card.give(&disable, &configuration(0, [0; 3])).0, status::SUCCESS);
    assert_eq!((card.set().window, card.set().need, card.set().n_time), (Window::Off, 0, 0));
}

/// The need of a short window is not kept for the next: 400 ms, then none, then a full one.
#[test]
fn each_window_has_a_need_of_its_own() {
    let mut card = in_n_after(400);
    assert!(is_in_n(&card, 11, 0));
    for (s, need) in [(0, 5), (1000, 20), (401, 12)] {
        card.tick(20);
        assert_eq!(card.give(&select_d(), &[]).0, status::SUCCESS);
        card.tick(s);
        if s < 1000 {
            EARLY_EXITS[1](&mut card);
        }
        assert!(is_in_n(&card, need, 0));
    }
}

/// 02: "the estimates in N wait for the need": 0 until then, then typical or maximum.
#[test]
fn estimates_wait_for_the_need() {
    let mut card = in_n_after(401);
    let estimates = |card: &mut Card| {
        let page = card.give(&log(SET_PAGE, true, 128, 0), &[]).2;
        [128, 136, 144].map(|at| little_endian(&page[at..at + 8]))
    };
    assert_eq!(estimates(&mut card), [0; 3]);
    card.tick(11);
    assert_eq!(estimates(&mut card), [0; 3]);
    card.tick(1);
    assert_eq!(estimates(&mut card), [100, 50, 1000]);
    card.enable(0, [0; 3]);
    card.tick(19);
    assert_eq!(estimates(&mut card), [0; 3]);
    card.tick(1);
    assert_eq!(estimates(&mut card), [100, 50, 1000]);
}

/// What a set with these times needs that leaves D after s ms.
fn need(maximum: u64, high: u64, low: u64, s: u64) -> u64 {
    let mut attributes = read_body(body()[..].try_into().expect("a body has its length"));
    (attributes.time_maximum, attributes.minimum_high, attributes.minimum_low) = (maximum, high, low);
    let mut set = Set::new(attributes);
    set.window = Window::D;
    set.charges[Quantity::Time as usize] = s;
    assert!(set.is_legal());
    set.select_n();
    assert!(set.is_legal() && QUANTITIES.iter().all(|&quantity| set.estimate(quantity) == 0));
    set.need
}

/// "rounded up": the least n from low on with (n - low) x maximum at or above (high - low) x s, looked for one by one.
#[test]
fn the_need_is_rounded_up() {
    for maximum in 1..=13 {
        for high in 1..=9 {
            for low in 1..=high {
                for s in 0..maximum {
                    let least = (low..=high).find(|n| (n - low) * maximum >= (high - low) * s);
                    assert_eq!(Some(need(maximum, high, low, s)), least);
                }
            }
        }
    }
}

/// The largest times: (high - low) x s has 53 bits. 43,200,001 x 86,399,999 / 86,400,000 is 43,200,000.5, less a little.
#[test]
fn the_need_of_long_windows() {
    assert_eq!(need(DAY, DAY, DAY, DAY - 1), 86_400_000);
    assert_eq!(need(DAY, DAY, 1, 0), 1);
    assert_eq!(need(DAY, DAY, 1, 1), 2);
    assert_eq!(need(DAY, DAY, 1, 43_200_001), 43_200_002);
    assert_eq!(need(DAY, DAY, 1, DAY - 1), 86_400_000);
    assert_eq!(need(DAY - 1, DAY, 1, 43_200_001), 43_200_002);
    assert_eq!(need(DAY, 20, 5, 1), 6);
}

/// 02: "Legal: need from low to high in N, else 0; N time at most need."
#[test]
fn needs_that_are_legal() {
    use field::{NEED, N_TIME};
    let is_legal = |card: &Card, words: &[(usize, u64)]| {
        let mut table = card.0.clone();
        words.iter().for_each(|&(field, word)| put_word(&mut table[HEADER_BYTES..], field, word));
        read_table(&table).is_some()
    };
    let card = in_n_after(400);
    assert!((5..=20).all(|need| is_legal(&card, &[(NEED, need)]) && is_legal(&card, &[(NEED, need), (N_TIME, need)])));
    assert!(![0, 1, 4, 21, 1000, 1 << 32 | 11, u64::MAX].iter().any(|&need| is_legal(&card, &[(NEED, need)])));
    assert!((5..20).all(|need| !is_legal(&card, &[(NEED, need), (N_TIME, need + 1)])));
    assert!(!is_legal(&card, &[(NEED, 11), (N_TIME, 20)]));
    for outside in [Card::new(), Card::in_d()] {
        assert!(is_legal(&outside, &[]));
        assert!(![1, 5, 20].iter().any(|&need| is_legal(&outside, &[(NEED, need)])));
    }
}
