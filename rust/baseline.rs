//! The card's functions as firmware would have them in Rust: in place on the table's bytes, with the model's checks and effects and
//! no allocation. The measure for speed.

use model::commands::{
    ASYNCHRONOUS_EVENT_REQUEST, COMMAND_BYTES, CONFIGURATION, EVENT_NOTICES, GET_FEATURES, GET_LOG_PAGE, IDENTIFY, LIST_PAGE,
    SET_FEATURES, SET_LIST, SET_PAGE, WINDOW,
};
use model::layout::{BODY_BYTES, LAYOUT_NUMBER, MAX_SETS};
use model::notices::NOTICE_DWORD0;
use model::status;
use trials::entries::Entries;

pub const ENTRIES: Entries = Entries { set_up, command, reads, writes, excursion, tick };

const HEADER_BYTES: usize = 80;
const ROW_BYTES: usize = 200;
const CONFIGURATION_BYTES: usize = 512;
const SET_PAGE_BYTES: usize = 512;
/// Of page 0Ah, all after these bytes is zero.
const SET_PAGE_USED: usize = 152;
const LIST_PAGE_BYTES: usize = 136;
const IDENTIFY_BYTES: usize = 4096;

const TYPICAL_MAX: u64 = u32::MAX as u64;
const DAY: u64 = 86_400_000;
const EVENT_MASK: u64 = 0xC007;
const EXCEEDED: u64 = 1 << 14;
const EXCURSION: u64 = 1 << 15;

// Words of the header.
const LAYOUT: usize = 0;
const SETS: usize = 1;
const ON: usize = 2;
const MASKED: usize = 3;
const FLAG: usize = 4;
const WAITING: usize = 5;
const REQUESTS: usize = 6;
const MAX_WAITING: usize = 4;

// Words of a row.
const IDENTIFIER: usize = 0;
const GROUP: usize = 1;
const RANDOM_READ_TYPICAL: usize = 2;
const OPTIMAL_WRITE_SIZE: usize = 3;
const TOTAL: usize = 4;
const UNALLOCATED: usize = 6;
const READS_TYPICAL: usize = 8;
const WRITES_TYPICAL: usize = 9;
const TIME_MAXIMUM: usize = 10;
const MINIMUM_HIGH: usize = 11;
const MINIMUM_LOW: usize = 12;
const ENEV: usize = 13;
const THRESHOLDS: usize = 14;
const WINDOW_WORD: usize = 17;
const CHARGES: usize = 18;
const N_TIME: usize = 21;
const NEED: usize = 22;
const EVENTS: usize = 23;
const LISTED: usize = 24;

// The window that a row holds.
const OFF: u64 = 0;
const D: u64 = 1;
const N: u64 = 2;

type Header = [u8; HEADER_BYTES];
type Row = [u8; ROW_BYTES];

/// The request that a call completes.
type Notice = Option<u16>;

/// What a command that is carried out answers.
struct Answer {
    status: u16,
    dword0: u32,
    length: usize,
    notice: Notice,
}

/// That, or the number that it is refused with.
type Outcome = Result<Answer, u16>;

/// A success with dword 0, data of this length, and perhaps a notice.
fn success(dword0: u32, length: usize, notice: Notice) -> Outcome {
    Ok(Answer { status: status::SUCCESS, dword0, length, notice })
}

#[inline(always)]
fn u16_at(bytes: &[u8], at: usize) -> u16 {
    u16::from_le_bytes([bytes[at], bytes[at + 1]])
}

#[inline(always)]
fn u32_at(bytes: &[u8], at: usize) -> u32 {
    u32::from_le_bytes(bytes[at..at + 4].try_into().unwrap())
}

#[inline(always)]
fn u64_at(bytes: &[u8], at: usize) -> u64 {
    u64::from_le_bytes(bytes[at..at + 8].try_into().unwrap())
}

/// A word of the header or of a row.
#[inline(always)]
fn get<const N: usize>(words: &[u8; N], word: usize) -> u64 {
    u64_at(words, 8 * word)
}

#[inline(always)]
fn put<const N: usize>(words: &mut [u8; N], word: usize, value: u64) {
    words[8 * word..8 * word + 8].copy_from_slice(&value.to_le_bytes());
}

#[inline(always)]
fn rows(rows: &[u8]) -> impl Iterator<Item = &Row> {
    rows.chunks_exact(ROW_BYTES).map(|row| row.try_into().unwrap())
}

#[inline(always)]
fn rows_mut(rows: &mut [u8]) -> impl Iterator<Item = &mut Row> {
    rows.chunks_exact_mut(ROW_BYTES).map(|row| row.try_into().unwrap())
}

/// The header and the rows of a legal table.
fn legal_parts(table: &mut [u8]) -> Result<(&mut Header, &mut [u8]), u16> {
    if table.len() < HEADER_BYTES {
        return Err(status::BAD_TABLE);
    }
    let (header, rest) = table.split_at_mut(HEADER_BYTES);
    let header: &mut Header = header.try_into().unwrap();
    let sets = get(header, SETS);
    if get(header, LAYOUT) != LAYOUT_NUMBER || sets == 0 || sets > MAX_SETS as u64 || !are_notices_legal(header) {
        return Err(status::BAD_TABLE);
    }
    let all = rest.get_mut(..ROW_BYTES * sets as usize).ok_or(status::BAD_TABLE)?;
    let mut previous = 0;
    for row in rows(all) {
        let identifier = get(row, IDENTIFIER);
        if identifier <= previous || !is_legal(row) {
            return Err(status::BAD_TABLE);
        }
        previous = identifier;
    }
    Ok((header, all))
}

#[inline(always)]
fn are_notices_legal(header: &Header) -> bool {
    let waiting = get(header, WAITING);
    let request_max = |place: usize| if (place as u64) < waiting { 0xFFFF } else { 0 };
    get(header, ON) | get(header, MASKED) | get(header, FLAG) <= 1
        && waiting <= MAX_WAITING as u64
        && (0..MAX_WAITING).all(|place| get(header, REQUESTS + place) <= request_max(place))
        && !(get(header, FLAG) == 1 && can_send(header))
}

#[inline(always)]
fn can_send(header: &Header) -> bool {
    get(header, ON) == 1 && get(header, MASKED) == 0 && get(header, WAITING) > 0
}

/// Sends the notice that an item owes, if it owes one, or remembers it.
#[inline(always)]
fn settle(header: &mut Header, is_owed: bool) -> Notice {
    if !is_owed {
        return None;
    }
    if !can_send(header) {
        put(header, FLAG, 1);
        return None;
    }
    let oldest = get(header, REQUESTS) as u16;
    header.copy_within(8 * (REQUESTS + 1).., 8 * REQUESTS);
    put(header, REQUESTS + MAX_WAITING - 1, 0);
    put(header, WAITING, get(header, WAITING) - 1);
    put(header, MASKED, 1);
    put(header, FLAG, 0);
    Some(oldest)
}

/// Whether a row is legal; that its identifier is not 0 follows from the order.
#[inline(always)]
fn is_legal(row: &Row) -> bool {
    let window = get(row, WINDOW_WORD);
    let in_d = window == D;
    let events = get(row, EVENTS);
    let listed = get(row, LISTED);
    let bound = |word: usize| if in_d { get(row, word) } else { 0 };
    let n_bound = |word: usize| if window == N { get(row, word) } else { 0 };
    let need = get(row, NEED);
    get(row, IDENTIFIER) <= 0xFFFF
        && is_from_one(get(row, GROUP), 0xFFFF)
        && (get(row, RANDOM_READ_TYPICAL) | get(row, OPTIMAL_WRITE_SIZE)) >> 32 == 0
        && u128_at(row, UNALLOCATED) <= u128_at(row, TOTAL)
        && is_from_one(get(row, READS_TYPICAL), TYPICAL_MAX)
        && is_from_one(get(row, WRITES_TYPICAL), TYPICAL_MAX)
        && is_from_one(get(row, TIME_MAXIMUM), DAY)
        && is_from_one(get(row, MINIMUM_HIGH), DAY)
        && is_from_one(get(row, MINIMUM_LOW), get(row, MINIMUM_HIGH))
        && window <= N
        && (get(row, ENEV) | events) & !EVENT_MASK == 0
        && get(row, CHARGES) <= bound(READS_TYPICAL)
        && get(row, CHARGES + 1) <= bound(WRITES_TYPICAL)
        && get(row, CHARGES + 2) < bound(TIME_MAXIMUM) + u64::from(!in_d)
        && get(row, N_TIME) <= need
        && need >= n_bound(MINIMUM_LOW)
        && need <= n_bound(MINIMUM_HIGH)
        && listed <= u64::from(events != 0)
}

#[inline(always)]
fn is_from_one(value: u64, last: u64) -> bool {
    value.wrapping_sub(1) < last
}

#[inline(always)]
fn u128_at(row: &Row, word: usize) -> u128 {
    u128::from_le_bytes(row[8 * word..8 * word + 16].try_into().unwrap())
}

/// The row of a set.
#[inline(always)]
fn find(all: &mut [u8], set: u16) -> Option<&mut Row> {
    rows_mut(all).find(|row| get(row, IDENTIFIER) == u64::from(set))
}

fn set_up(table: &mut [u8], bodies: &[u8]) -> u16 {
    let sets = bodies.len() / BODY_BYTES;
    if bodies.len() % BODY_BYTES != 0 || sets == 0 || sets > MAX_SETS {
        return status::BAD_SET_UP;
    }
    let mut previous = 0;
    for body in bodies.chunks_exact(BODY_BYTES) {
        let body: &[u8; BODY_BYTES] = body.try_into().unwrap();
        let identifier = u16_at(body, 0);
        if identifier <= previous || !is_body_legal(body) {
            return status::BAD_SET_UP;
        }
        previous = identifier;
    }
    let table = match table.get_mut(..HEADER_BYTES + ROW_BYTES * sets) {
        None => return status::TOO_SHORT,
        Some(table) => table,
    };
    let (header, all) = table.split_at_mut(HEADER_BYTES);
    let header: &mut Header = header.try_into().unwrap();
    header.fill(0);
    put(header, LAYOUT, LAYOUT_NUMBER);
    put(header, SETS, sets as u64);
    for (row, body) in rows_mut(all).zip(bodies.chunks_exact(BODY_BYTES)) {
        fill_row(row, body.try_into().unwrap());
    }
    status::SUCCESS
}

#[inline(always)]
fn is_body_legal(body: &[u8; BODY_BYTES]) -> bool {
    let total = u128::from_le_bytes(body[12..28].try_into().unwrap());
    let unallocated = u128::from_le_bytes(body[28..44].try_into().unwrap());
    u16_at(body, 2) != 0
        && unallocated <= total
        && is_from_one(u64_at(body, 44), TYPICAL_MAX)
        && is_from_one(u64_at(body, 52), TYPICAL_MAX)
        && is_from_one(u64_at(body, 60), DAY)
        && is_from_one(u64_at(body, 68), DAY)
        && is_from_one(u64_at(body, 76), u64_at(body, 68))
}

fn fill_row(row: &mut Row, body: &[u8; BODY_BYTES]) {
    put(row, IDENTIFIER, u16_at(body, 0).into());
    put(row, GROUP, u16_at(body, 2).into());
    put(row, RANDOM_READ_TYPICAL, u32_at(body, 4).into());
    put(row, OPTIMAL_WRITE_SIZE, u32_at(body, 8).into());
    // Capacities, typicals and times stand in the row as they stand in the body.
    row[8 * TOTAL..8 * ENEV].copy_from_slice(&body[12..]);
    row[8 * ENEV..].fill(0);
}

fn reads(table: &mut [u8], set: u16, count: u16, reply: &mut [u8]) -> u16 {
    media_event(table, set, |row| count_in_d(row, 0, count), reply)
}

fn writes(table: &mut [u8], set: u16, count: u16, reply: &mut [u8]) -> u16 {
    media_event(table, set, |row| count_in_d(row, 1, count), reply)
}

fn excursion(table: &mut [u8], set: u16, reply: &mut [u8]) -> u16 {
    let rule = |row: &mut Row| {
        if get(row, WINDOW_WORD) != D {
            return false;
        }
        leave_early(row);
        note(row, EXCURSION)
    };
    media_event(table, set, rule, reply)
}

fn tick(table: &mut [u8], milliseconds: u32, _answer: &mut [u8], reply: &mut [u8]) -> u16 {
    told(ticked(table, milliseconds.into()), reply)
}

fn ticked(table: &mut [u8], milliseconds: u64) -> Outcome {
    let (header, all) = legal_parts(table)?;
    if milliseconds > DAY {
        return Err(status::LONG_TICK);
    }
    let mut has_listed = false;
    for row in rows_mut(all) {
        match get(row, WINDOW_WORD) {
            D => has_listed |= tick_in_d(row, milliseconds),
            N => pass_n_time(row, get(row, N_TIME) + milliseconds),
            _ => (),
        }
    }
    success(0, 0, settle(header, has_listed))
}

/// The rule answers whether it has listed a set that was not listed.
#[inline(always)]
fn media_event(table: &mut [u8], set: u16, rule: impl FnOnce(&mut Row) -> bool, reply: &mut [u8]) -> u16 {
    told(charged(table, set, rule), reply)
}

#[inline(always)]
fn charged(table: &mut [u8], set: u16, rule: impl FnOnce(&mut Row) -> bool) -> Outcome {
    let (header, all) = legal_parts(table)?;
    let row = find(all, set).ok_or(status::UNKNOWN_SET)?;
    let has_listed = rule(row);
    success(0, 0, settle(header, has_listed))
}

/// Charges reads (0) or writes (1).
#[inline(always)]
fn count_in_d(row: &mut Row, quantity: usize, count: u16) -> bool {
    if get(row, WINDOW_WORD) != D {
        return false;
    }
    let sum = get(row, CHARGES + quantity) + u64::from(count);
    let warning = charge(row, quantity, sum);
    if sum > get(row, READS_TYPICAL + quantity) {
        leave_early(row);
        note(row, warning | EXCEEDED)
    } else {
        note(row, warning)
    }
}

#[inline(always)]
fn tick_in_d(row: &mut Row, milliseconds: u64) -> bool {
    let sum = get(row, CHARGES + 2) + milliseconds;
    let maximum = get(row, TIME_MAXIMUM);
    let warning = charge(row, 2, sum);
    if sum >= maximum {
        enter(row, N, get(row, MINIMUM_HIGH));
        pass_n_time(row, sum - maximum);
        note(row, warning | EXCEEDED)
    } else {
        note(row, warning)
    }
}

/// Stores a charge in D and answers its warning, if enabled.
#[inline(always)]
fn charge(row: &mut Row, quantity: usize, sum: u64) -> u64 {
    let limit = get(row, READS_TYPICAL + quantity);
    let threshold = get(row, THRESHOLDS + quantity);
    let before = limit - get(row, CHARGES + quantity);
    let after = limit.saturating_sub(sum);
    put(row, CHARGES + quantity, sum);
    let fell = before >= threshold && after < threshold;
    u64::from(fell) << quantity & get(row, ENEV)
}

#[inline(always)]
fn pass_n_time(row: &mut Row, n_time: u64) {
    put(row, N_TIME, n_time.min(get(row, NEED)));
}

/// From D to N before the time is up: the set needs as much of the way from low to high as it has spent of its time, rounded up.
/// The product is far below 64 bits, since each time is at most a day.
#[inline(always)]
fn leave_early(row: &mut Row) {
    let (low, maximum) = (get(row, MINIMUM_LOW), get(row, TIME_MAXIMUM));
    let way = (get(row, MINIMUM_HIGH) - low) * get(row, CHARGES + 2);
    enter(row, N, low + (way + maximum - 1) / maximum);
}

#[inline(always)]
fn enter(row: &mut Row, window: u64, need: u64) {
    put(row, WINDOW_WORD, window);
    row[8 * CHARGES..8 * NEED].fill(0);
    put(row, NEED, need);
}

/// Writes an item's events, and answers whether they have listed a set that was not listed.
#[inline(always)]
fn note(row: &mut Row, events: u64) -> bool {
    if events == 0 {
        return false;
    }
    let listed = get(row, LISTED);
    let lists = u64::from(events & get(row, ENEV) != 0);
    put(row, EVENTS, get(row, EVENTS) | events);
    put(row, LISTED, listed | lists);
    lists > listed
}

fn command(table: &mut [u8], command: &[u8], data: &[u8], answer: &mut [u8], reply: &mut [u8]) -> u16 {
    told(carry_out(table, command, data, answer), reply)
}

/// Writes the reply of a call, and answers its status.
#[inline(always)]
fn told(outcome: Outcome, reply: &mut [u8]) -> u16 {
    let Answer { status, dword0, length, notice } =
        outcome.unwrap_or_else(|status| Answer { status, dword0: 0, length: 0, notice: None });
    let mut bytes = [0; 16];
    bytes[0..4].copy_from_slice(&dword0.to_le_bytes());
    bytes[4..8].copy_from_slice(&(length as u32).to_le_bytes());
    if let Some(identifier) = notice {
        bytes[8] = 1;
        bytes[10..12].copy_from_slice(&identifier.to_le_bytes());
        bytes[12..16].copy_from_slice(&NOTICE_DWORD0.to_le_bytes());
    }
    if let Some(whole) = reply.get_mut(..16) {
        whole.copy_from_slice(&bytes);
    } else {
        let reach = reply.len();
        reply.copy_from_slice(&bytes[..reach]);
    }
    status
}

fn carry_out(table: &mut [u8], command: &[u8], data: &[u8], answer: &mut [u8]) -> Outcome {
    let (header, all) = legal_parts(table)?;
    let command: &[u8; COMMAND_BYTES] = command.try_into().map_err(|_| status::BAD_COMMAND)?;
    match command[0] {
        GET_LOG_PAGE => get_log_page(header, all, command, answer),
        IDENTIFY => identify(all, command, answer),
        SET_FEATURES => set_features(header, all, command, data),
        GET_FEATURES => get_features(header, all, command, answer),
        ASYNCHRONOUS_EVENT_REQUEST => event_request(header, u16_at(command, 2)),
        _ => Err(status::INVALID_OPCODE),
    }
}

fn event_request(header: &mut Header, identifier: u16) -> Outcome {
    let waiting = get(header, WAITING);
    if waiting == MAX_WAITING as u64 {
        return Err(status::TOO_MANY_REQUESTS);
    }
    put(header, REQUESTS + waiting as usize, identifier.into());
    put(header, WAITING, waiting + 1);
    let is_owed = get(header, FLAG) == 1;
    Ok(Answer { status: status::WAITING, dword0: 0, length: 0, notice: settle(header, is_owed) })
}

fn is_feature(fid: u8) -> bool {
    fid == CONFIGURATION || fid == WINDOW || fid == EVENT_NOTICES
}

fn set_features(header: &mut Header, all: &mut [u8], command: &[u8; COMMAND_BYTES], data: &[u8]) -> Outcome {
    let fid = command[40];
    if !is_feature(fid) {
        return Err(status::INVALID_FIELD);
    }
    if command[43] & 0x80 != 0 {
        return Err(status::NOT_SAVEABLE);
    }
    if fid == EVENT_NOTICES {
        put(header, ON, u64::from(command[45] >> 4 & 1));
        let is_owed = get(header, FLAG) == 1;
        return success(0, 0, settle(header, is_owed));
    }
    let row = find(all, u16_at(command, 44)).ok_or(status::INVALID_FIELD)?;
    if fid == CONFIGURATION {
        return set_configuration(row, command[48] & 1 != 0, data);
    }
    let has_listed = set_window(row, command[48] & 7)?;
    success(0, 0, settle(header, has_listed))
}

fn set_configuration(row: &mut Row, enable: bool, data: &[u8]) -> Outcome {
    let data = data.get(..CONFIGURATION_BYTES).ok_or(status::TOO_SHORT)?;
    if enable {
        enter(row, N, get(row, MINIMUM_HIGH));
    } else {
        enter(row, OFF, 0);
    }
    put(row, ENEV, u64::from(u16_at(data, 0)) & EVENT_MASK);
    row[8 * THRESHOLDS..8 * WINDOW_WORD].copy_from_slice(&data[32..56]);
    success(0, 0, None)
}

/// Whether entering D has listed the set, or a refusal.
fn set_window(row: &mut Row, selected: u8) -> Result<bool, u16> {
    let window = get(row, WINDOW_WORD);
    let selected = u64::from(selected);
    if window == OFF || (selected != D && selected != N) {
        return Err(status::INVALID_FIELD);
    }
    if selected == window {
        Ok(false)
    } else if selected == N {
        leave_early(row);
        Ok(false)
    } else if get(row, N_TIME) != get(row, NEED) {
        Err(status::TOO_EARLY)
    } else {
        Ok(enter_d(row))
    }
}

fn enter_d(row: &mut Row) -> bool {
    enter(row, D, 0);
    let mut below = 0;
    for quantity in 0..3 {
        below |= u64::from(get(row, READS_TYPICAL + quantity) < get(row, THRESHOLDS + quantity)) << quantity;
    }
    note(row, below & get(row, ENEV))
}

fn get_features(header: &Header, all: &mut [u8], command: &[u8; COMMAND_BYTES], answer: &mut [u8]) -> Outcome {
    let fid = command[40];
    if !is_feature(fid) || command[41] & 7 != 0 {
        return Err(status::INVALID_FIELD);
    }
    if fid == EVENT_NOTICES {
        return success((get(header, ON) as u32) << 12, 0, None);
    }
    let row = find(all, u16_at(command, 44)).ok_or(status::INVALID_FIELD)?;
    let window = get(row, WINDOW_WORD);
    if fid == CONFIGURATION {
        let page = answer.get_mut(..CONFIGURATION_BYTES).ok_or(status::TOO_SHORT)?;
        page.fill(0);
        page[0..2].copy_from_slice(&row[8 * ENEV..8 * ENEV + 2]);
        page[32..56].copy_from_slice(&row[8 * THRESHOLDS..8 * WINDOW_WORD]);
        success(u32::from(window != OFF), CONFIGURATION_BYTES, None)
    } else if window == OFF {
        Err(status::INVALID_FIELD)
    } else {
        success(window as u32, 0, None)
    }
}

fn get_log_page(header: &mut Header, all: &mut [u8], command: &[u8; COMMAND_BYTES], answer: &mut [u8]) -> Outcome {
    let page_bytes = match command[40] {
        SET_PAGE => SET_PAGE_BYTES,
        LIST_PAGE => LIST_PAGE_BYTES,
        _ => return Err(status::INVALID_LOG_PAGE),
    };
    let offset = u64_at(command, 48);
    let count = u32::from(u16_at(command, 44)) << 16 | u32::from(u16_at(command, 42));
    if offset % 4 != 0 || offset > page_bytes as u64 || count >= 1024 {
        return Err(status::INVALID_FIELD);
    }
    let length = 4 * (count as usize + 1);
    let retains = command[41] & 0x80 != 0;
    if command[40] == LIST_PAGE {
        let answer = answer.get_mut(..length).ok_or(status::TOO_SHORT)?;
        give(&list_page(all), offset as usize, answer);
        if !retains {
            put(header, MASKED, 0);
            put(header, FLAG, 0);
        }
        return success(0, length, None);
    }
    let row = find(all, u16_at(command, 46)).ok_or(status::INVALID_FIELD)?;
    let answer = answer.get_mut(..length).ok_or(status::TOO_SHORT)?;
    give(&set_page(row), offset as usize, answer);
    if !retains {
        row[8 * EVENTS..].fill(0);
    }
    success(0, length, None)
}

/// Fills the answer with a page from an offset on, then zeros.
#[inline(always)]
fn give(page: &[u8], offset: usize, answer: &mut [u8]) {
    let part = page.get(offset..).unwrap_or(&[]);
    let length = part.len().min(answer.len());
    answer[..length].copy_from_slice(&part[..length]);
    answer[length..].fill(0);
}

#[inline(always)]
fn set_page(row: &Row) -> [u8; SET_PAGE_USED] {
    let mut page = [0; SET_PAGE_USED];
    page[0] = row[8 * WINDOW_WORD];
    page[2..4].copy_from_slice(&row[8 * EVENTS..8 * EVENTS + 2]);
    page[32..72].copy_from_slice(&row[8 * READS_TYPICAL..8 * ENEV]);
    let is_estimated = match get(row, WINDOW_WORD) {
        OFF => false,
        D => true,
        _ => get(row, N_TIME) == get(row, NEED),
    };
    if is_estimated {
        for quantity in 0..3 {
            // Outside D the charges are zero.
            let estimate = get(row, READS_TYPICAL + quantity) - get(row, CHARGES + quantity);
            page[128 + 8 * quantity..136 + 8 * quantity].copy_from_slice(&estimate.to_le_bytes());
        }
    }
    page
}

#[inline(always)]
fn list_page(all: &[u8]) -> [u8; LIST_PAGE_BYTES] {
    let mut page = [0; LIST_PAGE_BYTES];
    let mut entries = 0;
    for row in rows(all).filter(|row| get(row, LISTED) != 0) {
        page[8 + 2 * entries..10 + 2 * entries].copy_from_slice(&row[..2]);
        entries += 1;
    }
    page[0] = entries as u8;
    page
}

fn identify(all: &[u8], command: &[u8; COMMAND_BYTES], answer: &mut [u8]) -> Outcome {
    if command[40] != SET_LIST {
        return Err(status::INVALID_FIELD);
    }
    let page = answer.get_mut(..IDENTIFY_BYTES).ok_or(status::TOO_SHORT)?;
    let from = u64::from(u16_at(command, 44));
    page.fill(0);
    // There is room for 31 entries; the host asks again for what lies past them.
    let (head, entries) = page.split_at_mut(128);
    for (entry, row) in entries.chunks_exact_mut(128).zip(rows(all).filter(|row| get(row, IDENTIFIER) >= from)) {
        entry[0..2].copy_from_slice(&row[..2]);
        entry[2..4].copy_from_slice(&row[8 * GROUP..8 * GROUP + 2]);
        entry[8..12].copy_from_slice(&row[8 * RANDOM_READ_TYPICAL..8 * RANDOM_READ_TYPICAL + 4]);
        entry[12..16].copy_from_slice(&row[8 * OPTIMAL_WRITE_SIZE..8 * OPTIMAL_WRITE_SIZE + 4]);
        entry[16..48].copy_from_slice(&row[8 * TOTAL..8 * READS_TYPICAL]);
        head[0] += 1;
    }
    success(0, IDENTIFY_BYTES, None)
}
