//! What a run of trials has met, so that it cannot pass idly.

use crate::calls::{Call, Function, Outcome};
use crate::holding::Trial;
use model::commands::{CONFIGURATION, EVENT_NOTICES};
use model::layout::{field, header, put_word, read_row, read_table, table_bytes, word_of, Card, BODY_BYTES, HEADER_BYTES};
use model::layout::{LAYOUT_NUMBER, MAX_SETS, ROW_BYTES, WORD_BYTES};
use model::notices::Notices;
use model::pages::{IDENTIFY_ENTRIES, LIST_PAGE_BYTES};
use model::set::{Attributes, Quantity, Set, Window};
use model::status;
use std::collections::BTreeMap;

const EVENT_BITS: [(u16, &str); 5] = [
    (1 << 0, "event bit 0 set"),
    (1 << 1, "event bit 1 set"),
    (1 << 2, "event bit 2 set"),
    (1 << 14, "event bit 14 set"),
    (1 << 15, "event bit 15 set"),
];

const BRANCHES: [&str; 26] = [
    "event not listed",
    "listed set",
    "listed cleared",
    "events cleared",
    "warning on entering D",
    "off to N by enable",
    "D to N by enable",
    "N afresh by enable",
    "D to off by disable",
    "N to off by disable",
    "N to D by select",
    "D to N by select",
    "D kept by select",
    "N kept by select",
    "D to N by reads",
    "D to N by writes",
    "D to N by excursion",
    "D to N by tick",
    "excess becomes N time",
    "excess stops at the need",
    "N time reaches the need",
    "reads meet their typical",
    "writes meet their typical",
    "data given",
    "damaged table refused",
    "damaged table still legal",
];

/// What is met of the need, mostly of one below high: where low and high are the same, little can go wrong.
const NEEDS: [&str; 24] = [
    "need below high by select N",
    "need below high by an excursion",
    "need below high by reads",
    "need below high by writes",
    "need high by time up",
    "need low after no time in D",
    "need between low and high, rounded up",
    "need between low and high, an exact quotient",
    "need reckoned of a product of more than 32 bits",
    "need raised by enabling again",
    "need below high kept by select N",
    "need below high ended by disable",
    "N time reaches a need below high",
    "too early for a need below high",
    "too early for a need below high by 1 ms",
    "D entered at a need below high",
    "estimates wait for a need below high",
    "estimates are there at a need below high",
    "need 0 in N refused",
    "need below low refused",
    "need above high refused",
    "need outside N refused",
    "N time above the need refused, though not above high",
    "table of the layout before refused",
];

/// What is met of requests and notices.
const NOTICES: [&str; 24] = [
    "notice sent by reads",
    "notice sent by writes",
    "notice sent by an excursion",
    "notice sent by a tick",
    "notice sent by a tick that lists several sets",
    "notice sent by a select D that warns",
    "notice sent by Set 0Bh",
    "notice sent by an arriving request",
    "notice sent while others wait",
    "flag served with no set listed",
    "flag raised while off",
    "flag raised while masked",
    "flag raised with no request",
    "event of a listed set sends nothing",
    "request waits while off",
    "request waits while masked",
    "request with an identifier that waits",
    "flag dropped by a read of 0Bh",
    "mask lifted by a read of 0Bh",
    "mask and flag kept by a read of 0Bh with Retain",
    "mask and flag kept by Set 0Bh",
    "requests kept by Set 0Bh off",
    "Get 0Bh while on",
    "Get 0Bh while off",
];

/// What is met of cards with many sets.
const MANY: [&str; 9] = [
    "set-up of 64 sets",
    "set-up of 65 sets refused for their number",
    "item on 64 sets",
    "65 sets refused though their rows are there",
    "Identify shows 31 sets, and there are more",
    "Identify shows 31 sets, and there are no more",
    "Identify shows none",
    "page 0Bh at offset 136",
    "page 0Bh refused at offset 140",
];

pub struct Counts {
    statuses: BTreeMap<u16, u64>,
    branches: BTreeMap<&'static str, u64>,
}

impl Counts {
    pub fn new() -> Counts {
        let bits = EVENT_BITS.iter().map(|&(_, name)| name);
        Counts {
            statuses: status::ALL.iter().map(|&number| (number, 0)).collect(),
            branches: BRANCHES
                .iter()
                .chain(&NEEDS)
                .chain(&NOTICES)
                .chain(&MANY)
                .copied()
                .chain(bits)
                .map(|name| (name, 0))
                .collect(),
        }
    }

    /// Counts what the model made of a trial: its status, its data, and whether a damaged table was refused.
    pub fn outcome(&mut self, trial: &Trial, outcome: &Outcome) {
        *self.statuses.entry(outcome.status).or_insert(0) += 1;
        if outcome.regions.answer != trial.call.regions.answer {
            self.branch("data given");
        }
        if trial.is_damaged {
            let refused = outcome.status == status::BAD_TABLE;
            self.branch(if refused { "damaged table refused" } else { "damaged table still legal" });
        }
        self.many(&trial.call, outcome.status);
        self.refused(&trial.call, outcome.status);
    }

    /// Counts refusals that the need, or the layout before, has to do with.
    fn refused(&mut self, call: &Call, number: u16) {
        let table = call.regions.table.content();
        match (number, call.set_features()) {
            (status::BAD_TABLE, _) if is_of_the_layout_before(table) => self.branch("table of the layout before refused"),
            (status::BAD_TABLE, _) => {
                if let Some(name) = wrong_need(table) {
                    self.branch(name);
                }
            }
            (status::TOO_EARLY, Some((_, named))) => {
                let card = read_table(table).expect("the table was not refused");
                let early = |set: &&Set| set.attributes.identifier == named && is_below_high(set);
                if let Some(set) = card.sets.iter().find(early) {
                    self.too_early(set);
                }
            }
            _ => (),
        }
    }

    fn too_early(&mut self, set: &Set) {
        self.branch("too early for a need below high");
        if set.n_time + 1 == set.need {
            self.branch("too early for a need below high by 1 ms");
        }
    }

    /// Counts what the number of sets, or the end of page 0Bh, has to do with.
    fn many(&mut self, call: &Call, number: u16) {
        let (table, bodies) = (call.regions.table.content(), call.regions.data.content());
        if call.function == Function::SetUp {
            if number == status::SUCCESS && bodies.len() == MAX_SETS * BODY_BYTES {
                self.branch("set-up of 64 sets");
            }
            if number == status::BAD_SET_UP && is_one_body_too_many(bodies) {
                self.branch("set-up of 65 sets refused for their number");
            }
            return;
        }
        if number == status::BAD_TABLE && is_one_row_too_many(table) {
            self.branch("65 sets refused though their rows are there");
        }
        match (call.list_part(), number) {
            (Some((offset, _)), status::SUCCESS) if offset == LIST_PAGE_BYTES as u64 => self.branch("page 0Bh at offset 136"),
            (Some((offset, dwords)), status::INVALID_FIELD) if offset == LIST_PAGE_BYTES as u64 + 4 && dwords <= 1_024 => {
                self.branch("page 0Bh refused at offset 140")
            }
            _ => (),
        }
    }

    /// Counts an Identify that was carried out by the sets that it was asked for.
    fn identified(&mut self, from: u16, sets: &[Set]) {
        match sets.iter().filter(|set| set.attributes.identifier >= from).count() {
            0 => self.branch("Identify shows none"),
            IDENTIFY_ENTRIES => self.branch("Identify shows 31 sets, and there are no more"),
            wanted if wanted > IDENTIFY_ENTRIES => self.branch("Identify shows 31 sets, and there are more"),
            _ => (),
        }
    }

    /// Counts what the trial did to each set, and to requests and notices.
    pub fn changes(&mut self, call: &Call, before: &Card, after: &Card) {
        for (before, after) in before.sets.iter().zip(&after.sets) {
            self.events(before, after);
            self.window(call, before, after);
        }
        self.notices(call, before, after);
        self.estimates(call, &before.sets);
        if before.sets.len() == MAX_SETS {
            self.branch("item on 64 sets");
        }
        if let Some(from) = call.identify_from() {
            self.identified(from, &before.sets);
        }
    }

    /// Counts a read of page 0Ah that shows estimates, bytes 151:128, of a set in N.
    fn estimates(&mut self, call: &Call, sets: &[Set]) {
        let (named, offset, dwords) = match call.set_page_part() {
            Some(part) => part,
            None => return,
        };
        let shown = sets.iter().find(|set| set.attributes.identifier == named && set.window == Window::N && is_below_high(set));
        match shown {
            Some(set) if offset < 152 && offset + 4 * dwords > 128 => self.branch(match set.n_time == set.need {
                true => "estimates are there at a need below high",
                false => "estimates wait for a need below high",
            }),
            _ => (),
        }
    }

    fn notices(&mut self, call: &Call, before: &Card, after: &Card) {
        let is_new = |(before, after): &(&Set, &Set)| after.listed && !before.listed;
        let listings = before.sets.iter().zip(&after.sets).filter(is_new).count();
        if after.notices.masked && !before.notices.masked {
            self.sent(call, listings, after);
        } else if listings > 0 && !before.notices.flag {
            self.withheld(&before.notices);
        }
        let has_event = |(before, after): (&Set, &Set)| before.listed && after.events & !before.events != 0;
        if before.notices.can_send() && listings == 0 && before.sets.iter().zip(&after.sets).any(has_event) {
            self.branch("event of a listed set sends nothing");
        }
        self.notice_commands(call, &before.notices, &after.notices);
    }

    /// A notice was sent by an item that listed so many sets.
    fn sent(&mut self, call: &Call, listings: usize, after: &Card) {
        self.branch(match call.function {
            Function::Reads { .. } => "notice sent by reads",
            Function::Writes { .. } => "notice sent by writes",
            Function::Excursion { .. } => "notice sent by an excursion",
            Function::Tick { .. } => "notice sent by a tick",
            _ if call.is_request() => "notice sent by an arriving request",
            _ if listings == 0 => "notice sent by Set 0Bh",
            _ => "notice sent by a select D that warns",
        });
        if matches!(call.function, Function::Tick { .. }) && listings > 1 {
            self.branch("notice sent by a tick that lists several sets");
        }
        if !after.notices.waiting.is_empty() {
            self.branch("notice sent while others wait");
        }
        if after.sets.iter().all(|set| !set.listed) {
            self.branch("flag served with no set listed");
        }
    }

    /// One thing alone withheld a notice.
    fn withheld(&mut self, before: &Notices) {
        match (before.on, before.masked, before.waiting.is_empty()) {
            (false, false, false) => self.branch("flag raised while off"),
            (true, true, false) => self.branch("flag raised while masked"),
            (true, false, true) => self.branch("flag raised with no request"),
            _ => (),
        }
    }

    fn notice_commands(&mut self, call: &Call, before: &Notices, after: &Notices) {
        if call.is_request() {
            self.requested(before, after);
        }
        match call.list_read() {
            Some(true) if before.masked && before.flag => self.branch("mask and flag kept by a read of 0Bh with Retain"),
            Some(false) if before.masked => self.branch("mask lifted by a read of 0Bh"),
            _ => (),
        }
        if call.list_read() == Some(false) && before.flag {
            self.branch("flag dropped by a read of 0Bh");
        }
        if matches!(call.set_features(), Some((EVENT_NOTICES, _))) {
            self.switched(before, after);
        }
        if call.get_features() == Some(EVENT_NOTICES) {
            self.branch(if before.on { "Get 0Bh while on" } else { "Get 0Bh while off" });
        }
    }

    fn requested(&mut self, before: &Notices, after: &Notices) {
        if !before.on {
            self.branch("request waits while off");
        } else if before.masked {
            self.branch("request waits while masked");
        }
        if after.waiting.last().map_or(false, |newest| before.waiting.contains(newest)) {
            self.branch("request with an identifier that waits");
        }
    }

    fn switched(&mut self, before: &Notices, after: &Notices) {
        if before.on != after.on && before.masked && before.flag {
            self.branch("mask and flag kept by Set 0Bh");
        }
        if before.on && !after.on && !before.waiting.is_empty() {
            self.branch("requests kept by Set 0Bh off");
        }
    }

    fn events(&mut self, before: &Set, after: &Set) {
        let set = after.events & !before.events;
        for (bit, name) in EVENT_BITS {
            if set & bit != 0 {
                self.branch(name);
            }
        }
        if set != 0 && !after.listed {
            self.branch("event not listed");
        }
        if after.listed != before.listed {
            self.branch(if after.listed { "listed set" } else { "listed cleared" });
        }
        if before.events != 0 && after.events == 0 {
            self.branch("events cleared");
        }
    }

    fn window(&mut self, call: &Call, before: &Set, after: &Set) {
        match call.function {
            Function::SetUp => (),
            Function::Command => match call.set_features() {
                Some((fid, set)) if set == before.attributes.identifier => self.feature(fid, before, after),
                _ => (),
            },
            Function::Reads { .. } => self.charged(before, after, Quantity::Reads),
            Function::Writes { .. } => self.charged(before, after, Quantity::Writes),
            Function::Excursion { .. } if before.window != after.window => {
                self.left_early(before, after, ["D to N by excursion", "need below high by an excursion"])
            }
            Function::Excursion { .. } => (),
            Function::Tick { .. } => self.ticked(before, after),
        }
    }

    /// A successful Set Features that named this set.
    fn feature(&mut self, fid: u8, before: &Set, after: &Set) {
        let configured = fid == CONFIGURATION;
        let name = match (before.window, after.window) {
            (Window::Off, Window::N) => "off to N by enable",
            (Window::D, Window::N) if configured => "D to N by enable",
            (Window::D, Window::N) => return self.left_early(before, after, ["D to N by select", "need below high by select N"]),
            (Window::N, Window::N) if !configured => "N kept by select",
            (Window::N, Window::N) if before.n_time != 0 => "N afresh by enable",
            (Window::D, Window::Off) => "D to off by disable",
            (Window::N, Window::Off) => "N to off by disable",
            (Window::N, Window::D) => "N to D by select",
            (Window::D, Window::D) => "D kept by select",
            _ => return,
        };
        self.branch(name);
        if name == "N to D by select" && after.events != before.events {
            self.branch("warning on entering D");
        }
        if before.window == Window::N && is_below_high(before) {
            self.left_need(before, after, configured);
        }
    }

    /// A successful Set Features of a set in N, which needed less than high.
    fn left_need(&mut self, before: &Set, after: &Set, configured: bool) {
        match after.window {
            Window::D => self.branch("D entered at a need below high"),
            Window::Off => self.branch("need below high ended by disable"),
            Window::N if !configured => self.branch("need below high kept by select N"),
            Window::N if before.need < after.need => self.branch("need raised by enabling again"),
            Window::N => (),
        }
    }

    /// D was left before its time was up: how, and with what need.
    fn left_early(&mut self, before: &Set, after: &Set, [left, below_high]: [&'static str; 2]) {
        self.branch(left);
        let (low, high) = (before.attributes.minimum_low, before.attributes.minimum_high);
        let s = before.charges[Quantity::Time as usize];
        if after.need < high {
            self.branch(below_high);
        }
        if s == 0 && low < high {
            self.branch("need low after no time in D");
        }
        if (high - low) * s > u64::from(u32::MAX) {
            self.branch("need reckoned of a product of more than 32 bits");
        }
        if low < after.need && after.need < high {
            let is_exact = (high - low) * s % before.attributes.time_maximum == 0;
            self.branch(if is_exact {
                "need between low and high, an exact quotient"
            } else {
                "need between low and high, rounded up"
            });
        }
    }

    fn charged(&mut self, before: &Set, after: &Set, quantity: Quantity) {
        if before.window != after.window {
            self.left_early(
                before,
                after,
                match quantity {
                    Quantity::Reads => ["D to N by reads", "need below high by reads"],
                    _ => ["D to N by writes", "need below high by writes"],
                },
            );
        }
        for (met, name) in [(Quantity::Reads, "reads meet their typical"), (Quantity::Writes, "writes meet their typical")] {
            let charge = after.charges[met as usize];
            if met == quantity && charge != before.charges[met as usize] && charge == after.attributes.limit(met) {
                self.branch(name);
            }
        }
    }

    fn ticked(&mut self, before: &Set, after: &Set) {
        let at_need = after.n_time == after.need;
        if before.window == Window::D && after.window == Window::N {
            self.branch("D to N by tick");
            if after.n_time != 0 {
                self.branch(if at_need { "excess stops at the need" } else { "excess becomes N time" });
            }
            if after.attributes.minimum_low < after.attributes.minimum_high {
                self.branch("need high by time up");
            }
        } else if at_need && before.n_time != after.n_time {
            self.branch("N time reaches the need");
            if is_below_high(after) {
                self.branch("N time reaches a need below high");
            }
        }
    }

    fn branch(&mut self, name: &'static str) {
        *self.branches.get_mut(name).expect("the name is in the list") += 1;
    }

    /// Prints all counts, and answers whether none is under the floor.
    pub fn print(&self, floor: u64) -> bool {
        for (number, count) in &self.statuses {
            println!("{:>9}  status {:04X}", count, number);
        }
        for (name, count) in &self.branches {
            println!("{:>9}  {}", count, name);
        }
        self.statuses.values().chain(self.branches.values()).all(|&count| count >= floor)
    }
}

impl Default for Counts {
    fn default() -> Counts {
        Counts::new()
    }
}

/// 65 bodies, of which any 64 in a row are good: so only their number is wrong.
fn is_one_body_too_many(bodies: &[u8]) -> bool {
    let is_good = |bodies: &[u8]| model::set_up(&mut [0; table_bytes(MAX_SETS)], bodies) == status::SUCCESS;
    bodies.len() == (MAX_SETS + 1) * BODY_BYTES && is_good(&bodies[BODY_BYTES..]) && is_good(&bodies[..MAX_SETS * BODY_BYTES])
}

fn is_below_high(set: &Set) -> bool {
    set.need < set.attributes.minimum_high
}

/// What is wrong with a table, where that is the need of one row alone, or an N time above it: with another need it would be legal.
pub fn wrong_need(table: &[u8]) -> Option<&'static str> {
    let sets = table.get(..HEADER_BYTES).map(|header| word_of(header, header::SETS)).filter(|&sets| sets <= MAX_SETS as u64)?;
    let rows = table.get(HEADER_BYTES..table_bytes(sets as usize))?;
    let is_wrong = |row: &[u8]| read_row(row).map_or(true, |set| !set.is_legal());
    let slot = rows.chunks_exact(ROW_BYTES).position(is_wrong)?;
    let set = read_row(&rows[ROW_BYTES * slot..])?;
    let Attributes { minimum_low: low, minimum_high: high, .. } = set.attributes;
    let in_n = set.window == Window::N;
    let mut other = table.to_vec();
    put_word(&mut other[table_bytes(slot)..], field::NEED, if in_n { high } else { 0 });
    read_table(&other)?;
    Some(match set.need {
        _ if !in_n => "need outside N refused",
        0 => "need 0 in N refused",
        need if need < low => "need below low refused",
        need if need > high => "need above high refused",
        _ => "N time above the need refused, though not above high",
    })
}

/// A table with the number of the layout before this one, and rows that would be legal if they had a need.
fn is_of_the_layout_before(table: &[u8]) -> bool {
    const OLD_ROW_BYTES: usize = ROW_BYTES - WORD_BYTES;
    if table.len() < HEADER_BYTES || word_of(table, header::LAYOUT) != LAYOUT_NUMBER - 1 {
        return false;
    }
    let (head, rows) = table.split_at(HEADER_BYTES);
    let mut new = head.to_vec();
    put_word(&mut new, header::LAYOUT, LAYOUT_NUMBER);
    let sets = word_of(head, header::SETS).min(MAX_SETS as u64) as usize;
    for row in rows.chunks_exact(OLD_ROW_BYTES).take(sets) {
        let in_n = word_of(row, field::WINDOW) == Window::N as u64;
        let need = if in_n { word_of(row, field::MINIMUM_HIGH) } else { 0 };
        new.extend_from_slice(&row[..WORD_BYTES * field::NEED]);
        new.extend(need.to_le_bytes());
        new.extend_from_slice(&row[WORD_BYTES * field::NEED..]);
    }
    read_table(&new).is_some()
}

/// A table of 65 rows, of which the first 64 would be legal.
fn is_one_row_too_many(table: &[u8]) -> bool {
    if table.len() < table_bytes(MAX_SETS + 1) || word_of(table, header::SETS) != MAX_SETS as u64 + 1 {
        return false;
    }
    let mut fewer = table[..table_bytes(MAX_SETS)].to_vec();
    put_word(&mut fewer, header::SETS, MAX_SETS as u64);
    read_table(&fewer).is_some()
}
