//! One set's record, and what each item does to it.

use std::ops::RangeInclusive;

/// "ENEV and event bits within C007h".
pub const EVENT_MASK: u16 = 0xC007;
/// "Bit 14 is set on exceeded or time up".
pub const EXCEEDED: u16 = 1 << 14;
/// "bit 15 on excursion".
pub const EXCURSION: u16 = 1 << 15;

/// "A tick of t (0..86,400,000 ms)"; the times of a set have the same bound.
pub const DAY: u64 = 86_400_000;

const TYPICALS: RangeInclusive<u64> = 1..=4_294_967_295;
const TIMES: RangeInclusive<u64> = 1..=DAY;

/// What a set never changes: "Static: identifier ...".
#[derive(Clone, Debug, PartialEq, Eq)]
pub struct Attributes {
    pub identifier: u16,
    pub group: u16,
    pub random_read_typical: u32,
    pub optimal_write_size: u32,
    pub total: u128,
    pub unallocated: u128,
    pub reads_typical: u64,
    pub writes_typical: u64,
    pub time_maximum: u64,
    pub minimum_high: u64,
    pub minimum_low: u64,
}

impl Attributes {
    /// "identifier 1..65535; endurance group 1..65535; [...] unallocated not above total; reads typical and writes typical, each
    /// 1..4,294,967,295; time maximum, minimum high and minimum low, 1..86,400,000 ms each, low not above high."
    pub fn in_range(&self) -> bool {
        self.identifier >= 1
            && self.group >= 1
            && self.unallocated <= self.total
            && TYPICALS.contains(&self.reads_typical)
            && TYPICALS.contains(&self.writes_typical)
            && TIMES.contains(&self.time_maximum)
            && TIMES.contains(&self.minimum_high)
            && TIMES.contains(&self.minimum_low)
            && self.minimum_low <= self.minimum_high
    }

    /// 02: "The need after a window of s ms is low + (high - low) x s / maximum, rounded up": one more than the whole part, where
    /// the division leaves a rest.
    fn need_after(&self, s: u64) -> u64 {
        let product = (self.minimum_high - self.minimum_low) * s;
        let has_rest = product % self.time_maximum != 0;
        self.minimum_low + product / self.time_maximum + u64::from(has_rest)
    }

    /// The typical of reads or writes, or the time maximum.
    pub fn limit(&self, quantity: Quantity) -> u64 {
        match quantity {
            Quantity::Reads => self.reads_typical,
            Quantity::Writes => self.writes_typical,
            Quantity::Time => self.time_maximum,
        }
    }
}

/// What is charged in the deterministic window: "A warning (bit 0 reads, 1 writes, 2 time)".
#[derive(Clone, Copy, Debug, PartialEq, Eq)]
pub enum Quantity {
    Reads = 0,
    Writes = 1,
    Time = 2,
}

pub const QUANTITIES: [Quantity; 3] = [Quantity::Reads, Quantity::Writes, Quantity::Time];

impl Quantity {
    fn warning_bit(self) -> u16 {
        1 << self as u16
    }

    /// A read or write event "leaves D if the new count is greater than typical"; "time up is when the sum is at or past maximum".
    fn is_spent(self, sum: u64, limit: u64) -> bool {
        match self {
            Quantity::Reads | Quantity::Writes => sum > limit,
            Quantity::Time => sum >= limit,
        }
    }

    fn cause_when_spent(self) -> Cause {
        match self {
            Quantity::Reads | Quantity::Writes => Cause::Exceeded,
            Quantity::Time => Cause::TimeUp,
        }
    }
}

/// "mode on or off, window": the window is none exactly when the mode is off, so one value says both.
#[derive(Clone, Copy, Debug, PartialEq, Eq)]
pub enum Window {
    Off = 0,
    D = 1,
    N = 2,
}

/// What may change a set's window.
#[derive(Clone, Copy, PartialEq, Eq)]
enum Cause {
    Enable,
    Disable,
    SelectD,
    SelectN,
    Excursion,
    Exceeded,
    TimeUp,
}

const OFF: Option<Window> = Some(Window::Off);
const D: Option<Window> = Some(Window::D);
const N: Option<Window> = Some(Window::N);

/// "Kept as one constant table, three windows by seven causes". None stands where 01 has "refuse" or "-"; that N to D needs its
/// time spent is for `too_early_for_d`.
const NEXT: [[Option<Window>; 7]; 3] = [
    // enable, disable, select D, select N, excursion, exceeded, time up
    [N, OFF, None, None, OFF, None, None],
    [N, OFF, D, N, N, N, N],
    [N, OFF, D, N, N, None, None],
];

/// What Set Features 13h stores: "ENEV 1:0, reads threshold 39:32, writes 47:40, time 55:48".
#[derive(Clone, Debug, PartialEq, Eq)]
pub struct Configuration {
    pub enev: u16,
    pub thresholds: [u64; 3],
}

/// A set of the table.
#[derive(Clone, Debug, PartialEq, Eq)]
pub struct Set {
    pub attributes: Attributes,
    pub window: Window,
    pub configuration: Configuration,
    /// Reads, writes and time in the deterministic window.
    pub charges: [u64; 3],
    /// Time in the non-deterministic window.
    pub n_time: u64,
    /// 02: "The need after a window": how long this time has to become. Outside the non-deterministic window 0.
    pub need: u64,
    pub events: u16,
    pub listed: bool,
}

impl Set {
    /// "Set-up starts all off and zero."
    pub fn new(attributes: Attributes) -> Set {
        Set {
            attributes,
            window: Window::Off,
            configuration: Configuration { enev: 0, thresholds: [0; 3] },
            charges: [0; 3],
            n_time: 0,
            need: 0,
            events: 0,
            listed: false,
        }
    }

    /// "statics in range; [...] ENEV and event bits within C007h; listed only if some event bit is set".
    pub fn is_legal(&self) -> bool {
        self.attributes.in_range()
            && self.charges_are_legal()
            && self.need_is_legal()
            && self.n_time_is_legal()
            && self.configuration.enev & !EVENT_MASK == 0
            && self.events & !EVENT_MASK == 0
            && (!self.listed || self.events != 0)
    }

    /// "reads and writes at most their typicals and time below maximum, all zero outside D".
    fn charges_are_legal(&self) -> bool {
        match self.window {
            Window::D => QUANTITIES.iter().all(|&q| !q.is_spent(self.charges[q as usize], self.attributes.limit(q))),
            Window::Off | Window::N => self.charges == [0; 3],
        }
    }

    /// 02: "Legal: need from low to high in N, else 0". Any such need is legal, whatever window came before.
    fn need_is_legal(&self) -> bool {
        match self.window {
            Window::N => (self.attributes.minimum_low..=self.attributes.minimum_high).contains(&self.need),
            Window::Off | Window::D => self.need == 0,
        }
    }

    /// 01: "N time at most high and zero outside N". 02: "N time at most need."
    fn n_time_is_legal(&self) -> bool {
        match self.window {
            Window::N => self.n_time <= self.need,
            Window::Off | Window::D => self.n_time == 0,
        }
    }

    /// 01: "Estimates. In D: typical less count, or maximum less time, floor 0. In N: 0 until N time equals high, then typical or
    /// maximum. Off: 0." 02: "the estimates in N wait for the need".
    pub fn estimate(&self, quantity: Quantity) -> u64 {
        let limit = self.attributes.limit(quantity);
        match self.window {
            Window::Off => 0,
            Window::D => limit.saturating_sub(self.charges[quantity as usize]),
            Window::N if self.n_time_is_spent() => limit,
            Window::N => 0,
        }
    }

    /// 01: "N time equals high". 02: "07C1h and cases 8 and 9 now speak of the need, read from one place.": from here, and so do
    /// the estimates.
    fn n_time_is_spent(&self) -> bool {
        self.n_time == self.need
    }

    /// "Enabling always starts N afresh with time 0, also from D or N. Both enable and disable store ENEV (masked with C007h) and
    /// the thresholds. Neither clears events or the listed mark."
    pub fn configure(&mut self, enable: bool, configuration: &Configuration) {
        self.change(if enable { Cause::Enable } else { Cause::Disable });
        self.configuration = Configuration { enev: configuration.enev & EVENT_MASK, ..configuration.clone() };
    }

    /// 01: "Select D needs N time equal to minimum high." 02: "Document 01 demands minimum high after every window. That was a
    /// simplification; [...] 07C1h and cases 8 and 9 now speak of the need".
    pub fn too_early_for_d(&self) -> bool {
        self.window == Window::N && !self.n_time_is_spent()
    }

    /// "Selecting the window already held succeeds and changes nothing: no refill, no restart."
    /// "Entering D with the estimate already below counts as such a fall."
    pub fn select_d(&mut self) {
        if self.window == Window::D {
            return;
        }
        self.change(Cause::SelectD);
        let mut warnings = 0;
        for quantity in QUANTITIES {
            if self.is_below(quantity, self.estimate(quantity)) {
                warnings |= self.enabled_warning(quantity);
            }
        }
        self.note(warnings);
    }

    /// Select N: from D it enters N with time 0 and notes no event.
    pub fn select_n(&mut self) {
        self.change(Cause::SelectN);
    }

    /// "A read or write event of k (0..65,535) counts only in D."
    /// "In D, time up is when the sum is at or past maximum; the excess becomes N time."
    /// "An item that drives the set out of D first reckons the warning with the floored estimate, then leaves."
    pub fn charge(&mut self, quantity: Quantity, amount: u64) {
        if self.window != Window::D {
            return;
        }
        let limit = self.attributes.limit(quantity);
        let before = self.estimate(quantity);
        let sum = self.charges[quantity as usize] + amount;
        self.charges[quantity as usize] = sum;
        let mut events = self.warning_of_fall(quantity, before, self.estimate(quantity));
        if quantity.is_spent(sum, limit) {
            events |= EXCEEDED;
            self.change(quantity.cause_when_spent());
            if quantity == Quantity::Time {
                self.pass_n_time(sum - limit);
            }
        }
        self.note(events);
    }

    /// "An excursion counts only in D." "bit 15 on excursion, enabled or not".
    pub fn excursion(&mut self) {
        if self.window == Window::D {
            self.change(Cause::Excursion);
            self.note(EXCURSION);
        }
    }

    /// "A tick of t (0..86,400,000 ms) goes to every set."
    pub fn tick(&mut self, milliseconds: u64) {
        match self.window {
            Window::Off => (),
            Window::D => self.charge(Quantity::Time, milliseconds),
            Window::N => self.pass_n_time(milliseconds),
        }
    }

    /// A read of page 0Ah with Retain 0 "clears that set's events and listed mark".
    pub fn clear_events(&mut self) {
        self.events = 0;
        self.listed = false;
    }

    /// 01: "N time stops at high." 02: "N time stops at the need".
    fn pass_n_time(&mut self, milliseconds: u64) {
        self.n_time = (self.n_time + milliseconds).min(self.need);
    }

    /// Moves the set by the table of windows. A window entered starts at zero, with its need; the one already held goes on as it
    /// is, unless by enabling, which always starts afresh.
    fn change(&mut self, cause: Cause) {
        let next = NEXT[self.window as usize][cause as usize].expect("no item brings this cause in this window");
        if next != self.window || cause == Cause::Enable {
            self.need = self.need_in(next, cause);
            self.window = next;
            self.charges = [0; 3];
            self.n_time = 0;
        }
    }

    /// The need of a window that the set is about to enter. 02: "The need after a window of s ms is [...]; after enabling it is
    /// high. Time up counts s as maximum." Else s is the time spent in D. "need from low to high in N, else 0".
    fn need_in(&self, next: Window, cause: Cause) -> u64 {
        match (next, cause) {
            (Window::Off | Window::D, _) => 0,
            (Window::N, Cause::Enable) => self.attributes.minimum_high,
            (Window::N, Cause::TimeUp) => self.attributes.need_after(self.attributes.time_maximum),
            (Window::N, _) => self.attributes.need_after(self.charges[Quantity::Time as usize]),
        }
    }

    /// "A warning [...] is set when its estimate goes, by one item, from at or above its threshold to below it while in D, and its
    /// ENEV bit is set."
    fn warning_of_fall(&self, quantity: Quantity, before: u64, after: u64) -> u16 {
        if !self.is_below(quantity, before) && self.is_below(quantity, after) {
            self.enabled_warning(quantity)
        } else {
            0
        }
    }

    fn is_below(&self, quantity: Quantity, estimate: u64) -> bool {
        estimate < self.configuration.thresholds[quantity as usize]
    }

    /// A warning that is not enabled is not recorded at all.
    fn enabled_warning(&self, quantity: Quantity) -> u16 {
        quantity.warning_bit() & self.configuration.enev
    }

    /// "The listed mark is set if any event of the item was enabled at that time."
    fn note(&mut self, events: u16) {
        self.events |= events;
        self.listed |= events & self.configuration.enev != 0;
    }
}
