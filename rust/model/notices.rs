//! "W1. Wake the host" of the document of changes (cited as "02"): the requests that wait, and the notice that completes one.

use crate::status;

/// "Up to four requests wait".
pub const MAX_WAITING: usize = 4;
/// "that request completes with dword 0 = 000B0402h".
pub const NOTICE_DWORD0: u32 = 0x000B_0402;

/// What the card keeps beside its sets.
#[derive(Clone, Debug, Default, PartialEq, Eq)]
pub struct Notices {
    /// Feature 0Bh bit 12.
    pub on: bool,
    /// "further notices are masked".
    pub masked: bool,
    /// "If a notice can't be sent, one flag remembers it."
    pub flag: bool,
    /// The identifiers of the requests that wait, the oldest first.
    pub waiting: Vec<u16>,
}

impl Notices {
    /// "Legal: at most four waiting, and no flag that could be served at once."
    pub fn is_legal(&self) -> bool {
        self.waiting.len() <= MAX_WAITING && !(self.flag && self.can_send())
    }

    /// "notices are on, none is masked and a request waits".
    pub fn can_send(&self) -> bool {
        self.on && !self.masked && !self.waiting.is_empty()
    }

    /// "Up to four requests wait [...]; a fifth gets 0105h."
    pub fn request(&mut self, identifier: u16) -> Result<(), u16> {
        if self.waiting.len() == MAX_WAITING {
            return Err(status::TOO_MANY_REQUESTS);
        }
        self.waiting.push(identifier);
        Ok(())
    }

    /// "A successful read of 0Bh with Retain 0 lifts the mask and drops the flag".
    pub fn lift(&mut self) {
        self.masked = false;
        self.flag = false;
    }

    /// The end of an item, which has listed "one or more sets that weren't listed" or none: the request that it completes. A notice
    /// is owed by this item or by the flag, and it is sent or remembered: "oldest served first", "further notices are masked".
    pub fn settle(&mut self, has_listed: bool) -> Option<u16> {
        self.flag |= has_listed;
        if !(self.flag && self.can_send()) {
            return None;
        }
        self.flag = false;
        self.masked = true;
        Some(self.waiting.remove(0))
    }
}
