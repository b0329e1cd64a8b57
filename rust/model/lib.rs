//! The window and event bookkeeping of an NVMe card with NVM Sets in Predictable Latency Mode, written from the project's scope
//! document (cited below as "01") and from the changes that customers asked for ("02"), for reading: it decodes the whole table,
//! applies the document's sentence, and encodes the whole table.
//!
//! It is the measure that other implementations are held to, so it prefers plain sentences to speed.

pub mod card;
pub mod commands;
pub mod layout;
pub mod notices;
pub mod pages;
pub mod set;
pub mod status;
pub mod tape;

pub use card::{command, excursion, reads, set_up, tick, writes};
pub use tape::replay;

#[cfg(test)]
mod tests;
