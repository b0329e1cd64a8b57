//! The functions of include/card.h as a value, so that one trial can be given to several implementations.

/// Table, command, data, answer, reply.
type Command = fn(&mut [u8], &[u8], &[u8], &mut [u8], &mut [u8]) -> u16;

#[derive(Clone, Copy)]
pub struct Entries {
    pub set_up: fn(table: &mut [u8], bodies: &[u8]) -> u16,
    pub command: Command,
    pub reads: fn(table: &mut [u8], set: u16, count: u16, reply: &mut [u8]) -> u16,
    pub writes: fn(table: &mut [u8], set: u16, count: u16, reply: &mut [u8]) -> u16,
    pub excursion: fn(table: &mut [u8], set: u16, reply: &mut [u8]) -> u16,
    pub tick: fn(table: &mut [u8], milliseconds: u32, answer: &mut [u8], reply: &mut [u8]) -> u16,
}

pub const MODEL: Entries = Entries {
    set_up: model::set_up,
    command: model::command,
    reads: model::reads,
    writes: model::writes,
    excursion: model::excursion,
    tick: model::tick,
};
