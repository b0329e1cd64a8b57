//! The functions of include/card.h, with the signatures of the model's.

use std::ptr;
use trials::entries::Entries;

mod raw {
    #[link(name = "card_c", kind = "static")]
    extern "C" {
        pub fn card_set_up(table: *mut u8, table_len: usize, bodies: *const u8, bodies_len: usize) -> u16;
        pub fn card_command(
            table: *mut u8,
            table_len: usize,
            command: *const u8,
            command_len: usize,
            data: *const u8,
            data_len: usize,
            answer: *mut u8,
            answer_len: usize,
            reply: *mut u8,
            reply_len: usize,
        ) -> u16;
        pub fn card_reads(table: *mut u8, table_len: usize, set: u16, count: u16, reply: *mut u8, reply_len: usize) -> u16;
        pub fn card_writes(table: *mut u8, table_len: usize, set: u16, count: u16, reply: *mut u8, reply_len: usize) -> u16;
        pub fn card_excursion(table: *mut u8, table_len: usize, set: u16, reply: *mut u8, reply_len: usize) -> u16;
        pub fn card_tick(
            table: *mut u8,
            table_len: usize,
            milliseconds: u32,
            answer: *mut u8,
            answer_len: usize,
            reply: *mut u8,
            reply_len: usize,
        ) -> u16;
    }
}

pub const ENTRIES: Entries = Entries { set_up, command, reads, writes, excursion, tick };

/// NULL for an empty region, as include/card.h allows: so that is tried too.
fn start(region: &[u8]) -> *const u8 {
    if region.is_empty() {
        ptr::null()
    } else {
        region.as_ptr()
    }
}

fn start_mut(region: &mut [u8]) -> *mut u8 {
    if region.is_empty() {
        ptr::null_mut()
    } else {
        region.as_mut_ptr()
    }
}

// In each function below, the pointers and lengths are those of slices that live through the call, and slices lent for writing
// overlap no other: what the C functions ask for.

fn set_up(table: &mut [u8], bodies: &[u8]) -> u16 {
    unsafe { raw::card_set_up(start_mut(table), table.len(), start(bodies), bodies.len()) }
}

fn command(table: &mut [u8], command: &[u8], data: &[u8], answer: &mut [u8], reply: &mut [u8]) -> u16 {
    unsafe {
        raw::card_command(
            start_mut(table),
            table.len(),
            start(command),
            command.len(),
            start(data),
            data.len(),
            start_mut(answer),
            answer.len(),
            start_mut(reply),
            reply.len(),
        )
    }
}

fn reads(table: &mut [u8], set: u16, count: u16, reply: &mut [u8]) -> u16 {
    unsafe { raw::card_reads(start_mut(table), table.len(), set, count, start_mut(reply), reply.len()) }
}

fn writes(table: &mut [u8], set: u16, count: u16, reply: &mut [u8]) -> u16 {
    unsafe { raw::card_writes(start_mut(table), table.len(), set, count, start_mut(reply), reply.len()) }
}

fn excursion(table: &mut [u8], set: u16, reply: &mut [u8]) -> u16 {
    unsafe { raw::card_excursion(start_mut(table), table.len(), set, start_mut(reply), reply.len()) }
}

fn tick(table: &mut [u8], milliseconds: u32, answer: &mut [u8], reply: &mut [u8]) -> u16 {
    let (room, said) = (answer.len(), reply.len());
    unsafe { raw::card_tick(start_mut(table), table.len(), milliseconds, start_mut(answer), room, start_mut(reply), said) }
}
