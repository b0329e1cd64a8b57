//! The pages a command hands back.

use crate::set::{Configuration, Quantity, Set};

/// "512 data bytes" of feature 13h.
pub const CONFIGURATION_BYTES: usize = 512;
/// "0Ah, 512 bytes".
pub const SET_PAGE_BYTES: usize = 512;
/// 01: "0Bh, 72 bytes". 02: "Page 0Bh becomes 136 bytes."
pub const LIST_PAGE_BYTES: usize = 136;
/// "Identify 04h, 4,096 bytes".
pub const IDENTIFY_BYTES: usize = 4096;

/// 02: "An Identify answer still holds 31 entries".
pub const IDENTIFY_ENTRIES: usize = 31;
const IDENTIFY_ENTRY_BYTES: usize = 128;

/// "512 data bytes hold ENEV 1:0, reads threshold 39:32, writes 47:40, time 55:48, the rest zero when returned."
pub fn configuration_page(configuration: &Configuration) -> Vec<u8> {
    let mut page = vec![0; CONFIGURATION_BYTES];
    put(&mut page, 0, &configuration.enev.to_le_bytes());
    put(&mut page, 32, &configuration.thresholds[0].to_le_bytes());
    put(&mut page, 40, &configuration.thresholds[1].to_le_bytes());
    put(&mut page, 48, &configuration.thresholds[2].to_le_bytes());
    page
}

/// "0Ah, 512 bytes: 0 window (0, 1, 2); 3:2 events; 39:32 reads typical; 47:40 writes typical; 55:48 time maximum; 63:56 minimum
/// high; 71:64 minimum low; 135:128, 143:136, 151:144 the three estimates; the rest zero."
pub fn set_page(set: &Set) -> Vec<u8> {
    let mut page = vec![0; SET_PAGE_BYTES];
    page[0] = set.window as u8;
    put(&mut page, 2, &set.events.to_le_bytes());
    put(&mut page, 32, &set.attributes.reads_typical.to_le_bytes());
    put(&mut page, 40, &set.attributes.writes_typical.to_le_bytes());
    put(&mut page, 48, &set.attributes.time_maximum.to_le_bytes());
    put(&mut page, 56, &set.attributes.minimum_high.to_le_bytes());
    put(&mut page, 64, &set.attributes.minimum_low.to_le_bytes());
    put(&mut page, 128, &set.estimate(Quantity::Reads).to_le_bytes());
    put(&mut page, 136, &set.estimate(Quantity::Writes).to_le_bytes());
    put(&mut page, 144, &set.estimate(Quantity::Time).to_le_bytes());
    page
}

/// 01: "0Bh, 72 bytes: 7:0 number of entries, then two bytes each, rising, then zeros." 02: "Page 0Bh becomes 136 bytes." The sets
/// rise, so the listed ones do.
pub fn list_page(sets: &[Set]) -> Vec<u8> {
    let mut page = vec![0; LIST_PAGE_BYTES];
    let listed: Vec<&Set> = sets.iter().filter(|set| set.listed).collect();
    put(&mut page, 0, &(listed.len() as u64).to_le_bytes());
    for (entry, set) in listed.iter().enumerate() {
        put(&mut page, 8 + 2 * entry, &set.attributes.identifier.to_le_bytes());
    }
    page
}

/// 01: "byte 0 count; entries of 128 bytes from byte 128, sets with identifier at or above CDW11 15:0." 02: "An Identify answer
/// still holds 31 entries, so the host asks again from the last identifier plus one": the first 31 such sets, which byte 0 counts.
pub fn identify_page(sets: &[Set], from: u16) -> Vec<u8> {
    let mut page = vec![0; IDENTIFY_BYTES];
    let wanted = sets.iter().filter(|set| set.attributes.identifier >= from);
    let shown: Vec<&Set> = wanted.take(IDENTIFY_ENTRIES).collect();
    page[0] = shown.len() as u8;
    for (entry, set) in page[IDENTIFY_ENTRY_BYTES..].chunks_exact_mut(IDENTIFY_ENTRY_BYTES).zip(shown) {
        fill_identify_entry(entry, set);
    }
    page
}

/// "Entry: 1:0 identifier, 3:2 group, 11:8 random read typical, 15:12 optimal write size, 31:16 total, 47:32 unallocated, rest
/// zero."
fn fill_identify_entry(entry: &mut [u8], set: &Set) {
    put(entry, 0, &set.attributes.identifier.to_le_bytes());
    put(entry, 2, &set.attributes.group.to_le_bytes());
    put(entry, 8, &set.attributes.random_read_typical.to_le_bytes());
    put(entry, 12, &set.attributes.optimal_write_size.to_le_bytes());
    put(entry, 16, &set.attributes.total.to_le_bytes());
    put(entry, 32, &set.attributes.unallocated.to_le_bytes());
}

fn put(page: &mut [u8], at: usize, bytes: &[u8]) {
    page[at..at + bytes.len()].copy_from_slice(bytes);
}
