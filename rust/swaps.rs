//! Tries on the library of libcard_c.a that items which name different sets may change places: `swaps [SEED [ITEMS]]`.

mod card_c;

fn main() {
    let (seed, items, _) = trials::holding::arguments(1, 1_000_000);
    if !trials::swapping::hold_swapping("card_c", &card_c::ENTRIES, seed, items) {
        std::process::exit(1);
    }
}
