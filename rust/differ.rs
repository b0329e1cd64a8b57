//! Holds the library of libcard_c.a to the model: `differ [SEED [ITEMS]]`.

mod card_c;

fn main() {
    let (seed, items, _) = trials::holding::arguments(1, 1_000_000);
    trials::run("card_c", &mut card_c::ENTRIES.clone(), seed, items);
}
