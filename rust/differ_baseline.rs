//! Holds the baseline to the model: `differ_baseline [SEED [ITEMS]]`.

mod baseline;

fn main() {
    let (seed, items, _) = trials::holding::arguments(1, 200_000);
    trials::run("baseline", &mut baseline::ENTRIES.clone(), seed, items);
}
