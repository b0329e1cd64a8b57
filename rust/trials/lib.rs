//! Trials that hold an implementation of the card's functions to the model: cases with a name, and random ones.

pub mod asking;
pub mod calls;
pub mod cases;
pub mod counts;
pub mod damage;
pub mod entries;
pub mod finding;
pub mod holding;
pub mod lending;
pub mod random;
pub mod samples;
pub mod streams;
pub mod swapping;

/// How many items are given for each host that asks for all sets.
const ITEMS_FOR_A_HOST: u64 = 200;

/// Gives the cases and so many random items to one that takes calls, has hosts ask it for all its sets, and names each set of each
/// card to it. Ends the program with 1 where it does not do as it should.
pub fn run(name: &str, taker: &mut dyn calls::Takes, seed: u64, items: u64) {
    if !(cases::hold_cases(name, taker, cases::CASES)
        && holding::hold(name, taker, seed, items)
        && asking::hold_asking(name, taker, seed, items / ITEMS_FOR_A_HOST)
        && finding::hold_finding(name, taker))
    {
        std::process::exit(1);
    }
}
