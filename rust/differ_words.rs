//! Holds the functions on words to the model, by way of the proved program `calling`:
//! `differ_words SEED ITEMS PROGRAM [ARGUMENTS..]`, where the program is given as it is started.

use trials::streams::{Lent, Program};

fn main() {
    let (seed, items, program) = trials::holding::arguments(1, 1_000_000);
    trials::run("calling", &mut Program::start(Lent::Words, &program), seed, items);
}
