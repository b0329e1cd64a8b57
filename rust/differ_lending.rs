//! Holds the two functions over references to the model, by way of the proved program `lending`:
//! `differ_lending SEED ITEMS PROGRAM [ARGUMENTS..]`, where the program is given as it is started.

use trials::cases::{hold_cases, LENT_CASES};
use trials::lending::hold_lending;
use trials::streams::{Lent, Program};

fn main() {
    let (seed, items, program) = trials::holding::arguments(1, 100_000);
    let mut lending = Program::start(Lent::Record, &program);
    if !(hold_cases("lending", &mut lending, LENT_CASES) && hold_lending("lending", &mut lending, seed, items)) {
        std::process::exit(1);
    }
}
