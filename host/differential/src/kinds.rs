//! The kinds of tests. Each gives a line that says what it did, or the run
//! after which something doesn't hold.

mod damage;
mod examples;
mod finding;
mod meter;
mod orders;
mod rebuild;
mod runs;
mod set_failures;
mod sweeps;

use crate::run::Failure;

/// What can be chosen by hand.
#[derive(Clone, Copy)]
pub struct Options {
    /// How many calls the random runs make together.
    pub calls: usize,
    /// What the random tests start from.
    pub seed: u64,
}

/// One kind of test.
pub struct Kind {
    pub name: &'static str,
    pub test: fn(&Options) -> Result<String, Failure>,
}

/// All kinds, in the order in which they are run.
pub const ALL: [Kind; 20] = [
    Kind { name: "examples", test: examples::test },
    Kind { name: "meter", test: meter::test },
    Kind { name: "set-failures", test: set_failures::test },
    Kind { name: "lent-sizes", test: sweeps::lent_sizes },
    Kind { name: "headers", test: sweeps::headers },
    Kind { name: "repeats", test: sweeps::repeats },
    Kind { name: "classes", test: sweeps::classes },
    Kind { name: "instances", test: sweeps::instances },
    Kind { name: "indices", test: sweeps::indices },
    Kind { name: "masks", test: sweeps::masks },
    Kind { name: "contents", test: sweeps::contents },
    Kind { name: "reports", test: sweeps::reports },
    Kind { name: "full-tables", test: sweeps::full_tables },
    Kind { name: "finding", test: finding::test },
    Kind { name: "random-runs", test: runs::test },
    Kind { name: "orders", test: orders::test },
    Kind { name: "flipped-stores", test: damage::flipped },
    Kind { name: "foreign-stores", test: damage::foreign },
    Kind { name: "rebuilt-states", test: rebuild::test },
    Kind { name: "idle-bytes", test: damage::idle_bytes },
];

const SMALL: u8 = 1;
const LARGE: u8 = 2;
const METER: u8 = 3;
const PRODUCTS: [u8; 3] = [SMALL, LARGE, METER];
/// Those in which the exchange can create, delete and set.
const BOTH: [u8; 2] = [SMALL, LARGE];
