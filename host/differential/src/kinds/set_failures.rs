//! A Set says which attributes failed: the answers to Sets, and to Creates with
//! bad contents, are sorted and counted. The list below has every sort that
//! documents 01 and 02 (ticket 9) leave; each must be met, and no other.
//!
//! An answer is judged by the product, the call and a table of rights of its own,
//! and compared whole. The reply is believed about three things: which created
//! instances are there, that a Create's instance exists, and a port's pointers,
//! TPType and attribute 9. A Create that is bad in these alone isn't counted.

mod messages;
mod rights;

use std::collections::BTreeMap;

use exchange::{CREATE, SET};
use ordinary_engine::catalogue::Product::{self, Large, Meter, Small};

use self::rights::{bad_bits, is_there, rights};
use super::Options;
use crate::bench::Bench;
use crate::generator::Generator;
use crate::pair::Seen;
use crate::random::Random;
use crate::run::Failure;
use crate::step::{hex, Call};

/// The sorts, each with the products that give such answers.
const ANSWERS: [(&str, &[Product]); 16] = [
    ("Set of a known class: result 2", &[Meter]),
    ("Set of an unknown class: result 4", &[Small, Large, Meter]),
    ("Set: result 5", &[Small, Large]),
    ("Set: result 3 for a zero mask", &[Small, Large]),
    ("Set: result 9 for unsupported bits", &[Small, Large]),
    ("Set: result 9 for unwritable bits", &[Small, Large]),
    ("Set: result 9 for both", &[Small, Large]),
    ("Set: result 9 for unsupported bits beside bad contents", &[Small, Large]),
    ("Set: result 9 for unwritable bits beside bad contents", &[Small, Large]),
    ("Set: result 9 for both beside bad contents", &[Small, Large]),
    ("Set: result 9 for one bad content", &[Small, Large]),
    ("Set: result 9 for two bad contents", &[Small, Large]),
    ("Set: result 9 for three or more bad contents", &[Small, Large]),
    ("Set: result 0", &[Small, Large]),
    ("Create with bad contents: result 3 for them", &[Small, Large]),
    ("Create with bad contents: result 7", &[Small, Large]),
];

/// The random runs, and the calls of each.
const RUNS: usize = 60;
const LENGTH: usize = 500;

pub fn test(options: &Options) -> Result<String, Failure> {
    let mut counts = Counts::default();
    for product in Product::ALL {
        for bench in [Bench::powered(product.number())?, Bench::furnished(product.number())?] {
            for message in messages::all(product) {
                counts.probe(&bench, Call::handle(&message))?;
            }
        }
    }
    for run in 0..RUNS {
        let product = Product::ALL[run % Product::ALL.len()];
        random_run(product, Random::part(options.seed, 0x6661_696C + run as u64), &mut counts)?;
    }
    let never = counts.never().join("; ");
    Bench::new().demand(never.is_empty(), &format!("never met: {never}"))?;
    let all: usize = counts.counts.values().sum();
    Ok(format!("{all} answers to Sets, and to Creates with bad contents\n{}", counts.table()))
}

fn random_run(product: Product, mut random: Random, counts: &mut Counts) -> Result<(), Failure> {
    let mut generator = Generator::new(Random::new(random.next()), product.number());
    let mut bench = Bench::powered(product.number())?;
    for _ in 0..LENGTH {
        let call = generator.call();
        let seen = bench.call(call.clone())?;
        counts.count(&bench, &call, &seen).map_err(|why| bench.failure(why))?;
        generator.learn(&call, &seen);
    }
    Ok(())
}

/// How often each sort of answer was met, by product.
#[derive(Default)]
struct Counts {
    counts: BTreeMap<(&'static str, u8), usize>,
}

impl Counts {
    /// Makes a call and counts the answer; the bench stays.
    fn probe(&mut self, bench: &Bench, call: Call) -> Result<(), Failure> {
        let seen = bench.probe(call.clone())?;
        self.count(bench, &call, &seen).map_err(|why| {
            let mut failure = bench.failure(why);
            failure.steps.push(call.into());
            failure
        })
    }

    fn count(&mut self, bench: &Bench, call: &Call, seen: &Seen) -> Result<(), String> {
        let (Call::Handle { message, .. }, 0) = (call, seen.number) else { return Ok(()) };
        let product = bench.pair().product().ok_or("answered before power-on")?;
        let Some((answer, first)) = sort_of(product, message, seen.contents()) else {
            return Ok(());
        };
        let listed = ANSWERS.iter().any(|&(name, of)| name == answer && of.contains(&product));
        let mut expected = [0; 32];
        expected[..first.len()].copy_from_slice(&first);
        if !listed || seen.contents() != expected {
            let (expected, shown) = (hex(&expected), hex(seen.contents()));
            return Err(format!("{product:?}, {answer}: expected {expected}, got {shown}"));
        }
        *self.counts.entry((answer, product.number())).or_default() += 1;
        Ok(())
    }

    fn of(&self, answer: &'static str, product: Product) -> usize {
        self.counts.get(&(answer, product.number())).copied().unwrap_or(0)
    }

    fn never(&self) -> Vec<String> {
        let all = ANSWERS.iter().flat_map(|(answer, of)| of.iter().map(|it| (*answer, *it)));
        all.filter(|&(answer, product)| self.of(answer, product) == 0)
            .map(|(answer, product)| format!("{product:?}, {answer}"))
            .collect()
    }

    fn table(&self) -> String {
        let lines = ANSWERS.map(|(answer, of)| {
            let counts: Vec<String> =
                of.iter().map(|it| format!("{} in {it:?}", self.of(answer, *it))).collect();
            format!("  {answer}: {}", counts.join(", "))
        });
        lines.join("\n")
    }
}

/// A sort, and what the contents of such an answer begin with; zeros follow.
type Sort = (&'static str, [u8; 5]);

fn sort_of(product: Product, message: &[u8], shown: &[u8]) -> Option<Sort> {
    let (class, carried) = (number_at(message, 4), &message[8..40]);
    // The call doesn't say which instances were created: there the reply is taken
    // at its word.
    let there = is_there(product, class, number_at(message, 6)).unwrap_or(shown[0] != 5);
    match (message[2] & 0x1F, rights(product, class)) {
        (SET, None) => Some(("Set of an unknown class: result 4", contents(4, 0, 0))),
        (SET, Some(_)) if product == Meter => {
            Some(("Set of a known class: result 2", contents(2, 0, 0)))
        }
        (SET, Some(_)) if !there => Some(("Set: result 5", contents(5, 0, 0))),
        (SET, Some(rights)) => Some(sort_of_set(class, rights, carried)),
        (CREATE, Some(_)) => sort_of_create(class, carried, shown),
        _ => None,
    }
}

/// The sort of an answer to a Set of an instance that is there. What a class
/// lacks has higher numbers than what it has, so the values of what it has come
/// first and can be told apart.
fn sort_of_set(class: u16, (has, writable): (u16, u16), carried: &[u8]) -> Sort {
    let asked = number_at(carried, 0);
    let (unsupported, unwritable) = (asked & !has, asked & has & !writable);
    let bad = bad_bits(class, asked & has, &carried[2..]) & writable;
    let answer = match (unsupported, unwritable, bad.count_ones()) {
        _ if asked == 0 => return ("Set: result 3 for a zero mask", contents(3, 0, 0)),
        (0, 0, 0) => return ("Set: result 0", contents(0, 0, 0)),
        (0, 0, 1) => "Set: result 9 for one bad content",
        (0, 0, 2) => "Set: result 9 for two bad contents",
        (0, 0, _) => "Set: result 9 for three or more bad contents",
        (_, 0, 0) => "Set: result 9 for unsupported bits",
        (_, 0, _) => "Set: result 9 for unsupported bits beside bad contents",
        (0, _, 0) => "Set: result 9 for unwritable bits",
        (0, _, _) => "Set: result 9 for unwritable bits beside bad contents",
        (_, _, 0) => "Set: result 9 for both",
        (_, _, _) => "Set: result 9 for both beside bad contents",
    };
    let failed = if (unsupported, unwritable) == (0, 0) { bad } else { unwritable };
    (answer, contents(9, unsupported, failed))
}

/// The sort of an answer to a Create, if it carries bad contents of what every
/// table and product judges alike. The rest may be bad too: of a port the two
/// pointers, TPType and attribute 9.
fn sort_of_create(class: u16, carried: &[u8], shown: &[u8]) -> Option<Sort> {
    let (named, rest) = match class {
        45 => (0xFE00, 0),
        47 => (0xFF80, 0xB080),
        _ => return None,
    };
    let bad = bad_bits(class, named, carried) & !rest;
    match (bad, shown[0]) {
        (0, _) => None,
        (_, 7) => Some(("Create with bad contents: result 7", contents(7, 0, 0))),
        _ => {
            let shown = contents(3, bad | number_at(shown, 1) & rest, 0);
            Some(("Create with bad contents: result 3 for them", shown))
        }
    }
}

/// The first contents of a reply: the result and the masks.
fn contents(result: u8, first: u16, second: u16) -> [u8; 5] {
    let ([one, two], [three, four]) = (first.to_be_bytes(), second.to_be_bytes());
    [result, one, two, three, four]
}

fn number_at(bytes: &[u8], at: usize) -> u16 {
    u16::from_be_bytes([bytes[at], bytes[at + 1]])
}
