//! Finding an instance: tables of 1 to 40 created instances, made in any order.
//! Each of them is looked for, and so are those with the next lower and the next
//! higher number and the one with its number in the other class: by a Get, a
//! Delete and a Create, which must find exactly what was made. Of UNIs, which are
//! there by themselves, a Get must find exactly those that the product has.

use std::collections::BTreeSet;

use exchange::{Maker, DELETE, GET};

use super::{Options, BOTH, LARGE, PRODUCTS};
use crate::bench::Bench;
use crate::pair::Seen;
use crate::random::Random;
use crate::run::Failure;
use crate::step::Call;

const UNI: u16 = 11;
const BRIDGE: u16 = 45;
const PORT: u16 = 47;

const DONE: u8 = 0;
const UNKNOWN_INSTANCE: u8 = 5;
const INSTANCE_EXISTS: u8 = 7;

/// Numbers that are tried often: at the ends, and around a byte's end.
const EDGES: [u16; 6] = [0, 1, 0x00FF, 0x0100, 0xFFFE, 0xFFFF];

/// Where what is looked for stands among the created instances, by key.
const SORTS: [&str; 7] = [
    "the only one",
    "the first",
    "one in between",
    "the last",
    "none, before all",
    "none, in between",
    "none, behind all",
];

type Key = (u16, u16);

pub fn test(options: &Options) -> Result<String, Failure> {
    let mut counts = [0; SORTS.len()];
    let mut random = Random::part(options.seed, 0x6669_6E64);
    for product in BOTH {
        for places in 1..=40 {
            look_for_all(product, places, &mut random, &mut counts)?;
        }
    }
    let mut unis = 0;
    for product in PRODUCTS {
        unis += look_for_unis(product)?;
    }
    let never: Vec<&str> = (0..SORTS.len()).filter(|&i| counts[i] == 0).map(|i| SORTS[i]).collect();
    Bench::new().demand(never.is_empty(), &format!("never looked for: {}", never.join("; ")))?;
    let all: usize = counts.iter().sum();
    let lines: Vec<String> =
        SORTS.iter().zip(counts).map(|(sort, count)| format!("  {sort}: {count}")).collect();
    Ok(format!("{all} searches in tables of 1 to 40 places, {unis} for UNIs\n{}", lines.join("\n")))
}

fn look_for_all(
    product: u8,
    places: usize,
    random: &mut Random,
    counts: &mut [usize; SORTS.len()],
) -> Result<(), Failure> {
    let mut maker = Maker::new(0x1000);
    let mut bench = Bench::powered(product)?;
    let made = make(&mut bench, &mut maker, places, random)?;
    for &key in &made {
        for sought in neighbours(key) {
            look_for(&bench, &mut maker, sought, &made)?;
            counts[sort_of(sought, &made)] += 1;
        }
    }
    Ok(())
}

/// Every number is tried.
fn look_for_unis(product: u8) -> Result<usize, Failure> {
    let last = if product == LARGE { 0x0104 } else { 0x0101 };
    let mut maker = Maker::new(0x1000);
    let bench = Bench::powered(product)?;
    for number in 0..=u16::MAX {
        let found = if (0x0101..=last).contains(&number) { DONE } else { UNKNOWN_INSTANCE };
        let seen = bench.probe(Call::handle(&maker.command(GET, UNI, number, &[0x80, 0])))?;
        bench.demand(seen.result() == found, &format!("a Get of UNI {number:#06x}"))?;
    }
    Ok(1 << 16)
}

/// Bridges first, as ports must name one; in any order otherwise.
fn make(
    bench: &mut Bench,
    maker: &mut Maker,
    places: usize,
    random: &mut Random,
) -> Result<BTreeSet<Key>, Failure> {
    let bridges = 1 + random.below(places);
    let mut made = BTreeSet::new();
    let mut named = 0;
    while made.len() < places {
        let number = if random.per_mille(300) { random.pick(&EDGES) } else { random.word() };
        let class = if made.len() < bridges { BRIDGE } else { PORT };
        if !made.insert((class, number)) {
            continue;
        }
        let message = if class == BRIDGE {
            named = number;
            maker.bridge(number)
        } else {
            maker.port(number, named)
        };
        let seen = bench.call(Call::handle(&message))?;
        bench.demand(seen.is_done(), "the table must fill")?;
    }
    Ok(made)
}

fn neighbours((class, number): Key) -> [Key; 4] {
    let other = BRIDGE + PORT - class;
    [
        (class, number),
        (class, number.wrapping_sub(1)),
        (class, number.wrapping_add(1)),
        (other, number),
    ]
}

/// A Create of what is there is answered 7, and of nothing else.
fn look_for(
    bench: &Bench,
    maker: &mut Maker,
    sought: Key,
    made: &BTreeSet<Key>,
) -> Result<(), Failure> {
    let (class, number) = sought;
    let there = made.contains(&sought);
    let found = if there { DONE } else { UNKNOWN_INSTANCE };
    let ask = |message: [u8; 48]| bench.probe(Call::handle(&message));
    let wrong = |command: &str, seen: &Seen| {
        let result = seen.result();
        bench.failure(format!("{command} of {class}, {number:#06x}: {result}, there: {there}"))
    };
    let get = ask(maker.command(GET, class, number, &[0x80, 0]))?;
    if get.result() != found {
        return Err(wrong("Get", &get));
    }
    let delete = ask(maker.command(DELETE, class, number, &[]))?;
    if delete.result() != found {
        return Err(wrong("Delete", &delete));
    }
    let bridge = made.first().map_or(0, |&(_, number)| number);
    let create =
        ask(if class == BRIDGE { maker.bridge(number) } else { maker.port(number, bridge) })?;
    if (create.result() == INSTANCE_EXISTS) != there {
        return Err(wrong("Create", &create));
    }
    Ok(())
}

fn sort_of(sought: Key, made: &BTreeSet<Key>) -> usize {
    let before = made.range(..sought).count();
    let behind = made.len() - before;
    match (made.contains(&sought), before, behind) {
        (true, 0, 1) => 0,
        (true, 0, _) => 1,
        (true, _, 1) => 3,
        (true, ..) => 2,
        (false, 0, _) => 4,
        (false, _, 0) => 6,
        (false, ..) => 5,
    }
}
