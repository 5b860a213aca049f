//! Damaged and foreign stores for the proved engine. They must never lead to a
//! fault: either they are dropped with 2 and nothing changes, or they are a
//! state, and then the engine does the same with two copies of it.

use std::collections::BTreeSet;

use exchange::{
    command, Maker, ALARMS_NEXT, BRIDGE, CREATE, DELETE, GET, GET_ALL_ALARMS, RESET, SET, UPLOAD,
    UPLOAD_NEXT,
};
use ordinary_engine::catalogue::{Class, Rule, Source};

use super::{Options, BOTH, LARGE, PRODUCTS, SMALL};
use crate::bench::Bench;
use crate::generator::Generator;
use crate::pair::Seen;
use crate::random::Random;
use crate::run::Failure;
use crate::step::{Call, Lent, Step};

/// The command that every reached state was last sent.
fn last_command() -> [u8; 48] {
    command(0x7ABC, GET, 11, 0x0101, &[0xFC, 0])
}

/// States of all sorts: fresh, furnished, full, and at the end of random runs.
pub fn reached(options: &Options) -> Result<Vec<Bench>, Failure> {
    let mut benches = Vec::new();
    for product in PRODUCTS {
        benches.push(Bench::powered(product)?);
        let mut bench = Bench::furnished(product)?;
        bench.call(Call::handle(&last_command()))?;
        benches.push(bench);
    }
    benches.push(full(LARGE, 13)?);
    benches.push(full(SMALL, 27)?);
    for part in 0..2 {
        benches.push(random_run(options, part)?);
    }
    Ok(benches)
}

/// All 40 places in use, live and frozen.
fn full(product: u8, bridges: u16) -> Result<Bench, Failure> {
    let mut bench = Bench::powered(product)?;
    let mut maker = Maker::new(0x0100);
    for number in 0..40 {
        let message = if number < bridges {
            maker.bridge(number * 0x0321)
        } else {
            maker.port(number * 0x0123, number % bridges * 0x0321)
        };
        let seen = bench.call(Call::handle(&message))?;
        bench.demand(seen.is_done(), "a Create must be accepted")?;
    }
    for call in [
        Call::report_attribute(46, 0x0321, 3, &[0x55; 8]),
        Call::report_alarm(11, 0x0101, 0, true),
        Call::handle(&maker.command(GET_ALL_ALARMS, 2, 0, &[])),
        Call::handle(&maker.command(UPLOAD, 2, 0, &[])),
        Call::handle(&last_command()),
    ] {
        bench.call(call)?;
    }
    Ok(bench)
}

fn random_run(options: &Options, part: u64) -> Result<Bench, Failure> {
    let mut random = Random::part(options.seed, 0x6461_6D61 + part);
    let product = random.pick(&BOTH);
    let mut generator = Generator::new(Random::new(random.next()), product);
    let mut bench = Bench::powered(product)?;
    for _ in 0..300 {
        let call = generator.call();
        let seen = bench.call(call.clone())?;
        generator.learn(&call, &seen);
    }
    bench.call(Call::handle(&last_command()))?;
    Ok(bench)
}

/// Calls of every entry and of every message that is built.
fn calls() -> Vec<Call> {
    let mut maker = Maker::new(0x6000);
    let mut calls = vec![Call::handle(&last_command())];
    for (number, class, instance, contents) in [
        (GET, 2, 0, &[0x80, 0][..]),
        (UPLOAD, 2, 0, &[]),
        (UPLOAD_NEXT, 2, 0, &[0, 2]),
        (CREATE, 45, 0x0123, &BRIDGE),
        (GET, 46, 0x0300, &[0xFC, 0]),
        (DELETE, 45, 0x0300, &[]),
        (GET_ALL_ALARMS, 2, 0, &[]),
        (ALARMS_NEXT, 2, 0, &[0, 0]),
        (SET, 47, 0x0009, &[0x08, 0, 0, 9]),
        (UPLOAD_NEXT, 2, 0, &[0, 40]),
        (SET, 11, 0x0101, &[0x80, 0, 9]),
        (RESET, 2, 0, &[]),
    ] {
        calls.push(Call::handle(&maker.command(number, class, instance, contents)));
    }
    calls.push(Call::report_attribute(46, 0x0300, 1, &[9; 6]));
    calls.push(Call::report_attribute(11, 0x0101, 6, &[1]));
    calls.push(Call::report_alarm(11, 0x0101, 0, false));
    calls
}

/// How many stores were unsound, and how many were states.
#[derive(Default)]
struct Tally {
    unsound: usize,
    sound: usize,
}

impl Tally {
    fn count(&mut self, seen: &Option<Seen>) {
        match seen {
            Some(seen) if seen.number == 2 => self.unsound += 1,
            _ => self.sound += 1,
        }
    }
}

/// Every byte of several reached stores changed in turn, in three ways.
pub fn flipped(options: &Options) -> Result<String, Failure> {
    let benches = reached(options)?;
    let calls: Vec<Step> = calls().into_iter().map(Step::from).collect();
    let mut tally = Tally::default();
    let mut turn = 0;
    for bench in &benches {
        for at in 0..bench.pair().proved_store().len() {
            for xor in [0x01, 0x80, 0xFF] {
                let mut steps = vec![Step::Damage { at, xor }];
                // Each damaged store meets two of the calls; their turn moves
                // on, so that all calls meet damage everywhere.
                for _ in 0..2 {
                    steps.push(calls[turn % calls.len()].clone());
                    turn += 1;
                }
                turn += usize::from(turn % calls.len() == 0);
                let seen = bench.probe_all(&steps)?;
                tally.count(&seen[1]);
            }
        }
    }
    Ok(format!(
        "{} stores reached, {} damaged ones: {} unsound, {} states",
        benches.len(),
        tally.unsound + tally.sound,
        tally.unsound,
        tally.sound
    ))
}

/// Stores that no run has reached: random bytes, parts of two stores together,
/// parts moved within a store. Each is also lent cut off and with more behind.
pub fn foreign(options: &Options) -> Result<String, Failure> {
    let benches = reached(options)?;
    let all_calls = calls();
    let calls: Vec<Step> = all_calls.iter().cloned().map(Step::from).collect();
    let fresh: Vec<Bench> = PRODUCTS.into_iter().map(Bench::powered).collect::<Result<_, _>>()?;
    let mut random = Random::part(options.seed, 0x666F_7265);
    let mut tally = Tally::default();
    for turn in 0..FOREIGN {
        let bytes = foreign_bytes(&benches, &mut random);
        let mut steps = vec![Step::Replace { bytes }];
        for index in 0..3 {
            steps.push(calls[(turn + index * 5) % calls.len()].clone());
        }
        let missing = 1 + random.below(fresh[0].pair().proved_store().len());
        for (index, lent) in [Lent::Shorter(missing), Lent::Longer(missing)].into_iter().enumerate()
        {
            let call = all_calls[(turn + index) % all_calls.len()].clone();
            steps.push(call.lending(lent, 48).into());
        }
        let seen = fresh[0].probe_all(&steps)?;
        tally.count(&seen[1]);
        if turn % 16 == 0 {
            power_on_over(&fresh, &steps[0])?;
        }
    }
    Ok(format!("{FOREIGN} foreign stores: {} unsound, {} states", tally.unsound, tally.sound))
}

/// How many foreign stores are tried.
const FOREIGN: usize = 20_000;

/// Power-on writes the same fresh state over whatever there was.
fn power_on_over(fresh: &[Bench], replace: &Step) -> Result<(), Failure> {
    for (product, bench) in PRODUCTS.into_iter().zip(fresh) {
        let mut over = bench.clone();
        over.step(replace.clone())?;
        over.call(Call::power_on(product))?;
        over.demand(
            over.pair().proved_store() == bench.pair().proved_store(),
            "power-on must write the same bytes whatever the store held",
        )?;
    }
    Ok(())
}

pub fn foreign_bytes(benches: &[Bench], random: &mut Random) -> Vec<u8> {
    let one = benches[random.below(benches.len())].pair().proved_store();
    let other = benches[random.below(benches.len())].pair().proved_store();
    let size = one.len();
    let mut bytes = one.to_vec();
    let start = random.below(size);
    let end = start + random.below(size - start) + 1;
    match random.below(10) {
        0 => random.fill(&mut bytes),
        1 => bytes.fill(random.byte()),
        2 => {
            // Random bytes that are mostly zero, behind a likely beginning.
            let kept = random.below(64);
            for byte in &mut bytes[kept..] {
                *byte = if random.per_mille(20) { random.byte() } else { 0 };
            }
        }
        3 | 4 => bytes[start..].copy_from_slice(&other[start..]),
        5 | 6 => bytes[start..end].copy_from_slice(&other[start..end]),
        7 => {
            // A part moved within the store.
            let length = random.below(80).min(size - start);
            let to = random.below(size - length + 1);
            bytes.copy_within(start..start + length, to);
        }
        8 => {
            // Two parts exchanged.
            let length = 1 + random.below(60);
            for index in 0..length {
                let (one, other) = ((start + index) % size, (end + index) % size);
                bytes.swap(one, other);
            }
        }
        _ => {
            for _ in 0..1 + random.below(4) {
                let at = random.below(size);
                bytes[at] = random.byte();
            }
        }
    }
    bytes
}

/// One state, one encoding: a byte that can be changed without any difference
/// to be seen encodes nothing, and only a few are excused. The other way round,
/// whatever may have any content can be changed without being dropped.
pub fn idle_bytes(_: &Options) -> Result<String, Failure> {
    let mut told = Vec::new();
    for product in PRODUCTS {
        // That an alarm walk was begun when there was no alarm can't be seen.
        let fresh = Bench::powered(product)?;
        told.push(count_idle_bytes(&fresh, 1, false)?);
        // Of the remembered command it can be seen only whether the next one
        // equals it: its 40 bytes may change unseen.
        let mut furnished = Bench::furnished(product)?;
        furnished.call(Call::handle(&last_command()))?;
        told.push(count_idle_bytes(&furnished, 40, true)?);
    }
    Ok(told.join("; "))
}

const PATTERNS: [u8; 4] = [0x01, 0x02, 0x40, 0x80];

/// A byte of a reply, by the step that it answers, and how it was changed.
type Change = (usize, usize, u8);

fn count_idle_bytes(bench: &Bench, excused: usize, remembers: bool) -> Result<String, Failure> {
    let reading = reading_out();
    let undamaged = bench.probe_all(&with_damage(0, 0, &reading))?;
    let mut idle = BTreeSet::new();
    let mut changes = BTreeSet::new();
    let mut states = 0;
    for at in 0..bench.pair().proved_store().len() {
        for xor in PATTERNS {
            let first = bench.probe_all(&with_damage(at, xor, &reading[..1]))?;
            if matches!(&first[1], Some(seen) if seen.number == 2) {
                continue;
            }
            states += 1;
            let seen = bench.probe_all(&with_damage(at, xor, &reading))?;
            if seen == undamaged {
                idle.insert(at);
            }
            add_changes(&mut changes, &undamaged, &seen);
        }
    }
    let what = format!("bytes {idle:?} of the proved engine's store seem to encode nothing");
    bench.demand(idle.len() <= excused, &what)?;
    let free = free_bytes(&undamaged, remembers);
    for &(step, byte) in &free {
        let all = PATTERNS.iter().all(|&xor| changes.contains(&(step, byte, xor)));
        let what = format!(
            "byte {byte} of the reply to {} may be anything, but no sound store shows it changed",
            reading[step - 1]
        );
        bench.demand(all, &what)?;
    }
    let (idle, free) = (idle.len(), free.len());
    Ok(format!("{states} changed states, {idle} idle bytes, {free} free ones"))
}

fn add_changes(changes: &mut BTreeSet<Change>, before: &[Option<Seen>], after: &[Option<Seen>]) {
    for (step, (before, after)) in before.iter().zip(after).enumerate() {
        let (Some(before), Some(after)) = (before, after) else {
            continue;
        };
        for (byte, (before, after)) in before.reply.iter().zip(&after.reply).enumerate() {
            if before != after {
                changes.insert((step, byte, before ^ after));
            }
        }
    }
}

/// The bytes of replies that a sound store may show with any content: those of
/// the remembered reply, the counter, and attributes without a rule in both
/// tables. A bridge that a port names may be absent, so its number is free too.
fn free_bytes(undamaged: &[Option<Seen>], remembers: bool) -> Vec<(usize, usize)> {
    let mut free = vec![(COUNTER_STEP, 11)];
    if remembers {
        free.extend((0..48).map(|byte| (1, byte)));
    }
    for step in FROZEN_STEPS.chain(LIVE_STEPS) {
        let Some(seen) = &undamaged[step] else {
            continue;
        };
        let number = |at: usize| u16::from_be_bytes([seen.reply[at], seen.reply[at + 1]]);
        let (class, mask) = (number(8), number(12));
        let Some(class) = Class::from_number(class) else {
            continue;
        };
        let mut at = 14;
        for attribute in class.attributes_of_any_product() {
            if mask & attribute.bit() == 0 {
                continue;
            }
            let any = matches!(attribute.rule, Rule::Any | Rule::Pointer(Class::BridgeProfile));
            if any && matches!(attribute.source, Source::Stored(_)) {
                free.extend((at..at + attribute.size).map(|byte| (step, byte)));
            }
            at += attribute.size;
        }
    }
    free
}

// The steps of `reading_out`, behind the damage, which is step 0.
const FROZEN_STEPS: std::ops::Range<usize> = 2..22;
const COUNTER_STEP: usize = 27;
const LIVE_STEPS: std::ops::Range<usize> = 29..49;

fn with_damage(at: usize, xor: u8, reading: &[Step]) -> Vec<Step> {
    let mut steps = vec![Step::Damage { at, xor }];
    steps.extend_from_slice(reading);
    steps
}

/// Shows all that can be seen of a furnished state: the remembered reply, both
/// frozen copies, the table, the alarms and both numbers.
fn reading_out() -> Vec<Step> {
    let mut maker = Maker::new(0x6000);
    let mut messages = vec![last_command()];
    for index in 0..20u16 {
        messages.push(maker.command(UPLOAD_NEXT, 2, 0, &index.to_be_bytes()));
    }
    for index in 0..5u16 {
        messages.push(maker.command(ALARMS_NEXT, 2, 0, &index.to_be_bytes()));
    }
    messages.push(maker.command(GET, 2, 0, &[0x80, 0]));
    messages.push(maker.command(UPLOAD, 2, 0, &[]));
    for index in 0..20u16 {
        messages.push(maker.command(UPLOAD_NEXT, 2, 0, &index.to_be_bytes()));
    }
    let mut steps: Vec<Step> =
        messages.iter().map(|message| Call::handle(message).into()).collect();
    for on in [false, true] {
        steps.push(Call::report_alarm(11, 0x0101, 0, on).into());
    }
    let messages = [
        maker.command(GET_ALL_ALARMS, 2, 0, &[]),
        maker.command(ALARMS_NEXT, 2, 0, &[0, 0]),
        maker.command(ALARMS_NEXT, 2, 0, &[0, 1]),
        maker.command(ALARMS_NEXT, 2, 0, &[0, 2]),
    ];
    steps.extend(messages.iter().map(|message| Step::from(Call::handle(message))));
    steps
}
