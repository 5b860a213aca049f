//! Sweeps: one thing is varied through all or many of its values.

use exchange::{
    command, port_contents, Maker, ALARMS_NEXT, BRIDGE, CLASSES, CREATE, DELETE, GET,
    GET_ALL_ALARMS, RESET, SET, UPLOAD, UPLOAD_NEXT,
};
use ordinary_engine::catalogue::{Attribute, Product, Rule};

use super::{Options, METER, PRODUCTS};
use crate::bench::Bench;
use crate::random::Random;
use crate::run::Failure;
use crate::step::{Call, Lent, Step};

/// Every length of message and reply up to 60, and stores too short and longer,
/// with every entry.
pub fn lent_sizes(_: &Options) -> Result<String, Failure> {
    let mut calls = 0;
    for product in PRODUCTS {
        let bench = Bench::furnished(product)?;
        let good = command(0x0102, SET, 11, 0x0101, &[0x80, 0, 9]);
        let long = [&good[..], &[0; 12]].concat();
        for length in 0..=60 {
            for room in 0..=60 {
                bench.probe(Call::handle(&long[..length]).lending(Lent::EXACTLY, room))?;
                calls += 1;
            }
        }
        let size = bench.pair().proved_store().len();
        for lent in store_lengths(size) {
            for room in [0, 47, 48, 49, 200] {
                for call in entries(&good) {
                    bench.probe(call.lending(lent, room))?;
                    calls += 1;
                }
            }
        }
        for product in 0..=255 {
            for lent in [Lent::EXACTLY, Lent::Shorter(1), Lent::Longer(7)] {
                bench.probe(Call::power_on(product).lending(lent, 0))?;
                calls += 1;
            }
        }
        calls += great_sizes(&bench, &good)?;
    }
    Ok(format!("{calls} calls"))
}

/// Sizes of which the low bytes alone would be taken for others.
fn great_sizes(bench: &Bench, good: &[u8; 48]) -> Result<usize, Failure> {
    let mut calls = 0;
    for beyond in [0x0100, 0x0001_0000] {
        for length in [0, 1, 2, 6, 8, 47, 48, 49] {
            let great = beyond + length;
            let mut message = good.to_vec();
            message.resize(great, 0);
            let content = vec![1; great];
            let lent = Lent::Longer(great);
            for call in [
                Call::handle(&message),
                Call::report_attribute(11, 0x0101, 2, &content),
                Call::report_attribute(46, 0x0300, 1, &content),
                Call::report_attribute(46, 0x0300, 3, &content),
                Call::handle(good).lending(Lent::EXACTLY, great),
                Call::handle(good).lending(lent, 48),
                Call::report_attribute(11, 0x0101, 2, &[0x77]).lending(lent, great),
                Call::report_alarm(11, 0x0101, 0, false).lending(lent, great),
                Call::power_on(2).lending(lent, 0),
                Call::power_on(3).lending(lent, 0),
            ] {
                bench.probe(call)?;
                calls += 1;
            }
        }
    }
    Ok(calls)
}

/// Every length from none to a bit, all around the size, and many between.
fn store_lengths(size: usize) -> Vec<Lent> {
    let mut lengths: Vec<Lent> = (1..=70).map(Lent::Shorter).collect();
    lengths.extend((size - 70..=size).map(Lent::Shorter));
    lengths.extend((70..size).step_by(97).map(Lent::Shorter));
    lengths.extend((0..=70).map(Lent::Longer));
    lengths
}

/// A call of every entry that takes a reply buffer; all would be accepted, but
/// for the Set and the report on a bridge in Meter.
fn entries(good: &[u8; 48]) -> [Call; 4] {
    [
        Call::handle(good),
        Call::report_attribute(11, 0x0101, 2, &[0x77]),
        Call::report_attribute(46, 0x0300, 3, &[9; 8]),
        Call::report_alarm(11, 0x0101, 0, false),
    ]
}

/// Every value of every byte of a message that would be answered, and pairs of
/// wrong bytes, which show the order of the drops.
pub fn headers(_: &Options) -> Result<String, Failure> {
    let mut calls = 0;
    for product in PRODUCTS {
        let bench = Bench::furnished(product)?;
        let good = command(0x0102, GET, 2, 0, &[0x80, 0]);
        for at in 0..good.len() {
            for value in 0..=255 {
                let mut message = good;
                message[at] = value;
                bench.probe(Call::handle(&message))?;
                calls += 1;
            }
        }
        let wrong: [(usize, u8); 12] = [
            (0, 0),
            (1, 0),
            (2, 0x09),
            (2, 0xC9),
            (2, 0x69),
            (2, 0x29),
            (3, 0x0B),
            (40, 1),
            (41, 1),
            (42, 1),
            (43, 0),
            (43, 0x29),
        ];
        for subset in 0..1u32 << wrong.len() {
            let mut message = good;
            for (index, &(at, value)) in wrong.iter().enumerate() {
                if subset >> index & 1 == 1 {
                    message[at] = value;
                }
            }
            bench.probe(Call::handle(&message))?;
            calls += 1;
        }
    }
    Ok(format!("{calls} calls"))
}

/// After a command of every number: the same again, and with every single bit
/// changed.
pub fn repeats(_: &Options) -> Result<String, Failure> {
    let mut calls = 0;
    for product in PRODUCTS {
        for number in (0..32).chain([SET, GET, CREATE]) {
            let mut bench = Bench::furnished(product)?;
            let message = sensible(product, number);
            let first = bench.call(Call::handle(&message))?;
            let again = bench.probe(Call::handle(&message).lending(Lent::Longer(3), 60))?;
            bench
                .demand(again.reply[..48] == first.reply[..], "a repeat must get its old reply")?;
            for bit in 0..48 * 8 {
                let mut near = message;
                near[bit / 8] ^= 0x80 >> (bit % 8);
                let steps: Vec<Step> =
                    [Call::handle(&near), Call::handle(&message)].map(Step::from).to_vec();
                bench.probe_all(&steps)?;
                calls += 2;
            }
            // Neither a report nor a drop in between makes it a new command.
            bench.call(Call::report_attribute(11, 0x0101, 2, &[number]))?;
            bench.call(Call::report_alarm(11, 0x0101, 0, number % 2 == 0))?;
            bench.call(Call::handle(&message[..47]))?;
            let again = bench.call(Call::handle(&message))?;
            bench.demand(again.reply == first.reply, "a repeat must get its old reply")?;
        }
    }
    Ok(format!("{calls} calls"))
}

/// A command of this number that a furnished bench accepts, if the product
/// accepts any.
fn sensible(product: u8, number: u8) -> [u8; 48] {
    let (class, instance, contents): (u16, u16, &[u8]) = match number {
        CREATE => (47, 0x1234, &port_contents(0x0300)),
        DELETE => (45, 0x0300, &[]),
        SET => (11, 0x0101, &[0x88, 0, 1, 1]),
        GET if product == METER => (11, 0x0101, &[0xCC, 0]),
        GET => (46, 0x0300, &[0xFC, 0]),
        UPLOAD_NEXT | ALARMS_NEXT => (2, 0, &[0, 0]),
        _ => (2, 0, &[]),
    };
    command(0x4711, number, class, instance, contents)
}

/// Every message number with many classes and instances, on a fresh state and
/// on a furnished one.
pub fn classes(_: &Options) -> Result<String, Failure> {
    let mut calls = 0;
    let instances = [0, 1, 2, 0x0100, 0x0101, 0x0102, 0x0104, 0x0105, 0x0300, 0x0700, 0xFFFF];
    for product in PRODUCTS {
        for bench in [Bench::powered(product)?, Bench::furnished(product)?] {
            for number in 0..32 {
                for class in (0..=300u16).chain(far_classes()) {
                    let known = CLASSES.contains(&class);
                    for instance in if known { &instances[..] } else { &[0, 0x0101][..] } {
                        let contents: &[u8] = match (number, class) {
                            (CREATE, 47) => &port_contents(0x0300),
                            (CREATE, _) => &BRIDGE,
                            (SET, _) => &[0x80, 0, 1],
                            (GET, _) => &[0x80, 0],
                            _ => &[],
                        };
                        let message = command(0x0202, number, class, *instance, contents);
                        bench.probe(Call::handle(&message))?;
                        calls += 1;
                    }
                }
            }
        }
    }
    Ok(format!("{calls} calls"))
}

/// Many instance numbers of every class, of which few are there, in a table as
/// full as can be: those there, those near them, and those that look like them.
pub fn instances(options: &Options) -> Result<String, Failure> {
    let mut calls = 0;
    for product in PRODUCTS {
        let mut random = Random::part(options.seed, 0x696E_7374);
        let (bench, all) = full(product, 17, &mut random)?;
        let mut numbers: Vec<u16> = (0..=0xFFFF).step_by(61).collect();
        for there in all.iter().map(|&(_, instance, _)| instance).chain([0, 0x0101, 0x0104]) {
            numbers.extend([there.wrapping_sub(1), there, there.wrapping_add(1)]);
            numbers.push(there.swap_bytes());
            numbers.extend((0..16).map(|bit| there ^ 1 << bit));
        }
        for instance in numbers {
            for class in CLASSES {
                for call in [
                    Call::handle(&command(3, GET, class, instance, &[0x80, 0])),
                    Call::handle(&command(3, DELETE, class, instance, &[])),
                    Call::report_alarm(class, instance, 0, true),
                    Call::report_attribute(class, instance, 1, &[1, 2, 3, 4, 5, 6]),
                ] {
                    bench.probe(call)?;
                    calls += 1;
                }
            }
        }
    }
    Ok(format!("{calls} calls"))
}

/// Next commands with indices at and past the count, near it and far.
pub fn indices(_: &Options) -> Result<String, Failure> {
    let mut calls = 0;
    for product in PRODUCTS {
        let mut bench = Bench::furnished(product)?;
        let mut maker = Maker::new(0x2000);
        for call in [
            Call::handle(&maker.command(UPLOAD, 2, 0, &[])),
            Call::handle(&maker.command(GET_ALL_ALARMS, 2, 0, &[])),
        ] {
            bench.call(call)?;
        }
        let far = (1..=0xFF).flat_map(|high| (0..24).map(move |low| high << 8 | low));
        for index in (0..=0x0120u16).chain(far).chain([0x7FFF, 0x8000, 0xFFFE, 0xFFFF]) {
            for (class, instance) in [(2, 0), (2, 1), (11, 0x0101)] {
                for number in [UPLOAD_NEXT, ALARMS_NEXT] {
                    let contents = index.to_be_bytes();
                    let message = command(0x3333, number, class, instance, &contents);
                    bench.probe(Call::handle(&message))?;
                    calls += 1;
                }
            }
        }
    }
    Ok(format!("{calls} calls"))
}

/// Classes that a careless comparison of bytes takes for known ones.
fn far_classes() -> impl Iterator<Item = u16> {
    CLASSES
        .into_iter()
        .flat_map(|class| [class << 8, class | 0x0100, class | 0x8000, class | class << 8])
        .chain([0x7FFF, 0x8000, 0xFF00, 0xFFFF])
}

/// An instance of every class in a furnished bench. Meter has the first two.
const NAMED: [(u16, u16); 5] = [(2, 0), (11, 0x0101), (45, 0x0300), (46, 0x0300), (47, 0x0009)];

/// Those of them that the product has.
fn named(product: u8) -> &'static [(u16, u16)] {
    if product == METER {
        &NAMED[..2]
    } else {
        &NAMED
    }
}

/// Get and Set with a good part of all masks, for every class.
pub fn masks(options: &Options) -> Result<String, Failure> {
    let mut calls = 0;
    let mut random = Random::part(options.seed, 0x6D61_736B);
    for product in PRODUCTS {
        for &(class, instance) in named(product) {
            let bench = Bench::furnished(product)?;
            for mask in 0..=0xFFFFu16 {
                let [high, low] = mask.to_be_bytes();
                // Where unsupported bits are named, one of many is enough.
                if low & 0x07 == 0 || random.below(8) == 0 {
                    bench.probe(Call::handle(&command(7, GET, class, instance, &[high, low])))?;
                    calls += 1;
                }
                if random.below(8) == 0 {
                    let values = set_values(product, class, mask, &mut random);
                    let contents = [&[high, low], &values[..]].concat();
                    bench.probe(Call::handle(&command(7, SET, class, instance, &contents)))?;
                    calls += 1;
                }
            }
        }
    }
    Ok(format!("{calls} calls"))
}

/// Values for the named attributes, mostly legal.
fn set_values(product: u8, class: u16, mask: u16, random: &mut Random) -> Vec<u8> {
    let attributes = attributes(product, class);
    let mut values = Vec::new();
    for attribute in attributes.iter().filter(|attribute| mask & attribute.bit() != 0) {
        let mut value = legal(attribute);
        if random.per_mille(60) {
            random.fill(&mut value);
        }
        values.extend(value);
    }
    values.truncate(30);
    values
}

fn attributes(product: u8, class: u16) -> &'static [Attribute] {
    let product = Product::from_number(product).unwrap_or(Product::Small);
    product.class(class).map_or(&[], |class| class.attributes(product))
}

fn legal(attribute: &Attribute) -> Vec<u8> {
    let number: u16 = match attribute.rule {
        Rule::Any => 0x2A,
        Rule::Range(_, high) => high,
        Rule::Listed(numbers) => numbers[numbers.len() - 1],
        Rule::Pointer(_) => 0x0101,
    };
    let mut content = vec![0; attribute.size];
    for (byte, value) in content.iter_mut().rev().zip(number.to_le_bytes()) {
        *byte = value;
    }
    content
}

/// Every value of every attribute of one byte, and of those of two bytes every
/// value around the limits and many others: by Create and by Set.
pub fn contents(_: &Options) -> Result<String, Failure> {
    let mut calls = 0;
    for product in PRODUCTS {
        let bench = Bench::furnished(product)?;
        for (class, whole) in [(45, BRIDGE.to_vec()), (47, port_contents(0x0300).to_vec())] {
            for at in 0..whole.len() {
                for value in 0..=255 {
                    let mut contents = whole.clone();
                    contents[at] = value;
                    bench.probe(Call::handle(&command(9, CREATE, class, 0x1111, &contents)))?;
                    calls += 1;
                }
            }
            for at in 0..whole.len() - 1 {
                for value in two_byte_values() {
                    let mut contents = whole.clone();
                    contents[at..at + 2].copy_from_slice(&value.to_be_bytes());
                    bench.probe(Call::handle(&command(9, CREATE, class, 0x1111, &contents)))?;
                    calls += 1;
                }
            }
        }
        // TPType and TPPointer together.
        for tp_type in 0..=4 {
            for pointer in (0x00FE..=0x0108).chain([0, 1, 0x0201, 0x0300, 0xFFFF]) {
                let mut contents = port_contents(0x0300);
                contents[3] = tp_type;
                contents[4..6].copy_from_slice(&u16::to_be_bytes(pointer));
                bench.probe(Call::handle(&command(9, CREATE, 47, 0x1111, &contents)))?;
                calls += 1;
            }
        }
        for &(class, instance) in named(product) {
            for bit in 0..16 {
                let [high, low] = (0x8000u16 >> bit).to_be_bytes();
                for value in two_byte_values().chain((0..=255).map(|byte| byte << 8)) {
                    let [first, second] = value.to_be_bytes();
                    let contents = [high, low, first, second];
                    bench.probe(Call::handle(&command(9, SET, class, instance, &contents)))?;
                    calls += 1;
                }
            }
        }
    }
    Ok(format!("{calls} calls"))
}

fn two_byte_values() -> impl Iterator<Item = u16> {
    let edges = [0, 1, 2, 255, 256, 0x0100, 0x0400, 0x0600, 0x0A00, 0x1E00, 0x2800, 0x8000, 0xFFFF];
    edges
        .into_iter()
        .flat_map(|edge: u16| [edge.wrapping_sub(1), edge, edge.wrapping_add(1)])
        .chain((0..=0xFF).map(|value| value * 0x0101))
        .chain((0..=0xFF).map(|value| value << 8 | 0x55))
}

/// Reports of every attribute number with every length, every value of the
/// short ones, and of every alarm number.
pub fn reports(_: &Options) -> Result<String, Failure> {
    let mut calls = 0;
    for product in PRODUCTS {
        let bench = Bench::furnished(product)?;
        let named = [
            (2, 0),
            (2, 1),
            (11, 0x0101),
            (11, 0x0102),
            (11, 0x0105),
            (45, 0x0300),
            (46, 0x0300),
            (46, 0x0301),
            (47, 0x0009),
            (47, 0x0300),
            (0, 0),
            (999, 0x0101),
        ];
        // Meter has none of the bridge's classes; one of the three is enough.
        let left_out = if product == METER { 46..48 } else { 0..0 };
        for (class, instance) in named.into_iter().filter(|(class, _)| !left_out.contains(class)) {
            for attribute in 0..=255 {
                let lengths = if attribute <= 17 { 0..=12 } else { 0..=2 };
                for length in lengths {
                    for value in [0, 1, 2, 0xFF] {
                        let content = vec![value; length];
                        let call = Call::report_attribute(class, instance, attribute, &content);
                        bench.probe(call)?;
                        calls += 1;
                    }
                }
            }
            for attribute in 1..=16 {
                for value in 0..=255 {
                    bench.probe(Call::report_attribute(class, instance, attribute, &[value]))?;
                    calls += 1;
                }
            }
            for alarm in 0..=255 {
                for on in [false, true] {
                    bench.probe(Call::report_alarm(class, instance, alarm, on))?;
                    calls += 1;
                }
            }
        }
        calls += alarm_numbers_turn(product)?;
    }
    Ok(format!("{calls} calls"))
}

/// The alarm number goes around, and an alarm walk sets it back.
fn alarm_numbers_turn(product: u8) -> Result<usize, Failure> {
    let mut bench = Bench::powered(product)?;
    let mut maker = Maker::new(0);
    for turn in 0..600 {
        bench.call(Call::report_alarm(11, 0x0101, 0, turn % 2 == 0))?;
        if turn == 520 {
            bench.call(Call::handle(&maker.command(GET_ALL_ALARMS, 2, 0, &[])))?;
        }
    }
    Ok(601)
}

/// Tables with all 40 places in use, for every number of bridges among them:
/// one more of each class, every instance deleted and made again, the whole
/// upload, and the counter on its way around. In Meter all places stay free.
pub fn full_tables(options: &Options) -> Result<String, Failure> {
    let mut calls = 0;
    for product in PRODUCTS {
        for bridges in 1..=40usize {
            let mut random = Random::part(options.seed, 0x6675_6C6C + bridges as u64);
            let (mut bench, all) = full(product, bridges, &mut random)?;
            let mut maker = Maker::new(0x3000);
            for class in [45, 47] {
                for instance in [0x7777, all[0].1] {
                    let contents = created(class, all[0].1);
                    let message = maker.command(CREATE, class, instance, &contents);
                    bench.call(Call::handle(&message))?;
                    calls += 1;
                }
            }
            calls += whole_upload(&mut bench, &mut maker)?;
            for &(class, instance, names) in &all {
                let delete = maker.command(DELETE, class, instance, &[]);
                let create = maker.command(CREATE, class, instance, &created(class, names));
                let other = maker.command(CREATE, class, instance ^ 0x0880, &created(class, names));
                for message in [delete, other, create] {
                    bench.call(Call::handle(&message))?;
                    calls += 1;
                }
                let delete = maker.command(DELETE, class, instance ^ 0x0880, &[]);
                for message in
                    [delete, maker.command(CREATE, class, instance, &created(class, names))]
                {
                    bench.call(Call::handle(&message))?;
                    calls += 1;
                }
            }
            calls += whole_upload(&mut bench, &mut maker)?;
            let reset = maker.command(RESET, 2, 0, &[]);
            bench.call(Call::handle(&reset))?;
            calls += whole_upload(&mut bench, &mut maker)?;
        }
    }
    Ok(format!("{calls} calls"))
}

/// The result of a command for a class that the product hasn't.
const UNKNOWN_CLASS: u8 = 4;

/// A created instance: class, number and, for a port, the bridge that it names.
type Created = (u16, u16, u16);

/// A full table with so many bridges, and what is in it. Meter refuses all of
/// that.
fn full(
    product: u8,
    bridges: usize,
    random: &mut Random,
) -> Result<(Bench, Vec<Created>), Failure> {
    let mut numbers: Vec<u16> = (0..40).map(|index| index * 0x0123).collect();
    random.shuffle(&mut numbers);
    let mut all = Vec::new();
    for (index, &number) in numbers.iter().enumerate() {
        let names = numbers[random.below(bridges)];
        all.push((if index < bridges { 45 } else { 47 }, number, names));
    }
    let mut bench = Bench::powered(product)?;
    let mut maker = Maker::new(0x2000);
    for &(class, instance, names) in &all {
        let message = maker.command(CREATE, class, instance, &created(class, names));
        let seen = bench.call(Call::handle(&message))?;
        let expected = if product == METER { UNKNOWN_CLASS } else { 0 };
        bench.demand(seen.result() == expected, "a Create must have the result of the product")?;
    }
    Ok((bench, all))
}

fn created(class: u16, names: u16) -> Vec<u8> {
    match class {
        45 => BRIDGE.to_vec(),
        _ => port_contents(names).to_vec(),
    }
}

fn whole_upload(bench: &mut Bench, maker: &mut Maker) -> Result<usize, Failure> {
    let begun = bench.call(Call::handle(&maker.command(UPLOAD, 2, 0, &[])))?;
    let count = begun.count();
    for index in (0..count + 2).chain([0xFFFF]) {
        let message = maker.command(UPLOAD_NEXT, 2, 0, &index.to_be_bytes());
        bench.call(Call::handle(&message))?;
    }
    Ok(usize::from(count) + 4)
}
