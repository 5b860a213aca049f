//! Meter: its answers are sorted and counted. The list below has every sort
//! that document 02 (ticket 10) leaves it; each must be met, and no other.
//!
//! An answer is sorted by the call and the reply alone, so that the ordinary
//! engine has no say in what is right.

use std::collections::BTreeMap;

use exchange::{
    command, port_contents, ALARMS_NEXT, BRIDGE, CREATE, DELETE, GET, GET_ALL_ALARMS, RESET, SET,
    UPLOAD, UPLOAD_NEXT,
};
use ordinary_engine::catalogue::Product;

use super::{Options, METER};
use crate::bench::Bench;
use crate::generator::Generator;
use crate::pair::Seen;
use crate::random::Random;
use crate::run::Failure;
use crate::step::{message_name, outcome_in_words, Call, Lent};

const ANSWERS: [&str; 53] = [
    "power-on of 3: answered",
    "power-on of 4: drop 12",
    "power-on of 1 or 2: answered",
    "power-on of 0, 5 or above: drop 12",
    "power-on in a short store: drop 2",
    "Create of a known class: result 2",
    "Create of an unknown class: result 4",
    "Delete of a known class: result 2",
    "Delete of an unknown class: result 4",
    "Set of a known class: result 2",
    "Set of an unknown class: result 4",
    "Get of a known class: result 0",
    "Get of a known class: result 3",
    "Get of a known class: result 5",
    "Get of a known class: result 9 for attribute 3",
    "Get of a known class: result 9 for attribute 4",
    "Get of a known class: result 9 for attributes 3 and 4",
    "Get of a known class: result 9 for others",
    "Get of an unknown class: result 4",
    "MIB reset of a known class: result 0",
    "MIB reset of a known class: result 2",
    "MIB reset of a known class: result 5",
    "MIB reset of an unknown class: result 4",
    "MIB upload: count 1",
    "MIB upload: zeros",
    "MIB upload next: the section",
    "MIB upload next: zeros",
    "Get all alarms: count 1",
    "Get all alarms: zeros",
    "Get all alarms next: the bitmap",
    "Get all alarms next: zeros",
    "message not built: result 2",
    "message: drop 1",
    "message: drop 2",
    "message: drop 3",
    "message: drop 4",
    "message: drop 5",
    "message: drop 6",
    "message: drop 7",
    "report of attribute 2: answered",
    "report of attribute 6: answered",
    "report of an attribute: quiet",
    "report of an attribute: drop 1",
    "report of an attribute: drop 2",
    "report of an attribute: drop 11",
    "report of an attribute: drop 12",
    "report of an attribute: drop 13",
    "report of an alarm: answered",
    "report of an alarm: quiet",
    "report of an alarm: drop 1",
    "report of an alarm: drop 2",
    "report of an alarm: drop 11",
    "report of an alarm: drop 12",
];

/// The random runs, and the calls of each.
const RUNS: u64 = 40;
const LENGTH: usize = 500;

pub fn test(options: &Options) -> Result<String, Failure> {
    let mut counts = Counts::default();
    for bench in [Bench::powered(METER)?, Bench::furnished(METER)?] {
        for call in power_ons().chain(messages()).chain(reports()) {
            counts.probe(&bench, call)?;
        }
    }
    for run in 0..RUNS {
        random_run(Random::part(options.seed, 0x6D65_7465 + run), &mut counts)?;
    }
    let never: Vec<&str> =
        ANSWERS.into_iter().filter(|answer| !counts.counts.contains_key(*answer)).collect();
    Bench::new().demand(never.is_empty(), &format!("never met: {}", never.join("; ")))?;
    Ok(format!("{} answers of a Meter\n{}", counts.all(), counts.table()))
}

fn random_run(mut random: Random, counts: &mut Counts) -> Result<(), Failure> {
    let mut generator = Generator::new(Random::new(random.next()), METER);
    let mut bench = Bench::powered(METER)?;
    for _ in 0..LENGTH {
        let call = generator.call();
        let is_meter = bench.pair().product() == Some(Product::Meter);
        let seen = bench.call(call.clone())?;
        if is_meter {
            counts.count(&call, &seen).map_err(|why| bench.failure(why))?;
        }
        generator.learn(&call, &seen);
    }
    Ok(())
}

fn power_ons() -> impl Iterator<Item = Call> {
    let lent = [Lent::EXACTLY, Lent::Longer(9), Lent::Shorter(1)];
    (0..=255).flat_map(move |product| lent.map(|store| Call::power_on(product).lending(store, 0)))
}

/// Every message number for many classes, with contents that suit it.
fn messages() -> impl Iterator<Item = Call> {
    let classes = (0..=60).chain([84, 0x0200, 0x0202, 0x0B00, 0x0B0B, 0x2D00, 0x8002, 0xFFFF]);
    classes.flat_map(|class| {
        (0..32).flat_map(move |number| {
            [0, 1, 0x0101, 0x0102].into_iter().flat_map(move |instance| {
                contents(number)
                    .into_iter()
                    .map(move |it| Call::handle(&command(0x0303, number, class, instance, &it)))
            })
        })
    })
}

fn contents(number: u8) -> Vec<Vec<u8>> {
    match number {
        CREATE => vec![BRIDGE.to_vec(), port_contents(0x0101).to_vec(), vec![0xFF; 32]],
        SET => vec![vec![0x80, 0, 1], vec![0x88, 0, 1, 1], vec![0x30, 0, 1, 3], vec![0, 0]],
        GET => [0x8000u16, 0xCC00, 0x0400, 0x2000, 0x1000, 0x3000, 0xFC00, 0x0200, 0xFFFF, 0]
            .map(|mask| mask.to_be_bytes().to_vec())
            .to_vec(),
        UPLOAD_NEXT | ALARMS_NEXT => vec![vec![0, 0], vec![0, 1], vec![0xFF, 0xFF]],
        _ => vec![vec![]],
    }
}

fn reports() -> impl Iterator<Item = Call> {
    let named = [(11, 0x0101), (11, 0x0102), (2, 0), (2, 1), (45, 0), (46, 0x0101), (99, 0)];
    named.into_iter().flat_map(|(class, instance)| {
        let attributes = (0..=18).chain([255]).flat_map(move |attribute| {
            [&[][..], &[0], &[1], &[2], &[0x31], &[1, 1]]
                .map(|content| Call::report_attribute(class, instance, attribute, content))
        });
        let alarms = [0, 1, 7, 8, 223, 224, 255].into_iter().flat_map(move |alarm| {
            [false, true].map(|on| Call::report_alarm(class, instance, alarm, on))
        });
        attributes.chain(alarms)
    })
}

/// How often each sort of answer was met.
#[derive(Default)]
struct Counts {
    counts: BTreeMap<String, usize>,
}

impl Counts {
    /// Makes a call of a Meter and counts the answer; the bench stays.
    fn probe(&mut self, bench: &Bench, call: Call) -> Result<(), Failure> {
        let seen = bench.probe(call.clone())?;
        self.count(&call, &seen).map_err(|why| {
            let mut failure = bench.failure(why);
            failure.steps.push(call.into());
            failure
        })
    }

    fn count(&mut self, call: &Call, seen: &Seen) -> Result<(), String> {
        let answer = sort_of(call, seen);
        if !ANSWERS.contains(&&answer[..]) {
            return Err(format!("a Meter never answers like that: {answer}"));
        }
        *self.counts.entry(answer).or_default() += 1;
        Ok(())
    }

    fn all(&self) -> usize {
        self.counts.values().sum()
    }

    fn table(&self) -> String {
        let lines = ANSWERS.map(|answer| format!("  {answer}: {}", self.counts[answer]));
        lines.join("\n")
    }
}

fn sort_of(call: &Call, seen: &Seen) -> String {
    let outcome = outcome_in_words(seen.number);
    match call {
        Call::PowerOn { .. } if seen.number == 2 => format!("power-on in a short store: {outcome}"),
        Call::PowerOn { product, .. } => match product {
            3 | 4 => format!("power-on of {product}: {outcome}"),
            1 | 2 => format!("power-on of 1 or 2: {outcome}"),
            _ => format!("power-on of 0, 5 or above: {outcome}"),
        },
        Call::Handle { message, .. } if seen.number == 0 => sort_of_reply(message, seen.contents()),
        Call::Handle { .. } => format!("message: {outcome}"),
        Call::ReportAttribute { attribute, .. } if seen.number == 0 => {
            format!("report of attribute {attribute}: {outcome}{}", odd_change(*attribute, seen))
        }
        Call::ReportAttribute { .. } => format!("report of an attribute: {outcome}"),
        Call::ReportAlarm { on, .. } if seen.number == 0 => {
            format!("report of an alarm: {outcome}{}", odd_alarm(*on, seen))
        }
        Call::ReportAlarm { .. } => format!("report of an alarm: {outcome}"),
    }
}

fn sort_of_reply(message: &[u8], contents: &[u8]) -> String {
    let number_at = |at: usize| u16::from_be_bytes([message[at], message[at + 1]]);
    let (class, instance, asked) = (number_at(4), number_at(6), number_at(8));
    let name = message_name(message[2]);
    let known = if matches!(class, 2 | 11) { "a known" } else { "an unknown" };
    let is_ont_data = (class, instance) == (2, 0);
    match message[2] & 0x1F {
        CREATE | DELETE | SET | RESET => format!("{name} of {known} class: {}", result(contents)),
        GET => format!("{name} of {known} class: {}", get_result(class, asked, contents)),
        UPLOAD | GET_ALL_ALARMS | UPLOAD_NEXT | ALARMS_NEXT if is_zero(contents) => {
            format!("{name}: zeros")
        }
        UPLOAD | GET_ALL_ALARMS if is_ont_data && is_only(contents, &[0, 1]) => {
            format!("{name}: count 1")
        }
        UPLOAD_NEXT if is_ont_data && is_section(contents) => format!("{name}: the section"),
        ALARMS_NEXT if is_ont_data && is_only(contents, &[0, 11, 1, 1, 0x80]) => {
            format!("{name}: the bitmap")
        }
        UPLOAD | GET_ALL_ALARMS | UPLOAD_NEXT | ALARMS_NEXT => format!("{name}: other contents"),
        _ => format!("message not built: {}", result(contents)),
    }
}

/// A result, and whether something stands behind it that shouldn't.
fn result(contents: &[u8]) -> String {
    let number = contents[0];
    if is_only(contents, &[number]) {
        format!("result {number}")
    } else {
        format!("result {number} with other bytes")
    }
}

fn get_result(class: u16, asked: u16, contents: &[u8]) -> String {
    let has: u16 = if class == 11 { 0xCC00 } else { 0x8000 };
    let (head, unsupported) = contents.split_at(28);
    match contents[0] {
        0 if asked & !has == 0 && is_shown(class, asked, contents) => "result 0".into(),
        9 if is_only(head, &[9]) && is_only(unsupported, &(asked & !has).to_be_bytes()) => {
            let what = match (class, asked & 0x3000) {
                (11, 0x2000) => "attribute 3",
                (11, 0x1000) => "attribute 4",
                (11, 0x3000) => "attributes 3 and 4",
                _ => "others",
            };
            format!("result 9 for {what}")
        }
        0 => "result 0 with other bytes".into(),
        _ => result(contents),
    }
}

/// Whether an accepted Get shows what can be there. No run moves the counter,
/// or the expected type and the admin state of the UNI.
fn is_shown(class: u16, asked: u16, contents: &[u8]) -> bool {
    let values = if class == 2 { vec![0] } else { uni_values(asked, &contents[3..]) };
    let [high, low] = asked.to_be_bytes();
    is_only(contents, &[&[0, high, low], &values[..]].concat())
}

/// The values that a Meter's UNI must show where these are shown: attributes 1
/// and 5 are 0, attribute 2 may be anything, attribute 6 is 0 or 1.
fn uni_values(mask: u16, shown: &[u8]) -> Vec<u8> {
    let mut values = Vec::new();
    for (bit, allowed) in [(0x8000, 0), (0x4000, 0xFF), (0x0800, 0), (0x0400, 1)] {
        if mask & bit != 0 {
            values.push(shown[values.len()] & allowed);
        }
    }
    values
}

fn is_section(contents: &[u8]) -> bool {
    let values = uni_values(0xCC00, &contents[6..]);
    is_only(contents, &[&[0, 11, 1, 1, 0xCC, 0], &values[..]].concat())
}

/// Empty if the notification is that of this attribute of the UNI.
fn odd_change(attribute: u8, seen: &Seen) -> &'static str {
    let mask = 0x8000u16.checked_shr(u32::from(attribute).wrapping_sub(1)).unwrap_or(0);
    let [high, low] = mask.to_be_bytes();
    let is_right = has_head(seen, 0x11) && is_only(seen.contents(), &[high, low, seen.reply[10]]);
    if is_right {
        ""
    } else {
        " with other bytes"
    }
}

/// Empty if the notification is that of the UNI's alarm. Its number is never 0.
fn odd_alarm(on: bool, seen: &Seen) -> &'static str {
    let (bitmap, number) = seen.contents().split_at(31);
    let is_right =
        has_head(seen, 0x10) && is_only(bitmap, &[if on { 0x80 } else { 0 }]) && number != [0];
    if is_right {
        ""
    } else {
        " with other bytes"
    }
}

/// Whether a notification of this type is about the UNI.
fn has_head(seen: &Seen, kind: u8) -> bool {
    seen.reply[..8] == [0, 0, kind, 0x0A, 0, 11, 1, 1]
        && seen.reply[40..48] == [0, 0, 0, 0x28, 0, 0, 0, 0]
}

/// Whether these bytes come first and then zeros.
fn is_only(bytes: &[u8], first: &[u8]) -> bool {
    bytes.starts_with(first) && is_zero(&bytes[first.len()..])
}

fn is_zero(bytes: &[u8]) -> bool {
    bytes.iter().all(|&byte| byte == 0)
}
