//! The checked examples of document 01, with the bytes that it gives, and what
//! ticket 10 of document 02 says of Meter, in bytes. They are asked of the
//! proved engine without regard to the ordinary one.

use exchange::{
    port_contents, Maker, ALARMS_NEXT, BRIDGE, CREATE, DELETE, GET, GET_ALL_ALARMS, RESET, SET,
    UPLOAD, UPLOAD_NEXT,
};

use super::{Options, BOTH, LARGE, METER, PRODUCTS, SMALL};
use crate::bench::Bench;
use crate::run::Failure;
use crate::step::{hex, Call};

pub fn test(_: &Options) -> Result<String, Failure> {
    for product in BOTH {
        counter_turns(product)?;
        bridge_is_created(product)?;
        max_age_has_limits(product)?;
    }
    for product in PRODUCTS {
        counter_is_read(product)?;
    }
    configuration_is_read()?;
    configuration_is_cut()?;
    fresh_small_is_uploaded()?;
    meter_refuses_changes()?;
    meter_is_read()?;
    meter_is_reported_on()?;
    Ok("E1, E3 to E7, E10 to E12 and E14 of document 01, and Meter of document 02".into())
}

/// A bench that asks for contents.
struct Asker {
    bench: Bench,
    maker: Maker,
}

impl Asker {
    fn new(product: u8) -> Result<Asker, Failure> {
        Ok(Asker { bench: Bench::powered(product)?, maker: Maker::new(0x1000) })
    }

    /// The report must send a notification of this type with these contents,
    /// and then zeros.
    fn report(&mut self, call: Call, kind: u8, expected: &[(usize, u8)]) -> Result<(), Failure> {
        let mut whole = [0; 48];
        whole[2..8].copy_from_slice(&[kind, 0x0A, 0, 11, 1, 1]);
        whole[43] = 0x28;
        for &(at, value) in expected {
            whole[8 + at] = value;
        }
        let seen = self.bench.call(call)?;
        let what = format!("T10: expected {}, got {}", hex(&whole), hex(&seen.reply));
        self.bench.demand(seen.number == 0 && seen.reply == whole, &what)
    }

    /// The reply must have these contents and then zeros.
    fn ask(
        &mut self,
        example: &str,
        (number, class, instance): (u8, u16, u16),
        contents: &[u8],
        expected: &[u8],
    ) -> Result<(), Failure> {
        let message = self.maker.command(number, class, instance, contents);
        let mut whole = message;
        whole[2] = 0x20 | number;
        whole[8..40].fill(0);
        whole[8..8 + expected.len()].copy_from_slice(expected);
        let seen = self.bench.call(Call::handle(&message))?;
        let what = format!("{example}: expected {}, got {}", hex(&whole), hex(&seen.reply));
        self.bench.demand(seen.number == 0 && seen.reply == whole, &what)
    }
}

fn counter_turns(product: u8) -> Result<(), Failure> {
    let mut asker = Asker::new(product)?;
    asker.ask("E1", (SET, 2, 0), &[0x80, 0, 255], &[])?;
    asker.ask("E1", (SET, 11, 0x0101), &[0x80, 0, 1], &[])?;
    asker.ask("E1", (GET, 2, 0), &[0x80, 0], &[0, 0x80, 0, 1])
}

fn bridge_is_created(product: u8) -> Result<(), Failure> {
    let mut asker = Asker::new(product)?;
    asker.ask("E3", (CREATE, 45, 9), &BRIDGE, &[])?;
    let shown = [&[0, 0xFE, 0], &BRIDGE[..]].concat();
    asker.ask("E3", (GET, 45, 9), &[0xFE, 0], &shown)
}

fn max_age_has_limits(product: u8) -> Result<(), Failure> {
    for (max_age, expected) in
        [(0x05FFu16, &[3, 0x08, 0][..]), (0x0600, &[]), (0x2800, &[]), (0x2801, &[3, 0x08, 0])]
    {
        let mut asker = Asker::new(product)?;
        let mut contents = BRIDGE;
        contents[5..7].copy_from_slice(&max_age.to_be_bytes());
        asker.ask("E4", (CREATE, 45, 9), &contents, expected)?;
    }
    Ok(())
}

fn configuration_is_read() -> Result<(), Failure> {
    let mut large = Asker::new(LARGE)?;
    large.ask("E3", (CREATE, 45, 9), &BRIDGE, &[])?;
    let mut shown = [0; 28];
    shown[1] = 0xFE;
    shown[9] = 0x80;
    shown[26] = 2;
    large.ask("E5", (GET, 46, 9), &[0xFE, 0], &shown)?;
    large.ask("E6", (GET, 46, 9), &[0xFF, 0], &[3])?;
    let mut small = Asker::new(SMALL)?;
    small.ask("E3", (CREATE, 45, 9), &BRIDGE, &[])?;
    let mut refused = [0; 30];
    refused[0] = 9;
    refused[28] = 0x02;
    small.ask("E7", (GET, 46, 9), &[0xFE, 0], &refused)
}

fn configuration_is_cut() -> Result<(), Failure> {
    let mut large = Asker::new(LARGE)?;
    large.ask("E3", (CREATE, 45, 9), &BRIDGE, &[])?;
    large.ask("E14", (UPLOAD, 2, 0), &[], &[0, 7])?;
    let mut first = [0; 31];
    first[..6].copy_from_slice(&[0, 46, 0, 9, 0xFE, 0]);
    first[12] = 0x80;
    first[29] = 2;
    large.ask("E10", (UPLOAD_NEXT, 2, 0), &[0, 5], &first)?;
    large.ask("E10", (UPLOAD_NEXT, 2, 0), &[0, 6], &[0, 46, 0, 9, 1, 0, 0x0F, 0])?;
    large.ask("E10", (UPLOAD_NEXT, 2, 0), &[0, 7], &[])?;
    let mut small = Asker::new(SMALL)?;
    small.ask("E3", (CREATE, 45, 9), &BRIDGE, &[])?;
    small.ask("E14", (UPLOAD, 2, 0), &[], &[0, 3])?;
    let mut only = [0; 29];
    only[..6].copy_from_slice(&[0, 46, 0, 9, 0xFC, 0]);
    only[12] = 0x80;
    small.ask("E10", (UPLOAD_NEXT, 2, 0), &[0, 2], &only)?;
    small.ask("E10", (UPLOAD_NEXT, 2, 0), &[0, 3], &[])
}

fn fresh_small_is_uploaded() -> Result<(), Failure> {
    let mut small = Asker::new(SMALL)?;
    small.ask("E11", (UPLOAD, 2, 0), &[], &[0, 1])?;
    small.ask("E11", (UPLOAD_NEXT, 2, 0), &[0, 0], &[0, 0x0B, 1, 1, 0xFC, 0])
}

fn counter_is_read(product: u8) -> Result<(), Failure> {
    let mut bench = Bench::powered(product)?;
    let mut message = vec![0x12, 0x34, 0x49, 0x0A, 0, 2, 0, 0, 0x80, 0];
    message.extend([0; 30]);
    message.extend([0, 0, 0, 0x28, 0, 0, 0, 0]);
    let mut expected = vec![0x12, 0x34, 0x29, 0x0A, 0, 2, 0, 0, 0, 0x80, 0];
    expected.extend([0; 29]);
    expected.extend([0, 0, 0, 0x28, 0, 0, 0, 0]);
    let seen = bench.call(Call::handle(&message))?;
    bench.demand(seen.number == 0 && seen.reply == expected, "E12: another reply")
}

/// 2 for the two classes that Meter has, 4 for all others; nothing changes.
fn meter_refuses_changes() -> Result<(), Failure> {
    let mut meter = Asker::new(METER)?;
    for (class, instance, result) in [
        (2, 0, 2),
        (11, 0x0101, 2),
        (11, 0x0102, 2),
        (45, 9, 4),
        (46, 9, 4),
        (47, 9, 4),
        (84, 9, 4),
    ] {
        let contents = if class == 47 { &port_contents(9)[..] } else { &BRIDGE };
        meter.ask("T10", (CREATE, class, instance), contents, &[result])?;
        meter.ask("T10", (DELETE, class, instance), &[], &[result])?;
        meter.ask("T10", (SET, class, instance), &[0x80, 0, 1], &[result])?;
    }
    meter.ask("T10", (GET, 2, 0), &[0x80, 0], &[0, 0x80, 0, 0])?;
    meter.ask("T10", (GET, 11, 0x0101), &[0xCC, 0], &[0, 0xCC, 0])?;
    meter.ask("T10", (RESET, 2, 0), &[], &[0])?;
    meter.ask("T10", (RESET, 2, 1), &[], &[5])?;
    meter.ask("T10", (RESET, 11, 0x0101), &[], &[2])?;
    meter.ask("T10", (RESET, 45, 9), &[], &[4])
}

fn meter_is_read() -> Result<(), Failure> {
    let mut meter = Asker::new(METER)?;
    meter.bench.call(Call::report_attribute(11, 0x0101, 2, &[0x31]))?;
    meter.bench.call(Call::report_attribute(11, 0x0101, 6, &[1]))?;
    meter.ask("T10", (GET, 11, 0x0101), &[0xCC, 0], &[0, 0xCC, 0, 0, 0x31, 0, 1])?;
    meter.ask("T10", (GET, 45, 9), &[0x80, 0], &[4])?;
    meter.ask("T10", (GET, 11, 0x0102), &[0x80, 0], &[5])?;
    for (asked, high, low) in [
        ([0x20, 0], 0x20, 0),
        ([0x10, 0], 0x10, 0),
        ([0xFC, 0], 0x30, 0),
        ([0xFF, 0xFF], 0x33, 0xFF),
    ] {
        let mut refused = [0; 30];
        refused[0] = 9;
        refused[28..].copy_from_slice(&[high, low]);
        meter.ask("T10", (GET, 11, 0x0101), &asked, &refused)?;
    }
    meter.ask("T10", (UPLOAD, 2, 0), &[], &[0, 1])?;
    let section = [0, 11, 1, 1, 0xCC, 0, 0, 0x31, 0, 1];
    meter.ask("T10", (UPLOAD_NEXT, 2, 0), &[0, 0], &section)?;
    meter.ask("T10", (UPLOAD_NEXT, 2, 0), &[0, 1], &[])
}

fn meter_is_reported_on() -> Result<(), Failure> {
    let mut meter = Asker::new(METER)?;
    let sensed = Call::report_attribute(11, 0x0101, 2, &[0x31]);
    meter.report(sensed, 0x11, &[(0, 0x40), (2, 0x31)])?;
    let state = Call::report_attribute(11, 0x0101, 6, &[1]);
    meter.report(state, 0x11, &[(0, 0x04), (2, 1)])?;
    meter.report(Call::report_alarm(11, 0x0101, 0, true), 0x10, &[(0, 0x80), (31, 1)])?;
    meter.ask("T10", (GET_ALL_ALARMS, 2, 0), &[], &[0, 1])?;
    meter.ask("T10", (ALARMS_NEXT, 2, 0), &[0, 0], &[0, 11, 1, 1, 0x80])?;
    meter.ask("T10", (ALARMS_NEXT, 2, 0), &[0, 1], &[])
}
