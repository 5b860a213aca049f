// Links the engine's archive into a Rust program: powers on a Small product, sends example 12's
// command of document 01 and compares the reply byte for byte. The archive needs no C around it.
//
//     rustc --edition 2021 -O tests/link.rs -l static=gwezhelin -L target/staticlib -o target/link

#[path = "../host/proved/src/lib.rs"]
mod proved_engine;

use proved_engine::{handle, power_on, report_alarm, report_attribute, store_size};

const SMALL: u8 = 1;
const QUIET: u8 = 255;

// 48 bytes: these first, zeros behind them, and the trailer
fn message(first: &[u8]) -> [u8; 48] {
    let mut m = [0; 48];
    m[..first.len()].copy_from_slice(first);
    m[43] = 0x28;
    m
}

fn main() {
    let mut store = vec![0xA5; store_size()];
    let mut reply = [0xA5; 48];

    assert_eq!(power_on(&mut store, SMALL), 0, "power-on");

    let command = message(&[0x12, 0x34, 0x49, 0x0A, 0x00, 0x02, 0x00, 0x00, 0x80, 0x00]);
    let wanted = message(&[
        0x12, 0x34, 0x29, 0x0A, 0x00, 0x02, 0x00, 0x00, 0x00, 0x80, 0x00,
    ]);
    assert_eq!(handle(&mut store, &command, &mut reply), 0, "E12's number");
    assert_eq!(reply, wanted, "E12's reply");

    // the reports have more arguments than registers: once each, one is sent and one is quiet
    let sent = message(&[0, 0, 0x11, 0x0A, 0x00, 0x0B, 0x01, 0x01, 0x04, 0x00, 0x01]);
    assert_eq!(
        report_attribute(&mut store, 11, 0x0101, 6, &[1], &mut reply),
        0,
        "the report's number"
    );
    assert_eq!(reply, sent, "the report's notification");
    assert_eq!(
        report_alarm(&mut store, 11, 0x0101, 0, false, &mut reply),
        QUIET,
        "an alarm that was off"
    );
    assert_eq!(reply, sent, "quiet keeps the reply");

    println!("E12 from Rust: ok");
}
