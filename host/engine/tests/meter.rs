//! The product Meter: what document 02 (ticket 10) says of it.

mod bench;

use bench::*;
use ordinary_engine::Test::Soundness;
use ordinary_engine::{handle, QUIET, STORE_SIZE};

/// Where the store of this engine has a table's counter and the first byte of
/// its UNI.
const COUNTER_AT: usize = 100;
const UNI_AT: usize = 103;

fn contents_with(values: &[(usize, u8)]) -> [u8; 32] {
    let mut contents = [0; 32];
    for &(at, value) in values {
        contents[at] = value;
    }
    contents
}

/// A Meter that has been reported on.
fn reported() -> Bench {
    let mut bench = Bench::new(METER);
    assert_eq!(bench.report(11, 0x0101, 2, &[0x31]).0, 0);
    assert_eq!(bench.report(11, 0x0101, 6, &[1]).0, 0);
    assert_eq!(bench.alarm(11, 0x0101, 0, true).0, 0);
    bench
}

#[test]
fn nothing_is_created_deleted_or_set() {
    let mut bench = reported();
    let shown = bench.get(11, 0x0101, 0xCC00);
    for (class, instances, result) in [
        (2, [0, 1, 0x0101], 2),
        (11, [0x0101, 0x0102, 0], 2),
        (45, [0, 3, 0x0101], 4),
        (46, [0, 3, 0x0101], 4),
        (47, [0, 3, 0x0101], 4),
        (84, [0, 3, 0x0101], 4),
        (0, [0, 3, 0x0101], 4),
        (0xFFFF, [0, 3, 0x0101], 4),
    ] {
        for instance in instances {
            let refused = contents_with(&[(0, result)]);
            for contents in [&[][..], &[0x80, 0, 1], &BRIDGE, &port_contents(3), &[0xFF; 32]] {
                assert_eq!(bench.command(CREATE, class, instance, contents), refused);
                assert_eq!(bench.command(DELETE, class, instance, contents), refused);
                assert_eq!(bench.command(SET, class, instance, contents), refused);
            }
        }
    }
    assert_eq!(bench.counter(), 0);
    assert_eq!(bench.get(11, 0x0101, 0xCC00), shown);
    assert_eq!(bench.upload(), 1);
}

#[test]
fn results_come_in_order() {
    let mut bench = Bench::new(METER);
    // Not built comes before the class.
    assert_eq!(bench.command(5, 45, 0, &[])[0], 2);
    assert_eq!(bench.command(RESET, 45, 0, &[])[0], 4);
    assert_eq!(bench.command(RESET, 11, 0x0101, &[])[0], 2);
    assert_eq!(bench.command(RESET, 2, 1, &[])[0], 5);
    assert_eq!(bench.command(RESET, 2, 0, &[])[0], 0);
    for class in [45, 46, 47] {
        assert_eq!(bench.get(class, 0, 0x8000), contents_with(&[(0, 4)]));
    }
    assert_eq!(bench.get(11, 0x0102, 0x3000), contents_with(&[(0, 5)]));
    assert_eq!(bench.get(2, 1, 0x8000), contents_with(&[(0, 5)]));
    assert_eq!(bench.get(11, 0x0101, 0), contents_with(&[(0, 3)]));
}

#[test]
fn four_attributes_of_the_uni_are_read() {
    let mut bench = reported();
    let all = contents_with(&[(1, 0xCC), (4, 0x31), (6, 1)]);
    assert_eq!(bench.get(11, 0x0101, 0xCC00), all);
    assert_eq!(bench.get(11, 0x0101, 0x4000), contents_with(&[(1, 0x40), (3, 0x31)]));
    assert_eq!(bench.get(11, 0x0101, 0x0C00), contents_with(&[(1, 0x0C), (4, 1)]));
    for (mask, unsupported) in
        [(0x2000u16, [0x20, 0]), (0x1000, [0x10, 0]), (0xFC00, [0x30, 0]), (0xFFFF, [0x33, 0xFF])]
    {
        let [high, low] = unsupported;
        let refused = contents_with(&[(0, 9), (28, high), (29, low)]);
        assert_eq!(bench.get(11, 0x0101, mask), refused);
    }
}

#[test]
fn reset_writes_what_no_set_can_write() {
    // No run leads to such a store, but it is sound.
    let mut bench = reported();
    bench.store[COUNTER_AT] = 41;
    bench.store[UNI_AT] = 7;
    bench.store[UNI_AT + 4] = 1;
    assert_eq!(bench.counter(), 41);
    assert_eq!(bench.get(11, 0x0101, 0xCC00)[..7], [0, 0xCC, 0, 7, 0x31, 1, 1]);
    assert_eq!((bench.upload(), bench.alarm_walk()), (1, 1));
    assert_eq!(bench.command(RESET, 2, 0, &[]), [0; 32]);
    assert_eq!(bench.counter(), 0);
    assert_eq!(bench.get(11, 0x0101, 0xCC00)[..7], [0, 0xCC, 0, 0, 0x31, 0, 1]);
    assert_eq!(bench.section(0), [0; 32]);
    assert_eq!(bench.alarms(0), [0; 32]);
    // The alarm stayed.
    assert_eq!(bench.alarm_walk(), 1);
}

#[test]
fn the_upload_has_one_section() {
    let mut bench = Bench::new(METER);
    assert_eq!(bench.section(0), [0; 32]);
    bench.report(11, 0x0101, 2, &[0x31]);
    assert_eq!(bench.upload(), 1);
    bench.report(11, 0x0101, 6, &[1]);
    let frozen = contents_with(&[(1, 11), (2, 1), (3, 1), (4, 0xCC), (7, 0x31)]);
    assert_eq!(bench.section(0), frozen);
    assert_eq!(bench.section(1), [0; 32]);
    assert_eq!(bench.upload(), 1);
    assert_eq!(bench.section(0)[6..10], [0, 0x31, 0, 1]);
}

#[test]
fn alarms_are_walked() {
    let mut bench = Bench::new(METER);
    assert_eq!(bench.alarm_walk(), 0);
    assert_eq!(bench.alarms(0), [0; 32]);
    let (outcome, notification) = bench.alarm(11, 0x0101, 0, true);
    let mut expected = [0; 48];
    expected[2..9].copy_from_slice(&[0x10, 0x0A, 0, 11, 1, 1, 0x80]);
    expected[39] = 1;
    expected[43] = 0x28;
    assert_eq!((outcome, notification), (0, expected));
    assert_eq!(bench.alarm_walk(), 1);
    assert_eq!(bench.alarm(11, 0x0101, 0, false).1[39], 1);
    assert_eq!(bench.alarms(0), contents_with(&[(1, 11), (2, 1), (3, 1), (4, 0x80)]));
    assert_eq!(bench.alarms(1), [0; 32]);
}

#[test]
fn reports_are_answered_quiet_or_dropped() {
    let mut bench = Bench::new(METER);
    for (attribute, content) in [(2, 0x31), (6, 1)] {
        let (outcome, notification) = bench.report(11, 0x0101, attribute, &[content]);
        let mut expected = [0; 48];
        expected[2..8].copy_from_slice(&[0x11, 0x0A, 0, 11, 1, 1]);
        expected[8..10].copy_from_slice(&(0x8000u16 >> (attribute - 1)).to_be_bytes());
        expected[10] = content;
        expected[43] = 0x28;
        assert_eq!((outcome, notification), (0, expected));
        assert_eq!(bench.report(11, 0x0101, attribute, &[content]), (QUIET, [0xEE; 48]));
    }
    assert_eq!(bench.alarm(11, 0x0101, 0, false), (QUIET, [0xEE; 48]));
    let before = bench.store.clone();
    for (class, instance, attribute, content, drop) in [
        (11, 0x0102, 2, &[1][..], 11),
        (45, 3, 1, &[1], 11),
        (46, 3, 1, &[1; 6], 11),
        (47, 3, 1, &[1, 1], 11),
        (2, 0, 1, &[1], 12),
        (11, 0x0101, 1, &[1], 12),
        (11, 0x0101, 3, &[1], 12),
        (11, 0x0101, 4, &[3], 12),
        (11, 0x0101, 5, &[1], 12),
        (11, 0x0101, 7, &[1], 12),
        (11, 0x0101, 6, &[2], 13),
        (11, 0x0101, 2, &[1, 1], 13),
    ] {
        assert_eq!(bench.report(class, instance, attribute, content), (drop, [0xEE; 48]));
    }
    assert_eq!(bench.alarm(11, 0x0101, 1, true), (12, [0xEE; 48]));
    assert_eq!(bench.alarm(2, 0, 0, true), (12, [0xEE; 48]));
    assert_eq!(bench.alarm(45, 3, 0, true), (11, [0xEE; 48]));
    assert_eq!(bench.store, before);
}

#[test]
fn refusals_are_remembered() {
    let mut bench = Bench::new(METER);
    let get = command(7, GET, 11, 0x0101, &[0x40, 0]);
    let old = bench.send(&get);
    bench.report(11, 0x0101, 2, &[5]);
    assert_eq!(bench.send(&get), old);
    let set = command(8, SET, 11, 0x0101, &[0x80, 0, 1]);
    let refused = bench.send(&set);
    assert_eq!(refused[8..40], contents_with(&[(0, 2)]));
    assert_eq!(bench.send(&set), refused);
    assert_ne!(bench.send(&get), old);
}

#[test]
fn what_meter_answers_small_answers_alike() {
    // Without Create, Delete and Set, which only Small carries out.
    let mut meter = reported();
    let mut small = Bench::new(SMALL);
    small.report(11, 0x0101, 2, &[0x31]);
    small.report(11, 0x0101, 6, &[1]);
    small.alarm(11, 0x0101, 0, true);
    for mask in (1..=0xFFu16).map(|high| high << 8) {
        let reply = meter.get(11, 0x0101, mask);
        let same = small.get(11, 0x0101, mask);
        assert_eq!(reply[0] == 0, mask & 0x33FF == 0);
        assert!(reply[0] != 0 || reply == same);
    }
    assert_eq!(meter.command(RESET, 2, 0, &[]), small.command(RESET, 2, 0, &[]));
    assert_eq!(meter.alarm_walk(), small.alarm_walk());
    assert_eq!(meter.alarms(0), small.alarms(0));
    assert_eq!(meter.alarm(11, 0x0101, 0, false), small.alarm(11, 0x0101, 0, false));
    assert_eq!(meter.report(11, 0x0101, 2, &[9]), small.report(11, 0x0101, 2, &[9]));
}

#[test]
fn damaged_stores_are_told() {
    let mut bench = reported();
    bench.upload();
    bench.alarm_walk();
    bench.report(11, 0x0101, 2, &[0x32]);
    let get = command(0x7777, GET, 2, 0, &[0x80, 0]);
    let mut sound = Vec::new();
    for at in 0..STORE_SIZE {
        for pattern in [0x01, 0x80, 0xFF] {
            let mut damaged = bench.store.clone();
            damaged[at] ^= pattern;
            let before = damaged.clone();
            let mut reply = [0xEE; 48];
            match handle(Soundness, &mut damaged, &get, &mut reply) {
                0 => sound.push(at),
                outcome => {
                    assert_eq!(outcome, 2);
                    assert_eq!(damaged, before);
                    assert_eq!(reply, [0xEE; 48]);
                }
            }
        }
    }
    sound.dedup();
    // Of the tables: the counter and attributes 1, 2, 5 and 6, live and frozen.
    sound.retain(|&at| at >= COUNTER_AT);
    assert_eq!(sound, [100, 103, 104, 107, 108, 1646, 1647, 1650, 1651]);
}
