//! What is easy to get wrong.

mod bench;

use bench::*;
use ordinary_engine::Test::{LengthOnly, Soundness};
use ordinary_engine::{handle, power_on, report_alarm, report_attribute, QUIET, STORE_SIZE};

/// The products in which the exchange can create, delete and set; `meter.rs`
/// is about the third.
const BOTH: [u8; 2] = [SMALL, LARGE];

#[test]
fn repeats_are_told_by_forty_bytes() {
    for product in BOTH {
        let mut bench = Bench::new(product);
        let first = command(7, SET, 11, 0x0101, &[0x80, 0, 1]);
        let reply = bench.send(&first);
        let before = bench.store.clone();
        assert_eq!(bench.send(&first), reply);
        assert_eq!(bench.store, before);
        // The checksum isn't part of the forty bytes.
        let mut other_checksum = first;
        other_checksum[47] = 9;
        assert_eq!(bench.send(&other_checksum), reply);
        assert_eq!(bench.store, before);
        // The same id with other contents is another command, padding too.
        bench.send(&command(7, SET, 11, 0x0101, &[0x80, 0, 2]));
        let mut padded = command(7, SET, 11, 0x0101, &[0x80, 0, 2]);
        padded[39] = 1;
        bench.send(&padded);
        assert_eq!(bench.counter(), 3);
    }
}

#[test]
fn refusals_are_remembered_and_drops_are_not() {
    let mut bench = Bench::new(SMALL);
    let get = command(7, GET, 45, 3, &[0x80, 0]);
    let refused = bench.send(&get);
    assert_eq!(refused[8], 5);
    let remembered = bench.store.clone();
    let mut wrong_trailer = command(8, GET, 2, 0, &[0x80, 0]);
    wrong_trailer[43] = 0x29;
    let mut reply = [0xEE; 48];
    assert_eq!(handle(Soundness, &mut bench.store, &wrong_trailer, &mut reply), 7);
    assert_eq!(bench.store, remembered);
    assert_eq!(reply, [0xEE; 48]);
    // A report in between doesn't make the repeat a new command.
    let get = command(9, GET, 11, 0x0101, &[0x40, 0]);
    let old = bench.send(&get);
    assert_eq!(bench.report(11, 0x0101, 2, &[5]).0, 0);
    assert_eq!(bench.send(&get), old);
}

#[test]
fn uploads_show_the_frozen_table() {
    for product in BOTH {
        let mut bench = Bench::new(product);
        bench.create_bridge(9);
        bench.create_port(4, 9);
        let count = bench.upload();
        let frozen: Vec<_> = (0..count).map(|index| bench.section(index)).collect();
        bench.report(11, 0x0101, 2, &[5]);
        bench.report(46, 9, 1, &[1, 2, 3, 4, 5, 6]);
        bench.set(45, 9, 0x1000, &[0x12, 0x34]);
        bench.create_port(5, 9);
        bench.command(DELETE, 45, 9, &[]);
        for (index, section) in frozen.iter().enumerate() {
            assert_eq!(bench.section(index as u16), *section);
        }
        // Also what is computed is computed from the frozen table.
        let configuration = frozen.iter().find(|section| section[1] == 46).unwrap();
        assert_eq!(configuration[12..14], [0x80, 0]);
        assert_eq!(configuration[26], 1);
        assert_eq!(bench.section(count), [0; 32]);
        assert_ne!(bench.upload(), count);
    }
}

#[test]
fn refused_sets_store_nothing() {
    for product in BOTH {
        let mut bench = Bench::new(product);
        // Loopback 1 isn't legal, the other two values are.
        let reply = bench.set(11, 0x0101, 0xB000, &[9, 9, 1]);
        assert_eq!(reply[..5], [9, 0, 0, 0x10, 0]);
        assert_eq!(bench.get(11, 0x0101, 0xFC00)[3..9], [0; 6]);
        assert_eq!(bench.counter(), 0);
        // Unsupported and unwritable each have their mask.
        let reply = bench.set(11, 0x0101, 0xC001, &[9, 9, 1]);
        assert_eq!(reply[..5], [9, 0, 1, 0x40, 0]);
        assert_eq!(bench.get(11, 0x0101, 0xFC00)[3..9], [0; 6]);
        assert_eq!(bench.set(46, 1, 0x8000, &[])[..5], [5, 0, 0, 0, 0]);
        assert_eq!(bench.set(11, 0x0101, 0, &[])[..5], [3, 0, 0, 0, 0]);
    }
}

#[test]
fn results_come_in_order() {
    let mut bench = Bench::new(SMALL);
    assert_eq!(bench.command(0, 999, 0, &[])[..5], [2, 0, 0, 0, 0]);
    assert_eq!(bench.command(17, 2, 0, &[])[..5], [2, 0, 0, 0, 0]);
    assert_eq!(bench.command(CREATE, 44, 0, &[])[0], 4);
    assert_eq!(bench.command(CREATE, 46, 0, &BRIDGE)[0], 2);
    assert_eq!(bench.command(DELETE, 11, 0x0101, &[])[0], 2);
    assert_eq!(bench.command(RESET, 3, 0, &[])[0], 4);
    assert_eq!(bench.command(RESET, 11, 0, &[])[0], 2);
    assert_eq!(bench.command(RESET, 2, 1, &[])[0], 5);
    assert_eq!(bench.create_bridge(0xFFFF), 0);
    // There already, although the contents are bad as well.
    assert_eq!(bench.command(CREATE, 45, 0xFFFF, &[9; 11])[..3], [7, 0, 0]);
    assert_eq!(bench.command(CREATE, 45, 1, &[0x30; 11])[..3], [3, 0xEE, 0]);
    for number in 1..40 {
        assert_eq!(bench.create_port(number, 0xFFFF), 0);
    }
    // All 40 places are in use, but bad contents come first.
    assert_eq!(bench.create_port(40, 1), 3);
    assert_eq!(bench.create_port(40, 0xFFFF), 1);
    assert_eq!(bench.create_port(39, 0xFFFF), 7);
    assert_eq!(bench.command(DELETE, 47, 17, &[])[0], 0);
    assert_eq!(bench.create_port(40, 0xFFFF), 0);
    assert_eq!(bench.get(46, 0xFFFF, 0x0800)[3], 39);
}

#[test]
fn create_of_a_port_judges_every_attribute() {
    let bad = |product, contents: &[u8]| {
        let mut bench = Bench::new(product);
        bench.create_bridge(3);
        let reply = bench.command(CREATE, 47, 1, contents);
        (reply[0], u16::from_be_bytes([reply[1], reply[2]]))
    };
    let good = port_contents(3);
    for product in BOTH {
        assert_eq!(bad(product, &good), (0, 0));
        assert_eq!(bad(product, &[0, 4, 0, 1, 9, 9, 1, 0, 0, 0, 2, 2, 2]), (3, 0x9F80));
        // A bad TPType leaves TPPointer unjudged; type 2 points anywhere.
        assert_eq!(bad(product, &[0, 3, 0, 0, 9, 9, 0, 0, 0, 1, 0, 0, 0]), (3, 0x2000));
        assert_eq!(bad(product, &[0, 3, 0, 2, 9, 9, 0, 255, 0, 1, 0, 0, 0]), (0, 0));
    }
    // Small has one UNI and keeps no attribute 9.
    let at_uni_2 = [0, 3, 0, 1, 1, 2, 0, 0, 0, 1, 0, 0, 0];
    assert_eq!(bad(SMALL, &at_uni_2), (3, 0x1000));
    assert_eq!(bad(LARGE, &at_uni_2), (0, 0));
    let with_fcs = [0, 3, 0, 1, 1, 1, 0, 0, 0, 1, 0, 0, 1];
    assert_eq!(bad(SMALL, &with_fcs), (3, 0x0080));
    assert_eq!(bad(LARGE, &with_fcs), (0, 0));
}

#[test]
fn ports_outlive_their_bridge_and_find_it_again() {
    for product in BOTH {
        let mut bench = Bench::new(product);
        bench.create_bridge(3);
        bench.create_port(1, 3);
        bench.report(46, 3, 1, &[6; 6]);
        bench.command(DELETE, 45, 3, &[]);
        assert_eq!(bench.get(46, 3, 0x8000)[0], 5);
        assert_eq!(bench.get(47, 1, 0x8000)[..5], [0, 0x80, 0, 0, 3]);
        bench.create_bridge(3);
        assert_eq!(bench.get(46, 3, 0x0800)[3], 1);
        assert_eq!(bench.get(46, 3, 0x8000)[3..9], [0; 6]);
    }
}

#[test]
fn configuration_delays_come_from_the_create_alone() {
    let mut bench = Bench::new(LARGE);
    bench.create_bridge(3);
    bench.set(45, 3, 0x0600, &[3, 0, 4, 0]);
    assert_eq!(bench.get(46, 3, 0x0300)[3..7], [2, 0, 0x0F, 0]);
    assert_eq!(bench.report(46, 3, 7, &[0xFF, 0xFF]).0, QUIET);
    assert_eq!(bench.get(46, 3, 0x0300)[3..7], [0xFF, 0xFF, 0x0F, 0]);
}

#[test]
fn reset_keeps_local_contents_and_alarms() {
    let mut bench = Bench::new(LARGE);
    bench.create_bridge(3);
    bench.set(11, 0x0103, 0x8128, &[1, 0, 9, 0]);
    bench.report(11, 0x0103, 2, &[5]);
    bench.report(11, 0x0103, 7, &[6]);
    assert_eq!(bench.alarm(11, 0x0103, 0, true).1[39], 1);
    bench.upload();
    bench.alarm_walk();
    assert_eq!(bench.alarm(11, 0x0102, 0, true).1[39], 1);
    assert_eq!(bench.command(RESET, 2, 0, &[]), [0; 32]);
    assert_eq!(bench.counter(), 0);
    assert_eq!(bench.section(0), [0; 32]);
    assert_eq!(bench.alarms(0), [0; 32]);
    assert_eq!(bench.get(45, 3, 0x8000)[0], 5);
    assert_eq!(
        bench.get(11, 0x0103, 0xFFF8)[3..18],
        [0, 5, 0, 0, 0, 0, 6, 5, 0xEE, 0, 0, 0, 2, 0, 0]
    );
    // The alarm number stayed too.
    assert_eq!(bench.alarm(11, 0x0101, 0, true).1[39], 2);
    assert_eq!(bench.alarm_walk(), 3);
}

#[test]
fn the_counter_is_set_to_what_is_sent() {
    let mut bench = Bench::new(SMALL);
    bench.set(2, 0, 0x8000, &[41]);
    assert_eq!(bench.counter(), 41);
    bench.set(2, 0, 0x8000, &[0]);
    assert_eq!(bench.counter(), 0);
    assert_eq!(bench.set(2, 1, 0x8000, &[1])[0], 5);
    assert_eq!(bench.set(2, 0, 0xC000, &[1])[..5], [9, 0x40, 0, 0, 0]);
}

#[test]
fn alarm_walks_are_frozen_and_in_order() {
    let mut bench = Bench::new(LARGE);
    assert_eq!(bench.alarms(0), [0; 32]);
    let (outcome, notification) = bench.alarm(11, 0x0104, 0, true);
    assert_eq!(outcome, 0);
    let mut expected = [0; 48];
    expected[2..8].copy_from_slice(&[0x10, 0x0A, 0, 11, 1, 4]);
    expected[8] = 0x80;
    expected[39] = 1;
    expected[43] = 0x28;
    assert_eq!(notification, expected);
    bench.alarm(11, 0x0102, 0, true);
    assert_eq!(bench.alarm_walk(), 2);
    bench.alarm(11, 0x0102, 0, false);
    assert_eq!(bench.alarms(0)[..5], [0, 11, 1, 2, 0x80]);
    assert_eq!(bench.alarms(1)[..5], [0, 11, 1, 4, 0x80]);
    assert_eq!(bench.alarms(2), [0; 32]);
    // Wrong class or instance: nothing begins and the alarm number stays.
    assert_eq!(bench.command(GET_ALL_ALARMS, 11, 0, &[]), [0; 32]);
    assert_eq!(bench.command(GET_ALL_ALARMS, 2, 1, &[]), [0; 32]);
    assert_eq!(bench.command(UPLOAD, 999, 0, &[]), [0; 32]);
    assert_eq!(bench.alarm(11, 0x0104, 0, false).1[39], 2);
    assert_eq!(bench.alarms(1)[..5], [0, 11, 1, 4, 0x80]);
}

#[test]
fn the_alarm_number_goes_from_255_to_1() {
    let mut bench = Bench::new(SMALL);
    for turn in 0..300u32 {
        let (outcome, reply) = bench.alarm(11, 0x0101, 0, turn % 2 == 0);
        assert_eq!(outcome, 0);
        assert_eq!(u32::from(reply[39]), turn % 255 + 1);
    }
}

#[test]
fn reports_are_quiet_without_change_or_notice() {
    let mut bench = Bench::new(SMALL);
    bench.create_bridge(3);
    let (outcome, notification) = bench.report(11, 0x0101, 6, &[1]);
    let mut expected = [0; 48];
    expected[2..8].copy_from_slice(&[0x11, 0x0A, 0, 11, 1, 1]);
    expected[8..11].copy_from_slice(&[0x04, 0, 1]);
    expected[43] = 0x28;
    assert_eq!((outcome, notification), (0, expected));
    let before = bench.store.clone();
    assert_eq!(bench.report(11, 0x0101, 6, &[1]), (QUIET, [0xEE; 48]));
    assert_eq!(bench.alarm(11, 0x0101, 0, false), (QUIET, [0xEE; 48]));
    assert_eq!(bench.store, before);
    assert_eq!(bench.report(46, 3, 4, &[1, 2, 3, 4]), (QUIET, [0xEE; 48]));
    assert_ne!(bench.store, before);
}

#[test]
fn reports_are_dropped_in_order() {
    let mut bench = Bench::new(SMALL);
    bench.create_bridge(3);
    let before = bench.store.clone();
    for (class, instance, attribute, content, drop) in [
        (99, 0, 0, &[][..], 11),
        (11, 0x0102, 0, &[], 11),
        (46, 4, 1, &[], 11),
        (46, 3, 0, &[], 12),
        (46, 3, 2, &[0, 0], 12),
        (46, 3, 7, &[0, 0], 12),
        (46, 3, 17, &[], 12),
        (11, 0x0101, 1, &[0], 12),
        (2, 0, 1, &[0], 12),
        (46, 3, 1, &[0; 5], 13),
        (46, 3, 1, &[0; 7], 13),
        (11, 0x0101, 6, &[2], 13),
        (11, 0x0101, 2, &[], 13),
    ] {
        assert_eq!(bench.report(class, instance, attribute, content), (drop, [0xEE; 48]));
    }
    assert_eq!(bench.alarm(11, 0x0102, 0, true), (11, [0xEE; 48]));
    assert_eq!(bench.alarm(11, 0x0101, 1, true), (12, [0xEE; 48]));
    assert_eq!(bench.alarm(11, 0x0101, 255, true), (12, [0xEE; 48]));
    assert_eq!(bench.alarm(45, 3, 0, true), (12, [0xEE; 48]));
    assert_eq!(bench.store, before);
}

#[test]
fn messages_are_dropped_in_order() {
    let good = command(1, GET, 2, 0, &[0x80, 0]);
    // Each spoils the message in a way that a lower number finds too, from the
    // last number to the first.
    type Spoiler = (u8, fn(&mut Vec<u8>));
    let spoilers: [Spoiler; 5] = [
        (7, |message| message[40] = 1),
        (6, |message| message[1] = 0),
        (5, |message| message[2] |= 0x20),
        (4, |message| message[3] = 0x0B),
        (3, |message| message.push(0)),
    ];
    let mut bench = Bench::new(SMALL);
    let before = bench.store.clone();
    let mut spoiled = good.to_vec();
    for (drop, spoil) in spoilers {
        spoil(&mut spoiled);
        let mut reply = [0xEE; 60];
        assert_eq!(handle(Soundness, &mut bench.store, &spoiled, &mut reply), drop);
        assert_eq!(reply, [0xEE; 60]);
    }
    assert_eq!(bench.store, before);
    let mut reply = [0xEE; 60];
    bench.store[0] = 4;
    assert_eq!(handle(Soundness, &mut bench.store, &spoiled, &mut reply), 2);
    assert_eq!(handle(Soundness, &mut bench.store, &spoiled, &mut reply[..47]), 1);
    bench.store[0] = 1;
    assert_eq!(handle(Soundness, &mut bench.store, &good, &mut reply[..47]), 1);
    assert_eq!(handle(Soundness, &mut bench.store[..STORE_SIZE - 1], &good, &mut reply), 2);
    assert_eq!(reply, [0xEE; 60]);
    assert_eq!(handle(Soundness, &mut bench.store, &good, &mut reply), 0);
    assert_eq!(reply[48..], [0xEE; 12]);
    assert_eq!(report_attribute(Soundness, &mut bench.store, 99, 0, 0, &[], &mut reply[..47]), 1);
    assert_eq!(report_alarm(Soundness, &mut [], 99, 0, 0, true, &mut reply), 2);
}

#[test]
fn power_on_drops() {
    let mut store = vec![0xA5; STORE_SIZE + 9];
    assert_eq!(power_on(&mut store[..STORE_SIZE - 1], 9), 2);
    for product in (4..=255).chain([0]) {
        assert_eq!(power_on(&mut store, product), 12);
    }
    assert!(store.iter().all(|&byte| byte == 0xA5));
    for product in [SMALL, LARGE, METER] {
        assert_eq!(power_on(&mut store, product), 0);
        assert_eq!(store[STORE_SIZE..], [0xA5; 9]);
    }
}

#[test]
fn damaged_stores_are_told() {
    // Whatever byte of a well-filled store is flipped, the store is either
    // unsound and untouched, or a sound one that stays sound.
    for product in BOTH {
        let mut bench = Bench::new(product);
        for number in [5, 3, 900] {
            bench.create_bridge(number);
            bench.create_port(number + 1, number);
        }
        bench.upload();
        bench.alarm(11, 0x0101, 0, true);
        bench.alarm_walk();
        let get = command(0x7777, GET, 2, 0, &[0x80, 0]);
        for at in 0..STORE_SIZE {
            for pattern in [0x01, 0x80, 0xFF] {
                let mut damaged = bench.store.clone();
                damaged[at] ^= pattern;
                let before = damaged.clone();
                let mut reply = [0xEE; 48];
                match handle(Soundness, &mut damaged, &get, &mut reply) {
                    0 => {
                        let again = command(0x7778, GET, 2, 0, &[0x80, 0]);
                        assert_eq!(handle(Soundness, &mut damaged, &again, &mut reply), 0);
                    }
                    outcome => {
                        assert_eq!(outcome, 2);
                        assert_eq!(damaged, before);
                        assert_eq!(reply, [0xEE; 48]);
                    }
                }
            }
        }
    }
}

#[test]
fn the_order_of_commands_leaves_no_trace() {
    for product in BOTH {
        let mut one = Bench::new(product);
        for number in [1, 2, 3] {
            one.create_bridge(number);
            one.create_port(number, number);
        }
        let mut other = Bench::new(product);
        for number in [3, 9, 1] {
            other.create_bridge(number);
        }
        other.command(DELETE, 45, 9, &[]);
        other.create_bridge(2);
        for number in [2, 1, 3] {
            other.create_port(number, number);
        }
        for bench in [&mut one, &mut other] {
            bench.send(&command(500, SET, 2, 0, &[0x80, 0, 6]));
        }
        assert!(one.store == other.store);
    }
}

#[test]
fn a_trusted_store_is_answered_alike() {
    let mut bench = Bench::new(LARGE);
    bench.create_bridge(3);
    let mut trusted = bench.clone();
    let set = command(77, SET, 45, 3, &[0x10, 0, 9, 9]);
    let mut reply = [0; 48];
    assert_eq!(handle(LengthOnly, &mut trusted.store, &set, &mut reply), 0);
    assert_eq!(bench.send(&set), reply);
    assert!(bench.store == trusted.store);
}
