//! The checked examples of document 01.

mod bench;

use bench::*;

fn contents_with(values: &[(usize, u8)]) -> [u8; 32] {
    let mut contents = [0; 32];
    for &(at, value) in values {
        contents[at] = value;
    }
    contents
}

#[test]
fn e1_counter_255_goes_to_1() {
    for product in [SMALL, LARGE] {
        let mut bench = Bench::new(product);
        assert_eq!(bench.set(2, 0, 0x8000, &[255]), [0; 32]);
        assert_eq!(bench.counter(), 255);
        assert_eq!(bench.set(11, 0x0101, 0x8000, &[7]), [0; 32]);
        assert_eq!(bench.counter(), 1);
    }
}

#[test]
fn e3_create_bridge() {
    for product in [SMALL, LARGE] {
        let mut bench = Bench::new(product);
        assert_eq!(bench.command(CREATE, 45, 9, &BRIDGE), [0; 32]);
        assert_eq!(bench.counter(), 1);
        let contents = bench.get(45, 9, 0xFE00);
        assert_eq!(contents[..3], [0, 0xFE, 0]);
        assert_eq!(contents[3..14], BRIDGE);
        assert_eq!(contents[14..], [0; 18]);
    }
}

#[test]
fn e4_max_age_limits() {
    for product in [SMALL, LARGE] {
        for (max_age, legal) in
            [(0x05FFu16, false), (0x0600, true), (0x2800, true), (0x2801, false)]
        {
            let mut bench = Bench::new(product);
            let mut contents = BRIDGE;
            contents[5..7].copy_from_slice(&max_age.to_be_bytes());
            let reply = bench.command(CREATE, 45, 9, &contents);
            let expected = if legal { [0; 32] } else { contents_with(&[(0, 3), (1, 0x08)]) };
            assert_eq!(reply, expected);
            assert_eq!(bench.counter(), u8::from(legal));
            let there = bench.get(45, 9, 0x0800)[0] == 0;
            assert_eq!(there, legal);
        }
    }
}

#[test]
fn e5_large_gets_25_bytes_of_a_configuration() {
    let mut bench = Bench::new(LARGE);
    bench.create_bridge(9);
    let contents = bench.get(46, 9, 0xFE00);
    // BridgePriority is the profile's 0x8000, HelloTime that of the Create.
    assert_eq!(contents, contents_with(&[(1, 0xFE), (9, 0x80), (26, 2)]));
}

#[test]
fn e6_large_refuses_27_bytes_of_a_configuration() {
    let mut bench = Bench::new(LARGE);
    bench.create_bridge(9);
    assert_eq!(bench.get(46, 9, 0xFF00), contents_with(&[(0, 3)]));
}

#[test]
fn e7_small_has_no_attribute_7_of_a_configuration() {
    let mut bench = Bench::new(SMALL);
    bench.create_bridge(9);
    assert_eq!(bench.get(46, 9, 0xFE00), contents_with(&[(0, 9), (28, 0x02)]));
}

#[test]
fn e10_sections_of_a_configuration() {
    let mut bench = Bench::new(LARGE);
    bench.create_bridge(9);
    assert_eq!(bench.upload(), 7);
    assert_eq!(bench.section(5)[..6], [0, 46, 0, 9, 0xFE, 0]);
    assert_eq!(bench.section(6), contents_with(&[(1, 46), (3, 9), (4, 1), (6, 0x0F)]));
    let mut bench = Bench::new(SMALL);
    bench.create_bridge(9);
    assert_eq!(bench.upload(), 3);
    assert_eq!(bench.section(2), contents_with(&[(1, 46), (3, 9), (4, 0xFC), (12, 0x80)]));
}

#[test]
fn e11_whole_upload_of_a_fresh_small() {
    let mut bench = Bench::new(SMALL);
    assert_eq!(bench.upload(), 1);
    assert_eq!(bench.section(0), contents_with(&[(1, 0x0B), (2, 1), (3, 1), (4, 0xFC)]));
    assert_eq!(bench.section(1), [0; 32]);
}

#[test]
fn e12_get_of_the_counter() {
    for product in [SMALL, LARGE, METER] {
        let mut bench = Bench::new(product);
        let mut command = vec![0x12, 0x34, 0x49, 0x0A, 0, 2, 0, 0, 0x80, 0];
        command.extend([0; 30]);
        command.extend([0, 0, 0, 0x28, 0xDE, 0xAD, 0xBE, 0xEF]);
        let mut reply = vec![0x12, 0x34, 0x29, 0x0A, 0, 2, 0, 0, 0, 0x80, 0];
        reply.extend([0; 29]);
        reply.extend([0, 0, 0, 0x28, 0, 0, 0, 0]);
        assert_eq!(bench.send(&command).to_vec(), reply);
    }
}

#[test]
fn e14_sections_with_one_bridge() {
    for (product, sections) in [(SMALL, 3), (LARGE, 7)] {
        let mut bench = Bench::new(product);
        bench.create_bridge(9);
        assert_eq!(bench.upload(), sections);
    }
}
