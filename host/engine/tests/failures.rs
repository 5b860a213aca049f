//! Which attribute failed: what document 02 (ticket 9) says of a Set.

mod bench;

use bench::*;
use ordinary_engine::catalogue::{Class, Product};

/// The products that take a Set.
const BOTH: [u8; 2] = [SMALL, LARGE];

const UNI: (u16, u16) = (11, 0x0101);
const PROFILE: (u16, u16) = (45, 3);
const CONFIGURATION: (u16, u16) = (46, 3);
const PORT: (u16, u16) = (47, 7);

/// A product with a bridge and a port, whose counter is 2.
fn furnished(product: u8) -> Bench {
    let mut bench = Bench::new(product);
    assert_eq!(bench.create_bridge(PROFILE.1), 0);
    assert_eq!(bench.create_port(PORT.1, PROFILE.1), 0);
    bench
}

/// The contents of a reply with this result and these masks: the unsupported
/// and the failed one of a Set. A Create has the first alone.
fn refused(result: u8, first: u16, second: u16) -> [u8; 32] {
    let mut contents = [0; 32];
    contents[0] = result;
    contents[1..3].copy_from_slice(&first.to_be_bytes());
    contents[3..5].copy_from_slice(&second.to_be_bytes());
    contents
}

/// The first UNI, the bridge and the port as the product has them, and the
/// counter.
fn read_out(bench: &mut Bench, product: u8) -> Vec<[u8; 32]> {
    let (uni, port) = if product == LARGE { (0xFFF8, 0xFF80) } else { (0xFC00, 0xFF00) };
    [(UNI, uni), (PROFILE, 0xFE00), (CONFIGURATION, 0xFC00), (PORT, port), ((2, 0), 0x8000)]
        .map(|((class, instance), mask)| bench.get(class, instance, mask))
        .to_vec()
}

/// The Sets with bad contents that a product can be sent.
fn bad_sets(product: u8) -> impl Iterator<Item = &'static Bad> {
    let further = if product == LARGE { &BAD_IN_LARGE[..] } else { &[] };
    BAD.iter().chain(further)
}

/// Sets with bad contents: the instance, the mask, the values, the bad bits.
type Bad = ((u16, u16), u16, &'static [u8], u16);

const BAD: [Bad; 14] = [
    // Loopback is 0 or 3, the admin state 0 or 1; the types may be any.
    (UNI, 0x1000, &[1], 0x1000),
    (UNI, 0x1000, &[4], 0x1000),
    (UNI, 0x0800, &[2], 0x0800),
    (UNI, 0x1800, &[3, 0xFF], 0x0800),
    (UNI, 0x1800, &[2, 1], 0x1000),
    (UNI, 0xB800, &[0xFF, 0xFF, 2, 2], 0x1800),
    // Of a profile all but Priority have a rule.
    (PROFILE, 0x4000, &[2], 0x4000),
    (PROFILE, 0x0C00, &[0x28, 0x01, 0x02, 0x00], 0x0800),
    (PROFILE, 0x5A00, &[0xFF, 0xFF, 0xFF, 0x06, 0x00, 0x03, 0xFF], 0x4200),
    (PROFILE, 0xFE00, &[2, 2, 2, 9, 9, 0x05, 0xFF, 0x00, 0xFF, 0x1E, 0x01], 0xEE00),
    (PROFILE, 0xFE00, &[0xFF; 11], 0xEE00),
    // Of a port every attribute that can be written has a rule.
    (PORT, 0x0400, &[0, 0], 0x0400),
    (PORT, 0x0D00, &[1, 0, 0, 1, 2], 0x0900),
    (PORT, 0x0F00, &[0xFF, 0xFF, 0, 0, 2, 0xFF], 0x0F00),
];

/// The same, of attributes that only Large has.
const BAD_IN_LARGE: [Bad; 5] = [
    (UNI, 0x0080, &[3], 0x0080),
    (UNI, 0x1090, &[3, 2, 2], 0x0010),
    (UNI, 0x01F8, &[0xFF; 8], 0x00B0),
    (UNI, 0xB9F8, &[9, 9, 1, 1, 9, 9, 2, 9, 9, 3, 1, 9], 0x1020),
    (PORT, 0x0F80, &[0, 255, 0, 1, 1, 1, 2], 0x0080),
];

#[test]
fn every_bad_bit_shows() {
    for product in BOTH {
        let mut bench = furnished(product);
        for &((class, instance), mask, values, bad) in bad_sets(product) {
            let contents = bench.set(class, instance, mask, values);
            assert_eq!(contents, refused(9, 0, bad), "{class} {mask:04X} {values:?}");
        }
    }
}

#[test]
fn limits_are_those_of_a_create() {
    for product in BOTH {
        let mut bench = furnished(product);
        for (max_age, contents) in [
            (0x05FFu16, refused(9, 0, 0x0800)),
            (0x0600, [0; 32]),
            (0x2800, [0; 32]),
            (0x2801, refused(9, 0, 0x0800)),
        ] {
            assert_eq!(bench.set(45, 3, 0x0800, &max_age.to_be_bytes()), contents);
        }
        assert_eq!(bench.get(45, 3, 0x0800)[3..5], [0x28, 0x00]);
        assert_eq!(bench.counter(), 4);
    }
}

#[test]
fn bad_bits_hide_behind_unsupported_and_unwritable_ones() {
    // The mask, values of which at least one is bad, and good ones.
    type Hidden = ((u16, u16), u16, &'static [u8], &'static [u8], [u8; 32]);
    let small: [Hidden; 8] = [
        (UNI, 0x1200, &[1], &[3], refused(9, 0x0200, 0)),
        (UNI, 0x5000, &[0, 1], &[0, 3], refused(9, 0, 0x4000)),
        (UNI, 0x1C00, &[1, 2, 0], &[3, 1, 0], refused(9, 0, 0x0400)),
        (UNI, 0x5001, &[0, 1], &[0, 3], refused(9, 0x0001, 0x4000)),
        (PROFILE, 0x0900, &[0x05, 0xFF], &[0x06, 0x00], refused(9, 0x0100, 0)),
        (PORT, 0x0180, &[2], &[1], refused(9, 0x0080, 0)),
        (PORT, 0x8400, &[0, 3, 0, 0], &[0, 3, 0, 1], refused(9, 0, 0x8000)),
        (PORT, 0x9480, &[0, 3, 1, 1, 0, 0], &[0, 3, 1, 1, 0, 1], refused(9, 0x0080, 0x9000)),
    ];
    let large: [Hidden; 5] = [
        (UNI, 0x0084, &[3], &[2], refused(9, 0x0004, 0)),
        (UNI, 0x0280, &[0, 3], &[0, 2], refused(9, 0, 0x0200)),
        (UNI, 0x4214, &[0, 0, 2], &[0, 0, 1], refused(9, 0x0004, 0x4200)),
        (PORT, 0x00C0, &[2], &[1], refused(9, 0x0040, 0)),
        (PORT, 0x20C0, &[1, 2], &[1, 1], refused(9, 0x0040, 0x2000)),
    ];
    for (product, hidden) in [(SMALL, &small[..]), (LARGE, &large)] {
        let mut bench = furnished(product);
        for &((class, instance), mask, bad, good, contents) in hidden {
            assert_eq!(bench.set(class, instance, mask, bad), contents);
            assert_eq!(bench.set(class, instance, mask, good), contents);
        }
        // Of a configuration nothing can be written.
        assert_eq!(bench.set(46, 3, 0x4800, &[0xFF; 3]), refused(9, 0, 0x4800));
    }
}

#[test]
fn other_refusals_have_their_own_results() {
    for product in BOTH {
        let mut bench = furnished(product);
        for (class, instance) in [(2, 0), UNI, PROFILE, CONFIGURATION, PORT] {
            for values in [&[][..], &[0xFF; 30]] {
                assert_eq!(bench.set(class, instance, 0, values), refused(3, 0, 0));
                assert_eq!(bench.set(class, 0x0999, 0, values), refused(5, 0, 0));
                assert_eq!(bench.set(class, 0x0999, 0x1800, values), refused(5, 0, 0));
            }
        }
        assert_eq!(bench.set(84, 3, 0x8000, &[0xFF]), refused(4, 0, 0));
    }
    let mut meter = Bench::new(METER);
    assert_eq!(meter.set(11, 0x0101, 0x1800, &[1, 2]), refused(2, 0, 0));
    assert_eq!(meter.set(11, 0x0101, 0, &[]), refused(2, 0, 0));
}

#[test]
fn no_set_carries_over_30_bytes_of_values() {
    // What stays a bad parameter for its length can't be sent to a product
    // that is built: unwritable bits are refused before it.
    for product in Product::ALL {
        let classes = Class::UPLOADED.into_iter().chain([Class::OntData]);
        for class in classes.filter(|&class| product.has(class)) {
            let writable = class.attributes(product).iter().filter(|it| it.rights.write);
            let bytes: usize = writable.map(|attribute| attribute.size).sum();
            assert!(bytes <= 30, "{product:?} {class:?}: {bytes}");
        }
    }
}

#[test]
fn a_create_with_bad_contents_keeps_3() {
    for product in BOTH {
        let mut bench = furnished(product);
        let before = read_out(&mut bench, product);
        let bridge = [2, 2, 2, 9, 9, 0x05, 0xFF, 0x00, 0xFF, 0x1E, 0x01];
        assert_eq!(bench.command(CREATE, 45, 4, &bridge), refused(3, 0xEE00, 0));
        let port = [0, 3, 1, 1, 1, 1, 1, 0, 0, 0, 2, 2, 2];
        assert_eq!(bench.command(CREATE, 47, 8, &port), refused(3, 0x0F80, 0));
        assert_eq!(bench.command(CREATE, 45, 3, &bridge), refused(7, 0, 0));
        assert_eq!(bench.get(45, 4, 0x8000)[0], 5);
        assert_eq!(bench.get(47, 8, 0x8000)[0], 5);
        assert_eq!(read_out(&mut bench, product), before);
    }
}

#[test]
fn bad_contents_store_nothing() {
    for product in BOTH {
        let mut bench = furnished(product);
        let before = read_out(&mut bench, product);
        assert!(before.iter().all(|contents| contents[0] == 0));
        assert_eq!(before[4][3], 2);
        for &((class, instance), mask, values, _) in bad_sets(product) {
            assert_eq!(bench.set(class, instance, mask, values)[0], 9);
            assert_eq!(read_out(&mut bench, product), before);
        }
    }
}

#[test]
fn a_repeat_gets_the_same_reply() {
    for product in BOTH {
        let mut bench = furnished(product);
        let set = command(0x4711, SET, 45, 3, &[0x0C, 0, 0x28, 0x01, 0x00, 0xFF]);
        let reply = bench.send(&set);
        assert_eq!(reply[8..40], refused(9, 0, 0x0C00));
        let before = bench.store.clone();
        assert_eq!(bench.send(&set), reply);
        assert!(bench.store == before);
        // Good contents under the same id are another command.
        let good = command(0x4711, SET, 45, 3, &[0x0C, 0, 0x28, 0x00, 0x01, 0x00]);
        assert_eq!(bench.send(&good)[8..40], [0; 32]);
        assert_eq!(bench.send(&set), reply);
        assert_eq!(bench.get(45, 3, 0x0C00)[3..7], [0x28, 0x00, 0x01, 0x00]);
        assert_eq!(bench.counter(), 3);
    }
}
