//! The messages of the sweep: Sets and Creates with contents in and out of their
//! range, in every mixture.

use std::collections::BTreeSet;

use exchange::{command, port_contents, CREATE, SET};
use ordinary_engine::catalogue::Product;

use super::rights::{numbers, range, rights, size};

/// A content of an attribute, by its lowest and its highest legal one. Where
/// nothing is smaller or larger the number wraps round, and may be legal or not.
#[derive(Clone, Copy)]
enum Content {
    Lowest,
    Second,
    Highest,
    TooSmall,
    TooLarge,
    Ones,
}

use Content::{Highest, Lowest, Ones, Second, TooLarge, TooSmall};

/// What named attributes are given, in turn. With three of them, every mixture
/// of good and bad is there.
const PATTERNS: [[Content; 3]; 12] = [
    [Lowest, Lowest, Lowest],
    [Lowest, Lowest, TooLarge],
    [Lowest, TooLarge, Lowest],
    [Lowest, TooLarge, TooLarge],
    [TooLarge, Lowest, Lowest],
    [TooLarge, Lowest, TooLarge],
    [TooLarge, TooLarge, Lowest],
    [TooLarge, TooLarge, TooLarge],
    [TooSmall, TooSmall, TooSmall],
    [Second, Second, Second],
    [Highest, Highest, Highest],
    [Ones, Ones, Ones],
];

/// Each message once; many a mixture gives the same bytes.
pub fn all(product: Product) -> BTreeSet<[u8; 48]> {
    let mut messages = BTreeSet::new();
    for pattern in PATTERNS {
        messages.extend(sets(product, pattern));
        messages.extend(creates(pattern));
    }
    messages
}

/// Sets of what a furnished bench has, of what isn't there, and of an unknown
/// class: with all masks of up to three bits, all of what can be written, and
/// the greatest ones.
fn sets(product: Product, pattern: [Content; 3]) -> impl Iterator<Item = [u8; 48]> {
    let named =
        [(2, 0), (11, 0x0101), (11, 0x0105), (45, 0x0300), (46, 0x0300), (47, 0x0009), (84, 9)];
    named.into_iter().flat_map(move |(class, instance)| {
        let (has, writable) = rights(product, class).unwrap_or((0, 0));
        let masks = (0..=0xFFFFu16)
            .filter(move |mask| mask.count_ones() <= 3 || mask & !writable == 0)
            .chain([has, 0xFFFF]);
        masks.map(move |mask| {
            let contents = [&mask.to_be_bytes()[..], &values(class, mask & has, pattern)];
            command(0x0909, SET, class, instance, &contents.concat())
        })
    })
}

/// Creates of instances that a furnished bench has, and of one that it hasn't.
fn creates(pattern: [Content; 3]) -> impl Iterator<Item = [u8; 48]> {
    let bridge = values(45, 0xFE00, pattern);
    let mut port = port_contents(0x0300);
    port[6..12].copy_from_slice(&values(47, 0x0F00, pattern));
    [0x0300, 0x0009, 0x1234].into_iter().flat_map(move |instance| {
        [(45, &bridge[..]), (47, &port)]
            .map(|(class, contents)| command(0x0909, CREATE, class, instance, contents))
    })
}

/// The packed contents of the named attributes.
fn values(class: u16, named: u16, pattern: [Content; 3]) -> Vec<u8> {
    let mut values = Vec::new();
    for (attribute, content) in numbers(named).zip(pattern.into_iter().cycle()) {
        let (lowest, highest) = range(class, attribute);
        let number = match content {
            Lowest => lowest,
            Second => lowest.wrapping_add(1),
            Highest => highest,
            TooSmall => lowest.wrapping_sub(1),
            TooLarge => highest.wrapping_add(1),
            Ones => 0xFFFF,
        };
        values.extend(&number.to_be_bytes()[2 - size(class, attribute)..]);
    }
    values
}
