//! What the documents say of the attributes that a Set meets, written down once
//! more: which there are, which can be written, and what they may hold.

use ordinary_engine::catalogue::Product::{self, Large, Meter, Small};

/// The attributes that a product has of a class, and those of them that have the
/// right W. Nothing if the product hasn't the class.
pub fn rights(product: Product, class: u16) -> Option<(u16, u16)> {
    match (product, class) {
        (_, 2) => Some((0x8000, 0x8000)),
        (Small, 11) => Some((0xFC00, 0xB800)),
        (Large, 11) => Some((0xFFF8, 0xB9F8)),
        (Meter, 11) => Some((0xCC00, 0x8800)),
        (Small | Large, 45) => Some((0xFE00, 0xFE00)),
        (Small, 46) => Some((0xFC00, 0)),
        (Large, 46) => Some((0xFF00, 0)),
        (Small, 47) => Some((0xFF00, 0x0F00)),
        (Large, 47) => Some((0xFF80, 0x0F80)),
        _ => None,
    }
}

/// Whether the product has the instance, unless it comes and goes by commands.
pub fn is_there(product: Product, class: u16, instance: u16) -> Option<bool> {
    match (product, class) {
        (_, 2) => Some(instance == 0),
        (Large, 11) => Some((0x0101..=0x0104).contains(&instance)),
        (_, 11) => Some(instance == 0x0101),
        _ => None,
    }
}

/// The bytes of an attribute. Of class 46 nothing can be written, so its sizes
/// don't matter.
pub fn size(class: u16, attribute: u8) -> usize {
    match (class, attribute) {
        (11, 8 | 10) | (45, 4..=7) | (47, 1 | 4..=6) => 2,
        _ => 1,
    }
}

/// The lowest and the highest legal content of an attribute that can be written.
pub fn range(class: u16, attribute: u8) -> (u16, u16) {
    match (class, attribute) {
        (11, 4) => (0, 3),
        (11, 5 | 12) | (45, 1..=3) | (47, 7..=9) => (0, 1),
        (11, 9 | 11) => (0, 2),
        (45, 5) => (0x0600, 0x2800),
        (45, 6) => (0x0100, 0x0A00),
        (45, 7) => (0x0400, 0x1E00),
        (47, 5) => (0, 255),
        (47, 6) => (1, 0xFFFF),
        _ => (0, 0xFFFF),
    }
}

/// The bits of the named attributes whose contents aren't legal. The values are
/// packed.
pub fn bad_bits(class: u16, named: u16, mut values: &[u8]) -> u16 {
    let mut bad = 0;
    for attribute in numbers(named) {
        let (content, rest) = values.split_at(size(class, attribute));
        let content = content.iter().fold(0, |number, &byte| number << 8 | u16::from(byte));
        let (lowest, highest) = range(class, attribute);
        // A loopback is 0 or 3, and nothing between.
        let is_between = (class, attribute) == (11, 4) && matches!(content, 1 | 2);
        if is_between || !(lowest..=highest).contains(&content) {
            bad |= bit(attribute);
        }
        values = rest;
    }
    bad
}

/// The numbers of the attributes that a mask names.
pub fn numbers(mask: u16) -> impl Iterator<Item = u8> {
    (1..=16).filter(move |&attribute| mask & bit(attribute) != 0)
}

fn bit(attribute: u8) -> u16 {
    0x8000 >> (attribute - 1)
}
