//! Uploads and alarm walks. They have no result: what can't be shown is
//! answered with zero contents and changes no walk and no alarm number.

use super::NO_CONTENTS;
use crate::catalogue::{mask_of, Attribute, Class, Product};
use crate::message::{number_at, put_number, Command, Contents};
use crate::store::{Bitmaps, Store};
use crate::table::Table;

/// The bytes of values that a section of an upload has room for.
const SECTION_ROOM: usize = 26;

/// MIB upload: freezes the table and tells the number of its sections.
pub fn begin_upload(store: &mut Store, command: &Command) -> Contents {
    if !is_for_ont_data(command) {
        return NO_CONTENTS;
    }
    store.begin_upload();
    with_count(count_sections(&store.table()))
}

/// MIB upload next: shows one section of the frozen table.
pub fn next_section(store: &Store, command: &Command) -> Contents {
    let section = walked(store.frozen_table(), command)
        .and_then(|table| Some((table, find_section(&table, index_in(command))?)));
    match section {
        Some((table, section)) => show_section(&table, &section),
        None => NO_CONTENTS,
    }
}

/// Get all alarms: freezes the bitmaps and tells how many aren't all zero.
pub fn begin_alarm_walk(store: &mut Store, command: &Command) -> Contents {
    if !is_for_ont_data(command) {
        return NO_CONTENTS;
    }
    store.begin_alarm_walk();
    with_count(raised(store.alarms()).count())
}

/// Get all alarms next: shows one frozen bitmap that isn't all zero.
pub fn next_alarms(store: &Store, command: &Command) -> Contents {
    let shown = walked(store.frozen_alarms(), command)
        .and_then(|bitmaps| raised(bitmaps).nth(index_in(command)));
    let Some((uni, bitmap)) = shown else {
        return NO_CONTENTS;
    };
    let class = Class::EthernetUni;
    let mut contents = NO_CONTENTS;
    put_number(&mut contents, 0, class.number());
    put_number(&mut contents, 2, store.table().instance(class, uni));
    contents[4] = bitmap;
    contents
}

/// Walks belong to class 2, whose only instance is 0.
fn is_for_ont_data(command: &Command) -> bool {
    command.class_id() == Class::OntData.number() && command.instance() == 0
}

/// The frozen copy, if there is one and the command may see it.
fn walked<T>(frozen: Option<T>, command: &Command) -> Option<T> {
    frozen.filter(|_| is_for_ont_data(command))
}

fn index_in(command: &Command) -> usize {
    usize::from(number_at(command.contents(), 0))
}

fn with_count(count: usize) -> Contents {
    let mut contents = NO_CONTENTS;
    // No catalogue reaches 65,536 sections: 40 places and 4 UNIs give at most
    // two sections each.
    put_number(&mut contents, 0, count as u16);
    contents
}

/// The UNIs with an alarm on, by number, with their bitmaps.
fn raised(bitmaps: &Bitmaps) -> impl Iterator<Item = (usize, u8)> + '_ {
    bitmaps.iter().copied().enumerate().filter(|&(_, bitmap)| bitmap != 0)
}

/// One section of an upload.
struct Section {
    class: Class,
    index: usize,
    attributes: &'static [Attribute],
}

/// The sections of any instance of the class: attributes in order while they
/// fit.
fn sections(class: Class, product: Product) -> impl Iterator<Item = &'static [Attribute]> {
    let mut rest = class.attributes(product);
    std::iter::from_fn(move || {
        let (section, behind) = rest.split_at(how_many_fit(rest));
        rest = behind;
        (!section.is_empty()).then_some(section)
    })
}

fn how_many_fit(attributes: &[Attribute]) -> usize {
    let mut used = 0;
    attributes
        .iter()
        .take_while(|attribute| {
            used += attribute.size;
            used <= SECTION_ROOM
        })
        .count()
}

fn count_sections(table: &Table) -> usize {
    Class::UPLOADED
        .into_iter()
        .map(|class| table.count(class) * sections(class, table.product()).count())
        .sum()
}

/// The section with this index from 0: instances go by class, then number.
fn find_section(table: &Table, mut index: usize) -> Option<Section> {
    for class in Class::UPLOADED {
        let each = sections(class, table.product()).count();
        let all = each * table.count(class);
        if index < all {
            let attributes = sections(class, table.product()).nth(index % each)?;
            return Some(Section { class, index: index / each, attributes });
        }
        index -= all;
    }
    None
}

fn show_section(table: &Table, section: &Section) -> Contents {
    let mut contents = NO_CONTENTS;
    put_number(&mut contents, 0, section.class.number());
    put_number(&mut contents, 2, table.instance(section.class, section.index));
    put_number(&mut contents, 4, mask_of(section.attributes));
    let mut room = &mut contents[6..];
    for attribute in section.attributes {
        let (value, rest) = room.split_at_mut(attribute.size);
        table.read(section.class, section.index, attribute, value);
        room = rest;
    }
    contents
}
