//! The table of managed entities, over the bytes that hold it.
//!
//! | Bytes | What |
//! |---|---|
//! | 0 | class 2: the sync counter |
//! | 1 | number of bridges |
//! | 2 | number of ports |
//! | 3-62 | four Ethernet UNIs of 15 bytes |
//! | 63-1542 | 40 places of 37 bytes: the bridges, then the ports, each by number |
//!
//! A bridge is an instance of class 45 with the class 46 that came with it. All
//! bytes that hold nothing are zero, and the created instances are packed and
//! sorted, so that a table has one encoding however it came about.

use crate::catalogue::{
    Attribute, Class, Product, Source, BRIDGE_POINTER_OFFSET, BRIDGE_SIZE, FIRST_UNI, MOST_UNIS,
    ONT_DATA_SIZE, PORT_SIZE, PRIORITY_OFFSET, UNI_SIZE,
};
use crate::message::number_at;

/// How many created instances of class 45 and 47 there can be together.
pub const PLACES: usize = 40;
/// A place holds a bridge or a port; a bridge takes more bytes.
pub const PLACE_SIZE: usize = BRIDGE_SIZE;

const COUNTER_AT: usize = 0;
const BRIDGES_AT: usize = 1;
const PORTS_AT: usize = 2;
const UNIS_AT: usize = 3;
const PLACES_AT: usize = UNIS_AT + MOST_UNIS * UNI_SIZE;

/// The bytes of a table.
pub const SIZE: usize = PLACES_AT + PLACES * PLACE_SIZE;

/// A table that is read.
#[derive(Clone, Copy)]
pub struct Table<'a> {
    product: Product,
    bytes: &'a [u8; SIZE],
}

impl<'a> Table<'a> {
    /// The table of this product in these bytes.
    pub fn new(product: Product, bytes: &'a [u8; SIZE]) -> Table<'a> {
        Table { product, bytes }
    }

    /// The product whose table this is.
    pub fn product(&self) -> Product {
        self.product
    }

    /// The bytes that hold the table.
    pub fn bytes(&self) -> &'a [u8; SIZE] {
        self.bytes
    }

    /// The sync counter.
    pub fn counter(&self) -> u8 {
        self.bytes[COUNTER_AT]
    }

    /// How many instances of the class there are.
    pub fn count(&self, class: Class) -> usize {
        match class {
            Class::OntData => 1,
            Class::EthernetUni => self.product.unis(),
            Class::BridgeProfile | Class::BridgeConfiguration => {
                usize::from(self.bytes[BRIDGES_AT])
            }
            Class::PortConfiguration => usize::from(self.bytes[PORTS_AT]),
        }
    }

    /// How many places are in use.
    pub fn places_in_use(&self) -> usize {
        self.count(Class::BridgeProfile) + self.count(Class::PortConfiguration)
    }

    /// The bytes of the places that aren't in use.
    pub fn unused_places(&self) -> &'a [u8] {
        &self.bytes[PLACES_AT + self.places_in_use() * PLACE_SIZE..]
    }

    /// The bytes of the Ethernet UNIs that the product doesn't have.
    pub fn unused_unis(&self) -> &'a [u8] {
        &self.bytes[UNIS_AT + self.product.unis() * UNI_SIZE..PLACES_AT]
    }

    /// The records of the Ethernet UNIs that the product has.
    pub fn unis(&self) -> &'a [[u8; UNI_SIZE]] {
        let (unis, _) = self.bytes[UNIS_AT..PLACES_AT].as_chunks();
        &unis[..self.product.unis()]
    }

    /// The places of the bridges.
    pub fn bridges(&self) -> &'a [[u8; PLACE_SIZE]] {
        &self.places()[..self.count(Class::BridgeProfile)]
    }

    /// The places of the ports, also the bytes that a port doesn't use.
    pub fn ports(&self) -> &'a [[u8; PLACE_SIZE]] {
        &self.places()[self.count(Class::BridgeProfile)..self.places_in_use()]
    }

    /// Whether another table of the product has the same bytes, except perhaps
    /// for the sync counter.
    pub fn is_same_but_for_counter(&self, other: &Table) -> bool {
        self.bytes[COUNTER_AT + ONT_DATA_SIZE..] == other.bytes[COUNTER_AT + ONT_DATA_SIZE..]
    }

    /// The record of the instance at this index among those of its class.
    pub fn record(&self, class: Class, index: usize) -> &'a [u8] {
        let start = self.start(class, index);
        &self.bytes[start..start + record_size(class)]
    }

    /// The number of the instance at this index among those of its class.
    pub fn instance(&self, class: Class, index: usize) -> u16 {
        match class {
            Class::OntData => 0,
            // There are at most four.
            Class::EthernetUni => FIRST_UNI + index as u16,
            _ => number_at(self.bytes, self.start(class, index)),
        }
    }

    /// The index of this instance among those of its class, if it is there.
    pub fn find(&self, class: Class, instance: u16) -> Option<usize> {
        match class {
            Class::OntData => (instance == 0).then_some(0),
            Class::EthernetUni => self.product.uni_index(instance),
            _ => {
                let index = self.index_from(class, instance);
                let found = index < self.count(class) && self.instance(class, index) == instance;
                found.then_some(index)
            }
        }
    }

    /// Whether this instance is there.
    pub fn has(&self, class: Class, instance: u16) -> bool {
        self.find(class, instance).is_some()
    }

    /// Copies the content of an attribute of the instance at this index.
    pub fn read(&self, class: Class, index: usize, attribute: &Attribute, into: &mut [u8]) {
        let record = self.record(class, index);
        match attribute.source {
            Source::Stored(offset) => {
                into.copy_from_slice(&record[offset..offset + attribute.size]);
            }
            Source::ProfilePriority => {
                into.copy_from_slice(&record[PRIORITY_OFFSET..PRIORITY_OFFSET + attribute.size]);
            }
            Source::PortCount => {
                into.copy_from_slice(&[self.ports_naming(self.instance(class, index))]);
            }
        }
    }

    /// How many ports name this bridge.
    fn ports_naming(&self, bridge: u16) -> u8 {
        let naming = (0..self.count(Class::PortConfiguration)).filter(|&index| {
            let port = self.record(Class::PortConfiguration, index);
            number_at(port, BRIDGE_POINTER_OFFSET) == bridge
        });
        // There are at most 40.
        naming.count() as u8
    }

    /// The index of the first instance of a created class with this number or
    /// a higher one.
    fn index_from(&self, class: Class, instance: u16) -> usize {
        let mut low = 0;
        let mut high = self.count(class);
        while low < high {
            let middle = (low + high) / 2;
            if self.instance(class, middle) < instance {
                low = middle + 1;
            } else {
                high = middle;
            }
        }
        low
    }

    fn places(&self) -> &'a [[u8; PLACE_SIZE]] {
        self.bytes[PLACES_AT..].as_chunks().0
    }

    fn start(&self, class: Class, index: usize) -> usize {
        match class {
            Class::OntData => COUNTER_AT,
            Class::EthernetUni => UNIS_AT + index * UNI_SIZE,
            Class::BridgeProfile | Class::BridgeConfiguration => PLACES_AT + index * PLACE_SIZE,
            Class::PortConfiguration => {
                PLACES_AT + (self.count(Class::BridgeProfile) + index) * PLACE_SIZE
            }
        }
    }
}

/// A table that is changed.
pub struct TableMut<'a> {
    product: Product,
    bytes: &'a mut [u8; SIZE],
}

impl<'a> TableMut<'a> {
    /// The table of this product in these bytes.
    pub fn new(product: Product, bytes: &'a mut [u8; SIZE]) -> TableMut<'a> {
        TableMut { product, bytes }
    }

    /// The table as it now is.
    pub fn view(&self) -> Table<'_> {
        Table::new(self.product, self.bytes)
    }

    /// Writes a product's fresh table.
    pub fn write_fresh(&mut self) {
        self.bytes.fill(0);
        self.write_first_contents(|_| true);
    }

    /// What MIB reset does to a table: created instances go, and attributes
    /// that the exchange writes get their first content back.
    pub fn reset(&mut self) {
        self.bytes[PLACES_AT..].fill(0);
        self.bytes[BRIDGES_AT] = 0;
        self.bytes[PORTS_AT] = 0;
        self.set_counter(0);
        self.write_first_contents(|attribute| attribute.rights.write);
    }

    /// Stores the sync counter.
    pub fn set_counter(&mut self, counter: u8) {
        self.bytes[COUNTER_AT] = counter;
    }

    /// The record of the instance at this index among those of its class.
    pub fn record_mut(&mut self, class: Class, index: usize) -> &mut [u8] {
        let start = self.view().start(class, index);
        &mut self.bytes[start..start + record_size(class)]
    }

    /// Puts a new bridge or port in its place by number. There must be a free
    /// place and no such instance yet.
    pub fn insert(&mut self, class: Class, instance: u16, record: &[u8]) {
        let table = self.view();
        let start = table.start(class, table.index_from(class, instance));
        let end = PLACES_AT + table.places_in_use() * PLACE_SIZE;
        self.bytes.copy_within(start..end, start + PLACE_SIZE);
        let place = &mut self.bytes[start..start + PLACE_SIZE];
        place.fill(0);
        place[..record.len()].copy_from_slice(record);
        self.bytes[count_at(class)] += 1;
    }

    /// Takes the bridge or port at this index away; those behind it move up.
    pub fn remove(&mut self, class: Class, index: usize) {
        let table = self.view();
        let start = table.start(class, index);
        let end = PLACES_AT + table.places_in_use() * PLACE_SIZE;
        self.bytes.copy_within(start + PLACE_SIZE..end, start);
        self.bytes[end - PLACE_SIZE..end].fill(0);
        self.bytes[count_at(class)] -= 1;
    }

    fn write_first_contents(&mut self, which: impl Fn(&Attribute) -> bool) {
        for index in 0..self.product.unis() {
            for attribute in Class::EthernetUni.attributes(self.product) {
                if which(attribute) {
                    attribute.write_first(self.record_mut(Class::EthernetUni, index));
                }
            }
        }
    }
}

/// Where the number of instances of a created class is kept.
fn count_at(class: Class) -> usize {
    match class {
        Class::PortConfiguration => PORTS_AT,
        _ => BRIDGES_AT,
    }
}

/// The bytes of the record that holds an instance of this class.
pub fn record_size(class: Class) -> usize {
    match class {
        Class::OntData => ONT_DATA_SIZE,
        Class::EthernetUni => UNI_SIZE,
        Class::BridgeProfile | Class::BridgeConfiguration => BRIDGE_SIZE,
        Class::PortConfiguration => PORT_SIZE,
    }
}
