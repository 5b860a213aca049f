//! The catalogues of the three products: which classes there are, which
//! attributes they have, and which contents are legal.
//!
//! Large has everything that Small has and adds attributes at the end of three
//! classes. So each class has one list of attributes, Large's, and Small sees
//! the beginning of it. Meter has two of the classes, and of the UNI's list
//! some of what Small sees.

/// The most attributes' bytes a place can hold is that of a bridge: its number,
/// its profile (class 45) and its configuration (class 46).
pub const BRIDGE_SIZE: usize = 2 + 11 + 24;
/// The bytes of a port: its number and its attributes in Large.
pub const PORT_SIZE: usize = 2 + 13;
/// The bytes of an Ethernet UNI's attributes in Large. Its number isn't stored.
pub const UNI_SIZE: usize = 15;
/// The bytes of ONT data: the sync counter.
pub const ONT_DATA_SIZE: usize = 1;

/// The most Ethernet UNIs a product has.
pub const MOST_UNIS: usize = 4;
/// The number of the first Ethernet UNI; the others follow it.
pub const FIRST_UNI: u16 = 0x0101;

/// The products.
#[derive(Clone, Copy, Debug, PartialEq, Eq)]
pub enum Product {
    /// One Ethernet UNI, the shorter lists of attributes.
    Small,
    /// Four Ethernet UNIs, the longer lists of attributes.
    Large,
    /// One Ethernet UNI with some of Small's attributes, and no bridges. The
    /// exchange can neither create nor delete nor set anything.
    Meter,
}

impl Product {
    /// The products, by their numbers.
    pub const ALL: [Product; 3] = [Product::Small, Product::Large, Product::Meter];

    /// The product with this number, if there is one.
    pub fn from_number(number: u8) -> Option<Product> {
        match number {
            1 => Some(Product::Small),
            2 => Some(Product::Large),
            3 => Some(Product::Meter),
            _ => None,
        }
    }

    /// The number that power-on takes and the store holds.
    pub fn number(self) -> u8 {
        match self {
            Product::Small => 1,
            Product::Large => 2,
            Product::Meter => 3,
        }
    }

    /// How many Ethernet UNIs the product has.
    pub fn unis(self) -> usize {
        match self {
            Product::Small | Product::Meter => 1,
            Product::Large => MOST_UNIS,
        }
    }

    /// Whether the class is in the product's catalogue.
    pub fn has(self, class: Class) -> bool {
        match self {
            Product::Small | Product::Large => true,
            Product::Meter => matches!(class, Class::OntData | Class::EthernetUni),
        }
    }

    /// The class with this number, if it is in the product's catalogue.
    pub fn class(self, number: u16) -> Option<Class> {
        Class::from_number(number).filter(|&class| self.has(class))
    }

    /// Whether Set is for the product's classes. Where it isn't, attributes
    /// keep the right to be written, which MIB reset makes use of.
    pub fn takes_sets(self) -> bool {
        self != Product::Meter
    }

    /// The place of the Ethernet UNI with this instance number among the
    /// product's UNIs.
    pub fn uni_index(self, instance: u16) -> Option<usize> {
        let index = usize::from(instance.checked_sub(FIRST_UNI)?);
        (index < self.unis()).then_some(index)
    }
}

/// The classes of managed entities.
#[derive(Clone, Copy, Debug, PartialEq, Eq)]
pub enum Class {
    /// Class 2.
    OntData,
    /// Class 11.
    EthernetUni,
    /// Class 45.
    BridgeProfile,
    /// Class 46, which comes and goes with class 45.
    BridgeConfiguration,
    /// Class 47.
    PortConfiguration,
}

impl Class {
    /// The classes that uploads show, in the order in which they show them.
    pub const UPLOADED: [Class; 4] = [
        Class::EthernetUni,
        Class::BridgeProfile,
        Class::BridgeConfiguration,
        Class::PortConfiguration,
    ];

    /// The class with this number, if it is in some product's catalogue.
    pub fn from_number(number: u16) -> Option<Class> {
        match number {
            2 => Some(Class::OntData),
            11 => Some(Class::EthernetUni),
            45 => Some(Class::BridgeProfile),
            46 => Some(Class::BridgeConfiguration),
            47 => Some(Class::PortConfiguration),
            _ => None,
        }
    }

    /// The number of the class in messages.
    pub fn number(self) -> u16 {
        match self {
            Class::OntData => 2,
            Class::EthernetUni => 11,
            Class::BridgeProfile => 45,
            Class::BridgeConfiguration => 46,
            Class::PortConfiguration => 47,
        }
    }

    /// The attributes that instances of the class have in this product, by
    /// ascending numbers. If the product hasn't the class, there is no instance
    /// to have any, and the list means nothing.
    pub fn attributes(self, product: Product) -> &'static [Attribute] {
        let all = self.attributes_of_any_product();
        match (product, self) {
            (Product::Small, Class::EthernetUni) => &all[..6],
            (Product::Small, Class::BridgeConfiguration) => &all[..6],
            (Product::Small, Class::PortConfiguration) => &all[..8],
            (Product::Meter, Class::EthernetUni) => &METER_UNI,
            _ => all,
        }
    }

    /// The attributes that instances of the class have only in other products.
    pub fn attributes_elsewhere(self, product: Product) -> &'static [Attribute] {
        match (product, self) {
            (Product::Meter, Class::EthernetUni) => &NOT_OF_METER_UNI,
            _ => &self.attributes_of_any_product()[self.attributes(product).len()..],
        }
    }

    /// The attributes that instances of the class have in some product; their
    /// numbers are 1, 2 and so on.
    pub fn attributes_of_any_product(self) -> &'static [Attribute] {
        match self {
            Class::OntData => &ONT_DATA,
            Class::EthernetUni => &ETHERNET_UNI,
            Class::BridgeProfile => &BRIDGE_PROFILE,
            Class::BridgeConfiguration => &BRIDGE_CONFIGURATION,
            Class::PortConfiguration => &PORT_CONFIGURATION,
        }
    }

    /// Whether the exchange creates and deletes instances of the class.
    pub fn is_created(self) -> bool {
        matches!(self, Class::BridgeProfile | Class::PortConfiguration)
    }

    /// The first byte of the bitmap of alarms that the class declares; no
    /// class declares an alarm beyond it.
    pub fn declared_alarms(self) -> u8 {
        match self {
            // LAN loss of signal.
            Class::EthernetUni => alarm_bit(0),
            _ => 0,
        }
    }
}

/// The bit of an alarm in the first byte of the bitmap, 0 for alarms beyond it.
pub fn alarm_bit(alarm: u8) -> u8 {
    0x80u8.checked_shr(u32::from(alarm)).unwrap_or(0)
}

/// What may be done with an attribute besides reading it.
#[derive(Clone, Copy, Debug, PartialEq, Eq)]
pub struct Rights {
    /// W: Set may write it, and MIB reset gives it its first content.
    pub write: bool,
    /// C: Create carries its content.
    pub set_by_create: bool,
    /// L: local reports write it.
    pub local: bool,
    /// A report that changes it sends a notification.
    pub notified: bool,
}

const R: Rights = Rights { write: false, set_by_create: false, local: false, notified: false };
const RW: Rights = Rights { write: true, ..R };
const RL: Rights = Rights { local: true, ..R };
const RL_NOTIFIED: Rights = Rights { notified: true, ..RL };
const RC: Rights = Rights { set_by_create: true, ..R };
const RWC: Rights = Rights { write: true, ..RC };

/// Which contents of an attribute are legal.
#[derive(Clone, Copy, Debug, PartialEq, Eq)]
pub enum Rule {
    /// All of them.
    Any,
    /// The numbers from the first to the second, both included.
    Range(u16, u16),
    /// These numbers.
    Listed(&'static [u16]),
    /// The numbers of the instances of this class.
    Pointer(Class),
}

impl Rule {
    /// Whether the rule allows this content. `exists` says which instances are
    /// there.
    fn allows(self, content: &[u8], exists: &impl Fn(Class, u16) -> bool) -> bool {
        match self {
            Rule::Any => true,
            Rule::Range(lowest, highest) => (lowest..=highest).contains(&number_in(content)),
            Rule::Listed(numbers) => numbers.contains(&number_in(content)),
            Rule::Pointer(class) => exists(class, number_in(content)),
        }
    }
}

/// The big-endian number in a content of one or two bytes; only attributes of
/// these sizes have a rule.
fn number_in(content: &[u8]) -> u16 {
    match *content {
        [byte] => u16::from(byte),
        [high, low] => u16::from_be_bytes([high, low]),
        _ => unreachable!("an attribute of another size has no rule"),
    }
}

/// Where the content of an attribute comes from.
#[derive(Clone, Copy, Debug, PartialEq, Eq)]
pub enum Source {
    /// It is stored in the record of the instance, from this offset on.
    Stored(usize),
    /// It isn't stored: the Priority of the bridge's profile.
    ProfilePriority,
    /// It isn't stored: the number of ports that name the bridge.
    PortCount,
}

/// One attribute of a class.
#[derive(Clone, Copy, Debug)]
pub struct Attribute {
    /// Its number, from 1.
    pub number: u8,
    /// Its size in bytes.
    pub size: usize,
    /// What may be done with it.
    pub rights: Rights,
    /// Its legal contents.
    pub rule: Rule,
    /// If given, the rule is asked only where the byte at this offset of the
    /// instance's record has this value.
    judged_if: Option<(usize, u8)>,
    /// The content of a fresh instance that the exchange doesn't create.
    pub first: u16,
    /// Where its content comes from.
    pub source: Source,
}

impl Attribute {
    const fn stored(number: u8, size: usize, rights: Rights, offset: usize) -> Attribute {
        Attribute {
            number,
            size,
            rights,
            rule: Rule::Any,
            judged_if: None,
            first: 0,
            source: Source::Stored(offset),
        }
    }

    const fn computed(number: u8, size: usize, source: Source) -> Attribute {
        Attribute { source, ..Attribute::stored(number, size, R, 0) }
    }

    const fn ruled(self, rule: Rule) -> Attribute {
        Attribute { rule, ..self }
    }

    const fn judged_if(self, offset: usize, value: u8) -> Attribute {
        Attribute { judged_if: Some((offset, value)), ..self }
    }

    const fn first(self, first: u16) -> Attribute {
        Attribute { first, ..self }
    }

    /// The attribute's bit in a mask: attribute 1 has the top one.
    pub fn bit(&self) -> u16 {
        0x8000 >> (self.number - 1)
    }

    /// The attribute's content in the record of its instance, if it is stored.
    pub fn stored_in<'a>(&self, record: &'a [u8]) -> Option<&'a [u8]> {
        match self.source {
            Source::Stored(offset) => Some(&record[offset..offset + self.size]),
            _ => None,
        }
    }

    /// The same, for writing.
    pub fn stored_in_mut<'a>(&self, record: &'a mut [u8]) -> Option<&'a mut [u8]> {
        match self.source {
            Source::Stored(offset) => Some(&mut record[offset..offset + self.size]),
            _ => None,
        }
    }

    /// Writes the first content into the record of an instance.
    pub fn write_first(&self, record: &mut [u8]) {
        if let Some(content) = self.stored_in_mut(record) {
            content.fill(0);
            for (byte, first) in content.iter_mut().rev().zip(self.first.to_le_bytes()) {
                *byte = first;
            }
        }
    }

    /// Whether this content is legal beside what the record holds.
    pub fn is_legal(
        &self,
        content: &[u8],
        record: &[u8],
        exists: &impl Fn(Class, u16) -> bool,
    ) -> bool {
        let judged = match self.judged_if {
            Some((offset, value)) => record[offset] == value,
            None => true,
        };
        !judged || self.rule.allows(content, exists)
    }
}

/// The mask of all of these attributes.
pub fn mask_of(attributes: &[Attribute]) -> u16 {
    attributes.iter().fold(0, |mask, attribute| mask | attribute.bit())
}

/// The mask of those attributes whose content in the record isn't legal.
///
/// A product's record has room for attributes that only other products have;
/// there nothing but zeros is legal. A Create in Small carries such bytes too,
/// and the same rule refuses them.
pub fn bad_contents(
    product: Product,
    class: Class,
    record: &[u8],
    exists: &impl Fn(Class, u16) -> bool,
) -> u16 {
    let ruled = |attribute: &&Attribute| !matches!(attribute.rule, Rule::Any);
    let mut bad = 0;
    // What has no rule is passed over before its content is looked for.
    for attribute in class.attributes(product).iter().filter(ruled) {
        let legal = match attribute.stored_in(record) {
            Some(content) => attribute.is_legal(content, record, exists),
            None => true,
        };
        if !legal {
            bad |= attribute.bit();
        }
    }
    for attribute in class.attributes_elsewhere(product) {
        if attribute.stored_in(record).is_some_and(|content| content.iter().any(|&byte| byte != 0))
        {
            bad |= attribute.bit();
        }
    }
    bad
}

const ZERO_OR_ONE: Rule = Rule::Range(0, 1);

static ONT_DATA: [Attribute; 1] = [
    // Sync counter.
    Attribute::stored(1, 1, RW, 0),
];

static ETHERNET_UNI: [Attribute; 13] = [
    // Expected type, sensed type, auto detection.
    Attribute::stored(1, 1, RW, 0),
    Attribute::stored(2, 1, RL_NOTIFIED, 1),
    Attribute::stored(3, 1, RW, 2),
    // Loopback.
    Attribute::stored(4, 1, RW, 3).ruled(Rule::Listed(&[0, 3])),
    // Admin state, operational state.
    Attribute::stored(5, 1, RW, 4).ruled(ZERO_OR_ONE),
    Attribute::stored(6, 1, RL_NOTIFIED, 5).ruled(ZERO_OR_ONE),
    // From here on Large only. Configuration, max frame.
    Attribute::stored(7, 1, RL, 6),
    Attribute::stored(8, 2, RW, 7).first(1518),
    // DTE/DCE, pause.
    Attribute::stored(9, 1, RW, 9).ruled(Rule::Range(0, 2)),
    Attribute::stored(10, 2, RW, 10),
    // Bridged or IP, ARC, ARC interval.
    Attribute::stored(11, 1, RW, 12).ruled(Rule::Range(0, 2)).first(2),
    Attribute::stored(12, 1, RW, 13).ruled(ZERO_OR_ONE),
    Attribute::stored(13, 1, RW, 14),
];

/// What Meter has of a UNI, under the numbers and with the places that Small
/// and Large know: the two types and the two states.
static METER_UNI: [Attribute; 4] =
    [ETHERNET_UNI[0], ETHERNET_UNI[1], ETHERNET_UNI[4], ETHERNET_UNI[5]];

/// What Meter hasn't.
static NOT_OF_METER_UNI: [Attribute; 9] = [
    ETHERNET_UNI[2],
    ETHERNET_UNI[3],
    ETHERNET_UNI[6],
    ETHERNET_UNI[7],
    ETHERNET_UNI[8],
    ETHERNET_UNI[9],
    ETHERNET_UNI[10],
    ETHERNET_UNI[11],
    ETHERNET_UNI[12],
];

static BRIDGE_PROFILE: [Attribute; 7] = [
    // Spanning tree, learning, ATM port bridging.
    Attribute::stored(1, 1, RWC, 2).ruled(ZERO_OR_ONE),
    Attribute::stored(2, 1, RWC, 3).ruled(ZERO_OR_ONE),
    Attribute::stored(3, 1, RWC, 4).ruled(ZERO_OR_ONE),
    // Priority, MaxAge, HelloTime, ForwardDelay.
    Attribute::stored(4, 2, RWC, PRIORITY_OFFSET),
    Attribute::stored(5, 2, RWC, 7).ruled(Rule::Range(0x0600, 0x2800)),
    Attribute::stored(6, 2, RWC, PROFILE_DELAYS_OFFSET).ruled(Rule::Range(0x0100, 0x0A00)),
    Attribute::stored(7, 2, RWC, PROFILE_DELAYS_OFFSET + 2).ruled(Rule::Range(0x0400, 0x1E00)),
];

/// Where a bridge's record has the Priority of its profile.
pub const PRIORITY_OFFSET: usize = 5;
/// Where a bridge's record has the profile's HelloTime and ForwardDelay.
pub const PROFILE_DELAYS_OFFSET: usize = 9;
/// Where a bridge's record has the configuration's HelloTime and ForwardDelay.
pub const CONFIGURATION_DELAYS_OFFSET: usize = 33;
/// The bytes of HelloTime and ForwardDelay together.
pub const DELAYS_SIZE: usize = 4;

static BRIDGE_CONFIGURATION: [Attribute; 8] = [
    // MAC, BridgePriority, DesignatedRoot, RootPathCost.
    Attribute::stored(1, 6, RL, 13),
    Attribute::computed(2, 2, Source::ProfilePriority),
    Attribute::stored(3, 8, RL, 19),
    Attribute::stored(4, 4, RL, 27),
    // BridgePortCount, RootPortNum.
    Attribute::computed(5, 1, Source::PortCount),
    Attribute::stored(6, 2, RL, 31),
    // Large only: HelloTime, ForwardDelay.
    Attribute::stored(7, 2, RL, CONFIGURATION_DELAYS_OFFSET),
    Attribute::stored(8, 2, RL, CONFIGURATION_DELAYS_OFFSET + 2),
];

/// Where a port's record has its BridgeIdPointer.
pub const BRIDGE_POINTER_OFFSET: usize = 2;
const TP_TYPE_OFFSET: usize = 5;
/// The TPType of a port whose TPPointer names an Ethernet UNI.
pub const TP_TYPE_UNI: u8 = 1;

static PORT_CONFIGURATION: [Attribute; 9] = [
    // BridgeIdPointer, PortNum.
    Attribute::stored(1, 2, RC, BRIDGE_POINTER_OFFSET).ruled(Rule::Pointer(Class::BridgeProfile)),
    Attribute::stored(2, 1, RC, 4),
    // TPType, and TPPointer, which is judged only if it is said to name a UNI.
    Attribute::stored(3, 1, RC, TP_TYPE_OFFSET).ruled(Rule::Range(1, 2)),
    Attribute::stored(4, 2, RC, 6)
        .ruled(Rule::Pointer(Class::EthernetUni))
        .judged_if(TP_TYPE_OFFSET, TP_TYPE_UNI),
    // PortPriority, PortPathCost.
    Attribute::stored(5, 2, RWC, 8).ruled(Rule::Range(0, 255)),
    Attribute::stored(6, 2, RWC, 10).ruled(Rule::Range(1, 65535)),
    // Spanning tree, encapsulation.
    Attribute::stored(7, 1, RWC, 12).ruled(ZERO_OR_ONE),
    Attribute::stored(8, 1, RWC, 13).ruled(ZERO_OR_ONE),
    // Large only: LANFCSInd.
    Attribute::stored(9, 1, RWC, 14).ruled(ZERO_OR_ONE),
];

#[cfg(test)]
mod tests {
    use super::*;

    /// The records leave no byte without an attribute and give none to two.
    fn assert_covered(size: usize, from: usize, lists: &[&[Attribute]]) {
        let mut uses = vec![0; size];
        for attribute in lists.iter().flat_map(|list| list.iter()) {
            if let Source::Stored(offset) = attribute.source {
                for used in &mut uses[offset..offset + attribute.size] {
                    *used += 1;
                }
            }
        }
        assert!(uses[..from].iter().all(|&used| used == 0));
        assert!(uses[from..].iter().all(|&used| used == 1));
    }

    #[test]
    fn every_byte_of_a_record_belongs_to_one_attribute() {
        assert_covered(ONT_DATA_SIZE, 0, &[&ONT_DATA]);
        assert_covered(UNI_SIZE, 0, &[&ETHERNET_UNI]);
        assert_covered(BRIDGE_SIZE, 2, &[&BRIDGE_PROFILE, &BRIDGE_CONFIGURATION]);
        assert_covered(PORT_SIZE, 2, &[&PORT_CONFIGURATION]);
    }

    #[test]
    fn attributes_are_numbered_from_one() {
        for class in Class::UPLOADED.into_iter().chain([Class::OntData]) {
            for (index, attribute) in class.attributes_of_any_product().iter().enumerate() {
                assert_eq!(usize::from(attribute.number), index + 1);
                assert_eq!(Class::from_number(class.number()), Some(class));
            }
        }
    }

    #[test]
    fn products_have_their_numbers() {
        let all: Vec<Product> = (0..=255).filter_map(Product::from_number).collect();
        assert_eq!(all, Product::ALL);
        assert_eq!(Product::ALL.map(Product::number), [1, 2, 3]);
    }

    #[test]
    fn every_attribute_is_in_a_product_or_only_elsewhere() {
        for product in Product::ALL {
            let classes = Class::UPLOADED.into_iter().chain([Class::OntData]);
            for class in classes.filter(|&class| product.has(class)) {
                let there = class.attributes(product);
                let elsewhere = class.attributes_elsewhere(product);
                let all = class.attributes_of_any_product();
                assert_eq!(there.len() + elsewhere.len(), all.len());
                assert_eq!(mask_of(there) | mask_of(elsewhere), mask_of(all));
            }
        }
    }

    #[test]
    fn meter_has_ont_data_and_four_attributes_of_a_uni() {
        let meter = Product::Meter;
        let known: Vec<u16> = (0..=0xFFFF).filter(|&class| meter.class(class).is_some()).collect();
        assert_eq!(known, [2, 11]);
        assert_eq!(mask_of(Class::OntData.attributes(meter)), 0x8000);
        assert_eq!(mask_of(Class::EthernetUni.attributes(meter)), 0xCC00);
    }

    #[test]
    fn first_contents_are_legal() {
        for product in Product::ALL {
            let mut record = [0xFF; UNI_SIZE];
            for attribute in Class::EthernetUni.attributes(product) {
                attribute.write_first(&mut record);
                let content = attribute.stored_in(&record).unwrap();
                assert!(attribute.is_legal(content, &record, &|_, _| false));
            }
        }
    }

    #[test]
    fn only_short_attributes_have_a_rule() {
        for class in Class::UPLOADED.into_iter().chain([Class::OntData]) {
            for attribute in class.attributes_of_any_product() {
                assert!(attribute.rule == Rule::Any || matches!(attribute.size, 1 | 2));
            }
        }
    }

    #[test]
    fn alarm_bits_go_from_the_top() {
        assert_eq!(alarm_bit(0), 0x80);
        assert_eq!(alarm_bit(7), 0x01);
        assert_eq!(alarm_bit(8), 0);
        assert_eq!(alarm_bit(255), 0);
    }
}
