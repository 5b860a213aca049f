//! Random calls, biased so that many commands are accepted and the corners of
//! the rules are met often.
//!
//! The generator follows the table roughly, from what was answered, to name
//! instances that are there. What it believes decides only what is tried, never
//! what is right.

use exchange::{
    command, ALARMS_NEXT, CLASSES, CREATE, DELETE, GET, GET_ALL_ALARMS, RESET, SET, UPLOAD,
    UPLOAD_NEXT,
};
use ordinary_engine::catalogue::{Attribute, Class, Product, Rule};

use crate::pair::Seen;
use crate::random::Random;
use crate::step::{Call, Lent};

/// What a run is mostly about. Shares are of a thousand calls.
struct Mood {
    /// How many instance numbers the run plays with.
    numbers: usize,
    creates: usize,
    deletes: usize,
    sets: usize,
    gets: usize,
    walks: usize,
    reports: usize,
    resets: usize,
    /// Messages of which some bytes are spoilt.
    spoilt: usize,
    /// Calls that are lent other sizes than the usual ones.
    sizes: usize,
    /// Commands that repeat or nearly repeat the last one.
    repeats: usize,
    /// Of a thousand contents, those that are meant to be legal.
    legal: usize,
}

const MOODS: [Mood; 6] = [
    // A bit of everything, with few instances.
    Mood {
        numbers: 6,
        creates: 200,
        deletes: 120,
        sets: 200,
        gets: 120,
        walks: 120,
        reports: 120,
        resets: 6,
        spoilt: 30,
        sizes: 40,
        repeats: 60,
        legal: 850,
    },
    // The table fills up and stays full.
    Mood {
        numbers: 60,
        creates: 500,
        deletes: 30,
        sets: 120,
        gets: 80,
        walks: 60,
        reports: 80,
        resets: 1,
        spoilt: 5,
        sizes: 15,
        repeats: 30,
        legal: 960,
    },
    // Instances come and go around the limit.
    Mood {
        numbers: 50,
        creates: 380,
        deletes: 220,
        sets: 80,
        gets: 60,
        walks: 80,
        reports: 60,
        resets: 1,
        spoilt: 5,
        sizes: 10,
        repeats: 60,
        legal: 980,
    },
    // Walks with changes in between.
    Mood {
        numbers: 20,
        creates: 120,
        deletes: 60,
        sets: 140,
        gets: 40,
        walks: 380,
        reports: 200,
        resets: 4,
        spoilt: 10,
        sizes: 10,
        repeats: 40,
        legal: 950,
    },
    // Hardly anything is right.
    Mood {
        numbers: 12,
        creates: 160,
        deletes: 60,
        sets: 160,
        gets: 160,
        walks: 80,
        reports: 120,
        resets: 4,
        spoilt: 450,
        sizes: 350,
        repeats: 60,
        legal: 400,
    },
    // Contents at the edges of the rules.
    Mood {
        numbers: 15,
        creates: 300,
        deletes: 60,
        sets: 350,
        gets: 100,
        walks: 40,
        reports: 100,
        resets: 3,
        spoilt: 5,
        sizes: 5,
        repeats: 30,
        legal: 550,
    },
];

/// Makes the calls of one run.
pub struct Generator {
    random: Random,
    mood: &'static Mood,
    product: Product,
    numbers: Vec<u16>,
    bridges: Vec<u16>,
    ports: Vec<u16>,
    last: Option<Vec<u8>>,
    sections: u16,
    alarms: u16,
    few_ids: bool,
}

impl Generator {
    /// The generator of a run that begins with power-on of this product.
    pub fn new(mut random: Random, product: u8) -> Generator {
        let mood = &MOODS[random.below(MOODS.len())];
        let mut numbers: Vec<u16> = vec![0, 0xFFFF, 0x0101];
        while numbers.len() < mood.numbers {
            // Neighbours and far numbers, high and low bytes.
            let number = match random.below(4) {
                0 => random.word(),
                1 => random.word() & 0x00FF,
                2 => random.word() & 0xFF00,
                _ => random.pick(&numbers).wrapping_add(1),
            };
            if !numbers.contains(&number) {
                numbers.push(number);
            }
        }
        numbers.truncate(mood.numbers);
        let few_ids = random.per_mille(300);
        Generator {
            random,
            mood,
            product: Product::from_number(product).unwrap_or(Product::Small),
            numbers,
            bridges: Vec::new(),
            ports: Vec::new(),
            last: None,
            sections: 0,
            alarms: 0,
            few_ids,
        }
    }

    /// The next call.
    pub fn call(&mut self) -> Call {
        let call = if self.random.per_mille(1) {
            let product = self.random.pick(&[0, 1, 2, 3, 4, 255, 1, 2, 3]);
            Call::power_on(product)
        } else if self.random.per_mille(self.mood.reports) {
            self.report()
        } else {
            Call::handle(&self.message())
        };
        self.with_sizes(call)
    }

    /// Calls that read the whole state out.
    pub fn reading_out(&self) -> Vec<Call> {
        let mut calls = Vec::new();
        let mut id = 0x7000;
        let mut add = |number: u8, class: u16, instance: u16, contents: [u8; 2]| {
            id += 1;
            calls.push(Call::handle(&command(id, number, class, instance, &contents)));
        };
        for index in 0..self.sections.saturating_add(2) {
            add(UPLOAD_NEXT, 2, 0, index.to_be_bytes());
        }
        for index in 0..self.alarms.saturating_add(2) {
            add(ALARMS_NEXT, 2, 0, index.to_be_bytes());
        }
        add(GET, 2, 0, [0x80, 0]);
        add(UPLOAD, 2, 0, [0, 0]);
        for index in 0..100u16 {
            add(UPLOAD_NEXT, 2, 0, index.to_be_bytes());
        }
        add(GET_ALL_ALARMS, 2, 0, [0, 0]);
        for index in 0..5u16 {
            add(ALARMS_NEXT, 2, 0, index.to_be_bytes());
        }
        calls
    }

    /// Learns from what came back.
    pub fn learn(&mut self, call: &Call, seen: &Seen) {
        if seen.number != 0 {
            return;
        }
        match call {
            Call::PowerOn { product, .. } => {
                self.product = Product::from_number(*product).unwrap_or(self.product);
                self.bridges.clear();
                self.ports.clear();
                self.sections = 0;
                self.alarms = 0;
            }
            Call::Handle { message, .. } => {
                self.learn_reply(message, seen);
                self.last = Some(message.clone());
            }
            _ => {}
        }
    }

    fn learn_reply(&mut self, message: &[u8], seen: &Seen) {
        let class = u16::from_be_bytes([message[4], message[5]]);
        let instance = u16::from_be_bytes([message[6], message[7]]);
        let created = match class {
            45 => &mut self.bridges,
            _ => &mut self.ports,
        };
        match message[2] & 0x1F {
            CREATE if seen.result() == 0 && !created.contains(&instance) => created.push(instance),
            DELETE if seen.result() == 0 => created.retain(|&other| other != instance),
            RESET if seen.result() == 0 => {
                self.bridges.clear();
                self.ports.clear();
            }
            UPLOAD if class == 2 && instance == 0 => self.sections = seen.count(),
            GET_ALL_ALARMS if class == 2 && instance == 0 => self.alarms = seen.count(),
            _ => {}
        }
    }

    fn with_sizes(&mut self, call: Call) -> Call {
        if !self.random.per_mille(self.mood.sizes) {
            return call;
        }
        let store = match self.random.below(6) {
            0 => Lent::Shorter(1),
            1 => Lent::Shorter(self.random.below(20_000)),
            2 => Lent::Longer(1),
            3 => Lent::Longer(self.random.below(200)),
            _ => Lent::EXACTLY,
        };
        let room = match self.random.below(8) {
            0 => 0,
            1 => 47,
            2 => self.random.below(48),
            3 => 49,
            4 => 48 + self.random.below(80),
            _ => 48,
        };
        call.lending(store, room)
    }

    fn report(&mut self) -> Call {
        let class = match self.product {
            Product::Meter => self.class(&[11, 11, 11, 11, 11, 46]),
            _ => self.class(&[11, 11, 11, 46, 46]),
        };
        let instance = self.instance(class);
        if self.random.per_mille(350) {
            let alarm = match self.random.below(10) {
                0 => self.random.byte(),
                1 => self.random.pick(&[1, 7, 8, 223, 224, 255]),
                _ => 0,
            };
            return Call::report_alarm(class, instance, alarm, self.random.per_mille(500));
        }
        let attributes = self.attributes(class);
        let local: Vec<u8> = attributes
            .iter()
            .filter(|attribute| attribute.rights.local)
            .map(|attribute| attribute.number)
            .collect();
        let number = match self.random.below(10) {
            0 => self.random.byte(),
            1 => self.random.below(18) as u8,
            _ if local.is_empty() => 1,
            _ => self.random.pick(&local),
        };
        let content = match attributes.iter().find(|attribute| attribute.number == number) {
            Some(attribute) => self.content(attribute, 1),
            None => self.random_bytes(10),
        };
        let content = match self.random.below(20) {
            0 => self.random_bytes(30),
            1 => content[..content.len().saturating_sub(1)].to_vec(),
            2 => [&content[..], &[0]].concat(),
            _ => content,
        };
        Call::report_attribute(class, instance, number, &content)
    }

    fn message(&mut self) -> Vec<u8> {
        if self.random.per_mille(self.mood.repeats) {
            if let Some(last) = self.last.clone() {
                return self.repeat(last);
            }
        }
        let mut message = self.right_message().to_vec();
        if self.random.per_mille(self.mood.spoilt) {
            self.spoil(&mut message);
        }
        message
    }

    /// The last command again, or with a single byte or bit changed.
    fn repeat(&mut self, mut last: Vec<u8>) -> Vec<u8> {
        match self.random.below(5) {
            0 | 1 => {}
            2 => {
                let at = self.random.below(last.len());
                last[at] = self.random.byte();
            }
            3 => {
                let at = self.random.below(last.len());
                last[at] ^= 1 << self.random.below(8);
            }
            _ => {
                let at = 44 + self.random.below(4);
                last[at] = self.random.byte();
            }
        }
        last
    }

    fn spoil(&mut self, message: &mut Vec<u8>) {
        for _ in 0..1 + self.random.below(3) {
            match self.random.below(8) {
                0 => message.truncate(self.random.below(49)),
                1 => message.extend(vec![0; self.random.below(13)]),
                2 => set(message, 3, self.random.byte()),
                3 => set(message, 2, self.random.byte()),
                4 => {
                    set(message, 0, 0);
                    set(message, 1, 0);
                }
                5 => {
                    let at = 40 + self.random.below(4);
                    set(message, at, self.random.byte());
                }
                6 => {
                    let at = self.random.below(48);
                    set(message, at, self.random.byte());
                }
                _ => message.resize(self.random.pick(&[0, 47, 48, 49, 60]), 0),
            }
        }
    }

    fn right_message(&mut self) -> [u8; 48] {
        let mood = self.mood;
        // Where they are always refused, these are sent less often.
        let part = if self.product.takes_sets() { 1 } else { 4 };
        let shares = [
            (CREATE, mood.creates / part),
            (DELETE, mood.deletes / part),
            (SET, mood.sets / part),
            (GET, mood.gets),
            (UPLOAD, mood.walks * 2 / 12),
            (UPLOAD_NEXT, mood.walks * 6 / 12),
            (GET_ALL_ALARMS, mood.walks * 2 / 12),
            (ALARMS_NEXT, mood.walks * 2 / 12),
            (RESET, mood.resets),
            (32, 15),
        ];
        let all: usize = shares.iter().map(|(_, share)| share).sum();
        let mut point = self.random.below(all);
        let mut number = 32;
        for (candidate, share) in shares {
            if point < share {
                number = candidate;
                break;
            }
            point -= share;
        }
        if number == 32 {
            number = self.random.below(32) as u8;
        }
        self.message_with(number)
    }

    fn message_with(&mut self, number: u8) -> [u8; 48] {
        let usual: &[u16] = match (number, self.product) {
            (CREATE | DELETE, Product::Meter) => &[2, 11, 45, 46, 47],
            (CREATE | DELETE, _) => &[45, 47],
            (SET, _) => &[11, 11, 45, 47, 2],
            (GET, Product::Meter) => &[2, 11, 11, 11, 11, 45, 46, 47],
            (GET, _) => &CLASSES,
            _ => &[2],
        };
        let class = self.class(usual);
        let instance = match (number, class) {
            (CREATE, _) if self.random.per_mille(900) => self.a_number(),
            _ => self.instance(class),
        };
        let mut contents = match number {
            CREATE => self.create_contents(class),
            SET => self.set_contents(class),
            GET => self.get_mask(class).to_be_bytes().to_vec(),
            UPLOAD_NEXT => self.index(self.sections),
            ALARMS_NEXT => self.index(self.alarms),
            _ => Vec::new(),
        };
        // What a command doesn't name is ignored, but not as part of a repeat.
        if self.random.per_mille(200) {
            let rest = self.random.bytes(32 - contents.len());
            contents.extend(rest);
        }
        let mut message = command(self.id(), number, class, instance, &contents);
        if self.random.per_mille(100) {
            let checksum = self.random.bytes(4);
            message[44..48].copy_from_slice(&checksum);
        }
        message
    }

    fn id(&mut self) -> u16 {
        if self.few_ids {
            return self.random.pick(&[1, 2, 0x8000, 0xFFFF]);
        }
        self.random.word().max(1)
    }

    fn class(&mut self, usual: &[u16]) -> u16 {
        match self.random.below(40) {
            0 => self.random.pick(&CLASSES),
            1 => self.random.pick(&[0, 1, 3, 10, 12, 44, 48, 0x0102, 0x2D00, 0x2D2D, 0xFFFF, 84]),
            2 if self.random.per_mille(200) => self.random.word(),
            _ => self.random.pick(usual),
        }
    }

    fn instance(&mut self, class: u16) -> u16 {
        if self.random.per_mille(50) {
            return match self.random.below(3) {
                0 => self.random.word(),
                1 => self.a_number(),
                _ => self.there(class).wrapping_add(self.random.pick(&[1, 0xFFFF, 0x0100])),
            };
        }
        self.there(class)
    }

    /// One of the numbers that the run plays with.
    fn a_number(&mut self) -> u16 {
        let at = self.random.below(self.numbers.len());
        self.numbers[at]
    }

    /// An instance that is there, if the class has one.
    fn there(&mut self, class: u16) -> u16 {
        let created = match class {
            45 | 46 => self.bridges.clone(),
            47 => self.ports.clone(),
            11 => (0..self.product.unis() as u16).map(|uni| 0x0101 + uni).collect(),
            _ => vec![0],
        };
        if created.is_empty() {
            return self.a_number();
        }
        self.random.pick(&created)
    }

    fn index(&mut self, count: u16) -> Vec<u8> {
        let index = match self.random.below(12) {
            0 => count,
            1 => count.wrapping_add(1),
            2 => count.wrapping_sub(1),
            3 => self.random.word(),
            _ => self.random.below(usize::from(count).max(1)) as u16,
        };
        index.to_be_bytes().to_vec()
    }

    /// What the product has of a class. If it hasn't the class, then what Small
    /// has of it: so what is refused looks as if it could be accepted.
    fn attributes(&self, class: u16) -> &'static [Attribute] {
        let Some(class) = Class::from_number(class) else {
            return &[];
        };
        class.attributes(if self.product.has(class) { self.product } else { Product::Small })
    }

    fn create_contents(&mut self, class: u16) -> Vec<u8> {
        let Some(class) = Class::from_number(class).filter(|class| class.is_created()) else {
            return self.random_bytes(32);
        };
        // Judged as a whole: most Creates are legal throughout.
        let legal = self.random.per_mille(self.mood.legal);
        let tp_type = self.random.pick(&[1, 1, 2]);
        let supported = self.attributes(class.number()).len();
        let mut contents = Vec::new();
        for (index, attribute) in class.attributes_of_any_product().iter().enumerate() {
            let edge = !legal && self.random.per_mille(200);
            let content = if edge {
                self.edge_content(attribute)
            } else if index >= supported {
                vec![0; attribute.size]
            } else if class == Class::PortConfiguration && attribute.number == 3 {
                vec![tp_type]
            } else {
                self.legal_content(attribute, tp_type)
            };
            contents.extend(content);
        }
        contents
    }

    fn set_contents(&mut self, class: u16) -> Vec<u8> {
        let attributes = self.attributes(class);
        let writable = attributes
            .iter()
            .filter(|attribute| attribute.rights.write)
            .fold(0, |mask, attribute| mask | attribute.bit());
        let mask = match self.random.below(20) {
            0 => self.random.word(),
            1 => self.supported(class) & self.random.word(),
            2 => 0,
            3 => (writable & self.random.word()) | 0x8000 >> self.random.below(16),
            4 | 5 => writable,
            6..=12 => self.one_bit(writable),
            _ => self.one_bit(writable) | writable & self.random.word(),
        };
        let mut contents = mask.to_be_bytes().to_vec();
        for attribute in attributes.iter().filter(|attribute| mask & attribute.bit() != 0) {
            let content = self.content(attribute, 2);
            contents.extend(content);
        }
        contents.truncate(32);
        contents
    }

    fn get_mask(&mut self, class: u16) -> u16 {
        let supported = self.supported(class);
        match self.random.below(10) {
            0 => self.random.word(),
            1 => 0,
            2 => supported,
            3 => (supported & self.random.word()) | 0x8000 >> self.random.below(16),
            4 | 5 => self.one_bit(supported),
            _ => self.one_bit(supported) | supported & self.random.word(),
        }
    }

    /// One of the bits of the mask, if it has any.
    fn one_bit(&mut self, mask: u16) -> u16 {
        let bits: Vec<u16> =
            (0..16).map(|shift| 0x8000 >> shift).filter(|bit| mask & bit != 0).collect();
        if bits.is_empty() {
            return 0;
        }
        self.random.pick(&bits)
    }

    fn supported(&self, class: u16) -> u16 {
        self.attributes(class).iter().fold(0, |mask, attribute| mask | attribute.bit())
    }

    fn content(&mut self, attribute: &Attribute, tp_type: u8) -> Vec<u8> {
        if self.random.per_mille(self.mood.legal.max(700)) {
            self.legal_content(attribute, tp_type)
        } else {
            self.edge_content(attribute)
        }
    }

    fn legal_content(&mut self, attribute: &Attribute, tp_type: u8) -> Vec<u8> {
        let number = match attribute.rule {
            Rule::Any => return self.random.bytes(attribute.size),
            Rule::Range(low, high) => {
                let within = low + self.random.below(usize::from(high - low) + 1) as u16;
                self.random.pick(&[low, high, within])
            }
            Rule::Listed(numbers) => self.random.pick(numbers),
            Rule::Pointer(Class::EthernetUni) if tp_type == 2 => self.random.word(),
            Rule::Pointer(class) => self.there(class.number()),
        };
        sized(number, attribute.size)
    }

    fn edge_content(&mut self, attribute: &Attribute) -> Vec<u8> {
        let number = match attribute.rule {
            Rule::Any => return self.random.bytes(attribute.size),
            Rule::Range(low, high) => self.random.pick(&[
                low.wrapping_sub(1),
                high.wrapping_add(1),
                low,
                high,
                low ^ 0x8000,
                high.swap_bytes(),
            ]),
            Rule::Listed(numbers) => self.random.pick(numbers).wrapping_add(1),
            Rule::Pointer(_) => self.a_number(),
        };
        let number = if self.random.per_mille(300) { self.random.word() } else { number };
        sized(number, attribute.size)
    }

    fn random_bytes(&mut self, most: usize) -> Vec<u8> {
        let length = self.random.below(most + 1);
        self.random.bytes(length)
    }
}

fn set(message: &mut [u8], at: usize, value: u8) {
    if let Some(byte) = message.get_mut(at) {
        *byte = value;
    }
}

/// The low bytes of the number.
fn sized(number: u16, size: usize) -> Vec<u8> {
    number.to_be_bytes()[2 - size.min(2)..].to_vec()
}
