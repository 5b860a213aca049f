//! A store with a powered-on product, and short ways to send commands.

#![allow(dead_code)]

pub use exchange::*;
use ordinary_engine::Test::Soundness;
use ordinary_engine::{handle, power_on, report_alarm, report_attribute, STORE_SIZE};

pub const SMALL: u8 = 1;
pub const LARGE: u8 = 2;
pub const METER: u8 = 3;

#[derive(Clone)]
pub struct Bench {
    pub store: Vec<u8>,
    id: u16,
}

impl Bench {
    pub fn new(product: u8) -> Bench {
        let mut store = vec![0xA5; STORE_SIZE];
        assert_eq!(power_on(&mut store, product), 0);
        Bench { store, id: 0 }
    }

    /// Sends a message that must be answered, and gives the reply.
    pub fn send(&mut self, message: &[u8]) -> [u8; 48] {
        let mut reply = [0xEE; 48];
        assert_eq!(handle(Soundness, &mut self.store, message, &mut reply), 0);
        reply
    }

    /// Sends a command with a new id and gives the reply's contents.
    pub fn command(&mut self, number: u8, class: u16, instance: u16, contents: &[u8]) -> [u8; 32] {
        self.id += 1;
        let reply = self.send(&command(self.id, number, class, instance, contents));
        assert_eq!(reply[0..2], self.id.to_be_bytes());
        assert_eq!(reply[2], 0x20 + number);
        assert_eq!(reply[3], 0x0A);
        assert_eq!(reply[4..6], class.to_be_bytes());
        assert_eq!(reply[6..8], instance.to_be_bytes());
        assert_eq!(reply[40..48], [0, 0, 0, 0x28, 0, 0, 0, 0]);
        reply[8..40].try_into().unwrap()
    }

    pub fn create_bridge(&mut self, instance: u16) -> u8 {
        self.command(CREATE, 45, instance, &BRIDGE)[0]
    }

    pub fn create_port(&mut self, instance: u16, bridge: u16) -> u8 {
        self.command(CREATE, 47, instance, &port_contents(bridge))[0]
    }

    pub fn get(&mut self, class: u16, instance: u16, mask: u16) -> [u8; 32] {
        self.command(GET, class, instance, &mask.to_be_bytes())
    }

    pub fn set(&mut self, class: u16, instance: u16, mask: u16, values: &[u8]) -> [u8; 32] {
        let mut contents = mask.to_be_bytes().to_vec();
        contents.extend_from_slice(values);
        self.command(SET, class, instance, &contents)
    }

    pub fn counter(&mut self) -> u8 {
        let contents = self.get(2, 0, 0x8000);
        assert_eq!(contents[..3], [0, 0x80, 0]);
        contents[3]
    }

    pub fn upload(&mut self) -> u16 {
        let contents = self.command(UPLOAD, 2, 0, &[]);
        u16::from_be_bytes([contents[0], contents[1]])
    }

    pub fn section(&mut self, index: u16) -> [u8; 32] {
        self.command(UPLOAD_NEXT, 2, 0, &index.to_be_bytes())
    }

    pub fn alarm_walk(&mut self) -> u16 {
        let contents = self.command(GET_ALL_ALARMS, 2, 0, &[]);
        u16::from_be_bytes([contents[0], contents[1]])
    }

    pub fn alarms(&mut self, index: u16) -> [u8; 32] {
        self.command(ALARMS_NEXT, 2, 0, &index.to_be_bytes())
    }

    /// Reports an attribute; gives the outcome and the buffer.
    pub fn report(
        &mut self,
        class: u16,
        instance: u16,
        attribute: u8,
        content: &[u8],
    ) -> (u8, [u8; 48]) {
        let mut reply = [0xEE; 48];
        let store = &mut self.store;
        let outcome =
            report_attribute(Soundness, store, class, instance, attribute, content, &mut reply);
        (outcome, reply)
    }

    /// Reports an alarm; gives the outcome and the buffer.
    pub fn alarm(&mut self, class: u16, instance: u16, alarm: u8, on: bool) -> (u8, [u8; 48]) {
        let mut reply = [0xEE; 48];
        let outcome =
            report_alarm(Soundness, &mut self.store, class, instance, alarm, on, &mut reply);
        (outcome, reply)
    }
}
