//! The exchange's side: the commands that it sends, for all that calls engines.

// The numbers of the messages.
pub const CREATE: u8 = 4;
pub const DELETE: u8 = 6;
pub const SET: u8 = 8;
pub const GET: u8 = 9;
pub const GET_ALL_ALARMS: u8 = 11;
pub const ALARMS_NEXT: u8 = 12;
pub const UPLOAD: u8 = 13;
pub const UPLOAD_NEXT: u8 = 14;
pub const RESET: u8 = 15;

/// The classes of the catalogues. Meter has the first two.
pub const CLASSES: [u16; 5] = [2, 11, 45, 46, 47];

/// The contents of a legal Create of class 45.
pub const BRIDGE: [u8; 11] = [1, 1, 0, 0x80, 0, 0x14, 0, 2, 0, 0x0F, 0];

/// A command, its checksum zero.
pub fn command(id: u16, number: u8, class: u16, instance: u16, contents: &[u8]) -> [u8; 48] {
    let mut message = [0; 48];
    message[0..2].copy_from_slice(&id.to_be_bytes());
    message[2] = 0x40 | number;
    message[3] = 0x0A;
    message[4..6].copy_from_slice(&class.to_be_bytes());
    message[6..8].copy_from_slice(&instance.to_be_bytes());
    message[8..8 + contents.len()].copy_from_slice(contents);
    message[43] = 0x28;
    message
}

/// The contents of a legal Create of class 47 that names this bridge.
pub fn port_contents(bridge: u16) -> [u8; 13] {
    let [high, low] = bridge.to_be_bytes();
    [high, low, 1, 1, 0x01, 0x01, 0, 128, 0, 1, 0, 1, 0]
}

/// Makes commands with ascending ids, so that none repeats the one before.
pub struct Maker {
    id: u16,
}

impl Maker {
    pub fn new(id: u16) -> Maker {
        Maker { id }
    }

    pub fn command(&mut self, number: u8, class: u16, instance: u16, contents: &[u8]) -> [u8; 48] {
        self.id = self.id.checked_add(1).unwrap_or(1);
        command(self.id, number, class, instance, contents)
    }

    pub fn bridge(&mut self, instance: u16) -> [u8; 48] {
        self.command(CREATE, 45, instance, &BRIDGE)
    }

    pub fn port(&mut self, instance: u16, bridge: u16) -> [u8; 48] {
        self.command(CREATE, 47, instance, &port_contents(bridge))
    }
}
