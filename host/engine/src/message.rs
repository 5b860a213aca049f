//! The 48 bytes of a message: reading commands, writing replies and
//! notifications.

use crate::drops::Drop;

/// The bytes of every message.
pub const MESSAGE_SIZE: usize = 48;
/// The bytes in front of the trailer. They are what makes a command a repeat.
pub const HEAD_SIZE: usize = 40;
/// The bytes of a message's contents.
pub const CONTENTS_SIZE: usize = 32;

/// A message's contents, c0 to c31.
pub type Contents = [u8; CONTENTS_SIZE];

const TYPE_AT: usize = 2;
const DEVICE_AT: usize = 3;
const CLASS_AT: usize = 4;
const INSTANCE_AT: usize = 6;
const CONTENTS_AT: usize = 8;
const TRAILER_AT: usize = 40;
const TRAILER: [u8; 4] = [0x00, 0x00, 0x00, 0x28];
const DEVICE: u8 = 0x0A;

const KIND_BITS: u8 = 0b1110_0000;
const COMMAND_KIND: u8 = 0b0100_0000;
const REPLY_KIND: u8 = 0b0010_0000;

/// The type of alarm notifications.
pub const ALARM_TYPE: u8 = 0x10;
/// The type of attribute-change notifications.
pub const CHANGE_TYPE: u8 = 0x11;

/// A command that passed drops 3 to 7.
pub struct Command<'a> {
    bytes: &'a [u8; MESSAGE_SIZE],
}

impl<'a> Command<'a> {
    /// Reads a message, or says why it is dropped.
    pub fn read(message: &'a [u8]) -> Result<Command<'a>, Drop> {
        let bytes: &[u8; MESSAGE_SIZE] = message.try_into().map_err(|_| Drop::MessageLength)?;
        check_head(first_bytes(bytes))?;
        if bytes[TRAILER_AT..TRAILER_AT + TRAILER.len()] != TRAILER {
            return Err(Drop::Trailer);
        }
        Ok(Command { bytes })
    }

    /// The bytes in front of the trailer.
    pub fn head(&self) -> &'a [u8; HEAD_SIZE] {
        first_bytes(self.bytes)
    }

    /// The message number.
    pub fn number(&self) -> u8 {
        self.bytes[TYPE_AT] & !KIND_BITS
    }

    /// The number of the class.
    pub fn class_id(&self) -> u16 {
        number_at(self.bytes, CLASS_AT)
    }

    /// The number of the instance.
    pub fn instance(&self) -> u16 {
        number_at(self.bytes, INSTANCE_AT)
    }

    /// The contents.
    pub fn contents(&self) -> &'a [u8] {
        &self.bytes[CONTENTS_AT..TRAILER_AT]
    }

    /// The reply to this command with these contents.
    pub fn reply(&self, contents: &Contents) -> [u8; MESSAGE_SIZE] {
        let mut header = [0; CONTENTS_AT];
        header.copy_from_slice(&self.bytes[..CONTENTS_AT]);
        header[TYPE_AT] = REPLY_KIND | self.number();
        assemble(header, contents)
    }
}

/// Drops 4 to 6, which look only at the bytes that are remembered.
pub fn check_head(head: &[u8; HEAD_SIZE]) -> Result<(), Drop> {
    if head[DEVICE_AT] != DEVICE {
        return Err(Drop::Device);
    }
    if head[TYPE_AT] & KIND_BITS != COMMAND_KIND {
        return Err(Drop::NotACommand);
    }
    if number_at(head, 0) == 0 {
        return Err(Drop::CorrelationZero);
    }
    Ok(())
}

/// A notification about this instance. Its correlation id is 0.
pub fn notification(
    kind: u8,
    class_id: u16,
    instance: u16,
    contents: &Contents,
) -> [u8; MESSAGE_SIZE] {
    let mut header = [0; CONTENTS_AT];
    header[TYPE_AT] = kind;
    header[DEVICE_AT] = DEVICE;
    put_number(&mut header, CLASS_AT, class_id);
    put_number(&mut header, INSTANCE_AT, instance);
    assemble(header, contents)
}

fn assemble(header: [u8; CONTENTS_AT], contents: &Contents) -> [u8; MESSAGE_SIZE] {
    let mut message = [0; MESSAGE_SIZE];
    message[..CONTENTS_AT].copy_from_slice(&header);
    message[CONTENTS_AT..TRAILER_AT].copy_from_slice(contents);
    message[TRAILER_AT..TRAILER_AT + TRAILER.len()].copy_from_slice(&TRAILER);
    message
}

fn first_bytes(bytes: &[u8; MESSAGE_SIZE]) -> &[u8; HEAD_SIZE] {
    bytes.first_chunk().expect("a message is longer than its head")
}

/// The big-endian number of two bytes at this place.
pub fn number_at(bytes: &[u8], at: usize) -> u16 {
    u16::from_be_bytes([bytes[at], bytes[at + 1]])
}

/// Writes the big-endian number of two bytes at this place.
pub fn put_number(bytes: &mut [u8], at: usize, number: u16) {
    bytes[at..at + 2].copy_from_slice(&number.to_be_bytes());
}
