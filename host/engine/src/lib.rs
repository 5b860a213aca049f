//! An ordinary implementation of the OMCI management engine of document 01,
//! with two changes of document 02: a Set says which attributes failed (ticket
//! 9), and there is the product Meter (ticket 10).
//!
//! It is written from the documents alone, in safe Rust, and shares no code
//! with the proved engine. It serves two ends: the differential tests drive
//! both engines with the same calls and compare what comes back, and it is the
//! baseline when the speed of the proved engine is measured.
//!
//! Every entry works over lent bytes. The caller keeps the store between calls
//! and may hand in anything: what can't be answered is dropped with a number
//! and then neither the store nor the reply buffer has changed.
//!
//! The store's encoding is this engine's own (see [`store`]) and isn't the one
//! of the proved engine.

#![forbid(unsafe_code)]
#![warn(missing_docs)]

pub mod catalogue;
mod commands;
pub mod drops;
mod legal;
mod message;
mod reports;
mod sound;
pub mod store;
pub mod table;

use drops::Drop;
use message::{Command, MESSAGE_SIZE};
use store::Store;

/// The number of bytes of a store. A shorter store is drop 2; bytes past this
/// length are never read or written.
pub const STORE_SIZE: usize = store::SIZE;

/// What an entry returns when it has filled the first 48 bytes of the reply
/// buffer (or, for power-on, when the fresh state is written).
pub const ANSWERED: u8 = 0;

/// What a report returns when it was carried out but sends no message.
pub const QUIET: u8 = 255;

/// Writes the fresh state of a product (1 Small, 2 Large, 3 Meter) into the
/// store, whatever the store held before.
pub fn power_on(store: &mut [u8], product: u8) -> u8 {
    number_of(Store::fresh(store, product).map(|_| Sent::Message))
}

/// How much of a lent store is tested before it is used.
#[derive(Clone, Copy, Debug, PartialEq, Eq)]
pub enum Test {
    /// Whether it encodes a state, as document 01 asks for.
    Soundness,
    /// Whether it is long enough and names a product. It exists to measure what
    /// the test of soundness costs: on an unsound store the answer then means
    /// nothing, and the call may panic.
    LengthOnly,
}

/// Answers one message from the exchange.
pub fn handle(test: Test, store: &mut [u8], message: &[u8], reply: &mut [u8]) -> u8 {
    number_of(try_handle(test, store, message, reply))
}

/// Writes one attribute that local reports may write.
pub fn report_attribute(
    test: Test,
    store: &mut [u8],
    class_id: u16,
    instance: u16,
    attribute: u8,
    content: &[u8],
    reply: &mut [u8],
) -> u8 {
    number_of(try_report(test, store, reply, |store| {
        reports::attribute(store, class_id, instance, attribute, content)
    }))
}

/// Raises or clears one alarm.
pub fn report_alarm(
    test: Test,
    store: &mut [u8],
    class_id: u16,
    instance: u16,
    alarm: u8,
    on: bool,
    reply: &mut [u8],
) -> u8 {
    number_of(try_report(test, store, reply, |store| {
        reports::alarm(store, class_id, instance, alarm, on)
    }))
}

/// What an entry that wasn't dropped has done with the reply buffer.
enum Sent {
    Message,
    Nothing,
}

fn number_of(outcome: Result<Sent, Drop>) -> u8 {
    match outcome {
        Ok(Sent::Message) => ANSWERED,
        Ok(Sent::Nothing) => QUIET,
        Err(drop) => drop.number(),
    }
}

fn try_handle(
    test: Test,
    store: &mut [u8],
    message: &[u8],
    reply: &mut [u8],
) -> Result<Sent, Drop> {
    let room = reply_room(reply)?;
    let mut store = open(test, store)?;
    let command = Command::read(message)?;
    *room = commands::answer(&mut store, &command);
    Ok(Sent::Message)
}

fn try_report(
    test: Test,
    store: &mut [u8],
    reply: &mut [u8],
    report: impl FnOnce(&mut Store) -> Result<Option<[u8; MESSAGE_SIZE]>, Drop>,
) -> Result<Sent, Drop> {
    let room = reply_room(reply)?;
    let mut store = open(test, store)?;
    Ok(match report(&mut store)? {
        Some(notification) => {
            *room = notification;
            Sent::Message
        }
        None => Sent::Nothing,
    })
}

/// The 48 bytes of the reply buffer that an answer fills.
fn reply_room(reply: &mut [u8]) -> Result<&mut [u8; MESSAGE_SIZE], Drop> {
    reply.first_chunk_mut().ok_or(Drop::ReplyTooShort)
}

fn open(test: Test, store: &mut [u8]) -> Result<Store<'_>, Drop> {
    match test {
        Test::Soundness => Store::open(store),
        Test::LengthOnly => Store::trust(store),
    }
}
