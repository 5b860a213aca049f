//! The commands of the exchange: what they do and what is replied.

mod entities;
mod walks;

use crate::message::{Command, Contents, CONTENTS_SIZE, MESSAGE_SIZE};
use crate::store::Store;

/// The messages that are built.
#[derive(Clone, Copy, Debug, PartialEq, Eq)]
enum Action {
    Create,
    Delete,
    Set,
    Get,
    GetAllAlarms,
    GetAllAlarmsNext,
    Upload,
    UploadNext,
    Reset,
}

impl Action {
    fn from_number(number: u8) -> Option<Action> {
        match number {
            4 => Some(Action::Create),
            6 => Some(Action::Delete),
            8 => Some(Action::Set),
            9 => Some(Action::Get),
            11 => Some(Action::GetAllAlarms),
            12 => Some(Action::GetAllAlarmsNext),
            13 => Some(Action::Upload),
            14 => Some(Action::UploadNext),
            15 => Some(Action::Reset),
            _ => None,
        }
    }
}

/// The results that replies carry.
#[derive(Clone, Copy, Debug, PartialEq, Eq)]
#[repr(u8)]
enum Outcome {
    Done = 0,
    NoPlace = 1,
    NotSupported = 2,
    BadParameter = 3,
    UnknownClass = 4,
    UnknownInstance = 5,
    Exists = 7,
    AttributeFailed = 9,
}

const NO_CONTENTS: Contents = [0; CONTENTS_SIZE];

/// Answers a command: from memory if it repeats the last one, else anew.
pub fn answer(store: &mut Store, command: &Command) -> [u8; MESSAGE_SIZE] {
    if let Some(reply) = store.reply_to_repeat(command) {
        return reply;
    }
    let reply = command.reply(&carry_out(store, command));
    store.remember(command, &reply);
    reply
}

fn carry_out(store: &mut Store, command: &Command) -> Contents {
    match Action::from_number(command.number()) {
        None => with_result(Outcome::NotSupported),
        Some(Action::Create) => entities::create(store, command),
        Some(Action::Delete) => entities::delete(store, command),
        Some(Action::Set) => entities::set(store, command),
        Some(Action::Get) => entities::get(store, command),
        Some(Action::Reset) => entities::reset(store, command),
        Some(Action::GetAllAlarms) => walks::begin_alarm_walk(store, command),
        Some(Action::GetAllAlarmsNext) => walks::next_alarms(store, command),
        Some(Action::Upload) => walks::begin_upload(store, command),
        Some(Action::UploadNext) => walks::next_section(store, command),
    }
}

/// Contents with this result and nothing else.
fn with_result(outcome: Outcome) -> Contents {
    let mut contents = NO_CONTENTS;
    contents[0] = outcome as u8;
    contents
}
