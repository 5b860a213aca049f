//! What is measured: calls, and the states that they meet.

use exchange::{Maker, DELETE, GET, RESET, SET, UPLOAD, UPLOAD_NEXT};

use crate::engines::{message, report, too_short, Call, Slot, ANSWERED, MESSAGE_LENGTH_DROP};
use crate::states::{State, BRIDGE, BRIDGES, PORT, PORTS, UNI, UNIS};

/// The sections of the full table: the UNIs have one each, so have profiles
/// (class 45) and ports; configurations (class 46) have two.
const SECTIONS: u16 = UNIS + BRIDGES + 2 * BRIDGES + PORTS;

/// How many calls of one sort are made in a row.
const ROW: u16 = 64;

/// Calls that are measured together.
pub struct Kind {
    pub name: &'static str,
    pub what: &'static str,
    pub calls: Vec<Call>,
    /// How often the calls do what the name says.
    pub times: usize,
    /// The state that the calls meet, unless one before has changed it.
    pub state: State,
    /// On how many stores the calls are made in turn, each with the state.
    pub stores: usize,
    /// What each call returns.
    pub number: u8,
}

impl Kind {
    /// Whether there is something to do behind the test of soundness.
    pub fn does_work(&self) -> bool {
        self.number == ANSWERED
    }

    /// Whether every call went as the kind means it.
    pub fn is_done(&self, slots: &[Slot]) -> bool {
        self.calls.iter().zip(slots).all(|(call, slot)| {
            slot.number == self.number && (!self.does_work() || call.is_done(slot))
        })
    }
}

/// The tests of soundness come first: every other call begins with one.
pub fn all() -> Vec<Kind> {
    vec![
        soundness(
            "soundness",
            "the soundness test alone: a message of 47 bytes, drop 3",
            State::Full,
        ),
        soundness("differs", "the same, each instance changed since it was frozen", State::Changed),
        soundness("empty", "the same, a fresh Small, nothing frozen", State::Fresh),
        upload(),
        get(),
        set(),
        attribute(),
        create_delete(),
        reset(),
    ]
}

fn soundness(name: &'static str, what: &'static str, state: State) -> Kind {
    let calls = (0..ROW).map(|_| too_short()).collect();
    Kind { number: MESSAGE_LENGTH_DROP, state, ..row(name, what, calls) }
}

fn upload() -> Kind {
    let mut maker = Maker::new(0x2000);
    let mut calls = vec![message(maker.command(UPLOAD, 2, 0, &[]))];
    calls.extend(
        (0..SECTIONS).map(|at| message(maker.command(UPLOAD_NEXT, 2, 0, &at.to_be_bytes()))),
    );
    Kind { times: 1, ..row("upload", "a whole upload: the asking and 68 Nexts", calls) }
}

fn get() -> Kind {
    let mut maker = Maker::new(0x2000);
    let calls = (0..ROW).map(|_| message(maker.command(GET, 46, BRIDGE, &[0xFE, 0])));
    row("get", "a Get of 25 bytes of a bridge (class 46)", calls.collect())
}

fn set() -> Kind {
    let mut maker = Maker::new(0x2000);
    let calls =
        (0..ROW).map(|turn| message(maker.command(SET, 45, BRIDGE, &[0x10, 0, 0x40, turn as u8])));
    row("set", "a Set of a bridge's Priority (class 45)", calls.collect())
}

fn attribute() -> Kind {
    let calls = (0..ROW).map(|turn| report(11, UNI, 6, &[(turn as u8 + 1) % 2]));
    row("report", "a report that changes a UNI's operational state", calls.collect())
}

/// The table is full, so the port goes first.
fn create_delete() -> Kind {
    let mut maker = Maker::new(0x2000);
    let mut calls = Vec::new();
    for _ in 0..ROW / 2 {
        calls.push(message(maker.command(DELETE, 47, PORT, &[])));
        calls.push(message(maker.port(PORT, BRIDGE)));
    }
    let times = calls.len() / 2;
    Kind { times, ..row("create", "a Delete and a Create of a port (class 47)", calls) }
}

/// A reset empties the table, so each is made on a store of its own. They are
/// few, to stay in the fastest cache like the one store of the other kinds.
fn reset() -> Kind {
    let mut maker = Maker::new(0x2000);
    let calls: Vec<Call> = (0..8).map(|_| message(maker.command(RESET, 2, 0, &[]))).collect();
    Kind { stores: calls.len(), ..row("reset", "a MIB reset of the full table", calls) }
}

/// Calls on one store, each of which is the thing itself.
fn row(name: &'static str, what: &'static str, calls: Vec<Call>) -> Kind {
    let times = calls.len();
    Kind { name, what, calls, times, state: State::Full, stores: 1, number: ANSWERED }
}
