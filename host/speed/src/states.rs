//! The states that calls meet, and what leads to them.

use exchange::{Maker, GET_ALL_ALARMS, SET, UPLOAD};

use crate::engines::{message, report, Call};

// The products that are measured, by the numbers that power-on takes. A Meter,
// which has the least to test and to show, isn't.
const SMALL: u8 = 1;
pub const LARGE: u8 = 2;

pub const UNIS: u16 = 4;
pub const BRIDGES: u16 = 12;
pub const PORTS: u16 = 28;

// The instances that are asked for stand in the middle of the table.
pub const UNI: u16 = uni(UNIS / 2 - 1);
pub const BRIDGE: u16 = bridge(BRIDGES / 2);
pub const PORT: u16 = port(PORTS / 2);

const fn uni(index: u16) -> u16 {
    0x0101 + index
}

pub const fn bridge(index: u16) -> u16 {
    0x0100 + 7 * index
}

const fn port(index: u16) -> u16 {
    0x0200 + 5 * index
}

#[derive(Clone, Copy, PartialEq, Eq)]
pub enum State {
    /// A Large with all places in use. The frozen table is as the live one.
    Full,
    /// The same, but the frozen table has another content in every instance.
    Changed,
    /// A Small as power-on leaves it. Nothing is frozen.
    Fresh,
}

impl State {
    pub const ALL: [State; 3] = [State::Full, State::Changed, State::Fresh];

    pub fn product(self) -> u8 {
        match self {
            State::Full | State::Changed => LARGE,
            State::Fresh => SMALL,
        }
    }

    /// The calls that lead from the fresh product to the state.
    pub fn calls(self) -> Vec<Call> {
        let mut maker = Maker::new(0x1000);
        let mut calls = Vec::new();
        if self != State::Fresh {
            fill(&mut maker, &mut calls);
        }
        if self == State::Changed {
            change(&mut maker, &mut calls);
        }
        calls
    }
}

/// 40 created instances, contents of all sorts, an alarm walk, and last an
/// upload, so that a table is frozen.
fn fill(maker: &mut Maker, calls: &mut Vec<Call>) {
    for index in 0..BRIDGES {
        calls.push(message(maker.bridge(bridge(index))));
        let mac = [2, 0, 0, 0, 1, index as u8];
        calls.push(report(46, bridge(index), 1, &mac));
    }
    for index in 0..PORTS {
        calls.push(message(maker.port(port(index), bridge(index % BRIDGES))));
    }
    calls.push(message(maker.command(SET, 11, UNI, &[0x88, 0, 0x16, 1])));
    calls.push(Call::Alarm { class_id: 11, instance: UNI, alarm: 0, on: true });
    calls.push(message(maker.command(GET_ALL_ALARMS, 2, 0, &[])));
    calls.push(message(maker.command(UPLOAD, 2, 0, &[])));
}

/// Another content in every instance of every class that uploads show: the
/// expected type of a UNI, a bridge's Priority and MAC, a port's PortPriority.
fn change(maker: &mut Maker, calls: &mut Vec<Call>) {
    for index in 0..UNIS {
        calls.push(message(maker.command(SET, 11, uni(index), &[0x80, 0, 0x17])));
    }
    for index in 0..BRIDGES {
        calls.push(message(maker.command(SET, 45, bridge(index), &[0x10, 0, 0x70, 0])));
        calls.push(report(46, bridge(index), 1, &[2, 0, 0, 0, 2, index as u8]));
    }
    for index in 0..PORTS {
        calls.push(message(maker.command(SET, 47, port(index), &[0x08, 0, 0, 7])));
    }
}
