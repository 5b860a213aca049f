//! The engines that are measured, and the calls that they are given.

use ordinary_engine::Test;

/// What a call returns that was answered.
pub const ANSWERED: u8 = 0;
/// The drop of a message that isn't 48 bytes long.
pub const MESSAGE_LENGTH_DROP: u8 = 3;

/// A call without what is lent to it.
pub enum Call {
    Message(Vec<u8>),
    Attribute { class_id: u16, instance: u16, attribute: u8, content: Vec<u8> },
    Alarm { class_id: u16, instance: u16, alarm: u8, on: bool },
}

impl Call {
    /// Whether it was carried out. Results, the high bytes of the counts here
    /// and those of all class numbers are zero where a reply has them.
    pub fn is_done(&self, slot: &Slot) -> bool {
        match self {
            Call::Message(_) => slot.number == ANSWERED && slot.reply[8] == 0,
            Call::Attribute { .. } | Call::Alarm { .. } => matches!(slot.number, ANSWERED | 255),
        }
    }
}

pub fn message(bytes: [u8; 48]) -> Call {
    Call::Message(bytes.to_vec())
}

/// A message that is dropped right behind the test of soundness.
pub fn too_short() -> Call {
    Call::Message(vec![0; 47])
}

pub fn report(class_id: u16, instance: u16, attribute: u8, content: &[u8]) -> Call {
    Call::Attribute { class_id, instance, attribute, content: content.to_vec() }
}

/// What a call left: the number it returned and the reply buffer.
#[derive(Clone, PartialEq, Eq)]
pub struct Slot {
    pub number: u8,
    pub reply: [u8; 48],
}

impl Slot {
    /// A cleared buffer, and a number that no call returns.
    pub const CLEARED: Slot = Slot { number: 0xEE, reply: [0; 48] };
}

#[derive(Clone, Copy, PartialEq, Eq)]
pub enum Engine {
    Proved,
    Ordinary(Test),
}

impl Engine {
    pub const ALL: [Engine; 3] =
        [Engine::Proved, Engine::Ordinary(Test::Soundness), Engine::Ordinary(Test::LengthOnly)];

    pub fn name(self) -> &'static str {
        match self {
            Engine::Proved => "proved",
            Engine::Ordinary(Test::Soundness) => "checked",
            Engine::Ordinary(Test::LengthOnly) => "unchecked",
        }
    }

    pub fn store_size(self) -> usize {
        match self {
            Engine::Proved => proved_engine::store_size(),
            Engine::Ordinary(_) => ordinary_engine::STORE_SIZE,
        }
    }

    pub fn power_on(self, store: &mut [u8], product: u8) -> u8 {
        match self {
            Engine::Proved => proved_engine::power_on(store, product),
            Engine::Ordinary(_) => ordinary_engine::power_on(store, product),
        }
    }

    /// Makes the calls, each with a slot of its own, on the stores in turn.
    /// Which engine it is is asked once, before the first call.
    pub fn run(self, calls: &[Call], stores: &mut [Vec<u8>], slots: &mut [Slot]) {
        match self {
            Engine::Proved => each(calls, stores, slots, call_proved),
            Engine::Ordinary(test) => each(calls, stores, slots, |store, call, reply| {
                call_ordinary(test, store, call, reply)
            }),
        }
    }

    /// The same with one more test of soundness in front of each call, on the
    /// state that the call meets.
    pub fn run_tested(self, calls: &[Call], stores: &mut [Vec<u8>], slots: &mut [Slot]) {
        let test = too_short();
        each(calls, stores, slots, |store, call, reply| {
            assert_eq!(self.call(store, &test, &mut [0; 48]), MESSAGE_LENGTH_DROP);
            self.call(store, call, reply)
        });
    }

    fn call(self, store: &mut [u8], call: &Call, reply: &mut [u8]) -> u8 {
        match self {
            Engine::Proved => call_proved(store, call, reply),
            Engine::Ordinary(test) => call_ordinary(test, store, call, reply),
        }
    }
}

fn each(
    calls: &[Call],
    stores: &mut [Vec<u8>],
    slots: &mut [Slot],
    make: impl Fn(&mut [u8], &Call, &mut [u8]) -> u8,
) {
    for (calls, slots) in calls.chunks(stores.len()).zip(slots.chunks_mut(stores.len())) {
        for ((call, slot), store) in calls.iter().zip(slots).zip(&mut *stores) {
            slot.number = make(store, call, &mut slot.reply);
        }
    }
}

fn call_proved(store: &mut [u8], call: &Call, reply: &mut [u8]) -> u8 {
    match *call {
        Call::Message(ref message) => proved_engine::handle(store, message, reply),
        Call::Attribute { class_id, instance, attribute, ref content } => {
            proved_engine::report_attribute(store, class_id, instance, attribute, content, reply)
        }
        Call::Alarm { class_id, instance, alarm, on } => {
            proved_engine::report_alarm(store, class_id, instance, alarm, on, reply)
        }
    }
}

fn call_ordinary(test: Test, store: &mut [u8], call: &Call, reply: &mut [u8]) -> u8 {
    use ordinary_engine::{handle, report_alarm, report_attribute};
    match *call {
        Call::Message(ref message) => handle(test, store, message, reply),
        Call::Attribute { class_id, instance, attribute, ref content } => {
            report_attribute(test, store, class_id, instance, attribute, content, reply)
        }
        Call::Alarm { class_id, instance, alarm, on } => {
            report_alarm(test, store, class_id, instance, alarm, on, reply)
        }
    }
}
