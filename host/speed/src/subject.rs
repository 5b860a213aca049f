//! An engine and the stores that it is measured on.

use std::time::{Duration, Instant};

use crate::engines::{Engine, Slot, ANSWERED};
use crate::kinds::Kind;
use crate::states::State;

pub struct Subject {
    engine: Engine,
    /// A store with each state, in the order of `State::ALL`. Every run begins
    /// from one of them.
    reached: Vec<Vec<u8>>,
    stores: Vec<Vec<u8>>,
    slots: Vec<Slot>,
}

impl Subject {
    pub fn new(engine: Engine) -> Result<Subject, String> {
        let reached: Result<_, String> =
            State::ALL.into_iter().map(|state| reach(engine, state)).collect();
        Ok(Subject { engine, reached: reached?, stores: Vec::new(), slots: Vec::new() })
    }

    pub fn all() -> Result<Vec<Subject>, String> {
        Engine::ALL.into_iter().map(Subject::new).collect()
    }

    /// Lays out stores and cleared buffers for the calls of a kind.
    pub fn prepare(&mut self, kind: &Kind) {
        self.stores.resize(kind.stores, Vec::new());
        for store in &mut self.stores {
            store.clone_from(&self.reached[kind.state as usize]);
        }
        self.slots.clear();
        self.slots.resize(kind.calls.len(), Slot::CLEARED);
    }

    /// Makes the calls of a kind that was prepared, and says how long they took.
    pub fn run(&mut self, kind: &Kind) -> Duration {
        let begin = Instant::now();
        self.engine.run(&kind.calls, &mut self.stores, &mut self.slots);
        begin.elapsed()
    }

    /// The same with one more test of soundness in front of each call.
    pub fn run_tested(&mut self, kind: &Kind) {
        self.engine.run_tested(&kind.calls, &mut self.stores, &mut self.slots);
    }

    /// Whether the run did what the kind means.
    pub fn check_done(&self, kind: &Kind) -> Result<(), String> {
        if kind.is_done(&self.slots) {
            Ok(())
        } else {
            Err(format!("{}: a call of {} wasn't carried out", kind.name, self.engine.name()))
        }
    }

    /// Whether another engine's run has left the same.
    pub fn check_same(&self, kind: &Kind, other: &Subject) -> Result<(), String> {
        if self.slots == other.slots {
            Ok(())
        } else {
            let (one, other) = (self.engine.name(), other.engine.name());
            Err(format!("{}: {one} and {other} left different replies", kind.name))
        }
    }
}

/// A store with this state.
fn reach(engine: Engine, state: State) -> Result<Vec<u8>, String> {
    let mut stores = vec![vec![0; engine.store_size()]];
    if engine.power_on(&mut stores[0], state.product()) != ANSWERED {
        return Err(format!("{}: power-on was refused", engine.name()));
    }
    let calls = state.calls();
    let mut slots = vec![Slot::CLEARED; calls.len()];
    engine.run(&calls, &mut stores, &mut slots);
    if !calls.iter().zip(&slots).all(|(call, slot)| call.is_done(slot)) {
        return Err(format!("{}: a state couldn't be reached", engine.name()));
    }
    Ok(stores.remove(0))
}
