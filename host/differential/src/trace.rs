//! A trace of every step before it is taken, so that a fault, which ends the
//! process, can be told with the run that led to it.
//!
//! Pairs are cloned to try many calls from one state, so the trace says which
//! pair took a step and from which one it was cloned.

use std::collections::HashMap;
use std::io::Write;
use std::sync::atomic::{AtomicBool, Ordering};

use crate::step::{self, Step};

static ON: AtomicBool = AtomicBool::new(false);

const MARK: &str = "@";

/// From here on steps are written to standard output.
pub fn turn_on() {
    ON.store(true, Ordering::Relaxed);
}

pub fn made(id: u64) {
    write(|| format!("{MARK} made {id}"));
}

pub fn cloned(from: u64, id: u64) {
    write(|| format!("{MARK} cloned {from} {id}"));
}

pub fn stepped(id: u64, step: &Step) {
    write(|| format!("{MARK} step {id} {step}"));
}

fn write(line: impl FnOnce() -> String) {
    if ON.load(Ordering::Relaxed) {
        let mut out = std::io::stdout().lock();
        // If nobody reads the trace any more, there is nobody to tell.
        let _ = writeln!(out, "{}", line());
        let _ = out.flush();
    }
}

/// Puts the run together whose last step is the last one of the trace.
#[derive(Default)]
pub struct Reader {
    pairs: HashMap<u64, Traced>,
    last: u64,
}

#[derive(Default)]
struct Traced {
    from: Option<(u64, usize)>,
    steps: Vec<Step>,
}

impl Reader {
    pub fn read(&mut self, line: &str) {
        let words: Vec<&str> = line.splitn(4, ' ').collect();
        match words[..] {
            [MARK, "made", id] => {
                if let Ok(id) = id.parse() {
                    self.pairs.insert(id, Traced::default());
                }
            }
            [MARK, "cloned", from, id] => {
                if let (Ok(from), Ok(id)) = (from.parse(), id.parse()) {
                    let length = self.pairs.get(&from).map_or(0, |pair| pair.steps.len());
                    let traced = Traced { from: Some((from, length)), steps: Vec::new() };
                    self.pairs.insert(id, traced);
                }
            }
            [MARK, "step", id, step] => {
                if let (Ok(id), Some(step)) = (id.parse(), step::parse(step)) {
                    self.pairs.entry(id).or_default().steps.push(step);
                    self.last = id;
                }
            }
            _ => {}
        }
    }

    /// All steps of the pair that took the last one, also before it was cloned.
    pub fn run(&self) -> Vec<Step> {
        let mut parts = Vec::new();
        let mut next = self.pairs.get(&self.last).map(|pair| (pair, pair.steps.len()));
        while let Some((pair, length)) = next {
            parts.push(&pair.steps[..length]);
            next = pair.from.and_then(|(from, length)| Some((self.pairs.get(&from)?, length)));
        }
        parts.into_iter().rev().flatten().cloned().collect()
    }
}
