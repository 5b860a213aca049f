//! Runs of steps: taking them again, making them shorter, writing them down.

use std::collections::BTreeSet;
use std::fmt::Write;

use crate::pair::{Pair, Seen};
use crate::step::{in_words, outcome_in_words, Call, Step};

/// A run after which something doesn't hold.
#[derive(Debug)]
pub struct Failure {
    pub steps: Vec<Step>,
    pub why: String,
}

/// Takes the steps from new stores; gives the first thing that doesn't hold.
pub fn replay(steps: &[Step]) -> Result<(), String> {
    let mut pair = Pair::new();
    for step in steps {
        pair.step(step)?;
    }
    pair.finish()
}

/// Leaves steps out while the run still fails.
pub fn shrink(steps: Vec<Step>, fails: impl Fn(&[Step]) -> bool) -> Vec<Step> {
    let steps = leave_parts_out(steps, &fails);
    let steps = leave_instances_out(steps, &fails);
    leave_parts_out(steps, &fails)
}

/// Leaves out parts of the run, great ones first, at last single steps.
fn leave_parts_out(mut steps: Vec<Step>, fails: &impl Fn(&[Step]) -> bool) -> Vec<Step> {
    let mut size = steps.len() / 2;
    while size > 0 {
        let mut start = 0;
        let mut any = false;
        while start < steps.len() {
            let end = (start + size).min(steps.len());
            let mut shorter = steps[..start].to_vec();
            shorter.extend_from_slice(&steps[end..]);
            if fails(&shorter) {
                steps = shorter;
                any = true;
            } else {
                start = end;
            }
        }
        // Single steps are tried until none can be left out.
        if size > 1 || !any {
            size /= 2;
        }
    }
    steps
}

/// Leaves out all steps that name the same instance. Where two runs must reach
/// the same state, a step can't be left out of one of them alone.
fn leave_instances_out(mut steps: Vec<Step>, fails: &impl Fn(&[Step]) -> bool) -> Vec<Step> {
    let named: BTreeSet<(u16, u16)> = steps.iter().filter_map(named_instance).collect();
    // Backwards, since ports name bridges.
    for instance in named.into_iter().rev() {
        let without: Vec<Step> =
            steps.iter().filter(|step| named_instance(step) != Some(instance)).cloned().collect();
        if fails(&without) {
            steps = without;
        }
    }
    steps
}

fn named_instance(step: &Step) -> Option<(u16, u16)> {
    match step {
        Step::Call(Call::Handle { message, .. }) if message.len() >= 8 => Some((
            u16::from_be_bytes([message[4], message[5]]),
            u16::from_be_bytes([message[6], message[7]]),
        )),
        Step::Call(
            Call::ReportAttribute { class, instance, .. }
            | Call::ReportAlarm { class, instance, .. },
        ) => Some((*class, *instance)),
        _ => None,
    }
}

/// The failure with a run as short as can be found. If the steps alone don't
/// fail, because what doesn't hold is said of them by a test, they stay.
pub fn shrunk(failure: Failure) -> Failure {
    if replay(&failure.steps).is_ok() {
        return failure;
    }
    let steps = shrink(failure.steps, |steps| replay(steps).is_err());
    let why = replay(&steps).err().unwrap_or(failure.why);
    Failure { steps, why }
}

/// The run in lines that can be replayed, with their meaning in words and what
/// the proved engine did.
pub fn in_lines(steps: &[Step]) -> String {
    let mut lines = String::new();
    let mut pair = Pair::new();
    for step in steps {
        let outcome = match pair.step(step) {
            Ok(Some(seen)) => format!(": {}", seen_in_words(step, &seen)),
            Ok(None) => String::new(),
            Err(why) => format!(": FAILS, {why}"),
        };
        line(&mut lines, step, &outcome);
    }
    lines
}

/// The same without taking the steps, for runs that end in a fault.
pub fn in_plain_lines(steps: &[Step]) -> String {
    let mut lines = String::new();
    for step in steps {
        line(&mut lines, step, "");
    }
    lines
}

fn line(lines: &mut String, step: &Step, outcome: &str) {
    writeln!(lines, "{step}  # {}{outcome}", in_words(step))
        .expect("writing to a string doesn't fail");
}

fn seen_in_words(step: &Step, seen: &Seen) -> String {
    let outcome = outcome_in_words(seen.number);
    match step {
        Step::Call(Call::Handle { message, .. }) if seen.number == 0 => match message[2] & 0x1F {
            11 | 13 => format!("{outcome}, count {}", seen.count()),
            12 | 14 => outcome,
            _ => format!("{outcome}, result {}", seen.result()),
        },
        _ => outcome,
    }
}
