//! Both engines side by side, each with its own store, taking the same steps.

use std::sync::atomic::{AtomicU64, Ordering};

use ordinary_engine::catalogue::Product;
use ordinary_engine::Test::Soundness;
use ordinary_engine::{handle, power_on, report_alarm, report_attribute, STORE_SIZE};

use crate::proved;
use crate::random::Random;
use crate::step::{hex, outcome_in_words, Call, Step};
use crate::trace;

/// The bytes of a reply that an answer fills.
const REPLY_SIZE: usize = 48;

/// Said of a written run that was recorded with another library.
const OTHER_SIZE: &str = "the run is of a store of another size";

/// Pairs are numbered for the trace.
static PAIRS: AtomicU64 = AtomicU64::new(0);

/// How often the proved engine was called, for the summary, and how often of
/// these as a Meter.
pub static CALLED: AtomicU64 = AtomicU64::new(0);
pub static CALLED_AS_METER: AtomicU64 = AtomicU64::new(0);

/// What came back from a call, after all comparisons held.
#[derive(Clone, Debug, PartialEq, Eq)]
pub struct Seen {
    pub number: u8,
    pub reply: Vec<u8>,
}

impl Seen {
    /// The result byte of a reply.
    pub fn result(&self) -> u8 {
        self.reply[8]
    }

    /// Whether a command was answered and carried out.
    pub fn is_done(&self) -> bool {
        self.number == 0 && self.result() == 0
    }

    /// Whether the call wasn't dropped.
    pub fn is_taken(&self) -> bool {
        matches!(self.number, 0 | 255)
    }

    /// The contents of a reply.
    pub fn contents(&self) -> &[u8] {
        &self.reply[8..40]
    }

    /// The count that uploads and alarm walks begin with.
    pub fn count(&self) -> u16 {
        u16::from_be_bytes([self.reply[8], self.reply[9]])
    }
}

/// The two engines' stores.
pub struct Pair {
    id: u64,
    proved: Vec<u8>,
    ordinary: Vec<u8>,
    /// Fills reply buffers and whatever lies behind the stores' lengths.
    noise: Random,
    /// The product that was last powered on.
    product: Option<Product>,
    damaged: bool,
    /// Of a damaged store: whether a call has shown it sound or unsound.
    shown_sound: Option<bool>,
    /// The stores of the first run, if this is the second.
    first: Option<(Vec<u8>, Vec<u8>)>,
}

impl Clone for Pair {
    fn clone(&self) -> Pair {
        let id = PAIRS.fetch_add(1, Ordering::Relaxed);
        trace::cloned(self.id, id);
        Pair {
            id,
            proved: self.proved.clone(),
            ordinary: self.ordinary.clone(),
            noise: self.noise.clone(),
            product: self.product,
            damaged: self.damaged,
            shown_sound: self.shown_sound,
            first: self.first.clone(),
        }
    }
}

impl Pair {
    /// Two stores that weren't powered on yet.
    pub fn new() -> Pair {
        let id = PAIRS.fetch_add(1, Ordering::Relaxed);
        trace::made(id);
        let mut noise = Random::new(0x6E6F_6973);
        Pair {
            id,
            proved: noise.bytes(proved_engine::store_size()),
            ordinary: noise.bytes(STORE_SIZE),
            noise,
            product: None,
            damaged: false,
            shown_sound: None,
            first: None,
        }
    }

    /// The proved engine's store.
    pub fn proved_store(&self) -> &[u8] {
        &self.proved
    }

    /// The product that was last powered on.
    pub fn product(&self) -> Option<Product> {
        self.product
    }

    /// Takes a step. An error says what doesn't hold.
    pub fn step(&mut self, step: &Step) -> Result<Option<Seen>, String> {
        trace::stepped(self.id, step);
        match step {
            Step::Call(call) if self.damaged => self.call_twice(call).map(Some),
            Step::Call(call) => self.call_both(call).map(Some),
            Step::Damage { at, xor } => {
                let byte = self.proved.get_mut(*at).ok_or(OTHER_SIZE)?;
                *byte ^= xor;
                self.damaged = true;
                Ok(None)
            }
            Step::Replace { bytes } => {
                if bytes.len() != self.proved.len() {
                    return Err(OTHER_SIZE.into());
                }
                self.proved.copy_from_slice(bytes);
                self.damaged = true;
                Ok(None)
            }
            Step::Other => {
                let other = Pair::new();
                self.first = Some((
                    std::mem::replace(&mut self.proved, other.proved),
                    std::mem::replace(&mut self.ordinary, other.ordinary),
                ));
                Ok(None)
            }
        }
    }

    /// What must hold when a run is over: a state has one encoding. The bytes
    /// of the ordinary engine's store say whether two states are the same.
    pub fn finish(&self) -> Result<(), String> {
        let Some((proved, ordinary)) = &self.first else {
            return Ok(());
        };
        let same_state = *ordinary == self.ordinary;
        let same_bytes = *proved == self.proved;
        if same_state && !same_bytes {
            let at = first_difference(proved, &self.proved);
            return Err(format!(
                "two runs reach the same state, but the proved engine's stores differ at byte {at}"
            ));
        }
        if !same_state && same_bytes {
            return Err("two runs reach different states with the same bytes in the proved \
                        engine's store"
                .into());
        }
        Ok(())
    }

    /// Whether the second run has reached the state of the first one.
    pub fn has_same_state(&self) -> bool {
        self.first.as_ref().is_some_and(|(_, ordinary)| *ordinary == self.ordinary)
    }

    fn call_both(&mut self, call: &Call) -> Result<Seen, String> {
        let blank = self.noise.bytes(call.reply());
        let proved = self.call_proved(call, &blank)?;
        let ordinary = self.call_ordinary(call, &blank)?;
        if proved.seen.number != ordinary.seen.number {
            return Err(format!(
                "proved engine: {}; ordinary engine: {}",
                outcome_in_words(proved.seen.number),
                outcome_in_words(ordinary.seen.number)
            ));
        }
        if proved.seen.reply != ordinary.seen.reply {
            return Err(format!(
                "replies differ at byte {}\n    proved   {}\n    ordinary {}",
                first_difference(&proved.seen.reply, &ordinary.seen.reply),
                hex(&proved.seen.reply),
                hex(&ordinary.seen.reply)
            ));
        }
        if proved.changed != ordinary.changed {
            return Err(format!(
                "the store of the proved engine {}, that of the ordinary one {}",
                changed_in_words(proved.changed),
                changed_in_words(ordinary.changed)
            ));
        }
        Ok(proved.seen)
    }

    /// Calls the proved engine with a damaged store: it must do the same with
    /// two copies, whose lent bytes differ only where it mustn't look.
    fn call_twice(&mut self, call: &Call) -> Result<Seen, String> {
        let before = self.proved.clone();
        let blank = self.noise.bytes(call.reply());
        let one = self.call_proved(call, &blank)?;
        let after = std::mem::replace(&mut self.proved, before);
        let other = self.call_proved(call, &blank)?;
        if one.seen != other.seen {
            return Err("the same call on two copies of a store is answered differently".into());
        }
        if self.proved != after {
            return Err("the same call on two copies of a store leaves different stores".into());
        }
        self.judge_soundness(call, one.seen.number)?;
        Ok(one.seen)
    }

    /// A sound store stays sound and an unsound one unsound, until power-on.
    fn judge_soundness(&mut self, call: &Call, number: u8) -> Result<(), String> {
        if matches!(call, Call::PowerOn { .. }) {
            if number == 0 {
                self.shown_sound = Some(true);
            }
            return Ok(());
        }
        let long_enough = call.store().length(self.proved.len()) >= self.proved.len();
        if !long_enough && !matches!(number, 1 | 2) {
            return Err("a store that is too short was used".into());
        }
        if number == 1 || !long_enough {
            return Ok(());
        }
        let sound = number != 2;
        match self.shown_sound {
            Some(before) if before != sound => Err(format!(
                "the store was {} before this call and is now {}",
                sound_in_words(before),
                sound_in_words(sound)
            )),
            _ => {
                self.shown_sound = Some(sound);
                Ok(())
            }
        }
    }

    fn call_proved(&mut self, call: &Call, blank: &[u8]) -> Result<Called, String> {
        CALLED.fetch_add(1, Ordering::Relaxed);
        if self.product == Some(Product::Meter) {
            CALLED_AS_METER.fetch_add(1, Ordering::Relaxed);
        }
        let lent = lend(&self.proved, call, &mut self.noise);
        let left =
            proved::call(call, &lent, blank).map_err(|what| format!("proved engine: {what}"))?;
        let seen = Seen { number: left.number, reply: left.reply };
        if let (Call::PowerOn { product, .. }, 0) = (call, seen.number) {
            self.product = Product::from_number(*product);
        }
        check_untouched(&seen, &lent, &left.store, self.proved.len(), blank)
            .map_err(|what| format!("proved engine: {what}"))?;
        Ok(Called { seen, changed: take_back(&mut self.proved, &left.store) })
    }

    fn call_ordinary(&mut self, call: &Call, blank: &[u8]) -> Result<Called, String> {
        let lent = lend(&self.ordinary, call, &mut self.noise);
        let mut store = lent.clone();
        let mut reply = blank.to_vec();
        let number = call_ordinary(call, &mut store, &mut reply);
        let seen = Seen { number, reply };
        check_untouched(&seen, &lent, &store, self.ordinary.len(), blank)
            .map_err(|what| format!("ordinary engine: {what}"))?;
        Ok(Called { seen, changed: take_back(&mut self.ordinary, &store) })
    }
}

/// What one engine made of a call.
struct Called {
    seen: Seen,
    changed: bool,
}

fn call_ordinary(call: &Call, store: &mut [u8], reply: &mut [u8]) -> u8 {
    match *call {
        Call::PowerOn { product, .. } => power_on(store, product),
        Call::Handle { ref message, .. } => handle(Soundness, store, message, reply),
        Call::ReportAttribute { class, instance, attribute, ref content, .. } => {
            report_attribute(Soundness, store, class, instance, attribute, content, reply)
        }
        Call::ReportAlarm { class, instance, alarm, on, .. } => {
            report_alarm(Soundness, store, class, instance, alarm, on, reply)
        }
    }
}

/// The bytes to lend: the store's own, cut off or with noise behind them.
fn lend(store: &[u8], call: &Call, noise: &mut Random) -> Vec<u8> {
    let length = call.store().length(store.len());
    let mut lent = store[..length.min(store.len())].to_vec();
    lent.extend(noise.bytes(length - lent.len()));
    lent
}

/// Takes the store's own bytes back and says whether they have changed.
fn take_back(store: &mut [u8], left: &[u8]) -> bool {
    let own = &left[..store.len().min(left.len())];
    let changed = store[..own.len()] != *own;
    store[..own.len()].copy_from_slice(own);
    changed
}

/// What an engine mustn't touch: everything on a drop, the reply when quiet,
/// and always the bytes behind an answer and behind the store's length.
fn check_untouched(
    seen: &Seen,
    lent: &[u8],
    left: &[u8],
    size: usize,
    blank: &[u8],
) -> Result<(), String> {
    let dropped = !seen.is_taken();
    if dropped && lent != left {
        let at = first_difference(lent, left);
        return Err(format!("{} changed byte {at} of the store", outcome_in_words(seen.number)));
    }
    if lent.len() > size && lent[size..] != left[size..] {
        let at = size + first_difference(&lent[size..], &left[size..]);
        return Err(format!("byte {at} behind the store's length {size} was changed"));
    }
    let filled = if seen.number == 0 { REPLY_SIZE.min(blank.len()) } else { 0 };
    if blank[filled..] != seen.reply[filled..] {
        let at = filled + first_difference(&blank[filled..], &seen.reply[filled..]);
        return Err(format!("{} changed byte {at} of the reply", outcome_in_words(seen.number)));
    }
    Ok(())
}

fn first_difference(one: &[u8], other: &[u8]) -> usize {
    one.iter().zip(other).position(|(one, other)| one != other).unwrap_or(one.len())
}

fn changed_in_words(changed: bool) -> &'static str {
    if changed {
        "has changed"
    } else {
        "has not changed"
    }
}

fn sound_in_words(sound: bool) -> &'static str {
    if sound {
        "sound"
    } else {
        "unsound"
    }
}
