//! Finding an instance: a Get that asks for nothing, of a bridge in tables of
//! several sizes. It is refused behind the search: with 3 where the bridge is
//! there, with 5 where it isn't. So Gets in tables of different sizes differ by
//! the search alone.

use exchange::{Maker, GET};

use crate::engines::{message, Call, Engine, Slot, ANSWERED};
use crate::states::{bridge, LARGE};

const BAD_PARAMETER: u8 = 3;
const UNKNOWN_INSTANCE: u8 = 5;

/// A search: in how many places, and for which instance.
pub struct Search {
    places: u16,
    instance: u16,
    result: u8,
}

impl Search {
    /// PLACES:WHICH, such as 20:middle. The absent one would stand right behind
    /// the middle one.
    pub fn named(words: &str) -> Result<Search, String> {
        let wrong = || format!("{words}: not PLACES:first, :middle, :last or :absent");
        let (places, which) = words.split_once(':').ok_or_else(wrong)?;
        let places: u16 = places.parse().map_err(|_| wrong())?;
        if !(1..=40).contains(&places) {
            return Err(format!("{places} places: not 1 to 40"));
        }
        let (instance, result) = match which {
            "first" => (bridge(0), BAD_PARAMETER),
            "middle" => (bridge(places / 2), BAD_PARAMETER),
            "last" => (bridge(places - 1), BAD_PARAMETER),
            "absent" => (bridge(places / 2) + 1, UNKNOWN_INSTANCE),
            _ => return Err(wrong()),
        };
        Ok(Search { places, instance, result })
    }

    /// Makes the search behind a mark, and one more soundness test in front of
    /// it if `tested`.
    pub fn run(&self, engine: Engine, tested: bool, mark: fn()) -> Result<(), String> {
        let mut maker = Maker::new(0x1000);
        let mut stores = vec![vec![0; engine.store_size()]];
        let creates: Vec<Call> =
            (0..self.places).map(|index| message(maker.bridge(bridge(index)))).collect();
        let mut slots = vec![Slot::CLEARED; creates.len()];
        let started = engine.power_on(&mut stores[0], LARGE) == ANSWERED;
        engine.run(&creates, &mut stores, &mut slots);
        if !started || !creates.iter().zip(&slots).all(|(call, slot)| call.is_done(slot)) {
            return Err(format!("{}: a table of {} couldn't be made", engine.name(), self.places));
        }
        let get = [message(maker.command(GET, 45, self.instance, &[0, 0]))];
        let mut slots = [Slot::CLEARED];
        mark();
        if tested {
            engine.run_tested(&get, &mut stores, &mut slots);
        } else {
            engine.run(&get, &mut stores, &mut slots);
        }
        if (slots[0].number, slots[0].reply[8]) == (ANSWERED, self.result) {
            Ok(())
        } else {
            Err(format!("{}: a search wasn't answered with {}", engine.name(), self.result))
        }
    }
}
