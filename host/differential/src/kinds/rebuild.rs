//! A damaged store that isn't dropped must be a state of document 01, in its
//! one encoding. To see that without knowing the encoding, the state is read
//! out of the damaged store, reached again from power-on by ordinary commands
//! and reports, and then the two stores must have the same bytes.
//!
//! What can't be read out is made the same by a common last command: Get all
//! alarms, which overwrites the remembered command, the frozen alarms and the
//! alarm number.
//!
//! Commands move neither the counter of a Meter nor what else is written there
//! only by Set and MIB reset. A state with such contents is a state all the
//! same; it is reset first, and then reached again.

use std::collections::BTreeMap;

use exchange::{
    command, Maker, ALARMS_NEXT, BRIDGE, CREATE, DELETE, GET, GET_ALL_ALARMS, RESET, SET, UPLOAD,
    UPLOAD_NEXT,
};
use ordinary_engine::catalogue::{Attribute, Class, Product};

use super::damage::{foreign_bytes, reached};
use super::{Options, LARGE, METER, SMALL};
use crate::bench::Bench;
use crate::pair::Seen;
use crate::random::Random;
use crate::run::Failure;
use crate::step::{Call, Step};

/// How many foreign stores are tried; about a third of them are states.
const FOREIGN: usize = 1_000;
/// One in so many bytes of a reached store is damaged; which, the seed says. In
/// a Meter's few bytes can change without being dropped, so all are damaged.
const SHARE: usize = 3;
const PLACES: usize = 40;

pub fn test(options: &Options) -> Result<String, Failure> {
    let benches = reached(options)?;
    let mut random = Random::part(options.seed, 0x7265_6275);
    let mut tally = Tally::default();
    let mut try_store = |bench: &Bench, damage: Step| -> Result<(), Failure> {
        if !is_unsound(bench, &damage)? {
            tally.count(&rebuild(bench, &damage)?);
        }
        Ok(())
    };
    for bench in &benches {
        for at in 0..bench.pair().proved_store().len() {
            let is_meter = bench.pair().product() == Some(Product::Meter);
            if random.below(SHARE) != 0 && !is_meter {
                continue;
            }
            let xor = random.pick(&[0x01, 0x02, 0x04, 0x08, 0x10, 0x20, 0x40, 0x80, 0xFF]);
            try_store(bench, Step::Damage { at, xor })?;
        }
    }
    for _ in 0..FOREIGN {
        let bytes = foreign_bytes(&benches, &mut random);
        try_store(&benches[0], Step::Replace { bytes })?;
    }
    let told = tally.in_words();
    let has_both_meters = tally.of_meters > tally.reset && tally.reset > 0;
    benches[0].demand(has_both_meters, &format!("too few Meters: {told}"))?;
    Ok(told)
}

/// What became of a damaged store that is a state.
enum Rebuilt {
    /// It was reached again; if need be, after a reset.
    Reached { product: u8, reset: bool },
    /// No run can reach it.
    LeftOut,
}

#[derive(Default)]
struct Tally {
    rebuilt: usize,
    of_meters: usize,
    reset: usize,
    left_out: usize,
}

impl Tally {
    fn count(&mut self, rebuilt: &Rebuilt) {
        match *rebuilt {
            Rebuilt::Reached { product, reset } => {
                self.rebuilt += 1;
                self.of_meters += usize::from(product == METER);
                self.reset += usize::from(reset);
            }
            Rebuilt::LeftOut => self.left_out += 1,
        }
    }

    fn in_words(&self) -> String {
        let Tally { rebuilt, of_meters, reset, left_out } = self;
        format!(
            "{rebuilt} damaged stores that are states reached again, {of_meters} of them a \
             Meter's, {reset} after a reset; {left_out} left out"
        )
    }
}

fn is_unsound(bench: &Bench, damage: &Step) -> Result<bool, Failure> {
    let steps = [damage.clone(), Call::report_alarm(0, 0, 0, false).into()];
    let seen = bench.probe_all(&steps)?;
    Ok(matches!(&seen[1], Some(seen) if seen.number == 2))
}

/// The command that both stores are sent last.
fn last_command() -> Call {
    Call::handle(&command(0x7E57, GET_ALL_ALARMS, 2, 0, &[]))
}

/// Reaches the state of a damaged store again and compares.
fn rebuild(bench: &Bench, damage: &Step) -> Result<Rebuilt, Failure> {
    let mut damaged = bench.clone();
    damaged.step(damage.clone())?;
    let mut state = State::read(&damaged)?;
    let reset = state.needs_reset();
    if reset {
        damaged.call(Call::handle(&command(0x7E56, RESET, 2, 0, &[])))?;
        state = State::read(&damaged)?;
        damaged.demand(!state.needs_reset(), "a reset must give first contents back")?;
    }
    let Some(mut again) = state.reach(&damaged)? else {
        return Ok(Rebuilt::LeftOut);
    };
    damaged.call(last_command())?;
    again.call(last_command())?;
    damaged.demand(
        damaged.pair().proved_store() == again.pair().proved_store(),
        "the damaged store is taken for a state, but not encoded as the engine encodes that state",
    )?;
    Ok(Rebuilt::Reached { product: state.product, reset })
}

/// The contents of a table's instances, by class and number, then attribute.
type Table = BTreeMap<(u16, u16), BTreeMap<u8, Vec<u8>>>;

/// What a store shows.
struct State {
    product: u8,
    counter: u8,
    table: Table,
    frozen: Option<Table>,
    raised: Vec<u16>,
}

impl State {
    /// Reads a store out, without changing it.
    fn read(bench: &Bench) -> Result<State, Failure> {
        let mut reader = Reader { bench: bench.clone(), maker: Maker::new(0x4000) };
        let frozen = reader.sections()?;
        let counter = reader.ask(GET, &[0x80, 0])?.contents()[3];
        reader.ask(UPLOAD, &[])?;
        let table = reader.sections()?;
        let count = reader.ask(GET_ALL_ALARMS, &[])?.count();
        let mut raised = Vec::new();
        for index in 0..count {
            let seen = reader.ask(ALARMS_NEXT, &index.to_be_bytes())?;
            let contents = seen.contents();
            reader.bench.demand(
                contents[..2] == [0, 11] && contents[4] == 0x80,
                "an alarm walk shows an alarm that no class declares",
            )?;
            raised.push(u16::from_be_bytes([contents[2], contents[3]]));
        }
        Ok(State {
            product: product_of(&table),
            counter,
            table,
            frozen: Some(frozen).filter(|t| !t.is_empty()),
            raised,
        })
    }

    /// Whether it is a Meter's and has contents that no run can give them.
    fn needs_reset(&self) -> bool {
        let tables = || std::iter::once(&self.table).chain(&self.frozen);
        self.product == METER && (self.counter != 0 || tables().any(has_written))
    }

    /// Reaches the state from power-on. What the state holds must be accepted
    /// on the way, else it isn't legal; `shown` is told then.
    fn reach(&self, shown: &Bench) -> Result<Option<Bench>, Failure> {
        if is_out_of_reach(&self.table) || self.frozen.as_ref().is_some_and(is_out_of_reach) {
            return Ok(None);
        }
        let bench = Bench::powered(self.product)?;
        let mut way = Way { bench, maker: Maker::new(0x1000), shown };
        if let Some(frozen) = &self.frozen {
            way.reach(frozen)?;
            way.bench.send(&mut way.maker, (UPLOAD, 2, 0), &[])?;
            for (class, instance) in created(frozen) {
                way.accepted((DELETE, class, instance), &[])?;
            }
        }
        way.reach(&self.table)?;
        for &uni in &self.raised {
            way.report(Call::report_alarm(11, uni, 0, true))?;
        }
        if way.bench.takes_sets() {
            way.accepted((SET, 2, 0), &[0x80, 0, self.counter])?;
        }
        Ok(Some(way.bench))
    }
}

/// The product whose table it is, by what it shows of UNIs.
fn product_of(table: &Table) -> u8 {
    let mut unis = table.iter().filter(|((class, _), _)| *class == 11);
    match (unis.next(), unis.next()) {
        (_, Some(_)) => LARGE,
        (Some((_, shown)), _) if !shown.contains_key(&LOOPBACK) => METER,
        _ => SMALL,
    }
}

/// An attribute of UNIs that Meter hasn't.
const LOOPBACK: u8 = 4;

/// Whether an attribute that the exchange can write isn't zero, which is what
/// Meter's have first.
fn has_written(table: &Table) -> bool {
    table.iter().any(|(&(class, _), shown)| {
        all_attributes(class).iter().filter(|attribute| attribute.rights.write).any(|attribute| {
            shown.get(&attribute.number).is_some_and(|value| value.iter().any(|&byte| byte != 0))
        })
    })
}

/// A state with all places taken by ports of absent bridges is legal, but no
/// run reaches it: the last port was made beside its bridge.
fn is_out_of_reach(table: &Table) -> bool {
    let orphans = ports(table).filter(|(_, bridge)| !table.contains_key(&(45, *bridge)));
    orphans.count() >= PLACES
}

/// The ports of a table, each with the bridge that it names.
fn ports(table: &Table) -> impl Iterator<Item = (u16, u16)> + '_ {
    table.iter().filter(|((class, _), _)| *class == 47).map(|((_, instance), contents)| {
        let bridge = &contents[&1];
        (*instance, u16::from_be_bytes([bridge[0], bridge[1]]))
    })
}

fn created(table: &Table) -> Vec<(u16, u16)> {
    table.keys().copied().filter(|(class, _)| matches!(class, 45 | 47)).collect()
}

/// Asks a damaged store.
struct Reader {
    bench: Bench,
    maker: Maker,
}

impl Reader {
    fn ask(&mut self, number: u8, contents: &[u8]) -> Result<Seen, Failure> {
        let seen = self.bench.send(&mut self.maker, (number, 2, 0), contents)?;
        self.bench.demand(seen.number == 0, "a sound store must be answered from")?;
        Ok(seen)
    }

    /// All sections of the frozen table.
    fn sections(&mut self) -> Result<Table, Failure> {
        let mut table = Table::new();
        for index in 0..=u16::MAX {
            let seen = self.ask(UPLOAD_NEXT, &index.to_be_bytes())?;
            let contents = seen.contents();
            if contents.iter().all(|&byte| byte == 0) {
                break;
            }
            let number = |at: usize| u16::from_be_bytes([contents[at], contents[at + 1]]);
            let (class, instance, mask) = (number(0), number(2), number(4));
            let shown = table.entry((class, instance)).or_default();
            let mut values = &contents[6..];
            for attribute in all_attributes(class).iter().filter(|a| mask & a.bit() != 0) {
                let (value, rest) = values.split_at(attribute.size);
                shown.insert(attribute.number, value.to_vec());
                values = rest;
            }
        }
        Ok(table)
    }
}

/// The attributes of a class in Large; the other products have some of them.
fn all_attributes(class: u16) -> &'static [Attribute] {
    Class::from_number(class).map_or(&[], Class::attributes_of_any_product)
}

/// The way to a state.
struct Way<'a> {
    bench: Bench,
    maker: Maker,
    shown: &'a Bench,
}

impl Way<'_> {
    fn accepted(&mut self, command: (u8, u16, u16), contents: &[u8]) -> Result<(), Failure> {
        let seen = self.bench.send(&mut self.maker, command, contents)?;
        let (_, class, instance) = command;
        self.shown.demand(
            seen.is_done(),
            &format!("the damaged store is taken for a state with an illegal instance {instance:#06X} of class {class}"),
        )
    }

    fn report(&mut self, call: Call) -> Result<(), Failure> {
        let seen = self.bench.call(call)?;
        self.shown.demand(
            seen.is_taken(),
            "the damaged store is taken for a state with an illegal content",
        )
    }

    /// From a table without created instances to this one.
    fn reach(&mut self, table: &Table) -> Result<(), Failure> {
        // Ports of absent bridges first, while there is a place for the bridge.
        let mut orphans: BTreeMap<u16, Vec<u16>> = BTreeMap::new();
        for (port, bridge) in ports(table) {
            if !table.contains_key(&(45, bridge)) {
                orphans.entry(bridge).or_default().push(port);
            }
        }
        for (bridge, ports) in orphans {
            self.accepted((CREATE, 45, bridge), &BRIDGE)?;
            for port in ports {
                self.create(47, port, table)?;
            }
            self.accepted((DELETE, 45, bridge), &[])?;
        }
        for &(class, instance) in table.keys() {
            match class {
                11 => self.furnish(class, instance, table)?,
                45 => self.create(class, instance, table)?,
                46 => self.furnish(class, instance, table)?,
                _ => {}
            }
        }
        for (port, bridge) in ports(table) {
            if table.contains_key(&(45, bridge)) {
                self.create(47, port, table)?;
            }
        }
        Ok(())
    }

    fn create(&mut self, class: u16, instance: u16, table: &Table) -> Result<(), Failure> {
        let contents: Vec<u8> =
            table[&(class, instance)].values().flat_map(|value| value.iter().copied()).collect();
        self.accepted((CREATE, class, instance), &contents)
    }

    /// Sets and reports the attributes of an instance that is there.
    fn furnish(&mut self, class: u16, instance: u16, table: &Table) -> Result<(), Failure> {
        let shown = &table[&(class, instance)];
        let mut mask = 0;
        let mut values = Vec::new();
        for attribute in all_attributes(class) {
            let Some(value) = shown.get(&attribute.number) else {
                continue;
            };
            if attribute.rights.write {
                mask |= attribute.bit();
                values.extend_from_slice(value);
            }
            if attribute.rights.local {
                self.report(Call::report_attribute(class, instance, attribute.number, value))?;
            }
        }
        if mask == 0 || !self.bench.takes_sets() {
            return Ok(());
        }
        self.accepted((SET, class, instance), &[&mask.to_be_bytes(), &values[..]].concat())
    }
}
