//! A pair of engines with the run that led to its state.

use exchange::{Maker, BRIDGE, CREATE, DELETE, GET_ALL_ALARMS, SET, UPLOAD};
use ordinary_engine::catalogue::Product;

use crate::pair::{Pair, Seen};
use crate::run::Failure;
use crate::step::{Call, Step};

#[derive(Clone)]
pub struct Bench {
    pair: Pair,
    steps: Vec<Step>,
}

impl Bench {
    /// Stores that weren't powered on yet.
    pub fn new() -> Bench {
        Bench { pair: Pair::new(), steps: Vec::new() }
    }

    /// A product that was just powered on.
    pub fn powered(product: u8) -> Result<Bench, Failure> {
        let mut bench = Bench::new();
        let seen = bench.call(Call::power_on(product))?;
        bench.demand(seen.number == 0, "power-on must succeed")?;
        Ok(bench)
    }

    /// A product with something of everything in its state.
    pub fn furnished(product: u8) -> Result<Bench, Failure> {
        let mut bench = Bench::powered(product)?;
        let mut maker = Maker::new(0x5000);
        if bench.takes_sets() {
            for message in created(&mut maker) {
                let seen = bench.call(Call::handle(&message))?;
                bench.demand(seen.is_done(), "the furnishing must succeed")?;
            }
            for call in [
                Call::report_attribute(46, 0x0300, 1, &[1, 2, 3, 4, 5, 6]),
                Call::report_attribute(46, 0x0300, 3, &[8, 7, 6, 5, 4, 3, 2, 1]),
            ] {
                bench.taken(call)?;
            }
        }
        for call in [
            Call::report_attribute(11, 0x0101, 2, &[0x31]),
            Call::report_alarm(11, 0x0101, 0, true),
            Call::handle(&maker.command(UPLOAD, 2, 0, &[])),
            Call::handle(&maker.command(GET_ALL_ALARMS, 2, 0, &[])),
            Call::report_attribute(11, 0x0101, 6, &[1]),
            Call::handle(&maker.command(CREATE, 45, 0x0044, &BRIDGE)),
        ] {
            bench.taken(call)?;
        }
        Ok(bench)
    }

    fn taken(&mut self, call: Call) -> Result<(), Failure> {
        let seen = self.call(call)?;
        self.demand(seen.is_taken(), "the furnishing must succeed")
    }

    /// Whether the product lets the exchange create, delete and set.
    pub fn takes_sets(&self) -> bool {
        self.pair.product().is_some_and(Product::takes_sets)
    }

    pub fn pair(&self) -> &Pair {
        &self.pair
    }

    /// Makes a call of both engines.
    pub fn call(&mut self, call: Call) -> Result<Seen, Failure> {
        Ok(self.step(call.into())?.expect("a call is seen"))
    }

    /// Sends a command with the maker's next id.
    pub fn send(
        &mut self,
        maker: &mut Maker,
        (number, class, instance): (u8, u16, u16),
        contents: &[u8],
    ) -> Result<Seen, Failure> {
        self.call(Call::handle(&maker.command(number, class, instance, contents)))
    }

    /// Takes a step.
    pub fn step(&mut self, step: Step) -> Result<Option<Seen>, Failure> {
        let taken = self.pair.step(&step);
        self.steps.push(step);
        taken.map_err(|why| self.failure(why))
    }

    /// Makes a call from this state, but stays in it.
    pub fn probe(&self, call: Call) -> Result<Seen, Failure> {
        let mut pair = self.pair.clone();
        let step = Step::from(call);
        match pair.step(&step) {
            Ok(seen) => Ok(seen.expect("a call is seen")),
            Err(why) => {
                let mut steps = self.steps.clone();
                steps.push(step);
                Err(Failure { steps, why })
            }
        }
    }

    /// Takes steps from this state, but stays in it.
    pub fn probe_all(&self, steps: &[Step]) -> Result<Vec<Option<Seen>>, Failure> {
        let mut pair = self.pair.clone();
        let mut all = Vec::with_capacity(steps.len());
        for (index, step) in steps.iter().enumerate() {
            match pair.step(step) {
                Ok(seen) => all.push(seen),
                Err(why) => {
                    let mut run = self.steps.clone();
                    run.extend_from_slice(&steps[..=index]);
                    return Err(Failure { steps: run, why });
                }
            }
        }
        Ok(all)
    }

    /// Ends the run.
    pub fn finish(&self) -> Result<(), Failure> {
        self.pair.finish().map_err(|why| self.failure(why))
    }

    /// Something that a test asks of the run so far.
    pub fn demand(&self, holds: bool, what: &str) -> Result<(), Failure> {
        if holds {
            Ok(())
        } else {
            Err(self.failure(what.into()))
        }
    }

    pub fn failure(&self, why: String) -> Failure {
        Failure { steps: self.steps.clone(), why }
    }
}

/// What a furnished bench's table gets from the exchange.
fn created(maker: &mut Maker) -> [[u8; 48]; 8] {
    [
        maker.command(SET, 11, 0x0101, &[0xB8, 0, 7, 8, 3, 1]),
        maker.bridge(0x0300),
        maker.bridge(0x0002),
        maker.bridge(0xFFFF),
        maker.port(0x0009, 0x0300),
        maker.port(0x0005, 0x0300),
        maker.port(0x0700, 0xFFFF),
        maker.command(DELETE, 45, 0xFFFF, &[]),
    ]
}
