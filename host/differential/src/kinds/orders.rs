//! The same state, reached by two orders of commands and reports, must have the
//! same bytes in the store.

use exchange::{port_contents, Maker, BRIDGE, CREATE, DELETE, GET, GET_ALL_ALARMS, SET, UPLOAD};

use super::{Options, LARGE, METER, PRODUCTS};
use crate::bench::Bench;
use crate::random::Random;
use crate::run::Failure;
use crate::step::{Call, Step};

/// How many pairs of orders are tried with each product.
const ROUNDS: u64 = 400;

pub fn test(options: &Options) -> Result<String, Failure> {
    let mut calls = 0;
    let mut full = 0;
    for product in PRODUCTS {
        for round in 0..ROUNDS {
            let mut random = Random::part(options.seed, 0x6F72_6465 + round);
            let plan = Plan::random(&mut random, product);
            full += usize::from(plan.bridges.len() + plan.ports.len() == 40);
            let mut bench = Bench::new();
            calls += plan.carry_out(&mut bench, product, &mut random)?;
            bench.step(Step::Other)?;
            calls += plan.carry_out(&mut bench, product, &mut random)?;
            bench.demand(
                bench.pair().has_same_state(),
                "the two orders must reach the same state in the ordinary engine",
            )?;
            bench.finish()?;
        }
    }
    let pairs = PRODUCTS.len() as u64 * ROUNDS;
    Ok(format!("{pairs} pairs of orders, {full} of them over all 40 places, {calls} calls"))
}

/// What a state is to hold in the end.
struct Plan {
    bridges: Vec<Bridge>,
    ports: Vec<Port>,
    unis: Vec<Uni>,
    begins_upload: bool,
}

struct Bridge {
    number: u16,
    priority: u16,
    mac: Option<[u8; 6]>,
    /// It is deleted again once its ports are there.
    goes: bool,
}

struct Port {
    number: u16,
    bridge: u16,
    cost: u16,
}

struct Uni {
    number: u16,
    expected: u8,
    sensed: u8,
    raised: bool,
}

/// Something that is yet to be done.
#[derive(Clone, Copy)]
enum Task<'a> {
    Make(&'a Bridge),
    MakePort(&'a Port),
    Delete(&'a Bridge),
    Set(&'a Uni),
    Report(&'a Uni),
    Raise(&'a Uni),
}

impl Plan {
    fn random(random: &mut Random, product: u8) -> Plan {
        let (bridges, ports) = match product {
            METER => (Vec::new(), Vec::new()),
            _ => Plan::random_instances(random),
        };
        let last_uni = if product == LARGE { 0x0104 } else { 0x0101 };
        let unis = (0x0101..=last_uni)
            .map(|number| Uni {
                number,
                expected: random.byte(),
                sensed: random.byte(),
                raised: random.per_mille(400),
            })
            .collect();
        Plan { bridges, ports, unis, begins_upload: random.per_mille(500) }
    }

    fn random_instances(random: &mut Random) -> (Vec<Bridge>, Vec<Port>) {
        let size = random.pick(&[2, 5, 12, 40]);
        let mut numbers: Vec<u16> = Vec::new();
        while numbers.len() < size {
            let number = random.word() & random.pick(&[0x000F, 0x00FF, 0xFF00, 0xFFFF]);
            if !numbers.contains(&number) {
                numbers.push(number);
            }
        }
        let ports = numbers.split_off(1 + random.below(size - 1));
        let bridges: Vec<Bridge> = numbers
            .iter()
            .map(|&number| Bridge {
                number,
                priority: random.word(),
                mac: random.per_mille(400).then(|| std::array::from_fn(|_| random.byte())),
                goes: random.per_mille(200),
            })
            .collect();
        let ports = ports
            .iter()
            .map(|&number| Port {
                number,
                bridge: random.pick(&numbers),
                cost: random.word().max(1),
            })
            .collect();
        (bridges, ports)
    }

    /// Reaches the state in a random order, with detours, and makes everything
    /// that tells of the way the same by common last commands.
    fn carry_out(
        &self,
        bench: &mut Bench,
        product: u8,
        random: &mut Random,
    ) -> Result<usize, Failure> {
        let maker = Maker::new(random.word() & 0x0FFF);
        let mut way = Way { bench, maker, random, calls: 0 };
        way.call(Call::power_on(product))?;
        let mut tasks = self.tasks();
        while !tasks.is_empty() {
            let at = way.random.below(tasks.len());
            if is_ready(&tasks[at], &tasks) {
                let task = tasks.swap_remove(at);
                way.carry_out(task)?;
            }
        }
        way.finish(self.begins_upload)?;
        Ok(way.calls)
    }

    fn tasks(&self) -> Vec<Task<'_>> {
        let mut tasks: Vec<Task> = self.bridges.iter().map(Task::Make).collect();
        tasks.extend(self.ports.iter().map(Task::MakePort));
        tasks.extend(self.bridges.iter().filter(|bridge| bridge.goes).map(Task::Delete));
        tasks.extend(self.unis.iter().map(Task::Set));
        tasks.extend(self.unis.iter().map(Task::Report));
        tasks.extend(self.unis.iter().filter(|uni| uni.raised).map(Task::Raise));
        tasks
    }
}

/// A port is made after its bridge, and a bridge goes after its ports.
fn is_ready(task: &Task, left: &[Task]) -> bool {
    match task {
        Task::MakePort(port) => !left
            .iter()
            .any(|other| matches!(other, Task::Make(bridge) if bridge.number == port.bridge)),
        Task::Delete(bridge) => !left.iter().any(|other| match other {
            Task::Make(other) => other.number == bridge.number,
            Task::MakePort(port) => port.bridge == bridge.number,
            _ => false,
        }),
        _ => true,
    }
}

/// One way to a state.
struct Way<'a> {
    bench: &'a mut Bench,
    maker: Maker,
    random: &'a mut Random,
    calls: usize,
}

impl Way<'_> {
    fn call(&mut self, call: Call) -> Result<(), Failure> {
        let seen = self.bench.call(call)?;
        self.calls += 1;
        self.bench.demand(seen.is_taken(), "a call on the way must be accepted")
    }

    fn command(
        &mut self,
        number: u8,
        class: u16,
        instance: u16,
        contents: &[u8],
    ) -> Result<(), Failure> {
        let seen = self.bench.send(&mut self.maker, (number, class, instance), contents)?;
        self.calls += 1;
        self.bench.demand(seen.is_done(), "a command on the way must be accepted")
    }

    fn carry_out(&mut self, task: Task) -> Result<(), Failure> {
        match task {
            Task::Make(bridge) => self.make_bridge(bridge),
            Task::MakePort(port) => self.make_port(port),
            Task::Delete(bridge) => self.command(DELETE, 45, bridge.number, &[]),
            Task::Set(uni) => self.set(uni),
            Task::Report(uni) => {
                self.call(Call::report_attribute(11, uni.number, 2, &[uni.sensed]))
            }
            Task::Raise(uni) => self.raise(uni),
        }
    }

    /// What Meter refuses leaves no trace.
    fn set(&mut self, uni: &Uni) -> Result<(), Failure> {
        let contents = [0x80, 0, uni.expected];
        if self.bench.takes_sets() {
            return self.command(SET, 11, uni.number, &contents);
        }
        for number in [SET, CREATE, DELETE] {
            let class = self.random.pick(&[2, 11, 45, 47]);
            let message = self.maker.command(number, class, uni.number, &contents);
            self.call(Call::handle(&message))?;
        }
        Ok(())
    }

    fn make_bridge(&mut self, bridge: &Bridge) -> Result<(), Failure> {
        if self.random.per_mille(300) {
            // A detour: made, reported on, deleted, and made anew.
            self.command(CREATE, 45, bridge.number, &BRIDGE)?;
            self.call(Call::report_attribute(46, bridge.number, 4, &[1, 2, 3, 4]))?;
            self.command(DELETE, 45, bridge.number, &[])?;
        }
        let [high, low] = bridge.priority.to_be_bytes();
        if self.random.per_mille(500) {
            let mut contents = BRIDGE;
            contents[3..5].copy_from_slice(&[high, low]);
            self.command(CREATE, 45, bridge.number, &contents)?;
        } else {
            self.command(CREATE, 45, bridge.number, &BRIDGE)?;
            self.command(SET, 45, bridge.number, &[0x10, 0, high, low])?;
        }
        if let Some(mac) = bridge.mac {
            if self.random.per_mille(300) {
                self.call(Call::report_attribute(46, bridge.number, 1, &[0xEE; 6]))?;
            }
            self.call(Call::report_attribute(46, bridge.number, 1, &mac))?;
        }
        Ok(())
    }

    fn make_port(&mut self, port: &Port) -> Result<(), Failure> {
        let mut contents = port_contents(port.bridge);
        if self.random.per_mille(300) {
            self.command(CREATE, 47, port.number, &contents)?;
            self.command(DELETE, 47, port.number, &[])?;
        }
        let [high, low] = port.cost.to_be_bytes();
        if self.random.per_mille(500) {
            contents[8..10].copy_from_slice(&[high, low]);
            return self.command(CREATE, 47, port.number, &contents);
        }
        self.command(CREATE, 47, port.number, &contents)?;
        self.command(SET, 47, port.number, &[0x04, 0, high, low])
    }

    fn raise(&mut self, uni: &Uni) -> Result<(), Failure> {
        for _ in 0..self.random.below(3) {
            self.call(Call::report_alarm(11, uni.number, 0, true))?;
            self.call(Call::report_alarm(11, uni.number, 0, false))?;
        }
        self.call(Call::report_alarm(11, uni.number, 0, true))
    }

    /// The same alarm number, walks, counter and remembered command.
    fn finish(&mut self, begins_upload: bool) -> Result<(), Failure> {
        self.maker = Maker::new(0x7000);
        let walk = self.maker.command(GET_ALL_ALARMS, 2, 0, &[]);
        self.call(Call::handle(&walk))?;
        if begins_upload {
            let upload = self.maker.command(UPLOAD, 2, 0, &[]);
            self.call(Call::handle(&upload))?;
        }
        if self.bench.takes_sets() {
            return self.command(SET, 2, 0, &[0x80, 0, 0x5A]);
        }
        // There the counter has never moved.
        self.command(GET, 2, 0, &[0x80, 0])
    }
}
