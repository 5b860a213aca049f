//! Long random runs: both engines get the same calls and must do the same.

use std::collections::BTreeMap;

use ordinary_engine::catalogue::Product;

use super::{Options, LARGE, METER, SMALL};
use crate::bench::Bench;
use crate::generator::Generator;
use crate::pair::Seen;
use crate::random::Random;
use crate::run::Failure;
use crate::step::{message_name, outcome_in_words, Call, Step};

/// The state is read out as a whole about once in so many calls.
const READ_OUT_EVERY: usize = 400;

pub fn test(options: &Options) -> Result<String, Failure> {
    let mut counts = Counts::default();
    let mut made = 0;
    let mut runs = 0;
    while made < options.calls {
        let mut random = Random::part(options.seed, runs);
        let length = random.pick(&[40, 200, 800, 2000]).min(options.calls - made);
        // A Meter has few states, but it is met however few calls there are.
        let product = [METER, SMALL, LARGE, SMALL, LARGE][runs as usize % 5];
        run(random, product, length, &mut counts)?;
        made += length;
        runs += 1;
    }
    Ok(format!("{made} calls in {runs} runs from seed {}\n{}", options.seed, counts.table()))
}

fn run(mut random: Random, product: u8, length: usize, counts: &mut Counts) -> Result<(), Failure> {
    let mut generator = Generator::new(Random::new(random.next()), product);
    let mut bench = Bench::powered(product)?;
    for _ in 1..length {
        let call = generator.call();
        let product = bench.pair().product();
        let seen = bench.call(call.clone())?;
        counts.count(product, &call, &seen);
        generator.learn(&call, &seen);
        if random.below(READ_OUT_EVERY) == 0 {
            read_out(&bench, &generator)?;
        }
    }
    read_out(&bench, &generator)
}

fn read_out(bench: &Bench, generator: &Generator) -> Result<(), Failure> {
    let steps: Vec<Step> = generator.reading_out().into_iter().map(Step::from).collect();
    bench.probe_all(&steps).map(|_| ())
}

/// How often each message had each result in each product, to show that the
/// runs reach far.
#[derive(Default)]
struct Counts {
    counts: BTreeMap<String, BTreeMap<String, usize>>,
}

impl Counts {
    /// Counts a call that was made of this product.
    fn count(&mut self, product: Option<Product>, call: &Call, seen: &Seen) {
        let (name, outcome) = match call {
            Call::PowerOn { .. } => ("power-on".into(), outcome_in_words(seen.number)),
            Call::ReportAttribute { .. } => {
                ("attribute report".into(), outcome_in_words(seen.number))
            }
            Call::ReportAlarm { .. } => ("alarm report".into(), outcome_in_words(seen.number)),
            Call::Handle { .. } if seen.number != 0 => {
                ("any message".into(), outcome_in_words(seen.number))
            }
            Call::Handle { message, .. } => message_outcome(message, seen),
        };
        let name = match product {
            Some(product) => format!("{product:?}, {name}"),
            None => name,
        };
        *self.counts.entry(name).or_default().entry(outcome).or_default() += 1;
    }

    fn table(&self) -> String {
        let mut lines = Vec::new();
        for (name, outcomes) in &self.counts {
            let outcomes: Vec<String> =
                outcomes.iter().map(|(outcome, count)| format!("{outcome}: {count}")).collect();
            lines.push(format!("  {name}: {}", outcomes.join(", ")));
        }
        lines.join("\n")
    }
}

fn message_outcome(message: &[u8], seen: &Seen) -> (String, String) {
    let number = message[2] & 0x1F;
    let name = message_name(message[2]);
    match number {
        4 | 6 | 8 | 9 | 15 => (name, format!("result {}", seen.result())),
        11..=14 if seen.contents().iter().all(|&byte| byte == 0) => (name, "zeros".into()),
        11..=14 => (name, "contents".into()),
        _ => ("messages not built".into(), format!("result {}", seen.result())),
    }
}
