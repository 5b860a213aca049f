//! Measures the proved engine against the ordinary one, with its soundness test
//! and without it. What each engine replies is compared in every run that is
//! measured.
//!
//! ```text
//! speed                         ratios of times, a line for each kind of call
//! speed --quick                 every kind once, to compare the replies alone
//! speed --stack                 how deep the proved engine's functions go
//! speed --kinds                 the kinds: name, how often a run does it, what it does behind the
//!                               soundness test ('work' or 'nothing'), and in words
//! speed --count KIND ENGINE     one run behind a call of `counting_begins`
//! speed --count-tested KIND ENGINE
//!                               the same with one more soundness test in front of each call
//! speed --count-find PLACES:WHICH ENGINE
//!                               one search behind the mark, in a table of so many places, for the
//!                               first, the middle, the last or an absent instance
//! speed --count-find-tested PLACES:WHICH ENGINE
//!                               the same with one more soundness test in front of it
//! ```

mod engines;
mod finding;
mod kinds;
mod painted;
mod rounds;
mod states;
mod subject;

use std::collections::BTreeMap;
use std::process::ExitCode;

use engines::{Call, Engine};
use finding::Search;
use kinds::Kind;
use painted::Depth;
use rounds::{Effort, Ratio};
use states::State;
use subject::Subject;

const USAGE: &str = "usage: speed [--quick | --stack | --kinds | --count KIND ENGINE \
    | --count-tested KIND ENGINE | --count-find PLACES:WHICH ENGINE \
    | --count-find-tested PLACES:WHICH ENGINE]";

const WHOLE: Effort = Effort { rounds: 101, turns: 12 };
const QUICK: Effort = Effort { rounds: 1, turns: 1 };

fn main() -> ExitCode {
    let words: Vec<String> = std::env::args().skip(1).collect();
    let words: Vec<&str> = words.iter().map(String::as_str).collect();
    let done = match words[..] {
        [] => compare(),
        ["--quick"] => rounds::measure(&kinds::all(), QUICK).map(|_| ()),
        ["--stack"] => stack(),
        ["--kinds"] => list(),
        ["--count", kind, engine] => count(kind, engine, |subject, kind| {
            subject.run(kind);
        }),
        ["--count-tested", kind, engine] => count(kind, engine, Subject::run_tested),
        ["--count-find", search, engine] => count_find(search, engine, false),
        ["--count-find-tested", search, engine] => count_find(search, engine, true),
        _ => Err(USAGE.into()),
    };
    match done {
        Ok(()) => ExitCode::SUCCESS,
        Err(why) => {
            eprintln!("{why}");
            ExitCode::FAILURE
        }
    }
}

fn compare() -> Result<(), String> {
    let kinds = kinds::all();
    let measured = rounds::measure(&kinds, WHOLE)?;
    println!("{:58}{:>22}{:>22}", "", "ours / Rust checked", "ours / Rust unchecked");
    for (kind, ratios) in kinds.iter().zip(&measured) {
        let unchecked = if kind.does_work() { in_words(&ratios[1]) } else { "-".into() };
        println!("{:58}{:>22}{:>22}", kind.what, in_words(&ratios[0]), unchecked);
    }
    Ok(())
}

fn in_words(ratio: &Ratio) -> String {
    format!("{:.2} ({:.2} to {:.2})", ratio.median, ratio.low, ratio.high)
}

fn stack() -> Result<(), String> {
    for (function, bytes) in deepest() {
        println!("{function:22}{bytes:>6} bytes");
    }
    Ok(())
}

/// The deepest call of each exported function: power-on, what leads to each
/// state, and there the calls of every kind that meets it.
fn deepest() -> BTreeMap<&'static str, usize> {
    let kinds = kinds::all();
    let mut depths = vec![painted::store_size()];
    for state in State::ALL {
        let mut store = vec![0; Engine::Proved.store_size()];
        depths.push(painted::power_on(&mut store, state.product()));
        depths.extend(depths_of(&mut store, &state.calls()));
        for kind in kinds.iter().filter(|kind| kind.state == state) {
            depths.extend(depths_of(&mut store.clone(), &kind.calls));
        }
    }
    let mut deepest = BTreeMap::new();
    for depth in depths {
        let bytes = deepest.entry(depth.function).or_insert(0);
        *bytes = depth.bytes.max(*bytes);
    }
    deepest
}

fn depths_of(store: &mut [u8], calls: &[Call]) -> Vec<Depth> {
    calls.iter().map(|call| painted::call(store, call, &mut [0; 48])).collect()
}

fn list() -> Result<(), String> {
    for kind in kinds::all() {
        let behind = if kind.does_work() { "work" } else { "nothing" };
        println!("{} {} {behind} {}", kind.name, kind.times, kind.what);
    }
    Ok(())
}

fn count(kind: &str, engine: &str, run: fn(&mut Subject, &Kind)) -> Result<(), String> {
    let kinds = kinds::all();
    let kind: &Kind = kinds.iter().find(|one| one.name == kind).ok_or("no such kind")?;
    let mut subject = Subject::new(engine_named(engine)?)?;
    subject.prepare(kind);
    counting_begins();
    run(&mut subject, kind);
    subject.check_done(kind)
}

fn count_find(search: &str, engine: &str, tested: bool) -> Result<(), String> {
    Search::named(search)?.run(engine_named(engine)?, tested, || counting_begins())
}

fn engine_named(name: &str) -> Result<Engine, String> {
    Engine::ALL.into_iter().find(|one| one.name() == name).ok_or("no such engine".into())
}

/// A mark for whoever counts instructions: what came before is preparation.
#[no_mangle]
#[inline(never)]
extern "C" fn counting_begins() {
    std::hint::black_box(());
}
