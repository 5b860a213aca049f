//! Drives the proved engine and the ordinary one with the same calls and says
//! where they differ.
//!
//! Without arguments every kind of test is run, each in a process of its own,
//! so that a fault in one engine is told like any other failure. The last line
//! is `N passed, M failed`, with one count for each kind.
//!
//! ```text
//! differential [--calls N] [--seed S] [--kind NAME]
//! differential --replay < run      takes the steps of a printed run again
//! ```

mod bench;
mod generator;
mod guarded;
mod kinds;
mod pair;
mod proved;
mod random;
mod run;
mod step;
mod trace;

use std::io::{BufRead, BufReader, Read, Write};
use std::process::{Command, ExitCode, Stdio};
use std::sync::atomic::Ordering;

use kinds::{Kind, Options};
use step::Step;

const USAGE: &str = "usage: differential [--calls N] [--seed S] [--kind NAME] | --replay";

/// How a process ends that found a failure and has told it. Every other end
/// but success is a fault.
const FAILED: u8 = 1;

struct Arguments {
    options: Options,
    kind: Option<String>,
    replays: bool,
    traces: bool,
}

fn main() -> ExitCode {
    let Some(arguments) = read_arguments(std::env::args().skip(1)) else {
        eprintln!("{USAGE}");
        return ExitCode::from(2);
    };
    if arguments.traces {
        trace::turn_on();
    }
    if arguments.replays {
        return replay();
    }
    match &arguments.kind {
        None => run_all(&arguments.options),
        Some(name) => match kinds::ALL.iter().find(|kind| kind.name == name) {
            Some(kind) => run_here(kind, &arguments.options),
            None => {
                let names: Vec<&str> = kinds::ALL.iter().map(|kind| kind.name).collect();
                eprintln!("no such kind; there are {}", names.join(", "));
                ExitCode::from(2)
            }
        },
    }
}

fn read_arguments(mut words: impl Iterator<Item = String>) -> Option<Arguments> {
    let mut arguments = Arguments {
        options: Options { calls: 200_000, seed: 20_261_115 },
        kind: None,
        replays: false,
        traces: false,
    };
    while let Some(word) = words.next() {
        match word.as_str() {
            "--calls" => arguments.options.calls = words.next()?.parse().ok()?,
            "--seed" => arguments.options.seed = words.next()?.parse().ok()?,
            "--kind" => arguments.kind = Some(words.next()?),
            "--replay" => arguments.replays = true,
            "--trace" => arguments.traces = true,
            _ => return None,
        }
    }
    Some(arguments)
}

/// Runs every kind in a process of its own.
fn run_all(options: &Options) -> ExitCode {
    let (mut passed, mut failed) = (0, 0);
    for kind in &kinds::ALL {
        if run_apart(kind, options) {
            passed += 1;
        } else {
            failed += 1;
        }
    }
    println!("{passed} passed, {failed} failed");
    if failed == 0 {
        ExitCode::SUCCESS
    } else {
        ExitCode::from(FAILED)
    }
}

fn run_apart(kind: &Kind, options: &Options) -> bool {
    let end = match this_program(kind, options).status() {
        Ok(end) => end,
        Err(error) => {
            println!("{}: FAILED, no process could be started: {error}", kind.name);
            return false;
        }
    };
    match end.code() {
        Some(0) => true,
        Some(code) if code == i32::from(FAILED) => false,
        _ => {
            println!("{}: FAILED, the process ended by a fault ({end})", kind.name);
            tell_fault(kind, options);
            false
        }
    }
}

fn this_program(kind: &Kind, options: &Options) -> Command {
    let mut command = myself();
    command
        .args(["--kind", kind.name])
        .args(["--calls", &options.calls.to_string()])
        .args(["--seed", &options.seed.to_string()]);
    command
}

fn myself() -> Command {
    Command::new(std::env::current_exe().expect("a program knows where it lies"))
}

/// Runs a kind again with a trace, to find the run that ends in the fault, and
/// prints it as short as it still does.
fn tell_fault(kind: &Kind, options: &Options) {
    let traced = this_program(kind, options).arg("--trace").stdout(Stdio::piped()).spawn();
    let Ok(mut child) = traced else {
        return;
    };
    let mut reader = trace::Reader::default();
    if let Some(out) = child.stdout.take() {
        for line in BufReader::new(out).lines().map_while(Result::ok) {
            reader.read(&line);
        }
    }
    // Only the trace matters: how the process ends is known already.
    let _ = child.wait();
    let steps = run::shrink(reader.run(), ends_in_fault);
    print!("{}", run::in_plain_lines(&steps));
}

/// Whether another process, given these steps, ends by a fault.
fn ends_in_fault(steps: &[Step]) -> bool {
    let started = myself()
        .arg("--replay")
        .stdin(Stdio::piped())
        .stdout(Stdio::null())
        .stderr(Stdio::null())
        .spawn();
    let Ok(mut child) = started else {
        return false;
    };
    if let Some(mut input) = child.stdin.take() {
        // A process that has ended already reads no more; its end is asked below.
        let _ = input.write_all(run::in_plain_lines(steps).as_bytes());
    }
    match child.wait() {
        Ok(end) => !matches!(end.code(), Some(0) | Some(1) | Some(2)),
        Err(_) => false,
    }
}

/// Runs a kind in this process.
fn run_here(kind: &Kind, options: &Options) -> ExitCode {
    let ended = (kind.test)(options);
    let calls = pair::CALLED.load(Ordering::Relaxed);
    let meter = pair::CALLED_AS_METER.load(Ordering::Relaxed);
    match ended {
        // Every kind goes over Meter, which is easily left out, since it
        // refuses much of what the others accept.
        Ok(_) if meter == 0 => {
            println!("{}: FAILED, no call was made of a Meter", kind.name);
            ExitCode::from(FAILED)
        }
        Ok(summary) => {
            println!(
                "{}: passed, {summary} (the proved engine was called {calls} times, {meter} of \
                 them as a Meter)",
                kind.name
            );
            ExitCode::SUCCESS
        }
        Err(failure) => {
            let failure = run::shrunk(failure);
            println!("{}: FAILED, {}", kind.name, failure.why);
            print!("{}", run::in_lines(&failure.steps));
            ExitCode::from(FAILED)
        }
    }
}

/// Takes the steps of a run from standard input.
fn replay() -> ExitCode {
    let mut text = String::new();
    if std::io::stdin().read_to_string(&mut text).is_err() {
        eprintln!("standard input can't be read");
        return ExitCode::from(2);
    }
    let mut steps = Vec::new();
    for line in text.lines().filter(|line| !line.trim().is_empty()) {
        match step::parse(line) {
            Some(step) => steps.push(step),
            None => {
                eprintln!("not a step: {line}");
                return ExitCode::from(2);
            }
        }
    }
    match run::replay(&steps) {
        Ok(()) => {
            print!("{}", run::in_lines(&steps));
            ExitCode::SUCCESS
        }
        Err(why) => {
            println!("FAILED, {why}");
            print!("{}", run::in_lines(&steps));
            ExitCode::from(FAILED)
        }
    }
}
