//! Measuring in rounds: in each, all engines make the same calls in turn, so
//! that whatever slows the computer down for a while slows all of them. Of an
//! engine's turns in a round the fastest counts: in the others something else
//! may have had the computer.

use crate::engines::Engine;
use crate::kinds::Kind;
use crate::subject::Subject;

const ENGINES: usize = Engine::ALL.len();

/// How much is measured.
#[derive(Clone, Copy)]
pub struct Effort {
    pub rounds: usize,
    /// How often every engine makes a kind's calls in a round.
    pub turns: usize,
}

/// A ratio over the rounds: the middle one, and the range of the middle eight
/// tenths.
pub struct Ratio {
    pub median: f64,
    pub low: f64,
    pub high: f64,
}

/// The proved engine's time by that of each other engine, for every kind.
pub fn measure(kinds: &[Kind], effort: Effort) -> Result<Vec<Vec<Ratio>>, String> {
    let mut subjects = Subject::all()?;
    let mut times = vec![Vec::with_capacity(effort.rounds); kinds.len()];
    for _ in 0..effort.rounds {
        for (kind, times) in kinds.iter().zip(&mut times) {
            times.push(round(&mut subjects, kind, effort.turns)?);
        }
    }
    Ok(times.iter().map(|times| (1..ENGINES).map(|other| ratio(times, other)).collect()).collect())
}

/// How long each engine took in its fastest turn, in seconds. Another engine
/// begins each turn, and after each turn the replies are compared.
fn round(subjects: &mut [Subject], kind: &Kind, turns: usize) -> Result<[f64; ENGINES], String> {
    let mut times = [f64::INFINITY; ENGINES];
    for turn in 0..turns {
        for step in 0..ENGINES {
            let at = (turn + step) % ENGINES;
            subjects[at].prepare(kind);
            times[at] = times[at].min(subjects[at].run(kind).as_secs_f64());
        }
        for subject in &*subjects {
            subject.check_done(kind)?;
            subject.check_same(kind, &subjects[0])?;
        }
    }
    Ok(times)
}

fn ratio(times: &[[f64; ENGINES]], other: usize) -> Ratio {
    let mut ratios: Vec<f64> = times.iter().map(|round| round[0] / round[other]).collect();
    ratios.sort_by(f64::total_cmp);
    let at = |tenths: usize| ratios[(ratios.len() - 1) * tenths / 10];
    Ratio { median: at(5), low: at(1), high: at(9) }
}
