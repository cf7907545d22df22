//! Made-up calls of every exported function, as many as time allows, each made of the library and of the
//! [`second`](crate::second) implementation. A case follows from the seed and its own number alone, so that
//! any one of them can be run again.

mod chains;
mod difference;
mod entries;
mod entry;
mod pipes;
mod run;
mod streams;
mod tally;
mod trial;

pub use difference::Difference;
pub use entry::{entries, Entry, Listed, Visitor};
pub use run::Run;
pub use tally::Tally;

use crate::rng::Rng;
use chains::CHAINS;
use difference::{caught, Fault};
use entry::Aim;
use trial::Trial;

/// How often each chain comes in a round.
const CHAIN_SHARE: usize = 4;

/// How a case ends.
type Verdict = Result<(), Fault>;

/// A kind of case, and how often it comes in a round.
struct Kind {
    times: usize,
    run: Box<dyn Fn(&mut Trial) -> Verdict>,
}

/// The cases of a seed. They come in rounds, and a round begins with one case of each kind.
pub struct Fuzz {
    seed: u64,
    entries: Vec<Listed>,
    kinds: Vec<Kind>,
    round: Vec<usize>,
}

/// What came of a case.
pub struct Outcome {
    /// The functions that were called, each with the number that it gave.
    pub calls: Vec<(&'static str, u8)>,
    pub difference: Option<Difference>,
}

impl Fuzz {
    /// Calls of all exported functions, alone and in chains.
    pub fn new(seed: u64) -> Fuzz {
        let entries = entries();
        let mut kinds = calls_of(&entries);
        kinds.extend(CHAINS.map(|chain| Kind {
            times: CHAIN_SHARE,
            run: Box::new(chain),
        }));
        Fuzz::of(seed, &entries, kinds)
    }

    /// Calls of these functions, alone.
    pub fn over(seed: u64, entries: &[Listed]) -> Fuzz {
        Fuzz::of(seed, entries, calls_of(entries))
    }

    fn of(seed: u64, entries: &[Listed], kinds: Vec<Kind>) -> Fuzz {
        let most = kinds.iter().map(|kind| kind.times).max().unwrap_or(0);
        let round = (0..most).flat_map(|turn| {
            let due = |index: &usize| turn < kinds[*index].times;
            (0..kinds.len()).filter(due).collect::<Vec<usize>>()
        });
        Fuzz {
            seed,
            entries: entries.to_vec(),
            round: round.collect(),
            kinds,
        }
    }

    /// The case of this number.
    pub fn case(&self, number: u64) -> Outcome {
        let place = (number % self.round.len() as u64) as usize;
        let run = &self.kinds[self.round[place]].run;
        let mut trial = Trial::new(case_rng(self.seed, number));
        let verdict = caught(|| run(&mut trial))
            .unwrap_or_else(|panic| Err(Fault::of_case(format!("it panics: {panic}"))));
        let difference = verdict.err().map(|fault| Difference {
            seed: self.seed,
            case: number,
            fault,
        });
        Outcome {
            calls: trial.calls,
            difference,
        }
    }
}

/// Of each entry as many calls that are accepted, and as many that are open, as are aimed at a rule; and some that
/// are made twice.
fn calls_of(entries: &[Listed]) -> Vec<Kind> {
    let kinds = entries.iter().flat_map(|entry| {
        let (rules, share, run) = (entry.order.len(), entry.share, entry.run);
        let others = [Aim::Accepted, Aim::Open].map(|aim| (share * rules, aim));
        let aimed = (0..rules).map(move |rule| (share, Aim::Rule(rule)));
        others
            .into_iter()
            .chain([(share, Aim::Again)])
            .chain(aimed)
            .map(move |(times, aim)| Kind {
                times,
                run: Box::new(move |trial| run(trial, aim)),
            })
    });
    kinds.collect()
}

/// One draw of each number, so that neighbouring cases, and those of neighbouring seeds, share nothing.
fn case_rng(seed: u64, case: u64) -> Rng {
    let [seed, case] = [seed, case].map(|number| Rng::new(number).next_u64());
    Rng::new(seed ^ case.rotate_left(32))
}
