//! Case after case, and what came of them.

use super::{Difference, Fuzz, Tally};
use std::fmt::{self, Display, Formatter};

/// A run up to its end or to the first difference.
pub struct Run {
    pub seed: u64,
    pub cases: u64,
    pub tally: Tally,
    pub difference: Option<Difference>,
}

impl Fuzz {
    /// Runs one case of each kind, and then as long as `more` says so when told the number of cases.
    pub fn run(&self, mut more: impl FnMut(u64) -> bool) -> Run {
        let mut run = Run {
            seed: self.seed,
            cases: 0,
            tally: Tally::new(&self.entries),
            difference: None,
        };
        let each = self.kinds.len() as u64;
        while run.difference.is_none() && (run.cases < each || more(run.cases)) {
            let outcome = self.case(run.cases);
            run.cases += 1;
            run.tally.add(&outcome.calls);
            run.difference = outcome.difference;
        }
        run
    }
}

impl Run {
    /// No difference, and every number that a function can give.
    pub fn is_well(&self) -> bool {
        self.difference.is_none() && self.tally.never_met().is_empty()
    }
}

impl Display for Run {
    fn fmt(&self, to: &mut Formatter) -> fmt::Result {
        let (cases, seed, calls) = (self.cases, self.seed, self.tally.calls());
        write!(to, "{}", self.tally)?;
        writeln!(to, "{cases} cases of seed {seed}, {calls} calls")?;
        if let Some(difference) = &self.difference {
            return writeln!(to, "{difference}");
        }
        for (name, number) in self.tally.never_met() {
            writeln!(to, "NEVER REACHED: {name} gave no {number}")?;
        }
        writeln!(to, "no difference")
    }
}
