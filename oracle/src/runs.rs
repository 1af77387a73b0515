//! Random lists one after another, until there are calls enough or one fails.

use crate::compare::{self, Run};
use crate::coverage::Coverage;
use crate::generate::{List, Widths};
use crate::random::Random;
use crate::script::Step;
use crate::server::Server;
use std::fs::File;
use std::io::{self, Seek, Write};

/// A list that failed: its steps, and what was wrong in the last of them.
pub struct Failure {
    pub steps: Vec<Step>,
    pub wrong: String,
}

impl Failure {
    /// The list as a script, shortened.
    pub fn script(&self, reference: &dyn Server, tested: &dyn Server) -> String {
        let steps = compare::shortened(reference, tested, &self.steps);
        let mut text = String::from(
            "# run again with: differ --replay FILE, and --before where that was the reference\n",
        );
        for step in &steps {
            text += &format!("{step}\n");
        }
        if let Some((_, wrong)) = compare::first_fault(reference, tested, &steps) {
            text += &format!("# {wrong}\n");
        }
        text
    }
}

/// The list that is being run, written out step by step before each step, so
/// that it is there even if the tested program ends the run.
pub struct Trace(pub File);

impl Trace {
    fn restart(&mut self) -> io::Result<()> {
        self.0.set_len(0)?;
        self.0.rewind()
    }

    fn step(&mut self, step: &Step) -> io::Result<()> {
        writeln!(self.0, "{step}")
    }
}

pub fn random_lists(
    reference: &dyn Server,
    tested: &dyn Server,
    widths: Widths,
    seed: u64,
    calls: u64,
    mut trace: Option<Trace>,
) -> (Coverage, Option<Failure>) {
    let mut seeds = Random::new(seed);
    let mut run = Run::new(reference, tested);
    while run.coverage.calls < calls {
        let mut list = List::new(seeds.number(), widths);
        let mut steps = Vec::new();
        if let Some(trace) = &mut trace {
            trace.restart().expect("the trace can be written");
        }
        while let Some(step) = list.next(run.tally(), run.table(), run.told()) {
            if let Some(trace) = &mut trace {
                trace.step(&step).expect("the trace can be written");
            }
            let outcome = run.step(&step);
            steps.push(step);
            if let Err(wrong) = outcome {
                return (run.coverage, Some(Failure { steps, wrong }));
            }
        }
    }
    (run.coverage, None)
}
