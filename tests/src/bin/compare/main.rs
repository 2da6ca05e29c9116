//! Holds the proved library against the second implementation and the sequent prover, on inputs from a fixed seed.

mod both;
mod certificates;
mod formulas;
mod hostile;
mod interface;
mod known;
mod texts;

use outside::random::Random;
use std::time::Instant;

/// What was compared.
#[derive(Debug, Default, PartialEq, Eq)]
pub struct Counts {
    calls: usize,
    known: usize,
    /// Known formulas that need more worlds or steps than there is room for.
    refused: usize,
    formulas: usize,
    sequents: usize,
    countermodels: usize,
    texts: usize,
    certificates: usize,
    hostile: usize,
    /// Hostile sheets that are right.
    accepted: usize,
}

/// So much there is to compare on the fixed seed: a list that shrank or a loop that ended early shows here.
const WANTED: Counts = Counts {
    calls: 2_275,
    known: 553,
    refused: 34,
    formulas: 28_600,
    sequents: 27_401,
    countermodels: 23_033,
    texts: 55_761,
    certificates: 93_152,
    hostile: 943,
    accepted: 397,
};

fn main() {
    let start = Instant::now();
    let mut counts = Counts::default();
    let mut random = Random::new(2024);
    interface::compare(&mut counts);
    known::compare(&mut counts);
    formulas::compare(&mut random, &mut counts);
    texts::compare(&mut random, &mut counts);
    certificates::compare(&mut random, &mut counts);
    hostile::compare(&mut random, &mut counts);
    assert_eq!(counts, WANTED, "what was compared");
    println!(
        "no difference: {} calls of other lengths and tasks, {} known formulas ({} refused), {} random formulas ({} by the \
         sequent prover, {} countermodels), {} texts, {} certificates, {} hostile ones ({} accepted) in {:.1} s",
        counts.calls,
        counts.known,
        counts.refused,
        counts.formulas,
        counts.sequents,
        counts.countermodels,
        counts.texts,
        counts.certificates,
        counts.hostile,
        counts.accepted,
        start.elapsed().as_secs_f64()
    );
}
