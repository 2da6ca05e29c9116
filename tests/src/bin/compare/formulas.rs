//! Random formulas of all sizes, and long ones that repeat their parts: both implementations, the sequent prover, and forcing in the
//! worlds shown.

use crate::both::{self, fail, word};
use crate::Counts;
use outside::certificate::write;
use outside::forcing::{counters, names_agree};
use outside::proved::{call, Task};
use outside::random::{formula, repeating, Random, Style};
use outside::report::Settled;
use outside::search::Verdict;
use outside::sequent::provable;

const SEQUENTS: usize = 2_000;

/// So many formulas with at least and at most so many connectives.
struct Group {
    count: usize,
    least: usize,
    most: usize,
    connectives: &'static [u8],
}

const GROUPS: [Group; 6] = [
    Group { count: 15_000, least: 0, most: 6, connectives: b"&|>=~" },
    Group { count: 8_000, least: 5, most: 14, connectives: b"&|>>=~" },
    Group { count: 1_500, least: 12, most: 30, connectives: b"&|>>=~" },
    Group { count: 500, least: 20, most: 40, connectives: b"&|>>=~&|" },
    Group { count: 300, least: 30, most: 60, connectives: b"&|>>~" },
    Group { count: 300, least: 15, most: 58, connectives: b">>>>~" },
];

pub fn compare(random: &mut Random, counts: &mut Counts) {
    for group in &GROUPS {
        for _ in 0..group.count {
            let style = Style {
                letters: 1 + random.below(6),
                connectives: group.connectives,
                falsehood: [0, 4, 12][random.below(3)],
                spaces: [0, 0, 3][random.below(3)],
                bare: [0, 1, 2, 4][random.below(4)],
            };
            let size = group.least + random.below(group.most - group.least + 1);
            settle(&formula(random, &style, size), counts);
        }
    }
    for _ in 0..3_000 {
        settle(&repeating(random), counts);
    }
}

fn settle(input: &[u8], counts: &mut Counts) {
    if let Ok(settled) = both::settle(input) {
        check(input, &settled, counts);
    }
    counts.formulas += 1;
}

/// The verdict beside the sequent prover and the tree of the formula; the certificate must be accepted.
fn check(input: &[u8], settled: &Settled, counts: &mut Counts) {
    let valid = settled.answer.verdict == Verdict::Valid;
    if let Some(provable) = provable(&settled.formula, SEQUENTS) {
        counts.sequents += 1;
        if provable != valid {
            let (found, wanted) = (word(valid), word(provable));
            fail("verdict", input, found.as_bytes(), wanted.as_bytes());
        }
    }
    if let Verdict::Refuted(worlds) = &settled.answer.verdict {
        counts.countermodels += 1;
        if !counters(&settled.formula, worlds) || !names_agree(&settled.formula, worlds) {
            let shown = call(Task::Settle, input);
            fail("countermodel", input, &shown, b"worlds that counter it");
        }
    }
    let judged = both::check(&write(&settled.problem, &settled.answer));
    let wanted = format!("accepted {}\n", word(valid));
    if judged != wanted {
        fail("own certificate", input, judged.as_bytes(), wanted.as_bytes());
    }
}
