//! The formulas of `formulas.txt`, whose verdicts are known.

use crate::both::{self, fail, word};
use crate::Counts;
use outside::corpus::entries;
use outside::search::Verdict;

pub fn compare(counts: &mut Counts) {
    for entry in entries() {
        counts.known += 1;
        let valid = match both::settle(entry.text.as_bytes()) {
            Ok(settled) => settled.answer.verdict == Verdict::Valid,
            Err(refusal) if [11, 12].contains(&refusal.number) => {
                counts.refused += 1;
                continue;
            }
            Err(refusal) => {
                let line = refusal.to_string();
                fail(entry.name, entry.text.as_bytes(), line.as_bytes(), b"a verdict")
            }
        };
        if valid != entry.valid {
            let (found, wanted) = (word(valid), word(entry.valid));
            fail(entry.name, entry.text.as_bytes(), found.as_bytes(), wanted.as_bytes());
        }
    }
}
