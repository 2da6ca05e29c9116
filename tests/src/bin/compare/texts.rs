//! Texts that are no formulas, or at the limits: damaged formulas, random bytes.

use crate::both;
use crate::Counts;
use outside::random::Random;
use outside::texts::{damaged, drawn, limits, nested, with_every_connective, BYTES, CLOSE_TO_FORMULAS};

pub fn compare(random: &mut Random, counts: &mut Counts) {
    for input in limits() {
        settle(&input, counts);
    }
    // The scripts for `session` have every other byte there.
    let text = with_every_connective();
    for at in 0..text.len() {
        settle(&[&text[..at], b"\n", &text[at + 1..]].concat(), counts);
    }
    for _ in 0..20_000 {
        settle(&damaged(random), counts);
    }
    for _ in 0..20_000 {
        let length = random.below(14);
        settle(&drawn(random, CLOSE_TO_FORMULAS, length), counts);
    }
    for _ in 0..10_000 {
        settle(&nested(random), counts);
    }
    for _ in 0..5_000 {
        let length = random.below(60);
        let any: Vec<u8> = (0..length).map(|_| random.draw() as u8).collect();
        settle(&any, counts);
    }
    for _ in 0..300 {
        let length = 4_000 + random.below(200);
        settle(&drawn(random, BYTES, length), counts);
    }
}

fn settle(input: &[u8], counts: &mut Counts) {
    let _ = both::settle(input);
    counts.texts += 1;
}
