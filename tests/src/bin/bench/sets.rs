//! The formulas that are timed.

use outside::corpus::entries;
use outside::naming::problem_of;
use outside::random::{formula, Random, Style};
use outside::reader::read;
use std::iter;

/// Random formulas with three to six letters, 20 to 40 connectives and at most 64 atoms.
pub fn usual_size(count: usize) -> Vec<Vec<u8>> {
    drawn(3, 6).take(count).collect()
}

/// The same with one to three letters.
pub fn few_letters() -> impl Iterator<Item = Vec<u8>> {
    drawn(1, 3)
}

fn drawn(least_letters: usize, most_letters: usize) -> impl Iterator<Item = Vec<u8>> {
    let mut random = Random::new(300);
    let draw = move || {
        let letters = least_letters + random.below(most_letters - least_letters + 1);
        let style = Style { letters, connectives: b"&|>>=~&|", falsehood: 0, spaces: 0, bare: 0 };
        let size = 20 + random.below(21);
        formula(&mut random, &style, size)
    };
    iter::repeat_with(draw).filter(|text| read(text).is_ok())
}

/// Random formulas of three letters that imply themselves, with 64 atoms: they pass, so every assignment is tried.
pub fn most_screened(count: usize) -> Vec<Vec<u8>> {
    let mut random = Random::new(64);
    let draw = || {
        let style = Style { letters: 3, connectives: b"&|>>=~", falsehood: 12, spaces: 0, bare: 0 };
        let size = 50 + random.below(50);
        let part = formula(&mut random, &style, size);
        [b"(", &part[..], b")>(", &part, b")"].concat()
    };
    let is_full = |text: &Vec<u8>| read(text).is_ok_and(|formula| problem_of(&formula).atoms == 64);
    iter::repeat_with(draw).filter(is_full).take(count).collect()
}

pub fn iltp() -> Vec<Vec<u8>> {
    named("SYJ")
}

/// The formulas of the corpus whose names begin so.
fn named(beginning: &str) -> Vec<Vec<u8>> {
    let chosen = entries().filter(|entry| entry.name.starts_with(beginning));
    chosen.map(|entry| entry.text.into()).collect()
}

/// Many equal parts beside a small problem, which lead a search without backjumping into all their combinations; and
/// formulas that need many worlds or steps.
pub fn patterns() -> Vec<Vec<u8>> {
    let mut found = named("up to");
    for copies in 5..14 {
        for (part, between, times) in [
            ("(t=u)", "|", copies),
            ("(t|u)", "|", 2 * copies),
            ("(~t|u)", "|", copies),
            ("(t|u)", "&", 2 * copies),
            ("(t=~t)", "|", copies),
            ("((t>u)>t)", "|", copies),
        ] {
            let parts = vec![part; times].join(between);
            found.push(format!("(p|q)&(p=q)&({parts})>p&q").into_bytes());
            found.push(format!("({parts})>(p>q)|(q>p)").into_bytes());
        }
    }
    found.retain(|text| read(text).is_ok());
    found
}
