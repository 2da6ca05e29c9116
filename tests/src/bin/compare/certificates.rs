//! Damaged certificates: bytes changed, cut off and added, and whole rows changed under right contents.

use crate::both;
use crate::Counts;
use outside::certificate::write;
use outside::naming::{Flat, Implication, FALSE};
use outside::proved::{call, Task};
use outside::random::{bytes_changed, formula, Random, Style};
use outside::report::Settled;
use outside::search::{Step, Verdict};

const FORMULAS: [&str; 8] = ["p>p", "0", "0>0", "p|~p", "((p>q)>p)>p", "(p>q>r)>(p>q)>p>r", "~~(p|~p)", "(p=q)=(q=p)"];

pub fn compare(random: &mut Random, counts: &mut Counts) {
    for input in FORMULAS {
        let original = call(Task::Certify, input.as_bytes());
        each_byte(random, &original, counts);
        lengths(&original, counts);
    }
    for _ in 0..60 {
        let settled = random_settled(random);
        let original = write(&settled.problem, &settled.answer);
        lengths(&original, counts);
        for _ in 0..400 {
            judge(&bytes_changed(random, &original), counts);
        }
    }
    for _ in 0..1_500 {
        let settled = random_settled(random);
        for _ in 0..20 {
            judge(&rows_changed(random, &settled), counts);
        }
    }
    for _ in 0..5_000 {
        let length = random.below(90);
        let any: Vec<u8> = (0..length).map(|_| random.draw() as u8).collect();
        judge(&any, counts);
    }
    full_tables(counts);
}

fn judge(input: &[u8], counts: &mut Counts) {
    both::check(input);
    counts.certificates += 1;
}

fn random_settled(random: &mut Random) -> Settled {
    loop {
        let style = Style { letters: 1 + random.below(4), connectives: b"&|>>=~", falsehood: 9, spaces: 0, bare: 2 };
        let size = random.below(16);
        if let Ok(settled) = both::settle(&formula(random, &style, size)) {
            return settled;
        }
    }
}

fn each_byte(random: &mut Random, original: &[u8], counts: &mut Counts) {
    for at in 0..original.len() {
        let old = original[at];
        let other = random.draw() as u8;
        for byte in [old ^ 1, old ^ 2, old ^ 128, old.wrapping_add(1), 0, 255, other] {
            let mut changed = original.to_vec();
            changed[at] = byte;
            judge(&changed, counts);
        }
    }
}

fn lengths(original: &[u8], counts: &mut Counts) {
    for length in 0..=original.len() {
        judge(&original[..length], counts);
    }
    for more in 1..20 {
        judge(&[original, &vec![0; more]].concat(), counts);
    }
}

/// A list with one row repeated, taken out, moved to the end or put through `change`.
fn change_list<T: Copy>(random: &mut Random, rows: &mut Vec<T>, change: impl Fn(&mut T, u64)) {
    if rows.is_empty() {
        return;
    }
    let at = random.below(rows.len());
    let row = rows[at];
    match random.below(5) {
        0 => rows.push(row),
        1 => drop(rows.remove(at)),
        2 => {
            rows.remove(at);
            rows.push(row);
        }
        _ => change(&mut rows[at], random.draw()),
    }
}

fn rows_changed(random: &mut Random, settled: &Settled) -> Vec<u8> {
    let mut problem = settled.problem.clone();
    let mut answer = settled.answer.clone();
    let bit = |n: u64| 1 << (n % u64::from(settled.problem.atoms));
    let atom = |n: u64| [n as u8 % settled.problem.atoms, FALSE][usize::from(n >> 60 == 0)];
    for _ in 0..1 + random.below(3) {
        match random.below(8) {
            0 => problem.goal = atom(random.draw()),
            1 => problem.atoms = problem.atoms.wrapping_add(random.below(3) as u8).wrapping_sub(1),
            2 => change_list(random, &mut problem.flats, |f, n| f.left ^= bit(n)),
            3 => change_list(random, &mut problem.flats, |f, n| f.right ^= bit(n)),
            4 => change_list(random, &mut problem.implications, |i, n| match n >> 32 & 3 {
                0 => i.a = n as u8 % settled.problem.atoms,
                1 => i.b = atom(n),
                _ => i.c = atom(n),
            }),
            _ => match &mut answer.verdict {
                Verdict::Valid => change_list(random, &mut answer.steps, |s, n| match n >> 32 & 3 {
                    0 => s.implication = n as u8 % 8,
                    _ => s.assumed ^= bit(n),
                }),
                Verdict::Refuted(worlds) => change_list(random, worlds, |w, n| *w ^= bit(n)),
            },
        }
    }
    write(&problem, &answer)
}

/// Each table at its limit, one row over and far over.
fn full_tables(counts: &mut Counts) {
    let flat = Flat { left: 1, right: 1 };
    let implication = Implication { a: 0, b: FALSE, c: FALSE };
    let step = Step { implication: 0, assumed: 1 };
    for over in [0, 1, 5_000] {
        let valid = both::settle(b"p>p").expect("p>p");
        let refuted = both::settle(b"p").expect("p");
        for settled in [valid, refuted] {
            let Settled { problem, answer, .. } = settled;
            let mut wide = problem.clone();
            wide.flats.resize(512 + over, flat);
            judge(&write(&wide, &answer), counts);
            let mut wide = problem.clone();
            wide.implications.resize(128 + over, implication);
            judge(&write(&wide, &answer), counts);
            let mut long = answer.clone();
            long.steps.resize(512 + over, step);
            if let Verdict::Refuted(worlds) = &mut long.verdict {
                worlds.extend(1..256 + over as u64);
            }
            judge(&write(&problem, &long), counts);
            let mut wide = problem.clone();
            wide.atoms = 64;
            judge(&write(&wide, &long), counts);
        }
    }
}
