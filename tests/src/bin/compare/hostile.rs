//! Sheets over small hostile tables, whole and with a clause taken out: without steps, and with steps that are right or wrong.

use crate::both;
use crate::Counts;
use outside::certificate::claiming;
use outside::hostile::{small, Table};
use outside::naming::{Implication, Problem, FALSE};
use outside::random::Random;
use outside::search::Step;

pub fn compare(random: &mut Random, counts: &mut Counts) {
    for table in small() {
        judge(&claiming(&table.problem(), Vec::new()), counts);
        for _ in 0..40 {
            judge(&drawn(random, &table), counts);
        }
    }
}

fn judge(input: &[u8], counts: &mut Counts) {
    let line = both::check(input);
    counts.hostile += 1;
    counts.accepted += usize::from(line.starts_with("accepted"));
}

/// A sheet of the table, mostly without one of its clauses, with some implications and up to six steps.
fn drawn(random: &mut Random, table: &Table) -> Vec<u8> {
    let mut problem = table.problem();
    if !random.one_in(3) {
        problem.flats.swap_remove(random.below(table.rows.len()));
    }
    for _ in 0..3 {
        add_implication(random, &mut problem);
    }
    let count = random.below(7);
    let steps = (0..count).map(|_| step(random, &problem)).collect();
    claiming(&problem, steps)
}

fn add_implication(random: &mut Random, problem: &mut Problem) {
    let atoms = usize::from(problem.atoms);
    let mut atom_or_false = || if random.one_in(4) { FALSE } else { random.below(atoms) as u8 };
    let (b, c) = (atom_or_false(), atom_or_false());
    let implication = Implication { a: random.below(atoms) as u8, b, c };
    problem.flats.extend(implication.closing());
    problem.implications.push(implication);
}

/// Any of the implications, and about one atom in eight.
fn step(random: &mut Random, problem: &Problem) -> Step {
    let implication = random.below(problem.implications.len()) as u8;
    let all = u64::MAX >> (64 - problem.atoms);
    Step { implication, assumed: random.draw() & random.draw() & random.draw() & all }
}
