//! Times the checking of sheets over hostile tables: ⊥ as the goal, at once and after steps that each ask the same.

use outside::certificate::claiming;
use outside::hostile::{parity_chains, pigeonholes, tseitin, Table};
use outside::naming::{Implication, Problem, FALSE};
use outside::proved::{call, Task};
use outside::search::{Step, MOST_STEPS};
use std::time::Instant;

/// Prints one table in milliseconds, a line for each sheet, which is checked once.
pub fn print_times() {
    println!("{:<42} {:>8} {:>8} {:>12}", "checking a sheet", "atoms", "steps", "milliseconds");
    let tables = [tseitin(20, 4, 1), parity_chains(20, 1), pigeonholes(9, 7)];
    for table in &tables {
        print_time(&table.name, &table.problem(), 0);
    }
    let hardest = tseitin(32, 4, 4);
    print_time(&hardest.name, &hardest.problem(), 0);
    for table in &tables {
        print_time(&table.name, &with_implication(table), MOST_STEPS);
    }
}

/// With the implication (0 → ⊥) → x of a further atom x, which has no closing clause: a step that assumes nothing asks
/// whether the table proves ⊥, and then brings x alone.
fn with_implication(table: &Table) -> Problem {
    let mut problem = table.problem();
    problem.implications.push(Implication { a: 0, b: FALSE, c: problem.atoms });
    problem.atoms += 1;
    problem
}

fn print_time(name: &str, problem: &Problem, steps: usize) {
    let sheet = claiming(problem, vec![Step { implication: 0, assumed: 0 }; steps]);
    let start = Instant::now();
    let judged = call(Task::Check, &sheet);
    let milliseconds = start.elapsed().as_secs_f64() * 1e3;
    assert_eq!(judged, b"accepted valid\n", "{name}");
    println!("{name:<42} {:>8} {steps:>8} {milliseconds:>12.3}", problem.atoms);
}
