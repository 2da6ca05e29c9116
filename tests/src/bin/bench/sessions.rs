//! Times sessions over hostile tables under a guard, in which every step of the search asks the same hard question.

use crate::scripts::{answers_to, time_of};
use outside::hostile::{parity_chains, pigeonholes, script_of, tseitin, Table};

/// Prints one table in milliseconds, a line for each session, which the program `session` reads once more than it is timed.
pub fn print_times() {
    println!("{:<42} {:>8} {:>8} {:>12}", "a session under a guard", "atoms", "steps", "milliseconds");
    print_time(&tseitin(16, 4, 1), 15);
    print_time(&tseitin(20, 4, 1), 11);
    print_time(&parity_chains(16, 4), 8);
    print_time(&pigeonholes(8, 6), 7);
}

fn print_time(table: &Table, steps: u8) {
    let problem = table.guarded(steps);
    let script = script_of(&problem);
    let steps_learned = answers_to(&script).lines().filter(|line| line.starts_with("step ")).count();
    assert_eq!(steps_learned, usize::from(steps), "{}", table.name);
    let milliseconds = time_of(&script).elapsed;
    println!("{:<42} {:>8} {steps:>8} {milliseconds:>12.3}", table.name, problem.atoms);
}
