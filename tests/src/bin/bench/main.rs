//! Times the proved library, the whole program `settle` and the second implementation side by side, formula by formula,
//! and prints one table in milliseconds; then calls on a session beside scripts of them, pages of goals beside single
//! questions, screenings, the checking of hostile sheets, and hostile sessions. The path of `settle` may be given as an argument.

mod calls;
mod clock;
mod pages;
mod screenings;
mod scripts;
mod sessions;
mod sets;
mod sheets;

use outside::program::{self, SETTLE};
use outside::proved::{call, Task};
use outside::report::{report, settle_text};
use std::process::exit;
use std::time::Instant;

const TURNS: usize = 5;

fn main() {
    let program = std::env::args().nth(1).unwrap_or(SETTLE.to_string());
    println!(
        "{:<30} {:>8} {:^26} {:^26} {:^26}",
        "milliseconds a formula", "", "proved library", "program", "second implementation"
    );
    let figures = format!("{:>8} {:>8} {:>8}", "median", "95 %", "worst");
    println!("{:<30} {:>8} {figures} {figures} {figures}", "", "formulas");
    let sets =
        [("random, of the usual size", sets::usual_size(300)), ("ILTP", sets::iltp()), ("patterns", sets::patterns())];
    let second = |formula: &[u8]| report(&settle_text(formula)).into_bytes();
    for (name, formulas) in &sets {
        let times = timed([&|f| call(Task::Settle, f), &|f| run(&program, f), &second], formulas);
        println!("{name:<30} {:>8} {}", formulas.len(), columns(&times));
    }
    println!();
    scripts::print_times();
    println!();
    pages::print_times(&sets);
    println!();
    screenings::print_times();
    println!();
    screenings::print_counts();
    println!();
    sheets::print_times();
    println!();
    sessions::print_times();
}

/// One way to what is printed of a formula.
type Side<'a> = &'a dyn Fn(&[u8]) -> Vec<u8>;

/// For each formula and side the best of some turns; a turn is all formulas on one side after the other, so that a slow
/// moment of the machine spoils one turn of a formula at most. The sides must agree.
fn timed<const SIDES: usize>(sides: [Side; SIDES], formulas: &[Vec<u8>]) -> Vec<[f64; SIDES]> {
    let wanted: Vec<Vec<u8>> = formulas.iter().map(|f| sides[SIDES - 1](f)).collect();
    let mut best = vec![[f64::INFINITY; SIDES]; formulas.len()];
    for turn in 0..TURNS * SIDES {
        let side = turn % SIDES;
        for (place, formula) in formulas.iter().enumerate() {
            let start = Instant::now();
            let printed = sides[side](formula);
            let milliseconds = start.elapsed().as_secs_f64() * 1e3;
            best[place][side] = best[place][side].min(milliseconds);
            if printed != wanted[place] {
                eprintln!("answers differ: {}", formula.escape_ascii());
                exit(1);
            }
        }
    }
    best
}

/// What the program prints of a formula on its standard input.
fn run(program: &str, formula: &[u8]) -> Vec<u8> {
    program::run(program, &[], &[formula, b"\n"].concat()).stdout
}

fn columns<const SIDES: usize>(times: &[[f64; SIDES]]) -> String {
    let side = |side: usize| column(&Vec::from_iter(times.iter().map(|times| times[side])));
    Vec::from_iter((0..SIDES).map(side)).join(" ")
}

fn column(figures: &[f64]) -> String {
    let [median, most, worst] = [50, 95, 100].map(|percent| at(percent, figures));
    format!("{median:>8.3} {most:>8.3} {worst:>8.3}")
}

/// So many percent of the figures are at most this one.
fn at(percent: usize, figures: &[f64]) -> f64 {
    let mut sorted = figures.to_vec();
    sorted.sort_by(f64::total_cmp);
    sorted[(sorted.len() - 1) * percent / 100]
}
