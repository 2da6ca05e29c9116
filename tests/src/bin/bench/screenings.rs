//! Times screenings: the proved library beside the second implementation; and counts the refuted formulas that fall.

use crate::{columns, sets, timed};
use outside::corpus::entries;
use outside::fork::{screen, screen_line};
use outside::proved::{call, call_into, Task};

/// Longer than the line of any screening.
const ROOM: usize = 32;

/// Prints one table in microseconds.
pub fn print_times() {
    println!("{:<42} {:>8} {:^26} {:^26}", "microseconds a screening", "", "proved library", "second implementation");
    let figures = format!("{:>8} {:>8} {:>8}", "median", "95 %", "worst");
    println!("{:<42} {:>8} {figures} {figures}", "", "formulas");
    let known = entries().map(|entry| entry.text.into()).filter(|text: &Vec<u8>| screen(text).is_ok());
    let lists = [
        ("random, one to three letters", sets::few_letters().take(300).collect()),
        ("known, at most three letters", known.collect()),
        ("64 atoms, passing with three letters", sets::most_screened(20)),
    ];
    for (name, formulas) in lists {
        let milliseconds = timed([&proved, &|formula| screen_line(formula).into_bytes()], &formulas);
        let microseconds = Vec::from_iter(milliseconds.iter().map(|times| times.map(|time| 1e3 * time)));
        println!("{name:<42} {:>8} {}", formulas.len(), columns(&microseconds));
    }
}

fn proved(formula: &[u8]) -> Vec<u8> {
    let mut line = [0; ROOM];
    let length = call_into(Task::Screen as u8, formula, &mut line);
    line[..length].to_vec()
}

/// Prints how many refuted formulas fall, pass, or have too many letters to be screened.
pub fn print_counts() {
    println!("{:<42} {:>8} {:>8} {:>8} {:>8}", "refuted formulas", "formulas", "fall", "pass", "refused");
    let is_refuted = |text: &Vec<u8>| call(Task::Settle, text).starts_with(b"refuted");
    print_count("random, one to three letters", sets::few_letters().filter(is_refuted).take(1_000));
    print_count("known", entries().filter(|entry| !entry.valid).map(|entry| entry.text.into()));
}

fn print_count(name: &str, refuted: impl Iterator<Item = Vec<u8>>) {
    let lines = Vec::from_iter(refuted.map(|text| proved(&text)));
    let count = |word: &str| lines.iter().filter(|line| line.starts_with(word.as_bytes())).count();
    let [fall, pass, refused] = ["falls", "passes", "refused"].map(count);
    println!("{name:<42} {:>8} {fall:>8} {pass:>8} {refused:>8}", lines.len());
}
