//! Times lists of calls: made by the proved library, and read by the program `session` as a script.

use crate::calls::{self, Calls, CALLS};
use crate::clock::{Time, Whose};
use crate::TURNS;
use outside::program::SESSION;
use std::fs::{self, File};
use std::process::{exit, Command, Stdio};

const SCRIPT: &str = concat!(env!("CARGO_MANIFEST_DIR"), "/../target/bench/script");
const ANSWERS: &str = concat!(env!("CARGO_MANIFEST_DIR"), "/../target/bench/answers");

/// Prints one table in milliseconds, a line for each list.
pub fn print_times() {
    let title = format!("milliseconds for {CALLS} calls");
    println!("{title:<42} {:>8} {:^39} {:^39}", "", "elapsed", "processor time");
    let figures = format!("{:>8} {:>8} {:>5} {:>8} {:>5}", "calls", "script", "ratio", "to file", "ratio");
    println!("{:<42} {:>8} {figures}  {figures}", "", "refused");
    let lists = [
        ("flat clauses, 500 to a session", calls::flat_clauses()),
        ("questions to a small session", calls::questions()),
        ("20 clauses, 5 implications, 10 questions", calls::mixed()),
        ("the clauses of a formula, one question", calls::formulas()),
    ];
    for (name, list) in lists {
        let refused = list.make();
        let times = timed(&list, refused);
        let (elapsed, processor) = (columns(times.map(|t| t.elapsed)), columns(times.map(|t| t.processor)));
        println!("{name:<42} {refused:>8} {elapsed}  {processor}");
    }
}

fn columns([calls, script, to_file]: [f64; 3]) -> String {
    format!("{calls:>8.1} {script:>8.1} {:>5.2} {to_file:>8.1} {:>5.2}", script / calls, to_file / calls)
}

/// The best of some turns of each side, in alternation: the calls, the program with its answers thrown away, and with its
/// answers to a file. All must refuse as many calls.
fn timed(list: &Calls, refused: usize) -> [Time; 3] {
    fs::write(SCRIPT, &list.script).expect("a script");
    let mut best = [Time::LONGEST; 3];
    for _ in 0..TURNS {
        let file = File::create(ANSWERS).expect("a file for the answers");
        let turn = [
            Time::of(Whose::Own, || agree(list.make(), refused)),
            Time::of(Whose::Children, || run(Stdio::null())),
            Time::of(Whose::Children, || run(file.into())),
        ];
        agree(refused_lines(), refused);
        for (best, time) in best.iter_mut().zip(turn) {
            *best = best.best(time);
        }
    }
    best
}

fn run(output: Stdio) {
    let script = File::open(SCRIPT).expect("the script");
    let status = Command::new(SESSION).stdin(script).stdout(output).status();
    if !status.is_ok_and(|status| status.success()) {
        eprintln!("{SESSION} fails");
        exit(2);
    }
}

/// How long the program takes with a script, its answers thrown away.
pub fn time_of(script: &str) -> Time {
    fs::write(SCRIPT, script).expect("a script");
    Time::of(Whose::Children, || run(Stdio::null()))
}

pub fn answers_to(script: &str) -> String {
    fs::write(SCRIPT, script).expect("a script");
    run(File::create(ANSWERS).expect("a file for the answers").into());
    fs::read_to_string(ANSWERS).expect("the answers")
}

fn refused_lines() -> usize {
    let answers = fs::read_to_string(ANSWERS).expect("the answers");
    answers.lines().filter(|line| line.starts_with("refused")).count()
}

fn agree(refused: usize, wanted: usize) {
    if refused != wanted {
        eprintln!("{refused} calls are refused on one side, {wanted} on the other");
        exit(1);
    }
}
