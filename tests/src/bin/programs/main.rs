//! Holds the built programs against the second implementation, on inputs from a fixed seed. The argument is an empty folder
//! for the sheets.

mod check_sheet;
mod generated_scripts;
mod random_scripts;
mod session;
mod settle;

use outside::random::Random;
use std::path::Path;
use std::process::{exit, Output};
use std::time::Instant;

const MOST_SHOWN: usize = 100;

/// How often each program was run and how many lines `session` had.
#[derive(Debug, PartialEq, Eq)]
struct Counts {
    settle: usize,
    check_sheet: usize,
    scripts: usize,
    lines: usize,
}

/// So much there is to compare on the fixed seed: a list that shrank or a loop that ended early shows here.
const WANTED: Counts = Counts { settle: 2_194, check_sheet: 750, scripts: 1_647, lines: 187_100 };

fn main() {
    let start = Instant::now();
    let Some(folder) = std::env::args_os().nth(1) else {
        eprintln!("usage: programs FOLDER");
        exit(2)
    };
    let mut random = Random::new(2025);
    let settle = settle::compare(&mut random, Path::new(&folder));
    let check_sheet = check_sheet::compare(&mut random);
    let session::Scripts { count: scripts, lines, tally } = session::compare(&mut random);
    assert_eq!(Counts { settle, check_sheet, scripts, lines }, WANTED, "what was compared");
    println!(
        "programs: no difference in {settle} runs of settle, {check_sheet} of check_sheet, {scripts} scripts with {lines} \
         lines of session, in {:.1} s",
        start.elapsed().as_secs_f64()
    );
    let met: Vec<String> = tally.iter().map(|(kind, count)| format!("{kind} {count}")).collect();
    println!("answers to the random scripts: {}", met.join(", "));
}

pub fn fail(what: &str, input: &[u8], found: &[u8], wanted: &[u8]) -> ! {
    let shown = |bytes: &[u8]| {
        let beginning = bytes[..bytes.len().min(MOST_SHOWN)].escape_ascii().to_string();
        format!("{} bytes: {beginning}", bytes.len())
    };
    eprintln!("different: {what}");
    eprintln!("input:  {}", shown(input));
    eprintln!("found:  {}", shown(found));
    eprintln!("wanted: {}", shown(wanted));
    exit(1)
}

/// The program printed this, told nothing on standard error and ended without a signal.
pub fn printed(what: &str, input: &[u8], output: &Output, wanted: &[u8]) {
    if output.stdout != wanted {
        fail(what, input, &output.stdout, wanted);
    }
    if !output.stderr.is_empty() {
        fail(&format!("{what}, standard error"), input, &output.stderr, b"");
    }
    if !output.status.success() {
        fail(&format!("{what}, its end"), input, output.status.to_string().as_bytes(), b"exit status: 0");
    }
}
