//! One input through both implementations; a difference ends the program.

use outside::certificate;
use outside::fork::screen_line;
use outside::proved::{call_into, Task, FIRST_UNKNOWN, NO_TASK, ROOM};
use outside::random::Random;
use outside::refusal::Refusal;
use outside::report::{certified, report, settle_text, Settled};
use std::process::exit;

const FILLER: u8 = 0xa5;

pub fn fail(what: &str, input: &[u8], proved: &[u8], wanted: &[u8]) -> ! {
    eprintln!("different: {what}");
    eprintln!("input:  {}", input.escape_ascii());
    eprintln!("proved: {}", proved.escape_ascii());
    eprintln!("wanted: {}", wanted.escape_ascii());
    exit(1)
}

pub fn word(valid: bool) -> &'static str {
    if valid {
        "valid"
    } else {
        "refuted"
    }
}

/// Compares all that the library gives of a text, and gives the outcome that both have.
pub fn settle(input: &[u8]) -> Result<Settled, Refusal> {
    let outcome = settle_text(input);
    let wanted = certified(&outcome);
    let mut random = seeded_by(input);
    gives(Task::Settle, input, report(&outcome).as_bytes(), &mut random);
    gives(Task::Certify, input, &wanted, &mut random);
    let room = random.below(wanted.len() + 2);
    leaves(Task::Length as u8, input, room, wanted.len());
    gives(Task::Screen, input, screen_line(input).as_bytes(), &mut random);
    unknown(input, &mut random);
    outcome
}

pub fn check(input: &[u8]) -> String {
    let wanted = certificate::verdict_line(input);
    gives(Task::Check, input, wanted.as_bytes(), &mut seeded_by(input));
    wanted
}

/// The task gives these bytes where there is room for every answer, and mostly nothing where there is less.
fn gives(task: Task, input: &[u8], wanted: &[u8], random: &mut Random) {
    writes(task, input, ROOM, wanted);
    let less = random.below(wanted.len());
    writes(task, input, *random.pick(&[0, less, wanted.len() - 1, wanted.len()]), wanted);
}

/// The output begins with `wanted` if there is room for it, and keeps its other bytes.
pub fn writes(task: Task, input: &[u8], room: usize, wanted: &[u8]) {
    let fitting = if wanted.len() <= room { wanted } else { &[] };
    compare(task as u8, input, room, fitting, fitting.len());
}

/// The task returns this and writes nothing.
pub fn leaves(task: u8, input: &[u8], room: usize, returned: usize) {
    compare(task, input, room, &[], returned);
}

/// A number that is no task.
fn unknown(input: &[u8], random: &mut Random) {
    let task = FIRST_UNKNOWN + random.below(256 - usize::from(FIRST_UNKNOWN)) as u8;
    leaves(task, input, random.below(64), NO_TASK);
}

fn compare(task: u8, input: &[u8], room: usize, wanted: &[u8], returned: usize) {
    let mut output = vec![FILLER; room];
    let length = call_into(task, input, &mut output);
    let (written, rest) = output.split_at(wanted.len());
    if length != returned || written != wanted || rest.iter().any(|&byte| byte != FILLER) {
        let what = format!("task {task} into {room} bytes returned {length}, wanted {returned}");
        let end = room - rest.iter().rev().take_while(|&&byte| byte == FILLER).count();
        fail(&what, input, &output[..end], wanted);
    }
}

/// Draws that depend on the input alone.
fn seeded_by(input: &[u8]) -> Random {
    Random::new(input.iter().fold(input.len() as u64, |sum, &byte| sum.wrapping_mul(257).wrapping_add(byte.into())))
}
