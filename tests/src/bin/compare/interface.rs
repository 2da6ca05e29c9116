//! The library's one function: every length of output up to what is needed, and all numbers that are no tasks.

use crate::both::{leaves, writes};
use crate::Counts;
use outside::certificate;
use outside::fork::screen_line;
use outside::proved::{Task, FIRST_UNKNOWN, NO_TASK};
use outside::report::{certified, report, settle_text};

const TEXTS: [&[u8]; 5] = [b"p>p", b"((p>q)>p)>p", b"p q", b"", b"0"];

pub fn compare(counts: &mut Counts) {
    for text in TEXTS {
        let outcome = settle_text(text);
        let sheet = certified(&outcome);
        each_room(Task::Settle, text, report(&outcome).as_bytes(), counts);
        each_room(Task::Certify, text, &sheet, counts);
        each_room(Task::Check, &sheet, certificate::verdict_line(&sheet).as_bytes(), counts);
        each_room(Task::Screen, text, screen_line(text).as_bytes(), counts);
        for room in 0..sheet.len() + 2 {
            leaves(Task::Length as u8, text, room, sheet.len());
            counts.calls += 1;
        }
        for task in FIRST_UNKNOWN..=255 {
            leaves(task, text, 64, NO_TASK);
            counts.calls += 1;
        }
    }
}

fn each_room(task: Task, input: &[u8], wanted: &[u8], counts: &mut Counts) {
    for room in 0..wanted.len() + 2 {
        writes(task, input, room, wanted);
        counts.calls += 1;
    }
}
