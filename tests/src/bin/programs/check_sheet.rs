//! The program `check_sheet`: what it prints of sheets, damaged sheets and long ones.

use crate::printed;
use outside::certificate::{claiming, verdict_line, write};
use outside::corpus::entries;
use outside::naming::{Flat, Implication, Problem, FALSE};
use outside::program::{run, run_in_pieces, CHECK_SHEET};
use outside::random::{bytes_changed, Random};
use outside::report::{certified, settle_text};
use outside::search::{Answer, Step, Verdict};

/// Gives how often the program was run.
pub fn compare(random: &mut Random) -> usize {
    let mut runs = 0;
    let mut judge = |what: &str, input: &[u8]| {
        printed(what, input, &run(CHECK_SHEET, &[], input), verdict_line(input).as_bytes());
        runs += 1;
    };
    let known = entries().step_by(2);
    let sheets: Vec<Vec<u8>> = known.map(|entry| certified(&settle_text(entry.text.as_bytes()))).collect();
    for sheet in &sheets {
        judge("check_sheet", sheet);
        judge("check_sheet, a damaged sheet", &bytes_changed(random, sheet));
    }
    for sheet in sheets.iter().step_by(12) {
        let cut = random.below(sheet.len());
        judge("check_sheet, a sheet cut off", &sheet[..cut]);
        judge("check_sheet, a sheet cut off", &sheet[..sheet.len() - 1]);
        judge("check_sheet, a byte more", &[sheet, &b"\n"[..]].concat());
    }
    for length in [0, 1, 36, 37, 39, 5_000, 70_000] {
        judge("check_sheet, no sheet", &vec![4; length]);
        judge("check_sheet, no sheet", b"p>p\n".repeat(length).as_slice());
    }
    for sheet in full_tables() {
        judge("check_sheet, tables about full", &sheet);
    }
    let pieces = run_in_pieces(CHECK_SHEET, &[], &sheets[0], 7);
    printed("check_sheet, input in pieces", &sheets[0], &pieces, verdict_line(&sheets[0]).as_bytes());
    for sheet in long() {
        judge("check_sheet, a long sheet", &sheet);
    }
    runs + 1
}

const FLAT: Flat = Flat { left: 1, right: 1 };
const IMPLICATION: Implication = Implication { a: 0, b: FALSE, c: FALSE };
const STEP: Step = Step { implication: 0, assumed: 1 };

/// A refuted sheet of one atom with so many rows, in a right layout.
fn refuted(flats: usize, implications: usize, worlds: usize) -> Vec<u8> {
    let problem =
        Problem { atoms: 1, flats: vec![FLAT; flats], implications: vec![IMPLICATION; implications], goal: FALSE };
    write(&problem, &Answer { verdict: Verdict::Refuted(vec![0; worlds]), steps: Vec::new(), questions: 0 })
}

fn valid(flats: usize, implications: usize, steps: usize) -> Vec<u8> {
    let problem =
        Problem { atoms: 1, flats: vec![FLAT; flats], implications: vec![IMPLICATION; implications], goal: FALSE };
    claiming(&problem, vec![STEP; steps])
}

fn full_tables() -> Vec<Vec<u8>> {
    vec![
        refuted(512, 128, 256),
        refuted(513, 128, 256),
        refuted(512, 129, 256),
        refuted(512, 128, 257),
        valid(512, 128, 512),
        valid(513, 128, 512),
        valid(512, 129, 512),
        valid(512, 128, 513),
    ]
}

/// A sheet of this length in a right layout: the implications make up what is over a multiple of 8.
fn of_length(length: usize) -> Vec<u8> {
    let rows = length - 39;
    let implications = 3 * rows % 8;
    let rest = (rows - 3 * implications) / 8;
    let worlds = 2 - rest % 2;
    let sheet = refuted((rest - worlds) / 2, implications, worlds);
    assert_eq!(sheet.len(), length);
    sheet
}

/// Sheets longer than a program holds at once; the layout is judged to the last byte before any number is.
fn long() -> Vec<Vec<u8>> {
    let flats = refuted(4_200, 0, 1);
    assert!(flats.len() > 65_536 && verdict_line(&flats) == "refused 14\n");
    let longer = [&flats[..], &[0]].concat();
    assert_eq!(verdict_line(&longer), "refused 13\n");
    let mut all = vec![flats.clone(), longer];
    all.extend([refuted(0, 22_000, 1), refuted(0, 0, 9_000), valid(0, 1, 8_000), valid(5_000, 22_000, 8_000)]);
    for length in [16_383, 16_384, 16_385, 65_535, 65_536, 65_537, 131_072] {
        let sheet = of_length(length);
        all.push(sheet[..length - 1].to_vec());
        all.push([&sheet[..], &[0]].concat());
        all.push(sheet);
    }
    for at in 0..37 {
        let mut changed = flats.clone();
        changed[at] ^= 1 << (at % 8);
        all.push(changed);
        let mut changed = flats.clone();
        changed[at] = 255;
        all.push(changed);
    }
    all
}
