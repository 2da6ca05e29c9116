//! The program `settle`: what it prints, and the sheet that it writes to a file.

use crate::{fail, printed};
use outside::corpus::entries;
use outside::program::{run, run_in_pieces, SETTLE};
use outside::random::{formula, repeating, Random, Style};
use outside::report::{certified, report, settle_text};
use outside::texts::{damaged, drawn, limits, nested, BYTES};
use std::ffi::OsString;
use std::fs;
use std::path::{Path, PathBuf};

const ENDINGS: [&[u8]; 3] = [b"", b"\n", b"\n\n"];
const NAME: &str = "sheet";
const OLD: &[u8] = &[b'o'; 20_000];

/// Gives how often the program was run.
pub fn compare(random: &mut Random, folder: &Path) -> usize {
    let mut program = Settle { file: folder.join(NAME), folder: folder.to_path_buf(), runs: 0 };
    for text in texts(random) {
        let input = [&text[..], *random.pick(&ENDINGS)].concat();
        program.settles(&input, random.one_in(2));
    }
    for text in at_the_limit() {
        for ending in ENDINGS {
            program.settles(&[&text[..], ending].concat(), true);
        }
    }
    program.prints_in_pieces(b"((p>q)>p)>p\n", 1);
    program.prints_in_pieces(b"p>p\n\n", 4);
    program.prints_in_pieces(&[&[b' '; 4_095][..], b"p\n"].concat(), 1_000);
    program.prints_in_pieces(&[b' '; 9_000], 1_500);
    program.runs
}

struct Settle {
    folder: PathBuf,
    file: PathBuf,
    runs: usize,
}

impl Settle {
    /// What is printed without a file and with one, which is there before or not. A refused text writes no sheet.
    fn settles(&mut self, input: &[u8], old: bool) {
        let outcome = settle_text(without_newline(input));
        let report = report(&outcome);
        printed("settle", input, &run(SETTLE, &[], input), report.as_bytes());
        if old {
            fs::write(&self.file, OLD).expect("an old file");
        }
        printed("settle with a file", input, &run(SETTLE, &[self.file.as_os_str()], input), report.as_bytes());
        let sheet = match outcome {
            Ok(_) => Some(certified(&outcome)),
            Err(_) => old.then(|| OLD.to_vec()),
        };
        self.holds(input, sheet);
        self.runs += 2;
    }

    fn prints_in_pieces(&mut self, input: &[u8], size: usize) {
        let wanted = report(&settle_text(without_newline(input)));
        printed("settle, input in pieces", input, &run_in_pieces(SETTLE, &[], input, size), wanted.as_bytes());
        self.runs += 1;
    }

    /// The folder holds a file with these bytes, or none, and no other; then it is removed.
    fn holds(&self, input: &[u8], sheet: Option<Vec<u8>>) {
        let entries = fs::read_dir(&self.folder).expect("the folder");
        let names: Vec<OsString> = entries.map(|entry| entry.expect("an entry").file_name()).collect();
        let wanted: Vec<OsString> = sheet.iter().map(|_| NAME.into()).collect();
        if names != wanted {
            fail("settle, its files", input, format!("{names:?}").as_bytes(), format!("{wanted:?}").as_bytes());
        }
        let Some(sheet) = sheet else { return };
        let found = fs::read(&self.file).expect("the file");
        if found != sheet {
            fail("settle, its file", input, &found, &sheet);
        }
        fs::remove_file(&self.file).expect("the file removed");
    }
}

fn without_newline(input: &[u8]) -> &[u8] {
    input.strip_suffix(b"\n").unwrap_or(input)
}

/// Known formulas, random ones, and texts that are none.
fn texts(random: &mut Random) -> Vec<Vec<u8>> {
    let mut all: Vec<Vec<u8>> = entries().step_by(3).map(|entry| entry.text.into()).collect();
    for _ in 0..200 {
        let style = Style { letters: 5, connectives: b"&|>>=~", falsehood: 9, spaces: 9, bare: 2 };
        let size = random.below(40);
        all.push(formula(random, &style, size));
    }
    for _ in 0..100 {
        all.push(damaged(random));
        all.push(nested(random));
        all.push(repeating(random));
        let length = random.below(60);
        all.push(drawn(random, BYTES, length));
        all.push((0..length).map(|_| random.draw() as u8).collect());
    }
    all.extend(limits().into_iter().filter(|text| random.one_in(4) || text.is_empty()));
    all
}

/// Lengths about the most that a text may have, and far beyond.
fn at_the_limit() -> Vec<Vec<u8>> {
    let mut all = vec![Vec::new()];
    for length in [4_095, 4_096, 4_097, 4_098, 4_099, 70_000] {
        all.push(vec![b' '; length]);
        all.push(vec![b'\n'; length]);
        all.push(vec![b'~'; length]);
        all.push(vec![0; length]);
        all.push([&vec![b' '; length - 1][..], b"p"].concat());
        all.push([b"p>p", &vec![b' '; length - 3][..]].concat());
    }
    all
}
