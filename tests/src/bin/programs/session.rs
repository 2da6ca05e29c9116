//! The program `session`: what it answers to stored, generated and random scripts, and in a dialogue.

use crate::generated_scripts::{damaged_sheets, every_byte, hostile_sessions, long_lines, long_pages, wrong_byte};
use crate::random_scripts::{kinds, Tally, Writer};
use crate::{fail, printed};
use outside::program::{run, run_in_pieces, writes, Conversation, SESSION};
use outside::random::Random;
use outside::script::{lines, transcript, Dialogue};
use outside::stored;
use std::fs::{self, File};
use std::process::Output;

const WRITTEN: &str = concat!(env!("CARGO_MANIFEST_DIR"), "/../target/outside/written.script");
const DIFFERENT: &str = concat!(env!("CARGO_MANIFEST_DIR"), "/../target/outside/different.script");

/// Pieces of so many bytes, for scripts of at most so many.
const PIECES: [(usize, usize); 3] = [(1, 2_000), (7, 4_000), (4_096, usize::MAX)];

/// The most bytes that the program reads at once.
const FULL: usize = 65_536;

/// What was compared.
#[derive(Default)]
pub struct Scripts {
    pub count: usize,
    pub lines: usize,
    /// What the random ones met.
    pub tally: Tally,
}

pub fn compare(random: &mut Random) -> Scripts {
    let mut scripts = Scripts::default();
    scripts.stored();
    scripts.answered("every byte", &every_byte());
    scripts.answered("a wrong byte", &wrong_byte());
    scripts.answered("damaged sheets", &damaged_sheets());
    scripts.answered("long lines", &long_lines());
    scripts.answered("long pages", &long_pages());
    scripts.answered("hostile sessions", &hostile_sessions());
    scripts.dialogue();
    scripts.written_together();
    scripts.random(random);
    scripts
}

impl Scripts {
    fn answered(&mut self, what: &str, script: &[u8]) {
        self.output_is(what, script, &run(SESSION, &[], script), &transcript(script));
    }

    fn output_is(&mut self, what: &str, script: &[u8], output: &Output, wanted: &[u8]) {
        let what = format!("session, {what}");
        if output.stdout != wanted {
            first_difference(&what, script, &output.stdout);
        }
        printed(&what, script, output, wanted);
        self.count += 1;
        self.lines += lines(script).count();
    }

    fn stored(&mut self) {
        for stored in stored::scripts() {
            let (what, script) = (format!("{}.script", stored.name), &stored.script);
            assert!(transcript(script) == stored.output, "{what} is stored with other answers");
            self.output_is(&what, script, &run(SESSION, &[], script), &stored.output);
            for (size, _) in PIECES.iter().filter(|(_, most)| script.len() <= *most) {
                let output = run_in_pieces(SESSION, &[], script, *size);
                self.output_is(&format!("{what} in pieces of {size}"), script, &output, &stored.output);
            }
        }
    }

    /// So many random scripts of each sort, which must meet every kind of answer.
    fn random(&mut self, random: &mut Random) {
        let mut tally = Tally::new();
        let mut write = |times: usize, parts: &dyn Fn(&mut Writer, usize)| {
            for _ in 0..times {
                let calls = 10 + random.below(391);
                let mut writer = Writer::new(random, &mut tally);
                parts(&mut writer, calls);
                self.answered("a random script", &writer.script());
            }
        };
        write(150, &|writer, calls| writer.calls(calls, 7, 50));
        write(130, &|writer, calls| writer.calls(calls, 64, 25));
        write(1_000, &|writer, calls| writer.marks(calls / 8));
        write(300, &|writer, calls| writer.pages(calls / 8));
        write(8, &|writer, _| writer.full_tables());
        write(8, &|writer, _| writer.many_worlds());
        write(2, &|writer, _| writer.many_steps());
        write(1, &|writer, _| writer.calls(4_000, 10, 100));
        for kind in kinds() {
            assert!(tally.contains_key(&kind), "no random script met: {kind}");
        }
        self.tally = tally;
    }

    /// Each line is told when the line before has been answered, every third one in two halves and the last one without an end.
    fn dialogue(&mut self) {
        let questions =
            stored::scripts().into_iter().find(|stored| stored.name == "questions").expect("questions.script");
        let mut dialogue = Dialogue::start();
        let mut program = Conversation::start(SESSION);
        for (index, line) in lines(&questions.script).enumerate() {
            let half = if index % 3 == 0 { line.len() / 2 } else { 0 };
            program.tell(&line[..half]);
            program.tell(&[&line[half..], b"\n"].concat());
            let answer = dialogue.answer(line);
            let heard = program.hear(answer.len());
            if heard != answer.as_bytes() {
                fail("session, in a dialogue", line, &heard, answer.as_bytes());
            }
            self.lines += 1;
        }
        program.tell(b"length");
        let answer = dialogue.answer(b"length");
        printed("session, the end of a dialogue", b"length", &program.end(), answer.as_bytes());
        self.count += 1;
        self.lines += 1;
    }

    /// An answer waits for other lines that were read with its own, but not for a question, unless all that can be read at once was.
    fn written_together(&mut self) {
        let questions =
            ["open 3\nflat 1 2\n", "ask 0\nlength\n", " ask 1\n\nimplication 0 1 2\n", "ask 2 by 3\nmean 3\n", "ask 0"];
        self.in_writes(&questions.map(str::to_owned));
        let pages = ["open 3\nflat 0 3\n", "page 0 1\nlength\n", " page 2\n\nflat 1 2\n", "page 0 by 3"];
        self.in_writes(&pages.map(str::to_owned));
        let ahead = "open 3\nask 0\nask 1\nlength\n";
        let full = format!("#{:1$}\n{ahead}", "", FULL - ahead.len() - 2);
        self.in_writes(&[full, "ask 0\n".to_owned(), "ask 1\n".to_owned()]);
    }

    /// A script whose parts are each answered in one write.
    fn in_writes(&mut self, parts: &[String]) {
        let script = parts.concat().into_bytes();
        fs::write(WRITTEN, &script).expect("a script");
        let mut dialogue = Dialogue::start();
        let mut answers = |part: &String| lines(part.as_bytes()).map(|line| dialogue.answer(line)).collect::<String>();
        let wanted: Vec<Vec<u8>> = parts.iter().map(|part| answers(part).into_bytes()).collect();
        let length = wanted.iter().map(Vec::len).sum();
        let written = writes(SESSION, File::open(WRITTEN).expect("the script"), length);
        if written != wanted {
            fail("session, by writes", &script, &written.join(&b'|'), &wanted.join(&b'|'));
        }
        self.count += 1;
        self.lines += lines(&script).count();
    }
}

/// The line whose answer is the first that differs; the script is kept.
fn first_difference(what: &str, script: &[u8], found: &[u8]) {
    fs::write(DIFFERENT, script).expect("the script kept");
    let mut dialogue = Dialogue::start();
    let mut rest = found;
    for (index, line) in lines(script).enumerate() {
        let answer = dialogue.answer(line);
        match rest.strip_prefix(answer.as_bytes()) {
            Some(after) => rest = after,
            None => fail(&format!("{what}, line {} of {DIFFERENT}", index + 1), line, rest, answer.as_bytes()),
        }
    }
}
