//! Random scripts: calls of every kind over few and over many atoms, refused ones included, and lines that are no calls.

use outside::naming::{single, FALSE};
use outside::random::{bytes_changed, formula, repeating, Random, Style};
use outside::script::{hexadecimal, Dialogue};
use outside::texts::{damaged, nested};
use std::collections::BTreeMap;
use std::iter;

/// How often each kind of answer was met.
pub type Tally = BTreeMap<String, usize>;

/// All that a script can meet. Refusal 10 is of lent bytes, and a script lends none; three calls can meet 20, and two those of a text.
pub fn kinds() -> Vec<String> {
    const WORDS: [&str; 11] =
        ["nothing", "no call", "done", "goal", "length", "sheet", "valid", "refuted", "page", "empty page", "passes"];
    const ON_PAGES: [&str; 5] = ["valid", "refuted", "refuted by another", "refused 11", "refused 12"];
    let refused = (1..=21).filter(|number| ![10, 20].contains(number)).map(|number| format!("refused {number}"));
    let no_author = ["ask", "page", "mean"].map(|call| format!("{call} refused 20"));
    let falls = (0..=3).map(|count| format!("falls with {count} sets"));
    let not_screened = [1, 2, 3, 4, 22].map(|number| format!("screen refused {number}"));
    let accepted = ["accepted valid", "accepted refuted"].map(String::from);
    let means = ["mean", "mean with a remainder"].map(String::from);
    let on_pages = ON_PAGES.map(|word| format!("on a page {word}"));
    let words = WORDS.map(String::from).into_iter().chain(accepted).chain(means).chain(falls);
    words.chain(refused).chain(no_author).chain(not_screened).chain(on_pages).collect()
}

fn kind(line: &[u8], answer: &str) -> String {
    let call = line.split(|&byte| byte == b' ').find(|word| !word.is_empty()).unwrap_or_default();
    let words: Vec<&str> = answer.split_ascii_whitespace().collect();
    match words[..] {
        [] if call == b"page" => "empty page".into(),
        [] => "nothing".into(),
        ["line", ..] => "no call".into(),
        ["goal", _, _, ..] => "page".into(),
        ["mean", _, _, "0"] => "mean".into(),
        ["mean", ..] => "mean with a remainder".into(),
        ["falls", ref sets @ ..] => format!("falls with {} sets", sets.len()),
        ["refused", "20"] => format!("{} refused 20", call.escape_ascii()),
        ["refused", number, ..] if call == b"screen" => format!("screen refused {number}"),
        [word @ ("accepted" | "refused"), which, ..] => format!("{word} {which}"),
        [word, ..] => word.into(),
    }
}

/// What each goal of a page met.
fn kinds_on_page(answer: &str) -> impl Iterator<Item = String> + '_ {
    answer.lines().filter_map(|line| match line.split(' ').collect::<Vec<_>>()[..] {
        ["goal", _, "refuted", "by", _] => Some("on a page refuted by another".into()),
        ["goal", _, "refused", number] => Some(format!("on a page refused {number}")),
        ["goal", _, word, _] => Some(format!("on a page {word}")),
        _ => None,
    })
}

/// Writes a script line by line, and knows the session that the lines have made.
pub struct Writer<'a> {
    random: &'a mut Random,
    tally: &'a mut Tally,
    dialogue: Dialogue,
    script: Vec<u8>,
    /// The last sheet that there was.
    sheet: Vec<u8>,
}

impl<'a> Writer<'a> {
    pub fn new(random: &'a mut Random, tally: &'a mut Tally) -> Writer<'a> {
        Writer { random, tally, dialogue: Dialogue::start(), script: Vec::new(), sheet: Vec::new() }
    }

    pub fn script(self) -> Vec<u8> {
        self.script
    }

    fn write(&mut self, line: impl AsRef<[u8]>) -> String {
        let answer = self.dialogue.answer(line.as_ref());
        for kind in iter::once(kind(line.as_ref(), &answer)).chain(kinds_on_page(&answer)) {
            *self.tally.entry(kind).or_default() += 1;
        }
        self.script.extend(line.as_ref());
        self.script.push(b'\n');
        if let Ok(sheet) = self.dialogue.session().sheet() {
            self.sheet = sheet;
        }
        answer
    }

    /// So many calls on sessions of at most so many atoms, with a new session once in so many calls.
    pub fn calls(&mut self, count: usize, most_atoms: usize, session_length: usize) {
        for _ in 0..count {
            if self.random.one_in(session_length) {
                self.begin(most_atoms);
            } else {
                let line = self.line();
                self.write(line);
            }
        }
    }

    /// More clauses than the tables hold, with marks on the way, and then returns to them.
    pub fn full_tables(&mut self) {
        let atoms = 1 + self.random.below(4);
        self.write(format!("open {atoms}"));
        for _ in 0..700 {
            let line = self.clause_or(&["ask", "page", "mark"]);
            self.write(line);
        }
        for _ in 0..300 {
            let line = self.clause_or(&["ask", "page", "mark", "return"]);
            self.write(line);
        }
        self.means();
    }

    /// A clause; once in so many times one of these calls.
    fn clause_or(&mut self, calls: &[&str]) -> String {
        match self.random.below(50) {
            0 => match *self.random.pick(calls) {
                "ask" => self.question(),
                "page" => self.page(),
                word => self.mark(word),
            },
            1..=12 => self.implication(),
            _ => self.flat(),
        }
    }

    /// Marks, returns to them, and all that they remember, with pages among it, on one session of at most eight atoms, which
    /// never needs too many worlds or steps.
    pub fn marks(&mut self, count: usize) {
        let atoms = 1 + self.random.below(8);
        self.write(format!("open {atoms}"));
        for _ in 0..count {
            let line = match self.random.below(15) {
                0..=1 => self.mark("mark"),
                2..=3 => self.mark("return"),
                4..=5 => self.flat(),
                6..=7 => self.implication(),
                8..=9 => self.question(),
                10..=11 => self.page(),
                12 => self.random.pick(&["length", "sheet", "screen p|~p"]).to_string(),
                13 => self.mean(),
                _ => format!("check {}", hexadecimal(&self.sheet)),
            };
            let answer = self.write(line);
            let needs_too_many = |line: &str| line.ends_with("refused 11") || line.ends_with("refused 12");
            assert!(!answer.lines().any(needs_too_many), "over {atoms} atoms: {answer}");
        }
        self.means();
    }

    /// Pages on one session with choices between two atoms, so that models differ in their roots.
    pub fn pages(&mut self, count: usize) {
        let atoms = 3 + self.random.below(10);
        self.write(format!("open {atoms}"));
        for _ in 0..count {
            let line = match self.random.below(15) {
                0..=4 => format!("flat 0 {}", 1u64 << self.random.below(atoms) | 1 << self.random.below(atoms)),
                5 => self.flat(),
                6..=7 => self.implication(),
                8..=11 => self.page(),
                12 => self.random.pick(&["length", "sheet", "screen p>p", "mark 0", "return 0"]).to_string(),
                13 => self.mean(),
                _ => self.question(),
            };
            self.write(line);
        }
        self.means();
    }

    /// The double negations of so many atoms that the questions mostly need over 256 worlds.
    pub fn many_worlds(&mut self) {
        let atoms = 9 + self.random.below(3);
        self.write(format!("open {atoms}"));
        for atom in 0..atoms {
            self.write(format!("implication {atom} {FALSE} {FALSE}"));
        }
        let page = self.page();
        self.write(page);
        self.means();
        self.calls(12, atoms, 20);
    }

    /// Ten choices of x or y or c, where x and y give z, and (a → b) → c where a and all z give b: each of the 1,024 ways to
    /// choose is a step.
    pub fn many_steps(&mut self) {
        let (z, xy, [a, b, c]) = (0..10, 10..30, [30, 31, 32]);
        self.write("open 33");
        for (z, xy) in z.zip(xy.step_by(2)) {
            let (x, y) = (single(xy), single(xy + 1));
            self.write(format!("flat 0 {}", x | y | single(c)));
            self.write(format!("flat {x} {}", single(z)));
            self.write(format!("flat {y} {}", single(z)));
        }
        let all_z = single(10) - 1;
        self.write(format!("flat {} {}", all_z | single(a), single(b)));
        self.write(format!("implication {a} {b} {c}"));
        self.write(format!("ask {c}"));
        self.write(format!("page {c} 0 {b} {c} {FALSE} by 1"));
        self.means();
        self.calls(6, 33, 20);
    }

    /// Those of all authors, and of one that there is not.
    fn means(&mut self) {
        for author in 0..=16 {
            self.write(format!("mean {author}"));
        }
    }

    fn begin(&mut self, most_atoms: usize) {
        let atoms = match self.random.below(10) {
            0..=3 => return self.text(),
            4 => *self.random.pick(&[0, 65, 255]),
            _ => 1 + self.random.below(most_atoms),
        };
        self.write(format!("open {atoms}"));
    }

    /// A text, and mostly the question for its goal or a page of all its atoms.
    fn text(&mut self) {
        let line = self.with_formula("text", 4);
        let answer = self.write(line);
        let Some(goal) = answer.strip_prefix("goal ") else { return };
        let by = self.by();
        match self.random.below(8) {
            0..=1 => return,
            2..=3 => self.write(self.page_of_all() + &by),
            _ => self.write(format!("ask {}{by}", goal.trim_end())),
        };
    }

    /// Mostly a formula of few letters, at times of more than are screened.
    fn screen(&mut self) -> Vec<u8> {
        let letters = 1 + self.random.below(5);
        self.with_formula("screen", letters)
    }

    /// The word and a formula of so many letters, or a text that is none or at the limits.
    fn with_formula(&mut self, word: &str, letters: usize) -> Vec<u8> {
        let style = Style { letters, connectives: b"&|>>=~", falsehood: 9, spaces: 9, bare: 2 };
        let text = match self.random.below(12) {
            0 => vec![b"~("[self.random.below(2)]; 60 + self.random.below(8)],
            1 => formula(self.random, &style, 60),
            2 => vec![b' '; [0, 4_096, 4_097][self.random.below(3)]],
            3..=4 => damaged(self.random),
            5 => nested(self.random),
            6 => repeating(self.random),
            _ => {
                let size = self.random.below(14);
                formula(self.random, &style, size)
            }
        };
        let without_ends = text.into_iter().filter(|&byte| byte != b'\n').collect();
        [word.into(), b" ".to_vec(), without_ends].concat()
    }

    fn line(&mut self) -> Vec<u8> {
        match self.random.below(32) {
            0..=5 => self.flat().into(),
            6..=9 => self.implication().into(),
            10..=14 => self.question().into(),
            15 => b"length".into(),
            16 => b"sheet".into(),
            17..=19 => self.check().into(),
            20 => self.random.pick(&["", "  ", "# ask 0", "#"]).as_bytes().into(),
            21 => self.mark("mark").into(),
            22 => self.mark("return").into(),
            23 => self.page().into(),
            24..=25 => self.mean().into(),
            26..=27 => self.screen(),
            _ => self.damaged_line(),
        }
    }

    fn flat(&mut self) -> String {
        let (left, right) = (self.set(), self.set());
        self.words("flat", &[left, right])
    }

    fn implication(&mut self) -> String {
        let (a, b, c) = (self.atom(20), self.atom(4), self.atom(6));
        self.words("implication", &[a, b, c])
    }

    fn question(&mut self) -> String {
        let goal = self.atom(5);
        self.words("ask", &[goal]) + &self.by()
    }

    /// Mostly few goals, seldom none or more than a page may have.
    fn page(&mut self) -> String {
        let count = match self.random.below(12) {
            0 => 0,
            1 => 60 + self.random.below(11),
            2..=3 => 1 + self.random.below(70),
            _ => 1 + self.random.below(8),
        };
        let mut goals = Vec::new();
        for _ in 0..count {
            goals.push(self.goal_after(&goals));
        }
        if count > 0 && self.random.one_in(10) {
            goals[self.random.below(count)] = self.random.below(300) as u64;
        }
        self.words("page", &goals) + &self.by()
    }

    /// Every goal that the session has, which are too many where it has 64 atoms.
    fn page_of_all(&self) -> String {
        let atoms = (0..self.dialogue.session().atoms()).map(|atom| format!(" {atom}"));
        format!("page{} {FALSE}", atoms.collect::<String>())
    }

    /// An atom of the session, at times one of those before, seldom false.
    fn goal_after(&mut self, before: &[u64]) -> u64 {
        let atoms = usize::from(self.dialogue.session().atoms());
        match self.random.below(16) {
            0 => FALSE.into(),
            1..=3 if !before.is_empty() => *self.random.pick(before),
            _ => self.random.below(atoms) as u64,
        }
    }

    /// Behind every second question or page its author, seldom named otherwise than it must be.
    fn by(&mut self) -> String {
        const OTHERWISE: [&str; 8] = [" by", " by 1 2", " by 256", " by x", " by by 1", " by 1 by 2", " 1 by", "by 1"];
        match self.random.below(30) {
            0 => self.random.pick(&OTHERWISE).to_string(),
            1..=15 => {
                let author = self.author();
                self.words(" by", &[author])
            }
            _ => String::new(),
        }
    }

    fn mean(&mut self) -> String {
        if self.random.one_in(30) {
            return self.random.pick(&["mean", "mean 1 2", "mean by 1", "mean x"]).to_string();
        }
        let author = self.author();
        self.words("mean", &[author])
    }

    /// Mostly one of the first, seldom the last, the one after it or any number.
    fn author(&mut self) -> u64 {
        match self.random.below(20) {
            0 => *self.random.pick(&[15, 16]),
            1 => self.random.below(300) as u64,
            _ => self.random.below(4) as u64,
        }
    }

    /// A call with one of the first marks, seldom with another number.
    fn mark(&mut self, word: &str) -> String {
        let number = if self.random.one_in(12) { self.random.below(270) } else { self.random.below(4) };
        self.words(word, &[number as u64])
    }

    /// The word and its numbers, seldom with more spaces or zeros than they need.
    fn words(&mut self, word: &str, numbers: &[u64]) -> String {
        let mut line = word.to_string();
        for number in numbers {
            let spaces = if self.random.one_in(30) { 1 + self.random.below(4) } else { 1 };
            let digits = if self.random.one_in(30) { self.random.below(40) } else { 0 };
            line += &format!("{}{number:0digits$}", " ".repeat(spaces));
        }
        line
    }

    /// One to three atoms, seldom none or one that the session has not.
    fn set(&mut self) -> u64 {
        let atoms = usize::from(self.dialogue.session().atoms());
        let count = if self.random.one_in(12) { 0 } else { 1 + self.random.below(3) };
        let some = (0..count).fold(0, |set, _| set | 1 << self.random.below(atoms));
        some | if self.random.one_in(60) { 1 << self.random.below(64) } else { 0 }
    }

    /// An atom, once in so many times false, seldom another number.
    fn atom(&mut self, falsehood: usize) -> u64 {
        let atoms = usize::from(self.dialogue.session().atoms());
        if self.random.one_in(falsehood) {
            return FALSE.into();
        }
        if self.random.one_in(40) {
            return self.random.below(300) as u64;
        }
        self.random.below(atoms) as u64
    }

    /// The last sheet, whole or damaged.
    fn check(&mut self) -> String {
        let length = self.sheet.len();
        let sheet = match self.random.below(6) {
            _ if length == 0 => Vec::new(),
            0 => self.sheet[..self.random.below(length)].to_vec(),
            1 => [&self.sheet[..], &[0]].concat(),
            2..=3 => bytes_changed(self.random, &self.sheet),
            _ => self.sheet.clone(),
        };
        format!("check {}", hexadecimal(&sheet))
    }

    /// A line with a byte changed, put in or taken out, or its end cut off.
    fn damaged_line(&mut self) -> Vec<u8> {
        const BYTES: &[u8] = b" 0129aA#-\t\r\x00\x80\xff";
        let mut line: Vec<u8> = match self.random.below(8) {
            0 => self.flat().into(),
            1 => self.implication().into(),
            2 => self.question().into(),
            3 => self.mark("mark").into(),
            4 => self.page().into(),
            5 => self.mean().into(),
            6 => self.screen(),
            _ => self.check().into(),
        };
        let at = self.random.below(line.len());
        let byte = *self.random.pick(BYTES);
        match self.random.below(4) {
            0 => line[at] = byte,
            1 => line.insert(at, byte),
            2 => drop(line.remove(at)),
            _ => line.truncate(at),
        }
        line
    }
}
