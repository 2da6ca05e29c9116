//! Scripts of calls on a session: lines of words, and what is answered to each.

use crate::certificate::verdict_line;
use crate::fork::screen_line;
use crate::naming::{Flat, Implication};
use crate::refusal::Refusal;
use crate::report::{verdict_lines, world_lines};
use crate::session::{GoalAnswer, Session};

pub const MOST_LINE_BYTES: usize = 32_768;

/// All that is answered to a script.
pub fn transcript(script: &[u8]) -> Vec<u8> {
    let mut dialogue = Dialogue::start();
    lines(script).flat_map(|line| dialogue.answer(line).into_bytes()).collect()
}

/// The lines without their ends; a last one that has no end counts.
pub fn lines(script: &[u8]) -> impl Iterator<Item = &[u8]> {
    script.split_inclusive(|&byte| byte == b'\n').map(|line| line.strip_suffix(b"\n").unwrap_or(line))
}

/// The session that the lines so far have made.
pub struct Dialogue {
    session: Session,
    lines: u64,
}

enum Call<'a> {
    Open(u8),
    Text(&'a [u8]),
    Flat(Flat),
    Implication(Implication),
    Ask { goal: u8, author: u8 },
    Page { goals: Vec<u8>, author: u8 },
    Mean(u8),
    Mark(u8),
    Return(u8),
    Length,
    Sheet,
    Check(Vec<u8>),
    Screen(&'a [u8]),
}

impl Dialogue {
    pub fn start() -> Dialogue {
        Dialogue { session: Session::of_one_atom(), lines: 0 }
    }

    pub fn session(&self) -> &Session {
        &self.session
    }

    /// The answer to the next line; nothing to a blank one or a comment.
    pub fn answer(&mut self, line: &[u8]) -> String {
        self.lines = self.lines.saturating_add(1);
        if line.starts_with(b"#") || line.iter().all(|&byte| byte == b' ') {
            return String::new();
        }
        match read(line) {
            None => format!("line {} is no call\n", self.lines),
            Some(call) => self.make(call).unwrap_or_else(|refusal| format!("{refusal}\n")),
        }
    }

    fn make(&mut self, call: Call) -> Result<String, Refusal> {
        let done = |()| "done\n".to_string();
        let session = &mut self.session;
        match call {
            Call::Open(atoms) => {
                let opened = Session::open(atoms).map(|session| (session, ()));
                self.begin(opened).map(done)
            }
            Call::Text(text) => self.begin(Session::of_text(text)).map(|goal| format!("goal {goal}\n")),
            Call::Flat(flat) => session.add_flat(flat).map(done),
            Call::Implication(implication) => session.add_implication(implication).map(done),
            Call::Ask { goal, author } => {
                session.ask(goal, author).map(|answer| verdict_lines(session.atoms(), &answer))
            }
            Call::Page { goals, author } => session.page(&goals, author).map(|answers| page_lines(&answers)),
            Call::Mean(author) => session.mean(author).map(|(mean, rest)| format!("mean {mean} remainder {rest}\n")),
            Call::Mark(number) => session.set_mark(number).map(done),
            Call::Return(number) => session.return_to(number).map(done),
            Call::Length => session.length_told().map(|length| format!("length {length}\n")),
            Call::Sheet => session.sheet().map(|sheet| format!("sheet {}\n", hexadecimal(&sheet))),
            Call::Check(sheet) => Ok(verdict_line(&sheet)),
            Call::Screen(text) => Ok(screen_line(text)),
        }
    }

    /// Goes on with a new session, which a refusal gives too.
    fn begin<T>(&mut self, opened: Result<(Session, T), Refusal>) -> Result<T, Refusal> {
        self.session = Session::of_one_atom();
        let (session, told) = opened?;
        self.session = session;
        Ok(told)
    }
}

fn read(line: &[u8]) -> Option<Call<'_>> {
    if line.len() > MOST_LINE_BYTES {
        return None;
    }
    let words: Vec<&[u8]> = line.split(|&byte| byte == b' ').filter(|word| !word.is_empty()).collect();
    let call = match words[..] {
        [b"open", atoms] => Call::Open(byte(atoms)?),
        [word @ b"text", ..] => Call::Text(behind(word, line)),
        [b"flat", left, right] => Call::Flat(Flat { left: number(left)?, right: number(right)? }),
        [b"implication", a, b, c] => Call::Implication(Implication { a: byte(a)?, b: byte(b)?, c: byte(c)? }),
        [b"ask", goal] => Call::Ask { goal: byte(goal)?, author: 0 },
        [b"ask", goal, b"by", author] => Call::Ask { goal: byte(goal)?, author: byte(author)? },
        [b"page", ref goals @ .., b"by", author] => Call::Page { goals: all_bytes(goals)?, author: byte(author)? },
        [b"page", ref goals @ ..] => Call::Page { goals: all_bytes(goals)?, author: 0 },
        [b"mean", author] => Call::Mean(byte(author)?),
        [b"mark", number] => Call::Mark(byte(number)?),
        [b"return", number] => Call::Return(byte(number)?),
        [b"length"] => Call::Length,
        [b"sheet"] => Call::Sheet,
        [b"check"] => Call::Check(Vec::new()),
        [b"check", digits] => Call::Check(bytes(digits)?),
        [word @ b"screen", ..] => Call::Screen(behind(word, line)),
        _ => return None,
    };
    Some(call)
}

fn page_lines(answers: &[GoalAnswer]) -> String {
    answers.iter().enumerate().map(|(place, answer)| format!("goal {place} {}", goal_lines(answer))).collect()
}

fn goal_lines(answer: &GoalAnswer) -> String {
    match answer {
        GoalAnswer::Valid(steps) => format!("valid {steps}\n"),
        GoalAnswer::Refuted(worlds) => format!("refuted {}\n{}", worlds.len(), world_lines(worlds)),
        GoalAnswer::RefutedBy(place) => format!("refuted by {place}\n"),
        GoalAnswer::Refused(refusal) => format!("{refusal}\n"),
    }
}

/// All behind the first word and one space.
fn behind<'a>(word: &[u8], line: &'a [u8]) -> &'a [u8] {
    let spaces = line.iter().take_while(|&&byte| byte == b' ').count();
    line.get(spaces + word.len() + 1..).unwrap_or_default()
}

fn number(word: &[u8]) -> Option<u64> {
    word.iter().try_fold(0u64, |value, byte| {
        let digit = byte.is_ascii_digit().then(|| byte - b'0')?;
        value.checked_mul(10)?.checked_add(digit.into())
    })
}

fn byte(word: &[u8]) -> Option<u8> {
    u8::try_from(number(word)?).ok()
}

fn all_bytes(words: &[&[u8]]) -> Option<Vec<u8>> {
    words.iter().map(|word| byte(word)).collect()
}

/// The bytes that pairs of small hexadecimal digits stand for.
fn bytes(digits: &[u8]) -> Option<Vec<u8>> {
    let value = |digit: u8| match digit {
        b'0'..=b'9' => Some(digit - b'0'),
        b'a'..=b'f' => Some(digit - b'a' + 10),
        _ => None,
    };
    let pairs = digits.chunks(2).map(|pair| match *pair {
        [high, low] => Some(16 * value(high)? + value(low)?),
        _ => None,
    });
    pairs.collect()
}

pub fn hexadecimal(bytes: &[u8]) -> String {
    bytes.iter().map(|byte| format!("{byte:02x}")).collect()
}

#[cfg(test)]
mod tests {
    use super::*;
    use crate::stored::scripts;

    fn answers(script: &[u8]) -> String {
        String::from_utf8(transcript(script)).expect("letters")
    }

    #[test]
    fn stored_answers() {
        for stored in scripts() {
            assert_eq!(answers(&stored.script), String::from_utf8_lossy(&stored.output), "{}", stored.name);
        }
    }

    #[test]
    fn lines_and_their_ends() {
        let cases: [(&[u8], &str); 10] = [
            (b"", ""),
            (b"\n", ""),
            (b"\n\n  \n#x\nx", "line 5 is no call\n"),
            (b"length", "refused 9\n"),
            (b"length\n", "refused 9\n"),
            (b"length\n\n", "refused 9\n"),
            (b"length\nlength", "refused 9\nrefused 9\n"),
            (b"length\r\n", "line 1 is no call\n"),
            (b"\r\n", "line 1 is no call\n"),
            (b" #\n", "line 1 is no call\n"),
        ];
        for (script, wanted) in cases {
            assert_eq!(answers(script), wanted, "{}", script.escape_ascii());
        }
    }

    #[test]
    fn long_lines() {
        let of_length = |length: usize, start: &str, filler: &str, end: &str| {
            let room = length - start.len() - end.len();
            let line = start.to_string() + &filler.repeat(room) + end;
            assert_eq!(line.len(), length);
            answers(line.as_bytes())
        };
        let forms = [
            ("open ", "0", "7", "done\n"),
            ("open 7", " ", "", "done\n"),
            ("", " ", "open 7", "done\n"),
            ("flat 1", " ", "1", "done\n"),
            ("text ", " ", "p", "refused 1\n"),
            ("screen ", " ", "p", "refused 1\n"),
            ("x", "x", "", "line 1 is no call\n"),
        ];
        for (start, filler, end, wanted) in forms {
            assert_eq!(of_length(MOST_LINE_BYTES - 1, start, filler, end), wanted);
            assert_eq!(of_length(MOST_LINE_BYTES, start, filler, end), wanted);
            assert_eq!(of_length(MOST_LINE_BYTES + 1, start, filler, end), "line 1 is no call\n");
            assert_eq!(of_length(2 * MOST_LINE_BYTES, start, filler, end), "line 1 is no call\n");
        }
        assert_eq!(of_length(MOST_LINE_BYTES, "check ", "0", ""), "refused 13\n");
        assert_eq!(of_length(MOST_LINE_BYTES - 1, "check ", "0", ""), "line 1 is no call\n");
        for (start, filler) in [("#", "x"), ("#", " "), ("", " ")] {
            assert_eq!(of_length(MOST_LINE_BYTES + 1, start, filler, ""), "");
            assert_eq!(of_length(3 * MOST_LINE_BYTES, start, filler, ""), "");
        }
        assert_eq!(of_length(3 * MOST_LINE_BYTES, "", " ", "#"), "line 1 is no call\n");
    }

    #[test]
    fn goals_of_a_page() {
        let no_call = "line 1 is no call\n";
        let refuted = "goal 0 refuted 1\nworld 0\n";
        let cases = [
            ("page", ""),
            ("page ", ""),
            ("   page   ", ""),
            ("page 0", refuted),
            ("   page   000   ", refuted),
            ("page 255", refuted),
            ("page 1", "refused 6\n"),
            ("page 0 254", "refused 6\n"),
            ("page 256", no_call),
            ("page x", no_call),
            ("page 0 x", no_call),
            ("page 1 256", no_call),
            ("page 0,0", no_call),
            ("page -1", no_call),
            ("page0", no_call),
            ("pages 0", no_call),
            ("Page 0", no_call),
            ("page\t0", no_call),
        ];
        for (line, wanted) in cases {
            assert_eq!(answers(line.as_bytes()), wanted, "{line}");
        }
    }

    #[test]
    fn authors() {
        let refuted = "refuted\natoms 1 questions 1 learned 0\nworld 0\n";
        let on_page = "goal 0 refuted 1\nworld 0\n";
        let cases = [
            ("ask 0 by 0", refuted),
            ("ask 0 by 15", refuted),
            ("   ask   000   by   0015   ", refuted),
            ("ask 0 by 16", "refused 20\n"),
            ("ask 1 by 255", "refused 20\n"),
            ("ask 1 by 15", "refused 6\n"),
            ("page 0 by 15", on_page),
            ("   page   000   by   0015   ", on_page),
            ("page by 15", ""),
            ("page by 16", "refused 20\n"),
            ("page 1 by 255", "refused 20\n"),
            ("page 1 by 15", "refused 6\n"),
            ("mean 15", "refused 21\n"),
            ("   mean   0015   ", "refused 21\n"),
            ("mean 16", "refused 20\n"),
            ("mean 255", "refused 20\n"),
        ];
        for (line, wanted) in cases {
            assert_eq!(answers(line.as_bytes()), wanted, "{line}");
        }
    }

    #[test]
    fn authors_named_otherwise() {
        const ENDS: [&str; 10] =
            [" by", " by 256", " by x", " by -1", " by 1 2", " by by 1", " by 1 by 2", " 0 by", "by 1", " By 1"];
        const OTHERS: [&str; 9] =
            ["ask by", "ask by 1", "page by", "page by 1 2", "pageby 1", "mean", "mean 1 2", "mean by 1", "mean 256"];
        let ends = ["ask 0", "page 0"].iter().flat_map(|call| ENDS.map(|end| format!("{call}{end}")));
        for line in ends.chain(OTHERS.map(String::from)) {
            assert_eq!(answers(line.as_bytes()), "line 1 is no call\n", "{line}");
        }
    }

    #[test]
    fn counts_of_authors() {
        let script = "open 3\nflat 0 3\npage 0 1 2 by 1\nask 2 by 1\nask 2 by 2\nmean 1\nmean 2\nmean 0\n";
        let page = "goal 0 refuted 1\nworld 2\ngoal 1 refuted 1\nworld 1\ngoal 2 refuted by 0\n";
        let asked = [3, 1].map(|count| format!("refuted\natoms 3 questions {count} learned 0\nworld 1\n")).concat();
        let means = "mean 0 remainder 3\nmean 1 remainder 0\nrefused 21\n";
        assert_eq!(answers(script.as_bytes()), "done\n".repeat(2) + page + &asked + means);
    }

    #[test]
    fn long_pages() {
        let of_goals = |count: usize, end: &str| answers(("page".to_string() + &" 0".repeat(count) + end).as_bytes());
        let by_first: String = (1..64).map(|place| format!("goal {place} refuted by 0\n")).collect();
        for by in ["", " by 15"] {
            assert_eq!(of_goals(64, by), "goal 0 refuted 1\nworld 0\n".to_string() + &by_first);
        }
        assert_eq!(of_goals(63, " 1"), "refused 6\n");
        assert_eq!(of_goals(64, " 256"), "line 1 is no call\n");
        assert_eq!(of_goals(64, " 1"), "refused 19\n");
        for (by, wanted) in [("", "refused 19\n"), (" by 15", "refused 19\n"), (" by 16", "refused 20\n")] {
            let most_goals = (MOST_LINE_BYTES - "page".len() - by.len()) / " 0".len();
            for count in [65, 256, 320, most_goals] {
                assert_eq!(of_goals(count, by), wanted, "{count}{by}");
            }
            assert_eq!(of_goals(most_goals, &(by.to_string() + " ")), "line 1 is no call\n");
        }
    }

    #[test]
    fn answers_to_a_page() {
        let opened = "open 3\nflat 1 2\nimplication 0 1 2\n";
        let page = "goal 0 valid 1\ngoal 1 refuted 1\nworld 4\ngoal 2 valid 1\ngoal 3 refuted by 1\n";
        let script = opened.to_string() + "page 2 0 2 255\n";
        assert_eq!(answers(script.as_bytes()), "done\n".repeat(3) + page);
    }

    #[test]
    fn texts_screened() {
        let no_call = "line 1 is no call\n";
        let cases = [
            ("screen p>p", "passes\n"),
            ("   screen   p | ~p  ", "falls 1\n"),
            ("screen 0", "falls\n"),
            ("screen a|b|c|d", "refused 22\n"),
            ("screen", "refused 1\n"),
            ("   screen", "refused 1\n"),
            ("screen ", "refused 1\n"),
            ("screen  ", "refused 3 at 1\n"),
            ("screen  p q", "refused 3 at 3\n"),
            ("screen p #", "refused 3 at 2\n"),
            ("screen screen", "refused 3 at 1\n"),
            ("screenp", no_call),
            ("screen\tp", no_call),
            ("screens p", no_call),
            ("Screen p", no_call),
            ("scree p", no_call),
        ];
        for (line, wanted) in cases {
            assert_eq!(answers(line.as_bytes()), wanted, "{line}");
        }
    }

    #[test]
    fn limits_of_numbers() {
        let most_set = u64::MAX.to_string();
        let zeros = "0".repeat(1_000);
        assert_eq!(number(most_set.as_bytes()), Some(u64::MAX));
        assert_eq!(number((zeros.clone() + &most_set).as_bytes()), Some(u64::MAX));
        for word in ["18446744073709551616", "18446744073709551625", "184467440737095516150", "1x", "-1", "+1", "1 "] {
            assert_eq!(number(word.as_bytes()), None, "{word}");
        }
        assert_eq!((byte(b"255"), byte(b"256"), byte((zeros + "255").as_bytes())), (Some(255), None, Some(255)));
    }
}
