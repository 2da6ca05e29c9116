//! Formula text to parts, by two stacks: the operands read, and what still waits for one.

use crate::formula::{Connective, Formula, Part};
use crate::refusal::Refusal;
use crate::shared::Shared;

const MOST_BYTES: usize = 4096;
const MOST_OPEN: i32 = 64;
const MOST_ATOMS: usize = 64;

pub fn read(text: &[u8]) -> Result<Formula, Refusal> {
    if text.is_empty() || text.len() > MOST_BYTES {
        return Err(Refusal::plain(1));
    }
    if deepest(text) > MOST_OPEN {
        return Err(Refusal::plain(2));
    }
    let formula = parse(text).map_err(|place| Refusal::at(3, place))?;
    if Shared::of(&formula).0.atom_count() > MOST_ATOMS {
        return Err(Refusal::plain(4));
    }
    Ok(formula)
}

/// The most by which the opening parentheses outnumber the closing ones in a beginning.
fn deepest(text: &[u8]) -> i32 {
    let mut open = 0;
    let mut most = 0;
    for byte in text {
        match byte {
            b'(' => open += 1,
            b')' => open -= 1,
            _ => {}
        }
        most = most.max(open);
    }
    most
}

#[derive(Clone, Copy)]
enum Waiting {
    Parenthesis,
    Not,
    Between(Connective),
}

#[derive(Default)]
struct Stacks {
    parts: Formula,
    operands: Vec<usize>,
    waiting: Vec<Waiting>,
}

/// The parts, or the length of the longest beginning that begins some formula.
fn parse(text: &[u8]) -> Result<Formula, usize> {
    let mut stacks = Stacks::default();
    let mut operand_next = true;
    for (place, &byte) in text.iter().enumerate() {
        match (byte, operand_next) {
            (b' ', _) => {}
            (b'~', true) => stacks.waiting.push(Waiting::Not),
            (b'(', true) => stacks.waiting.push(Waiting::Parenthesis),
            (b'0', true) => stacks.push(Part::False),
            (b'a'..=b'z', true) => stacks.push(Part::Letter(byte)),
            (b')', false) if stacks.close() => {}
            (b'&', false) => stacks.between(Connective::And),
            (b'|', false) => stacks.between(Connective::Or),
            (b'>', false) => stacks.between(Connective::Implies),
            (b'=', false) if stacks.equal() => {}
            _ => return Err(place),
        }
        operand_next = match byte {
            b' ' => operand_next,
            b')' | b'0' | b'a'..=b'z' => false,
            _ => true,
        };
    }
    if operand_next || stacks.close() {
        return Err(text.len());
    }
    Ok(stacks.parts)
}

fn tightness(connective: Connective) -> u8 {
    match connective {
        Connective::And => 4,
        Connective::Or => 3,
        Connective::Implies => 2,
        Connective::Equal => 1,
    }
}

impl Stacks {
    fn push(&mut self, part: Part) {
        self.operands.push(self.parts.len());
        self.parts.push(part);
    }

    fn join(&mut self, connective: Connective) {
        let right = self.operands.pop().expect("a right operand");
        let left = self.operands.pop().expect("a left operand");
        self.push(Part::Join(connective, left, right));
    }

    fn apply(&mut self, waiting: Waiting) {
        match waiting {
            Waiting::Parenthesis => {}
            Waiting::Not => {
                self.push(Part::False);
                self.join(Connective::Implies);
            }
            Waiting::Between(connective) => self.join(connective),
        }
    }

    /// A connective after an operand: what binds the operand more tightly is applied first.
    fn between(&mut self, connective: Connective) {
        while let Some(&top) = self.waiting.last() {
            let applies = match top {
                Waiting::Parenthesis => false,
                Waiting::Not => true,
                Waiting::Between(earlier) => {
                    let to_left = tightness(connective) > tightness(Connective::Implies);
                    tightness(earlier) > tightness(connective) || to_left && tightness(earlier) == tightness(connective)
                }
            };
            if !applies {
                break;
            }
            self.waiting.pop();
            self.apply(top);
        }
        self.waiting.push(Waiting::Between(connective));
    }

    /// An `=`, which binds all to its left to the last open parenthesis; says whether it is the first there.
    fn equal(&mut self) -> bool {
        self.between(Connective::Equal);
        let before = self.waiting.len().checked_sub(2).map(|at| self.waiting[at]);
        !matches!(before, Some(Waiting::Between(Connective::Equal)))
    }

    /// Applies all down to the last open parenthesis, and says whether there was one.
    fn close(&mut self) -> bool {
        while let Some(top) = self.waiting.pop() {
            if let Waiting::Parenthesis = top {
                return true;
            }
            self.apply(top);
        }
        false
    }
}

#[cfg(test)]
mod tests {
    use super::*;

    fn refused(text: &str) -> Refusal {
        read(text.as_bytes()).expect_err(text)
    }

    #[test]
    fn places_of_what_is_no_formula() {
        let cases = [
            ("p q", 2),
            ("(p", 2),
            ("   ", 3),
            ("p)", 1),
            (")", 0),
            ("p&", 2),
            ("p & ) q", 4),
            ("~", 1),
            ("p\n", 1),
            ("p~", 1),
            ("P", 0),
            ("(p)(", 3),
            ("1", 0),
            ("p=q=r", 3),
            ("p=q>r=s", 5),
            ("(p=q)=r=s", 7),
            ("p=(q=r)=s", 7),
            ("(p=q=r)", 4),
            ("p=((q)=r)=s", 9),
        ];
        for (text, place) in cases {
            assert_eq!(refused(text), Refusal::at(3, place), "{text}");
        }
    }

    #[test]
    fn limits_of_a_text() {
        assert_eq!(refused(""), Refusal::plain(1));
        assert_eq!(refused(&"~".repeat(4096)), Refusal::at(3, 4096));
        assert_eq!(refused(&" ".repeat(4096)), Refusal::at(3, 4096));
        assert_eq!(refused(&" ".repeat(4097)), Refusal::plain(1));
        assert_eq!(refused(&"(".repeat(64)), Refusal::at(3, 64));
        assert_eq!(refused(&"(".repeat(65)), Refusal::plain(2));
        assert_eq!(refused(&(")".to_string() + &"(".repeat(65))), Refusal::at(3, 0));
        assert_eq!(refused(&(")".to_string() + &"(".repeat(66))), Refusal::plain(2));
        let deep = "(".repeat(64) + "p" + &")".repeat(64);
        assert_eq!(read(deep.as_bytes()), Ok(vec![Part::Letter(b'p')]));
        let long = "p".to_string() + &" ".repeat(4095);
        assert!(read(long.as_bytes()).is_ok());
    }

    #[test]
    fn letters_and_names() {
        assert!(read(("~".repeat(63) + "p").as_bytes()).is_ok());
        assert_eq!(refused(&("~".repeat(64) + "p")), Refusal::plain(4));
        assert!(read(("~".repeat(64) + "0").as_bytes()).is_ok());
        assert_eq!(refused(&("~".repeat(65) + "0")), Refusal::plain(4));
        assert_eq!(refused(&("(p&q)|".repeat(682) + "p&q")), Refusal::plain(4));
        let mut doubled = "p".to_string();
        while doubled.len() < 4093 {
            doubled = format!("({doubled}&{doubled})");
        }
        assert!(read((doubled + "   ").as_bytes()).is_ok());
    }

    #[test]
    fn grouping() {
        let same = |loose: &str, full: &str| {
            assert_eq!(read(loose.as_bytes()), read(full.as_bytes()), "{loose}");
        };
        same("~p&q|r>s", "(((~p)&q)|r)>s");
        same("p>q>r", "p>(q>r)");
        same("p>q=r", "(p>q)=r");
        same("p=q>r>s", "p=(q>(r>s))");
        same("p|q=~r&s", "(p|q)=((~r)&s)");
        same("(p=q)=(r=s)", "((p=q))=(((r=s)))");
        same("p|q|r", "(p|q)|r");
        same("p&q&r", "(p&q)&r");
        same("p|q&r|s", "(p|(q&r))|s");
        same("~~p", "~(~p)");
        same(" p > q ", "p>q");
        same("~(p>q)&r", "(~(p>q))&r");
    }
}
