//! What the program prints of a text, and what it writes.

use crate::certificate;
use crate::formula::Formula;
use crate::naming::{problem_of, Problem};
use crate::reader::read;
use crate::refusal::Refusal;
use crate::search::{settle, Answer, Step, Verdict};

/// A text settled.
pub struct Settled {
    pub formula: Formula,
    pub problem: Problem,
    pub answer: Answer,
}

pub fn settle_text(text: &[u8]) -> Result<Settled, Refusal> {
    let formula = read(text)?;
    let problem = problem_of(&formula);
    let answer = settle(&problem)?;
    Ok(Settled { formula, problem, answer })
}

pub fn report(outcome: &Result<Settled, Refusal>) -> String {
    match outcome {
        Err(refusal) => format!("{refusal}\n"),
        Ok(settled) => verdict_lines(settled.problem.atoms, &settled.answer),
    }
}

/// What is printed of a verdict over so many atoms.
pub fn verdict_lines(atoms: u8, answer: &Answer) -> String {
    let figures = format!("atoms {atoms} questions {} learned {}\n", answer.questions, answer.steps.len());
    let step = |s: &Step| format!("step {} {}\n", s.implication, s.assumed);
    match &answer.verdict {
        Verdict::Valid => {
            let steps: String = answer.steps.iter().map(step).collect();
            "valid\n".to_string() + &figures + &steps
        }
        Verdict::Refuted(worlds) => "refuted\n".to_string() + &figures + &world_lines(worlds),
    }
}

pub fn world_lines(worlds: &[u64]) -> String {
    worlds.iter().map(|world| format!("world {world}\n")).collect()
}

/// The certificate of a verdict, or the line of a refusal.
pub fn certified(outcome: &Result<Settled, Refusal>) -> Vec<u8> {
    match outcome {
        Ok(settled) => certificate::write(&settled.problem, &settled.answer),
        Err(_) => report(outcome).into_bytes(),
    }
}

#[cfg(test)]
mod tests {
    use super::*;

    fn printed(text: &str) -> String {
        report(&settle_text(text.as_bytes()))
    }

    #[test]
    fn cases_of_document_01() {
        let peirce = "refuted\natoms 5 questions 9 learned 1\nworld 0\nworld 25\nworld 20\nworld 8\n";
        let cases = [
            ("((p>q)>p)>p", peirce),
            ("p|~p", "refuted\natoms 3 questions 2 learned 0\nworld 0\nworld 5\n"),
            ("p>p", "valid\natoms 2 questions 3 learned 1\nstep 0 1\n"),
            ("0", "refuted\natoms 1 questions 1 learned 0\nworld 0\n"),
            ("0>0", "valid\natoms 1 questions 1 learned 0\n"),
            ("p q", "refused 3 at 2\n"),
            ("(p", "refused 3 at 2\n"),
        ];
        for (text, wanted) in cases {
            assert_eq!(printed(text), wanted, "{text}");
        }
        let negations = |count: usize| "~".repeat(count) + "p";
        assert!(read(negations(63).as_bytes()).is_ok());
        assert_eq!(printed(&negations(64)), "refused 4\n");
    }
}
