//! The fixed search.

use crate::naming::{single, Flat, Implication, Problem};
use crate::question::{least, proves, Clauses};
use crate::refusal::Refusal;

pub const MOST_WORLDS: usize = 256;
pub const MOST_STEPS: usize = 512;

#[derive(Clone, Copy, Debug, PartialEq, Eq)]
pub struct Step {
    pub implication: u8,
    pub assumed: u64,
}

#[derive(Clone, Debug, PartialEq, Eq)]
pub enum Verdict {
    Valid,
    Refuted(Vec<u64>),
}

#[derive(Clone, Debug, PartialEq, Eq)]
pub struct Answer {
    pub verdict: Verdict,
    pub steps: Vec<Step>,
    pub questions: u32,
}

/// The clause that a step of an implication brings.
pub fn learned(implication: &Implication, assumed: u64) -> Flat {
    Flat { left: assumed & !single(implication.a), right: single(implication.c) }
}

pub fn realizes(world: u64, worlds: &[u64], implication: &Implication) -> bool {
    let [a, b, c] = [implication.a, implication.b, implication.c].map(single);
    if world & (a | b | c) != 0 {
        return true;
    }
    // A world that has a is not the one at hand, so to include it is to include it strictly.
    let wanted = world | a;
    worlds.iter().any(|v| v & wanted == wanted && v & b == 0)
}

pub fn settle(problem: &Problem) -> Result<Answer, Refusal> {
    settle_after(problem, &[])
}

/// The same where steps are held from before: the answer has them first, and counts its own questions alone.
pub fn settle_after(problem: &Problem, held: &[Step]) -> Result<Answer, Refusal> {
    let mut search = Search { problem, clauses: Clauses::new(&problem.flats), steps: Vec::new(), questions: 0 };
    held.iter().for_each(|&step| search.hold(step));
    loop {
        search.questions += 1;
        let verdict = match least(&search.clauses, problem.atoms, 0, problem.goal) {
            None => Some(Verdict::Valid),
            Some(root) => search.worlds_from(root)?.map(Verdict::Refuted),
        };
        if let Some(verdict) = verdict {
            return Ok(Answer { verdict, steps: search.steps, questions: search.questions });
        }
    }
}

struct Search<'a> {
    problem: &'a Problem,
    clauses: Clauses,
    steps: Vec<Step>,
    questions: u32,
}

impl Search<'_> {
    /// All worlds of a countermodel, or none if a step was learned. A realized pair stays so while worlds only come, so
    /// one pass over the pairs meets each first one that is not realized.
    fn worlds_from(&mut self, root: u64) -> Result<Option<Vec<u64>>, Refusal> {
        let mut worlds = vec![root];
        let mut place = 0;
        while place < worlds.len() {
            for index in 0..self.problem.implications.len() {
                if !self.realize(index, worlds[place], &mut worlds)? {
                    return Ok(None);
                }
            }
            place += 1;
        }
        Ok(Some(worlds))
    }

    /// Sees to it that a world realizes an implication; false if that led to a learned step.
    fn realize(&mut self, index: usize, world: u64, worlds: &mut Vec<u64>) -> Result<bool, Refusal> {
        let implication = &self.problem.implications[index];
        if realizes(world, worlds, implication) {
            return Ok(true);
        }
        let assumed = world | single(implication.a);
        self.questions += 1;
        match least(&self.clauses, self.problem.atoms, assumed, implication.b) {
            None => self.learn(index, assumed)?,
            Some(_) if worlds.len() == MOST_WORLDS => return Err(Refusal::plain(11)),
            Some(model) => {
                worlds.push(model);
                return Ok(true);
            }
        }
        Ok(false)
    }

    fn learn(&mut self, index: usize, mut assumed: u64) -> Result<(), Refusal> {
        if self.steps.len() == MOST_STEPS {
            return Err(Refusal::plain(12));
        }
        let implication = &self.problem.implications[index];
        for atom in 0..self.problem.atoms {
            let rest = assumed & !single(atom);
            if rest != assumed && proves(&self.clauses, self.problem.atoms, rest, implication.b) {
                assumed = rest;
            }
        }
        self.hold(Step { implication: index as u8, assumed });
        Ok(())
    }

    fn hold(&mut self, step: Step) {
        let implication = &self.problem.implications[usize::from(step.implication)];
        self.clauses.push(learned(implication, step.assumed));
        self.steps.push(step);
    }
}
