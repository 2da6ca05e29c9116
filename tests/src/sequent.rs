//! A second way to a verdict: root-first search in Dyckhoff's contraction-free sequent calculus.

use crate::formula::Part;
use crate::shared::{Node, Shared};
use std::collections::{BTreeSet, HashMap};

type Context = BTreeSet<usize>;

/// Equal formulas have one number, so that sequents met before are known again.
struct Prover {
    formulas: Shared,
    settled: HashMap<(Context, usize), bool>,
    budget: usize,
}

/// Whether the formula is provable, or nothing if that takes more than `budget` sequents.
pub fn provable(formula: &[Part], budget: usize) -> Option<bool> {
    let (formulas, numbers) = Shared::of(formula);
    let mut prover = Prover { formulas, settled: HashMap::new(), budget };
    prover.prove(Context::new(), *numbers.last()?)
}

impl Prover {
    fn prove(&mut self, context: Context, goal: usize) -> Option<bool> {
        let sequent = (context, goal);
        if let Some(&known) = self.settled.get(&sequent) {
            return Some(known);
        }
        self.budget = self.budget.checked_sub(1)?;
        let outcome = self.apply_rules(&sequent.0, goal)?;
        self.settled.insert(sequent, outcome);
        Some(outcome)
    }

    /// The invertible rules first; the others are tried one by one.
    fn apply_rules(&mut self, context: &Context, goal: usize) -> Option<bool> {
        if context.contains(&goal) || context.iter().any(|&f| self.formulas.nodes[f] == Node::False) {
            return Some(true);
        }
        for &formula in context {
            if let Some(premises) = self.left_invertible(context, formula) {
                return self.all(premises, goal);
            }
        }
        match self.formulas.nodes[goal] {
            Node::And(left, right) => Some(self.prove(context.clone(), left)? && self.prove(context.clone(), right)?),
            Node::Implies(left, right) => self.prove(with(context, &[left]), right),
            Node::Or(left, right) => Some(
                self.prove(context.clone(), left)?
                    || self.prove(context.clone(), right)?
                    || self.nested(context, goal)?,
            ),
            Node::False | Node::Letter(_) => self.nested(context, goal),
        }
    }

    fn all(&mut self, contexts: Vec<Context>, goal: usize) -> Option<bool> {
        for context in contexts {
            if !self.prove(context, goal)? {
                return Some(false);
            }
        }
        Some(true)
    }

    /// What a formula on the left comes to where its rule loses nothing.
    fn left_invertible(&mut self, context: &Context, formula: usize) -> Option<Vec<Context>> {
        let rest = without(context, formula);
        match self.formulas.nodes[formula] {
            Node::And(left, right) => Some(vec![with(&rest, &[left, right])]),
            Node::Or(left, right) => Some(vec![with(&rest, &[left]), with(&rest, &[right])]),
            Node::Implies(left, right) if rest.contains(&left) => Some(vec![with(&rest, &[right])]),
            Node::Implies(left, right) => match self.formulas.nodes[left] {
                Node::False => Some(vec![rest]),
                Node::And(first, second) => {
                    let inner = self.formulas.number(Node::Implies(second, right));
                    let outer = self.formulas.number(Node::Implies(first, inner));
                    Some(vec![with(&rest, &[outer])])
                }
                Node::Or(first, second) => {
                    let one = self.formulas.number(Node::Implies(first, right));
                    let other = self.formulas.number(Node::Implies(second, right));
                    Some(vec![with(&rest, &[one, other])])
                }
                Node::Letter(_) | Node::Implies(..) => None,
            },
            Node::False | Node::Letter(_) => None,
        }
    }

    /// The rule for (c → d) → b on the left.
    fn nested(&mut self, context: &Context, goal: usize) -> Option<bool> {
        for &formula in context {
            let Node::Implies(inner, b) = self.formulas.nodes[formula] else {
                continue;
            };
            let Node::Implies(_, d) = self.formulas.nodes[inner] else {
                continue;
            };
            let rest = without(context, formula);
            let shorter = self.formulas.number(Node::Implies(d, b));
            if self.prove(with(&rest, &[shorter]), inner)? {
                return self.prove(with(&rest, &[b]), goal);
            }
        }
        Some(false)
    }
}

fn with(context: &Context, more: &[usize]) -> Context {
    let mut wider = context.clone();
    wider.extend(more);
    wider
}

fn without(context: &Context, formula: usize) -> Context {
    let mut smaller = context.clone();
    smaller.remove(&formula);
    smaller
}

#[cfg(test)]
mod tests {
    use super::*;
    use crate::random::{formula, Random, Style};
    use crate::report::settle_text;
    use crate::search::Verdict;

    #[test]
    fn agrees_with_the_fixed_search() {
        let mut random = Random::new(7);
        for _ in 0..5_000 {
            let letters = 1 + random.below(4);
            let style = Style { letters, connectives: b"&|>>=~", falsehood: 8, spaces: 0, bare: 2 };
            let size = random.below(13);
            let text = formula(&mut random, &style, size);
            let settled = settle_text(&text).expect("a verdict");
            let valid = settled.answer.verdict == Verdict::Valid;
            assert_eq!(provable(&settled.formula, 20_000), Some(valid), "{}", text.escape_ascii());
        }
    }
}
