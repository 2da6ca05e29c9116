//! Formulas with `=` opened, each once: equal formulas have one number.

use crate::formula::{Connective, Part};
use std::collections::HashMap;

#[derive(Clone, Copy, Debug, PartialEq, Eq, Hash)]
pub enum Node {
    False,
    Letter(u8),
    And(usize, usize),
    Or(usize, usize),
    Implies(usize, usize),
}

/// The formulas in the order in which they were first met: inner before outer.
#[derive(Default)]
pub struct Shared {
    pub nodes: Vec<Node>,
    numbers: HashMap<Node, usize>,
}

impl Shared {
    /// The formulas that a formula has as parts, and the number of each part's.
    pub fn of(formula: &[Part]) -> (Shared, Vec<usize>) {
        let mut shared = Shared::default();
        let mut numbers: Vec<usize> = Vec::new();
        for part in formula {
            numbers.push(match *part {
                Part::False => shared.number(Node::False),
                Part::Letter(letter) => shared.number(Node::Letter(letter)),
                Part::Join(connective, left, right) => shared.join(connective, numbers[left], numbers[right]),
            });
        }
        (shared, numbers)
    }

    pub fn number(&mut self, node: Node) -> usize {
        let next = self.nodes.len();
        let number = *self.numbers.entry(node).or_insert(next);
        if number == next {
            self.nodes.push(node);
        }
        number
    }

    fn join(&mut self, connective: Connective, left: usize, right: usize) -> usize {
        match connective {
            Connective::And => self.number(Node::And(left, right)),
            Connective::Or => self.number(Node::Or(left, right)),
            Connective::Implies => self.number(Node::Implies(left, right)),
            Connective::Equal => {
                let forth = self.number(Node::Implies(left, right));
                let back = self.number(Node::Implies(right, left));
                self.number(Node::And(forth, back))
            }
        }
    }

    /// Letters and names together: all but false.
    pub fn atom_count(&self) -> usize {
        self.nodes.iter().filter(|node| **node != Node::False).count()
    }
}

#[cfg(test)]
mod tests {
    use super::*;
    use crate::reader::read;

    fn nodes(text: &str) -> Vec<Node> {
        Shared::of(&read(text.as_bytes()).expect(text)).0.nodes
    }

    #[test]
    fn equal_formulas_have_one_number() {
        let (p, q) = (Node::Letter(b'p'), Node::Letter(b'q'));
        assert_eq!(nodes("p&q|p&q"), [p, q, Node::And(0, 1), Node::Or(2, 2)]);
        assert_eq!(nodes("p&q|q&p"), [p, q, Node::And(0, 1), Node::And(1, 0), Node::Or(2, 3)]);
        assert_eq!(nodes("~p=(p>0)"), nodes("(p>0)=~p"));
        assert_eq!(nodes("p=p"), [p, Node::Implies(0, 0), Node::And(1, 1)]);
        assert_eq!(
            nodes("(p=q)>(p>q)"),
            [p, q, Node::Implies(0, 1), Node::Implies(1, 0), Node::And(2, 3), Node::Implies(4, 2)]
        );
    }
}
