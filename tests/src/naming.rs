//! A formula to a clausal sequent: an atom for each letter, a name for each other formula among its parts, and the clauses of each name.

use crate::formula::Part;
use crate::shared::{Node, Shared};

/// False, where a number of an atom may stand for it.
pub const FALSE: u8 = 255;

pub const MOST_FLATS: usize = 512;
pub const MOST_IMPLICATIONS: usize = 128;

#[derive(Clone, Copy, Debug, PartialEq, Eq)]
pub struct Flat {
    pub left: u64,
    pub right: u64,
}

/// (a → b) → c.
#[derive(Clone, Copy, Debug, PartialEq, Eq)]
pub struct Implication {
    pub a: u8,
    pub b: u8,
    pub c: u8,
}

impl Implication {
    pub fn closing(&self) -> Option<Flat> {
        (self.b != FALSE).then(|| Flat { left: single(self.b), right: single(self.c) })
    }
}

#[derive(Clone, Debug, PartialEq, Eq)]
pub struct Problem {
    pub atoms: u8,
    pub flats: Vec<Flat>,
    pub implications: Vec<Implication>,
    pub goal: u8,
}

/// The set of one atom; nothing is in the set of false.
pub fn single(atom: u8) -> u64 {
    if atom == FALSE {
        0
    } else {
        1 << atom
    }
}

pub fn problem_of(formula: &[Part]) -> Problem {
    let (shared, numbers) = Shared::of(formula);
    let atoms = numbered(&shared);
    let goal = atoms[numbers[numbers.len() - 1]];
    let mut problem =
        Problem { atoms: shared.atom_count().max(1) as u8, flats: Vec::new(), implications: Vec::new(), goal };
    for (node, &x) in shared.nodes.iter().zip(&atoms) {
        match *node {
            Node::False | Node::Letter(_) => {}
            Node::And(y, z) => problem.and(x, atoms[y], atoms[z]),
            Node::Or(y, z) => problem.or(x, atoms[y], atoms[z]),
            Node::Implies(y, z) => problem.implies(x, atoms[y], atoms[z]),
        }
    }
    problem
}

/// The atom of each formula, false for ⊥: letters first, then names.
fn numbered(shared: &Shared) -> Vec<u8> {
    let is_letter = |node: &&Node| matches!(node, Node::Letter(_));
    let mut letter = 0;
    let mut name = shared.nodes.iter().filter(is_letter).count() as u8;
    let mut next = |node: &Node| {
        let counter = match node {
            Node::False => return FALSE,
            Node::Letter(_) => &mut letter,
            _ => &mut name,
        };
        *counter += 1;
        *counter - 1
    };
    shared.nodes.iter().map(|node| next(node)).collect()
}

/// The atom of each part.
pub fn atoms_of(formula: &[Part]) -> Vec<u8> {
    let (shared, numbers) = Shared::of(formula);
    let atoms = numbered(&shared);
    numbers.iter().map(|&number| atoms[number]).collect()
}

impl Problem {
    pub fn has_set(&self, set: u64) -> bool {
        self.atoms == 64 || set >> self.atoms == 0
    }

    pub fn has_atom_or_false(&self, atom: u8) -> bool {
        atom < self.atoms || atom == FALSE
    }

    pub fn has_atoms_of(&self, implication: &Implication) -> bool {
        let Implication { a, b, c } = *implication;
        a < self.atoms && self.has_atom_or_false(b) && self.has_atom_or_false(c)
    }

    fn and(&mut self, x: u8, y: u8, z: u8) {
        self.flat(&[x], &[y]);
        self.flat(&[x], &[z]);
        self.flat(&[y, z], &[x]);
    }

    fn or(&mut self, x: u8, y: u8, z: u8) {
        self.flat(&[x], &[y, z]);
        self.flat(&[y], &[x]);
        self.flat(&[z], &[x]);
    }

    fn implies(&mut self, x: u8, y: u8, z: u8) {
        if y == FALSE {
            return self.flat(&[], &[x]);
        }
        self.flat(&[x, y], &[z]);
        self.implications.push(Implication { a: y, b: z, c: x });
        self.flat(&[z], &[x]);
    }

    /// Holds a flat clause, unless false is on its left.
    fn flat(&mut self, left: &[u8], right: &[u8]) {
        let set = |atoms: &[u8]| atoms.iter().fold(0, |all, &atom| all | single(atom));
        if !left.contains(&FALSE) {
            self.flats.push(Flat { left: set(left), right: set(right) });
        }
    }
}

#[cfg(test)]
mod tests {
    use super::*;
    use crate::reader::read;

    fn problem(text: &str) -> Problem {
        problem_of(&read(text.as_bytes()).expect(text))
    }

    #[test]
    fn names_of_an_equivalence() {
        let p = problem("~p=q&p");
        assert_eq!((p.atoms, p.goal), (7, 6));
        let rows: Vec<(u8, u8, u8)> = p.implications.iter().map(|i| (i.a, i.b, i.c)).collect();
        assert_eq!(rows, [(0, FALSE, 2), (2, 3, 4), (3, 2, 5)]);
    }

    #[test]
    fn equal_parts_share_a_name() {
        let p = problem("(p=p)&(p=p)");
        assert_eq!((p.atoms, p.goal), (4, 3));
        let flats: Vec<(u64, u64)> = p.flats.iter().map(|f| (f.left, f.right)).collect();
        assert_eq!(flats, [(3, 1), (1, 2), (4, 2), (4, 2), (2, 4), (8, 4), (8, 4), (4, 8)]);
        assert_eq!(p.implications, [Implication { a: 0, b: 0, c: 1 }]);
    }

    #[test]
    fn false_in_clauses() {
        let p = problem("0&p");
        let rows: Vec<(u64, u64)> = p.flats.iter().map(|f| (f.left, f.right)).collect();
        assert_eq!(rows, [(2, 0), (2, 1)]);
        let p = problem("0>p");
        let rows: Vec<(u64, u64)> = p.flats.iter().map(|f| (f.left, f.right)).collect();
        assert_eq!(rows, [(0, 2)]);
        assert!(p.implications.is_empty());
        assert_eq!((problem("0").atoms, problem("0").goal), (1, FALSE));
    }
}
