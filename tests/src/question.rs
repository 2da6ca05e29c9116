//! The classical question: the smallest model of flat clauses that includes a set and lacks an atom.
//!
//! The highest open atom is decided, false first, and every conflict is kept as a clause. All atoms above an open one
//! are then known or follow from decisions above it, so the model met first is the smallest.

use crate::naming::{single, Flat};

/// Flat clauses, with the rows that have each atom on the left and on the right.
pub struct Clauses {
    rows: Vec<Flat>,
    on_left: Vec<Vec<usize>>,
    on_right: Vec<Vec<usize>>,
}

impl Clauses {
    pub fn new(rows: &[Flat]) -> Clauses {
        let mut clauses = Clauses { rows: Vec::new(), on_left: vec![Vec::new(); 64], on_right: vec![Vec::new(); 64] };
        for &row in rows {
            clauses.push(row);
        }
        clauses
    }

    pub fn push(&mut self, row: Flat) {
        for atom in 0..64 {
            if row.left >> atom & 1 == 1 {
                self.on_left[atom].push(self.rows.len());
            }
            if row.right >> atom & 1 == 1 {
                self.on_right[atom].push(self.rows.len());
            }
        }
        self.rows.push(row);
    }

    fn hold_at(&self, model: u64) -> bool {
        let fails = |row: &Flat| row.left & !model == 0 && row.right & model == 0;
        !self.rows.iter().any(fails)
    }
}

/// Whether every model of the clauses that includes `given` has `asked`.
pub fn proves(clauses: &Clauses, atoms: u8, given: u64, asked: u8) -> bool {
    least(clauses, atoms, given, asked).is_none()
}

/// The smallest model of the clauses over the first `atoms` that includes `given` and lacks `lacked`.
pub fn least(clauses: &Clauses, atoms: u8, given: u64, lacked: u8) -> Option<u64> {
    let outside = if atoms < 64 { u64::MAX << atoms } else { 0 };
    let lacks = outside | single(lacked);
    if given & lacks != 0 {
        return None;
    }
    let mut state = State {
        clauses,
        kept: Vec::new(),
        has: given,
        lacks,
        levels: Vec::new(),
        trail: Vec::with_capacity(64),
        followed: 0,
    };
    clauses.rows.iter().try_for_each(|&row| state.visit(row)).ok()?;
    loop {
        match state.propagate() {
            Ok(()) if clauses.hold_at(state.has) => return Some(state.has),
            Ok(()) => state.decide(),
            Err(_) if state.levels.is_empty() => return None,
            Err(conflict) => state.learn(conflict),
        }
    }
}

/// An atom that became known by a decision (no reason) or by a clause.
struct Known {
    atom: u8,
    reason: Option<Flat>,
}

fn atoms_of(trail: &[Known]) -> u64 {
    trail.iter().fold(0, |all, known| all | single(known.atom))
}

struct State<'a> {
    clauses: &'a Clauses,
    kept: Vec<Flat>,
    has: u64,
    lacks: u64,
    /// Where in the trail each decision stands.
    levels: Vec<usize>,
    trail: Vec<Known>,
    /// How much of the trail has been followed into its clauses.
    followed: usize,
}

impl State<'_> {
    /// Takes what a clause says now; a clause that fails is a conflict.
    fn visit(&mut self, row: Flat) -> Result<(), Flat> {
        if row.left & self.lacks != 0 || row.right & self.has != 0 {
            return Ok(());
        }
        let left = row.left & !self.has;
        let right = row.right & !self.lacks;
        let open = left | right;
        if open == 0 {
            return Err(row);
        }
        if open & (open - 1) == 0 && left & right == 0 {
            self.lacks |= left;
            self.has |= right;
            self.trail.push(Known { atom: open.trailing_zeros() as u8, reason: Some(row) });
        }
        Ok(())
    }

    fn propagate(&mut self) -> Result<(), Flat> {
        loop {
            while let Some(known) = self.trail.get(self.followed) {
                self.followed += 1;
                let clauses = self.clauses;
                let rows = if self.has & single(known.atom) != 0 {
                    &clauses.on_left[usize::from(known.atom)]
                } else {
                    &clauses.on_right[usize::from(known.atom)]
                };
                for &row in rows {
                    self.visit(clauses.rows[row])?;
                }
            }
            for index in 0..self.kept.len() {
                self.visit(self.kept[index])?;
            }
            if self.followed == self.trail.len() {
                return Ok(());
            }
        }
    }

    fn decide(&mut self) {
        let open = !(self.has | self.lacks);
        let atom = 63 - open.leading_zeros() as u8;
        self.levels.push(self.trail.len());
        self.lacks |= single(atom);
        self.trail.push(Known { atom, reason: None });
    }

    /// Keeps the clause that a conflict comes down to, and goes back to where it first says something new.
    fn learn(&mut self, conflict: Flat) {
        let last_level = self.levels[self.levels.len() - 1];
        let decided = atoms_of(&self.trail[self.levels[0]..]);
        let recent = atoms_of(&self.trail[last_level..]);
        let mut atoms = (conflict.left | conflict.right) & decided;
        for known in self.trail[last_level..].iter().rev() {
            if (atoms & recent).count_ones() == 1 {
                break;
            }
            if let (Some(reason), true) = (known.reason, atoms & single(known.atom) != 0) {
                atoms |= (reason.left | reason.right) & decided;
                atoms &= !single(known.atom);
            }
        }
        self.kept.push(Flat { left: atoms & self.has, right: atoms & self.lacks });
        let older = atoms & !recent;
        let is_older = |known: &Known| single(known.atom) & older != 0;
        let end = self.trail.iter().rposition(is_older).map_or(0, |e| e + 1);
        self.undo(self.levels.partition_point(|&start| start < end));
    }

    /// Forgets everything from the given decision on.
    fn undo(&mut self, level: usize) {
        let start = self.levels[level];
        let gone = atoms_of(&self.trail[start..]);
        self.has &= !gone;
        self.lacks &= !gone;
        self.trail.truncate(start);
        self.levels.truncate(level);
        self.followed = start;
    }
}

#[cfg(test)]
mod tests {
    use super::*;
    use crate::naming::FALSE;
    use crate::random::Random;

    fn holds(rows: &[Flat], model: u64) -> bool {
        let holds = |row: &Flat| row.left & !model != 0 || row.right & model != 0;
        rows.iter().all(holds)
    }

    #[test]
    fn smallest_of_all_candidates() {
        let mut random = Random::new(1);
        for _ in 0..20_000 {
            let atoms = 1 + random.below(7) as u8;
            let size = 1u64 << atoms;
            let count = random.below(24);
            let set = |random: &mut Random| random.draw() & random.draw() & (size - 1);
            let rows: Vec<Flat> =
                (0..count).map(|_| Flat { left: set(&mut random), right: set(&mut random) }).collect();
            let given = set(&mut random) & set(&mut random);
            let lacked = if random.below(3) == 0 { FALSE } else { random.below(atoms as usize) as u8 };
            let wanted = (0..size).find(|m| given & !m == 0 && m & single(lacked) == 0 && holds(&rows, *m));
            let clauses = Clauses::new(&rows);
            assert_eq!(least(&clauses, atoms, given, lacked), wanted);
        }
    }
}
