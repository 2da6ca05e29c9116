//! Forcing over the parts of a formula, at worlds ordered by inclusion.

use crate::formula::{Connective, Part};
use crate::naming::{atoms_of, single};

/// For each part the worlds that force it, by the letters that the worlds have.
fn forced(formula: &[Part], worlds: &[u64]) -> Vec<Vec<bool>> {
    let atoms = atoms_of(formula);
    let mut all: Vec<Vec<bool>> = Vec::new();
    for (part, &atom) in formula.iter().zip(&atoms) {
        let at = |world: usize| match *part {
            Part::False => false,
            Part::Letter(_) => worlds[world] & single(atom) != 0,
            Part::Join(connective, left, right) => {
                let (left, right) = (&all[left], &all[right]);
                let above = (0..worlds.len()).filter(|&v| worlds[world] & !worlds[v] == 0);
                match connective {
                    Connective::And => left[world] && right[world],
                    Connective::Or => left[world] || right[world],
                    Connective::Implies => above.into_iter().all(|v| !left[v] || right[v]),
                    Connective::Equal => above.into_iter().all(|v| left[v] == right[v]),
                }
            }
        };
        let row = (0..worlds.len()).map(at).collect();
        all.push(row);
    }
    all
}

/// Whether the first world is below all others and does not force the formula.
pub fn counters(formula: &[Part], worlds: &[u64]) -> bool {
    let rooted = worlds.iter().all(|world| worlds[0] & !world == 0);
    rooted && forced(formula, worlds).last().is_some_and(|row| !row[0])
}

/// Whether each world has the name of a part exactly if it forces the part.
pub fn names_agree(formula: &[Part], worlds: &[u64]) -> bool {
    let atoms = atoms_of(formula);
    let agrees = |(row, &atom): (&Vec<bool>, &u8)| {
        let has = |world: &u64| world & single(atom) != 0;
        row.iter().zip(worlds).all(|(&f, world)| f == has(world))
    };
    forced(formula, worlds).iter().zip(&atoms).all(agrees)
}

#[cfg(test)]
mod tests {
    use super::*;
    use crate::reader::read;

    #[test]
    fn worlds_that_counter() {
        let excluded_middle = read(b"p|~p").expect("a formula");
        assert!(counters(&excluded_middle, &[0, 5]));
        assert!(names_agree(&excluded_middle, &[0, 5]));
        assert!(!counters(&excluded_middle, &[0]));
        assert!(!counters(&excluded_middle, &[5, 0]));
        assert!(!names_agree(&excluded_middle, &[0, 1]));
        let peirce = read(b"((p>q)>p)>p").expect("a formula");
        assert!(counters(&peirce, &[0, 1]));
        assert!(!counters(&peirce, &[0]));
        assert!(names_agree(&peirce, &[0, 25, 20, 8]));
    }
}
