//! Certificates (the answer sheets of document 01): written of an answer, and judged whoever made them.

use crate::naming::{single, Flat, Implication, Problem, MOST_FLATS, MOST_IMPLICATIONS};
use crate::question::{proves, Clauses};
use crate::refusal::Refusal;
use crate::search::{learned, realizes, Answer, Step, Verdict, MOST_STEPS, MOST_WORLDS};

const CONTENTS: usize = 37;

/// A certificate read: the problem with what is claimed of it.
struct Certificate {
    problem: Problem,
    claim: Claim,
}

enum Claim {
    Derived(Vec<Step>),
    Countered(Vec<u64>),
}

pub fn write(problem: &Problem, answer: &Answer) -> Vec<u8> {
    let mut clauses = vec![problem.atoms];
    for flat in &problem.flats {
        clauses.extend(flat.left.to_le_bytes());
        clauses.extend(flat.right.to_le_bytes());
    }
    let implications = problem.implications.iter().flat_map(|i| [i.a, i.b, i.c]);
    let (kind, rows) = match &answer.verdict {
        Verdict::Valid => (4, answer.steps.iter().flat_map(step_bytes).collect()),
        Verdict::Refuted(worlds) => (5, worlds.iter().flat_map(|w| w.to_le_bytes()).collect()),
    };
    let bodies: [(u8, Vec<u8>); 4] = [(1, clauses), (2, implications.collect()), (3, vec![problem.goal]), (kind, rows)];
    let mut certificate = vec![bodies.len() as u8];
    let mut start = CONTENTS;
    for (kind, body) in &bodies {
        certificate.push(*kind);
        certificate.extend((start as u32).to_le_bytes());
        certificate.extend((body.len() as u32).to_le_bytes());
        start += body.len();
    }
    certificate.extend(bodies.into_iter().flat_map(|(_, body)| body));
    certificate
}

/// A certificate that claims these steps to be a derivation, right or not.
pub fn claiming(problem: &Problem, steps: Vec<Step>) -> Vec<u8> {
    write(problem, &Answer { verdict: Verdict::Valid, steps, questions: 0 })
}

fn step_bytes(step: &Step) -> Vec<u8> {
    let mut bytes = vec![step.implication];
    bytes.extend(step.assumed.to_le_bytes());
    bytes
}

/// What the checker prints.
pub fn verdict_line(bytes: &[u8]) -> String {
    match judge(bytes) {
        Ok(word) => format!("accepted {word}\n"),
        Err(refusal) => format!("{refusal}\n"),
    }
}

fn judge(bytes: &[u8]) -> Result<&'static str, Refusal> {
    let certificate = parse(bytes).ok_or(Refusal::plain(13))?;
    if !certificate.in_range() {
        return Err(Refusal::plain(14));
    }
    if !closed(&certificate.problem) {
        return Err(Refusal::plain(15));
    }
    let (word, wrong) = match &certificate.claim {
        Claim::Derived(steps) => ("valid", wrong_step(&certificate.problem, steps)),
        Claim::Countered(worlds) => ("refuted", wrong_world(&certificate.problem, worlds)),
    };
    match wrong {
        None => Ok(word),
        Some(place) => Err(Refusal::at(16, place)),
    }
}

/// The four bodies with their kinds, if starts and lengths are exact.
fn bodies(bytes: &[u8]) -> Option<[(u8, &[u8]); 4]> {
    if bytes.len() < CONTENTS || bytes[0] != 4 {
        return None;
    }
    let number = |at: usize| u32::from_le_bytes([0, 1, 2, 3].map(|k| bytes[at + k])) as usize;
    let mut found: [(u8, &[u8]); 4] = [(0, &[]); 4];
    let mut position = CONTENTS;
    for (entry, body) in found.iter_mut().enumerate() {
        let at = 1 + 9 * entry;
        if number(at + 1) != position {
            return None;
        }
        let end = position.checked_add(number(at + 5))?;
        *body = (bytes[at], bytes.get(position..end)?);
        position = end;
    }
    (position == bytes.len()).then_some(found)
}

/// Rows of one length, or nothing if they do not come out even.
fn rows<T>(body: &[u8], length: usize, row: impl Fn(&[u8]) -> T) -> Option<Vec<T>> {
    let chunks = body.chunks_exact(length);
    chunks.remainder().is_empty().then(|| chunks.map(row).collect())
}

fn set_at(row: &[u8], at: usize) -> u64 {
    (0..8).fold(0, |set, k| set | u64::from(row[at + k]) << (8 * k))
}

fn parse(bytes: &[u8]) -> Option<Certificate> {
    let [(1, clauses), (2, implications), (3, &[goal]), (kind, last)] = bodies(bytes)? else {
        return None;
    };
    let (&atoms, flats) = clauses.split_first()?;
    let problem = Problem {
        atoms,
        flats: rows(flats, 16, |r| Flat { left: set_at(r, 0), right: set_at(r, 8) })?,
        implications: rows(implications, 3, |r| Implication { a: r[0], b: r[1], c: r[2] })?,
        goal,
    };
    let claim = match kind {
        4 => Claim::Derived(rows(last, 9, |r| Step { implication: r[0], assumed: set_at(r, 1) })?),
        5 if !last.is_empty() => Claim::Countered(rows(last, 8, |r| set_at(r, 0))?),
        _ => return None,
    };
    Some(Certificate { problem, claim })
}

impl Certificate {
    fn in_range(&self) -> bool {
        let problem = &self.problem;
        let Problem { atoms, flats, implications, goal } = problem;
        let step = |s: &Step| usize::from(s.implication) < implications.len() && problem.has_set(s.assumed);
        (1..=64).contains(atoms)
            && flats.len() <= MOST_FLATS
            && flats.iter().all(|f| problem.has_set(f.left | f.right))
            && implications.len() <= MOST_IMPLICATIONS
            && implications.iter().all(|i| problem.has_atoms_of(i))
            && problem.has_atom_or_false(*goal)
            && match &self.claim {
                Claim::Derived(steps) => steps.len() <= MOST_STEPS && steps.iter().all(step),
                Claim::Countered(worlds) => worlds.len() <= MOST_WORLDS && worlds.iter().all(|&w| problem.has_set(w)),
            }
    }
}

fn closed(problem: &Problem) -> bool {
    let held = |flat: Flat| problem.flats.contains(&flat);
    let implications = &problem.implications;
    implications.iter().all(|i| i.closing().is_none_or(held))
}

fn wrong_step(problem: &Problem, steps: &[Step]) -> Option<usize> {
    let mut known = Clauses::new(&problem.flats);
    for (place, step) in steps.iter().enumerate() {
        let implication = &problem.implications[usize::from(step.implication)];
        if !proves(&known, problem.atoms, step.assumed, implication.b) {
            return Some(place);
        }
        known.push(learned(implication, step.assumed));
    }
    let derived = proves(&known, problem.atoms, 0, problem.goal);
    (!derived).then_some(steps.len())
}

fn wrong_world(problem: &Problem, worlds: &[u64]) -> Option<usize> {
    let right = |place: usize| {
        let world = worlds[place];
        let holds = |flat: &Flat| flat.left & !world != 0 || flat.right & world != 0;
        let implications = &problem.implications;
        !worlds[..place].contains(&world)
            && worlds[0] & !world == 0
            && (place > 0 || world & single(problem.goal) == 0)
            && problem.flats.iter().all(holds)
            && implications.iter().all(|i| realizes(world, worlds, i))
    };
    (0..worlds.len()).find(|&place| !right(place))
}

#[cfg(test)]
mod tests {
    use super::*;
    use crate::report::settle_text;

    fn certificate(text: &str) -> Vec<u8> {
        let settled = settle_text(text.as_bytes()).expect(text);
        write(&settled.problem, &settled.answer)
    }

    #[test]
    fn written_certificates_are_accepted() {
        assert_eq!(certificate("p>p").len(), 83);
        for text in ["p>p", "0>0", "p>q>p", "(p>q)=(~q>~p)|~~p&p"] {
            let settled = settle_text(text.as_bytes()).expect(text);
            let word = match settled.answer.verdict {
                Verdict::Valid => "accepted valid\n",
                Verdict::Refuted(_) => "accepted refuted\n",
            };
            assert_eq!(verdict_line(&certificate(text)), word, "{text}");
        }
    }

    #[test]
    fn refusals_in_order() {
        let valid = certificate("p>p");
        let refuted = certificate("p|~p");
        let changed = |certificate: &[u8], at: usize, byte: u8| {
            let mut copy = certificate.to_vec();
            copy[at] = byte;
            verdict_line(&copy)
        };
        assert_eq!(verdict_line(&[]), "refused 13\n");
        assert_eq!(verdict_line(&valid[..82]), "refused 13\n");
        assert_eq!(changed(&valid, 0, 3), "refused 13\n");
        assert_eq!(changed(&valid, 37, 65), "refused 14\n");
        assert_eq!(changed(&valid, 37, 0), "refused 14\n");
        assert_eq!(changed(&valid, 70, 2), "refused 14\n");
        assert_eq!(changed(&valid, 62, 0), "refused 15\n");
        assert_eq!(changed(&valid, 75, 0), "refused 16 at 0\n");
        assert_eq!(changed(&valid, 73, 0), "refused 16 at 1\n");
        assert_eq!(changed(&refuted, refuted.len() - 8, 0), "refused 16 at 0\n");
    }
}
