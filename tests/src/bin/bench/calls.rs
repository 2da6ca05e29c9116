//! Lists of calls on a session.

use crate::sets;
use outside::naming::{problem_of, Flat, Implication};
use outside::random::Random;
use outside::reader::read;

/// So many calls are in each list.
pub const CALLS: usize = 100_000;

#[link(name = "bench", kind = "static")]
extern "C" {
    fn zestanchor_calls(calls: *const u8, calls_len: usize, sets: *const u64, sets_len: usize) -> u64;
}

/// Calls as the proved library takes them, four bytes and two sets each, and as a script.
#[derive(Default)]
pub struct Calls {
    bytes: Vec<u8>,
    sets: Vec<u64>,
    pub script: String,
}

impl Calls {
    /// Rounds of calls, the last one cut off.
    fn repeated(mut round: impl FnMut(&mut Calls)) -> Calls {
        let mut calls = Calls::default();
        while calls.count() < CALLS {
            round(&mut calls);
        }
        calls.bytes.truncate(4 * CALLS);
        calls.sets.truncate(2 * CALLS);
        calls.script = calls.script.split_inclusive('\n').take(CALLS).collect();
        calls
    }

    fn count(&self) -> usize {
        self.bytes.len() / 4
    }

    fn push(&mut self, bytes: [u8; 4], sets: [u64; 2], line: String) {
        self.bytes.extend(bytes);
        self.sets.extend(sets);
        self.script.push_str(&line);
        self.script.push('\n');
    }

    fn open(&mut self, atoms: u8) {
        self.push([0, atoms, 0, 0], [0, 0], format!("open {atoms}"));
    }

    fn add_flat(&mut self, Flat { left, right }: Flat) {
        self.push([1, 0, 0, 0], [left, right], format!("flat {left} {right}"));
    }

    fn add_implication(&mut self, Implication { a, b, c }: Implication) {
        self.push([2, a, b, c], [0, 0], format!("implication {a} {b} {c}"));
    }

    fn ask(&mut self, goal: u8) {
        self.push([3, goal, 0, 0], [0, 0], format!("ask {goal}"));
    }

    /// Makes the calls without their text. How many were refused?
    pub fn make(&self) -> usize {
        let (bytes, sets) = (&self.bytes, &self.sets);
        // SAFETY: the library reads both tables within the lengths given with them.
        let refused = unsafe { zestanchor_calls(bytes.as_ptr(), bytes.len(), sets.as_ptr(), sets.len()) };
        refused as usize
    }
}

/// Sessions of 40 atoms that are nearly filled with clauses of three or four atoms.
pub fn flat_clauses() -> Calls {
    let mut random = Random::new(500);
    Calls::repeated(|calls| {
        calls.open(40);
        for _ in 0..500 {
            calls.add_flat(small_flat(&mut random, 40));
        }
    })
}

/// One session of three atoms, which is asked for each of them in turn.
pub fn questions() -> Calls {
    let mut goals = (0..3).cycle();
    Calls::repeated(|calls| {
        if calls.count() == 0 {
            calls.open(3);
            calls.add_flat(Flat { left: 1, right: 2 });
            calls.add_implication(Implication { a: 0, b: 1, c: 2 });
        }
        calls.ask(goals.next().expect("a goal"));
    })
}

/// Sessions of ten atoms with 20 clauses, five implications and ten questions.
pub fn mixed() -> Calls {
    let mut random = Random::new(36);
    Calls::repeated(|calls| {
        calls.open(10);
        for _ in 0..20 {
            calls.add_flat(small_flat(&mut random, 10));
        }
        for _ in 0..5 {
            let mut atom = || random.below(10) as u8;
            calls.add_implication(Implication { a: atom(), b: atom(), c: atom() });
        }
        for _ in 0..10 {
            calls.ask(random.below(10) as u8);
        }
    })
}

/// The clauses of formulas of the usual size, with the one question of each.
pub fn formulas() -> Calls {
    let formulas = sets::usual_size(300);
    let mut texts = formulas.iter().cycle();
    Calls::repeated(|calls| {
        let problem = problem_of(&read(texts.next().expect("a text")).expect("a formula"));
        let closings: Vec<Flat> = problem.implications.iter().filter_map(Implication::closing).collect();
        calls.open(problem.atoms);
        for &flat in problem.flats.iter().filter(|flat| !closings.contains(flat)) {
            calls.add_flat(flat);
        }
        for &implication in &problem.implications {
            calls.add_implication(implication);
        }
        calls.ask(problem.goal);
    })
}

/// A clause with two atoms on the left and one or two on the right.
fn small_flat(random: &mut Random, atoms: usize) -> Flat {
    let mut atom = || 1 << random.below(atoms);
    Flat { left: atom() | atom(), right: atom() | atom() }
}
