//! Clause tables that are hard for plain search. None has a model unless said.

use crate::naming::{single, Flat, Implication, Problem, FALSE};
use crate::random::Random;

pub struct Table {
    /// Without spaces.
    pub name: String,
    pub atoms: u8,
    pub rows: Vec<Flat>,
}

/// The tables that are timed.
pub fn all() -> Vec<Table> {
    vec![
        tseitin(20, 4, 1),
        tseitin(24, 4, 2),
        tseitin(28, 4, 3),
        tseitin(32, 4, 4),
        parity_chains(20, 1),
        parity_chains(22, 2),
        pigeonholes(9, 7),
        pebbling(7),
        ordering(11),
        random(4, 52, 508, 3),
        random(3, 64, 272, 2),
    ]
}

/// Smaller ones, to be compared; of the random clauses some have models, and so have four pigeons in four holes.
pub fn small() -> Vec<Table> {
    let mut tables = vec![
        tseitin(10, 4, 1),
        tseitin(12, 4, 2),
        tseitin(14, 4, 2),
        tseitin(24, 3, 1),
        parity_chains(8, 1),
        parity_chains(12, 2),
        parity_chains(16, 4),
        parity_chains(18, 3),
        pigeonholes(4, 4),
        pigeonholes(5, 4),
        pigeonholes(7, 6),
        pebbling(4),
        pebbling(6),
        ordering(6),
        ordering(9),
    ];
    tables.extend((1..=8).map(|seed| random(3, 20, 88, seed)));
    tables
}

/// An atom for each edge of a random graph: at vertex 0 an odd number of edges holds, at each other an even number.
pub fn tseitin(vertices: usize, degree: usize, seed: u64) -> Table {
    let edges = regular_graph(vertices, degree, &mut Random::new(seed));
    let mut table = Table::new(format!("tseitin-{vertices}-{degree}"), edges.len());
    for vertex in 0..vertices {
        let met = (0..).zip(&edges).filter(|(_, ends)| ends.contains(&vertex));
        let atoms: Vec<u8> = met.map(|(atom, _)| atom).collect();
        table.parity(&atoms, vertex == 0);
    }
    table
}

/// The edges of a graph with so many at each vertex, none twice and none from a vertex to itself.
fn regular_graph(vertices: usize, degree: usize, random: &mut Random) -> Vec<[usize; 2]> {
    let mut ends: Vec<usize> = (0..vertices * degree).map(|end| end / degree).collect();
    loop {
        random.shuffle(&mut ends);
        let edges: Vec<[usize; 2]> = ends.chunks_exact(2).map(|pair| [pair[0], pair[1]]).collect();
        let repeats = |place: usize| {
            let [one, other] = edges[place];
            edges[..place].iter().any(|edge| edge.contains(&one) && edge.contains(&other))
        };
        if !edges.iter().any(|[one, other]| one == other) && !(0..edges.len()).any(repeats) {
            return edges;
        }
    }
}

/// The exclusive or of the same letters in two orders, with contrary results.
pub fn parity_chains(letters: u8, seed: u64) -> Table {
    let mut random = Random::new(seed);
    let mut order: Vec<u8> = (0..letters).collect();
    let mut table = Table::new(format!("parity-chains-{letters}"), order.len());
    for odd in [false, true] {
        table.chain(&order, odd);
        random.shuffle(&mut order);
    }
    table
}

/// Each pigeon sits in a hole, no two in the same; there is a model where there are enough holes.
pub fn pigeonholes(pigeons: usize, holes: usize) -> Table {
    let mut table = Table::new(format!("pigeonholes-{pigeons}-{holes}"), pigeons * holes);
    let sits = |pigeon: usize, hole: usize| (pigeon * holes + hole) as u8;
    for pigeon in 0..pigeons {
        table.clause((0..holes).map(|hole| (sits(pigeon, hole), true)));
    }
    for hole in 0..holes {
        for pigeon in 0..pigeons {
            for other in 0..pigeon {
                table.clause([pigeon, other].map(|bird| (sits(bird, hole), false)));
            }
        }
    }
    table
}

/// A pyramid whose nodes are exclusive ors of two atoms each: the lowest hold, a node holds where the two below it do, and
/// the highest does not.
pub fn pebbling(height: u8) -> Table {
    let mut table = Table::new(format!("pebbling-{height}"), usize::from(height * (height + 1)));
    let node = |row: u8, place: u8| [0, 1].map(|half| row * (row + 1) + 2 * place + half);
    for place in 0..height {
        table.parity(&node(height - 1, place), true);
    }
    for row in 0..height - 1 {
        for place in 0..=row {
            table.pebble(node(row + 1, place), node(row + 1, place + 1), node(row, place));
        }
    }
    table.parity(&node(0, 0), false);
    table
}

/// An order of so many things, an atom for each pair, in which each comes after another one.
pub fn ordering(things: usize) -> Table {
    let mut table = Table::new(format!("ordering-{things}"), things * (things - 1) / 2);
    let pair = |high: usize, low: usize| (high * (high - 1) / 2 + low) as u8;
    let before = |one: usize, other: usize| (pair(one.max(other), one.min(other)), one > other);
    let not_before = |one: usize, other: usize| before(other, one);
    for first in 0..things {
        for second in first + 1..things {
            for third in (first + 1..things).filter(|&third| third != second) {
                table.clause([not_before(first, second), not_before(second, third), not_before(third, first)]);
            }
        }
    }
    for last in 0..things {
        table.clause((0..things).filter(|&thing| thing != last).map(|thing| before(thing, last)));
    }
    table
}

/// So many clauses of so many atoms, on either side of each; with a model or not.
pub fn random(width: usize, atoms: u8, clauses: usize, seed: u64) -> Table {
    let mut random = Random::new(seed);
    let mut drawn: Vec<u8> = (0..atoms).collect();
    let mut table = Table::new(format!("random-{width}-{atoms}-{clauses}"), drawn.len());
    for _ in 0..clauses {
        random.shuffle(&mut drawn);
        table.clause(drawn[..width].iter().map(|&atom| (atom, random.one_in(2))));
    }
    table
}

impl Table {
    fn new(name: String, atoms: usize) -> Table {
        Table { name, atoms: atoms as u8, rows: Vec::new() }
    }

    /// The clauses alone, with ⊥ for a goal.
    pub fn problem(&self) -> Problem {
        Problem { atoms: self.atoms, flats: self.rows.clone(), implications: Vec::new(), goal: FALSE }
    }

    /// The clauses under a guard, which each of some atoms brings: so none of these can hold, each is the a of an implication
    /// (a → ⊥) → c, and the atoms c together bring the goal. Every step of the search asks the same hard question.
    pub fn guarded(&self, steps: u8) -> Problem {
        let guard = self.atoms;
        let goal = guard + 2 * steps + 1;
        let brought = |step: u8| guard + 2 * step + 2;
        let under_guard = |row: &Flat| Flat { left: row.left | single(guard), ..*row };
        let brings = |a: u8| Flat { left: single(a), right: single(guard) };
        let all = Flat { left: (0..steps).map(|step| single(brought(step))).sum(), right: single(goal) };
        let implications: Vec<Implication> =
            (0..steps).map(|step| Implication { a: brought(step) - 1, b: FALSE, c: brought(step) }).collect();
        let mut flats: Vec<Flat> = self.rows.iter().map(under_guard).collect();
        flats.extend(implications.iter().map(|implication| brings(implication.a)));
        flats.push(all);
        Problem { atoms: goal + 1, flats, implications, goal }
    }

    /// One of these atoms is as said of it.
    fn clause(&mut self, literals: impl IntoIterator<Item = (u8, bool)>) {
        let mut row = Flat { left: 0, right: 0 };
        for (atom, holds) in literals {
            let side = if holds { &mut row.right } else { &mut row.left };
            *side |= single(atom);
        }
        self.rows.push(row);
    }

    /// The number of these atoms that hold is odd, or it is even: a clause against each choice of the other kind.
    fn parity(&mut self, atoms: &[u8], odd: bool) {
        let is_wrong = |chosen: &u64| (chosen.count_ones() % 2 == 1) != odd;
        for chosen in (0..1 << atoms.len()).filter(is_wrong) {
            self.clause(atoms.iter().enumerate().map(|(place, &atom)| (atom, chosen >> place & 1 == 0)));
        }
    }

    /// The same, by a further atom for the exclusive or of each beginning.
    fn chain(&mut self, letters: &[u8], odd: bool) {
        let [first, inner @ .., last] = letters else { return };
        let mut sum = *first;
        for &letter in inner {
            let next = self.atoms;
            self.atoms += 1;
            self.parity(&[sum, letter, next], false);
            sum = next;
        }
        self.parity(&[sum, *last], odd);
    }

    /// Where each of two nodes holds, a third one does.
    fn pebble(&mut self, left: [u8; 2], right: [u8; 2], above: [u8; 2]) {
        for [a, b] in [left, [left[1], left[0]]] {
            for [c, d] in [right, [right[1], right[0]]] {
                for holds in [false, true] {
                    let node = above.map(|atom| (atom, holds));
                    self.clause([(a, false), (b, true), (c, false), (d, true)].into_iter().chain(node));
                }
            }
        }
    }
}

/// The calls that open a session with these clauses and ask for the goal.
pub fn script_of(problem: &Problem) -> String {
    let Problem { atoms, flats, implications, goal } = problem;
    let flats = flats.iter().map(|Flat { left, right }| format!("flat {left} {right}\n"));
    let implications = implications.iter().map(|Implication { a, b, c }| format!("implication {a} {b} {c}\n"));
    let calls: String = flats.chain(implications).collect();
    format!("open {atoms}\n{calls}ask {goal}\n")
}

#[cfg(test)]
mod tests {
    use super::*;
    use crate::naming::MOST_FLATS;
    use crate::question::{proves, Clauses};

    #[test]
    fn all_fit() {
        for Table { name, atoms, rows } in all() {
            assert!(atoms <= 64 && rows.len() <= MOST_FLATS && !name.contains(' '), "{name}");
        }
    }

    #[test]
    fn small_ones_without_models() {
        let has_model = |table: &Table| !proves(&Clauses::new(&table.rows), table.atoms, 0, FALSE);
        for table in
            [tseitin(8, 4, 1), tseitin(10, 3, 2), parity_chains(8, 1), pigeonholes(5, 4), pebbling(4), ordering(5)]
        {
            assert!(!has_model(&table), "{}", table.name);
            // A table that is cut off at its last clause is not yet contrary.
            let cut = Table { rows: table.rows[..table.rows.len() - 1].to_vec(), ..table };
            assert!(has_model(&cut), "{}", cut.name);
        }
        assert!(has_model(&pigeonholes(4, 4)));
    }
}
