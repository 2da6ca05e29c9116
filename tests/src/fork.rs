//! The first screen: a formula of at most three letters, worked out on the fork, which has a root and four tips above it.

use crate::reader::read;
use crate::refusal::Refusal;
use crate::shared::{Node, Shared};
use std::fmt;

const MOST_LETTERS: usize = 3;

/// The number of the set of all worlds; those before it are the sets of tips, where tip i counts 2^i.
const WHOLE: u8 = 16;

/// The worlds at or above each world, bit i for world i: the tips are 0 to 3, the root is 4.
const ABOVE: [u8; 5] = [1, 2, 4, 8, EVERYWHERE];
const EVERYWHERE: u8 = 31;

#[derive(Clone, Debug, PartialEq, Eq)]
pub enum Screened {
    Passes,
    /// Under this assignment, a set for each letter.
    Falls(Vec<u8>),
}

impl fmt::Display for Screened {
    fn fmt(&self, f: &mut fmt::Formatter) -> fmt::Result {
        match self {
            Screened::Passes => write!(f, "passes"),
            Screened::Falls(sets) => {
                write!(f, "falls")?;
                sets.iter().try_for_each(|set| write!(f, " {set}"))
            }
        }
    }
}

/// The line of a text's screening.
pub fn screen_line(text: &[u8]) -> String {
    match screen(text) {
        Ok(screened) => format!("{screened}\n"),
        Err(refusal) => format!("{refusal}\n"),
    }
}

pub fn screen(text: &[u8]) -> Result<Screened, Refusal> {
    let nodes = Shared::of(&read(text)?).0.nodes;
    let letters = nodes.iter().filter(|node| matches!(node, Node::Letter(_))).count();
    if letters > MOST_LETTERS {
        return Err(Refusal::plain(22));
    }
    Ok(first_fall(&nodes, letters, Vec::new()).map_or(Screened::Passes, Screened::Falls))
}

/// The first assignment that does not make the formula hold everywhere, among those that begin with these sets.
fn first_fall(nodes: &[Node], letters: usize, sets: Vec<u8>) -> Option<Vec<u8>> {
    if sets.len() == letters {
        return (forced(nodes, &sets) != EVERYWHERE).then_some(sets);
    }
    (0..=WHOLE).find_map(|set| first_fall(nodes, letters, [&sets[..], &[set]].concat()))
}

/// The worlds that force the last formula. The letters stand in the order of the text.
fn forced(nodes: &[Node], sets: &[u8]) -> u8 {
    let mut sets = sets.iter();
    let mut worlds: Vec<u8> = Vec::new();
    for node in nodes {
        worlds.push(match *node {
            Node::False => 0,
            Node::Letter(_) => worlds_of(*sets.next().expect("a set for each letter")),
            Node::And(a, b) => worlds[a] & worlds[b],
            Node::Or(a, b) => worlds[a] | worlds[b],
            Node::Implies(a, b) => implication(worlds[a], worlds[b]),
        });
    }
    worlds[worlds.len() - 1]
}

/// The worlds at and above which all that have a have b.
fn implication(a: u8, b: u8) -> u8 {
    let holds = |world: &usize| ABOVE[*world] & a & !b == 0;
    (0..ABOVE.len()).filter(holds).fold(0, |worlds, world| worlds | 1 << world)
}

fn worlds_of(set: u8) -> u8 {
    if set == WHOLE {
        EVERYWHERE
    } else {
        set
    }
}

#[cfg(test)]
mod tests {
    use super::*;
    use crate::corpus::entries;
    use crate::forcing::counters;
    use crate::random::{formula, Random, Style};
    use crate::sequent::provable;
    use std::collections::BTreeSet;
    use std::fs;

    const SETS: usize = WHOLE as usize + 1;

    #[test]
    fn known_formulas() {
        let cases = [
            ("p>p", "passes\n"),
            ("p|~p", "falls 1\n"),
            ("~p|~~p", "falls 1\n"),
            ("~~(p|~p)", "passes\n"),
            ("((p>q)>p)>p", "falls 15 0\n"),
            ("(p>q)|(q>p)", "falls 1 2\n"),
            ("(p>q|r)>(p>q)|(p>r)", "falls 3 1 2\n"),
            ("z>a", "falls 1 0\n"),
            ("a>z", "falls 1 0\n"),
            ("p", "falls 0\n"),
            ("~~p>p", "falls 15\n"),
            ("~~p=~~q", "falls 0 1\n"),
            ("0", "falls\n"),
            ("~0", "passes\n"),
            ("p|(p>q|~q)", "passes\n"),
        ];
        for (text, wanted) in cases {
            assert_eq!(screen_line(text.as_bytes()), wanted, "{text}");
        }
    }

    #[test]
    fn valid_formulas_pass() {
        let falls = |text: &str| matches!(screen(text.as_bytes()), Ok(Screened::Falls(_)));
        for entry in entries().filter(|entry| entry.valid) {
            assert!(!falls(entry.text), "{}", entry.name);
        }
    }

    #[test]
    fn refusals_in_order() {
        let negations = |count: usize, of: &str| "~".repeat(count) + of;
        let cases = [
            (String::new(), "refused 1\n"),
            ("(".repeat(65), "refused 2\n"),
            ("p|q|r|s".repeat(2), "refused 3 at 7\n"),
            (negations(64, "p"), "refused 4\n"),
            (negations(58, "(p|q|r|s)"), "refused 4\n"),
            (negations(57, "(p|q|r|s)"), "refused 22\n"),
            (negations(59, "(p|q|r)"), "falls 0 0 1\n"),
            ("p|q|r|s>0".into(), "refused 22\n"),
        ];
        for (text, wanted) in cases {
            assert_eq!(screen_line(text.as_bytes()), wanted, "{text}");
        }
    }

    /// The worlds as sets of letters, the root first; each tip also has an atom of its own, so that none includes another.
    fn model(sets: &[u8]) -> [u64; 5] {
        let letters = |world: usize| {
            let has = |&letter: &usize| worlds_of(sets[letter]) >> world & 1 == 1;
            (0..sets.len()).filter(has).fold(0, |letters, letter| letters | 1 << letter)
        };
        [letters(4), letters(0) | 1 << 60, letters(1) | 1 << 61, letters(2) | 1 << 62, letters(3) | 1 << 63]
    }

    /// All of so many letters, by their numbers in base 17.
    fn assignments(letters: u32) -> impl Iterator<Item = Vec<u8>> {
        let digits = move |number: usize| (0..letters).rev().map(move |place| (number / SETS.pow(place) % SETS) as u8);
        (0..SETS.pow(letters)).map(move |number| digits(number).collect())
    }

    /// A formula falls under the first assignment whose model counters it, and then it is not valid.
    #[test]
    fn random_formulas() {
        let mut random = Random::new(17);
        let mut falls = 0;
        for _ in 0..600 {
            let style =
                Style { letters: 1 + random.below(3), connectives: b"&|>>=~", falsehood: 8, spaces: 0, bare: 2 };
            let size = random.below(13);
            let text = formula(&mut random, &style, size);
            let formula = read(&text).expect("a formula");
            let letters: BTreeSet<&u8> = text.iter().filter(|byte| byte.is_ascii_lowercase()).collect();
            let first = assignments(letters.len() as u32).find(|sets| counters(&formula, &model(sets)));
            assert!(first.is_none() || provable(&formula, 20_000) == Some(false), "{}", text.escape_ascii());
            falls += usize::from(first.is_some());
            let wanted = first.map_or(Screened::Passes, Screened::Falls);
            assert_eq!(screen(&text), Ok(wanted), "{}", text.escape_ascii());
        }
        assert!((100..500).contains(&falls), "{falls}");
    }

    fn sets() -> impl Iterator<Item = u8> {
        (0..=WHOLE).map(worlds_of)
    }

    fn pairs() -> impl Iterator<Item = (u8, u8)> {
        sets().flat_map(|a| sets().map(move |b| (a, b)))
    }

    #[test]
    fn an_implication_is_the_greatest_set() {
        for (a, b) in pairs() {
            let within = sets().filter(|set| set & a & !b == 0);
            assert_eq!(implication(a, b), within.fold(0, |union, set| union | set), "{a} {b}");
        }
    }

    /// Entry 17 a + b is that of the sets a and b.
    fn implications() -> Vec<u8> {
        let number = |worlds: u8| if worlds == EVERYWHERE { WHOLE } else { worlds };
        pairs().map(|(a, b)| number(implication(a, b))).collect()
    }

    fn stored(name: &str) -> String {
        let path = format!("{}/../crates/{name}", env!("CARGO_MANIFEST_DIR"));
        fs::read_to_string(&path).unwrap_or_else(|error| panic!("{path}: {error}"))
    }

    fn numbers<'a>(words: impl Iterator<Item = &'a str>) -> Vec<u8> {
        words.map(|word| word.parse().expect("a number")).collect()
    }

    /// The table that the proved code holds.
    fn table_held() -> Vec<u8> {
        let source = stored("fork/src/implications.rt");
        let (_, entries) = source.split_once("[u8; SETS * SETS] = [").expect("the table");
        let (entries, _) = entries.split_once("];").expect("its end");
        let lines = entries.lines().map(|line| line.split("//").next().unwrap_or(line));
        numbers(lines.flat_map(|line| line.split(',')).map(str::trim).filter(|entry| !entry.is_empty()))
    }

    #[test]
    fn table_of_the_code() {
        assert_eq!(table_held(), implications());
    }

    /// What the proved program `fork_table` wrote from the definition.
    #[test]
    fn table_of_the_program() {
        let written = stored("fork_table/stdout");
        let rows: Vec<Vec<u8>> = written.lines().map(|line| numbers(line.split(' '))).collect();
        assert_eq!(rows.iter().map(Vec::len).collect::<Vec<_>>(), [SETS; SETS]);
        assert_eq!(rows.concat(), implications());
        assert_eq!(rows.concat(), table_held());
    }
}
