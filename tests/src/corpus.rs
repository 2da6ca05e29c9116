//! The formulas of `formulas.txt`: a verdict, a formula and a name to a line, `#` before a heading.

pub struct Entry {
    pub valid: bool,
    pub text: &'static str,
    pub name: &'static str,
}

pub fn entries() -> impl Iterator<Item = Entry> {
    include_str!("../formulas.txt").lines().filter(|line| !line.is_empty() && !line.starts_with('#')).map(entry)
}

fn entry(line: &'static str) -> Entry {
    let columns: Vec<&str> = line.split('\t').collect();
    let (valid, text, name) = match columns[..] {
        ["valid", text, name] => (true, text, name),
        ["refuted", text, name] => (false, text, name),
        _ => panic!("no entry of formulas.txt: {line}"),
    };
    Entry { valid, text, name }
}

#[cfg(test)]
mod tests {
    use super::*;
    use crate::reader::read;
    use crate::sequent::provable;

    /// All but a few large ones are within the reach of the sequent prover.
    #[test]
    fn verdicts_by_the_sequent_prover() {
        let mut out_of_reach = Vec::new();
        for entry in entries() {
            let formula = read(entry.text.as_bytes()).expect(entry.text);
            match provable(&formula, 20_000) {
                Some(verdict) => assert_eq!(verdict, entry.valid, "{}", entry.name),
                None => out_of_reach.push(entry.name),
            }
        }
        assert!(out_of_reach.len() < 8, "{out_of_reach:?}");
    }
}
