//! Random formulas and bytes from a fixed seed.

pub struct Random(u64);

impl Random {
    pub fn new(seed: u64) -> Random {
        Random(seed)
    }

    /// Splitmix: a counter, mixed.
    pub fn draw(&mut self) -> u64 {
        self.0 = self.0.wrapping_add(0x9e37_79b9_7f4a_7c15);
        let mut z = self.0;
        z = (z ^ z >> 30).wrapping_mul(0xbf58_476d_1ce4_e5b9);
        z = (z ^ z >> 27).wrapping_mul(0x94d0_49bb_1331_11eb);
        z ^ z >> 31
    }

    pub fn below(&mut self, bound: usize) -> usize {
        (self.draw() % bound as u64) as usize
    }

    pub fn one_in(&mut self, bound: usize) -> bool {
        self.below(bound) == 0
    }

    pub fn pick<'a, T>(&mut self, choices: &'a [T]) -> &'a T {
        &choices[self.below(choices.len())]
    }

    pub fn shuffle<T>(&mut self, list: &mut [T]) {
        for last in (1..list.len()).rev() {
            list.swap(last, self.below(last + 1));
        }
    }
}

/// What random formulas are made of: each connective as often as it stands in `connectives`.
pub struct Style {
    pub letters: usize,
    pub connectives: &'static [u8],
    /// One operand in so many is `0`; none if 0.
    pub falsehood: usize,
    /// One place in so many has a space; none if 0.
    pub spaces: usize,
    /// One inner formula in so many goes without parentheses; none if 0.
    pub bare: usize,
}

/// Text of a formula with so many connectives, as `~`, `&`, `|`, `>` or `=`.
pub fn formula(random: &mut Random, style: &Style, connectives: usize) -> Vec<u8> {
    let mut text = Vec::new();
    write(random, style, connectives, &mut false, &mut text);
    text
}

/// An `=` stands at most once between the same parentheses: `equated` says whether it does.
fn write(random: &mut Random, style: &Style, connectives: usize, equated: &mut bool, text: &mut Vec<u8>) {
    if style.spaces > 0 && random.one_in(style.spaces) {
        text.push(b' ');
    }
    if connectives == 0 {
        let is_false = style.falsehood > 0 && random.one_in(style.falsehood);
        let letter = b'p' + random.below(style.letters) as u8;
        text.push(if is_false { b'0' } else { letter });
        return;
    }
    let mut connective = *random.pick(style.connectives);
    if connective == b'~' {
        text.push(b'~');
        return inner(random, style, connectives - 1, equated, text);
    }
    if connective == b'=' && *equated {
        connective = b'>';
    }
    *equated |= connective == b'=';
    let left = random.below(connectives);
    inner(random, style, left, equated, text);
    text.push(connective);
    inner(random, style, connectives - 1 - left, equated, text);
}

fn inner(random: &mut Random, style: &Style, connectives: usize, equated: &mut bool, text: &mut Vec<u8>) {
    let bare = connectives == 0 || style.bare > 0 && random.one_in(style.bare);
    if bare {
        return write(random, style, connectives, equated, text);
    }
    text.push(b'(');
    write(random, style, connectives, &mut false, text);
    text.push(b')');
}

/// Text put together from its own parts: long, with few different ones, and perhaps with more than are allowed.
pub fn repeating(random: &mut Random) -> Vec<u8> {
    let mut parts: Vec<Vec<u8>> = [b"p", b"q", b"r", b"0"].map(|leaf| leaf.to_vec()).to_vec();
    for _ in 0..random.below(80) {
        let other = random.pick(&parts);
        let last = &parts[parts.len() - 1];
        let joined = match random.pick(b"&|>>==~") {
            b'~' => [b"~", &last[..]].concat(),
            &connective if random.one_in(2) => [b"(", &other[..], &[connective], last, b")"].concat(),
            &connective => [b"(", &last[..], &[connective], other, b")"].concat(),
        };
        if joined.len() > 4_096 {
            break;
        }
        parts.push(joined);
    }
    parts.swap_remove(parts.len() - 1)
}

/// One or two bytes changed, mostly by one bit.
pub fn bytes_changed(random: &mut Random, original: &[u8]) -> Vec<u8> {
    let mut changed = original.to_vec();
    for _ in 0..1 + random.below(2) {
        let at = random.below(changed.len());
        let flipped = changed[at] ^ 1 << random.below(8);
        changed[at] = *random.pick(&[flipped, flipped, flipped, 0, 255]);
    }
    changed
}

#[cfg(test)]
mod tests {
    use super::*;
    use crate::reader::read;
    use crate::refusal::Refusal;

    /// Long texts are read, and some have too many parts.
    #[test]
    fn texts_that_repeat() {
        let mut random = Random::new(4);
        let texts: Vec<Vec<u8>> = (0..1_000).map(|_| repeating(&mut random)).collect();
        let long = texts.iter().filter(|text| text.len() > 2_000 && read(text).is_ok()).count();
        let large = texts.iter().filter(|text| read(text) == Err(Refusal::plain(4))).count();
        assert!(long > 500 && large > 20, "{long} {large}");
    }
}
