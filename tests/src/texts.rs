//! Texts that are no formulas, or at the limits.

use crate::random::{formula, Random, Style};

pub const BYTES: &[u8] = b"pqrz ~&|>=0()(((~~~\n\r\t1PQ{`/\x00\x7f\x80\xff";
pub const CLOSE_TO_FORMULAS: &[u8] = b"pqr ~&|>=0()";

pub fn drawn(random: &mut Random, from: &[u8], length: usize) -> Vec<u8> {
    (0..length).map(|_| *random.pick(from)).collect()
}

/// A formula with one to three bytes changed, put in, taken out, or its end cut off.
pub fn damaged(random: &mut Random) -> Vec<u8> {
    let style = Style { letters: 4, connectives: b"&|>=~", falsehood: 8, spaces: 6, bare: 2 };
    let size = random.below(12);
    let mut input = formula(random, &style, size);
    for _ in 0..1 + random.below(3) {
        let at = random.below(input.len() + 1);
        let byte = *random.pick(BYTES);
        match random.below(4) {
            0 => input.insert(at, byte),
            1 => input.truncate(at),
            _ if at == input.len() => input.push(byte),
            2 => input[at] = byte,
            _ => drop(input.remove(at)),
        }
    }
    input
}

/// Parentheses within parentheses, where an `=` stands before, within or after some of them.
pub fn nested(random: &mut Random) -> Vec<u8> {
    let depth = random.below(70);
    let often = 2 + random.below(12);
    let operator = |random: &mut Random| *random.pick(b"===&|>");
    let mut input = Vec::new();
    for _ in 0..depth {
        if random.one_in(often) {
            input.extend([b'p', operator(random)]);
        }
        input.push(b'(');
    }
    input.push(b'q');
    for _ in 0..depth {
        match random.one_in(often) {
            true => input.extend([b')', operator(random), b'r']),
            false => input.push(b')'),
        }
    }
    input
}

/// A text that has every connective, parentheses within parentheses, and a space.
pub fn with_every_connective() -> Vec<u8> {
    [&b"((a>~b)&(c|0) = ~~(d>(e&f)))>".repeat(4)[..], b"g"].concat()
}

pub fn limits() -> Vec<Vec<u8>> {
    let mut all = Vec::new();
    for length in [0, 1, 2, 4095, 4096, 4097, 5000, 70_000] {
        for byte in b" ~(p0)" {
            all.push(vec![*byte; length]);
        }
        all.push([b"p".to_vec(), vec![b' '; length]].concat());
        all.push([vec![b' '; length], b"p".to_vec()].concat());
        all.push(b">p".repeat(length / 2));
        all.push([b"p".to_vec(), b">p".repeat(length / 2)].concat());
    }
    for count in 0..68 {
        all.push([&b"p=(".repeat(count)[..], b"p", &b")".repeat(count), b"=p"].concat());
        all.push([&b"(".repeat(count)[..], b"p", &b")=p".repeat(count)].concat());
    }
    for count in 60..68 {
        let (open, close) = (b"(".repeat(count), b")".repeat(count));
        all.push(open.clone());
        all.push([&open[..], b"p", &close].concat());
        all.push([b")", &open[..]].concat());
        all.push([b"p)", &open[..]].concat());
        all.push([&open[..], b"p", &close, b")"].concat());
        all.push([&open[..], b"p)&(q", &close].concat());
        for operand in [b"p", b"0"] {
            all.push([&b"~".repeat(count)[..], operand].concat());
            all.push([&b"p&".repeat(count)[..], operand].concat());
            all.push([&b"p|".repeat(count)[..], operand].concat());
            all.push([&b"p>".repeat(count)[..], operand].concat());
            all.push([&b"(p=".repeat(count / 3)[..], operand, &b")".repeat(count / 3)].concat());
        }
    }
    all
}
