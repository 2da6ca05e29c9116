//! Scripts too long to be stored.

use outside::hostile::{script_of, small};
use outside::naming::{single, Flat, FALSE};
use outside::report::{certified, settle_text};
use outside::script::{hexadecimal, MOST_LINE_BYTES};
use outside::texts::with_every_connective;

/// A script of lines, each after a word.
fn script(word: &[u8], rest: impl Iterator<Item = Vec<u8>>) -> Vec<u8> {
    rest.flat_map(|rest| [word, b" ", &rest, b"\n"].concat()).collect()
}

/// The text with each of these bytes at each place.
fn changed(text: &[u8], bytes: impl Iterator<Item = u8> + Clone) -> Vec<u8> {
    let places = (0..text.len()).flat_map(|at| bytes.clone().map(move |byte| (at, byte)));
    let with = places.map(|(at, byte)| [&text[..at], &[byte], &text[at + 1..]].concat());
    script(b"text", with)
}

/// Each byte but the end of a line at each place of a text.
pub fn every_byte() -> Vec<u8> {
    changed(&with_every_connective(), (0..=255).filter(|&byte| byte != b'\n'))
}

/// A byte that no formula has at each place of a text as long as a text may be.
pub fn wrong_byte() -> Vec<u8> {
    let text = [&b"p>".repeat(2_047)[..], b"p "].concat();
    changed(&text, [b'!'].into_iter())
}

const FORMULAS: [&str; 7] = ["p>p", "p|~p", "((p>q)>p)>p", "0", "0>0", "~~(p|~p)", "(p>q)>~q>~p"];

/// Sheets with each byte raised by one and with its bits turned, cut at every length, and one byte too long.
pub fn damaged_sheets() -> Vec<u8> {
    let sheets = FORMULAS.iter().map(|text| certified(&settle_text(text.as_bytes())));
    let forms = sheets.flat_map(|sheet| {
        let with = |at: usize, byte: u8| [&sheet[..at], &[byte], &sheet[at + 1..]].concat();
        let places = 0..sheet.len();
        let raised = places.clone().map(|at| with(at, sheet[at].wrapping_add(1)));
        let turned = places.clone().map(|at| with(at, !sheet[at]));
        let cut = places.map(|length| sheet[..length].to_vec());
        let longer = [[&sheet[..], &[0]].concat(), sheet.clone()];
        raised.chain(turned).chain(cut).chain(longer).collect::<Vec<_>>()
    });
    script(b"check", forms.map(|sheet| hexadecimal(&sheet).into_bytes()))
}

/// Lines about as long as a line may be and far longer: calls, comments, blank ones and others.
pub fn long_lines() -> Vec<u8> {
    let forms: [(&[u8], u8, &[u8]); 19] = [
        (b"open ", b'0', b"7"),
        (b"open 7", b' ', b""),
        (b"", b' ', b"open 7"),
        (b"open ", b'1', b""),
        (b"flat 1", b' ', b"1"),
        (b"flat 1 ", b'0', b"18446744073709551615"),
        (b"text ", b' ', b"p"),
        (b"text ", b'~', b"p"),
        (b"screen ", b' ', b"p"),
        (b"check ", b'0', b""),
        (b"check 0", b'0', b""),
        (b"ask 0", b' ', b"by 7"),
        (b"page 0 by ", b'0', b"16"),
        (b"page by 7", b' ', b""),
        (b"mean ", b'0', b"7"),
        (b"length", b'h', b""),
        (b"", b'#', b"length"),
        (b"", b' ', b""),
        (b"", b' ', b"#"),
    ];
    let most = MOST_LINE_BYTES;
    let mut script = Vec::new();
    for (start, filler, end) in forms {
        for length in [most - 1, most, most + 1, most + 2, 2 * most, 2 * most + 1, 5 * most] {
            let filling = vec![filler; length - start.len() - end.len()];
            script.extend([start, &filling, end, b"\nlength\n"].concat());
        }
    }
    script
}

/// Pages of about as many goals as a page or a line may have, with an author and without; then one where at most one of 32 atoms
/// lacks at a root, which finds a model of 256 worlds for each of them, and has each goal a second time.
pub fn long_pages() -> Vec<u8> {
    let mut script = String::new();
    for by in ["", " by 15", " by 16"] {
        let most = (MOST_LINE_BYTES - "page".len() - by.len()) / " 0".len();
        let counts = [0, 1, 63, 64, 65, 255, 256, 257, 320, most - 1, most, most + 1];
        script += &counts.map(|count| format!("page{}{by}\nlength\nmean 15\n", " 0".repeat(count))).concat();
    }
    script += "open 40\n";
    for (a, b) in (0..32).flat_map(|b| (0..b).map(move |a| (a, b))) {
        script += &format!("flat 0 {}\n", single(a) | single(b));
    }
    for atom in 32..40 {
        script += &format!("implication {atom} {FALSE} {FALSE}\n");
    }
    let goals: String = (0..32).map(|goal| format!(" {goal}")).collect();
    script += &format!("page{goals}{goals}\nsheet\nmean 0\n");
    script.into_bytes()
}

/// Sessions over small hostile tables, whole and without their last clause, asked for ⊥ and for some atoms; the smallest also
/// under a guard, where every step asks the same.
pub fn hostile_sessions() -> Vec<u8> {
    let mut script = String::new();
    for table in small() {
        for rows in [&table.rows[..], &table.rows[..table.rows.len() - 1]] {
            script += &format!("open {}\n", table.atoms);
            script += &rows.iter().map(|Flat { left, right }| format!("flat {left} {right}\n")).collect::<String>();
            script += &(0..table.atoms).step_by(8).map(|goal| format!("ask {goal}\n")).collect::<String>();
            script += &format!("ask {FALSE}\n");
        }
        if table.atoms <= 24 {
            script += &script_of(&table.guarded(4));
        }
    }
    script.into_bytes()
}
