//! Prints the hostile tables for `bench/sat.c`: a line `name atoms rows`, then a line `left right` for each row.

use outside::hostile::{all, Table};
use outside::naming::Flat;

fn main() {
    for Table { name, atoms, rows } in all() {
        println!("{name} {atoms} {}", rows.len());
        for Flat { left, right } in rows {
            println!("{left} {right}");
        }
    }
}
