//! The lines of the benchmark about products given by rows (B5, B6, R15, R16, R17): what each is made of.

use crate::plain_rows;
use crate::random_products::{self, Draft, Size, FULL, LARGE, MEDIUM, SMALL};
use crate::sheets::{case_of, Dice};
use crate::tables::Line;

/// The last row is the first once more.
fn worst_repeated() -> Draft {
    let mut draft = random_products::worst();
    draft.rows[63] = draft.rows[0].clone();
    draft
}

/// Right products of a size.
fn right(seed: u64, size: Size, count: usize) -> Vec<Vec<u8>> {
    let mut dice = Dice::new(seed);
    (0..count)
        .map(|_| random_products::right(&mut dice, size).bytes())
        .collect()
}

/// Products of the generator up to a length that are refused by a number.
fn refused(number: u64, length: usize, count: usize) -> Vec<Vec<u8>> {
    let mut dice = Dice::new(31);
    (0..)
        .map(|k| case_of(random_products::KINDS, &mut dice, k).bytes)
        .filter(|bytes| bytes.len() <= length && plain_rows::read(bytes).err() == Some((number, 0)))
        .take(count)
        .collect()
}

fn cases() -> Vec<(&'static str, Vec<Vec<u8>>)> {
    vec![
        ("smallest product, 8 bytes", vec![random_products::smallest().bytes()]),
        (
            "running example of 002, 38 bytes",
            vec![random_products::running_example().bytes()],
        ),
        ("small: n 1-5, 1-12 rows", right(1, SMALL, 64)),
        ("middle: n 2-10, 4-40 rows", right(2, MEDIUM, 32)),
        ("large: n 6-16, 20-64 rows", right(3, LARGE, 16)),
        ("largest: n 16, 64 rows, 255 transitions each", right(4, FULL, 4)),
        (
            "worst: largest, rows that differ in the last component alone",
            vec![random_products::worst().bytes()],
        ),
        (
            "worst refused by 16: its last row as the first",
            vec![worst_repeated().bytes()],
        ),
        ("refused by 15, small", refused(15, 200, 64)),
        ("refused by 16, small", refused(16, 200, 64)),
        ("refused by 17, small", refused(17, 200, 64)),
    ]
}

/// The lines of the table of products.
pub fn lines() -> Vec<Line> {
    cases().into_iter().map(|(name, given)| (name.to_string(), given)).collect()
}
