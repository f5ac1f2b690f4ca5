//! The plain fast version against the plain slow one of tests/second, on random sheets, products and columns: the
//! verdict with number and index, the sizes, the figure, the bytes written and every byte that must stay as it came.
//!
//! Usage: check-fast [SHEETS] [SEED]

#[path = "fast.rs"]
mod fast;
#[path = "fast_columns.rs"]
mod fast_columns;
#[path = "fast_rows.rs"]
mod fast_rows;
#[allow(dead_code)]
#[path = "../tests/second/plain.rs"]
mod plain;
#[allow(dead_code)]
#[path = "../tests/second/plain_columns.rs"]
mod plain_columns;
#[allow(dead_code)]
#[path = "../tests/second/plain_rows.rs"]
mod plain_rows;
#[allow(dead_code)]
#[path = "../tests/second/random_columns.rs"]
mod random_columns;
#[allow(dead_code)]
#[path = "../tests/second/random_products.rs"]
mod random_products;
#[allow(dead_code)]
#[path = "../tests/second/sheets.rs"]
mod sheets;
#[allow(dead_code)]
#[path = "../tests/second/tally.rs"]
mod tally;

use sheets::Dice;
use tally::{argument, hex, Tally};

fn main() {
    let (count, seed) = (argument(1, 20_000), argument(2, 12));
    let mut dice = Dice::new(seed);
    let mut tally = Tally::new();
    let (mut accepted, mut right, mut joined) = (0, 0, 0);
    for number in 0..count as usize {
        let case = sheets::case(&mut dice, number);
        let sheet = &case.bytes;
        let verdict = plain::verdict(sheet);
        accepted += verdict.is_ok() as u64;

        let sizes = verdict.as_ref().map(|v| [v.n, v.m, v.t, v.s].map(|size| size as u64));
        valued(&mut tally, &format!("check, {}", case.kind), sheet, sizes, fast::check);
        let figure = verdict.as_ref().map(|v| [v.figure()]);
        valued(&mut tally, &format!("figure, {}", case.kind), sheet, figure, fast::figure);
        let restated = verdict.map(|v| v.restated());
        let restate = |out: &mut [u8], answer: &mut [u64]| fast::restate(sheet, out, answer);
        written(&mut tally, &mut dice, case.kind, &[sheet], restated, restate);
        let case = sheets::case_of(random_products::KINDS, &mut dice, number);
        let product = &case.bytes;
        let sheet = plain_rows::rows(product);
        right += sheet.is_ok() as u64;
        let rows = |out: &mut [u8], answer: &mut [u64]| fast_rows::rows(product, out, answer);
        written(&mut tally, &mut dice, case.kind, &[product], sheet, rows);
        let case = sheets::case_of(random_columns::KINDS, &mut dice, number);
        let (sheet, columns) = &case.bytes;
        let made = plain_columns::columns(sheet, columns);
        joined += made.is_ok() as u64;
        let join = |out: &mut [u8], answer: &mut [u64]| fast_columns::columns(sheet, columns, out, answer);
        written(&mut tally, &mut dice, case.kind, &[sheet, columns], made, join);
    }
    print!("{count} sheets, {accepted} of them accepted; as many products, {right} of them accepted; ");
    println!("as many columns, {joined} of them accepted");
    tally.finish()
}

/// A call that has N values and writes nothing else. A refused one leaves the array for them as it came.
fn valued<const N: usize>(
    tally: &mut Tally,
    name: &str,
    sheet: &[u8],
    asked: Result<[u64; N], &plain::Refusal>,
    call: fn(&[u8], &mut [u64]) -> u64,
) {
    let meant = match asked {
        Ok(values) => (0, values),
        Err(&refusal) => (fast::told(refusal), [u64::MAX; N]),
    };
    let mut answer = [u64::MAX; N];
    let told = call(sheet, &mut answer);
    tally.check((told, answer) == meant, || {
        format!("{name}: {told} {answer:?}, not {meant:?}: {}", hex(sheet))
    });
}

/// A call that writes: with an output that is long enough, the shortest one, and one that is a byte too short.
fn written(
    tally: &mut Tally,
    dice: &mut Dice,
    kind: &str,
    given: &[&[u8]],
    asked: Result<Vec<u8>, plain::Refusal>,
    call: impl Fn(&mut [u8], &mut [u64]) -> u64,
) {
    let needed = asked.as_ref().map_or(given[0].len(), |bytes| bytes.len());
    for room in [needed + dice.below(64), needed, needed.saturating_sub(1)] {
        let before = dice.bytes(room);
        let mut expected = before.clone();
        let meant = match asked.as_ref().map(|bytes| plain::write_into(bytes, &mut expected)) {
            Ok(Ok(size)) => (0, [size as u64]),
            Ok(Err((number, index))) | Err(&(number, index)) => (number | (index as u64) << 16, [u64::MAX]),
        };
        let (mut out, mut answer) = (before, [u64::MAX]);
        let told = call(&mut out, &mut answer);
        tally.check((told, answer) == meant && out == expected, || {
            let given: Vec<String> = given.iter().map(|bytes| hex(bytes)).collect();
            format!("{kind}: {told} {answer:?}, not {meant:?}: {}", given.join(" "))
        });
    }
}
