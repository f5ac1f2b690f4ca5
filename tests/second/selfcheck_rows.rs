//! Products given by rows, in the self check: the running example of 002, outputs of every length, and generated products with what
//! is meant and what is promised of each sheet (B1 to B10, R13, R15, R16, R17, O8).

use crate::firing;
use crate::plain;
use crate::random_products::{self, running_example};
use crate::plain_rows::{self, Product};
use crate::sheets::{case_of, Dice, Meant};
use crate::tally::{hex, Tally};
use std::collections::BTreeMap;

/// Every part about products.
pub fn products(tally: &mut Tally, dice: &mut Dice, count: usize) {
    worked(tally);
    tally.part("worked products");
    lent_output(tally);
    tally.part("products into lent output");
    generated(tally, dice, count);
    tally.part("generated products");
}

/// B3, B4, B7 to B9: the running example byte by byte, what can be fired in it, and what is independent.
fn worked(tally: &mut Tally) {
    let bytes = running_example().bytes();
    tally.check(bytes.len() == 2 + 3 + 10 + 3 + 6 + 14, || "38 bytes".into());
    #[rustfmt::skip]
    let sheet = [
        4, 0, 0, 0, 1, 0, 0, 0, 0b001_1111, 0, 0, 0, 0, 0, 0, 0,
        3, 0, 0, 0, 1, 0, 0, 0, 0b110_1100, 0, 0, 0, 0, 0, 0, 0,
        0, 0, 0, 1,  0, 0, 1, 2,  0, 1, 2, 3,  0, 2, 3, 3,  0, 3, 4, 0,
        1, 0, 5, 1,  1, 1, 2, 2,  1, 1, 3, 2,  1, 2, 6, 0,
        0, 0, 32, 0, 68, 0, 2, 7, 0x46, 0x53,
    ];
    tally.check(plain_rows::rows(&bytes) == Ok(sheet.to_vec()), || {
        format!("the running example became {:?}", plain_rows::rows(&bytes))
    });
    let product = plain_rows::read(&bytes).expect("the running example is right");
    tally.check(firing::fired_list(&product, &[0, 5, 2]) == Ok(vec![3, 2]), || {
        "t1, u1, then t3 with u2".into()
    });
    tally.check(firing::fired_list(&product, &[0, 2]) == Err(1), || {
        "u2 waits for u1".into()
    });
    tally.check(product.independent(0, 5) && !product.independent(0, 2), || {
        "002's examples of independence".into()
    });
}

/// R13, O8: outputs of every length, of a right product and of refused ones.
fn lent_output(tally: &mut Tally) {
    let right = running_example();
    let mut idle = right.clone();
    idle.rows[6].fill(255);
    let mut short = right.bytes();
    short.pop();
    for (bytes, number) in [(right.bytes(), 13), (idle.bytes(), 16), (short, 15)] {
        for length in 0..100 {
            let mut out = vec![0x77; length];
            let answer = plain_rows::rows_into(&bytes, &mut out);
            let mut expected = vec![0x77; length];
            let due = if number == 13 && length >= 78 {
                expected[..78].copy_from_slice(&plain_rows::rows(&bytes).unwrap());
                Ok(78)
            } else {
                Err((number, 0))
            };
            tally.check(answer == due && out == expected, || {
                format!("{number} at {length}")
            });
        }
    }
}

/// O4: whether the answer is the one that was meant.
pub fn as_meant(meant: Meant, told: Option<plain::Refusal>) -> bool {
    match meant {
        Meant::Accepted => told.is_none(),
        Meant::Refused(number, index) => told == Some((number, index)),
        Meant::Open => true,
    }
}

/// B3: a list of rows as steps of the sheet: it is executed exactly when it is fired, and to the same state. Whether it is fired.
fn list_fired(check: firing::Check, product: &Product, sheet: &[u8], list: &[usize]) -> bool {
    let ends = plain::end_sets(&firing::with_steps(sheet, list));
    let due = match firing::fired_list(product, list) {
        Ok(global) => Ok(global.iter().map(|&state| vec![state]).collect()),
        Err(index) => Err((12, index)),
    };
    check(ends == due, &format!("{list:?}: {ends:?}, not {due:?}"));
    due.is_ok()
}

/// Generated products: what was meant, and what is promised of each sheet.
fn generated(tally: &mut Tally, dice: &mut Dice, count: usize) {
    let mut seen: BTreeMap<u64, usize> = BTreeMap::new();
    let mut rows_in = [0, 0];
    for number in 0..count {
        let case = case_of(random_products::KINDS, dice, number);
        let name = || format!("{}: {}", case.kind, hex(&case.bytes));
        let read = plain_rows::read(&case.bytes);
        let told = read.as_ref().err().copied();
        *seen.entry(told.map_or(0, |refusal| refusal.0)).or_default() += 1;
        tally.check(as_meant(case.meant, told), || format!("{told:?} {}", name()));
        let Ok(product) = read else { continue };
        let sheet = plain_rows::sheet(&product);
        let mut check = |holds, text: &str| tally.check(holds, || format!("{text}: {}", name()));
        firing::promises(&mut check, dice, &product, &sheet);
        let list = firing::any_list(dice, &product);
        rows_in[usize::from(list_fired(&mut check, &product, &sheet, &list))] += list.len();
    }
    let [others, fired] = rows_in;
    println!("  {fired} rows in lists that are fired, {others} in others");
    tally.check(2 * fired > count && 4 * others > count, || {
        "too few rows in lists".into()
    });
    for number in [0, 15, 16, 17] {
        let met = seen.get(&number).copied().unwrap_or(0);
        println!("  {met} products with refusal {number}");
        tally.check(met * 20 > count, || format!("only {met} products with {number}"));
    }
}
