//! C4: the proved library against the second implementation, on random sheets: the verdict, the sizes,
//! the end sets, the process check, the restated bytes, the figure, stuck and the printed text; and
//! on random pairs: same work, which sheet is leaner, and the part that is handed back; and on random
//! products: the sheet that each becomes; and on random columns: the restated sheet that has them. Every
//! entry of what was lent is compared too: a refused call must leave all of it as it came. And the version
//! that the library tells, against the file VERSION.
//!
//! Usage: compare [SHEETS] [SEED] [ENOUGH], where it stops after ENOUGH that differ
//!
//! Each buffer is a middle part of a larger vector of random content. What the vector must hold
//! after the call is put together before it, so that one comparison sees a byte written too much,
//! one too little, and any byte written by a refused call.

// Slices are passed to the library as they are to C: a pointer and a length.
#![allow(improper_ctypes_definitions)]

mod compare_columns;
mod compare_rows;
mod firing;
mod groups;
#[allow(dead_code)]
mod plain;
#[allow(dead_code)]
mod plain_columns;
#[allow(dead_code)]
mod plain_rows;
#[allow(dead_code)]
mod random_columns;
#[allow(dead_code)]
mod random_products;
#[allow(dead_code)]
mod sheets;
mod tally;

use sheets::Dice;
use tally::{argument, hex, Tally};

// Each call returns 0 where it answered, and its values stand at the front of the answer; else the
// refusal (see `told`), and everything lent is as it came.
extern "C" {
    /// n, m, T and S.
    fn oatmist_check(sheet: &[u8], answer: &mut [u64]) -> u64;
    /// The end sets of 16 components, bit i for state i; 0 for a component that is not there.
    fn oatmist_end_sets(sheet: &[u8], ends: &mut [u64]) -> u64;
    /// 0 for yes, or 1 + the first step that offends.
    fn oatmist_process(sheet: &[u8], answer: &mut [u64]) -> u64;
    /// The bytes written.
    fn oatmist_restate(sheet: &[u8], out: &mut [u8], answer: &mut [u64]) -> u64;
    /// The figure.
    fn oatmist_figure(sheet: &[u8], answer: &mut [u64]) -> u64;
    /// 1 for stuck, else 0.
    fn oatmist_stuck(sheet: &[u8], answer: &mut [u64]) -> u64;
    /// The length of the text; only an output that is too short is refused.
    fn oatmist_report(sheet: &[u8], out: &mut [u8], answer: &mut [u64]) -> u64;
    /// 1 for the same work, else 0.
    fn oatmist_same_work(first: &[u8], second: &[u8], answer: &mut [u64]) -> u64;
    /// 0 for the first or 1 for the second.
    fn oatmist_winner(first: &[u8], second: &[u8], answer: &mut [u64]) -> u64;
    /// The step section of the leaner sheet, in the caller's own bytes; an empty part where refused.
    fn oatmist_leaner<'a>(first: &'a [u8], second: &'a [u8], part: &mut &'a [u8]);
    /// The bytes written.
    fn oatmist_rows(product: &[u8], out: &mut [u8], answer: &mut [u64]) -> u64;
    /// The bytes written.
    fn oatmist_columns(sheet: &[u8], columns: &[u8], out: &mut [u8], answer: &mut [u64]) -> u64;
    /// The version as a number. It is given nothing, and refuses nothing.
    fn oatmist_version() -> u64;
}

/// A refusal as a call returns it: its number in bits 0 to 7, the sheet in bits 8 to 15, the step
/// index from bit 16 on.
fn told(number: u64, index: usize, sheet: usize) -> u64 {
    number | (sheet as u64) << 8 | (index as u64) << 16
}

/// What a call must return, and the values of its answer, none where it is refused.
type Due = (u64, Vec<u64>);

/// Sheets, pairs, products or columns that differed, and after how many of them the comparison stops.
struct Differing {
    seen: u64,
    enough: u64,
}

/// Sheets, pairs, products or columns that a class must have at least, in a run of the usual length.
const LEAST: u64 = 50;
const USUAL: u64 = 30_000;

/// One pair for so many sheets, one product, and one sheet with columns.
const PAIR_SHARE: usize = 6;
const PRODUCT_SHARE: usize = 2;
const COLUMN_SHARE: usize = 3;

fn main() {
    let count = argument(1, USUAL);
    let seed = argument(2, 4_653);
    println!("seed {seed}, {count} sheets");
    let mut dice = Dice::new(seed);
    let mut tally = Tally::new();
    let mut classes = Classes::new();
    let mut differing = Differing {
        seen: 0,
        enough: argument(3, 10),
    };
    if show(&mut differing, "none, the version", &[], &compare_version(&mut tally)) {
        tally.finish()
    }
    // Products and columns have dice of their own.
    let (mut own, mut others) = (Dice::new(seed + 1), Dice::new(seed + 2));
    for number in 0..count as usize {
        let mut enough = compare_next(&mut tally, &mut dice, &mut classes, &mut differing, number);
        if number % PRODUCT_SHARE == 0 {
            let case = sheets::case_of(random_products::KINDS, &mut own, number / PRODUCT_SHARE);
            let differences = compare_rows::compare(&mut tally, &mut own, &mut classes, &case.bytes);
            enough |= show(&mut differing, case.kind, &[&case.bytes], &differences);
        }
        if number % COLUMN_SHARE == 0 {
            let case = sheets::case_of(random_columns::KINDS, &mut others, number / COLUMN_SHARE);
            let (sheet, columns) = &case.bytes;
            let differences = compare_columns::compare(&mut tally, &mut others, &mut classes, sheet, columns);
            enough |= show(&mut differing, case.kind, &[sheet, columns], &differences);
        }
        if enough {
            tally.finish()
        }
    }
    tally.part("sheets, pairs, products and columns");
    // Shorter runs are judged by the share that they have of the usual length.
    let least = LEAST * count.min(USUAL) / USUAL;
    classes.print(&mut tally, least);
    tally.finish()
}

/// The next sheet, and the next pair where it is its turn; whether enough differed.
fn compare_next(
    tally: &mut Tally,
    dice: &mut Dice,
    classes: &mut Classes,
    differing: &mut Differing,
    number: usize,
) -> bool {
    let case = sheets::case(dice, number);
    let verdict = plain::verdict(&case.bytes);
    classes.count(&case.bytes, &verdict);
    let differences = compare(tally, dice, &case.bytes, &verdict);
    let mut enough = show(differing, case.kind, &[&case.bytes], &differences);
    if number % PAIR_SHARE == 0 {
        let (first, second, _) = sheets::two_sheets(dice, number / PAIR_SHARE);
        classes.count_pair(&first, &second);
        let differences = compare_pair(tally, dice, &first, &second);
        enough |= show(differing, "pair", &[&first, &second], &differences);
    }
    enough
}

/// Prints the first sheet, pair or product that differs, or sheet with columns; whether there were enough of them.
fn show(differing: &mut Differing, kind: &str, given: &[&[u8]], differences: &[String]) -> bool {
    if differences.is_empty() {
        return false;
    }
    differing.seen += 1;
    if differing.seen == 1 {
        println!("first differing sheet ({kind}):");
        for bytes in given {
            println!("{}", hex(bytes));
        }
        for difference in differences {
            println!("  {difference}");
        }
    }
    let stopped = differing.seen >= differing.enough;
    if stopped {
        println!("{} sheets, pairs, products or columns differ; stopped", differing.seen);
    }
    stopped
}

/// O10: the version; the text of what differs.
fn compare_version(tally: &mut Tally) -> Vec<String> {
    let mut differences = Vec::new();
    let (told, due) = (unsafe { oatmist_version() }, plain::version());
    note(tally, &mut differences, told == due, || format!("version: {told}, not {due}"));
    differences
}

// ---------------------------------------------------------------------------------------------
// O5, N9: lent memory

/// A vector of random entries of which a middle part is lent.
struct Lent<T> {
    whole: Vec<T>,
    start: usize,
    length: usize,
}

impl<T: Copy + PartialEq> Lent<T> {
    fn new(dice: &mut Dice, length: usize, entry: fn(&mut Dice) -> T) -> Lent<T> {
        let (start, behind) = (dice.from_to(1, 24), dice.from_to(1, 24));
        let whole = (0..start + length + behind).map(|_| entry(dice)).collect();
        Lent { whole, start, length }
    }

    fn part(&mut self) -> &mut [T] {
        &mut self.whole[self.start..self.start + self.length]
    }

    /// The lent part, to be read only.
    fn read(&self) -> &[T] {
        &self.whole[self.start..self.start + self.length]
    }

    /// What the whole vector must hold once these entries stand at the front of the lent part, as
    /// many as it has room for.
    fn after(&self, front: &[T]) -> Vec<T> {
        let mut expected = self.whole.clone();
        let count = front.len().min(self.length);
        expected[self.start..self.start + count].copy_from_slice(&front[..count]);
        expected
    }
}

fn any_byte(dice: &mut Dice) -> u8 {
    (dice.next() >> 40) as u8
}

fn any_number(dice: &mut Dice) -> u64 {
    dice.next()
}

/// An array lent for an answer of so many values: mostly with as many entries, else fewer or more.
fn lent_answer(dice: &mut Dice, count: usize) -> Lent<u64> {
    let length = if dice.below(4) == 0 {
        dice.from_to(0, count + 3)
    } else {
        count
    };
    Lent::new(dice, length, any_number)
}

/// The sheet as a middle part of a vector too, at any alignment.
fn lent_sheet(dice: &mut Dice, bytes: &[u8]) -> Lent<u8> {
    let mut lent = Lent::new(dice, bytes.len(), any_byte);
    lent.part().copy_from_slice(bytes);
    lent
}

// ---------------------------------------------------------------------------------------------
// O1 to O4, S6, E5, N7 to N9, A4, A5, P1 to P5, R13: one sheet

/// What is due where an accepted sheet gets these values.
fn due(
    verdict: &Result<plain::Sheet, plain::Refusal>,
    values: impl FnOnce(&plain::Sheet) -> Vec<u64>,
) -> Due {
    match verdict {
        Ok(sheet) => (0, values(sheet)),
        Err((number, index)) => (told(*number, *index, 0), vec![]),
    }
}

/// Every call on one sheet; the texts of what differs.
fn compare(
    tally: &mut Tally,
    dice: &mut Dice,
    bytes: &[u8],
    verdict: &Result<plain::Sheet, plain::Refusal>,
) -> Vec<String> {
    let mut differences = Vec::new();
    let sheet = lent_sheet(dice, bytes);
    let before = sheet.whole.clone();
    compare_answers(tally, dice, &mut differences, sheet.read(), verdict);
    compare_restated(tally, dice, &mut differences, sheet.read(), verdict);
    compare_report(tally, dice, &mut differences, sheet.read(), verdict);
    note(tally, &mut differences, sheet.whole == before, || {
        "the sheet itself changed".into()
    });
    differences
}

/// The end sets of an accepted sheet, each as a number, and 0 up to 16.
fn end_values(sheet: &plain::Sheet) -> Vec<u64> {
    let bits = |end| plain::members(end).iter().fold(0, |set, state| set | 1 << state);
    let mut ends: Vec<u64> = sheet.ends.iter().map(bits).collect();
    ends.resize(16, 0);
    ends
}

/// The calls that write nothing but their values. The number is how many values they have.
fn compare_answers(
    tally: &mut Tally,
    dice: &mut Dice,
    differences: &mut Vec<String>,
    sheet: &[u8],
    verdict: &Result<plain::Sheet, plain::Refusal>,
) {
    type Call = unsafe extern "C" fn(&[u8], &mut [u64]) -> u64;
    type Values = fn(&plain::Sheet) -> Vec<u64>;
    let calls: [(&str, Call, usize, Values); 5] = [
        ("check", oatmist_check, 4, |sheet| {
            [sheet.n, sheet.m, sheet.t, sheet.s].map(|size| size as u64).to_vec()
        }),
        ("end sets", oatmist_end_sets, 16, end_values),
        ("process check", oatmist_process, 1, |sheet| {
            vec![sheet.process().map_or(0, |offence| 1 + offence as u64)]
        }),
        ("figure", oatmist_figure, 1, |sheet| vec![sheet.figure()]),
        ("stuck", oatmist_stuck, 1, |sheet| vec![u64::from(sheet.stuck())]),
    ];
    for (name, call, count, values) in calls {
        let due = due(verdict, values);
        let answer = lent_answer(dice, count);
        compare_values(tally, differences, name, &due, answer, |answer| unsafe { call(sheet, answer) });
    }
}

/// One call, with an array lent for its values.
fn compare_values(
    tally: &mut Tally,
    differences: &mut Vec<String>,
    name: &str,
    (number, values): &Due,
    mut answer: Lent<u64>,
    call: impl FnOnce(&mut [u64]) -> u64,
) {
    let expected = answer.after(values);
    let told = call(answer.part());
    note(tally, differences, told == *number && answer.whole == expected, || {
        let kept = if values.is_empty() { " and the array as it came" } else { "" };
        format!("{name}: {told:#x} {:?}, not {number:#x} {values:?}{kept}", answer.read())
    });
}

/// A call that also writes to an output of a length. Where it answers, these bytes stand at the
/// front of the output, and their number is its value.
fn compare_written(
    tally: &mut Tally,
    dice: &mut Dice,
    differences: &mut Vec<String>,
    name: &str,
    length: usize,
    written: Result<&[u8], u64>,
    call: impl FnOnce(&mut [u8], &mut [u64]) -> u64,
) {
    let name = format!("{name} into {length}");
    let mut out = Lent::new(dice, length, any_byte);
    let expected = out.after(written.unwrap_or(&[]));
    let due = match written {
        Ok(front) => (0, vec![front.len() as u64]),
        Err(number) => (number, vec![]),
    };
    let answer = lent_answer(dice, 1);
    compare_values(tally, differences, &name, &due, answer, |answer| {
        call(out.part(), answer)
    });
    note(tally, differences, out.whole == expected, || {
        let at = (0..expected.len()).find(|&i| out.whole[i] != expected[i]).unwrap_or(0);
        let place = at as i64 - out.start as i64;
        format!("{name}: byte {place} of the lent part is {:02x}, not {:02x}", out.whole[at], expected[at])
    });
}

/// What is due where so many bytes are lent for these; a refusal comes before 13.
fn fitted(asked: &Result<Vec<u8>, u64>, length: usize) -> Result<&[u8], u64> {
    match asked {
        Ok(bytes) if length < bytes.len() => Err(told(13, 0, 0)),
        Ok(bytes) => Ok(bytes),
        Err(number) => Err(*number),
    }
}

fn compare_restated(
    tally: &mut Tally,
    dice: &mut Dice,
    differences: &mut Vec<String>,
    sheet: &[u8],
    verdict: &Result<plain::Sheet, plain::Refusal>,
) {
    let restated = match verdict {
        Ok(sheet) => Ok(sheet.restated()),
        Err((number, index)) => Err(told(*number, *index, 0)),
    };
    let exact = restated.as_ref().ok().map(|out| out.len());
    for length in buffer_lengths(dice, sheet.len(), exact) {
        let written = fitted(&restated, length);
        compare_written(tally, dice, differences, "restate", length, written, |out, answer| unsafe {
            oatmist_restate(sheet, out, answer)
        });
    }
}

fn compare_report(
    tally: &mut Tally,
    dice: &mut Dice,
    differences: &mut Vec<String>,
    sheet: &[u8],
    verdict: &Result<plain::Sheet, plain::Refusal>,
) {
    let text = Ok(plain::report_of(verdict).into_bytes());
    let exact = text.as_ref().ok().map(|text| text.len());
    for length in buffer_lengths(dice, sheet.len(), exact) {
        let written = fitted(&text, length);
        compare_written(tally, dice, differences, "report", length, written, |out, answer| unsafe {
            oatmist_report(sheet, out, answer)
        });
    }
}

fn note(tally: &mut Tally, differences: &mut Vec<String>, same: bool, text: impl FnOnce() -> String) {
    if same {
        tally.passed += 1;
    } else {
        tally.failed += 1;
        differences.push(text());
    }
}

/// Lengths to lend: around the exact one, and some others.
fn buffer_lengths(dice: &mut Dice, sheet: usize, exact: Option<usize>) -> Vec<usize> {
    let any = dice.below(400);
    match exact {
        Some(exact) => {
            let mut lengths: Vec<usize> = (exact - 2..=exact + 2).collect();
            lengths.push(dice.below(exact));
            lengths.push(exact + any);
            lengths
        }
        None => vec![0, any, sheet + dice.below(3)],
    }
}

// ---------------------------------------------------------------------------------------------
// A1 to A3, O6, O7, R14: two sheets

/// Every call on two sheets; the texts of what differs.
fn compare_pair(tally: &mut Tally, dice: &mut Dice, first: &[u8], second: &[u8]) -> Vec<String> {
    let mut differences = Vec::new();
    let (one, two) = (lent_sheet(dice, first), lent_sheet(dice, second));
    let before = (one.whole.clone(), two.whole.clone());
    let (first, second) = (one.read(), two.read());
    let same = plain::same_work(first, second);
    let leaner = plain::leaner(first, second);

    let work = same.map(u64::from);
    let which = leaner.map(|(which, _)| which as u64);
    type Call = unsafe extern "C" fn(&[u8], &[u8], &mut [u64]) -> u64;
    let calls: [(&str, Call, Result<u64, plain::PairRefusal>); 2] = [
        ("same work", oatmist_same_work, work),
        ("winner", oatmist_winner, which),
    ];
    for (name, call, asked) in calls {
        let due = match asked {
            Ok(value) => (0, vec![value]),
            Err(refusal) => (told(refusal.number, refusal.index, refusal.which), vec![]),
        };
        let answer = lent_answer(dice, 1);
        compare_values(tally, &mut differences, name, &due, answer, |answer| unsafe {
            call(first, second, answer)
        });
    }

    // The part is the very bytes of a sheet; that of a refused pair is empty, at a place of either.
    let elsewhere = dice.bytes(3);
    let mut part: &[u8] = &elsewhere;
    unsafe { oatmist_leaner(first, second, &mut part) };
    let there = match leaner {
        Ok((_, section)) => part.as_ptr_range() == section.as_ptr_range(),
        Err(_) => {
            let of = |sheet: &[u8]| {
                let range = sheet.as_ptr_range();
                range.start <= part.as_ptr() && part.as_ptr() <= range.end
            };
            part.is_empty() && (of(first) || of(second))
        }
    };
    note(tally, &mut differences, there, || {
        format!("leaner: {} bytes, not the part of {leaner:?}", part.len())
    });

    if let Ok(related) = same {
        let (one, two) = (restated_by(first), restated_by(second));
        let right = one.is_ok() && two.is_ok() && (one == two) == related;
        note(tally, &mut differences, right, || {
            format!("related: {related}, restated otherwise")
        });
        compare_columns::compare_pair(tally, &mut differences, first, second, related);
    }
    note(tally, &mut differences, (one.whole, two.whole) == before, || {
        "a sheet itself changed".into()
    });
    differences
}

/// The bytes that a call of the library writes, or what it returned.
fn written_by(call: impl FnOnce(&mut [u8], &mut [u64]) -> u64) -> Result<Vec<u8>, u64> {
    let mut out = vec![0xee; 16_650];
    let mut answer = [0];
    match call(&mut out, &mut answer) {
        0 => {
            out.truncate(answer[0] as usize);
            Ok(out)
        }
        number => Err(number),
    }
}

/// The sheet as the library restates it.
fn restated_by(sheet: &[u8]) -> Result<Vec<u8>, u64> {
    written_by(|out, answer| unsafe { oatmist_restate(sheet, out, answer) })
}

// ---------------------------------------------------------------------------------------------
// What was seen: R1 to R14, L1 to L7 at both sides

/// How many sheets, pairs, products and columns of each class there were, in the order in which they are printed.
struct Classes(Vec<(String, u64)>);

/// Ranges of a size, from and to. Each printed limit is a range of its own.
const RANGES: &[(&str, &[(usize, usize)])] = &[
    (
        "length",
        &[
            (26, 26),
            (27, 99),
            (100, 999),
            (1_000, 9_999),
            (10_000, 16_649),
            (16_650, 16_650),
        ],
    ),
    ("components", &[(1, 1), (2, 4), (5, 15), (16, 16)]),
    ("actions", &[(1, 1), (2, 8), (9, 63), (64, 64)]),
    ("most states", &[(1, 1), (2, 8), (9, 31), (32, 32)]),
    (
        "transitions",
        &[(0, 0), (1, 31), (32, 511), (512, 2_047), (2_048, 2_048)],
    ),
    (
        "steps",
        &[(0, 0), (1, 1), (2, 15), (16, 255), (256, 1_023), (1_024, 1_024)],
    ),
    (
        "actions in steps",
        &[(0, 0), (1, 15), (16, 255), (256, 1_023), (1_024, 1_024)],
    ),
    (
        "restated steps",
        &[(0, 0), (1, 1), (2, 15), (16, 255), (256, 1_023), (1_024, 1_024)],
    ),
];

fn range_name(name: &str, (low, high): (usize, usize)) -> String {
    if low == high {
        format!("accepted, {name} {low}")
    } else {
        format!("accepted, {name} {low} to {high}")
    }
}

fn refusal_name(number: u64) -> String {
    format!("refused by {number}")
}

const STUCK: [&str; 2] = ["accepted, not stuck", "accepted, stuck"];
const PAIRS: &[&str] = &[
    "pair, related, of different steps",
    "pair, related, of the same steps",
    "pair, unrelated, of the same actions",
    "pair, unrelated, of other actions",
    "pair, first leaner",
    "pair, second leaner",
    "pair, neither leaner",
    "pair, leaner sheet without steps",
    "pair, refused by 14",
    "pair, only the first refused",
    "pair, only the second refused",
    "pair, both refused",
    "pair, first refused at a later step",
    "pair, second refused at a later step",
];
const FORMED: [&str; 2] = ["accepted, in normal form", "accepted, not in normal form"];
/// A4: sheets whose figure is rounded from an exact half, by the way that it goes.
const HALF: [&str; 2] = ["accepted, an exact half rounded down", "accepted, an exact half rounded up"];
const LONG_HALF: &str = "accepted, an exact half of 100 restated steps or more";
const STEP: [&str; 2] = [
    "refused by 10, 11 or 12 at step 0",
    "refused by 10, 11 or 12 at a later step",
];

/// Sheets whose components the machine runs in several groups (tests/second/groups.rs).
const GROUPS: [&str; 3] = [
    "accepted, in 2 groups or more",
    "accepted, in 3 groups or more",
    "accepted, a component between those of an earlier group",
];
const GROUPS_12: [&str; 2] = [
    "refused by 12, the step found by a later group",
    "refused by 12, the step found by a later group, before one that the first found",
];

/// Just outside a limit: the refusal, a name, and whether the sheet is there.
const BORDERS: &[(u64, &str, fn(&[u8]) -> bool)] = &[
    (1, "25 bytes", |sheet| sheet.len() == 25),
    (1, "16651 bytes", |sheet| sheet.len() == 16_651),
    (3, "no components", |sheet| sheet[sheet.len() - 4] == 0),
    (3, "17 components", |sheet| sheet[sheet.len() - 4] == 17),
    (3, "no actions", |sheet| sheet[sheet.len() - 3] == 0),
    (3, "65 actions", |sheet| sheet[sheet.len() - 3] == 65),
    (4, "2049 transitions", |sheet| {
        s_of(sheet) == 16 * n_of(sheet) + 4 * 2_049
    }),
    (4, "1025 steps", |sheet| {
        sheet.len() == s_of(sheet) + 8 * 1_025 + 10
    }),
    (5, "no states", |sheet| {
        (0..n_of(sheet)).any(|j| sheet[16 * j] == 0)
    }),
    (5, "33 states", |sheet| {
        (0..n_of(sheet)).any(|j| sheet[16 * j] == 33)
    }),
    (9, "1025 actions in steps", |sheet| {
        let steps = &sheet[s_of(sheet)..sheet.len() - 10];
        steps.iter().map(|byte| byte.count_ones()).sum::<u32>() == 1_025
    }),
];

/// A product, or columns, by the refusal that they get, 0 for none.
fn verdict_name(what: &str, number: u64) -> String {
    match number {
        0 => format!("{what}, accepted"),
        _ => format!("{what}, refused by {number}"),
    }
}

/// A class of them.
fn class_name(what: &str, number: u64, name: &str) -> String {
    format!("{}, {name}", verdict_name(what, number))
}

/// What is lent for the output of a call on a product, or on columns.
const OUTPUTS: [&str; 4] = [
    "output too short, refused by 13",
    "output of the exact length",
    "longer output",
    "output of a refused one",
];

fn output_names(what: &str) -> Vec<String> {
    OUTPUTS.iter().map(|name| format!("{what}, {name}")).collect()
}

/// S as the trailer has it.
fn s_of(sheet: &[u8]) -> usize {
    sheet[sheet.len() - 6] as usize + 256 * sheet[sheet.len() - 5] as usize
}

/// n as the trailer has it.
fn n_of(sheet: &[u8]) -> usize {
    sheet[sheet.len() - 4] as usize
}

fn border_name(number: u64, name: &str) -> String {
    format!("refused by {number}, {name}")
}

impl Classes {
    /// All classes, with no sheet yet, so that a missing one shows.
    fn new() -> Classes {
        let mut names: Vec<String> = (1..=12).map(refusal_name).collect();
        names.extend(STEP.map(String::from));
        names.extend(BORDERS.iter().map(|border| border_name(border.0, border.1)));
        for (name, ranges) in RANGES {
            names.extend(ranges.iter().map(|&range| range_name(name, range)));
        }
        names.extend(FORMED.map(String::from));
        names.extend(STUCK.map(String::from));
        names.extend(HALF.map(String::from));
        names.push(LONG_HALF.into());
        names.extend(GROUPS.map(String::from));
        names.extend(GROUPS_12.map(String::from));
        names.extend(PAIRS.iter().map(|name| name.to_string()));
        names.extend(compare_rows::class_names());
        names.extend(compare_columns::class_names());
        Classes(names.into_iter().map(|name| (name, 0)).collect())
    }

    fn add(&mut self, name: &str) {
        let class = self
            .0
            .iter_mut()
            .find(|class| class.0 == name)
            .expect("a class of this name");
        class.1 += 1;
    }

    fn count(&mut self, bytes: &[u8], verdict: &Result<plain::Sheet, plain::Refusal>) {
        let sheet = match verdict {
            Ok(sheet) => sheet,
            Err((number, index)) => return self.count_refused(bytes, *number, *index),
        };
        let sizes = [
            bytes.len(),
            sheet.n,
            sheet.m,
            sheet
                .components
                .iter()
                .map(|component| component.states)
                .max()
                .unwrap_or(0),
            (sheet.s - sheet.t) / 4,
            sheet.steps.len(),
            plain::flat(&sheet.steps).len(),
            sheet.restated_steps().len(),
        ];
        for ((name, ranges), size) in RANGES.iter().zip(sizes) {
            for &(low, high) in ranges.iter().filter(|range| range.0 <= size && size <= range.1) {
                self.add(&range_name(name, (low, high)));
            }
        }
        self.add(FORMED[if sheet.process().is_none() { 0 } else { 1 }]);
        self.add(STUCK[usize::from(sheet.stuck())]);
        if sheet.is_half() {
            self.count_half(sheet);
        }
        let grouped = groups::grouped(bytes);
        let there = [grouped.groups > 1, grouped.groups > 2, grouped.hole];
        for (name, _) in GROUPS.iter().zip(there).filter(|class| class.1) {
            self.add(name);
        }
    }

    /// Which way the half goes, and whether there are many steps.
    fn count_half(&mut self, sheet: &plain::Sheet) {
        let (actions, steps) = sheet.work();
        self.add(HALF[usize::from(sheet.figure() * steps > 10 * actions)]);
        if steps >= 100 {
            self.add(LONG_HALF);
        }
    }

    /// What a pair is, by the second implementation.
    fn count_pair(&mut self, first: &[u8], second: &[u8]) {
        let (one, two) = (plain::verdict(first), plain::verdict(second));
        match (&one, &two) {
            (Err((_, index)), other) => {
                let both = other.is_err();
                self.add(if both { "pair, both refused" } else { "pair, only the first refused" });
                if *index > 0 {
                    self.add("pair, first refused at a later step");
                }
            }
            (Ok(_), Err((_, index))) => {
                self.add("pair, only the second refused");
                if *index > 0 {
                    self.add("pair, second refused at a later step");
                }
            }
            (Ok(one), Ok(two)) => self.count_sound(first, second, one, two),
        }
    }

    /// Two accepted sheets.
    fn count_sound(&mut self, first: &[u8], second: &[u8], one: &plain::Sheet, two: &plain::Sheet) {
        let Ok(related) = plain::same_work(first, second) else {
            return self.add("pair, refused by 14");
        };
        let (mut a, mut b) = (plain::flat(&one.steps), plain::flat(&two.steps));
        a.sort();
        b.sort();
        self.add(match (related, one.steps == two.steps, a == b) {
            (true, false, _) => "pair, related, of different steps",
            (true, true, _) => "pair, related, of the same steps",
            (false, _, true) => "pair, unrelated, of the same actions",
            (false, _, false) => "pair, unrelated, of other actions",
        });
        let (k, l) = (one.restated_steps().len(), two.restated_steps().len());
        self.add(match k.cmp(&l) {
            std::cmp::Ordering::Less => "pair, first leaner",
            std::cmp::Ordering::Greater => "pair, second leaner",
            std::cmp::Ordering::Equal => "pair, neither leaner",
        });
        if k.min(l) == 0 {
            self.add("pair, leaner sheet without steps");
        }
    }

    fn count_refused(&mut self, bytes: &[u8], number: u64, index: usize) {
        self.add(&refusal_name(number));
        if number >= 10 {
            self.add(STEP[index.min(1)]);
        }
        if number == 12 {
            self.count_groups_12(&groups::grouped(bytes), index);
        }
        for &(by, name, there) in BORDERS {
            if by == number && there(bytes) {
                self.add(&border_name(by, name));
            }
        }
    }

    /// Which group finds the step.
    fn count_groups_12(&mut self, grouped: &groups::Grouped, index: usize) {
        let Some(&first) = grouped.found.first().filter(|&&first| first != index) else {
            return;
        };
        self.add(GROUPS_12[0]);
        if first < grouped.steps {
            self.add(GROUPS_12[1]);
        }
    }

    /// What was lent for the output of a call on a product, or on columns.
    fn count_output(&mut self, what: &str, written: &Result<&[u8], u64>, length: usize) {
        let which = match written {
            Err(13) => 0,
            Ok(bytes) if bytes.len() == length => 1,
            Ok(_) => 2,
            Err(_) => 3,
        };
        self.add(&format!("{what}, {}", OUTPUTS[which]));
    }

    fn print(&self, tally: &mut Tally, least: u64) {
        for (name, count) in &self.0 {
            println!("  {count:6}  {name}");
            tally.check(*count >= least, || {
                format!("{count} seen, fewer than {least}: {name}")
            });
        }
    }
}
