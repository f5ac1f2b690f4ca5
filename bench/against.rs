//! An older library against the present one: the same sheets, products and columns, one run (see tables.rs). Before anything
//! is timed, every call of both answers and writes the same on them, and on random sheets, pairs, products and columns.
//! Columns are left out where the older library does not have them: it is built with `--cfg columns` where it does.
//! The figure of an exact half is rounded up by the older library unless this is built with `--cfg halves_to_even`: where
//! it tells a version, it rounds by the present rule.
//!
//! Usage: against [SWEEPS]

// Slices are passed to the library as they are to C: a pointer and a length.
#![allow(improper_ctypes_definitions)]

mod column_lines;
#[allow(dead_code)]
#[path = "../tests/second/plain.rs"]
mod plain;
#[allow(dead_code)]
#[path = "../tests/second/plain_columns.rs"]
mod plain_columns;
#[allow(dead_code)]
#[path = "../tests/second/plain_rows.rs"]
mod plain_rows;
mod product_lines;
#[allow(dead_code)]
#[path = "../tests/second/random_columns.rs"]
mod random_columns;
#[allow(dead_code)]
#[path = "../tests/second/random_products.rs"]
mod random_products;
mod sheet_lines;
#[allow(dead_code)]
#[path = "../tests/second/sheets.rs"]
mod sheets;
#[cfg_attr(not(columns), allow(dead_code))]
mod tables;
#[allow(dead_code)]
#[path = "../tests/second/tally.rs"]
mod tally;

use sheets::Dice;
use std::sync::atomic::{AtomicUsize, Ordering};
use tables::{answered, Input, Kind, Versions, KEPT, ROOM};

/// The calls of a library whose names begin with this.
macro_rules! library {
    ($name:ident, $begin:literal) => {
        mod $name {
            extern "C" {
                #[link_name = concat!($begin, "check")]
                pub fn check(sheet: &[u8], answer: &mut [u64]) -> u64;
                #[link_name = concat!($begin, "end_sets")]
                pub fn end_sets(sheet: &[u8], ends: &mut [u64]) -> u64;
                #[link_name = concat!($begin, "process")]
                pub fn process(sheet: &[u8], answer: &mut [u64]) -> u64;
                #[link_name = concat!($begin, "figure")]
                pub fn figure(sheet: &[u8], answer: &mut [u64]) -> u64;
                #[link_name = concat!($begin, "stuck")]
                pub fn stuck(sheet: &[u8], answer: &mut [u64]) -> u64;
                #[link_name = concat!($begin, "restate")]
                pub fn restate(sheet: &[u8], out: &mut [u8], answer: &mut [u64]) -> u64;
                #[link_name = concat!($begin, "report")]
                pub fn report(sheet: &[u8], out: &mut [u8], answer: &mut [u64]) -> u64;
                #[link_name = concat!($begin, "rows")]
                pub fn rows(product: &[u8], out: &mut [u8], answer: &mut [u64]) -> u64;
                #[cfg(columns)]
                #[link_name = concat!($begin, "columns")]
                pub fn columns(sheet: &[u8], columns: &[u8], out: &mut [u8], answer: &mut [u64]) -> u64;
                #[link_name = concat!($begin, "same_work")]
                pub fn same_work(first: &[u8], second: &[u8], answer: &mut [u64]) -> u64;
                #[link_name = concat!($begin, "winner")]
                pub fn winner(first: &[u8], second: &[u8], answer: &mut [u64]) -> u64;
                #[link_name = concat!($begin, "leaner")]
                pub fn leaner<'a>(first: &'a [u8], second: &'a [u8], part: &mut &'a [u8]);
            }
        }
    };
}

library!(old, "old_oatmist_");
library!(new, "oatmist_");

/// The calls that are timed.
const VERSIONS: Versions = Versions {
    names: ["old", "new"],
    ours: 1,
    on_sheets: Kind {
        calls: &[
            |given, _| answered::<4>(|answer| unsafe { old::check(&given.bytes, answer) }),
            |given, _| answered::<4>(|answer| unsafe { new::check(&given.bytes, answer) }),
            |given, out| answered::<1>(|answer| unsafe { old::restate(&given.bytes, out, answer) }),
            |given, out| answered::<1>(|answer| unsafe { new::restate(&given.bytes, out, answer) }),
        ],
        agree: |name, given| agree_on_sheet(name, &given.bytes),
    },
    on_figures: Kind {
        calls: &[
            |given, _| answered::<1>(|answer| unsafe { old::figure(&given.bytes, answer) }),
            |given, _| answered::<1>(|answer| unsafe { new::figure(&given.bytes, answer) }),
        ],
        agree: |name, given| agree_on_sheet(name, &given.bytes),
    },
    on_products: Kind {
        calls: &[
            |given, out| answered::<1>(|answer| unsafe { old::rows(&given.bytes, out, answer) }),
            |given, out| answered::<1>(|answer| unsafe { new::rows(&given.bytes, out, answer) }),
        ],
        agree: |name, given| agree_on_product(name, &given.bytes),
    },
    on_columns: ON_COLUMNS,
    agree_beyond: agree_on_random,
};

#[cfg(columns)]
const ON_COLUMNS: Option<Kind> = Some(Kind {
    calls: &[
        |given, out| answered::<1>(|answer| unsafe { old::columns(&given.bytes, &given.columns, out, answer) }),
        |given, out| answered::<1>(|answer| unsafe { new::columns(&given.bytes, &given.columns, out, answer) }),
    ],
    agree: agree_on_columns,
});

#[cfg(not(columns))]
const ON_COLUMNS: Option<Kind> = None;

// ---------------------------------------------------------------------------------------------
// The same answers

/// What the old and the new call left; stops the run where it differs.
fn agree<T: PartialEq>(name: &str, given: &[&[u8]], left: [T; 2]) {
    if left[0] != left[1] {
        let given: Vec<String> = given.iter().map(|bytes| tally::hex(bytes)).collect();
        panic!("{name}: the old and the new library differ on {}", given.join(" and "));
    }
}

/// What a call returned, and all entries of the array that it was lent: one more than any call fills.
fn valued(call: impl FnOnce(&mut [u64]) -> u64) -> (u64, [u64; 17]) {
    let mut answer = [KEPT; 17];
    (call(&mut answer), answer)
}

/// Every call on one sheet.
fn agree_on_sheet(name: &str, sheet: &[u8]) {
    agree_on_values(&format!("{name}, check"), sheet, [old::check, new::check]);
    agree_on_values(&format!("{name}, end sets"), sheet, [old::end_sets, new::end_sets]);
    agree_on_values(&format!("{name}, process check"), sheet, [old::process, new::process]);
    agree_on_values(&format!("{name}, stuck"), sheet, [old::stuck, new::stuck]);
    agree_on_written(&format!("{name}, restate"), sheet, [old::restate, new::restate]);
    if !cfg!(halves_to_even) && plain::verdict(sheet).is_ok_and(|sheet| sheet.is_half()) {
        HALVES.fetch_add(1, Ordering::Relaxed);
        return agree_on_half(name, sheet);
    }
    agree_on_values(&format!("{name}, figure"), sheet, [old::figure, new::figure]);
    agree_on_written(&format!("{name}, report"), sheet, [old::report, new::report]);
}

/// How often a sheet was compared whose figure is an exact half, which the older library rounds up.
static HALVES: AtomicUsize = AtomicUsize::new(0);

/// The figure of such a sheet is the same but for an odd one, which is one less now. Its report is the same but for the figure.
fn agree_on_half(name: &str, sheet: &[u8]) {
    let figures: [Reader; 2] = [old::figure, new::figure];
    let [mut older, newer] = figures.map(|version| valued(|answer| unsafe { version(sheet, answer) }));
    older.1[0] -= older.1[0] % 2;
    agree(&format!("{name}, figure of a half"), &[sheet], [older, newer]);
    let reports: [unsafe extern "C" fn(&[u8], &mut [u8], &mut [u64]) -> u64; 2] = [old::report, new::report];
    let left = reports.map(|version| {
        let mut out = vec![0xa5; ROOM];
        let told = valued(|answer| unsafe { version(sheet, &mut out, answer) });
        let mut words: Vec<Vec<u8>> = out.splitn(5, |&byte| byte == b' ').map(<[u8]>::to_vec).collect();
        words.remove(3);
        (told, words)
    });
    agree(&format!("{name}, report of a half"), &[sheet], left);
}

type Reader = unsafe extern "C" fn(&[u8], &mut [u64]) -> u64;

/// A call that has values and writes nothing else, of one sheet.
fn agree_on_values(name: &str, sheet: &[u8], versions: [Reader; 2]) {
    let left = versions.map(|version| valued(|answer| unsafe { version(sheet, answer) }));
    agree(name, &[sheet], left);
}

fn agree_on_product(name: &str, product: &[u8]) {
    agree_on_written(&format!("{name}, rows"), product, [old::rows, new::rows]);
}

#[cfg(columns)]
fn agree_on_columns(name: &str, given: &Input) {
    let versions: [Writer; 2] = [
        &|out, answer| unsafe { old::columns(&given.bytes, &given.columns, out, answer) },
        &|out, answer| unsafe { new::columns(&given.bytes, &given.columns, out, answer) },
    ];
    agree_written(&format!("{name}, columns"), &[&given.bytes, &given.columns], versions);
}

/// A call that writes, of one sheet or product.
fn agree_on_written(name: &str, given: &[u8], versions: [unsafe extern "C" fn(&[u8], &mut [u8], &mut [u64]) -> u64; 2]) {
    let calls = versions.map(|version| move |out: &mut [u8], answer: &mut [u64]| unsafe { version(given, out, answer) });
    agree_written(name, &[given], [&calls[0], &calls[1]]);
}

type Writer<'a> = &'a dyn Fn(&mut [u8], &mut [u64]) -> u64;

/// A call that writes: with enough room, exactly enough, and a byte too little.
fn agree_written(name: &str, given: &[&[u8]], versions: [Writer; 2]) {
    let written = |version: Writer, room| {
        let mut out = vec![0xa5; room];
        (valued(|answer| version(&mut out, answer)), out)
    };
    let needed = match written(versions[0], ROOM).0 {
        (0, answer) => answer[0] as usize,
        _ => ROOM,
    };
    for room in [ROOM, needed, needed - 1] {
        let left = versions.map(|version| written(version, room));
        agree(&format!("{name} into {room}"), given, left);
    }
}

/// Every call on two sheets.
fn agree_on_pair(name: &str, first: &[u8], second: &[u8]) {
    type OfTwo = unsafe extern "C" fn(&[u8], &[u8], &mut [u64]) -> u64;
    let calls: [(&str, [OfTwo; 2]); 2] = [
        ("same work", [old::same_work, new::same_work]),
        ("winner", [old::winner, new::winner]),
    ];
    for (call, versions) in calls {
        let left = versions.map(|version| valued(|answer| unsafe { version(first, second, answer) }));
        agree(&format!("{name}, {call}"), &[first, second], left);
    }
    type Leaner = for<'a> unsafe extern "C" fn(&'a [u8], &'a [u8], &mut &'a [u8]);
    let versions: [Leaner; 2] = [old::leaner, new::leaner];
    let left = versions.map(|version| {
        let mut part: &[u8] = &[];
        unsafe { version(first, second, &mut part) };
        (part.len(), (!part.is_empty()).then_some(part.as_ptr()))
    });
    agree(&format!("{name}, leaner"), &[first, second], left);
}

/// How many random sheets there are, and as many pairs, products and columns.
const RANDOM: usize = 6_000;

fn agree_on_random() {
    let mut dice = Dice::new(14);
    for number in 0..RANDOM {
        let case = sheets::case(&mut dice, number);
        agree_on_sheet(case.kind, &case.bytes);
        let (first, second, _) = sheets::two_sheets(&mut dice, number);
        agree_on_pair("pair", &first, &second);
        let case = sheets::case_of(random_products::KINDS, &mut dice, number);
        agree_on_product(case.kind, &case.bytes);
        let case = sheets::case_of(random_columns::KINDS, &mut dice, number);
        if let Some(on_columns) = &VERSIONS.on_columns {
            (on_columns.agree)(case.kind, &Input::from(case.bytes));
        }
    }
    let columns = match VERSIONS.on_columns {
        Some(_) => ", and on as many columns",
        None => "; the older library has no columns",
    };
    println!("Every call of both answers and writes the same on {RANDOM} random sheets, pairs and products each{columns}.");
}

fn main() {
    let tables = VERSIONS.measured();
    if !cfg!(halves_to_even) {
        let halves = HALVES.load(Ordering::Relaxed);
        println!("The older library rounds halves up: {halves} times an odd figure of an exact half is one less now, and an even one the same.");
    }
    tables.iter().for_each(|table| VERSIONS.print(table));
}
