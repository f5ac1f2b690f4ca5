//! The proved library against plain Rust: the same sheets, products and columns, one run (see tables.rs).
//!
//! Usage: bench [SWEEPS]

mod column_lines;
#[path = "fast.rs"]
mod fast;
#[path = "fast_columns.rs"]
mod fast_columns;
#[path = "fast_rows.rs"]
mod fast_rows;
#[allow(dead_code)]
#[path = "../tests/second/plain.rs"]
mod plain;
#[allow(dead_code)]
#[path = "../tests/second/plain_columns.rs"]
mod plain_columns;
#[allow(dead_code)]
#[path = "../tests/second/plain_rows.rs"]
mod plain_rows;
mod product_lines;
#[allow(dead_code)]
#[path = "../tests/second/random_columns.rs"]
mod random_columns;
#[allow(dead_code)]
#[path = "../tests/second/random_products.rs"]
mod random_products;
mod sheet_lines;
#[allow(dead_code)]
#[path = "../tests/second/sheets.rs"]
mod sheets;
mod tables;

use tables::{answered, Input, Kind, Row, Versions, KEPT, ROOM};

extern "C" {
    fn oatmist_check(sheet: &[u8], answer: &mut [u64]) -> u64;
    fn oatmist_restate(sheet: &[u8], out: &mut [u8], answer: &mut [u64]) -> u64;
    fn oatmist_figure(sheet: &[u8], answer: &mut [u64]) -> u64;
    fn oatmist_rows(product: &[u8], out: &mut [u8], answer: &mut [u64]) -> u64;
    fn oatmist_columns(sheet: &[u8], columns: &[u8], out: &mut [u8], answer: &mut [u64]) -> u64;
}

/// The calls that are timed.
const VERSIONS: Versions = Versions {
    names: ["proved", "plain"],
    ours: 0,
    on_sheets: Kind {
        calls: &[
            |given, _| answered::<4>(|answer| unsafe { oatmist_check(&given.bytes, answer) }),
            |given, _| answered::<4>(|answer| fast::check(&given.bytes, answer)),
            |given, out| answered::<1>(|answer| unsafe { oatmist_restate(&given.bytes, out, answer) }),
            |given, out| answered::<1>(|answer| fast::restate(&given.bytes, out, answer)),
        ],
        agree,
    },
    on_figures: Kind {
        calls: &[
            |given, _| answered::<1>(|answer| unsafe { oatmist_figure(&given.bytes, answer) }),
            |given, _| answered::<1>(|answer| fast::figure(&given.bytes, answer)),
        ],
        agree: agree_on_figure,
    },
    on_products: Kind {
        calls: &[
            |given, out| answered::<1>(|answer| unsafe { oatmist_rows(&given.bytes, out, answer) }),
            |given, out| answered::<1>(|answer| fast_rows::rows(&given.bytes, out, answer)),
        ],
        agree: agree_on_product,
    },
    on_columns: Some(Kind {
        calls: &[
            |given, out| answered::<1>(|answer| unsafe { oatmist_columns(&given.bytes, &given.columns, out, answer) }),
            |given, out| answered::<1>(|answer| fast_columns::columns(&given.bytes, &given.columns, out, answer)),
        ],
        agree: agree_on_columns,
    }),
    agree_beyond: || (),
};

// ---------------------------------------------------------------------------------------------
// The same answers

/// Both versions on one sheet, the verdict by the slow one too; stops the run where they differ.
fn agree(name: &str, given: &Input) {
    let verdict = plain::verdict(&given.bytes).map_err(fast::told);
    let meant = verdict.as_ref().map(|v| [v.n, v.m, v.t, v.s].map(|size| size as u64));
    let calls: [Reader; 2] = [
        |given, answer| unsafe { oatmist_check(&given.bytes, answer) },
        |given, answer| fast::check(&given.bytes, answer),
    ];
    agree_valued(name, given, meant, calls);

    let meant = verdict.map(|sheet| sheet.restated());
    let calls: [Writer; 2] = [
        |given, out, answer| unsafe { oatmist_restate(&given.bytes, out, answer) },
        |given, out, answer| fast::restate(&given.bytes, out, answer),
    ];
    agree_written(name, given, &meant, calls);
}

/// Both versions of the figure of one sheet.
fn agree_on_figure(name: &str, given: &Input) {
    let meant = plain::figure(&given.bytes).map_err(fast::told);
    let calls: [Reader; 2] = [
        |given, answer| unsafe { oatmist_figure(&given.bytes, answer) },
        |given, answer| fast::figure(&given.bytes, answer),
    ];
    agree_valued(name, given, meant.as_ref().map(|&figure| [figure]), calls);
}

/// Whose answer it is, in the order of the calls.
const WHOSE: [&str; 2] = ["the library", "the plain version"];

type Reader = fn(&Input, &mut [u64]) -> u64;

/// Both versions of a call that has N values and writes nothing else, the proved one first.
fn agree_valued<const N: usize>(name: &str, given: &Input, meant: Result<[u64; N], &u64>, calls: [Reader; 2]) {
    let due = match meant {
        Ok(values) => (0, values),
        Err(number) => (*number, [KEPT; N]),
    };
    for (call, version) in calls.into_iter().zip(WHOSE) {
        let mut answer = [KEPT; N];
        let told = call(given, &mut answer);
        assert_eq!((told, answer), due, "{name}: {version}, {N} values");
    }
}

type Writer = fn(&Input, &mut [u8], &mut [u64]) -> u64;

/// Both versions of a call that writes, the proved one first: with enough room, exactly enough, and a byte too little.
fn agree_written(name: &str, given: &Input, meant: &Result<Vec<u8>, u64>, calls: [Writer; 2]) {
    let needed = meant.as_ref().map_or(ROOM, |bytes| bytes.len());
    for room in [ROOM, needed, needed - 1] {
        let mut expected = vec![0xa5; room];
        let due = match meant {
            Ok(bytes) if room >= needed => {
                expected[..needed].copy_from_slice(bytes);
                (0, [needed as u64])
            }
            Ok(_) => (13, [KEPT]),
            Err(number) => (*number, [KEPT]),
        };
        for (call, version) in calls.into_iter().zip(WHOSE) {
            let (mut out, mut answer) = (vec![0xa5; room], [KEPT]);
            let told = call(given, &mut out, &mut answer);
            assert_eq!((told, answer), due, "{name}: {version} into {room}");
            assert!(out == expected, "{name}: bytes by {version} into {room}");
        }
    }
}

/// Both versions on one product; stops the run where they differ from each other or from the slow one.
fn agree_on_product(name: &str, given: &Input) {
    let meant = plain_rows::rows(&given.bytes).map_err(fast::told);
    let calls: [Writer; 2] = [
        |given, out, answer| unsafe { oatmist_rows(&given.bytes, out, answer) },
        |given, out, answer| fast_rows::rows(&given.bytes, out, answer),
    ];
    agree_written(name, given, &meant, calls);
}

/// The same on a sheet with columns.
fn agree_on_columns(name: &str, given: &Input) {
    let meant = plain_columns::columns(&given.bytes, &given.columns).map_err(fast::told);
    let calls: [Writer; 2] = [
        |given, out, answer| unsafe { oatmist_columns(&given.bytes, &given.columns, out, answer) },
        |given, out, answer| fast_columns::columns(&given.bytes, &given.columns, out, answer),
    ];
    agree_written(name, given, &meant, calls);
}

// ---------------------------------------------------------------------------------------------
// Marks a second

/// Typical, large and worst sheets among the lines of the first table.
const MARKED: [(&str, &str); 5] = [
    ("typical: Pair", "Pair of the paper, 94 bytes"),
    ("typical: small", "small: n 2-4, 5-20 actions"),
    ("typical: middle", "middle: n 5-9, 50-150 actions"),
    ("large", "largest, action in 2 components, steps of 8"),
    ("worst", "largest, action in all 16, single steps"),
];

/// Marks a second; a mark is one call that restates, which checks first.
fn print_marks(rows: &[Row]) {
    println!("\n| Sheets | marks a second, proved | marks a second, plain | ratio |");
    println!("|---|---:|---:|---:|");
    for (label, name) in MARKED {
        let row = rows.iter().find(|row| row.name == name).expect(name);
        let (proved, plain) = (1e9 / row.best(2), 1e9 / row.best(3));
        println!("| {label} | {proved:.0} | {plain:.0} | {:.2} |", VERSIONS.ratio(row, 1));
    }
}

fn main() {
    let tables = VERSIONS.measured();
    print_marks(&tables[0].rows);
    tables.iter().for_each(|table| VERSIONS.print(table));
}
