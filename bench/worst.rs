//! Is the proved library slow anywhere? It is timed against the plain version on typical small sheets and on those where a
//! simple way to run the steps is slowest, and must not take many times as long. Both first have to answer the same.
//!
//! Usage: worst

#[path = "fast.rs"]
#[allow(dead_code)]
mod fast;
#[path = "../tests/second/plain.rs"]
#[allow(dead_code)]
mod plain;
#[allow(dead_code)]
mod sheet_lines;
#[path = "../tests/second/sheets.rs"]
#[allow(dead_code)]
mod sheets;
/// What the lines of sheets need of the tables.
mod tables {
    pub type Line = (String, Vec<Vec<u8>>);
}

use std::hint::black_box;
use std::time::Instant;

extern "C" {
    fn oatmist_check(sheet: &[u8], answer: &mut [u64]) -> u64;
    fn oatmist_restate(sheet: &[u8], out: &mut [u8], answer: &mut [u64]) -> u64;
}

/// So many times as long as the plain version the library may take. It takes less than twice as long; one that walks over all
/// transitions for each action took 30 to 100 times as long.
const MOST: f64 = 8.0;

/// Rounds of a line, and how long one call is timed in a round, in nanoseconds. The best round counts: the machine is shared.
const ROUNDS: usize = 40;
const STRETCH: u128 = 1_000_000;

/// Room for the largest restated sheet.
const ROOM: usize = 16_650;

/// The lines that are timed, of those in sheet_lines.rs.
const TIMED: [&str; 5] = [
    "small: n 2-4, 5-20 actions",
    "largest, action in all 16, single steps",
    "last of 64 labels, 1 component, all 32 held",
    "32 targets a state, 1 component, all 32 held",
    "64 actions in all 16 components, internal rings",
];

/// A call: what it returns, with its values in the answer.
type Call = fn(&[u8], &mut [u8], &mut [u64; 4]) -> u64;

/// The calls that are timed: their name, of the library, and of the plain version.
const CALLS: [(&str, Call, Call); 2] = [
    (
        "check",
        |sheet, _, answer| unsafe { oatmist_check(sheet, answer) },
        |sheet, _, answer| fast::check(sheet, answer),
    ),
    (
        "restate",
        |sheet, out, answer| unsafe { oatmist_restate(sheet, out, answer) },
        |sheet, out, answer| fast::restate(sheet, out, answer),
    ),
];

/// What a call returns, its values, and the output.
fn answered(call: Call, sheet: &[u8]) -> (u64, [u64; 4], Vec<u8>) {
    let (mut out, mut answer) = (vec![0xa5; ROOM], [u64::MAX; 4]);
    let told = call(sheet, &mut out, &mut answer);
    (told, answer, out)
}

/// The time of a call on some sheets, one after another, as often as a stretch has room for: nanoseconds for all of them once.
fn timed(call: Call, given: &[Vec<u8>], out: &mut [u8]) -> f64 {
    let (began, mut turns) = (Instant::now(), 0);
    loop {
        for sheet in given {
            let mut answer = [0; 4];
            black_box(call(black_box(sheet), out, &mut answer));
            black_box(&answer);
        }
        turns += 1;
        let took = began.elapsed().as_nanos();
        if took >= STRETCH {
            return took as f64 / turns as f64;
        }
    }
}

/// How many times as long as the plain version the library takes, by the best round of each.
fn ratio(ours: Call, plain: Call, given: &[Vec<u8>]) -> f64 {
    let mut out = vec![0; ROOM];
    let mut best = [f64::INFINITY; 2];
    for _ in 0..ROUNDS {
        for (time, call) in best.iter_mut().zip([ours, plain]) {
            *time = time.min(timed(call, given, &mut out));
        }
    }
    best[0] / best[1]
}

fn main() {
    let (_, lines) = sheet_lines::tables().swap_remove(0);
    let (mut passed, mut failed) = (0, 0);
    for name in TIMED {
        let (_, given) = lines.iter().find(|line| line.0 == name).expect(name);
        for (call, ours, plain) in CALLS {
            let same = given.iter().all(|sheet| answered(ours, sheet) == answered(plain, sheet));
            let times = ratio(ours, plain, given);
            let fine = same && times <= MOST;
            *(if fine { &mut passed } else { &mut failed }) += 1;
            let end = if fine { "" } else { ": FAILED" };
            println!("{name}: {call}, {} answers, {times:.2} times as long as the plain version{end}", if same { "the same" } else { "OTHER" });
        }
    }
    println!("{passed} passed, {failed} failed");
    std::process::exit(i32::from(failed > 0));
}
