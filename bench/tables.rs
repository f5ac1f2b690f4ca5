//! Tables of times: two versions of the calls on the same sheets, products and columns, one run, rounds in turn. Before anything is
//! timed both must give the same answers, byte for byte. Each sweep has a process of its own, since some lines have two
//! speeds, and a process keeps to one of them. A time is the best round of all; a ratio is the middle one of the
//! sweeps', each by its own best rounds.

use crate::{column_lines, product_lines, sheet_lines};
use std::hint::black_box;
use std::process::{exit, Command};
use std::time::Instant;

/// Room for the largest restated sheet.
pub const ROOM: usize = 16_650;

/// What stands in an array lent for an answer, which a refused call leaves as it came.
pub const KEPT: u64 = u64::MAX;

/// How long one version is timed at a stretch.
const STRETCH: u128 = 200_000;

/// Rounds of a line before it is the next line's turn.
const AT_ONCE: usize = 20;

/// The argument by which the program asks itself for one sweep: it prints the best time of each call, and nothing else.
const SWEEP: &str = "sweep";

// ---------------------------------------------------------------------------------------------
// The calls that are timed

/// A call with room for N values; what it returned, and a value, so that neither is left out.
#[inline(always)]
pub fn answered<const N: usize>(call: impl FnOnce(&mut [u64]) -> u64) -> u64 {
    let mut answer = [0u64; N];
    let told = call(&mut answer);
    told ^ black_box(&answer)[0]
}

/// What a call is given: a sheet or a product, and columns where it takes them.
pub struct Input {
    pub bytes: Vec<u8>,
    pub columns: Vec<u8>,
}

impl From<(Vec<u8>, Vec<u8>)> for Input {
    fn from((bytes, columns): (Vec<u8>, Vec<u8>)) -> Input {
        Input { bytes, columns }
    }
}

pub type Call = fn(&Input, &mut [u8]) -> u64;

/// What is done with one kind of input: sheets, sheets for their figure, products, or sheets with columns.
pub struct Kind {
    /// What is timed of both versions, in twos: the check and restating of a sheet, its figure, the rows of a product, or columns.
    pub calls: &'static [Call],
    /// Both versions on one input, named by its line; stops the run where they differ.
    pub agree: fn(&str, &Input),
}

/// Two versions of the calls.
pub struct Versions {
    /// Their names, in the order of the columns.
    pub names: [&'static str; 2],
    /// The place of the one that the ratio tells of: above 1 it is faster than the other.
    pub ours: usize,
    pub on_sheets: Kind,
    pub on_figures: Kind,
    pub on_products: Kind,
    /// Nothing where one of the versions has no such call.
    pub on_columns: Option<Kind>,
    /// Both versions on what stands in no table; stops the run where they differ.
    pub agree_beyond: fn(),
}

impl Versions {
    fn ours_and_other<T: Copy>(&self, two: &[T]) -> (T, T) {
        (two[self.ours], two[1 - self.ours])
    }

    /// How many times as long as ours the other version took, in the middle one of the sweeps.
    pub fn ratio(&self, row: &Row, call: usize) -> f64 {
        let of_sweep = |times: &Vec<f64>| {
            let (ours, other) = self.ours_and_other(&times[2 * call..2 * call + 2]);
            other / ours
        };
        let mut ratios: Vec<f64> = row.sweeps.iter().map(of_sweep).collect();
        ratios.sort_by(f64::total_cmp);
        ratios[ratios.len() / 2]
    }

    /// Every table, those of sheets first.
    fn tables(&self) -> Vec<Table> {
        let sheets = sheet_lines::tables().into_iter();
        let mut made: Vec<Table> = sheets
            .map(|(name, lines)| Table::new(name, &["check", "restate"], &self.on_sheets, alone(lines)))
            .collect();
        made.push(Table::new("Figures", &["figure"], &self.on_figures, alone(sheet_lines::figure_lines())));
        made.push(Table::new("Products", &["rows"], &self.on_products, alone(product_lines::lines())));
        if let Some(kind) = &self.on_columns {
            made.push(Table::new("Columns", &["columns"], kind, column_lines::lines()));
        }
        made
    }

    /// The tables, measured in as many sweeps as the program's argument says.
    pub fn measured(&self) -> Vec<Table> {
        let mut tables = self.tables();
        let sweeps = match std::env::args().nth(1).as_deref() {
            None => 20,
            Some(SWEEP) => sweep(&mut tables),
            Some(text) => text.parse().expect("the number of sweeps"),
        };
        (self.agree_beyond)();
        let compared: usize = rows(&mut tables).map(|row| row.agree()).sum();
        let (ours, other) = self.ours_and_other(&self.names);
        print!("Both give the same answers on the {compared} sheets, products and columns. Nanoseconds a call, ");
        print!("best of {} rounds; ratio: {other} / {ours}, the middle one of {sweeps} sweeps, ", sweeps * AT_ONCE);
        println!("above 1 the {ours} one is faster.");
        for _ in 0..sweeps {
            let mut times = swept().into_iter();
            rows(&mut tables).for_each(|row| row.sweeps.push(times.by_ref().take(row.calls.len()).collect()));
        }
        tables
    }

    pub fn print(&self, table: &Table) {
        let [one, two] = self.names;
        print!("\n| {} |", table.name);
        for call in table.calls {
            print!(" {call} {one}, ns | {call} {two}, ns | ratio |");
        }
        println!("\n|---|{}", "---:|---:|---:|".repeat(table.calls.len()));
        for row in &table.rows {
            print!("| {} |", row.name);
            for call in 0..table.calls.len() {
                let (one, two) = (row.best(2 * call), row.best(2 * call + 1));
                print!(" {one:.0} | {two:.0} | {:.2} |", self.ratio(row, call));
            }
            println!();
        }
    }
}

// ---------------------------------------------------------------------------------------------
// Tables and their rows

/// The name of a line, and what is given: sheets or products, or sheets with columns.
pub type Line<T = Vec<u8>> = (String, Vec<T>);

/// Lines of sheets or of products, without columns.
fn alone(lines: Vec<Line>) -> Vec<Line<Input>> {
    let line = |(name, given): Line| (name, given.into_iter().map(|bytes| Input::from((bytes, vec![]))).collect());
    lines.into_iter().map(line).collect()
}

/// A table: what its first column has, the calls that it is about, and its lines.
pub struct Table {
    name: &'static str,
    calls: &'static [&'static str],
    pub rows: Vec<Row>,
}

impl Table {
    fn new(name: &'static str, calls: &'static [&'static str], kind: &Kind, lines: Vec<Line<Input>>) -> Table {
        let row = |(name, given): Line<Input>| Row {
            name,
            given,
            calls: kind.calls,
            agree: kind.agree,
            sweeps: Vec::new(),
        };
        Table {
            name,
            calls,
            rows: lines.into_iter().map(row).collect(),
        }
    }
}

fn rows(tables: &mut [Table]) -> impl Iterator<Item = &mut Row> {
    tables.iter_mut().flat_map(|table| &mut table.rows)
}

/// One sweep; the times are printed, and the program ends.
fn sweep(tables: &mut [Table]) -> ! {
    let mut out = vec![0u8; ROOM];
    for row in rows(tables) {
        row.measured(&mut out, AT_ONCE).iter().for_each(|time| println!("{time}"));
    }
    exit(0)
}

/// The times of one sweep, by a process of its own.
fn swept() -> Vec<f64> {
    let program = std::env::current_exe().expect("the program's own path");
    let run = Command::new(program).arg(SWEEP).output().expect("a sweep");
    assert!(run.status.success(), "a sweep: {}", String::from_utf8_lossy(&run.stderr));
    let said = String::from_utf8(run.stdout).expect("the times of a sweep");
    said.lines().map(|line| line.parse().expect("a time")).collect()
}

/// The sheets, products or columns of one line of a table, and for each sweep the best time of each call for one of them. The calls
/// come in twos.
pub struct Row {
    pub name: String,
    given: Vec<Input>,
    calls: &'static [Call],
    agree: fn(&str, &Input),
    sweeps: Vec<Vec<f64>>,
}

impl Row {
    /// How many sheets, products or columns there are, on all of which both versions must agree.
    fn agree(&self) -> usize {
        self.given.iter().for_each(|input| (self.agree)(&self.name, input));
        self.given.len()
    }

    /// How often all of it is given to a call in one stretch.
    fn passes_of(&self, call: Call, out: &mut [u8]) -> usize {
        passes(call, &self.given, out, 1);
        let once = passes(call, &self.given, out, 1).max(1);
        (STRETCH / once).clamp(1, 100_000) as usize
    }

    /// The best time of each call in some rounds. The calls take turns, and each round begins with another one.
    fn measured(&self, out: &mut [u8], rounds: usize) -> Vec<f64> {
        let counts: Vec<usize> = self.calls.iter().map(|&call| self.passes_of(call, out)).collect();
        let mut times = vec![f64::MAX; self.calls.len()];
        for round in 0..rounds {
            for turn in 0..self.calls.len() {
                let i = (round + turn) % self.calls.len();
                let time = passes(self.calls[i], &self.given, out, counts[i]) as f64;
                times[i] = times[i].min(time / (counts[i] * self.given.len()) as f64);
            }
        }
        times
    }

    /// The best time of a call over all sweeps.
    pub fn best(&self, call: usize) -> f64 {
        self.sweeps.iter().map(|times| times[call]).fold(f64::MAX, f64::min)
    }
}

/// Nanoseconds of a number of passes over the sheets, products or columns.
fn passes(call: Call, given: &[Input], out: &mut [u8], count: usize) -> u128 {
    let began = Instant::now();
    for _ in 0..count {
        for input in given {
            black_box(call(black_box(input), black_box(&mut *out)));
        }
    }
    began.elapsed().as_nanos()
}
