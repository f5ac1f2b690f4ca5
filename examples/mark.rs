//! Marks a sheet from Rust, and tells whether a second one does the same work.
//!
//!     tools/build
//!     rustc --edition 2021 examples/mark.rs -L target/staticlib -l static=oatmist -o mark-rs
//!     ./mark-rs sheets/pair.sheet sheets/pair.sheet
//!
//! The exit status is 2 where a file cannot be read, and then nothing is marked, or where the answer cannot be written.
use std::io::Write;

/// The calls as `include/oatmist.h` declares them: a slice is a pointer and a length.
mod library {
    extern "C" {
        pub fn oatmist_report(
            sheet: *const u8,
            sheet_length: usize,
            out: *mut u8,
            out_length: usize,
            answer: *mut u64,
            answer_length: usize,
        ) -> u64;
        pub fn oatmist_same_work(
            first: *const u8,
            first_length: usize,
            second: *const u8,
            second_length: usize,
            answer: *mut u64,
            answer_length: usize,
        ) -> u64;
    }
}

/// A refusal: its number, the step that it is about, and which of two sheets.
struct Refusal {
    number: u64,
    step: u64,
    sheet: u64,
}

/// The one value of a call, or the refusal, by what the call returned.
fn taken_apart(told: u64, value: u64) -> Result<u64, Refusal> {
    match told {
        0 => Ok(value),
        _ => Err(Refusal { number: told & 255, step: told >> 16, sheet: told >> 8 & 255 }),
    }
}

/// What the program prints for a sheet.
fn report(sheet: &[u8]) -> Result<Vec<u8>, Refusal> {
    let mut text = vec![0; 16_384]; // always long enough for a report
    let mut length = 0;
    let told = unsafe {
        library::oatmist_report(sheet.as_ptr(), sheet.len(), text.as_mut_ptr(), text.len(), &mut length, 1)
    };
    text.truncate(taken_apart(told, length)? as usize);
    Ok(text)
}

/// Whether two sheets do the same work.
fn same_work(first: &[u8], second: &[u8]) -> Result<bool, Refusal> {
    let mut same = 0;
    let told = unsafe {
        library::oatmist_same_work(first.as_ptr(), first.len(), second.as_ptr(), second.len(), &mut same, 1)
    };
    Ok(taken_apart(told, same)? == 1)
}

/// Ends the program with what is wrong.
fn stop(wrong: String) -> ! {
    eprintln!("mark-rs: {wrong}");
    std::process::exit(2)
}

fn load(path: &str) -> Vec<u8> {
    std::fs::read(path).unwrap_or_else(|error| stop(format!("{path}: {error}")))
}

/// The report of the first sheet, and a line on what the two are to each other.
fn answer(first: &[u8], second: &[u8]) -> Vec<u8> {
    let mut text = report(first).unwrap_or_default();
    let line = match same_work(first, second) {
        Ok(true) => "same work".to_string(),
        Ok(false) => "other work".to_string(),
        Err(Refusal { number, step, sheet }) => format!("pair refused {number} {step} of sheet {sheet}"),
    };
    text.extend_from_slice(line.as_bytes());
    text.push(b'\n');
    text
}

fn main() {
    let paths: Vec<String> = std::env::args().skip(1).collect();
    let [first, second] = &paths[..] else {
        stop("usage: mark-rs SHEET SHEET".to_string())
    };
    let (first, second) = (load(first), load(second));
    let mut output = std::io::stdout();
    if let Err(error) = output.write_all(&answer(&first, &second)).and_then(|()| output.flush()) {
        stop(format!("standard output: {error}"));
    }
}
