//! Counting what passed and what failed, for the programs of C4.

/// Failures of which the details are printed.
const SHOWN: usize = 5;

pub struct Tally {
    pub passed: u64,
    pub failed: u64,
    /// What had passed when the present part began.
    mark: u64,
}

impl Tally {
    pub fn new() -> Tally {
        Tally {
            passed: 0,
            failed: 0,
            mark: 0,
        }
    }

    /// Counts one check. The text is made only where it failed.
    pub fn check(&mut self, holds: bool, text: impl FnOnce() -> String) {
        if holds {
            self.passed += 1;
            return;
        }
        self.failed += 1;
        if self.failed as usize <= SHOWN {
            println!("FAILED: {}", text());
        }
    }

    /// One line about the part that ends here.
    pub fn part(&mut self, name: &str) {
        println!(
            "{name}: {} checks passed, {} failed so far",
            self.passed - self.mark,
            self.failed
        );
        self.mark = self.passed;
    }

    /// The last line, and the exit status that goes with it.
    pub fn finish(self) -> ! {
        println!("{} passed, {} failed", self.passed, self.failed);
        std::process::exit(if self.failed == 0 { 0 } else { 1 })
    }
}

/// Bytes in hexadecimal.
pub fn hex(bytes: &[u8]) -> String {
    bytes.iter().map(|byte| format!("{byte:02x}")).collect()
}

/// The number given as the argument with this place, or the default.
pub fn argument(place: usize, default: u64) -> u64 {
    match std::env::args().nth(place) {
        None => default,
        Some(text) => text.parse().unwrap_or_else(|_| {
            eprintln!("not a number: {text}");
            std::process::exit(2)
        }),
    }
}
