//! Counts per function, the differences found, and the progress line.
use std::time::{Duration, Instant};

#[derive(Default)]
pub struct Counts {
    pub name: &'static str,
    pub accepted: u64,
    pub refused: u64,
    /// Accepted cases in which a sum of the oracle left 32 bits: its checked build panicked.
    pub overflowed: u64,
    pub differences: u64,
}

pub struct Tally {
    pub functions: Vec<Counts>,
    started: Instant,
    told: Instant,
    planned: usize,
    first_difference: Option<Duration>,
}

const SHOWN: u64 = 5;

impl Tally {
    pub fn new(planned: usize) -> Tally {
        let now = Instant::now();
        Tally { functions: Vec::new(), started: now, told: now, planned, first_difference: None }
    }

    pub fn begin(&mut self, name: &'static str) {
        self.functions.push(Counts { name, ..Counts::default() });
    }

    /// One comparison of the function begun last; `number` is what it answered.
    pub fn compared(&mut self, number: u32, agrees: bool, case: impl FnOnce() -> String) {
        let counts = self.functions.last_mut().expect("begun");
        if number == 0 {
            counts.accepted += 1;
        } else {
            counts.refused += 1;
        }
        if !agrees {
            counts.differences += 1;
            self.first_difference.get_or_insert(self.started.elapsed());
            if counts.differences <= SHOWN {
                eprintln!("DIFFERS {}: {}", counts.name, case());
            }
        }
        if self.told.elapsed() > Duration::from_secs(2) {
            self.told = Instant::now();
            self.tell();
        }
    }

    pub fn overflowed(&mut self) {
        self.functions.last_mut().expect("begun").overflowed += 1;
    }

    fn total(&self, of: impl Fn(&Counts) -> u64) -> u64 {
        self.functions.iter().map(of).sum()
    }

    fn tell(&self) {
        eprintln!(
            "progress: {} s, function {} of {}, {} comparisons, {} differences",
            self.started.elapsed().as_secs(),
            self.functions.len(),
            self.planned,
            self.total(|c| c.accepted + c.refused),
            self.total(|c| c.differences),
        );
    }

    /// The table of counts; true if nothing differed.
    pub fn finish(&self) -> bool {
        self.tell();
        println!("{:<52} {:>10} {:>9} {:>10} {:>11}", "function", "accepted", "refused", "overflowed", "differences");
        for c in &self.functions {
            println!("{:<52} {:>10} {:>9} {:>10} {:>11}", c.name, c.accepted, c.refused, c.overflowed, c.differences);
        }
        if let Some(after) = self.first_difference {
            println!("first difference after {} ms", after.as_millis());
        }
        let differences = self.total(|c| c.differences);
        println!(
            "{} functions, {} comparisons, {} of them with a sum of the Rust past 32 bits, {} differences, {:.1} s",
            self.functions.len(),
            self.total(|c| c.accepted + c.refused),
            self.total(|c| c.overflowed),
            differences,
            self.started.elapsed().as_secs_f64(),
        );
        differences == 0
    }
}
