// The time that a program takes for a book, and the answers it gives.

use std::time::{Duration, Instant};

use crate::Program;

/// A program is run at least five times and until its runs have taken this long together, or as often as allowed.
const ENOUGH: Duration = Duration::from_millis(200);
const MOST_RUNS: usize = 101;

/// Runs that have taken this long together are not repeated, be they fewer than five.
const TOO_LONG: Duration = Duration::from_secs(8);

pub struct Measured {
    median: Duration,
    pub answers: Vec<u8>,
}

impl Measured {
    pub fn in_ms(&self) -> String {
        format!("{:.3}", self.median.as_secs_f64() * 1000.0)
    }

    pub fn over(&self, other: &Measured) -> f64 {
        self.median.as_secs_f64() / other.median.as_secs_f64()
    }

    /// How many atoms are true, false and undefined, as three columns of a table.
    pub fn counts(&self) -> String {
        let how_many = |answer: u8| self.answers.iter().filter(|&&other| other == answer).count();
        format!("{} | {} | {}", how_many(1), how_many(2), how_many(0))
    }
}

pub fn measure(program: Program, book: &[u8], atoms: usize) -> Measured {
    let mut answers = vec![0xff; atoms];
    let mut times: Vec<Duration> = vec![];
    loop {
        let start = Instant::now();
        let number = program(book, &mut answers);
        times.push(start.elapsed());
        assert_eq!(number, 0, "the book is accepted");
        let total: Duration = times.iter().sum();
        if total >= TOO_LONG || times.len() >= 5 && total >= ENOUGH || times.len() == MOST_RUNS {
            break;
        }
    }
    times.sort();
    Measured { median: times[times.len() / 2], answers }
}
