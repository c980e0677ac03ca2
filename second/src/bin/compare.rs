// Compares the engine with the second program, byte by byte: fixtures, limits, short hostile books, seeded books,
// gifts, damaged bytes; and the sample book with its fixture.
// compare [--from S] [--books N]: the seeds from S on, 0 and 200,000 unless said; compare --seed S: one, in full.

use std::process::ExitCode;

use second::tally::Tally;
use second::{parts, sample, seeds, witness};

/// From this many books on, every outcome must have occurred often enough.
const ALL_BOOKS: u64 = 200_000;

struct Options {
    seed: Option<u64>,
    from: u64,
    books: u64,
}

fn main() -> ExitCode {
    let Some(options) = options() else {
        println!("compare [--from S] [--books N] | compare --seed S");
        return ExitCode::from(2);
    };
    witness::watch();
    let result = match options.seed {
        Some(seed) => one_seed(seed),
        None => every_part(&options),
    };
    match result {
        Ok(books) => {
            println!("compare: {books} books, 0 differences");
            ExitCode::SUCCESS
        }
        Err(why) => {
            println!("{}", witness::say(why));
            ExitCode::FAILURE
        }
    }
}

fn options() -> Option<Options> {
    let mut options = Options { seed: None, from: 0, books: ALL_BOOKS };
    let mut arguments = std::env::args().skip(1);
    while let Some(name) = arguments.next() {
        let value = arguments.next()?.parse().ok()?;
        match name.as_str() {
            "--seed" => options.seed = Some(value),
            "--from" => options.from = value,
            "--books" => options.books = value,
            _ => return None,
        }
    }
    Some(options)
}

fn one_seed(seed: u64) -> Result<u64, String> {
    remember(seed);
    seeds::show(seed);
    let mut tally = Tally::default();
    seeds::compare(seed, &mut tally)?;
    Ok(tally.compared())
}

/// A crash, an assertion or a difference is said of this seed.
fn remember(seed: u64) {
    witness::remember(format!("seed {seed}; run: target/second/release/compare --seed {seed}"));
}

fn every_part(options: &Options) -> Result<u64, String> {
    let (fixtures, rooms) = (parts::compare_fixtures()?, parts::compare_rooms()?);
    println!("{} fixtures as expected, {rooms} of them with a room of their own", fixtures + rooms);
    witness::remember("sample".into());
    sample::compare()?;
    println!("the sample book and its names as its fixture says");
    let limits = parts::compare_limits()?;
    println!("{limits} books at the limits");
    let hostile = parts::compare_hostile()?;
    println!("{hostile} short hostile books");
    let mut tally = Tally::default();
    for seed in options.from..options.from + options.books {
        remember(seed);
        seeds::compare(seed, &mut tally)?;
    }
    tally.print();
    witness::remember("all the seeds".into());
    match tally.too_little() {
        Some(what) if options.books >= ALL_BOOKS => Err(what),
        _ => Ok(tally.compared() + (fixtures + rooms + limits + hostile) as u64),
    }
}
