// The benchmark: the engine, its rounds written plainly and the second program side by side, two tables, one run.
// bench: both tables; bench books, bench hostile: one; bench hostile NUMBER: one hostile book; bench hostile NUMBER
// PERCENT: so many of a hundred of its links.

use std::ops::RangeInclusive;
use std::process::ExitCode;

use second::families::{self, Family};
use second::hostile::{self, Hostile};
use second::measure::measure;
use second::{engine, rounds, stack};

const ALL: RangeInclusive<usize> = 1..=usize::MAX;

fn main() -> ExitCode {
    let words: Vec<String> = std::env::args().skip(1).collect();
    match print(&words.iter().map(String::as_str).collect::<Vec<_>>()) {
        Some(()) => ExitCode::SUCCESS,
        None => {
            println!("bench | bench books | bench hostile | bench hostile NUMBER [PERCENT]");
            ExitCode::from(2)
        }
    }
}

/// Prints what is asked for, if it can be understood.
fn print(words: &[&str]) -> Option<()> {
    match *words {
        [] => {
            print_books();
            println!();
            print_hostile(ALL, 100);
        }
        ["books"] => print_books(),
        ["hostile"] => print_hostile(ALL, 100),
        ["hostile", number] => print_hostile(one(number)?, 100),
        ["hostile", number, percent] => print_hostile(one(number)?, percent.parse().ok()?),
        _ => return None,
    }
    Some(())
}

fn one(number: &str) -> Option<RangeInclusive<usize>> {
    let number = number.parse().ok()?;
    Some(number..=number)
}

fn print_books() {
    let (_, empty) = stack::used(|_, _| 0, &[], &mut []);
    println!("Median times in ms; the stack in KB is what a thread touched that made the engine's one call.");
    println!("An empty call touched {} KB of such a stack.", in_kb(empty));
    println!("`rounds` takes the engine's rounds, written plainly; `second` takes its steps one after the other.");
    println!();
    print!("| book | bytes | engine | rounds | second | engine / rounds | engine / second ");
    println!("| true | false | undefined | stack |");
    println!("|---|--:|--:|--:|--:|--:|--:|--:|--:|--:|--:|");
    for family in families::all() {
        println!("{}", row(&family));
    }
}

fn row(family: &Family) -> String {
    let book = family.tables.bytes();
    let atoms = family.tables.atoms.len();
    let ours = measure(engine::answer, &book, atoms);
    let rounds = measure(rounds::answer, &book, atoms);
    let second = measure(second::answer, &book, atoms);
    assert_eq!(ours.answers, rounds.answers, "{}: the answers of the rounds differ", family.name);
    assert_eq!(ours.answers, second.answers, "{}: the answers differ", family.name);
    let (number, touched) = stack::used(engine::answer, &book, &mut vec![0; atoms]);
    assert_eq!(number, 0, "{}: refused", family.name);
    format!(
        "| {} | {} | {} | {} | {} | {:.2} | {:.2} | {} | {} |",
        family.name,
        book.len(),
        ours.in_ms(),
        rounds.in_ms(),
        second.in_ms(),
        ours.over(&rounds),
        ours.over(&second),
        ours.counts(),
        in_kb(touched),
    )
}

/// The hostile books from one number to another, with so many of a hundred of their links.
fn print_hostile(numbers: RangeInclusive<usize>, percent: usize) {
    let books: Vec<(usize, Hostile)> =
        (1..).zip(hostile::all(percent)).filter(|(number, _)| numbers.contains(number)).collect();
    println!("Hostile books, median times in ms; - where the plain rounds take long.");
    println!();
    for (number, book) in &books {
        println!("{number}. {}: {}.", book.name, book.made);
    }
    println!();
    println!("| hostile book | bytes | engine | rounds | second | true | false | undefined |");
    println!("|---|--:|--:|--:|--:|--:|--:|--:|");
    for (number, book) in &books {
        println!("| {number} {} |", hostile_row(book));
    }
}

fn hostile_row(hostile: &Hostile) -> String {
    let book = hostile.tables.bytes();
    let atoms = hostile.tables.atoms.len();
    let second = measure(second::answer, &book, atoms);
    let rounds = hostile.rounds.then(|| measure(rounds::answer, &book, atoms));
    let ours = measure(engine::answer, &book, atoms);
    if let Some(rounds) = &rounds {
        assert_eq!(ours.answers, rounds.answers, "{}: the answers of the rounds differ", hostile.name);
    }
    assert_eq!(ours.answers, second.answers, "{}: the answers differ", hostile.name);
    format!(
        "{} | {} | {} | {} | {} | {}",
        hostile.name,
        book.len(),
        ours.in_ms(),
        rounds.map_or("-".into(), |rounds| rounds.in_ms()),
        second.in_ms(),
        ours.counts(),
    )
}

fn in_kb(bytes: usize) -> String {
    format!("{:.1}", bytes as f64 / 1024.0)
}
