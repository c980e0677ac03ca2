// Prints one book: its tables, and what each program makes of it in rooms of three sorts.

use crate::rooms::{self, Lengths};
use crate::tables::Tables;
use crate::{refuse, Program};

pub fn book(book: &[u8], seed: u64) {
    match refuse::check_contents(book) {
        Ok(tables) => print_tables(&tables),
        Err(_) => println!("  {} bytes {book:02x?}", book.len()),
    }
    let lengths = Lengths::new(book, seed);
    for room_length in lengths.short.into_iter().chain([lengths.exact, lengths.longer]) {
        println!("  room of {room_length}");
        let programs: [(&str, Program); 3] =
            [("engine", crate::engine::answer), ("second", crate::answer), ("rounds", crate::rounds::answer)];
        for (name, program) in programs {
            let outcome = rooms::run(program, book, room_length, seed);
            println!("    {name}: {} {:?}", outcome.number, outcome.room());
        }
    }
}

fn print_tables(tables: &Tables) {
    print_records("predicates (kind, level)", &tables.predicates);
    print_records("atoms (predicate, given)", &tables.atoms);
    print_records("rules (head, first, how many)", &tables.rules);
    print_records("hypotheses (sort, index)", &tables.hypotheses);
    print_records("comparisons (aggregate, relation, bound, first, how many)", &tables.comparisons);
    print_records("elements (sign, atom, weight)", &tables.elements);
}

fn print_records<T: std::fmt::Debug>(title: &str, records: &[T]) {
    println!("  {title}:");
    for (record, fields) in records.iter().enumerate() {
        println!("    {record}: {fields:?}");
    }
}
