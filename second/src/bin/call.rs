// One call of one program on one book of the benchmark, for a tool that counts its instructions; or the books' names.

use second::tables::Tables;
use second::{engine, families, hostile, rounds, Program};

const USAGE: &str = "usage: call books, or call none|engine|rounds|second BOOK";

fn main() {
    let words: Vec<String> = std::env::args().skip(1).collect();
    match words.iter().map(String::as_str).collect::<Vec<_>>()[..] {
        ["books"] => families::all().iter().for_each(|family| println!("{}", family.name)),
        [program, book] => call(program_of(program), &tables_of(book)),
        _ => panic!("{USAGE}"),
    }
}

/// What is counted beside the call itself is the same with none.
fn program_of(name: &str) -> Program {
    match name {
        "none" => |_, _| 0,
        "engine" => engine::answer,
        "rounds" => rounds::answer,
        "second" => second::answer,
        _ => panic!("{USAGE}"),
    }
}

fn tables_of(name: &str) -> Tables {
    let family = families::all().into_iter().find(|family| family.name == name).map(|family| family.tables);
    let hostile = || hostile::all(100).into_iter().find(|book| book.name == name).map(|book| book.tables);
    family.or_else(hostile).expect("a book of the benchmark")
}

fn call(program: Program, tables: &Tables) {
    let number = program(&tables.bytes(), &mut vec![0; tables.atoms.len()]);
    assert_eq!(number, 0, "the book is accepted");
}
