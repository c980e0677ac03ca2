// The parts of the comparison that take no seed: books at the limits, hostile books, and fixtures with their expected
// outcome.

use crate::fixtures::{self, Expected, Fixture, Room};
use crate::random::Random;
use crate::refuse::Refusal;
use crate::tables::Tables;
use crate::{engine, hostile, limits, rooms, shaped, witness, Program};

/// Compares the books at the limits in rooms of three sorts; says how many there are.
pub fn compare_limits() -> Result<usize, String> {
    let limits = limits::all();
    for limit in &limits {
        witness::remember(format!("limit: {}", limit.name));
        rooms::compare_all(&limit.book, 0)?;
    }
    Ok(limits.len())
}

/// Compares the hostile books at a twentieth of their length, and books of their shapes with a filler as long as
/// theirs, by the plain rounds too; says how many there are.
pub fn compare_hostile() -> Result<usize, String> {
    let short = hostile::all(5).into_iter().map(|hostile| (hostile.name.to_string(), hostile.tables));
    let filled = (0..200).map(|seed| (format!("filled {seed}"), shaped::filled(&mut Random::new(seed))));
    let books: Vec<(String, Tables)> = short.chain(filled).collect();
    for (name, tables) in &books {
        witness::remember(format!("hostile: {name}"));
        let book = tables.bytes();
        let outcome = rooms::compare_all(&book, 0)?.exact;
        if outcome.number != 0 {
            return Err(format!("refused with {}", outcome.number));
        }
        rooms::compare_rounds(&book, &outcome, 0)?;
    }
    Ok(books.len())
}

/// Compares the fixtures with what both programs say of them; says how many there are.
pub fn compare_fixtures() -> Result<usize, String> {
    let fixtures = fixtures::all();
    for fixture in &fixtures {
        witness::remember(format!("fixture: {}", fixture.name));
        rooms::compare_all(&fixture.book, 0)?;
        compare_expected(fixture, fixture.atoms.len())?;
    }
    Ok(fixtures.len())
}

/// The same for the fixtures that have a room of their own.
pub fn compare_rooms() -> Result<usize, String> {
    let rooms = fixtures::rooms();
    for Room { fixture, room } in &rooms {
        witness::remember(format!("fixture: {}", fixture.name));
        rooms::compare(&fixture.book, *room, 0)?;
        compare_expected(fixture, *room)?;
    }
    Ok(rooms.len())
}

/// Both programs: the number, and every byte of the room and around it.
fn compare_expected(fixture: &Fixture, room_length: usize) -> Result<(), String> {
    let (number, answers) = match &fixture.expected {
        Expected::Answers(answers) => (0, answers.as_slice()),
        &Expected::Refused(number, table, record) => {
            (Refusal { number, table: table as usize, record: record as usize }.packed(), [].as_slice())
        }
    };
    if number == 0 && answers.len() != fixture.atoms.len() {
        return Err(format!("{} answers for {} atoms", answers.len(), fixture.atoms.len()));
    }
    let programs: [(&str, Program); 2] = [("engine", engine::answer), ("second", crate::answer)];
    for (name, program) in programs {
        let outcome = rooms::run(program, &fixture.book, room_length, 0);
        if outcome.number != number {
            return Err(format!("{name} {}, expected {number}", outcome.number));
        }
        if let Some((at, is, should)) = outcome.first_other(answers, 0) {
            let atom = usize::try_from(at).ok().and_then(|atom| fixture.atoms.get(atom)).unwrap_or(&"no atom");
            return Err(format!("byte {at} of the room, {atom}: {name} {is}, expected {should}"));
        }
    }
    Ok(())
}
