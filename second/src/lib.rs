// The second program, written from document 01 alone, and what compares it with the engine.

pub mod builder;
pub mod codes;
pub mod damage;
pub mod engine;
pub mod families;
pub mod faults;
pub mod fixtures;
pub mod full;
pub mod generate;
pub mod gifts;
pub mod hostile;
pub mod limits;
pub mod making;
pub mod measure;
pub mod model;
pub mod parts;
pub mod random;
pub mod read;
pub mod recursion;
pub mod refuse;
pub mod rooms;
pub mod rounds;
pub mod sample;
pub mod seeds;
pub mod shaped;
pub mod shapes;
pub mod show;
pub mod stack;
pub mod tables;
pub mod tally;
pub mod truth;
pub mod uses;
pub mod witness;

/// The form of every program: a book and a room to the packed number.
pub type Program = fn(&[u8], &mut [u8]) -> u32;

/// The second program: 0 and the answers in the room, or the packed refusal and the room as it was.
pub fn answer(book: &[u8], room: &mut [u8]) -> u32 {
    answer_by(model::answers, book, room)
}

/// The same, with the model worked out by some other means.
fn answer_by(answers: fn(&tables::Tables) -> Vec<truth::Truth>, book: &[u8], room: &mut [u8]) -> u32 {
    match refuse::check(book, room.len()) {
        Err(refusal) => refusal.packed(),
        Ok(tables) => {
            for (atom, answer) in answers(&tables).into_iter().enumerate() {
                room[atom] = answer.code();
            }
            0
        }
    }
}
