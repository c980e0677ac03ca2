// Both programs on one book and one room, and every byte of that room and around it compared.

use crate::random::Random;
use crate::{engine, read, rounds, Program};

/// Bytes before and after the room that no program may touch.
const GUARD: usize = 16;

/// What one program made of a book: its number and the memory that holds the room between its guards.
pub struct Outcome {
    pub number: u32,
    memory: Vec<u8>,
}

impl Outcome {
    pub fn room(&self) -> &[u8] {
        &self.memory[GUARD..self.memory.len() - GUARD]
    }

    /// The first byte that is not as expected, which is the answers and then all as it was: its place in the room,
    /// negative before it, what it is and what it should be.
    pub fn first_other(&self, answers: &[u8], seed: u64) -> Option<(isize, u8, u8)> {
        let mut expected = pattern(seed, self.room().len());
        expected[GUARD..GUARD + answers.len()].copy_from_slice(answers);
        let at = (0..expected.len()).find(|&at| self.memory[at] != expected[at])?;
        Some((at as isize - GUARD as isize, self.memory[at], expected[at]))
    }
}

/// Memory filled with a pattern that depends on position and seed, and is no answer at any position.
fn pattern(seed: u64, room_length: usize) -> Vec<u8> {
    let byte = |position: usize| 3 + ((position as u64).wrapping_mul(89).wrapping_add(seed) % 253) as u8;
    (0..room_length + 2 * GUARD).map(byte).collect()
}

pub fn run(program: Program, book: &[u8], room_length: usize, seed: u64) -> Outcome {
    let mut memory = pattern(seed, room_length);
    let number = program(book, &mut memory[GUARD..GUARD + room_length]);
    Outcome { number, memory }
}

/// The engine's outcome, if the second program's is the same and neither wrote where it may not.
pub fn compare(book: &[u8], room_length: usize, seed: u64) -> Result<Outcome, String> {
    let ours = run(engine::answer, book, room_length, seed);
    let second = run(crate::answer, book, room_length, seed);
    let before = pattern(seed, room_length);
    let after = GUARD + room_length;
    if ours.number != second.number {
        return Err(format!("room {room_length}: engine {}, second {}", ours.number, second.number));
    }
    if let Some(at) = (0..room_length).find(|&at| ours.room()[at] != second.room()[at]) {
        let (one, other) = (ours.room()[at], second.room()[at]);
        return Err(format!("room {room_length}: at byte {at} engine {one}, second {other}"));
    }
    if ours.memory[..GUARD] != before[..GUARD] || ours.memory[after..] != before[after..] {
        return Err(format!("room {room_length}: the engine wrote outside the room"));
    }
    if ours.number != 0 && ours.memory != before {
        return Err(format!("room {room_length}: refused, but the room has changed"));
    }
    Ok(ours)
}

/// Compares the plain rounds with an outcome of the engine's, in a room of the same length.
pub fn compare_rounds(book: &[u8], ours: &Outcome, seed: u64) -> Result<(), String> {
    let rounds = run(rounds::answer, book, ours.room().len(), seed);
    if ours.number != rounds.number {
        return Err(format!("engine {}, rounds {}", ours.number, rounds.number));
    }
    if let Some(at) = (0..ours.memory.len()).find(|&at| ours.memory[at] != rounds.memory[at]) {
        let (one, other) = (ours.memory[at], rounds.memory[at]);
        return Err(format!("at byte {} engine {one}, rounds {other}", at as isize - GUARD as isize));
    }
    Ok(())
}

/// The outcomes of one book in rooms of three sorts.
pub struct Outcomes {
    pub short: Option<Outcome>,
    pub exact: Outcome,
}

/// Compares in a room that is too short (where there are atoms), one that is exact and one that is longer.
pub fn compare_all(book: &[u8], seed: u64) -> Result<Outcomes, String> {
    let lengths = Lengths::new(book, seed);
    let short = lengths.short.map(|length| compare(book, length, seed)).transpose()?;
    let exact = compare(book, lengths.exact, seed)?;
    let longer = compare(book, lengths.longer, seed)?;
    if longer.number != exact.number {
        return Err(format!("{} in an exact room, {} in a longer one", exact.number, longer.number));
    }
    Ok(Outcomes { short, exact })
}

/// The lengths of the rooms that a book and a seed get.
pub struct Lengths {
    pub short: Option<usize>,
    pub exact: usize,
    pub longer: usize,
}

impl Lengths {
    pub fn new(book: &[u8], seed: u64) -> Self {
        let mut random = Random::new(!seed);
        let exact = atoms_told(book);
        let short = (exact > 0).then(|| random.below(exact));
        Lengths { short, exact, longer: exact + 1 + random.below(8) }
    }
}

/// How many atoms the table of contents tells of: 5 where there is none, at most 4,096 where it tells of more.
fn atoms_told(book: &[u8]) -> usize {
    if book.len() < read::CONTENTS {
        return 5;
    }
    read::contents(book)[1].count.min(4096)
}
