// One seed: its book in three rooms, its gift where it can have one, and for every fourth seed its damaged copy; every
// tenth accepted book by the plain rounds too.

use crate::generate::{self, Seeded};
use crate::random::Random;
use crate::tally::Tally;
use crate::{damage, gifts, read, refuse, rooms, show};

/// Compares everything that a seed stands for; an error says what differs.
pub fn compare(seed: u64, tally: &mut Tally) -> Result<(), String> {
    let Seeded { book, shape } = generate::seeded(seed);
    let outcomes = rooms::compare_all(&book, seed)?;
    let tables = (outcomes.exact.number == 0).then(|| read::tables(&book));
    tally.count(&outcomes, tables.as_ref(), shape);
    if let Some(tables) = tables {
        if tally.is_tenth() {
            rooms::compare_rounds(&book, &outcomes.exact, seed)?;
            tally.rounds += 1;
        }
        if let Some(with_gifts) = gifts::with_gifts(&tables, seed) {
            let gift = gifts::compare(&with_gifts, outcomes.exact.room(), seed);
            tally.count_gift(&gift.map_err(|why| format!("gift: {why}"))?);
        }
    }
    if seed.is_multiple_of(4) {
        rooms::compare_all(&damaged(seed), seed).map_err(|why| format!("damaged bytes: {why}"))?;
        tally.damaged += 1;
    }
    Ok(())
}

/// The damaged copy of a seed's book.
fn damaged(seed: u64) -> Vec<u8> {
    damage::damaged(generate::seeded(seed).book, &mut Random::new(seed ^ 0x6272_6f6b_656e))
}

/// Prints everything that a seed stands for.
pub fn show(seed: u64) {
    let book = generate::seeded(seed).book;
    println!("seed {seed}");
    show::book(&book, seed);
    if let Ok(tables) = refuse::check(&book, usize::MAX) {
        if let Some(with_gifts) = gifts::with_gifts(&tables, seed) {
            println!("seed {seed} with gifts");
            show::book(&with_gifts.bytes(), seed);
        }
    }
    if seed.is_multiple_of(4) {
        println!("seed {seed} with damaged bytes");
        show::book(&damaged(seed), seed);
    }
}
