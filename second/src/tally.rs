// What the seeded books came to, and whether every outcome occurred often enough to count as tried.

use crate::gifts::Gift;
use crate::recursion;
use crate::rooms::Outcomes;
use crate::shapes::{Shape, SHAPES};
use crate::tables::Tables;

#[derive(Default)]
pub struct Tally {
    books: u64,
    pub damaged: u64,
    accepted: u64,
    pub rounds: u64,
    answers: [u64; 3],
    undefined: u64,
    recursive: u64,
    shaped: [u64; SHAPES.len()],
    refused: [u64; 13],
    gifts: u64,
    kept: u64,
    decided: u64,
}

impl Tally {
    /// One book in its three rooms; the tables are those of an accepted book, the shape that of a book of one.
    pub fn count(&mut self, outcomes: &Outcomes, tables: Option<&Tables>, shape: Option<Shape>) {
        self.books += 1;
        let exact = &outcomes.exact;
        self.refused[(exact.number / 10_000_000) as usize] += 1;
        if outcomes.short.as_ref().is_some_and(|short| short.number == 120_000_000) {
            self.refused[12] += 1;
        }
        if let Some(tables) = tables {
            self.accepted += 1;
            let answers = exact.room();
            for &answer in answers {
                self.answers[usize::from(answer)] += 1;
            }
            self.undefined += u64::from(answers.contains(&0));
            self.recursive += u64::from(recursion::undefined_by_recursion(tables, answers));
            if let Some(shape) = shape {
                self.shaped[shape as usize] += 1;
            }
        }
    }

    /// Is the last accepted book the first of ten? So the book of a single seed is.
    pub fn is_tenth(&self) -> bool {
        self.accepted % 10 == 1
    }

    pub fn count_gift(&mut self, gift: &Gift) {
        self.gifts += 1;
        self.kept += gift.kept;
        self.decided += gift.decided;
    }

    /// All the books of the seeds: small ones, those with gifts and those of damaged bytes.
    pub fn compared(&self) -> u64 {
        self.books + self.gifts + self.damaged
    }

    pub fn print(&self) {
        println!("{} small books, {} accepted, {} books of damaged bytes", self.books, self.accepted, self.damaged);
        println!("every tenth accepted book, {}, by the plain rounds too", self.rounds);
        let [undefined, true_, false_] = self.answers;
        println!("answers: {undefined} undefined, {true_} true, {false_} false");
        println!("undefined answers in {} accepted books, by recursion in {}", self.undefined, self.recursive);
        for shape in SHAPES {
            println!("shape {shape:?}: {} accepted books", self.shaped[shape as usize]);
        }
        for number in 1..=12 {
            println!("refusal {number}: {}", self.refused[number]);
        }
        println!("gifts: {}, answers kept {}, newly decided {}", self.gifts, self.kept, self.decided);
    }

    /// What a run over all the seeds must have met.
    pub fn too_little(&self) -> Option<String> {
        let enough = [
            ("small books", self.books, 200_000),
            ("books of damaged bytes", self.damaged, 50_000),
            ("accepted books", self.accepted, self.books * 3 / 10),
            ("undefined answers", self.answers[0], 1),
            ("true answers", self.answers[1], 1),
            ("false answers", self.answers[2], 1),
            ("books with undefined answers by recursion", self.recursive, self.accepted / 10),
            ("gifts", self.gifts, 20_000),
            ("answers kept", self.kept, 1),
            ("answers newly decided", self.decided, 1),
        ];
        let scarce = enough.into_iter().find(|&(_, number, least)| number < least);
        let rare = (1..=12).find(|&number| self.refused[number] < 1000);
        let missed = SHAPES.into_iter().find(|&shape| self.shaped[shape as usize] < 400);
        match (scarce, rare, missed) {
            (Some((what, number, least)), ..) => Some(format!("{number} {what}, at least {least} wanted")),
            (_, Some(number), _) => Some(format!("refusal {number} occurred less than 1000 times")),
            (.., Some(shape)) => Some(format!("shape {shape:?} occurred in less than 400 accepted books")),
            (None, None, None) => None,
        }
    }
}
