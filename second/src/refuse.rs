// The refusals 1 to 12 in number order, each a search for the lowest record of the first table at fault.

use crate::codes::{CERTAIN, OPEN};
use crate::read::{self, Entry};
use crate::tables::Tables;
use crate::uses;

/// The most records of each table.
const MOST: [usize; 6] = [128, 2048, 2048, 4096, 512, 4096];

/// A number and its place: a table, counted from 1, and a record; 0, 0 where there is none.
#[derive(Clone, Copy, Debug, PartialEq, Eq)]
pub struct Refusal {
    pub number: u32,
    pub table: usize,
    pub record: usize,
}

impl Refusal {
    /// What the entry returns for this refusal.
    pub fn packed(self) -> u32 {
        let place = self.table * 1_000_000 + self.record;
        self.number * 10_000_000 + u32::try_from(place).expect("a place of a book")
    }
}

type Check = Result<(), Refusal>;

/// The tables of an accepted book, or the first refusal that is met.
pub fn check(book: &[u8], room_length: usize) -> Result<Tables, Refusal> {
    let tables = check_contents(book)?;
    check_tables(&tables)?;
    check_12(&tables, room_length)?;
    Ok(tables)
}

/// The refusals 1 to 3, which are met before any record can be read.
pub fn check_contents(book: &[u8]) -> Result<Tables, Refusal> {
    check_1(book)?;
    let contents = read::contents(book);
    check_2(&contents)?;
    check_3(&contents, book.len())?;
    Ok(read::tables(book))
}

/// The refusals 4 to 11, which are met by records.
pub fn check_tables(tables: &Tables) -> Check {
    check_4(tables)?;
    check_5(tables)?;
    check_6(tables)?;
    check_7(tables)?;
    check_8(tables)?;
    let uses = uses::of_rules(tables);
    check_9(tables, &uses)?;
    check_10(tables, &uses)?;
    check_11(tables, &uses)
}

fn refuse(number: u32, table: usize, record: usize) -> Check {
    Err(Refusal { number, table, record })
}

/// Refuses at the lowest record at fault, if there is one.
fn none_at_fault<T>(number: u32, table: usize, records: &[T], at_fault: impl Fn(usize, &T) -> bool) -> Check {
    for (record, fields) in records.iter().enumerate() {
        if at_fault(record, fields) {
            return refuse(number, table, record);
        }
    }
    Ok(())
}

/// Fewer than 48 bytes.
fn check_1(book: &[u8]) -> Check {
    if book.len() < read::CONTENTS {
        return refuse(1, 0, 0);
    }
    Ok(())
}

/// A count above its limit.
fn check_2(contents: &[Entry; 6]) -> Check {
    for table in 0..6 {
        if contents[table].count > MOST[table] {
            return refuse(2, table + 1, 0);
        }
    }
    Ok(())
}

/// The first body starts at 48, each next one where the last ended, and the book ends with the last.
fn check_3(contents: &[Entry; 6], book_length: usize) -> Check {
    let mut end = read::CONTENTS;
    for (table, entry) in contents.iter().enumerate() {
        if entry.offset != end {
            return refuse(3, table + 1, 0);
        }
        end += entry.count * read::SIZES[table];
    }
    if book_length != end {
        return refuse(3, 0, 0);
    }
    Ok(())
}

/// A code or level not listed.
fn check_4(tables: &Tables) -> Check {
    none_at_fault(4, 1, &tables.predicates, |_, &(kind, level)| kind > 3 || level > 127)?;
    none_at_fault(4, 2, &tables.atoms, |_, &(_, given)| given > 2)?;
    none_at_fault(4, 4, &tables.hypotheses, |_, &(sort, _)| sort > 2)?;
    none_at_fault(4, 5, &tables.comparisons, |_, &(aggregate, relation, ..)| aggregate > 3 || relation > 5)?;
    none_at_fault(4, 6, &tables.elements, |_, &(sign, ..)| sign > 1)
}

/// An index not in its table, or first + how many above that table's count.
fn check_5(tables: &Tables) -> Check {
    let predicates = tables.predicates.len();
    let atoms = tables.atoms.len();
    let hypotheses = tables.hypotheses.len();
    let comparisons = tables.comparisons.len();
    let elements = tables.elements.len();
    none_at_fault(5, 2, &tables.atoms, |_, &(predicate, _)| usize::from(predicate) >= predicates)?;
    none_at_fault(5, 3, &tables.rules, |_, &(head, first, many)| {
        usize::from(head) >= atoms || usize::from(first) + usize::from(many) > hypotheses
    })?;
    none_at_fault(5, 4, &tables.hypotheses, |_, &(sort, index)| {
        usize::from(index) >= if sort == 2 { comparisons } else { atoms }
    })?;
    none_at_fault(5, 5, &tables.comparisons, |_, &(_, _, _, first, many)| {
        usize::from(first) + usize::from(many) > elements
    })?;
    none_at_fault(5, 6, &tables.elements, |_, &(_, atom, _)| usize::from(atom) >= atoms)
}

/// One atom twice in one comparison.
fn check_6(tables: &Tables) -> Check {
    none_at_fault(6, 5, &tables.comparisons, |_, comparison| {
        let mut seen = vec![false; tables.atoms.len()];
        for &(_, atom, _) in tables.elements_of(comparison) {
            if seen[usize::from(atom)] {
                return true;
            }
            seen[usize::from(atom)] = true;
        }
        false
    })
}

/// Given 1 or 2 at an atom that isn't open, or that a rule concludes.
fn check_7(tables: &Tables) -> Check {
    let mut concluded = vec![false; tables.atoms.len()];
    for &(head, ..) in &tables.rules {
        concluded[usize::from(head)] = true;
    }
    none_at_fault(7, 2, &tables.atoms, |atom, &(_, given)| given != 0 && (tables.kind(atom) != OPEN || concluded[atom]))
}

/// A predicate shares its level with a lower-numbered one, one certain and the other uncertain.
fn check_8(tables: &Tables) -> Check {
    none_at_fault(8, 1, &tables.predicates, |predicate, &(kind, level)| {
        let lower_numbered = &tables.predicates[..predicate];
        lower_numbered.iter().any(|&(other, shared)| shared == level && (other == CERTAIN) != (kind == CERTAIN))
    })
}

/// A rule uses a predicate of a higher level than its head's.
fn check_9(tables: &Tables, uses: &uses::Uses) -> Check {
    none_at_fault(9, 3, &tables.rules, |rule, &(head, ..)| {
        let own = tables.level(usize::from(head));
        uses.any(rule, |used| tables.predicates[used.predicate].1 > own)
    })
}

/// The head is certain and uses a predicate of its own level non-positively.
fn check_10(tables: &Tables, uses: &uses::Uses) -> Check {
    none_at_fault(10, 3, &tables.rules, |rule, &(head, ..)| {
        let own = tables.level(usize::from(head));
        let certain = tables.kind(usize::from(head)) == CERTAIN;
        certain && uses.any(rule, |used| tables.predicates[used.predicate].1 == own && !used.positively)
    })
}

/// The head is certain and uses an uncertain predicate.
fn check_11(tables: &Tables, uses: &uses::Uses) -> Check {
    none_at_fault(11, 3, &tables.rules, |rule, &(head, ..)| {
        let certain = tables.kind(usize::from(head)) == CERTAIN;
        certain && uses.any(rule, |used| tables.predicates[used.predicate].0 != CERTAIN)
    })
}

/// Answer room shorter than the number of atoms.
fn check_12(tables: &Tables, room_length: usize) -> Check {
    if room_length < tables.atoms.len() {
        return refuse(12, 0, 0);
    }
    Ok(())
}
