// Faults put into the tables or bytes of an accepted book, at least one for each of the refusals 1 to 11.

use crate::codes::{CERTAIN, CLOSED, COMPLETE, COUNT, EQ, GE, MAX, OPEN, SUM};
use crate::random::Random;
use crate::tables::Tables;

/// A book with a fault for one number, and at times with others, so that order and lowest place matter.
pub fn book_with_faults(mut tables: Tables, random: &mut Random) -> Vec<u8> {
    let number = 1 + random.below(11);
    let mut numbers = vec![number];
    while random.percent(25) {
        numbers.push(4 + random.below(8));
    }
    // Downward, so that wrong codes and indices come last: until then the tables can be looked up.
    numbers.sort_by(|one, other| other.cmp(one));
    for &number in numbers.iter().filter(|&&number| number > 3) {
        put(number, &mut tables, random);
    }
    let mut book = tables.bytes();
    match number {
        1 => book.truncate(random.below(48)),
        2 => put_2(&mut book, random),
        3 => put_3(&mut book, random),
        _ => {}
    }
    book
}

fn put(number: usize, tables: &mut Tables, random: &mut Random) {
    if tables.atoms.is_empty() {
        let predicate = add_predicate(tables, random.below(4) as u8, random.below(128) as u8);
        add_atom(tables, predicate);
    }
    match number {
        4 => put_4(tables, random),
        5 => put_5(tables, random),
        6 => put_6(tables, random),
        7 => put_7(tables, random),
        8 => put_8(tables, random),
        9 => put_9(tables, random),
        10 => put_10(tables, random),
        _ => put_11(tables, random),
    }
}

/// A count above its limit.
fn put_2(book: &mut [u8], random: &mut Random) {
    for _ in 0..1 + random.below(2) {
        let (table, limit) = random.pick(&[(0, 128), (1, 2048), (2, 2048), (3, 4096), (4, 512), (5, 4096)]);
        let count: u32 = random.pick(&[limit + 1, limit + 2, 65_536 + limit, u32::MAX]);
        book[8 * table + 4..8 * table + 8].copy_from_slice(&count.to_le_bytes());
    }
}

/// An offset that is not the end of the body before, or bytes missing or left at the end.
fn put_3(book: &mut Vec<u8>, random: &mut Random) {
    for _ in 0..1 + random.below(2) {
        if random.percent(30) {
            let length = random.pick(&[book.len() + 1, book.len() + 2, book.len() - 1]);
            book.resize(length.max(48), 0);
        } else {
            let at = 8 * random.below(6);
            let offset = u32::from_le_bytes([book[at], book[at + 1], book[at + 2], book[at + 3]]);
            let wrong = random.pick(&[offset.wrapping_add(1), offset.wrapping_sub(1), offset ^ 65_536, 0, u32::MAX]);
            book[at..at + 4].copy_from_slice(&wrong.to_le_bytes());
        }
    }
}

/// A code or level that is not listed.
fn put_4(tables: &mut Tables, random: &mut Random) {
    let beyond = |last: u8, random: &mut Random| random.pick(&[last + 1, last + 2, 255]);
    match random.below(7) {
        0 => some(&mut tables.predicates, random).0 = beyond(3, random),
        1 => some(&mut tables.predicates, random).1 = beyond(127, random),
        2 => some(&mut tables.atoms, random).1 = beyond(2, random),
        3 => some(&mut tables.hypotheses, random).0 = beyond(2, random),
        4 => some(&mut tables.comparisons, random).0 = beyond(3, random),
        5 => some(&mut tables.comparisons, random).1 = beyond(5, random),
        _ => some(&mut tables.elements, random).0 = beyond(1, random),
    }
}

/// An index that is not in its table, or a range that ends beyond it.
fn put_5(tables: &mut Tables, random: &mut Random) {
    let beyond = |count: usize, random: &mut Random| random.pick(&[count as u16, count as u16 + 1, 65_535]);
    match random.below(6) {
        0 => some(&mut tables.atoms, random).0 = beyond(tables.predicates.len(), random),
        1 => some(&mut tables.rules, random).0 = beyond(tables.atoms.len(), random),
        2 => {
            let rule = some(&mut tables.rules, random);
            (rule.1, rule.2) = range_beyond(tables.hypotheses.len(), random);
        }
        3 => {
            let hypothesis = some(&mut tables.hypotheses, random);
            let count = if hypothesis.0 == 2 { tables.comparisons.len() } else { tables.atoms.len() };
            hypothesis.1 = beyond(count, random);
        }
        4 => {
            let comparison = some(&mut tables.comparisons, random);
            (comparison.3, comparison.4) = range_beyond(tables.elements.len(), random);
        }
        _ => some(&mut tables.elements, random).1 = beyond(tables.atoms.len(), random),
    }
}

fn range_beyond(count: usize, random: &mut Random) -> (u16, u16) {
    let count = count as u16;
    let inside = random.below(usize::from(count) + 1) as u16;
    random.pick(&[(inside, count - inside + 1), (count, 1), (count + 1, 0), (65_535, 65_535), (0, 65_535)])
}

/// One atom twice in one comparison, with either sign.
fn put_6(tables: &mut Tables, random: &mut Random) {
    let wide = |c: &usize| tables.comparisons[*c].4 >= 2;
    let wide: Vec<usize> = (0..tables.comparisons.len()).filter(wide).collect();
    if wide.is_empty() {
        let first = tables.elements.len() as u16;
        let atom = random.below(tables.atoms.len()) as u16;
        tables.elements.extend([(0, atom, 1), (random.below(2) as u8, atom, 2)]);
        tables.comparisons.push((COUNT, GE, 1, first, 2));
    } else {
        let (_, _, _, first, many) = tables.comparisons[random.pick(&wide)];
        let (first, many) = (usize::from(first), usize::from(many));
        let one = random.below(many);
        let other = (one + 1 + random.below(many - 1)) % many;
        tables.elements[first + one].1 = tables.elements[first + other].1;
    }
}

/// A given atom that isn't open, or that a rule concludes.
fn put_7(tables: &mut Tables, random: &mut Random) {
    let atom = random.below(tables.atoms.len());
    if tables.free().contains(&atom) {
        tables.rules.push((atom as u16, tables.hypotheses.len() as u16, 0));
    }
    tables.atoms[atom].1 = 1 + random.below(2) as u8;
}

/// More predicates on a level that is in use, of which one is certain where the level isn't or the reverse.
fn put_8(tables: &mut Tables, random: &mut Random) {
    let (kind, level) = random.pick(&tables.predicates);
    for _ in 0..random.below(3) {
        add_predicate(tables, random.below(4) as u8, level);
    }
    add_predicate(tables, if kind == CERTAIN { OPEN } else { CERTAIN }, level);
}

/// A head below the level of an atom that its rule uses.
fn put_9(tables: &mut Tables, random: &mut Random) {
    let (low, high) = fresh_levels(tables, random);
    let head = add_predicate(tables, random.below(4) as u8, low);
    let used = add_predicate(tables, random.below(4) as u8, high);
    insert_rule(tables, head, used, false, random);
}

/// A certain head whose rule uses its own level non-positively.
fn put_10(tables: &mut Tables, random: &mut Random) {
    let (level, _) = fresh_levels(tables, random);
    let head = add_predicate(tables, CERTAIN, level);
    let used = add_predicate(tables, CERTAIN, level);
    insert_rule(tables, head, used, true, random);
}

/// A certain head above an uncertain predicate that its rule uses.
fn put_11(tables: &mut Tables, random: &mut Random) {
    let (low, high) = fresh_levels(tables, random);
    let kind = random.pick(&[OPEN, COMPLETE, CLOSED]);
    let used = add_predicate(tables, kind, low);
    let head = add_predicate(tables, CERTAIN, high);
    insert_rule(tables, head, used, false, random);
}

/// Some record of a table; an empty table gets one first.
fn some<'t, T: Default>(records: &'t mut Vec<T>, random: &mut Random) -> &'t mut T {
    if records.is_empty() {
        records.push(T::default());
    }
    let record = random.below(records.len());
    &mut records[record]
}

fn add_predicate(tables: &mut Tables, kind: u8, level: u8) -> u16 {
    tables.predicates.push((kind, level));
    tables.predicates.len() as u16 - 1
}

fn add_atom(tables: &mut Tables, predicate: u16) -> u16 {
    tables.atoms.push((predicate, 0));
    tables.atoms.len() as u16 - 1
}

/// Two levels that no predicate has, the lower one first.
fn fresh_levels(tables: &Tables, random: &mut Random) -> (u8, u8) {
    let unused = |level: &u8| tables.predicates.iter().all(|(_, other)| other != level);
    let fresh: Vec<u8> = (0..128).filter(unused).collect();
    let low = random.below(fresh.len() - 1);
    let high = low + 1 + random.below(fresh.len() - 1 - low);
    (fresh[low], fresh[high])
}

/// A rule for a new atom that uses a new atom of another predicate, anywhere in the table of rules.
fn insert_rule(tables: &mut Tables, head: u16, used: u16, non_positively: bool, random: &mut Random) {
    let head = add_atom(tables, head);
    let used = add_atom(tables, used);
    let hypothesis = match random.below(4) {
        0 if !non_positively => (0, used),
        0 | 1 => (1, used),
        _ => {
            let element = (random.below(2) as u8, used, 1);
            let (aggregate, relation) = if non_positively {
                random.pick(&[(SUM, GE), (MAX, EQ), (COUNT, EQ)])
            } else {
                (random.below(4) as u8, random.below(6) as u8)
            };
            tables.comparisons.push((aggregate, relation, 1, tables.elements.len() as u16, 1));
            tables.elements.push(element);
            (2, tables.comparisons.len() as u16 - 1)
        }
    };
    let rule = (head, tables.hypotheses.len() as u16, 1);
    tables.hypotheses.push(hypothesis);
    tables.rules.insert(random.below(tables.rules.len() + 1), rule);
}
