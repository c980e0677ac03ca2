// Seeded small books: most are accepted, some of these of a hostile shape; some are left as drawn, the others have one
// fault or more.

use crate::builder::{Builder, Hyp};
use crate::codes::{CERTAIN, CLOSED, COMPLETE, COUNT, GE, GT, LE, LT, MAX, MIN, OPEN, SUM};
use crate::faults;
use crate::random::Random;
use crate::refuse;
use crate::shaped;
use crate::shapes::Shape;
use crate::tables::Tables;

/// Aggregate and relation, and how many elements of a hundred have sign 1, so that each is used positively.
const POSITIVE: [(u8, u8, usize); 8] = [
    (COUNT, GT, 0),
    (COUNT, GE, 0),
    (MAX, GT, 0),
    (MAX, GE, 0),
    (MIN, LT, 0),
    (MIN, LE, 0),
    (COUNT, LT, 100),
    (COUNT, LE, 100),
];

/// The book of a seed, and its shape if it is of one.
pub struct Seeded {
    pub book: Vec<u8>,
    pub shape: Option<Shape>,
}

pub fn seeded(seed: u64) -> Seeded {
    let mut random = Random::new(seed);
    let book = match random.below(100) {
        0..=1 => {
            let (shape, tables) = shaped::drawn(&mut random);
            return Seeded { book: tables.bytes(), shape: Some(shape) };
        }
        2..=54 => drawn(&mut random, Drawn::Accepted).bytes(),
        55..=64 => drawn(&mut random, Drawn::AsItComes).bytes(),
        _ => faults::book_with_faults(drawn(&mut random, Drawn::Accepted), &mut random),
    };
    Seeded { book, shape: None }
}

/// Whether a record that the second program would refuse is taken back. If each were, a refusal that only the second
/// program gives would never be seen.
#[derive(Clone, Copy, PartialEq, Eq)]
enum Drawn {
    Accepted,
    AsItComes,
}

fn drawn(random: &mut Random, drawn: Drawn) -> Tables {
    let mut builder = Builder::new();
    add_predicates(&mut builder, random);
    if !builder.tables.predicates.is_empty() {
        add_atoms(&mut builder, random);
    }
    let atoms = builder.tables.atoms.len();
    if atoms > 0 {
        for _ in 0..random.below(3 * atoms + 1) {
            let before = builder.tables.clone();
            add_rule(&mut builder, random);
            take_back(&mut builder, before, drawn);
        }
        if random.percent(20) {
            let before = builder.tables.clone();
            add_unused(&mut builder, random);
            take_back(&mut builder, before, drawn);
        }
        give(&mut builder.tables, random);
    }
    builder.tables
}

/// Up to three levels with up to six predicates; each level is certain or uncertain.
fn add_predicates(builder: &mut Builder, random: &mut Random) {
    let mut levels = vec![];
    for _ in 0..1 + random.below(3) {
        let number = if random.percent(80) { random.below(4) } else { random.below(128) };
        levels.push((number as u8, random.percent(35)));
    }
    let predicates = if random.percent(2) { 0 } else { 1 + random.below(6) };
    for _ in 0..predicates {
        let number = random.pick(&levels).0;
        let certain = levels.iter().any(|&(other, certain)| other == number && certain);
        let kind = if certain { CERTAIN } else { random.pick(&[OPEN, OPEN, COMPLETE, CLOSED, CLOSED]) };
        builder.predicate(kind, number);
    }
}

fn add_atoms(builder: &mut Builder, random: &mut Random) {
    let many = match random.below(20) {
        0 => random.below(2),
        1..=17 => 2 + random.below(9),
        _ => 11 + random.below(20),
    };
    for _ in 0..many {
        let predicate = random.below(builder.tables.predicates.len());
        builder.atom(predicate as u16);
    }
}

fn take_back(builder: &mut Builder, before: Tables, drawn: Drawn) {
    if drawn == Drawn::Accepted && refuse::check_tables(&builder.tables).is_err() {
        builder.tables = before;
    }
}

/// A rule over new hypotheses or over a range of those already there; fewer for open heads than for others.
fn add_rule(builder: &mut Builder, random: &mut Random) {
    let atoms = builder.tables.atoms.len();
    let mut head = random.below(atoms) as u16;
    if builder.tables.kind(usize::from(head)) == OPEN {
        head = random.below(atoms) as u16;
    }
    let usable = usable(&builder.tables, head);
    let hypotheses = builder.tables.hypotheses.len();
    if random.percent(15) {
        let (first, many) = range(hypotheses, random);
        builder.tables.rules.push((head, first, many));
    } else {
        let certain = builder.tables.kind(usize::from(head)) == CERTAIN;
        let mut body = vec![];
        for _ in 0..random.pick(&[0, 1, 1, 1, 2, 2, 3]) {
            body.push(hypothesis(builder, certain, &usable, random));
        }
        builder.rule(head, &body);
    }
}

/// The atoms that a rule for this head may use: none of a higher level, and for a certain head none uncertain.
pub fn usable(tables: &Tables, head: u16) -> Vec<u16> {
    let head = usize::from(head);
    let may_use = |&atom: &usize| {
        tables.level(atom) <= tables.level(head) && (tables.kind(head) != CERTAIN || tables.kind(atom) == CERTAIN)
    };
    (0..tables.atoms.len()).filter(may_use).map(|atom| atom as u16).collect()
}

fn hypothesis(builder: &mut Builder, certain: bool, usable: &[u16], random: &mut Random) -> Hyp {
    match random.below(10) {
        4 if certain => Hyp::Atom(random.pick(usable)),
        0..=3 => Hyp::Atom(random.pick(usable)),
        4..=5 => Hyp::Not(random.pick(usable)),
        _ => {
            let comparisons = builder.tables.comparisons.len();
            if comparisons > 0 && random.percent(15) {
                Hyp::Compare(random.below(comparisons) as u16)
            } else {
                Hyp::Compare(comparison(builder, certain, usable, random))
            }
        }
    }
}

/// A comparison over new elements, no atom twice, or over a range of those already there; for a certain head most
/// are such that their elements are used positively.
fn comparison(builder: &mut Builder, certain: bool, usable: &[u16], random: &mut Random) -> u16 {
    let mut aggregate = random.below(4) as u8;
    let mut relation = random.below(6) as u8;
    let mut minus = random.pick(&[0, 20, 50, 100]);
    if certain && random.percent(75) {
        (aggregate, relation, minus) = random.pick(&POSITIVE);
    }
    let elements = builder.tables.elements.len();
    if random.percent(15) {
        let (first, many) = range(elements, random);
        let bound = bound(aggregate, usize::from(many), random);
        builder.tables.comparisons.push((aggregate, relation, bound, first, many));
        return builder.tables.comparisons.len() as u16 - 1;
    }
    let mut chosen: Vec<(u8, u16, i32)> = vec![];
    for _ in 0..random.below(5) {
        let atom = random.pick(usable);
        if chosen.iter().all(|&(_, other, _)| other != atom) {
            chosen.push((u8::from(random.percent(minus)), atom, weight(random)));
        }
    }
    let bound = bound(aggregate, chosen.len(), random);
    builder.comparison(aggregate, relation, bound, &chosen)
}

/// A range of at most three records of a table.
fn range(count: usize, random: &mut Random) -> (u16, u16) {
    let first = random.below(count + 1);
    let many = random.below((count - first).min(3) + 1);
    (first as u16, many as u16)
}

pub fn weight(random: &mut Random) -> i32 {
    if random.percent(5) {
        random.pick(&[i32::MIN, i32::MIN + 1, i32::MAX - 1, i32::MAX])
    } else {
        random.between(-3, 3) as i32
    }
}

pub fn bound(aggregate: u8, elements: usize, random: &mut Random) -> i32 {
    match aggregate {
        _ if random.percent(3) => random.pick(&[i32::MIN, i32::MAX]),
        COUNT => random.between(-1, elements as i64 + 1) as i32,
        SUM => random.between(-5, 5) as i32,
        _ => random.between(-3, 3) as i32,
    }
}

/// Records that no rule uses: they are checked all the same.
fn add_unused(builder: &mut Builder, random: &mut Random) {
    let every_atom: Vec<u16> = (0..builder.tables.atoms.len() as u16).collect();
    for _ in 0..1 + random.below(3) {
        match random.below(3) {
            0 => {
                let (kind, level) = random.pick(&builder.tables.predicates);
                builder.predicate(kind, level);
            }
            1 => {
                comparison(builder, false, &every_atom, random);
            }
            _ => {
                let index = random.pick(&every_atom);
                builder.tables.hypotheses.push((random.below(2) as u8, index));
            }
        }
    }
}

/// Some open atoms that no rule concludes are given.
pub fn give(tables: &mut Tables, random: &mut Random) {
    for atom in tables.free() {
        if random.percent(25) {
            tables.atoms[atom].1 = 1 + random.below(2) as u8;
        }
    }
}
