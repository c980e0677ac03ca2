// Random accepted books with every table full: 64,816 bytes.

use crate::builder::{Builder, Hyp};
use crate::codes::{CERTAIN, CLOSED, COMPLETE, COUNT, GE, OPEN};
use crate::generate::{bound, give, usable, weight};
use crate::random::Random;
use crate::tables::Tables;

/// 128 predicates on eight levels, 2,048 atoms, and a rule of two hypotheses for each two of the 4,096; the first 512
/// rules have a comparison of eight elements each.
pub fn tables(random: &mut Random) -> Tables {
    let mut builder = Builder::new();
    for predicate in 0..128 {
        let level = predicate % 8;
        let kind = if level < 2 { CERTAIN } else { random.pick(&[OPEN, COMPLETE, CLOSED]) };
        builder.predicate(kind, level);
    }
    for atom in 0..2048 {
        builder.atom(atom % 128);
    }
    for rule in 0..2048 {
        let head = random.below(2048) as u16;
        let usable = usable(&builder.tables, head);
        let certain = builder.tables.kind(usize::from(head)) == CERTAIN;
        let hypothesis = if rule < 512 {
            Hyp::Compare(comparison(&mut builder, certain, &usable, random))
        } else {
            literal(certain, &usable, random)
        };
        builder.rule(head, &[hypothesis, literal(certain, &usable, random)]);
    }
    give(&mut builder.tables, random);
    builder.tables
}

/// A certain head gets positive uses only.
fn literal(certain: bool, usable: &[u16], random: &mut Random) -> Hyp {
    let atom = random.pick(usable);
    if certain || random.percent(60) {
        Hyp::Atom(atom)
    } else {
        Hyp::Not(atom)
    }
}

fn comparison(builder: &mut Builder, certain: bool, usable: &[u16], random: &mut Random) -> u16 {
    let mut elements: Vec<(u8, u16, i32)> = vec![];
    while elements.len() < 8 {
        let atom = random.pick(usable);
        if elements.iter().all(|&(_, other, _)| other != atom) {
            let sign = if certain { 0 } else { random.below(2) as u8 };
            elements.push((sign, atom, weight(random)));
        }
    }
    if certain {
        builder.comparison(COUNT, GE, random.below(5) as i32, &elements)
    } else {
        let aggregate = random.below(4) as u8;
        builder.comparison(aggregate, random.below(6) as u8, bound(aggregate, 8, random), &elements)
    }
}
