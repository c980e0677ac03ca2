// Seeded books of the hostile shapes, small: their sizes, starts, loops, bounds, kinds, levels and order of rules are
// drawn.

use crate::codes::{CLOSED, COMPLETE, OPEN};
use crate::generate::give;
use crate::hostile::FILLER;
use crate::making::Sizes;
use crate::random::Random;
use crate::shapes::{Shape, SHAPES};
use crate::tables::Tables;

/// A shape, and an accepted book of it.
pub fn drawn(random: &mut Random) -> (Shape, Tables) {
    let shape = random.pick(&SHAPES);
    let sizes = sizes(random);
    (shape, tables(shape, &sizes, random))
}

/// An accepted book whose filler, if its shape has one, is that of the hostile books.
pub fn filled(random: &mut Random) -> Tables {
    let shape = random.pick(&SHAPES);
    let sizes = Sizes { falling: FILLER.falling, resting: FILLER.resting, ..sizes(random) };
    tables(shape, &sizes, random)
}

fn tables(shape: Shape, sizes: &Sizes, random: &mut Random) -> Tables {
    let mut tables = shape.tables(sizes);
    draw_starts(&mut tables, random);
    draw_loops(&mut tables, random);
    draw_bounds(&mut tables, random);
    draw_levels(&mut tables, random);
    draw_kinds(&mut tables, random);
    draw_order(&mut tables, random);
    give(&mut tables, random);
    tables
}

fn sizes(random: &mut Random) -> Sizes {
    let most_links = random.pick(&[6, 6, 12, 12, 40]);
    let mut between = |least, most| random.between(least, most) as usize;
    Sizes {
        falling: between(2, 12),
        resting: between(2, 12),
        links: between(2, most_links),
        sharing: between(1, 6),
        range: between(1, 8),
        open: between(1, 3),
    }
}

/// A fact stays one, or is left out; or its head rests on "not" itself, or on an end and so on itself.
fn draw_starts(tables: &mut Tables, random: &mut Random) {
    for rule in 0..tables.rules.len() {
        let (head, _, many) = tables.rules[rule];
        let end = random.pick(&ends(tables, head));
        let hypothesis = random.pick(&[None, None, Some((1, head)), Some((0, head)), Some((0, end)), Some((0, end))]);
        if let (0, Some(hypothesis)) = (many, hypothesis) {
            tables.rules[rule] = (head, tables.hypotheses.len() as u16, 1);
            tables.hypotheses.push(hypothesis);
        }
    }
}

/// In half of the books a rule more or two, over an end.
fn draw_loops(tables: &mut Tables, random: &mut Random) {
    for _ in 0..random.pick(&[0, 0, 1, 2]) {
        let head = random.pick(&tables.rules).0;
        let end = random.pick(&ends(tables, head));
        tables.rules.push((head, tables.hypotheses.len() as u16, 1));
        tables.hypotheses.push((0, end));
    }
}

/// The atoms of the head's level that stand in no hypothesis, or the head itself if there are none.
fn ends(tables: &Tables, head: u16) -> Vec<u16> {
    let level = |atom: u16| tables.level(usize::from(atom));
    let stands = |atom: u16| tables.hypotheses.iter().any(|&(sort, index)| sort < 2 && index == atom);
    let is_end = |&atom: &u16| level(atom) == level(head) && !stands(atom);
    let ends: Vec<u16> = (0..tables.atoms.len() as u16).filter(is_end).collect();
    if ends.is_empty() {
        vec![head]
    } else {
        ends
    }
}

/// Some bounds are one off: the comparison holds one link early, or never.
fn draw_bounds(tables: &mut Tables, random: &mut Random) {
    for comparison in &mut tables.comparisons {
        if random.percent(30) {
            comparison.2 += random.pick(&[-1, 1]);
        }
    }
}

/// The levels stay 0 and 1, become one, or move apart.
fn draw_levels(tables: &mut Tables, random: &mut Random) {
    let (low, high) = random.pick(&[(0, 1), (0, 1), (0, 0), (1, 1), (3, 127)]);
    for predicate in &mut tables.predicates {
        predicate.1 = if predicate.1 == 0 { low } else { high };
    }
}

/// In half of the books some atoms are of another kind, on the same level.
fn draw_kinds(tables: &mut Tables, random: &mut Random) {
    if random.percent(50) {
        return;
    }
    let others = random.pick(&[5, 15, 50]);
    for atom in 0..tables.atoms.len() {
        if random.percent(others) {
            let other = (random.pick(&[OPEN, COMPLETE, CLOSED]), tables.level(atom));
            tables.atoms[atom].0 = predicate_of(tables, other);
        }
    }
}

/// A predicate of that kind and level, added if there is none.
fn predicate_of(tables: &mut Tables, wanted: (u8, u8)) -> u16 {
    let there = tables.predicates.iter().position(|&predicate| predicate == wanted);
    there.unwrap_or_else(|| {
        tables.predicates.push(wanted);
        tables.predicates.len() - 1
    }) as u16
}

/// The rules stay in their order, or are reversed or shuffled.
fn draw_order(tables: &mut Tables, random: &mut Random) {
    match random.below(4) {
        0 | 1 => {}
        2 => tables.rules.reverse(),
        _ => random.shuffle(&mut tables.rules),
    }
}
