// The books of the benchmark, at the limits of document 01.

use crate::builder::{Builder, Hyp};
use crate::codes::{CERTAIN, CLOSED, COMPLETE, COUNT, GE, GT, LE, MAX, MIN, SUM};
use crate::full;
use crate::random::Random;
use crate::tables::Tables;

pub struct Family {
    pub name: String,
    pub tables: Tables,
}

pub fn all() -> Vec<Family> {
    let mut families = vec![];
    let mut add = |name: &str, tables: Tables| families.push(Family { name: name.to_string(), tables });
    for (kind, kind_name) in [(COMPLETE, "complete"), (CLOSED, "closed"), (CERTAIN, "certain")] {
        add(&format!("chain in rule order, {kind_name}"), chain(kind));
        add(&format!("chain reversed, {kind_name}"), reversed(chain(kind)));
        add(&format!("chain shuffled, {kind_name}"), shuffled(chain(kind)));
    }
    add("chain of negations, complete", negations(COMPLETE));
    add("chain of negations, closed", negations(CLOSED));
    add("chain of negations reversed, closed", reversed(negations(CLOSED)));
    add("win-move game", win_move());
    add("company control, 22 companies", company_control());
    add("company control, 500 in a row", company_chain());
    add("join the party, certain", party(CERTAIN));
    add("join the party, closed", party(CLOSED));
    add("double-win", double_win());
    add("loops that fall in turn", falling_loops());
    add("loops that fall in turn, reversed", reversed(falling_loops()));
    add("loops that fall beside a founded chain", loops_beside_chain());
    add("long unfounded loop", unfounded_loop());
    add("long founded loop, reversed", reversed(founded_loop()));
    add("shortest path through min, certain", path(CERTAIN, MIN));
    add("shortest path through max, closed", path(CLOSED, MAX));
    add("random rules, every table full", full::tables(&mut Random::new(1)));
    add("random rules, one closed predicate", random_rules());
    add("every rule over all 4,096 hypotheses", all_hypotheses());
    add("512 comparisons over 2,048 elements, complete", all_elements(COMPLETE, 512));
    add("64 comparisons over 2,048 elements, closed", all_elements(CLOSED, 64));
    add("all hypotheses and all elements", all_of_both());
    families
}

/// A builder with one predicate at level 0 and so many atoms of it.
fn atoms_of(kind: u8, many: usize) -> Builder {
    let mut builder = Builder::new();
    let predicate = builder.predicate(kind, 0);
    for _ in 0..many {
        builder.atom(predicate);
    }
    builder
}

fn reversed(mut tables: Tables) -> Tables {
    tables.rules.reverse();
    tables
}

fn shuffled(mut tables: Tables) -> Tables {
    Random::new(7).shuffle(&mut tables.rules);
    tables
}

/// A fact, and each atom from the one before.
fn chain(kind: u8) -> Tables {
    let mut builder = atoms_of(kind, 2048);
    builder.rule(0, &[]);
    for atom in 1..2048 {
        builder.rule(atom, &[Hyp::Atom(atom - 1)]);
    }
    builder.tables
}

/// Each atom from "not" the one before: false and true by turns.
fn negations(kind: u8) -> Tables {
    let mut builder = atoms_of(kind, 2048);
    for atom in 1..2048 {
        builder.rule(atom, &[Hyp::Not(atom - 1)]);
    }
    builder.tables
}

/// A position wins if a move leads to one that doesn't; the moves are certain facts.
fn win_move() -> Tables {
    let mut random = Random::new(2);
    let mut builder = Builder::new();
    let moves = builder.predicate(CERTAIN, 0);
    let wins = builder.predicate(CLOSED, 1);
    let positions: Vec<u16> = (0..1024).map(|_| builder.atom(wins)).collect();
    for _ in 0..1024 {
        let fact = builder.atom(moves);
        builder.rule(fact, &[]);
        let (from, to) = (random.pick(&positions), random.pick(&positions));
        builder.rule(from, &[Hyp::Atom(fact), Hyp::Not(to)]);
    }
    builder.tables
}

/// A company controls another if the shares of those it controls come to more than 50; it controls itself.
fn company_control() -> Tables {
    let mut random = Random::new(3);
    let mut builder = atoms_of(CLOSED, 22 * 22);
    let controls = |one: usize, other: usize| (22 * one + other) as u16;
    for owned in 0..22 {
        let step = 1 + random.below(2);
        let holders: Vec<usize> = (1..=8).map(|place| (owned + place * step) % 22).collect();
        let mut shares: Vec<i32> = (0..8).map(|_| random.between(1, 12) as i32).collect();
        shares[0] = random.between(30, 60) as i32;
        for owner in 0..22 {
            if owner == owned {
                builder.rule(controls(owner, owner), &[]);
                continue;
            }
            let element = |place: usize| (0, controls(owner, holders[place]), shares[place]);
            let elements: Vec<(u8, u16, i32)> = (0..8).map(element).collect();
            let most = builder.comparison(SUM, GT, 50, &elements);
            builder.rule(controls(owner, owned), &[Hyp::Compare(most)]);
        }
    }
    builder.tables
}

/// One owner controls a row of companies, each through the eight before it.
fn company_chain() -> Tables {
    let mut builder = atoms_of(CLOSED, 508);
    for company in 0..508u16 {
        if company < 8 {
            builder.rule(company, &[]);
            continue;
        }
        let elements: Vec<(u8, u16, i32)> = (1..=8).map(|back| (0, company - back, 12)).collect();
        let most = builder.comparison(SUM, GT, 95, &elements);
        builder.rule(company, &[Hyp::Compare(most)]);
    }
    builder.tables
}

/// A guest joins if enough of eight friends do.
fn party(kind: u8) -> Tables {
    let mut random = Random::new(4);
    let mut builder = atoms_of(kind, 512);
    for guest in 0..512u16 {
        let elements: Vec<(u8, u16, i32)> = (1..=8).map(|place| (0, (guest + 37 * place) % 512, 1)).collect();
        let enough = builder.comparison(COUNT, GE, random.pick(&[0, 3, 4, 5, 6, 7]), &elements);
        builder.rule(guest, &[Hyp::Compare(enough)]);
    }
    builder.tables
}

/// A position wins if at least two of its moves lead to positions that don't.
fn double_win() -> Tables {
    let mut random = Random::new(5);
    let mut builder = atoms_of(CLOSED, 512);
    for position in 0..512u16 {
        let moves = random.below(5) as u16;
        let far = random.pick(&[1, 3, 7]);
        let elements: Vec<(u8, u16, i32)> = (1..=moves).map(|place| (1, (position + far * place) % 512, 1)).collect();
        let two = builder.comparison(COUNT, GE, 2, &elements);
        builder.rule(position, &[Hyp::Compare(two)]);
    }
    builder.tables
}

/// Loops of two atoms; each but the first is also supported as long as the one before has not fallen.
fn falling_loops() -> Tables {
    let mut builder = atoms_of(CLOSED, 0);
    add_falling_loops(&mut builder, 512);
    builder.tables
}

fn add_falling_loops(builder: &mut Builder, loops: usize) {
    let mut before = None;
    for _ in 0..loops {
        let (one, other, fallen) = (builder.atom(0), builder.atom(0), builder.atom(0));
        builder.rule(one, &[Hyp::Atom(other)]);
        builder.rule(other, &[Hyp::Atom(one)]);
        builder.rule(fallen, &[Hyp::Not(one)]);
        if let Some(before) = before {
            builder.rule(one, &[Hyp::Not(before)]);
        }
        before = Some(fallen);
    }
}

/// The same, with a chain of closed atoms beside them that an undefined atom supports, against the rule order.
fn loops_beside_chain() -> Tables {
    let mut builder = atoms_of(CLOSED, 1024);
    for atom in 0..1023 {
        builder.rule(atom, &[Hyp::Atom(atom + 1)]);
    }
    builder.rule(1023, &[Hyp::Not(1023)]);
    add_falling_loops(&mut builder, 256);
    builder.tables
}

/// One loop through all the atoms, without support.
fn unfounded_loop() -> Tables {
    let mut builder = atoms_of(CLOSED, 2048);
    for atom in 0..2048u16 {
        builder.rule(atom, &[Hyp::Atom((atom + 1) % 2048)]);
    }
    builder.tables
}

/// One loop through all the atoms but the last, which is undefined and supports it.
fn founded_loop() -> Tables {
    let mut builder = atoms_of(CLOSED, 2048);
    builder.rule(2047, &[Hyp::Not(2047)]);
    builder.rule(0, &[Hyp::Atom(2047)]);
    for atom in 1..2047u16 {
        builder.rule(atom, &[Hyp::Atom(atom - 1)]);
    }
    builder.tables
}

/// 16 nodes and lengths 0 to 31: a node lies within a length if the min over its three neighbours, of a length they
/// lie within plus the step from there, is at most that; through max the weights are these lengths below 0.
fn path(kind: u8, aggregate: u8) -> Tables {
    let mut random = Random::new(6);
    let mut builder = atoms_of(kind, 16 * 32);
    let within = |node: usize, length: usize| (32 * node + length) as u16;
    let weight = |length: usize| {
        if aggregate == MIN {
            length as i32
        } else {
            -(length as i32)
        }
    };
    let relation = if aggregate == MIN { LE } else { GE };
    for node in 0..16 {
        for neighbour in 1..=3 {
            let (from, step) = ((node + 16 - neighbour) % 16, 1 + random.below(9));
            let element = |length: usize| (0, within(from, length), weight(length + step));
            builder.tables.elements.extend((0..32).map(element));
        }
        for length in 0..32 {
            builder.tables.comparisons.push((aggregate, relation, weight(length), 96 * node as u16, 96));
            builder.rule(within(node, length), &[Hyp::Compare(within(node, length))]);
        }
    }
    builder.rule(within(0, 0), &[]);
    builder.tables
}

fn random_rules() -> Tables {
    let mut random = Random::new(8);
    let mut builder = atoms_of(CLOSED, 2048);
    for _ in 0..2048 {
        let mut literal = || {
            let atom = random.below(2048) as u16;
            if random.percent(50) {
                Hyp::Atom(atom)
            } else {
                Hyp::Not(atom)
            }
        };
        let body = [literal(), literal()];
        let head = random.below(2048) as u16;
        builder.rule(head, &body);
    }
    builder.tables
}

fn all_hypotheses() -> Tables {
    let mut builder = atoms_of(COMPLETE, 2048);
    builder.tables.hypotheses = (0..4096).map(|number| (0, number % 2048)).collect();
    builder.tables.rules = (0..2048).map(|head| (head, 0, 4096)).collect();
    builder.tables
}

/// Atom n holds if at least n atoms do: one more in each round.
fn all_elements(kind: u8, comparisons: u16) -> Tables {
    let mut builder = atoms_of(kind, 2048);
    builder.tables.elements = (0..4096).map(|number| (0, number % 2048, 1)).collect();
    for atom in (0..comparisons).rev() {
        builder.tables.comparisons.push((COUNT, GE, i32::from(atom), 2048 * (atom % 2), 2048));
        let comparison = builder.tables.comparisons.len() as u16 - 1;
        builder.rule(atom, &[Hyp::Compare(comparison)]);
    }
    builder.tables
}

/// Every rule over 4,096 comparisons, of which each is over 2,048 elements.
fn all_of_both() -> Tables {
    let mut builder = atoms_of(COMPLETE, 2048);
    builder.tables.elements = (0..4096).map(|number| (0, number % 2048, 1)).collect();
    builder.tables.comparisons = (0..512).map(|number| (SUM, GE, i32::from(number), 2 * number, 2048)).collect();
    builder.tables.hypotheses = (0..4096).map(|number| (2, number % 512)).collect();
    builder.tables.rules = (0..2048).map(|head| (head, 0, 4096)).collect();
    builder.tables
}
