// Books at every limit of document 01 and one past it.

use crate::builder::{Builder, Hyp};
use crate::codes::{CLOSED, COMPLETE, COUNT, GE, OPEN, SUM};
use crate::full;
use crate::random::Random;
use crate::tables::Tables;

pub struct Limit {
    pub name: String,
    pub book: Vec<u8>,
}

pub fn all() -> Vec<Limit> {
    let mut limits = Limits(vec![]);
    limits.lengths();
    limits.counts();
    limits.codes();
    limits.indices();
    limits.ranges();
    limits.extreme_weights();
    limits.wide_sums();
    limits.largest();
    limits.0
}

struct Limits(Vec<Limit>);

impl Limits {
    fn add(&mut self, name: impl Into<String>, book: Vec<u8>) {
        self.0.push(Limit { name: name.into(), book });
    }

    /// A book of one record in each table, changed in one place.
    fn add_changed(&mut self, name: impl Into<String>, change: impl FnOnce(&mut Tables)) {
        let mut tables = one_of_each();
        change(&mut tables);
        self.add(name, tables.bytes());
    }

    fn lengths(&mut self) {
        let empty = Tables::default().bytes();
        self.add("no bytes", vec![]);
        self.add("47 bytes", empty[..47].to_vec());
        self.add("48 bytes", empty.clone());
        self.add("49 bytes", [empty, vec![0]].concat());
        self.add("48 bytes of 0", vec![0; 48]);
        self.add("48 bytes of 255", vec![255; 48]);
    }

    fn counts(&mut self) {
        for past in 0..=1 {
            let past_it = if past == 0 { "most" } else { "one too many" };
            self.add_changed(format!("predicates, {past_it}"), |tables| {
                tables.predicates = (0..128 + past).map(|number| (CLOSED, (number % 128) as u8)).collect();
            });
            self.add_changed(format!("atoms, {past_it}"), |tables| tables.atoms = vec![(0, 0); 2048 + past]);
            self.add_changed(format!("rules, {past_it}"), |tables| tables.rules = vec![(0, 0, 1); 2048 + past]);
            self.add_changed(format!("hypotheses, {past_it}"), |tables| {
                tables.hypotheses = vec![(1, 0); 4096 + past];
                tables.rules[0].2 = 4096;
            });
            self.add_changed(format!("comparisons, {past_it}"), |tables| {
                tables.comparisons = vec![(COUNT, GE, 0, 0, 1); 512 + past];
            });
            self.add_changed(format!("elements, {past_it}"), |tables| {
                tables.elements = vec![(0, 0, 7); 4096 + past];
            });
        }
    }

    fn codes(&mut self) {
        for past in 0..=1 {
            let past_it = if past == 0 { "last code" } else { "past the last code" };
            self.add_changed(format!("kind, {past_it}"), |tables| tables.predicates[0].0 = 3 + past);
            self.add_changed(format!("level, {past_it}"), |tables| tables.predicates[0].1 = 127 + past);
            self.add_changed(format!("given, {past_it}"), |tables| {
                tables.predicates[0].0 = OPEN;
                tables.rules.clear();
                tables.atoms[0].1 = 2 + past;
            });
            self.add_changed(format!("sort, {past_it}"), |tables| tables.hypotheses[0].0 = 2 + past);
            self.add_changed(format!("aggregate, {past_it}"), |tables| tables.comparisons[0].0 = 3 + past);
            self.add_changed(format!("relation, {past_it}"), |tables| tables.comparisons[0].1 = 5 + past);
            self.add_changed(format!("sign, {past_it}"), |tables| tables.elements[0].0 = 1 + past);
        }
    }

    /// The books have one record in each table, so index 0 is the last and 1 is past it.
    fn indices(&mut self) {
        for index in [0, 1, u16::MAX] {
            self.add_changed(format!("predicate {index} of an atom"), |tables| tables.atoms[0].0 = index);
            self.add_changed(format!("head {index} of a rule"), |tables| tables.rules[0].0 = index);
            for sort in 0..=2 {
                self.add_changed(format!("index {index} of a hypothesis of sort {sort}"), |tables| {
                    tables.hypotheses[0] = (sort, index);
                });
            }
            self.add_changed(format!("atom {index} of an element"), |tables| tables.elements[0].1 = index);
        }
    }

    fn ranges(&mut self) {
        for (first, many) in
            [(0, 1), (1, 0), (2, 0), (1, 1), (0, 2), (u16::MAX, 0), (u16::MAX, 1), (u16::MAX, u16::MAX)]
        {
            self.add_changed(format!("hypotheses from {first}, {many} of them"), |tables| {
                (tables.rules[0].1, tables.rules[0].2) = (first, many);
            });
            self.add_changed(format!("elements from {first}, {many} of them"), |tables| {
                (tables.comparisons[0].3, tables.comparisons[0].4) = (first, many);
            });
        }
    }

    /// Each aggregate and relation with bounds and weights at the ends of i32.
    fn extreme_weights(&mut self) {
        let ends = [i32::MIN, i32::MIN + 1, -1, 0, 1, i32::MAX - 1, i32::MAX];
        for aggregate in 0..4 {
            for bound in ends {
                let mut builder = Builder::new();
                let open = builder.predicate(OPEN, 0);
                let atoms = [builder.given(open, 0), builder.given(open, 1), builder.given(open, 2)];
                let heads = builder.predicate(COMPLETE, 1);
                for relation in 0..6 {
                    for (one, other) in ends.iter().flat_map(|&one| ends.map(|other| (one, other))) {
                        let head = builder.atom(heads);
                        let elements = [(0, atoms[0], one), (0, atoms[1], other), (1, atoms[2], 0)];
                        let comparison = builder.comparison(aggregate, relation, bound, &elements);
                        builder.rule(head, &[Hyp::Compare(comparison)]);
                    }
                }
                self.add(format!("aggregate {aggregate} with bound {bound}"), builder.bytes());
            }
        }
    }

    /// Sums of 2,000 elements that reach far beyond 32 bits, with the elements true, undefined or by turns.
    fn wide_sums(&mut self) {
        for weight in [i32::MIN, i32::MAX] {
            for givens in [[1, 1], [0, 0], [0, 1], [2, 0]] {
                let mut builder = Builder::new();
                let open = builder.predicate(OPEN, 0);
                let heads = builder.predicate(COMPLETE, 1);
                let element = |turn: usize| (0, builder.given(open, givens[turn % 2]), weight);
                let elements: Vec<(u8, u16, i32)> = (0..2000).map(element).collect();
                for relation in 0..6 {
                    for bound in [i32::MIN, 0, i32::MAX] {
                        builder.tables.comparisons.push((SUM, relation, bound, 0, 2000));
                        let head = builder.atom(heads);
                        let comparison = builder.tables.comparisons.len() as u16 - 1;
                        builder.rule(head, &[Hyp::Compare(comparison)]);
                    }
                }
                builder.tables.elements = elements;
                self.add(format!("sum of 2,000 weights {weight} at {givens:?}"), builder.bytes());
            }
        }
    }

    /// Every table full: 64,816 bytes, then a byte more and a byte less.
    fn largest(&mut self) {
        for seed in 0..40 {
            let book = full::tables(&mut Random::new(seed)).bytes();
            assert_eq!(book.len(), 64_816);
            self.add(format!("largest book {seed}, a byte less"), book[..64_815].to_vec());
            self.add(format!("largest book {seed}, a byte more"), [&book[..], &[0]].concat());
            self.add(format!("largest book {seed}"), book);
        }
    }
}

/// One record in each table, and nothing to refuse.
fn one_of_each() -> Tables {
    let mut builder = Builder::new();
    let predicate = builder.predicate(CLOSED, 0);
    let atom = builder.atom(predicate);
    builder.comparison(COUNT, GE, 0, &[(0, atom, 7)]);
    builder.rule(atom, &[Hyp::Compare(0)]);
    builder.tables
}
