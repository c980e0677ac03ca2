// Builds the tables of a book record by record; each addition returns the index of its record.

use crate::tables::Tables;

/// A hypothesis: an atom, an atom under "not", or a comparison, by index.
#[derive(Clone, Copy)]
pub enum Hyp {
    Atom(u16),
    Not(u16),
    Compare(u16),
}

#[derive(Clone, Default)]
pub struct Builder {
    pub tables: Tables,
}

impl Builder {
    pub fn new() -> Self {
        Self::default()
    }

    pub fn predicate(&mut self, kind: u8, level: u8) -> u16 {
        self.tables.predicates.push((kind, level));
        last(self.tables.predicates.len())
    }

    /// An atom that is not given.
    pub fn atom(&mut self, predicate: u16) -> u16 {
        self.given(predicate, 0)
    }

    /// An atom with its given byte: 0 not, 1 true, 2 false.
    pub fn given(&mut self, predicate: u16, given: u8) -> u16 {
        self.tables.atoms.push((predicate, given));
        last(self.tables.atoms.len())
    }

    /// A comparison over elements of its own: sign, atom, weight.
    pub fn comparison(&mut self, aggregate: u8, relation: u8, bound: i32, elements: &[(u8, u16, i32)]) -> u16 {
        let first = index(self.tables.elements.len());
        self.tables.elements.extend(elements);
        self.tables.comparisons.push((aggregate, relation, bound, first, index(elements.len())));
        last(self.tables.comparisons.len())
    }

    /// A rule over hypotheses of its own; with none it is a fact.
    pub fn rule(&mut self, head: u16, body: &[Hyp]) -> u16 {
        let first = index(self.tables.hypotheses.len());
        self.tables.hypotheses.extend(body.iter().map(|hypothesis| match hypothesis {
            Hyp::Atom(atom) => (0, *atom),
            Hyp::Not(atom) => (1, *atom),
            Hyp::Compare(comparison) => (2, *comparison),
        }));
        self.tables.rules.push((head, first, index(body.len())));
        last(self.tables.rules.len())
    }

    pub fn bytes(&self) -> Vec<u8> {
        self.tables.bytes()
    }
}

fn index(number: usize) -> u16 {
    u16::try_from(number).expect("an index of 16 bits")
}

fn last(length: usize) -> u16 {
    index(length - 1)
}
