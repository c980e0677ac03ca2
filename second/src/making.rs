// What hostile books are made of: atoms that fall one in each round, fillers, chains and shared ranges.

use crate::builder::{Builder, Hyp};
use crate::codes::{CLOSED, COMPLETE, OPEN};

/// How many there are of each; a shape that has no such thing passes over its number.
#[derive(Clone, Copy)]
pub struct Sizes {
    /// Atoms that fall, which is to become false, one in each round.
    pub falling: usize,
    /// Atoms that rest on an atom which rests on those that fall.
    pub resting: usize,
    /// Atoms of the chain.
    pub links: usize,
    /// Atoms with a rule over the shared range, and the hypotheses of that range.
    pub sharing: usize,
    pub range: usize,
    /// Open atoms, not given, that the shared range goes through.
    pub open: usize,
}

/// A book under work.
pub struct Making {
    pub builder: Builder,
    pub sizes: Sizes,
}

impl Making {
    pub fn new(sizes: &Sizes) -> Self {
        Making { builder: Builder::new(), sizes: *sizes }
    }

    pub fn atoms(&mut self, kind: u8, level: u8, many: usize) -> Vec<u16> {
        let predicate = self.builder.predicate(kind, level);
        (0..many).map(|_| self.builder.atom(predicate)).collect()
    }

    /// The first has no rule and each next one has the one before: complete, so that they fall one by one.
    pub fn falling(&mut self) -> Vec<u16> {
        let falling = self.atoms(COMPLETE, 0, self.sizes.falling);
        for pair in falling.windows(2) {
            self.builder.rule(pair[1], &[Hyp::Atom(pair[0])]);
        }
        falling
    }

    /// A rule for the root over each of the atoms: what supports it changes whenever one falls.
    pub fn changing(&mut self, root: u16, atoms: &[u16]) {
        for &atom in atoms {
            self.builder.rule(root, &[Hyp::Atom(atom)]);
        }
    }

    /// Each atom by a rule over the root alone, all these rules over one hypothesis.
    pub fn rest_on(&mut self, root: u16, atoms: &[u16]) {
        let first = self.builder.tables.hypotheses.len() as u16;
        self.builder.tables.hypotheses.push((0, root));
        self.builder.tables.rules.extend(atoms.iter().map(|&atom| (atom, first, 1)));
    }

    /// On level 0: an atom whose support changes in each round, and atoms on it that strike anew in each round.
    pub fn filler(&mut self) {
        let falling = self.falling();
        let root = self.atoms(CLOSED, 0, 1)[0];
        self.changing(root, &falling);
        for atom in self.atoms(CLOSED, 0, self.sizes.resting) {
            self.builder.rule(atom, &[Hyp::Atom(root)]);
        }
    }

    /// Each atom needs as many before it as said; the last one's rule comes first.
    pub fn link(&mut self, chain: &[u16], needs: usize) {
        for end in (1..chain.len()).rev() {
            let body: Vec<Hyp> = chain[end.saturating_sub(needs)..end].iter().map(|&atom| Hyp::Atom(atom)).collect();
            self.builder.rule(chain[end], &body);
        }
    }

    /// Each atom by one range of hypotheses: undefined atoms, and last the one that is said.
    pub fn share(&mut self, sharing: &[u16], last: (u8, u16)) {
        let open = self.atoms(OPEN, 0, self.sizes.open);
        let (first, range) = (self.builder.tables.hypotheses.len() as u16, self.sizes.range);
        self.builder.tables.hypotheses.extend((1..range).map(|place| (0, open[place % open.len()])));
        self.builder.tables.hypotheses.push(last);
        self.builder.tables.rules.extend(sharing.iter().map(|&atom| (atom, first, range as u16)));
    }
}
