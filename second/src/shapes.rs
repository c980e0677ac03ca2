// The shapes of hostile books: rounds that decide one atom each, and in each of them passes of step (c) that strike out
// one atom each, by rules that the engine has not remembered.

use crate::builder::Hyp;
use crate::codes::{CLOSED, GE, SUM};
use crate::making::{Making, Sizes};
use crate::tables::Tables;

#[derive(Clone, Copy, Debug, PartialEq, Eq)]
pub enum Shape {
    Chain,
    OwnLevel,
    Sums,
    SharedRange,
    FalseSum,
    GrowingRanges,
    ChangingRoot,
    TwoDirections,
}

pub const SHAPES: [Shape; 8] = [
    Shape::Chain,
    Shape::OwnLevel,
    Shape::Sums,
    Shape::SharedRange,
    Shape::FalseSum,
    Shape::GrowingRanges,
    Shape::ChangingRoot,
    Shape::TwoDirections,
];

impl Shape {
    pub fn tables(self, sizes: &Sizes) -> Tables {
        let mut making = Making::new(sizes);
        match self {
            Shape::Chain => drop(making.chain_above_filler(1)),
            Shape::OwnLevel => making.own_level(),
            Shape::Sums => making.sums(),
            Shape::SharedRange => making.shared_range(),
            Shape::FalseSum => making.false_sum(),
            Shape::GrowingRanges => making.growing_ranges(),
            Shape::ChangingRoot => making.changing_root(),
            Shape::TwoDirections => making.two_directions(),
        }
        making.builder.tables
    }
}

impl Making {
    fn chain_above_filler(&mut self, needs: usize) -> Vec<u16> {
        self.filler();
        let chain = self.atoms(CLOSED, 1, self.sizes.links);
        self.link(&chain, needs);
        self.builder.rule(chain[0], &[]);
        chain
    }

    /// The atoms of the chain rest on the changing root first, and on one another when that has fallen.
    fn own_level(&mut self) {
        let falling = self.falling();
        let root = self.atoms(CLOSED, 0, 1)[0];
        let chain = self.atoms(CLOSED, 0, self.sizes.links);
        self.changing(root, &falling);
        self.rest_on(root, &chain);
        self.link(&chain, 1);
        self.builder.rule(chain[0], &[]);
    }

    /// Two more atoms, each by a sum of its own that is false as long as one atom of the chain counts as false.
    fn sums(&mut self) {
        let chain = self.chain_above_filler(2);
        let elements: Vec<(u8, u16, i32)> = chain.iter().map(|&atom| (0, atom, 1)).collect();
        for atom in self.atoms(CLOSED, 1, 2) {
            let all = self.builder.comparison(SUM, GE, chain.len() as i32, &elements);
            self.builder.rule(atom, &[Hyp::Compare(all)]);
        }
    }

    /// Many atoms by one range of hypotheses: undefined ones, and last the end of the chain.
    fn shared_range(&mut self) {
        let chain = self.chain_above_filler(1);
        let sharing = self.atoms(CLOSED, 1, self.sizes.sharing);
        self.share(&sharing, (0, chain[chain.len() - 1]));
    }

    /// The same, and last a sum over every atom of the book, of which those of the chain count.
    fn false_sum(&mut self) {
        let chain = self.chain_above_filler(1);
        let sharing = self.atoms(CLOSED, 1, self.sizes.sharing);
        self.share(&sharing, (2, 0));
        let every_atom = 0..self.builder.tables.atoms.len() as u16;
        let elements: Vec<(u8, u16, i32)> =
            every_atom.map(|atom| (0, atom, i32::from(chain.contains(&atom)))).collect();
        self.builder.comparison(SUM, GE, chain.len() as i32, &elements);
    }

    /// A chain in which each atom needs all the atoms before it, by a range that grows.
    fn growing_ranges(&mut self) {
        let chain = self.atoms(CLOSED, 0, self.sizes.links);
        self.builder.tables.hypotheses = chain[1..].iter().map(|&atom| (0, atom - 1)).collect();
        self.builder.tables.rules = chain.iter().rev().map(|&atom| (atom, 0, atom)).collect();
    }

    /// The chain's root is supported by each of the falling atoms, and so by another one after each round.
    fn changing_root(&mut self) {
        let falling = self.falling();
        let root = self.atoms(CLOSED, 0, 1);
        self.changing(root[0], &falling);
        let chain = [root, self.atoms(CLOSED, 0, self.sizes.links)].concat();
        self.link(&chain, 1);
    }

    /// Each atom of the chain needs the one before or the one after. The first half of the falling atoms supports its
    /// start, the other half its end.
    fn two_directions(&mut self) {
        let falling = self.falling();
        let mut chain = self.atoms(CLOSED, 0, self.sizes.links);
        for half in falling.chunks(falling.len().div_ceil(2)) {
            self.changing(chain[0], half);
            self.link(&chain, 1);
            chain.reverse();
        }
    }
}
