// The hostile books: those known to take the engine long, at the limits of document 01 or near them.

use crate::making::Sizes;
use crate::shapes::Shape;
use crate::tables::Tables;

pub struct Hostile {
    pub name: &'static str,
    /// How it is made.
    pub made: &'static str,
    /// Do the plain rounds answer it within some seconds?
    pub rounds: bool,
    pub tables: Tables,
}

/// As many rules as the engine remembers.
const REMEMBERED: usize = 2048;

/// What fills that: 32 rounds in each of which 64 rules strike anew.
pub const FILLER: Sizes = Sizes { falling: 32, resting: 64, links: 0, sharing: 0, range: 0, open: 0 };

/// The books with so many of a hundred of their links, and of what shares a range or falls; a filler stays as it is.
pub fn all(percent: usize) -> Vec<Hostile> {
    let part = |size: usize| (size * percent / 100).max(2);
    let mut books = vec![];
    let mut add = |name, made, rounds, shape: Shape, sizes: Sizes| {
        books.push(Hostile { name, made, rounds, tables: shape.tables(&sizes) });
    };
    add(
        "chain above a filler",
        "a filler of 127 rules on level 0; above it a closed chain of 1,900 from a fact, the last link's rule first",
        true,
        Shape::Chain,
        Sizes { links: part(1900), ..FILLER },
    );
    let links = part(830);
    add(
        "chain in its filler's level",
        "a closed chain of 830 from a fact, all its links also by a root that falls once the order is full",
        true,
        Shape::OwnLevel,
        Sizes { falling: 2 * REMEMBERED / links + 1, links, ..FILLER },
    );
    add(
        "sums over a chain",
        "a filler; above it a chain of 1,880, each link by the two before it, and two atoms by a sum over it each",
        true,
        Shape::Sums,
        Sizes { links: part(1880), ..FILLER },
    );
    add(
        "shared range that a chain's end ends",
        "a filler; above it a chain of 1,270 and 640 atoms by one range of 1,999 undefined ones and the last link",
        false,
        Shape::SharedRange,
        Sizes { links: part(1270), sharing: part(640), range: part(2000), open: 41, ..FILLER },
    );
    add(
        "shared range that a false sum ends",
        "a filler; above it a chain of 1,150 and 765 atoms by one range of 2,799 undefined ones and a sum over all",
        false,
        Shape::FalseSum,
        Sizes { links: part(1150), sharing: part(765), range: part(2800), open: 36, ..FILLER },
    );
    add(
        "chain over growing ranges",
        "a closed chain of 2,048 in which each atom needs all the atoms before it, the last one's rule first",
        true,
        Shape::GrowingRanges,
        Sizes { links: part(2048), ..FILLER },
    );
    add(
        "chain on a root that changes",
        "a chain of 680 on a root with a rule for each of 680 atoms, of which one falls in each round",
        false,
        Shape::ChangingRoot,
        Sizes { falling: part(680), links: part(680), ..FILLER },
    );
    add(
        "chains in two directions",
        "700 atoms, each by the one before or the one after; 160 atoms fall that support the first, then 160 the last",
        true,
        Shape::TwoDirections,
        Sizes { falling: part(320), links: part(700), ..FILLER },
    );
    books
}
