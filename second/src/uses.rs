// The predicates that a rule uses, by its literals and by all elements of its comparisons.

use crate::codes::{COUNT, GE, GT, LE, LT, MAX, MIN};
use crate::tables::Tables;

/// One predicate used, and whether that use is positive.
#[derive(Clone, Copy)]
pub struct Use {
    pub predicate: usize,
    pub positively: bool,
}

/// The uses of each rule, each listed once.
pub struct Uses(Vec<Vec<Use>>);

impl Uses {
    pub fn any(&self, rule: usize, test: impl Fn(&Use) -> bool) -> bool {
        self.0[rule].iter().any(test)
    }
}

/// What each rule of a book uses.
pub fn of_rules(tables: &Tables) -> Uses {
    let of_comparisons: Vec<Vec<Use>> = tables.comparisons.iter().map(|c| of_comparison(tables, c)).collect();
    let predicate_of = |atom: u16| usize::from(tables.atoms[usize::from(atom)].0);
    let of_rule = |rule| {
        let mut found = Found::new(tables);
        for &(sort, index) in tables.hypotheses_of(rule) {
            match sort {
                0 => found.add(Use { predicate: predicate_of(index), positively: true }),
                1 => found.add(Use { predicate: predicate_of(index), positively: false }),
                _ => of_comparisons[usize::from(index)].iter().for_each(|&used| found.add(used)),
            }
        }
        found.uses
    };
    Uses(tables.rules.iter().map(of_rule).collect())
}

fn of_comparison(tables: &Tables, comparison: &(u8, u8, i32, u16, u16)) -> Vec<Use> {
    let &(aggregate, relation, ..) = comparison;
    let mut found = Found::new(tables);
    for &(sign, atom, _) in tables.elements_of(comparison) {
        let predicate = usize::from(tables.atoms[usize::from(atom)].0);
        found.add(Use { predicate, positively: is_positive(sign, aggregate, relation) });
    }
    found.uses
}

/// Is the use by an element positive? It is for sign 0 in count >, count ≥, max >, max ≥, min <, min ≤, and for
/// sign 1 in count <, count ≤.
fn is_positive(sign: u8, aggregate: u8, relation: u8) -> bool {
    match (sign, aggregate) {
        (0, COUNT) | (0, MAX) => relation == GT || relation == GE,
        (0, MIN) => relation == LT || relation == LE,
        (1, COUNT) => relation == LT || relation == LE,
        _ => false,
    }
}

/// A list of uses without repetition.
struct Found {
    uses: Vec<Use>,
    has: Vec<[bool; 2]>,
}

impl Found {
    fn new(tables: &Tables) -> Self {
        Found { uses: vec![], has: vec![[false; 2]; tables.predicates.len()] }
    }

    fn add(&mut self, used: Use) {
        let has = &mut self.has[used.predicate][usize::from(used.positively)];
        if !*has {
            *has = true;
            self.uses.push(used);
        }
    }
}
