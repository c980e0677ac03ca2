// The six tables of a book as plain records, and the bytes of a book that holds them.

use crate::codes::OPEN;

/// One field for each table, one tuple for each record, in the order of document 01.
#[derive(Clone, Debug, Default, PartialEq, Eq)]
pub struct Tables {
    /// kind, level
    pub predicates: Vec<(u8, u8)>,
    /// predicate, given
    pub atoms: Vec<(u16, u8)>,
    /// head atom, first hypothesis, how many
    pub rules: Vec<(u16, u16, u16)>,
    /// sort, index
    pub hypotheses: Vec<(u8, u16)>,
    /// aggregate, relation, bound, first element, how many
    pub comparisons: Vec<(u8, u8, i32, u16, u16)>,
    /// sign, atom, weight
    pub elements: Vec<(u8, u16, i32)>,
}

impl Tables {
    /// The hypotheses of a rule.
    pub fn hypotheses_of(&self, &(_, first, many): &(u16, u16, u16)) -> &[(u8, u16)] {
        &self.hypotheses[usize::from(first)..][..usize::from(many)]
    }

    /// The elements of a comparison.
    pub fn elements_of(&self, &(_, _, _, first, many): &(u8, u8, i32, u16, u16)) -> &[(u8, u16, i32)] {
        &self.elements[usize::from(first)..][..usize::from(many)]
    }

    /// The open atoms that no rule concludes.
    pub fn free(&self) -> Vec<usize> {
        let concluded = |atom: usize| self.rules.iter().any(|&(head, ..)| usize::from(head) == atom);
        (0..self.atoms.len()).filter(|&atom| self.kind(atom) == OPEN && !concluded(atom)).collect()
    }

    /// The kind of an atom's predicate.
    pub fn kind(&self, atom: usize) -> u8 {
        self.predicates[usize::from(self.atoms[atom].0)].0
    }

    /// The level of an atom's predicate.
    pub fn level(&self, atom: usize) -> u8 {
        self.predicates[usize::from(self.atoms[atom].0)].1
    }

    /// The table of contents, then the six bodies one after another.
    pub fn bytes(&self) -> Vec<u8> {
        let bodies = self.bodies();
        let mut book = Vec::new();
        let mut offset = 48;
        for (count, body) in &bodies {
            book.extend(u32::try_from(offset).expect("a book of less than 4 GB").to_le_bytes());
            book.extend(u32::try_from(*count).expect("a table of less than 4 G records").to_le_bytes());
            offset += body.len();
        }
        for (_, body) in &bodies {
            book.extend(body);
        }
        book
    }

    fn bodies(&self) -> [(usize, Vec<u8>); 6] {
        let mut bodies: [(usize, Vec<u8>); 6] = Default::default();
        for (kind, level) in &self.predicates {
            bodies[0].0 += 1;
            bodies[0].1.extend([*kind, *level]);
        }
        for (predicate, given) in &self.atoms {
            bodies[1].0 += 1;
            bodies[1].1.extend(predicate.to_le_bytes());
            bodies[1].1.push(*given);
        }
        for (head, first, many) in &self.rules {
            bodies[2].0 += 1;
            for field in [head, first, many] {
                bodies[2].1.extend(field.to_le_bytes());
            }
        }
        for (sort, index) in &self.hypotheses {
            bodies[3].0 += 1;
            bodies[3].1.push(*sort);
            bodies[3].1.extend(index.to_le_bytes());
        }
        for (aggregate, relation, bound, first, many) in &self.comparisons {
            bodies[4].0 += 1;
            bodies[4].1.extend([*aggregate, *relation]);
            bodies[4].1.extend(bound.to_le_bytes());
            bodies[4].1.extend(first.to_le_bytes());
            bodies[4].1.extend(many.to_le_bytes());
        }
        for (sign, atom, weight) in &self.elements {
            bodies[5].0 += 1;
            bodies[5].1.push(*sign);
            bodies[5].1.extend(atom.to_le_bytes());
            bodies[5].1.extend(weight.to_le_bytes());
        }
        bodies
    }
}
