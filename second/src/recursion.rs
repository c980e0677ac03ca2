// Whether an undefined answer comes of real recursion: an undefined atom that depends on itself through others.

use crate::tables::Tables;

/// Does some undefined atom reach itself through rules over undefined atoms? For books of at most 128 atoms.
pub fn undefined_by_recursion(tables: &Tables, answers: &[u8]) -> bool {
    let undefined = |atom: u16| answers[usize::from(atom)] == 0;
    let mut reached = vec![0u128; tables.atoms.len()];
    for rule in tables.rules.iter().filter(|rule| undefined(rule.0)) {
        for &(sort, index) in tables.hypotheses_of(rule) {
            let one = [(0, index, 0)];
            let used = match sort {
                2 => tables.elements_of(&tables.comparisons[usize::from(index)]),
                _ => &one,
            };
            for &(_, atom, _) in used.iter().filter(|&&(_, atom, _)| undefined(atom)) {
                reached[usize::from(rule.0)] |= 1 << atom;
            }
        }
    }
    for through in 0..reached.len() {
        for from in 0..reached.len() {
            if reached[from] >> through & 1 == 1 {
                reached[from] |= reached[through];
            }
        }
    }
    (0..reached.len()).any(|atom| reached[atom] >> atom & 1 == 1)
}
