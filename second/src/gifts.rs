// Demand 3 by random gifts: giving open atoms that no rule concludes takes no answer of the engine's back.

use crate::random::Random;
use crate::rooms;
use crate::tables::Tables;

/// What came of a gift: answers that were kept, and answers newly decided apart from the atoms given.
pub struct Gift {
    pub kept: u64,
    pub decided: u64,
}

/// The tables with some more atoms given, where there are free atoms that are not given yet.
pub fn with_gifts(tables: &Tables, seed: u64) -> Option<Tables> {
    let mut random = Random::new(seed ^ 0x6769_6674);
    let not_given: Vec<usize> = tables.free().into_iter().filter(|&atom| tables.atoms[atom].1 == 0).collect();
    if not_given.is_empty() {
        return None;
    }
    let mut with_gifts = tables.clone();
    let one = random.pick(&not_given);
    for atom in not_given {
        if atom == one || random.percent(50) {
            with_gifts.atoms[atom].1 = 1 + random.below(2) as u8;
        }
    }
    Some(with_gifts)
}

/// Looks at the engine's answers before and after some gifts, in rooms of one length.
pub fn compare(with_gifts: &Tables, before: &[u8], seed: u64) -> Result<Gift, String> {
    let outcome = rooms::compare(&with_gifts.bytes(), before.len(), seed)?;
    if outcome.number != 0 {
        return Err(format!("refused with {}", outcome.number));
    }
    let after = outcome.room();
    let mut gift = Gift { kept: 0, decided: 0 };
    for atom in 0..before.len() {
        if before[atom] != 0 {
            if after[atom] != before[atom] {
                return Err(format!("atom {atom} was {}, is {}", before[atom], after[atom]));
            }
            gift.kept += 1;
        } else if after[atom] != 0 && with_gifts.atoms[atom].1 == 0 {
            gift.decided += 1;
        }
    }
    Ok(gift)
}
