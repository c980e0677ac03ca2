// The three answers, and the truth of a literal and of a comparison at the answers so far.

use crate::codes::{COUNT, EQ, GE, GT, LE, LT, MAX, NE, SUM};

#[derive(Clone, Copy, Debug, PartialEq, Eq)]
pub enum Truth {
    Undefined,
    True,
    False,
}

impl Truth {
    /// The byte of a room or of a given atom: 0 undefined, 1 true, 2 false.
    pub fn code(self) -> u8 {
        match self {
            Truth::Undefined => 0,
            Truth::True => 1,
            Truth::False => 2,
        }
    }

    pub fn of_code(code: u8) -> Self {
        match code {
            1 => Truth::True,
            2 => Truth::False,
            _ => Truth::Undefined,
        }
    }

    fn not(self) -> Self {
        match self {
            Truth::Undefined => Truth::Undefined,
            Truth::True => Truth::False,
            Truth::False => Truth::True,
        }
    }
}

/// The truth of an atom (sign 0) or of "not" an atom (sign 1).
pub fn literal(sign: u8, atom: u16, answers: &[Truth]) -> Truth {
    let answer = answers[usize::from(atom)];
    if sign == 0 {
        answer
    } else {
        answer.not()
    }
}

/// True when its relation holds, false when the opposite one does, else undefined.
pub fn comparison(
    &(aggregate, relation, bound, ..): &(u8, u8, i32, u16, u16),
    elements: &[(u8, u16, i32)],
    answers: &[Truth],
) -> Truth {
    let weights: Vec<(Truth, i64)> =
        elements.iter().map(|&(sign, atom, weight)| (literal(sign, atom, answers), i64::from(weight))).collect();
    if holds(aggregate, relation, i64::from(bound), &weights) {
        Truth::True
    } else if holds(aggregate, opposite(relation), i64::from(bound), &weights) {
        Truth::False
    } else {
        Truth::Undefined
    }
}

/// = and ≠, < and ≥, > and ≤.
fn opposite(relation: u8) -> u8 {
    match relation {
        EQ => NE,
        NE => EQ,
        LT => GE,
        GE => LT,
        GT => LE,
        _ => GT,
    }
}

/// Is the comparison true, given the truth of each element's literal and its weight?
fn holds(aggregate: u8, relation: u8, k: i64, weights: &[(Truth, i64)]) -> bool {
    let definite = || weights.iter().filter(|(truth, _)| *truth == Truth::True).map(|(_, weight)| *weight);
    let possible = || weights.iter().filter(|(truth, _)| *truth != Truth::False).map(|(_, weight)| *weight);
    let undefined = || weights.iter().filter(|(truth, _)| *truth == Truth::Undefined).map(|(_, weight)| *weight);
    match aggregate {
        COUNT => number_holds(relation, k, definite().count() as i64, possible().count() as i64),
        SUM => {
            let sum: i64 = definite().sum();
            let negative: i64 = undefined().filter(|&weight| weight < 0).sum();
            let positive: i64 = undefined().filter(|&weight| weight > 0).sum();
            number_holds(relation, k, sum + negative, sum + positive)
        }
        _ if definite().next().is_none() => false,
        MAX => match relation {
            EQ => definite().any(|weight| weight == k) && !possible().any(|weight| weight > k),
            NE => !possible().any(|weight| weight == k) || definite().any(|weight| weight > k),
            LT => possible().all(|weight| weight < k),
            LE => possible().all(|weight| weight <= k),
            GT => definite().any(|weight| weight > k),
            _ => definite().any(|weight| weight >= k),
        },
        _ => match relation {
            EQ => definite().any(|weight| weight == k) && !possible().any(|weight| weight < k),
            NE => !possible().any(|weight| weight == k) || definite().any(|weight| weight < k),
            LT => definite().any(|weight| weight < k),
            LE => definite().any(|weight| weight <= k),
            GT => possible().all(|weight| weight > k),
            _ => possible().all(|weight| weight >= k),
        },
    }
}

/// The relation of a count or sum that lies between least and most.
fn number_holds(relation: u8, k: i64, least: i64, most: i64) -> bool {
    match relation {
        EQ => least == k && most == k,
        NE => least > k || most < k,
        LT => most < k,
        LE => most <= k,
        GT => least > k,
        _ => least >= k,
    }
}
