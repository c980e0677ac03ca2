// The model: levels from 0 upward, each taken from the answers of the lower ones and the given atoms.

use std::collections::BTreeSet;

use crate::codes::{CERTAIN, CLOSED, COMPLETE};
use crate::tables::Tables;
use crate::truth::{self, Truth};

type Rule = (u16, u16, u16);

/// The answer of each atom of an accepted book.
pub fn answers(tables: &Tables) -> Vec<Truth> {
    let mut answers: Vec<Truth> = tables.atoms.iter().map(|&(_, given)| Truth::of_code(given)).collect();
    let levels: BTreeSet<u8> = (0..tables.atoms.len()).map(|atom| tables.level(atom)).collect();
    for number in levels {
        let level = Level::new(tables, number);
        if level.is_certain() {
            level.answer_certain(&mut answers);
        } else {
            level.answer_uncertain(&mut answers);
        }
    }
    answers
}

/// The atoms of one level, the rules that conclude them and the comparisons of these rules.
struct Level<'t> {
    tables: &'t Tables,
    atoms: Vec<usize>,
    rules: Vec<Rule>,
    comparisons: Vec<usize>,
}

impl<'t> Level<'t> {
    fn new(tables: &'t Tables, number: u8) -> Self {
        let atoms = (0..tables.atoms.len()).filter(|&atom| tables.level(atom) == number).collect();
        let on_level = |rule: &Rule| tables.level(usize::from(rule.0)) == number;
        let rules: Vec<Rule> = tables.rules.iter().copied().filter(on_level).collect();
        let mut compared = vec![false; tables.comparisons.len()];
        for rule in &rules {
            for &(sort, index) in tables.hypotheses_of(rule) {
                if sort == 2 {
                    compared[usize::from(index)] = true;
                }
            }
        }
        let comparisons = (0..compared.len()).filter(|&comparison| compared[comparison]).collect();
        Level { tables, atoms, rules, comparisons }
    }

    fn is_certain(&self) -> bool {
        self.atoms.iter().any(|&atom| self.tables.kind(atom) == CERTAIN)
    }

    /// Make heads of true bodies true until nothing changes; all its other atoms become false.
    fn answer_certain(&self, answers: &mut [Truth]) {
        while self.step_a(answers) {}
        self.make_false(answers, |_| true);
    }

    /// Repeat three steps until none adds anything.
    fn answer_uncertain(&self, answers: &mut [Truth]) {
        while self.step_a(answers) || self.step_b(answers) || self.step_c(answers) {}
    }

    /// Heads of true bodies become true. Says whether that added anything, as each step does.
    fn step_a(&self, answers: &mut [Truth]) -> bool {
        let compared = self.compare(answers);
        let mut added = false;
        for rule in &self.rules {
            let head = usize::from(rule.0);
            if answers[head] != Truth::True && self.body(rule, answers, &compared) == Truth::True {
                assert_eq!(answers[head], Truth::Undefined, "a false head has a true body");
                answers[head] = Truth::True;
                added = true;
            }
        }
        added
    }

    /// A complete or closed atom becomes false if each rule concluding it has a false body.
    fn step_b(&self, answers: &mut [Truth]) -> bool {
        let compared = self.compare(answers);
        let mut supported = vec![false; answers.len()];
        for rule in &self.rules {
            let head = usize::from(rule.0);
            if !supported[head] && self.body(rule, answers, &compared) != Truth::False {
                supported[head] = true;
            }
        }
        self.make_false(answers, |atom| {
            let kind = self.tables.kind(atom);
            (kind == COMPLETE || kind == CLOSED) && !supported[atom]
        })
    }

    /// Closed atoms in the greatest unfounded set become false.
    fn step_c(&self, answers: &mut [Truth]) -> bool {
        let unfounded = self.greatest_unfounded(answers);
        self.make_false(answers, |atom| unfounded[atom])
    }

    /// The greatest unfounded set: all closed atoms that are not true, less those that a rule keeps out of any such
    /// set, in passes until no rule keeps out another. The set only shrinks, and fewer hypotheses fail for a smaller
    /// set; so what is kept out in one pass is kept out for good, and the last pass shows that the rest is unfounded.
    fn greatest_unfounded(&self, answers: &[Truth]) -> Vec<bool> {
        let mut set = vec![false; answers.len()];
        for &atom in &self.atoms {
            set[atom] = self.tables.kind(atom) == CLOSED && answers[atom] != Truth::True;
        }
        let compared = self.compare(answers);
        loop {
            let counted_false: Vec<Truth> =
                answers.iter().zip(&set).map(|(&answer, &member)| if member { Truth::False } else { answer }).collect();
            let compared_without = self.compare(&counted_false);
            let mut struck = false;
            for rule in &self.rules {
                let head = usize::from(rule.0);
                let fails = |&(sort, index): &(u8, u16)| {
                    self.hypothesis(sort, index, answers, &compared) == Truth::False
                        || sort == 0 && set[usize::from(index)]
                        || sort == 2 && compared_without[usize::from(index)] == Truth::False
                };
                if set[head] && !self.tables.hypotheses_of(rule).iter().any(fails) {
                    set[head] = false;
                    struck = true;
                }
            }
            if !struck {
                return set;
            }
        }
    }

    /// The level's undefined atoms that are so become false.
    fn make_false(&self, answers: &mut [Truth], so: impl Fn(usize) -> bool) -> bool {
        let mut added = false;
        for &atom in &self.atoms {
            if answers[atom] == Truth::Undefined && so(atom) {
                answers[atom] = Truth::False;
                added = true;
            }
        }
        added
    }

    /// The truth of the level's comparisons at some answers, by index. A step finds it once; what the step then adds is
    /// seen when the step is repeated.
    fn compare(&self, answers: &[Truth]) -> Vec<Truth> {
        let mut compared = vec![Truth::Undefined; self.tables.comparisons.len()];
        for &index in &self.comparisons {
            let comparison = &self.tables.comparisons[index];
            compared[index] = truth::comparison(comparison, self.tables.elements_of(comparison), answers);
        }
        compared
    }

    fn hypothesis(&self, sort: u8, index: u16, answers: &[Truth], compared: &[Truth]) -> Truth {
        match sort {
            2 => compared[usize::from(index)],
            sign => truth::literal(sign, index, answers),
        }
    }

    /// True when all hypotheses are true and false when one is false.
    fn body(&self, rule: &Rule, answers: &[Truth], compared: &[Truth]) -> Truth {
        let mut body = Truth::True;
        for &(sort, index) in self.tables.hypotheses_of(rule) {
            match self.hypothesis(sort, index, answers, compared) {
                Truth::True => {}
                Truth::False => return Truth::False,
                Truth::Undefined => body = Truth::Undefined,
            }
        }
        body
    }
}
