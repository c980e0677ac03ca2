// The engine's rounds written plainly, a baseline for its times: a round takes all three steps at once from the answers
// before it. Reader, refusals and truths are the second program's.

use crate::codes::{CERTAIN, CLOSED, COMPLETE};
use crate::tables::Tables;
use crate::truth::{self, Truth};

type Rule = (u16, u16, u16);

/// As the second program: 0 and the answers in the room, or the packed refusal and the room as it was.
pub fn answer(book: &[u8], room: &mut [u8]) -> u32 {
    crate::answer_by(answers, book, room)
}

/// The answer of each atom of an accepted book.
fn answers(tables: &Tables) -> Vec<Truth> {
    let mut rounds = Rounds::new(tables);
    for level in 0..128 {
        if (0..rounds.answers.len()).any(|atom| rounds.is_pending(atom, level)) {
            while rounds.round(level) {}
            rounds.close(level);
        }
    }
    rounds.answers
}

struct Rounds<'t> {
    tables: &'t Tables,
    kinds: Vec<u8>,
    levels: Vec<u8>,
    answers: Vec<Truth>,
    /// The rules that struck in step (c), in the order in which they first did.
    order: Vec<usize>,
    remembered: Vec<bool>,
}

/// What step (c) assumes: the answers with some atoms counted as false, how many of these may still be struck out, and
/// the truths of comparisons as judged last.
struct Assumed {
    answers: Vec<Truth>,
    waiting: usize,
    compared: Vec<Truth>,
}

impl<'t> Rounds<'t> {
    fn new(tables: &'t Tables) -> Self {
        let atoms = tables.atoms.len();
        Rounds {
            tables,
            kinds: (0..atoms).map(|atom| tables.kind(atom)).collect(),
            levels: (0..atoms).map(|atom| tables.level(atom)).collect(),
            answers: tables.atoms.iter().map(|&(_, given)| Truth::of_code(given)).collect(),
            order: vec![],
            remembered: vec![false; tables.rules.len()],
        }
    }

    /// Undefined and of the level.
    fn is_pending(&self, atom: usize, level: u8) -> bool {
        self.answers[atom] == Truth::Undefined && self.levels[atom] == level
    }

    /// The next answers of a level, all at once; says whether one changed.
    fn round(&mut self, level: u8) -> bool {
        let bodies = self.gather(level);
        let assumed = self.unfounded(level);
        let mut changed = false;
        for atom in 0..self.answers.len() {
            if self.is_pending(atom, level) {
                self.answers[atom] = next(self.kinds[atom], bodies[atom], assumed[atom]);
                changed |= self.answers[atom] != Truth::Undefined;
            }
        }
        changed
    }

    /// The other atoms of a certain level become false.
    fn close(&mut self, level: u8) {
        for atom in 0..self.answers.len() {
            if self.is_pending(atom, level) && self.kinds[atom] == CERTAIN {
                self.answers[atom] = Truth::False;
            }
        }
    }

    /// For each undefined atom of the level: true if one body concluding it is, false if all are, else undefined.
    fn gather(&self, level: u8) -> Vec<Truth> {
        let judge = |index| self.comparison(index, &self.answers);
        let compared: Vec<Truth> = (0..self.tables.comparisons.len()).map(judge).collect();
        let mut bodies = vec![Truth::False; self.answers.len()];
        for rule in &self.tables.rules {
            let head = usize::from(rule.0);
            if self.is_pending(head, level) {
                bodies[head] = joined(bodies[head], self.body(rule, &compared));
            }
        }
        bodies
    }

    /// True when all hypotheses are true and false when one is false.
    fn body(&self, rule: &Rule, compared: &[Truth]) -> Truth {
        let mut body = Truth::True;
        for &(sort, index) in self.tables.hypotheses_of(rule) {
            let hypothesis = match sort {
                2 => compared[usize::from(index)],
                sign => truth::literal(sign, index, &self.answers),
            };
            match hypothesis {
                Truth::True => {}
                Truth::False => return Truth::False,
                Truth::Undefined => body = Truth::Undefined,
            }
        }
        body
    }

    /// The answers with the greatest unfounded set counted as false: rules strike along the remembered order first,
    /// then in passes over all of them until one strikes nothing or nothing is waiting.
    fn unfounded(&mut self, level: u8) -> Vec<Truth> {
        let mut assumed = self.assume(level);
        for place in 0..self.order.len() {
            if assumed.waiting == 0 {
                break;
            }
            self.strike(self.order[place], &mut assumed);
        }
        let mut struck = true;
        while struck && assumed.waiting > 0 {
            struck = false;
            for rule in 0..self.tables.rules.len() {
                if self.strike(rule, &mut assumed) {
                    struck = true;
                    if !self.remembered[rule] {
                        self.remembered[rule] = true;
                        self.order.push(rule);
                    }
                }
            }
        }
        assumed.answers
    }

    /// All closed atoms of the level that are not true count as false.
    fn assume(&self, level: u8) -> Assumed {
        let compared = vec![Truth::False; self.tables.comparisons.len()];
        let mut assumed = Assumed { answers: self.answers.clone(), waiting: 0, compared };
        for atom in 0..self.answers.len() {
            if self.is_pending(atom, level) && self.kinds[atom] == CLOSED {
                assumed.answers[atom] = Truth::False;
                assumed.waiting += 1;
            }
        }
        assumed
    }

    /// A rule strikes out its head if that is only assumed to be false and the body is not false at what is assumed.
    fn strike(&self, rule: usize, assumed: &mut Assumed) -> bool {
        let rule = &self.tables.rules[rule];
        let head = usize::from(rule.0);
        let only_assumed = self.answers[head] == Truth::Undefined && assumed.answers[head] == Truth::False;
        let strikes = only_assumed && !self.fails(rule, assumed);
        if strikes {
            assumed.answers[head] = Truth::Undefined;
            assumed.waiting -= 1;
        }
        strikes
    }

    /// Is a hypothesis false at what is assumed? A comparison is judged again only while it was false.
    fn fails(&self, rule: &Rule, assumed: &mut Assumed) -> bool {
        self.tables.hypotheses_of(rule).iter().any(|&(sort, index)| {
            if sort < 2 {
                return truth::literal(sort, index, &assumed.answers) == Truth::False;
            }
            let index = usize::from(index);
            if assumed.compared[index] == Truth::False {
                assumed.compared[index] = self.comparison(index, &assumed.answers);
            }
            assumed.compared[index] == Truth::False
        })
    }

    fn comparison(&self, index: usize, answers: &[Truth]) -> Truth {
        let comparison = &self.tables.comparisons[index];
        truth::comparison(comparison, self.tables.elements_of(comparison), answers)
    }
}

/// The truth of one body more beside those before it.
fn joined(bodies: Truth, body: Truth) -> Truth {
    match (bodies, body) {
        (Truth::True, _) | (_, Truth::True) => Truth::True,
        (Truth::False, Truth::False) => Truth::False,
        _ => Truth::Undefined,
    }
}

/// The next answer of an undefined atom, by its kind, its bodies and what step (c) left assumed.
fn next(kind: u8, bodies: Truth, assumed: Truth) -> Truth {
    let unfounded = kind == CLOSED && assumed == Truth::False;
    let refuted = (kind == COMPLETE || kind == CLOSED) && bodies == Truth::False;
    if bodies == Truth::True {
        Truth::True
    } else if unfounded || refuted {
        Truth::False
    } else {
        Truth::Undefined
    }
}
