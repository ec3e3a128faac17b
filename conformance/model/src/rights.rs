//! Rights and chains (01, Chains). This part knows numbers only: principals in
//! order of creation, variables in order of creation, and the four rights.

/// Principal numbers that every state has.
pub const ADMIN: u16 = 0;
pub const ANYONE: u16 = 1;

/// The four rights, in 01's order.
#[derive(Clone, Copy, PartialEq, Eq, Debug)]
pub enum Right {
    Read,
    Write,
    Append,
    Delegate,
}

impl Right {
    pub const ALL: [Right; 4] = [Right::Read, Right::Write, Right::Append, Right::Delegate];

    pub fn number(self) -> u16 {
        self as u16
    }

    /// The right's byte in the state text and in the question.
    pub fn letter(self) -> u8 {
        match self {
            Right::Read => b'r',
            Right::Write => b'w',
            Right::Append => b'a',
            Right::Delegate => b'd',
        }
    }

    pub fn of_letter(letter: u8) -> Option<Right> {
        Right::ALL
            .into_iter()
            .find(|right| right.letter() == letter)
    }

    pub fn of_number(number: u16) -> Option<Right> {
        Right::ALL.get(usize::from(number)).copied()
    }
}

/// `x q right -> p`, in numbers.
#[derive(Clone, Copy, PartialEq, Eq, Debug)]
pub struct Assertion {
    pub variable: u16,
    pub from: u16,
    pub right: u16,
    pub to: u16,
}

/// What a search finds: the length of a shortest chain, none where there is
/// no chain, and the rounds that were begun (02, M-103).
#[derive(Clone, Copy, PartialEq, Eq, Debug)]
pub struct Outcome {
    pub length: Option<usize>,
    pub rounds: usize,
}

impl Outcome {
    /// The round in which the principal is marked is the last one begun.
    fn yes(rounds: usize) -> Outcome {
        Outcome {
            length: Some(rounds),
            rounds,
        }
    }

    fn no(rounds: usize) -> Outcome {
        Outcome {
            length: None,
            rounds,
        }
    }
}

/// The search for a shortest chain for the right on the variable from admin to
/// the principal, among `count` principals. Assertions whose ends are no
/// principals count for nothing. Admin is marked before the first round, and
/// for a number that no principal has none is begun.
pub fn shortest(
    standing: &[Assertion],
    count: usize,
    variable: u16,
    right: u16,
    principal: usize,
) -> Outcome {
    if principal >= count {
        return Outcome::no(0);
    }
    if principal == usize::from(ADMIN) {
        return Outcome::yes(0);
    }
    Search::of(standing, count, variable, right).rounds(principal)
}

/// For each of `count` principals whether a chain for the right on the
/// variable leads to it. Everyone is marked in one search.
pub fn holders(standing: &[Assertion], count: usize, variable: u16, right: u16) -> Vec<bool> {
    Search::of(standing, count, variable, right).all()
}

/// The variables among the first `variables` on which the principal has the
/// right, in their order. The assertions are sorted once, so that the cost
/// does not grow with the product of variables and assertions.
pub fn holdings(
    standing: &[Assertion],
    count: usize,
    variables: u16,
    right: u16,
    principal: usize,
) -> Vec<u16> {
    if principal >= count {
        return Vec::new();
    }
    if principal == usize::from(ADMIN) {
        return (0..variables).collect();
    }
    let mut asserted: Vec<Assertion> = standing
        .iter()
        .filter(|assertion| assertion.variable < variables && assertion.right == right)
        .copied()
        .collect();
    asserted.sort_by_key(|assertion| assertion.variable);
    let mut search = Search::new(count);
    let mut held = Vec::new();
    for about_one in asserted.chunk_by(|a, b| a.variable == b.variable) {
        search.clear();
        about_one.iter().for_each(|assertion| search.add(assertion));
        if search.rounds(principal).length.is_some() {
            held.push(about_one[0].variable);
        }
    }
    held
}

/// The search by rounds over the steps for one right on one variable.
struct Search {
    count: usize,
    /// The steps, each with the number of another from the same principal.
    steps: Vec<Step>,
    /// For each principal that an assertion can name, the last step from it.
    last: Vec<u32>,
    /// Who is marked, for each principal that an assertion can name.
    marked: Vec<bool>,
    /// Who is marked, in order of being marked.
    reached: Vec<u16>,
}

#[derive(Clone, Copy)]
struct Step {
    from: u16,
    to: u16,
    before: u32,
}

/// The number of no step.
const NONE: u32 = u32::MAX;

impl Search {
    fn new(count: usize) -> Search {
        Search {
            count,
            steps: Vec::new(),
            last: Vec::new(),
            marked: Vec::new(),
            reached: Vec::new(),
        }
    }

    /// The search for one right on one variable.
    fn of(standing: &[Assertion], count: usize, variable: u16, right: u16) -> Search {
        let mut search = Search::new(count);
        for assertion in standing {
            if assertion.variable == variable && assertion.right == right {
                search.add(assertion);
            }
        }
        search
    }

    /// Adds a step, if its ends are principals.
    fn add(&mut self, assertion: &Assertion) {
        let Assertion { from, to, .. } = *assertion;
        if usize::from(from) >= self.count || usize::from(to) >= self.count {
            return;
        }
        if self.last.is_empty() {
            let nameable = self.count.min(1 << 16);
            self.last.resize(nameable, NONE);
            self.marked.resize(nameable, false);
        }
        let last = &mut self.last[usize::from(from)];
        let before = *last;
        *last = self.steps.len() as u32;
        self.steps.push(Step { from, to, before });
    }

    /// Forgets the steps and the marks, at the cost of their number.
    fn clear(&mut self) {
        for step in self.steps.drain(..) {
            self.last[usize::from(step.from)] = NONE;
        }
        for principal in self.reached.drain(..) {
            self.marked[usize::from(principal)] = false;
        }
    }

    /// Marks the principal; false where it was marked already.
    fn mark(&mut self, principal: u16) -> bool {
        let marked = &mut self.marked[usize::from(principal)];
        if *marked {
            return false;
        }
        *marked = true;
        self.reached.push(principal);
        true
    }

    /// The rounds until the principal, not admin, is marked, or until one has
    /// marked nobody. Each round goes on from those whom the round before it
    /// marked. Once it goes on from anyone, everybody is one step further.
    fn rounds(&mut self, principal: usize) -> Outcome {
        if self.steps.is_empty() {
            return Outcome::no(1);
        }
        self.mark(ADMIN);
        let mut start = 0;
        let mut rounds = 0;
        while start < self.reached.len() {
            rounds += 1;
            let end = self.reached.len();
            for at in start..end {
                let from = self.reached[at];
                if from == ANYONE || self.marks_from(from, principal) {
                    return Outcome::yes(rounds);
                }
            }
            start = end;
        }
        Outcome::no(rounds)
    }

    /// Marks everyone whom a chain leads to. Once it goes on from anyone, that
    /// is everybody.
    fn all(mut self) -> Vec<bool> {
        let nobody = self.count;
        if !self.steps.is_empty() {
            self.mark(ADMIN);
        }
        let mut at = 0;
        while at < self.reached.len() {
            let from = self.reached[at];
            if from == ANYONE {
                return vec![true; self.count];
            }
            self.marks_from(from, nobody);
            at += 1;
        }
        self.marked.resize(self.count, false);
        if let Some(admin) = self.marked.first_mut() {
            *admin = true;
        }
        self.marked
    }

    /// Marks everyone one step from the principal `from`; true as soon as the
    /// wanted one is marked.
    fn marks_from(&mut self, from: u16, wanted: usize) -> bool {
        let mut number = self.last[usize::from(from)];
        while number != NONE {
            let step = self.steps[number as usize];
            if self.mark(step.to) && usize::from(step.to) == wanted {
                return true;
            }
            number = step.before;
        }
        false
    }
}
