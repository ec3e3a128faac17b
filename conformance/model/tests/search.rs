//! The worked cases of change request M-103 in numbers: for each question the
//! length, and the rounds that the search begins.

use model::calls::{self, Refusal};
use model::rights::{shortest, Assertion, Outcome, Right, ADMIN, ANYONE};
use model::text::BUFFER;

/// The principals after admin and anyone, in order of creation.
const A: u16 = 2;
const B: u16 = 3;
const C: u16 = 4;
const E: u16 = 5;

/// The variables.
const Q: u16 = 0;
const X: u16 = 1;

type Step = (u16, u16);

/// An answer of the cases: a yes, or a no after so many rounds.
enum Told {
    Yes(usize),
    No(usize),
}
use Told::{No, Yes};

fn expected(told: &Told) -> Outcome {
    match *told {
        Yes(length) => Outcome {
            length: Some(length),
            rounds: length,
        },
        No(rounds) => Outcome {
            length: None,
            rounds,
        },
    }
}

/// Assertions on q for r.
fn reads(steps: &[Step]) -> Vec<Assertion> {
    let read = |&(from, to): &Step| Assertion {
        variable: Q,
        from,
        right: Right::Read.number(),
        to,
    };
    steps.iter().map(read).collect()
}

/// The case with this number, for r on q.
fn case(number: usize, count: usize, steps: &[Step], answers: &[(u16, Told)]) {
    let standing = reads(steps);
    for (principal, told) in answers {
        let found = shortest(
            &standing,
            count,
            Q,
            Right::Read.number(),
            usize::from(*principal),
        );
        assert_eq!(found, expected(told), "case {number}, {principal}");
    }
}

#[test]
fn without_assertions() {
    let nobody = [(ADMIN, Yes(0)), (ANYONE, No(1)), (A, No(1))];
    case(1, 3, &[], &nobody);
    case(16, 2, &[], &nobody[..2]);
}

#[test]
fn lines() {
    let answers = [
        (ADMIN, Yes(0)),
        (ANYONE, No(4)),
        (A, Yes(1)),
        (B, Yes(2)),
        (C, Yes(3)),
        (E, No(4)),
    ];
    case(2, 5, &[(B, C), (A, B), (ADMIN, A)], &answers[..5]);
    case(3, 6, &[(ADMIN, A), (A, B), (B, C)], &answers);
}

#[test]
fn more_than_one_way() {
    let both = [
        (ADMIN, Yes(0)),
        (ANYONE, No(3)),
        (A, Yes(1)),
        (B, Yes(1)),
        (C, Yes(2)),
        (E, No(3)),
    ];
    let ring_back = [(ADMIN, A), (ADMIN, B), (A, C), (B, C), (C, A)];
    case(4, 6, &ring_back, &both);
    let shorter = [
        (ADMIN, Yes(0)),
        (ANYONE, No(3)),
        (A, Yes(1)),
        (B, Yes(2)),
        (C, Yes(1)),
        (E, No(3)),
    ];
    case(5, 6, &[(ADMIN, A), (A, B), (B, C), (ADMIN, C)], &shorter);
    case(15, 6, &[(ADMIN, A), (ADMIN, B), (B, C)], &both);
}

#[test]
fn assertions_that_give_nothing() {
    let nobody = [(ADMIN, Yes(0)), (ANYONE, No(1)), (A, No(1)), (B, No(1))];
    case(6, 4, &[(A, B), (B, A)], &nobody);
    case(10, 4, &[(ANYONE, A), (A, B)], &nobody);
    let oneself = [(ADMIN, ADMIN), (ANYONE, ANYONE), (A, A), (B, B)];
    case(11, 4, &oneself, &nobody);
}

#[test]
fn anyone() {
    let first = [(ADMIN, Yes(0)), (ANYONE, Yes(1)), (A, Yes(2)), (B, Yes(2))];
    case(7, 4, &[(ADMIN, ANYONE)], &first);
    let second = [
        (ADMIN, Yes(0)),
        (ANYONE, Yes(2)),
        (A, Yes(1)),
        (B, Yes(3)),
        (C, Yes(3)),
    ];
    case(8, 5, &[(ADMIN, A), (A, ANYONE)], &second);
    let first_and_c = [
        (ADMIN, Yes(0)),
        (ANYONE, Yes(1)),
        (A, Yes(2)),
        (B, Yes(2)),
        (C, Yes(1)),
    ];
    let from_anyone = [(ADMIN, ANYONE), (ANYONE, A), (ADMIN, C)];
    case(9, 5, &from_anyone, &first_and_c);
}

/// Case 12.
#[test]
fn other_variables_and_rights() {
    let mut standing = reads(&[(ADMIN, A), (ADMIN, B), (ADMIN, B)]);
    standing[1].right = Right::Write.number();
    standing[2].variable = X;
    for (variable, right, principal, told) in [
        (Q, Right::Read, ADMIN, Yes(0)),
        (Q, Right::Read, ANYONE, No(2)),
        (Q, Right::Read, A, Yes(1)),
        (Q, Right::Read, B, No(2)),
        (Q, Right::Write, B, Yes(1)),
        (Q, Right::Delegate, B, No(1)),
        (X, Right::Read, B, Yes(1)),
    ] {
        let found = shortest(
            &standing,
            4,
            variable,
            right.number(),
            usize::from(principal),
        );
        assert_eq!(found, expected(&told), "{variable} {right:?} {principal}");
    }
}

#[test]
fn a_line_of_49() {
    let p = |n: u16| n + 2;
    let mut line: Vec<Step> = (0..48).map(|n| (p(n), p(n + 1))).collect();
    line.insert(0, (ADMIN, p(0)));
    let answers = [
        (p(48), Yes(49)),
        (p(49), No(50)),
        (p(0), Yes(1)),
        (ADMIN, Yes(0)),
    ];
    case(13, 52, &line, &answers);
    line.reverse();
    case(14, 52, &line, &answers[..2]);
}

/// Case 17.
#[test]
fn the_question_tells_no_rounds() {
    let text =
        "O\nP\tadmin\tp\t0\nN\tanyone\t0\nP\ta\t\t0\nD\tanyone\nV\tq\tL\nA\tq\tadmin\tr\ta\n";
    let mut state = text.as_bytes().to_vec();
    state.resize(BUFFER, 0);
    let ask = |name: &str, variable: &str, right: u8| {
        calls::ask(&state, name.as_bytes(), variable.as_bytes(), right)
    };
    assert_eq!(ask("admin", "q", b'r'), Ok(Some(0)));
    assert_eq!(ask("a", "q", b'r'), Ok(Some(1)));
    assert_eq!(ask("anyone", "q", b'r'), Ok(None));
    assert_eq!(ask("nobody", "q", b'r'), Err(Refusal::UnknownPrincipal));
    let unknown = Err(Refusal::UnknownVariableOrRight);
    assert_eq!(ask("a", "nosuch", b'r'), unknown);
    assert_eq!(ask("a", "q", b'x'), unknown);
}
