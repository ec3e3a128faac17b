//! The chain search on numbers, held to a search written down from the rules.

use model::rights::{holders, holdings, Assertion, Outcome};

/// The length that the search finds; how many rounds it begins has its own
/// tests below.
fn shortest(
    standing: &[Assertion],
    count: usize,
    variable: u16,
    right: u16,
    principal: usize,
) -> Option<usize> {
    model::rights::shortest(standing, count, variable, right, principal).length
}

fn assertion(variable: u16, from: u16, right: u16, to: u16) -> Assertion {
    Assertion {
        variable,
        from,
        right,
        to,
    }
}

/// Assertions of variable 0 and right 0.
fn steps(pairs: &[(u16, u16)]) -> Vec<Assertion> {
    pairs
        .iter()
        .map(|&(from, to)| assertion(0, from, 0, to))
        .collect()
}

#[test]
fn admin_has_the_empty_chain() {
    assert_eq!(shortest(&[], 2, 7, 3, 0), Some(0));
    assert_eq!(shortest(&[], 1, 0, 0, 0), Some(0));
    assert_eq!(shortest(&steps(&[(1, 0), (2, 0)]), 3, 0, 0, 0), Some(0));
}

#[test]
fn holders_are_told_for_each_principal() {
    assert_eq!(holders(&[], 0, 0, 0), []);
    assert_eq!(holders(&[], 1, 0, 0), [true]);
    assert_eq!(holders(&[], 3, 0, 0), [true, false, false]);
    // By anyone everybody, also whom no assertion can name.
    let standing = steps(&[(0, 1)]);
    assert_eq!(holders(&standing, 200_000, 0, 0), vec![true; 200_000]);
    let standing = steps(&[(0, 2), (9, 1), (3, 1)]);
    assert_eq!(holders(&standing, 4, 0, 0), [true, false, true, false]);
}

#[test]
fn no_principal_has_no_chain() {
    assert_eq!(shortest(&[], 0, 0, 0, 0), None);
    let standing = steps(&[(0, 1), (0, 2)]);
    assert_eq!(shortest(&standing, 2, 0, 0, 2), None);
    assert_eq!(shortest(&standing, 2, 0, 0, usize::MAX), None);
    assert_eq!(shortest(&standing, 1, 0, 0, 1), None);
}

#[test]
fn ends_that_are_no_principals_count_for_nothing() {
    let standing = steps(&[(0, 9), (9, 2), (2, 9)]);
    assert_eq!(shortest(&standing, 9, 0, 0, 2), None);
    assert_eq!(shortest(&standing, 10, 0, 0, 2), Some(2));
}

#[test]
fn variable_and_right_are_told_apart() {
    let standing = [assertion(1, 0, 2, 3)];
    assert_eq!(shortest(&standing, 4, 1, 2, 3), Some(1));
    assert_eq!(shortest(&standing, 4, 1, 1, 3), None);
    assert_eq!(shortest(&standing, 4, 2, 2, 3), None);
    assert_eq!(shortest(&standing, 4, 1, 2, 2), None);
}

#[test]
fn anyone_leads_to_everybody() {
    let standing = steps(&[(0, 2), (2, 1), (3, 4)]);
    assert_eq!(shortest(&standing, 6, 0, 0, 1), Some(2));
    for principal in [3, 4, 5] {
        assert_eq!(shortest(&standing, 6, 0, 0, principal), Some(3));
    }
    // Also beyond the numbers that an assertion can hold.
    assert_eq!(shortest(&standing, 200_000, 0, 0, 199_999), Some(3));
    assert_eq!(shortest(&standing[..1], 200_000, 0, 0, 199_999), None);
}

#[test]
fn the_longest_chain() {
    // Entered from the far end, so that each round marks one principal.
    let path: Vec<(u16, u16)> = std::iter::once((0, 2))
        .chain((2..4_095).map(|from| (from, from + 1)))
        .rev()
        .collect();
    assert_eq!(shortest(&steps(&path), 4_096, 0, 0, 4_095), Some(4_094));
    // Anyone in the middle uses all principals but one.
    assert_eq!(
        shortest(&steps(&[(2, 3), (3, 1), (0, 2)]), 5, 0, 0, 4),
        Some(4)
    );
}

#[test]
fn cycles_and_steps_to_oneself_end() {
    let standing = steps(&[(0, 0), (0, 2), (2, 2), (2, 3), (3, 2), (5, 5), (5, 4)]);
    assert_eq!(shortest(&standing, 6, 0, 0, 3), Some(2));
    assert_eq!(shortest(&standing, 6, 0, 0, 4), None);
    assert_eq!(shortest(&standing, 6, 0, 0, 5), None);
}

/// What the search tells for variable 0 and right 0: the length, then the
/// rounds begun.
fn told(standing: &[Assertion], count: usize, principal: usize) -> (Option<usize>, usize) {
    let found = model::rights::shortest(standing, count, 0, 0, principal);
    (found.length, found.rounds)
}

#[test]
fn rounds_of_a_yes_are_its_length() {
    assert_eq!(told(&[], 1, 0), (Some(0), 0));
    assert_eq!(told(&steps(&[(0, 2), (0, 1)]), 4, 0), (Some(0), 0));
    let line = steps(&[(3, 4), (2, 3), (0, 2)]);
    for (principal, length) in [(2, 1), (3, 2), (4, 3)] {
        assert_eq!(told(&line, 5, principal), (Some(length), length));
    }
    // Anyone's step to everybody is taken in the round after anyone's own.
    let open = steps(&[(0, 2), (2, 1)]);
    assert_eq!(told(&open, 4, 1), (Some(2), 2));
    assert_eq!(told(&open, 4, 3), (Some(3), 3));
    assert_eq!(told(&open, 200_000, 199_999), (Some(3), 3));
}

#[test]
fn rounds_of_a_no_are_one_more_than_the_longest() {
    // Nobody but admin has the right: its length is 0.
    assert_eq!(told(&[], 2, 1), (None, 1));
    assert_eq!(told(&[assertion(1, 0, 0, 2)], 4, 2), (None, 1));
    assert_eq!(told(&steps(&[(2, 3), (3, 2)]), 4, 3), (None, 1));
    assert_eq!(told(&steps(&[(1, 2), (0, 0)]), 4, 3), (None, 1));
    // A line of three, and a second way to its end.
    assert_eq!(told(&steps(&[(3, 4), (2, 3), (0, 2)]), 6, 5), (None, 4));
    let shorter = steps(&[(3, 4), (2, 3), (0, 2), (0, 4)]);
    assert_eq!(told(&shorter, 6, 5), (None, 3));
    // As long as a chain gets: all but the wanted name are on it.
    let path: Vec<(u16, u16)> = std::iter::once((0, 2))
        .chain((2..1_023).map(|from| (from, from + 1)))
        .collect();
    assert_eq!(told(&steps(&path), 1_024, 1), (None, 1_023));
}

#[test]
fn no_round_is_begun_for_what_is_no_principal() {
    let standing = steps(&[(0, 1), (0, 2)]);
    for (count, principal) in [(0, 0), (1, 1), (2, 2), (3, usize::MAX)] {
        assert_eq!(told(&standing, count, principal), (None, 0));
    }
}

/// Everyone's length, by marking one step further until nothing is marked.
fn lengths(standing: &[Assertion], count: u16, variable: u16, right: u16) -> Vec<Option<usize>> {
    let mut lengths = vec![None; usize::from(count)];
    lengths[0] = Some(0);
    for round in 1..=usize::from(count) {
        let before = lengths.clone();
        let reached = |q: u16| before[usize::from(q)].is_some();
        for p in 0..count {
            let asserted = standing.iter().any(|a| {
                (a.variable, a.right, a.to) == (variable, right, p)
                    && a.from < count
                    && reached(a.from)
            });
            let stepped = asserted || count > 1 && reached(1);
            if stepped && lengths[usize::from(p)].is_none() {
                lengths[usize::from(p)] = Some(round);
            }
        }
    }
    lengths
}

/// What a search for a principal of these must tell, by how lengths and rounds
/// are related and not by counting rounds (02, M-103): on a yes the length, on
/// a no one more than the longest of everybody's shortest chains.
fn related(lengths: &[Option<usize>], principal: usize) -> Outcome {
    let length = lengths[principal];
    let longest = lengths.iter().flatten().max().expect("admin's length");
    Outcome {
        length,
        rounds: length.unwrap_or(longest + 1),
    }
}

/// Numbers that look random and are the same each time.
struct Numbers(u64);

impl Numbers {
    fn below(&mut self, bound: u16) -> u16 {
        self.0 ^= self.0 << 13;
        self.0 ^= self.0 >> 7;
        self.0 ^= self.0 << 17;
        ((self.0 >> 33) % u64::from(bound)) as u16
    }
}

#[test]
fn random_assertions() {
    let mut numbers = Numbers(0x1234_5678_9abc_def1);
    let (mut yes, mut no, mut late) = (0, 0, 0);
    for _ in 0..3_000 {
        let count = 1 + numbers.below(12);
        let standing: Vec<Assertion> = (0..numbers.below(40))
            .map(|_| {
                let mut principal = || numbers.below(count + 2);
                let (from, to) = (principal(), principal());
                assertion(numbers.below(3), from, numbers.below(2), to)
            })
            .collect();
        for (variable, right) in [(0, 0), (1, 0), (2, 0), (0, 1), (2, 1), (3, 0)] {
            let expected = lengths(&standing, count, variable, right);
            let held: Vec<bool> = expected.iter().map(Option::is_some).collect();
            assert_eq!(
                holders(&standing, usize::from(count), variable, right),
                held
            );
            for principal in 0..usize::from(count) {
                let wanted = related(&expected, principal);
                let search = model::rights::shortest;
                let found = search(&standing, usize::from(count), variable, right, principal);
                assert_eq!(found, wanted);
                match found.length {
                    Some(_) => yes += 1,
                    None => no += 1,
                }
                if found.length.is_none() && found.rounds > 2 {
                    late += 1;
                }
            }
        }
    }
    assert!(yes > 10_000 && no > 10_000 && late > 1_000);
}

#[test]
fn random_holdings() {
    let mut numbers = Numbers(0xfeed_beef_0123_4567);
    for _ in 0..2_000 {
        let count = 1 + numbers.below(8);
        let variables = numbers.below(6);
        let standing: Vec<Assertion> = (0..numbers.below(60))
            .map(|_| {
                assertion(
                    numbers.below(7),
                    numbers.below(count + 1),
                    numbers.below(2),
                    numbers.below(count + 1),
                )
            })
            .collect();
        for principal in 0..usize::from(count) + 1 {
            let held = holdings(&standing, usize::from(count), variables, 1, principal);
            let expected: Vec<u16> = (0..variables)
                .filter(|&variable| {
                    shortest(&standing, usize::from(count), variable, 1, principal).is_some()
                })
                .collect();
            assert_eq!(held, expected);
        }
    }
}
