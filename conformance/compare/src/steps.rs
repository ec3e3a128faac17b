//! What the assertions for one right on one variable look like, told by themselves: for tests to say what they met.

use std::collections::HashSet;

use model::rights::{Assertion, ADMIN, ANYONE};

/// Everyone's shortest chain by these assertions among `count` principals: lengths get shorter for as long as a step makes one shorter.
pub fn lengths(steps: &[Assertion], count: usize) -> Vec<Option<usize>> {
    let mut lengths = vec![None; count];
    if let Some(admin) = lengths.get_mut(usize::from(ADMIN)) {
        *admin = Some(0);
    }
    let everybody = (0..count).map(|to| (usize::from(ANYONE), to));
    let asserted = steps
        .iter()
        .map(|step| (usize::from(step.from), usize::from(step.to)));
    let all: Vec<(usize, usize)> = asserted
        .chain(everybody)
        .filter(|(from, to)| *from < count && *to < count)
        .collect();
    let mut goes_on = true;
    while goes_on {
        goes_on = false;
        for &(from, to) in &all {
            let further = lengths[from].map(|length: usize| length + 1);
            if further.is_some() && (lengths[to].is_none() || further < lengths[to]) {
                lengths[to] = further;
                goes_on = true;
            }
        }
    }
    lengths
}

/// Whether among these steps some lead round, other than to oneself. Steps to where none goes on are taken away until none is left to take.
pub fn has_ring(mut steps: Vec<Assertion>) -> bool {
    steps.retain(|step| step.from != step.to);
    loop {
        let before = steps.len();
        let givers: HashSet<u16> = steps.iter().map(|step| step.from).collect();
        steps.retain(|step| givers.contains(&step.to));
        if steps.len() == before {
            return !steps.is_empty();
        }
    }
}
