//! A shortest chain of delegation, searched by the tool itself in its own reading of a state.

use std::collections::HashSet;

use kivzurg::Right;

use crate::reading::Reading;

/// The names of a shortest chain from admin to `to`, both included.
pub fn shortest<'a>(state: &Reading<'a>, variable: &str, right: Right, to: &str) -> Option<Vec<&'a str>> {
    // Whoever is reached, nearest first, and by which of those before.
    let mut reached: Vec<(&'a str, usize)> = vec![("admin", 0)];
    let mut seen = HashSet::from(["admin"]);
    let mut at = 0;
    while let Some(&(name, _)) = reached.get(at) {
        if name == to {
            return Some(way(&reached, at));
        }
        let given = state.assertions.iter().filter(|a| a.variable == variable && a.right == right && a.from == name);
        let everyone = state.principals.iter().filter(|_| name == "anyone");
        for next in given.map(|a| a.to).chain(everyone.map(|p| p.name)) {
            if seen.insert(next) {
                reached.push((next, at));
            }
        }
        at += 1;
    }
    None
}

fn way<'a>(reached: &[(&'a str, usize)], mut at: usize) -> Vec<&'a str> {
    let mut names = vec![reached[at].0];
    while at != 0 {
        at = reached[at].1;
        names.push(reached[at].0);
    }
    names.reverse();
    names
}
