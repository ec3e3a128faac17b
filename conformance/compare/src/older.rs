//! Names that became keywords after a state could hold them (request M-104): what tests put into the text of a state.

use crate::random::Random;

/// The four names, which a program can no longer write.
pub const OLDER: [&str; 4] = ["add", "sub", "times", "per"];

/// Other names for some principals, variables or labels: of each kind no two are the same.
struct Renaming(Vec<(&'static str, &'static str)>);

impl Renaming {
    fn of(random: &mut Random, names: &[&'static str]) -> Renaming {
        let mut older = OLDER;
        random.shuffle(&mut older);
        let pairs = names.iter().copied().zip(older);
        Renaming(pairs.filter(|_| random.below(2) == 0).collect())
    }

    fn put<'a>(&self, name: &'a [u8]) -> &'a [u8] {
        let found = self.0.iter().find(|(from, _)| from.as_bytes() == name);
        found.map_or(name, |(_, to)| to.as_bytes())
    }
}

/// Names that may be exchanged, four of a kind at most.
pub struct Names<'n> {
    pub principals: &'n [&'static str],
    pub variables: &'n [&'static str],
    pub labels: &'n [&'static str],
}

/// A state's text with older names for some of these, wherever they stand. The state has none of them yet.
pub fn renamed(random: &mut Random, text: &[u8], names: &Names) -> Vec<u8> {
    let principals = Renaming::of(random, names.principals);
    let variables = Renaming::of(random, names.variables);
    let labels = Renaming::of(random, names.labels);
    let mut with = Vec::new();
    for line in text.split_inclusive(|byte| *byte == b'\n') {
        let line = line.strip_suffix(b"\n").unwrap_or(line);
        let mut fields: Vec<&[u8]> = line.split(|byte| *byte == b'\t').collect();
        match fields[0] {
            b"P" | b"N" | b"D" => fields[1] = principals.put(fields[1]),
            b"V" => fields[1] = variables.put(fields[1]),
            b"F" => fields[1] = labels.put(fields[1]),
            b"A" => {
                fields[1] = variables.put(fields[1]);
                fields[2] = principals.put(fields[2]);
                fields[4] = principals.put(fields[4]);
            }
            _ => {}
        }
        with.extend_from_slice(&fields.join(&b'\t'));
        with.push(b'\n');
    }
    with
}
