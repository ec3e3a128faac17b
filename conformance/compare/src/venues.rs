//! States that are about rights: many assertions on few variables, in chains, rings and stars, and names around the 34 columns of a sheet.

use std::collections::HashSet;

use crate::older::OLDER;
use crate::plans::short_name;
use crate::random::Random;
use model::state::HEAVIEST;

/// An assertion by the names' places: variable, giver, letter of the right, receiver.
type Entry = (usize, usize, u8, usize);

#[derive(Clone)]
pub struct Venue {
    is_open: bool,
    pub principals: Vec<String>,
    pub variables: Vec<String>,
    entries: Vec<Entry>,
    weight: usize,
}

const ADMIN: usize = 0;
const ANYONE: usize = 1;

/// The lengths at which a name is shown otherwise, and their neighbours.
const LENGTHS: [usize; 8] = [32, 33, 34, 35, 36, 68, 254, 255];

/// How many principals: few mostly, since each is asked about.
fn crowd(random: &mut Random) -> usize {
    match random.below(40) {
        0 => 300 + random.below(340),
        1 | 2 => 40 + random.below(100),
        3..=9 => 8 + random.below(24),
        _ => random.below(8),
    }
}

/// A name of one of the lengths. Many of them begin alike, so that they look alike once they are cut.
fn long_name(random: &mut Random) -> String {
    let length = LENGTHS[random.below(LENGTHS.len())];
    let letter = ["c", "d", "Z_"][random.below(3)];
    let mut name: String = letter.chars().cycle().take(length - 1).collect();
    name.push(['0', 'a', '_'][random.below(3)]);
    name
}

impl Venue {
    pub fn of(random: &mut Random) -> Venue {
        let mut venue = Venue {
            is_open: random.below(3) > 0,
            principals: vec!["admin".to_string(), "anyone".to_string()],
            variables: Vec::new(),
            entries: Vec::new(),
            weight: 2 * 12,
        };
        for _ in 0..1 + random.below(4) {
            let name = match random.below(12) {
                0 => long_name(random),
                at => ["x", "y", "queue", "list", "admin", "anyone", "aa", "x", "y", "add", "per"][at - 1].to_string(),
            };
            venue.add_variable(name);
        }
        let long = random.below(3) == 0;
        if random.below(6) == 0 {
            venue.add_principal(OLDER[random.below(OLDER.len())].to_string());
        }
        for at in 0..crowd(random) {
            let name = if long && random.below(3) == 0 { long_name(random) } else { String::from_utf8_lossy(&short_name(at)).into_owned() };
            venue.add_principal(name);
        }
        venue.hand_on(random);
        venue
    }

    fn add_principal(&mut self, name: String) {
        let weight = 11 + name.len();
        if self.weight + weight <= HEAVIEST && !self.principals.contains(&name) {
            self.weight += weight;
            self.principals.push(name);
        }
    }

    fn add_variable(&mut self, name: String) {
        if !self.variables.contains(&name) {
            self.weight += 1 + name.len();
            self.variables.push(name);
        }
    }

    fn name_weight(&self, principal: usize) -> usize {
        match principal {
            ADMIN | ANYONE => 1,
            _ => self.principals[principal].len(),
        }
    }

    /// Assertions of several patterns for each right on each variable, in their order, in the opposite order or in none.
    fn hand_on(&mut self, random: &mut Random) {
        let mut planned = Vec::new();
        for variable in 0..self.variables.len() {
            for right in *b"rwad" {
                for _ in 0..random.below(3) {
                    let steps = pattern(random, self.principals.len());
                    planned.extend(steps.into_iter().map(|(from, to)| (variable, from, right, to)));
                }
            }
        }
        match random.below(3) {
            0 => {}
            1 => planned.reverse(),
            _ => random.shuffle(&mut planned),
        }
        let mut entered = HashSet::new();
        for entry @ (variable, from, _, to) in planned {
            let weight = self.variables[variable].len() + 1 + self.name_weight(from) + self.name_weight(to);
            if self.weight + weight <= HEAVIEST && entered.insert(entry) {
                self.weight += weight;
                self.entries.push(entry);
            }
        }
    }

    /// The text of the state.
    pub fn text(&self) -> Vec<u8> {
        let mut text = String::from(if self.is_open { "O\n" } else { "C\n" });
        text += "P\tadmin\t\t0\nN\tanyone\t0\n";
        self.principals[2..].iter().for_each(|name| text += &format!("P\t{name}\t\t0\n"));
        text += "D\tanyone\n";
        self.variables.iter().for_each(|name| text += &format!("V\t{name}\tL\n"));
        for (variable, from, right, to) in &self.entries {
            let [x, q, p] = [&self.variables[*variable], &self.principals[*from], &self.principals[*to]];
            text += &format!("A\t{x}\t{q}\t{}\t{p}\n", char::from(*right));
        }
        text.into_bytes()
    }
}

/// Steps among so many principals.
fn pattern(random: &mut Random, count: usize) -> Vec<(usize, usize)> {
    let length = 1 + random.below(count.min(30));
    let some: Vec<usize> = (0..length).map(|_| random.below(count)).collect();
    let path = |places: &[usize]| places.windows(2).map(|step| (step[0], step[1])).collect::<Vec<(usize, usize)>>();
    match random.below(8) {
        // A chain from admin, and one that nobody has begun.
        0 | 1 => path(&[&[ADMIN], &some[..]].concat()),
        2 => path(&some),
        // A ring, with anyone in it or not, which a step from admin may lead into or not.
        3 => path(&[&some[..], &some[..1]].concat()),
        4 => path(&[&[ANYONE], &some[..], &[ANYONE]].concat()),
        // A chain with anyone in the middle, from which one step leads to everybody.
        5 => path(&[&[ADMIN], &some[..length / 2], &[ANYONE], &some[length / 2..]].concat()),
        6 => some.iter().map(|to| (ADMIN, *to)).collect(),
        _ => some.iter().map(|at| (*at, if random.below(4) == 0 { *at } else { random.below(count) })).collect(),
    }
}
