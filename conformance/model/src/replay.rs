//! Scripts of calls, for tests: each of two sides plays one by itself, and what
//! it is answered is the transcript.
//!
//! A script has one step a line; `#` starts a comment. `{{TEXT*N}}` stands for
//! TEXT N times, and `{{each N TEXT}}` for TEXT with each of the N shortest names
//! in turn, which stands for `*`.
//!
//! ```text
//! make PASSWORD               a server in the state's buffer; `make-sized N
//!                             PASSWORD` in one of N bytes
//! load                        the lines up to `end` become the state's text,
//!                             `|` standing for a tab; a line `each N LINE` is
//!                             N lines, one for each of the N shortest names,
//!                             which stands for `*`
//! former                      the same for the former state's text;
//!                             `former-byte AT NUMBER` then changes one byte of
//!                             its buffer
//! bring                       brings the former state over into the state's
//!                             buffer; `bring-sized FORMER STATE` lends buffers
//!                             of these sizes
//! run                         the lines up to `***` are the program;
//!                             `run-sized STATE WORK OUTPUT` lends buffers of
//!                             these sizes
//! ask NAME VARIABLE RIGHT     the question; `ask-sized N NAME VARIABLE RIGHT`
//!                             on N bytes
//! search NAME VARIABLE RIGHT  the search alone, which also tells the rounds
//!                             begun, in the numbers that the model's reading
//!                             of the state gives; the question beside it must
//!                             say the same length
//! sheet VARIABLE              the sheet of a variable, of the empty name where
//!                             there is none; `sheet-sized STATE OUTPUT
//!                             VARIABLE` with buffers of these sizes;
//!                             `sheet-gist VARIABLE` prints its first and last
//!                             line, and how many lines have which rights
//! show                        the state's text and its weight, which each side
//!                             tells by itself; `weigh` its weight and how many
//!                             bytes it has
//! counts NAME..               the count of each of these principals, which
//!                             each side tells by itself
//! ```

use std::collections::BTreeMap;
use std::fmt::Write;
use std::fs;
use std::path::{Path, PathBuf};

use crate::calls::{self, Listed, Report};
use crate::names::keyword;
use crate::rights::{self, Assertion, Outcome, Right};
use crate::text::{decode, BUFFER};

/// What a call is answered.
#[derive(Clone, Copy, PartialEq, Eq, Debug)]
pub enum Answer {
    Wrong(u8),
    Ended(Report),
    Yes(usize),
    No,
    Ready,
    Listed(Listed),
}

/// What a search is asked, in numbers.
pub struct Wanted {
    pub standing: Vec<Assertion>,
    pub count: usize,
    pub variable: u16,
    pub right: u16,
    pub principal: usize,
}

impl Wanted {
    /// The names and the right of a step, which the state has.
    fn of(state: &[u8], words: &[&str]) -> Wanted {
        let (state, _) = decode(state).expect("a well formed state");
        let right = Right::of_letter(words[2].as_bytes()[0]).expect("a right");
        Wanted {
            standing: state.standing().to_vec(),
            count: state.principals.count(),
            variable: state
                .variables
                .find(words[1].as_bytes())
                .expect("a variable"),
            right: right.number(),
            principal: state
                .principals
                .find(words[0].as_bytes())
                .expect("a principal")
                .into(),
        }
    }
}

/// One of the two sides.
pub trait Side {
    fn make(&self, state: &mut [u8], password: &[u8]) -> Answer;
    fn bring(&self, former: &[u8], state: &mut [u8]) -> Answer;
    fn run(&self, state: &mut [u8], work: &mut [u8], output: &mut [u8], program: &[u8]) -> Answer;
    fn ask(&self, state: &[u8], name: &[u8], variable: &[u8], right: u8) -> Answer;
    fn search(&self, wanted: &Wanted) -> Outcome;
    fn sheet(&self, state: &[u8], output: &mut [u8], variable: &[u8]) -> Answer;
    /// None where the state is not well formed.
    fn weight(&self, state: &[u8]) -> Option<usize>;
    /// None where there is no such principal either.
    fn count(&self, state: &[u8], name: &[u8]) -> Option<u32>;
}

/// The model itself.
pub struct Model;

impl Side for Model {
    fn make(&self, state: &mut [u8], password: &[u8]) -> Answer {
        calls::make(state, password).map_or_else(
            |refusal| Answer::Wrong(refusal.number()),
            |()| Answer::Ready,
        )
    }

    fn bring(&self, former: &[u8], state: &mut [u8]) -> Answer {
        calls::bring(former, state).map_or_else(
            |refusal| Answer::Wrong(refusal.number()),
            |()| Answer::Ready,
        )
    }

    fn run(&self, state: &mut [u8], work: &mut [u8], output: &mut [u8], program: &[u8]) -> Answer {
        calls::run(state, work, output, program)
            .map_or_else(|refusal| Answer::Wrong(refusal.number()), Answer::Ended)
    }

    fn ask(&self, state: &[u8], name: &[u8], variable: &[u8], right: u8) -> Answer {
        match calls::ask(state, name, variable, right) {
            Ok(Some(length)) => Answer::Yes(length),
            Ok(None) => Answer::No,
            Err(refusal) => Answer::Wrong(refusal.number()),
        }
    }

    fn search(&self, wanted: &Wanted) -> Outcome {
        rights::shortest(
            &wanted.standing,
            wanted.count,
            wanted.variable,
            wanted.right,
            wanted.principal,
        )
    }

    fn sheet(&self, state: &[u8], output: &mut [u8], variable: &[u8]) -> Answer {
        calls::sheet(state, output, variable)
            .map_or_else(|refusal| Answer::Wrong(refusal.number()), Answer::Listed)
    }

    fn weight(&self, state: &[u8]) -> Option<usize> {
        decode(state).map(|(state, _)| state.weight())
    }

    fn count(&self, state: &[u8], name: &[u8]) -> Option<u32> {
        let (state, _) = decode(state)?;
        Some(state.principals.get(state.principals.find(name)?).completed)
    }
}

/// The text that a buffer holds.
pub fn text(buffer: &[u8]) -> &[u8] {
    &buffer[..buffer
        .iter()
        .rposition(|byte| *byte != 0)
        .map_or(0, |at| at + 1)]
}

/// A buffer that holds a text.
pub fn padded(text: &[u8]) -> Vec<u8> {
    let mut buffer = text.to_vec();
    buffer.resize(BUFFER, 0);
    buffer
}

/// So many names, the shortest that there are.
pub fn shortest_names(count: usize) -> Vec<String> {
    let letters: Vec<char> = ('a'..='z').chain('A'..='Z').collect();
    let more = letters.iter().copied().chain('0'..='9').chain(['_']);
    let second: Vec<char> = more.collect();
    let pairs = letters.iter().flat_map(|first| {
        let pair = move |second: &char| format!("{first}{second}");
        second.iter().map(pair)
    });
    let names = letters.iter().map(char::to_string).chain(pairs);
    let names = names.filter(|name| keyword(name.as_bytes()).is_none());
    names.take(count).collect()
}

/// `{{TEXT*N}}` and `{{each N TEXT}}` in a line.
fn expanded(line: &str) -> String {
    let mut text = String::new();
    let mut rest = line;
    while let Some((before, after)) = rest.split_once("{{") {
        let (inside, later) = after.split_once("}}").expect("}} after {{");
        text.push_str(before);
        text.push_str(&repeated(inside));
        rest = later;
    }
    text + rest
}

/// What `{{TEXT*N}}` or `{{each N TEXT}}` stands for.
fn repeated(inside: &str) -> String {
    if let Some(text) = inside.strip_prefix("each ") {
        return named(text, "");
    }
    let (piece, times) = inside.rsplit_once('*').expect("* between {{ and }}");
    piece.repeat(times.parse().expect("a number after *"))
}

/// A text after a number, so often with each of the shortest names in turn.
fn named(numbered: &str, end: &str) -> String {
    let (count, text) = numbered.split_once(' ').expect("a text after each N");
    let names = shortest_names(count.parse().expect("a number after each"));
    names
        .iter()
        .map(|name| text.replace('*', name) + end)
        .collect()
}

/// A player of one script.
struct Play<'a> {
    side: &'a dyn Side,
    state: Vec<u8>,
    former: Vec<u8>,
    transcript: String,
}

impl Play<'_> {
    fn say(&mut self, step: &str, answer: Answer, unchanged: bool) {
        let said = match answer {
            Answer::Wrong(number) if unchanged => format!("refused with {number}, nothing changed"),
            Answer::Wrong(number) => format!("refused with {number}, but something changed"),
            Answer::Ended(report) => format!(
                "{:?}, lines {}, bytes {}",
                report.end, report.lines, report.bytes
            ),
            Answer::Yes(length) => format!("yes, {length} long"),
            Answer::Listed(listed) => {
                format!("listed, lines {}, bytes {}", listed.lines, listed.bytes)
            }
            other => format!("{other:?}").to_lowercase(),
        };
        writeln!(self.transcript, "{step}: {said}").expect("a line");
    }

    fn make(&mut self, step: &str, size: usize, password: &str) {
        let mut state = vec![7; size];
        let answer = self.side.make(&mut state, password.as_bytes());
        self.say(step, answer, state == vec![7; size]);
        if answer == Answer::Ready {
            self.state = state;
        }
    }

    /// Into a buffer that holds other bytes. The former state's never change.
    fn bring(&mut self, step: &str, sizes: [usize; 2]) {
        let mut former = self.former.clone();
        former.resize(sizes[0], 0);
        let (before, mut state) = (former.clone(), vec![7; sizes[1]]);
        let answer = self.side.bring(&former, &mut state);
        assert!(former == before, "the former state after {step}");
        self.say(step, answer, state == vec![7; sizes[1]]);
        if answer == Answer::Ready {
            self.state = state;
        }
    }

    fn run(&mut self, step: &str, sizes: [usize; 3], program: &str) {
        let mut state = self.state.clone();
        state.resize(sizes[0], 0);
        let (mut work, mut output) = (vec![3; sizes[1]], vec![5; sizes[2]]);
        let before = state.clone();
        let answer = self
            .side
            .run(&mut state, &mut work, &mut output, program.as_bytes());
        let unchanged = state == before && work == vec![3; sizes[1]] && output == vec![5; sizes[2]];
        self.say(step, answer, unchanged);
        if let Answer::Ended(report) = answer {
            self.transcript += &String::from_utf8_lossy(&output[..report.bytes]);
            assert!(
                output[report.bytes..].iter().chain(&work).all(|b| *b == 0),
                "zeros after {program}"
            );
            self.state = state;
        }
    }

    fn show(&mut self) {
        self.transcript += &String::from_utf8_lossy(text(&self.state)).replace('\t', "|");
        let weight = self.weight();
        writeln!(self.transcript, "weight {weight}").expect("a line");
    }

    fn weight(&self) -> String {
        self.side
            .weight(&self.state)
            .map_or("none".to_string(), |weight| weight.to_string())
    }

    fn weigh(&mut self) {
        let (weight, bytes) = (self.weight(), text(&self.state).len());
        writeln!(self.transcript, "weight {weight}, bytes {bytes}").expect("a line");
    }

    fn counts(&mut self, names: &[&str]) {
        for name in names {
            let count = self
                .side
                .count(&self.state, name.as_bytes())
                .map_or("none".to_string(), |count| count.to_string());
            writeln!(self.transcript, "count of {name}: {count}").expect("a line");
        }
    }

    fn ask(&mut self, step: &str, size: usize, words: &[&str]) {
        let mut state = self.state.clone();
        state.resize(size, 0);
        let answer = self.side.ask(
            &state,
            words[0].as_bytes(),
            words[1].as_bytes(),
            words[2].as_bytes()[0],
        );
        self.say(step, answer, true);
    }

    /// The search, and the question beside it, which has no rounds.
    fn search(&mut self, step: &str, words: &[&str]) {
        let found = self.side.search(&Wanted::of(&self.state, words));
        let asked = self.side.ask(
            &self.state,
            words[0].as_bytes(),
            words[1].as_bytes(),
            words[2].as_bytes()[0],
        );
        assert_eq!(
            asked,
            found.length.map_or(Answer::No, Answer::Yes),
            "the question beside {step}"
        );
        let answer = found
            .length
            .map_or("no".to_string(), |length| format!("yes {length}"));
        writeln!(
            self.transcript,
            "{step}: {answer}, rounds begun {}",
            found.rounds
        )
        .expect("a line");
    }

    /// The sheet, empty where the call is refused, from an output that held other bytes. The state's never change.
    fn sheet(&mut self, step: &str, sizes: [usize; 2], variable: &str) -> String {
        let mut state = self.state.clone();
        state.resize(sizes[0], 0);
        let (before, mut output) = (state.clone(), vec![5; sizes[1]]);
        let answer = self.side.sheet(&state, &mut output, variable.as_bytes());
        assert!(state == before, "the state after {step}");
        self.say(step, answer, output == vec![5; sizes[1]]);
        let Answer::Listed(listed) = answer else {
            return String::new();
        };
        assert!(
            output[listed.bytes..].iter().all(|b| *b == 0),
            "zeros after {step}"
        );
        String::from_utf8_lossy(&output[..listed.bytes]).into_owned()
    }

    fn sheet_whole(&mut self, step: &str, sizes: [usize; 2], variable: &str) {
        let sheet = self.sheet(step, sizes, variable);
        self.transcript += &sheet;
    }

    fn sheet_gist(&mut self, step: &str, variable: &str) {
        let sheet = self.sheet(step, [BUFFER; 2], variable);
        let mut rights: BTreeMap<&str, usize> = BTreeMap::new();
        sheet.lines().for_each(|line| {
            *rights
                .entry(line.rsplit(' ').next().unwrap_or(""))
                .or_default() += 1
        });
        let ends = sheet.lines().next().into_iter().chain(sheet.lines().last());
        ends.for_each(|line| self.transcript += &format!("{line}\n"));
        for (letters, lines) in rights {
            writeln!(self.transcript, "{letters} in lines: {lines}").expect("a line");
        }
    }
}

/// The lines up to one that says `last`, which is taken as well.
fn block<'a>(lines: &mut impl Iterator<Item = &'a str>, last: &str) -> Vec<String> {
    let mut taken = Vec::new();
    for line in lines {
        taken.push(expanded(line));
        if line == last {
            break;
        }
    }
    taken
}

/// A buffer with the text of the lines up to `end`.
fn loaded<'a>(lines: &mut impl Iterator<Item = &'a str>) -> Vec<u8> {
    let mut written = block(lines, "end");
    written.pop();
    let mut all = String::new();
    for line in written {
        match line.strip_prefix("each ") {
            Some(line) => all += &named(line, "\n"),
            None => all += &(line + "\n"),
        }
    }
    padded(all.replace('|', "\t").as_bytes())
}

/// The transcript of a script.
pub fn played(side: &dyn Side, script: &str) -> String {
    let mut play = Play {
        side,
        state: vec![0; BUFFER],
        former: vec![0; BUFFER],
        transcript: String::new(),
    };
    let mut lines = script.lines();
    while let Some(line) = lines.next() {
        if line.is_empty() || line.starts_with('#') {
            writeln!(play.transcript, "{line}").expect("a line");
        } else {
            step(&mut play, line, &mut lines);
        }
    }
    play.transcript
}

/// One step, whose further lines are taken as well.
fn step<'a>(play: &mut Play, step: &str, lines: &mut impl Iterator<Item = &'a str>) {
    let (word, rest) = step.split_once(' ').unwrap_or((step, ""));
    let rest = expanded(rest);
    let words: Vec<&str> = rest.split(' ').collect();
    let number = |at: usize| words[at].parse::<usize>().expect("a size");
    match word {
        "make" => play.make(step, BUFFER, &rest),
        "make-sized" => play.make(step, number(0), words[1]),
        "load" => play.state = loaded(lines),
        "former" => play.former = loaded(lines),
        "former-byte" => play.former[number(0)] = number(1) as u8,
        "bring" => play.bring(step, [BUFFER; 2]),
        "bring-sized" => play.bring(step, [number(0), number(1)]),
        "run" => play.run(step, [BUFFER; 3], &block(lines, "***").join("\n")),
        "run-sized" => {
            let sizes = [number(0), number(1), number(2)];
            play.run(step, sizes, &block(lines, "***").join("\n"));
        }
        "ask" => play.ask(step, BUFFER, &words),
        "ask-sized" => play.ask(step, number(0), &words[1..]),
        "search" => play.search(step, &words),
        "sheet" => play.sheet_whole(step, [BUFFER; 2], &rest),
        "sheet-sized" => {
            play.sheet_whole(step, [number(0), number(1)], words.get(2).unwrap_or(&""))
        }
        "sheet-gist" => play.sheet_gist(step, &rest),
        "show" => play.show(),
        "weigh" => play.weigh(),
        "counts" => play.counts(&words),
        other => panic!("no step is called {other}"),
    }
}

/// The scripts of `conformance/replays`.
pub fn scripts() -> Vec<PathBuf> {
    let folder = Path::new(env!("CARGO_MANIFEST_DIR")).join("../replays");
    let entries = fs::read_dir(folder).expect("conformance/replays");
    let mut paths: Vec<PathBuf> = entries.map(|entry| entry.expect("a file").path()).collect();
    paths.retain(|path| {
        path.extension()
            .is_some_and(|extension| extension == "replay")
    });
    paths.sort();
    paths
}
