//! Scripts of calls whose transcript is stored: conformance/replays/NAME.replay and NAME.transcript. `model::replay` lists the steps. Each is played twice,
//! by the proved server and by the model, and both transcripts are compared with the stored one, byte for byte.
//!
//! A transcript is written anew, by the proved server, with REPLAYS=write in the environment; read what changed before it is stored.

use std::env;
use std::fs;

use compare::rights::{self, pack};
use compare::server::{self, Answer};
use compare::states::{self, FIGURES, WEIGHT};
use model::replay::{played, scripts, Model, Side, Wanted};
use model::rights::Outcome;

struct Proved;

impl Side for Proved {
    fn make(&self, state: &mut [u8], password: &[u8]) -> Answer {
        server::make(state, password)
    }

    fn bring(&self, former: &[u8], state: &mut [u8]) -> Answer {
        server::bring(former, state)
    }

    fn run(&self, state: &mut [u8], work: &mut [u8], output: &mut [u8], program: &[u8]) -> Answer {
        server::run(state, work, output, program)
    }

    fn ask(&self, state: &[u8], name: &[u8], variable: &[u8], right: u8) -> Answer {
        server::ask(state, name, variable, right)
    }

    fn search(&self, wanted: &Wanted) -> Outcome {
        let packed: Vec<u64> = wanted.standing.iter().map(pack).collect();
        match rights::shortest(&packed, wanted.count, wanted.variable, wanted.right, wanted.principal) {
            rights::Answer::Found(found) => found,
            rights::Answer::Refused => panic!("a search among {} principals is refused", wanted.count),
        }
    }

    fn sheet(&self, state: &[u8], output: &mut [u8], variable: &[u8]) -> Answer {
        server::sheet(state, output, variable)
    }

    fn weight(&self, state: &[u8]) -> Option<usize> {
        let mut room = vec![0; FIGURES];
        match states::check(state, &mut room) {
            states::Answer::Found(_, figures) => Some(figures[WEIGHT] as usize),
            _ => None,
        }
    }

    fn count(&self, state: &[u8], name: &[u8]) -> Option<u32> {
        match states::principal_count(state, name) {
            states::Answer::Found(_, count) => Some(count),
            _ => None,
        }
    }
}

#[test]
fn transcripts_are_as_stored() {
    let scripts = scripts();
    assert!(!scripts.is_empty(), "no script");
    for path in scripts {
        let script = fs::read_to_string(&path).expect("a script");
        let stored = path.with_extension("transcript");
        let proved = played(&Proved, &script);
        if env::var("REPLAYS").is_ok_and(|value| value == "write") {
            fs::write(&stored, &proved).expect("the transcript is written");
        }
        let expected = fs::read_to_string(&stored).expect("a stored transcript");
        let name = path.display();
        assert_eq!(played(&Model, &script), proved, "{name}: the model and the proved server differ");
        assert_eq!(proved, expected, "{name}: not as stored");
        println!("{name}: {} lines as stored", expected.lines().count());
    }
}
