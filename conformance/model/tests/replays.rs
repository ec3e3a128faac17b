//! The scripts of `conformance/replays`, played by the model alone: the answers
//! are as stored. `REPLAYS=model` in the environment writes them anew, for a
//! request that the proved server does not know yet.

use std::env;
use std::fs;

use model::replay::{played, scripts, Model};

#[test]
fn transcripts_are_as_stored() {
    let scripts = scripts();
    assert!(!scripts.is_empty(), "no script");
    for path in scripts {
        let script = fs::read_to_string(&path).expect("a script");
        let stored = path.with_extension("transcript");
        let transcript = played(&Model, &script);
        if env::var("REPLAYS").is_ok_and(|value| value == "model") {
            fs::write(&stored, &transcript).expect("the transcript is written");
        }
        let expected = fs::read_to_string(&stored).expect("a stored transcript");
        assert_eq!(transcript, expected, "{}: not as stored", path.display());
    }
}
