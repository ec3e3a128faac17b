//! Who gets which number, and that a refused call changes no byte.

mod common;

use common::{buffer, program, DIRT, FORMER_SESSION, FRESH, SESSION};
use model::calls::{ask, make, run, Refusal};
use model::text::BUFFER;

const SIZES: [usize; 4] = [0, BUFFER - 1, BUFFER + 1, 2 * BUFFER];

/// A run that is refused with this number and changes nothing lent.
fn run_refused(number: u8, state: &[u8], work_size: usize, output_size: usize, program: &str) {
    let (mut after, mut work, mut output) = (
        state.to_vec(),
        vec![DIRT; work_size],
        vec![DIRT; output_size],
    );
    let result = run(&mut after, &mut work, &mut output, program.as_bytes());
    assert_eq!(result.map_err(Refusal::number), Err(number));
    assert!(after == state);
    assert!(work == vec![DIRT; work_size]);
    assert!(output == vec![DIRT; output_size]);
}

fn number_of<T>(result: Result<T, Refusal>) -> u8 {
    match result {
        Ok(_) => 0,
        Err(refusal) => refusal.number(),
    }
}

fn good_program() -> String {
    program("admin", "desk", &["set x = \"a\"", "return x"])
}

/// The state's bytes in a buffer of another size.
fn resized(text: &str, size: usize) -> Vec<u8> {
    let mut state = buffer(text);
    state.resize(size, 0);
    state
}

#[test]
fn numbers_are_the_papers() {
    let refusals = [
        Refusal::OutputSize,
        Refusal::StateSize,
        Refusal::WorkSize,
        Refusal::NotWellFormed,
        Refusal::Closed,
        Refusal::UnknownPrincipal,
        Refusal::UnknownVariableOrRight,
        Refusal::PasswordByte,
        Refusal::PasswordLength,
        Refusal::FormerNotWellFormed,
        Refusal::BroughtTooHeavy,
    ];
    let numbers = [1, 2, 3, 4, 5, 6, 7, 8, 9, 10, 11];
    assert_eq!(refusals.map(Refusal::number), numbers);
}

#[test]
fn run_1_output_size_goes_first() {
    for size in SIZES {
        run_refused(1, &buffer(SESSION), BUFFER, size, &good_program());
        run_refused(1, &resized(SESSION, 7), 7, size, &good_program());
        run_refused(1, &buffer("nonsense"), BUFFER, size, "");
    }
}

#[test]
fn run_2_state_size_goes_before_work() {
    for size in SIZES {
        run_refused(2, &resized(SESSION, size), BUFFER, BUFFER, &good_program());
        run_refused(2, &resized("nonsense", size), 7, BUFFER, &good_program());
    }
}

#[test]
fn run_3_work_size_goes_before_the_text() {
    for size in SIZES {
        run_refused(3, &buffer(SESSION), size, BUFFER, &good_program());
        run_refused(3, &buffer("nonsense"), size, BUFFER, &good_program());
        run_refused(3, &buffer("C\n"), size, BUFFER, &good_program());
    }
}

#[test]
fn run_4_not_well_formed_goes_before_closed() {
    let closed_without_delegator = "C\nP|admin|desk|0\nN|anyone|0\n";
    let former = FORMER_SESSION.replace("O|2", "C|2");
    for text in ["", "nonsense", closed_without_delegator, &former] {
        run_refused(4, &buffer(text), BUFFER, BUFFER, &good_program());
        run_refused(4, &buffer(text), BUFFER, BUFFER, "");
    }
}

#[test]
fn run_5_closed() {
    let closed = buffer(&SESSION.replace("O\n", "C\n"));
    for program in [&good_program(), "", "nonsense", &program("bob", "b", &[])] {
        run_refused(5, &closed, BUFFER, BUFFER, program);
    }
}

#[test]
fn ask_2_state_size() {
    for size in SIZES {
        let state = resized(SESSION, size);
        assert_eq!(number_of(ask(&state, b"rosa", b"queue", b'a')), 2);
        assert_eq!(number_of(ask(&state, b"nobody", b"nothing", b'x')), 2);
    }
}

#[test]
fn ask_4_not_well_formed() {
    for text in ["O\n", FORMER_SESSION] {
        let state = buffer(text);
        assert_eq!(number_of(ask(&state, b"nobody", b"nothing", b'x')), 4);
    }
}

#[test]
fn ask_6_unknown_principal_goes_before_7() {
    let state = buffer(SESSION);
    for name in [&b"nobody"[..], b"", b"Rosa", b"rosa ", b"queue", b"\0\xff"] {
        assert_eq!(number_of(ask(&state, name, b"queue", b'a')), 6);
        assert_eq!(number_of(ask(&state, name, b"nothing", b'x')), 6);
    }
}

#[test]
fn ask_7_unknown_variable_or_right() {
    let state = buffer(SESSION);
    for variable in [&b"nothing"[..], b"", b"rosa", b"song", b"queue\t"] {
        assert_eq!(number_of(ask(&state, b"admin", variable, b'a')), 7);
    }
    for right in (0..=255).filter(|right| !b"rwad".contains(right)) {
        assert_eq!(number_of(ask(&state, b"admin", b"queue", right)), 7);
    }
}

#[test]
fn ask_answers_open_and_closed() {
    for text in [SESSION.to_string(), SESSION.replace("O\n", "C\n")] {
        let state = buffer(&text);
        assert_eq!(ask(&state, b"admin", b"queue", b'd'), Ok(Some(0)));
        assert_eq!(ask(&state, b"rosa", b"queue", b'a'), Ok(Some(1)));
        assert_eq!(ask(&state, b"rosa", b"queue", b'd'), Ok(None));
        assert_eq!(ask(&state, b"anyone", b"queue", b'a'), Ok(None));
    }
}

fn make_refused(number: u8, size: usize, password: &[u8]) {
    let mut state = vec![DIRT; size];
    assert_eq!(number_of(make(&mut state, password)), number);
    assert!(state == vec![DIRT; size]);
}

#[test]
fn make_2_goes_before_8_and_9() {
    for size in SIZES {
        make_refused(2, size, b"desk");
        make_refused(2, size, &[b'"'; 2_000]);
    }
}

#[test]
fn make_8_password_byte_goes_before_9() {
    let allowed = b"_,;.?!- ";
    for byte in 0..=255u8 {
        let good = byte.is_ascii_alphanumeric() || allowed.contains(&byte);
        if !good {
            make_refused(8, BUFFER, &[b'a', byte]);
            make_refused(8, BUFFER, &[&[b'a'; 1_024][..], &[byte]].concat());
        }
    }
}

#[test]
fn make_9_password_length() {
    make_refused(9, BUFFER, &[b'a'; 1_025]);
    make_refused(9, BUFFER, &[b'a'; 65_536]);
}

#[test]
fn make_takes_every_allowed_password() {
    let all = "AZaz09_,;.?!- ";
    for password in ["", "desk", all, &"p".repeat(1_024)] {
        let mut state = vec![DIRT; BUFFER];
        assert_eq!(make(&mut state, password.as_bytes()), Ok(()));
        let text = FRESH.replace("|desk", &format!("|{password}"));
        assert!(state == buffer(&text));
    }
}

#[test]
fn a_shorter_text_leaves_zeros_behind_it() {
    let mut state = buffer(SESSION);
    let (mut work, mut output) = (vec![DIRT; BUFFER], vec![DIRT; BUFFER]);
    let shrink = program("admin", "desk", &["set queue = \"\"", "return \"\""]);
    let report = run(&mut state, &mut work, &mut output, shrink.as_bytes());
    assert!(report.is_ok());
    let text = "O\nP|admin|desk|2\nN|anyone|0\nP|rosa|r1|1\nD|anyone\nV|queue|S|\n\
                A|queue|admin|a|rosa\n";
    assert!(state == buffer(text));
    assert!(work == vec![0; BUFFER]);
}
