//! Times of the proved check of a state as ratios to the model's reading, in one run: `cargo run --release --bin bench_states`.
//! Both get the same buffer. The states stand at the limit of the weight, but for the first two.

use compare::plans::short_name;
use compare::states::{check, figures, Answer, FIGURES};
use compare::timing::time;
use model::state::HEAVIEST;
use model::text::{decode, BUFFER};
use std::hint::black_box;

const FRESH: &[u8] = b"O\nP\tadmin\tdesk\t0\nN\tanyone\t0\nD\tanyone\n";

/// The state of document 01's session after its two programs.
const SESSION: &[u8] = b"O\nP\tadmin\tdesk\t1\nN\tanyone\t0\nP\trosa\tr1\t1\nD\tanyone\nV\tqueue\tL\nR\nF\tsong\tBlue Moon\nF\tkey\tF\n\
                         A\tqueue\tadmin\ta\trosa\n";

/// A fresh state's principals, then others, the delegator, and the rest.
fn state(people: &[u8], rest: &[u8]) -> Vec<u8> {
    let head = b"O\nP\tadmin\tdesk\t0\nN\tanyone\t0\n";
    [&head[..], people, b"D\tanyone\n", rest].concat()
}

fn repeated(count: usize, line: impl Fn(usize) -> Vec<u8>) -> Vec<u8> {
    (0..count).flat_map(line).collect()
}

/// So many assertions among 16 principals on 4 variables.
fn assertions(count: usize) -> Vec<u8> {
    repeated(count, |n| {
        let (x, q, r, p) = (n % 4, n / 4 % 16, n / 64 % 4, n / 256 % 16);
        format!("A\t{}\t{}\t{}\t{}\n", letter(x), letter(q), ["r", "w", "a", "d"][r], letter(p)).into_bytes()
    })
}

/// So many assertions on one variable, each from and to one of the last of so many principals.
fn late_assertions(count: usize, principals: usize) -> Vec<u8> {
    repeated(count, |n| {
        let (q, r, p) = (short_name(principals - 1 - n % 16), n / 16 % 4, short_name(principals - 1 - n / 64));
        [b"A\tx\t", &q[..], b"\t", &b"rwad"[r..r + 1], b"\t", &p[..], b"\n"].concat()
    })
}

/// The shortest names that all have one hash (crates/store/specs/Held.antt), as many as weigh so much where each has so much of its own beside it.
fn one_hash(weight: usize, own: usize) -> Vec<Vec<u8>> {
    const HASH: u16 = 0x5eed;
    let letters: Vec<u8> = (b'0'..=b'z').filter(|byte| byte.is_ascii_alphanumeric() || *byte == b'_').collect();
    let hash = |name: &[u8]| name.iter().fold(0u16, |so_far, byte| so_far.wrapping_mul(31).wrapping_add(u16::from(*byte)) % 32_768);
    let (mut found, mut left) = (Vec::new(), weight);
    let mut longer: Vec<Vec<u8>> = letters.iter().filter(|byte| byte.is_ascii_alphabetic()).map(|byte| vec![*byte]).collect();
    loop {
        for name in longer.iter().filter(|name| hash(name) == HASH) {
            if left < name.len() + own {
                return found;
            }
            left -= name.len() + own;
            found.push(name.clone());
        }
        // Names of five letters are enough, and need not all be made.
        let fronts = std::mem::take(&mut longer);
        let fronts = if fronts[0].len() == 4 { &fronts[..fronts.len() / 8] } else { &fronts[..] };
        longer = fronts.iter().flat_map(|front| letters.iter().map(|byte| [&front[..], &[*byte]].concat())).collect();
    }
}

fn letter(n: usize) -> char {
    (b'A' + n as u8) as char
}

fn cases() -> Vec<(&'static str, Vec<u8>)> {
    let named = |before: &'static str, after: &'static str| {
        move |n: usize| [before.as_bytes(), &short_name(n), after.as_bytes()].concat()
    };
    let lines = |names: Vec<Vec<u8>>, before: &[u8], after: &[u8]| -> Vec<u8> {
        names.iter().flat_map(|name| [before, &name[..], after].concat()).collect()
    };
    let people = repeated(16, |n| format!("P\t{}\t\t0\n", letter(n)).into_bytes());
    let lists = repeated(4, |n| format!("V\t{}\tL\n", letter(n)).into_bytes());
    vec![
        ("a fresh state", FRESH.to_vec()),
        ("the session of 01", SESSION.to_vec()),
        ("one long string", state(b"", &[b"V\tx\tS\t", &[b's'; 8_162][..], b"\n"].concat())),
        ("many empty elements", state(b"", &[b"V\tx\tL\n", &b"S\t\n".repeat(8_162)[..]].concat())),
        ("many records of one field", state(b"", &[b"V\tx\tL\n", &b"R\nF\tl\t\n".repeat(2_720)[..]].concat())),
        ("one record of many fields", state(b"", &[b"V\tx\tR\n", &repeated(2_700, named("F\t", "\t\n"))[..]].concat())),
        ("many principals", state(&repeated(628, named("P\t", "\t\t0\n")), b"")),
        ("principals of one hash", state(&lines(one_hash(8_164, 11), b"P\t", b"\t\t0\n"), b"")),
        ("variables of one hash", state(b"", &lines(one_hash(8_164, 1), b"V\t", b"\tS\t\n"))),
        ("many variables", state(b"", &repeated(2_700, named("V\t", "\tS\t\n")))),
        ("many assertions", state(&people, &[lists, assertions(1_991)].concat())),
        (
            "assertions and principals",
            state(&repeated(314, named("P\t", "\t\t0\n")), &[b"V\tx\tL\n".to_vec(), late_assertions(680, 314)].concat()),
        ),
    ]
}

fn main() {
    println!(
        "{:<26} {:>6} {:>6} {:>5} {:>5} {:>5} {:>10} {:>10} {:>7}",
        "state", "weight", "bytes", "p", "v", "a", "proved", "model", "ratio"
    );
    let mut out = vec![0; FIGURES];
    let zeros = vec![0; BUFFER];
    let tables = time(|| usize::from(check(black_box(&zeros), &mut out) == Answer::Bad));
    println!("{:<26} {:>6} {:>6} {:>5} {:>5} {:>5} {tables:>10.2?}", "no state: zeros", "", 0, "", "", "");
    for (name, mut buffer) in cases() {
        let bytes = buffer.len();
        buffer.resize(BUFFER, 0);
        let (state, _) = decode(&buffer).unwrap_or_else(|| panic!("{name}: not well formed"));
        assert!(state.weight() <= HEAVIEST);
        assert_eq!(check(&buffer, &mut out), Answer::Found(0, &figures(&state)[..]), "{name}");
        let proved = time(|| match check(black_box(&buffer), &mut out) {
            Answer::Found(_, figures) => figures.len(),
            _ => 0,
        });
        let model = time(|| decode(black_box(&buffer)).map_or(0, |(_, length)| length));
        println!(
            "{name:<26} {:>6} {bytes:>6} {:>5} {:>5} {:>5} {proved:>10.2?} {model:>10.2?} {:>7.2}",
            state.weight(),
            state.principals.count(),
            state.variables.count(),
            state.standing().len(),
            proved.as_secs_f64() / model.as_secs_f64()
        );
    }
}
