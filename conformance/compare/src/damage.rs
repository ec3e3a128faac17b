//! State texts with one thing changed, in the lines of now or in the former ones: a byte, a line, a field, or what a rule of document 01 forbids.

use crate::former::{former, padded, Form};
use crate::random::Random;
use model::state::HEAVIEST;
use model::text::{decode, decode_former};

type Bytes = Vec<u8>;

#[derive(Clone, Copy, PartialEq, Eq, PartialOrd, Ord, Debug)]
pub enum Damage {
    ByteChanged,
    ByteRemoved,
    ByteAdded,
    LineRemoved,
    LineDoubled,
    LinesSwapped,
    LineMoved,
    FieldChanged,
    FieldRemoved,
    FieldDoubled,
    FieldsSwapped,
    FieldEmptied,
    TextCut,
    ByteBehind,
    TooHeavy,
    LabelTwice,
    PrincipalTwice,
    VariableTwice,
    AssertionTwice,
    UnknownName,
    KeywordAsName,
    NameTooLong,
    EmptyRecord,
    WrongCount,
    CountMissing,
    /// A count that belongs to the other form.
    CountTooMany,
    /// The whole text in the other form.
    OtherForm,
    WrongRight,
    PasswordLost,
}

/// What is no count: empty, with a leading zero, too large, or with other bytes.
const NO_COUNTS: [&str; 15] = [
    "", "00", "01", "0000000001", "4294967296", "4294967300", "9999999999", "42949672950", "99999999999999999999", "1a", "-1", "+1", " 1", "1 ", "1.",
];

/// Those that no state may hold. Names that became keywords later stay.
const KEYWORDS: [&str; 31] = [
    "all", "append", "as", "change", "create", "default", "delegate", "delegation", "delegator", "delete", "do", "exit",
    "foreach", "in", "local", "password", "principal", "read", "replacewith", "return", "set", "to", "write", "split",
    "concat", "tolower", "notequal", "equal", "filtereach", "with", "let",
];

/// Bytes that a rule tells from others, and their neighbours.
const BYTES: &[u8] = b"\0\x01\x08\t\n\x0b\r\x1f !\"#'()*+,-./019:;<=>?@AFLNOPRSVZ[\\^_`adrwz{|}~\x7f\x80\xff";

fn lines(text: &[u8]) -> Vec<Bytes> {
    text[..text.len() - 1].split(|byte| *byte == b'\n').map(<[u8]>::to_vec).collect()
}

fn joined(lines: &[Bytes]) -> Bytes {
    lines.iter().flat_map(|line| line.iter().copied().chain([b'\n'])).collect()
}

fn fields(line: &[u8]) -> Vec<Bytes> {
    line.split(|byte| *byte == b'\t').map(<[u8]>::to_vec).collect()
}

/// A line that begins with one of the letters.
fn line_of(random: &mut Random, lines: &[Bytes], letters: &[u8]) -> Option<usize> {
    let all: Vec<usize> = (0..lines.len()).filter(|at| lines[*at].first().is_some_and(|b| letters.contains(b))).collect();
    (!all.is_empty()).then(|| all[random.below(all.len())])
}

/// A line that begins with one of the letters, and another later one.
fn two_of(random: &mut Random, lines: &[Bytes], letters: &[u8]) -> Option<(usize, usize)> {
    let (a, b) = (line_of(random, lines, letters)?, line_of(random, lines, letters)?);
    (a != b).then_some((a.min(b), a.max(b)))
}

impl Damage {
    pub const ALL: [Damage; 29] = [
        Damage::ByteChanged,
        Damage::ByteRemoved,
        Damage::ByteAdded,
        Damage::LineRemoved,
        Damage::LineDoubled,
        Damage::LinesSwapped,
        Damage::LineMoved,
        Damage::FieldChanged,
        Damage::FieldRemoved,
        Damage::FieldDoubled,
        Damage::FieldsSwapped,
        Damage::FieldEmptied,
        Damage::TextCut,
        Damage::ByteBehind,
        Damage::TooHeavy,
        Damage::LabelTwice,
        Damage::PrincipalTwice,
        Damage::VariableTwice,
        Damage::AssertionTwice,
        Damage::UnknownName,
        Damage::KeywordAsName,
        Damage::NameTooLong,
        Damage::EmptyRecord,
        Damage::WrongCount,
        Damage::CountMissing,
        Damage::CountTooMany,
        Damage::OtherForm,
        Damage::WrongRight,
        Damage::PasswordLost,
    ];

    /// What no well formed text can come of.
    pub fn always_bad(self) -> bool {
        self >= Damage::ByteBehind
    }

    /// The damaged text, or nothing where the text has no place for such a damage.
    pub fn done(self, random: &mut Random, text: &[u8], form: Form) -> Option<Bytes> {
        match self {
            Damage::ByteChanged | Damage::ByteRemoved | Damage::ByteAdded | Damage::TextCut | Damage::ByteBehind => {
                Some(self.by_bytes(random, text))
            }
            Damage::LineRemoved | Damage::LineDoubled | Damage::LinesSwapped | Damage::LineMoved => {
                self.by_lines(random, lines(text))
            }
            Damage::FieldChanged
            | Damage::FieldRemoved
            | Damage::FieldDoubled
            | Damage::FieldsSwapped
            | Damage::FieldEmptied => self.by_fields(random, lines(text)),
            Damage::TooHeavy => too_heavy(text, form),
            Damage::WrongCount | Damage::CountMissing | Damage::CountTooMany => self.by_counts(random, lines(text), form),
            Damage::OtherForm => Some(other_form(text, form)),
            Damage::LabelTwice | Damage::PrincipalTwice | Damage::VariableTwice | Damage::AssertionTwice => {
                self.twice(random, lines(text))
            }
            _ => self.by_rule(random, lines(text)),
        }
    }

    fn by_bytes(self, random: &mut Random, text: &[u8]) -> Bytes {
        let mut text = text.to_vec();
        let at = random.below(text.len());
        let byte = BYTES[random.below(BYTES.len())];
        match self {
            Damage::ByteChanged if random.below(3) == 0 => text[at] ^= 1 << random.below(8),
            Damage::ByteChanged => text[at] = byte,
            Damage::ByteRemoved => {
                text.remove(at);
            }
            Damage::ByteAdded => text.insert(at, byte),
            Damage::TextCut => text.truncate(at),
            _ => {
                let zeros = [1, 2, 40, 65_535 - text.len(), random.below(65_536 - text.len())][random.below(5)];
                text.resize(text.len() + zeros, 0);
                text.push(1 + random.below(255) as u8);
            }
        }
        text
    }

    fn by_lines(self, random: &mut Random, mut lines: Vec<Bytes>) -> Option<Bytes> {
        let (a, b) = (random.below(lines.len()), random.below(lines.len()));
        match self {
            Damage::LineRemoved => {
                lines.remove(a);
            }
            Damage::LineDoubled => lines.insert(a, lines[a].clone()),
            Damage::LinesSwapped => lines.swap(a, b),
            _ => {
                let line = lines.remove(a);
                lines.insert(b, line);
            }
        }
        Some(joined(&lines))
    }

    fn by_fields(self, random: &mut Random, mut lines: Vec<Bytes>) -> Option<Bytes> {
        let at = random.below(lines.len());
        let mut all = fields(&lines[at]);
        let (a, b) = (random.below(all.len()), random.below(all.len()));
        match self {
            Damage::FieldChanged => {
                let other = fields(&lines[random.below(lines.len())]);
                all[a] = other[random.below(other.len())].clone();
            }
            Damage::FieldRemoved => {
                all.remove(a);
            }
            Damage::FieldDoubled => all.insert(a, all[a].clone()),
            Damage::FieldsSwapped => all.swap(a, b),
            _ => all[a].clear(),
        }
        lines[at] = all.join(&b'\t');
        Some(joined(&lines))
    }

    /// A name, a label or an assertion stands in two lines.
    fn twice(self, random: &mut Random, mut lines: Vec<Bytes>) -> Option<Bytes> {
        let letters: &[u8] = match self {
            Damage::LabelTwice => b"F",
            Damage::PrincipalTwice => b"PN",
            Damage::VariableTwice => b"V",
            _ => b"A",
        };
        if self == Damage::LabelTwice || self == Damage::AssertionTwice {
            let at = line_of(random, &lines, letters)?;
            let mut again = lines[at].clone();
            if self == Damage::LabelTwice {
                again.push(b'x');
            }
            lines.insert(at, again);
            return Some(joined(&lines));
        }
        let (a, b) = two_of(random, &lines, letters)?;
        let first = fields(&lines[a]);
        let mut second = fields(&lines[b]);
        second[1] = first[1].clone();
        lines[b] = second.join(&b'\t');
        Some(joined(&lines))
    }

    /// In the lines that have a count, or in those that have none.
    fn by_counts(self, random: &mut Random, mut lines: Vec<Bytes>, form: Form) -> Option<Bytes> {
        let (counted, others): (&[u8], &[u8]) = match form {
            Form::Former => (b"OC", b"PND"),
            Form::Counted => (b"PN", b"OCD"),
        };
        let letters = if self == Damage::CountTooMany { others } else { counted };
        let at = line_of(random, &lines, letters)?;
        let mut all = fields(&lines[at]);
        match self {
            Damage::CountTooMany => all.push(b"0".to_vec()),
            _ => drop(all.pop()),
        }
        if self == Damage::WrongCount {
            all.push(NO_COUNTS[random.below(NO_COUNTS.len())].into());
        }
        lines[at] = all.join(&b'\t');
        Some(joined(&lines))
    }

    fn by_rule(self, random: &mut Random, mut lines: Vec<Bytes>) -> Option<Bytes> {
        let (letters, place, new): (&[u8], usize, Bytes) = match self {
            Damage::UnknownName => (b"DA", 1, b"nobody_of_this_name".to_vec()),
            Damage::KeywordAsName => (b"PVF", 1, KEYWORDS[random.below(KEYWORDS.len())].into()),
            Damage::NameTooLong => (b"PVF", 1, vec![b'n'; 256]),
            Damage::WrongRight => (b"A", 3, [&b""[..], b"x", b"rr", b"R", b"0"][random.below(5)].to_vec()),
            Damage::PasswordLost => {
                let at = line_of(random, &lines, b"P")?;
                let mut all = fields(&lines[at]);
                if all[1] == b"anyone" {
                    return None;
                }
                all.remove(2);
                all[0] = b"N".to_vec();
                lines[at] = all.join(&b'\t');
                return Some(joined(&lines));
            }
            _ => {
                let at = line_of(random, &lines, b"VLSRA")?;
                lines.insert(at, b"R".to_vec());
                return Some(joined(&lines));
            }
        };
        let at = line_of(random, &lines, letters)?;
        let mut all = fields(&lines[at]);
        let places: &[usize] = if self == Damage::UnknownName && lines[at][0] == b'A' { &[1, 2, 4] } else { &[place] };
        all[places[random.below(places.len())]] = new;
        lines[at] = all.join(&b'\t');
        Some(joined(&lines))
    }
}

/// One more variable, so that the state weighs one too much.
fn too_heavy(text: &[u8], form: Form) -> Option<Bytes> {
    let buffer = padded(text);
    let weight = match form {
        Form::Former => decode_former(&buffer)?.former_weight(),
        Form::Counted => decode(&buffer)?.0.weight(),
    };
    let length = (HEAVIEST + 1).checked_sub(weight + 1 + 8)?;
    let mut lines = lines(text);
    let end = lines.iter().position(|line| line.starts_with(b"A\t")).unwrap_or(lines.len());
    lines.insert(end, [&b"V\ttoomuch_\tS\t"[..], &vec![b't'; length]].concat());
    Some(joined(&lines))
}

/// What it says, in the other lines.
fn other_form(text: &[u8], form: Form) -> Bytes {
    if form == Form::Counted {
        return former(text, 0);
    }
    let mut lines = lines(text);
    lines[0].truncate(1);
    for line in &mut lines {
        if line.starts_with(b"P\t") || line.starts_with(b"N\t") {
            line.extend_from_slice(b"\t0");
        }
    }
    joined(&lines)
}
