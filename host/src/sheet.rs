//! The sheet of a shared variable: who may do what, on paper or row by row.

use std::fmt;

use crate::Right;

/// The columns of a name.
const NAME: usize = 34;

/// The bytes of a line: the name, a space, a column for each right, and the newline.
const LINE: usize = NAME + 1 + Right::ALL.len() + 1;

/// What a name that was cut ends in. It is no character of a name.
const CUT: char = '~';

/// Who may do what on a shared variable, as [`Server::sheet`](crate::Server::sheet) gives it: a line of 40 bytes for each principal, in order of
/// creation. `Display` prints the lines as they are.
#[derive(Clone, PartialEq, Eq, Debug)]
pub struct Sheet {
    text: String,
}

impl Sheet {
    /// The sheet with this text, where it is one: every line of it is a row.
    pub(crate) fn of(text: Vec<u8>) -> Option<Sheet> {
        let text = String::from_utf8(text).ok()?;
        text.as_bytes().chunks(LINE).all(|line| Row::of(line).is_some()).then_some(Sheet { text })
    }

    /// The lines, each ended by byte 10, to be printed as they are.
    pub fn text(&self) -> &str {
        &self.text
    }

    /// How many rows there are, one for each principal.
    pub fn len(&self) -> usize {
        self.text.len() / LINE
    }

    /// Whether there is no row. A server's sheet has two at least, admin's and anyone's.
    pub fn is_empty(&self) -> bool {
        self.text.is_empty()
    }

    /// The rows, in order of the principals' creation.
    pub fn rows(&self) -> impl Iterator<Item = Row<'_>> {
        self.text.as_bytes().chunks_exact(LINE).filter_map(Row::of)
    }
}

impl fmt::Display for Sheet {
    fn fmt(&self, f: &mut fmt::Formatter<'_>) -> fmt::Result {
        f.write_str(&self.text)
    }
}

/// One principal's line of a [`Sheet`].
#[derive(Clone, Copy, PartialEq, Eq, Debug)]
pub struct Row<'a> {
    shown: &'a str,
    /// In the order of [`Right::ALL`].
    held: [bool; 4],
}

impl<'a> Row<'a> {
    /// The row that a line says, where it is one.
    fn of(line: &'a [u8]) -> Option<Row<'a>> {
        let (columns, rest) = line.split_at_checked(NAME)?;
        let shown = std::str::from_utf8(columns).ok()?.trim_end_matches(' ');
        let name = shown.strip_suffix(CUT).filter(|_| shown.len() == NAME).unwrap_or(shown);
        if name.is_empty() || !name.bytes().all(|byte| byte.is_ascii_alphanumeric() || byte == b'_') {
            return None;
        }
        let [b' ', letters @ .., b'\n'] = rest else { return None };
        let letters: [u8; 4] = letters.try_into().ok()?;
        let mut held = [false; 4];
        for ((letter, right), held) in letters.into_iter().zip(Right::ALL).zip(&mut held) {
            *held = letter == right.letter();
            if !*held && letter != b'.' {
                return None;
            }
        }
        Some(Row { shown, held })
    }

    /// The principal's name as it is printed, without the spaces behind it: the whole name or, where [`is_cut`](Row::is_cut), its first 33 characters and
    /// `~`.
    pub fn name(&self) -> &'a str {
        self.shown
    }

    /// Whether the name is longer than its 34 columns. Another principal's name may be cut to the same characters; each has its own row, in order of
    /// creation.
    pub fn is_cut(&self) -> bool {
        self.shown.ends_with(CUT)
    }

    /// Whether the principal has the right: [`Server::ask`](crate::Server::ask) would say yes.
    pub fn has(&self, right: Right) -> bool {
        self.rights().any(|held| held == right)
    }

    /// The rights that the principal has, in the order of the language.
    pub fn rights(&self) -> impl Iterator<Item = Right> {
        Right::ALL.into_iter().zip(self.held).filter_map(|(right, held)| held.then_some(right))
    }
}

#[cfg(test)]
mod tests {
    use super::{Row, Sheet, LINE};
    use crate::Right;

    fn line(shown: &str, rights: &str) -> String {
        format!("{shown:34} {rights}\n")
    }

    #[test]
    fn a_row_has_its_name_and_its_rights() {
        let line = line("rosa", "r.a.");
        let row = Row::of(line.as_bytes()).expect("a row");
        assert_eq!((row.name(), row.is_cut()), ("rosa", false));
        assert_eq!(row.rights().collect::<Vec<Right>>(), [Right::Read, Right::Append]);
        assert_eq!(Right::ALL.map(|right| row.has(right)), [true, false, true, false]);
    }

    #[test]
    fn every_set_of_rights() {
        for set in 0..16 {
            let held = [0, 1, 2, 3].map(|at| set >> at & 1 == 1);
            let letters: String = ['r', 'w', 'a', 'd'].into_iter().zip(held).map(|(letter, held)| if held { letter } else { '.' }).collect();
            let line = line("a", &letters);
            assert_eq!(Right::ALL.map(|right| Row::of(line.as_bytes()).expect("a row").has(right)), held);
        }
    }

    #[test]
    fn names_fill_their_columns_or_are_cut() {
        let (whole, cut) = ("b".repeat(34), "c".repeat(33) + "~");
        for (shown, is_cut) in [("a", false), (&whole, false), (&cut, true)] {
            let line = line(shown, "....");
            let row = Row::of(line.as_bytes()).expect("a row");
            assert_eq!((row.name(), row.is_cut()), (shown, is_cut));
        }
    }

    #[test]
    fn what_is_no_row() {
        let good = line(&"c".repeat(34), "rwad");
        for at in 0..LINE {
            for byte in [0, b'-', b'|', 0xff] {
                let mut wrong = good.clone().into_bytes();
                wrong[at] = byte;
                assert_eq!(Row::of(&wrong), None, "byte {byte} at {at}");
            }
        }
        for (shown, rights) in [("", "rwad"), ("~", "rwad"), ("c~", "rwad"), ("a b", "rwad"), ("a", "wrad"), ("a", "r w "), ("a", "rrrr")] {
            assert_eq!(Row::of(line(shown, rights).as_bytes()), None, "{shown} {rights}");
        }
        assert_eq!(Row::of(&good.as_bytes()[..LINE - 1]), None);
        assert_eq!(Row::of(&[good.as_bytes(), b"\n"].concat()), None);
    }

    #[test]
    fn a_sheet_is_rows_and_nothing_else() {
        let text = [line("admin", "rwad"), line("anyone", "....")].concat();
        let sheet = Sheet::of(text.clone().into_bytes()).expect("a sheet");
        assert_eq!((sheet.len(), sheet.is_empty(), sheet.text()), (2, false, text.as_str()));
        assert_eq!(sheet.to_string(), text);
        assert_eq!(sheet.rows().map(|row| row.name()).collect::<Vec<&str>>(), ["admin", "anyone"]);
        for wrong in [&text[..79], &(text.clone() + "\0"), &text.replace("rwad", "rwda"), &text.replace("anyone", "any ne")] {
            assert_eq!(Sheet::of(wrong.as_bytes().to_vec()), None);
        }
    }
}
