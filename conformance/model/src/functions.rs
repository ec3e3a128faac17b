//! The functions on strings (001, String functions; 02, M-100), on prices (02,
//! M-104), and those that compare (001, Filtering lists; 02, M-106).

use crate::session::Undone;
use crate::state::HEAVIEST;
use crate::strings::Maker;
use crate::syntax::{Call, Comparison};
use crate::value::{Field, Item, Record};

impl<'a> Call<Item<'a>> {
    /// What the function gives. Only those that compare take records.
    pub fn result(&self, maker: &Maker<'a>) -> Result<Item<'a>, Undone> {
        match self {
            Call::Compare(comparison, first, second) => {
                if first.weight() > HEAVIEST || second.weight() > HEAVIEST {
                    return Err(Undone::Full);
                }
                Ok(comparison.answer(first.equals(second)))
            }
            _ => {
                let strings = self.map(Item::text);
                strings.ok_or(Undone::Failed)?.of_strings(maker)
            }
        }
    }
}

impl Comparison {
    /// The empty string for yes and "0" for no.
    fn answer(self, are_equal: bool) -> Item<'static> {
        match are_equal == (self == Comparison::Equal) {
            true => Item::Text(b""),
            false => Item::Text(b"0"),
        }
    }
}

impl<'a> Call<&'a [u8]> {
    /// What the function gives. FULL where an argument or the result weighs
    /// too much; what would is not made. A string that weighs too much is no
    /// price, and FAILED goes before FULL.
    pub fn of_strings(&self, maker: &Maker<'a>) -> Result<Item<'a>, Undone> {
        let is_heavy = self.arguments().any(|text| text.len() > HEAVIEST);
        let item = match *self {
            Call::Prices(operation, first, second) => {
                let price = operation.of_texts(first, second).ok_or(Undone::Failed)?;
                Item::Text(maker.keep(price.text()))
            }
            _ if is_heavy => return Err(Undone::Full),
            Call::Split(text, measure) => Item::Record(split(text, measure.len())),
            Call::Concat(first, second) if first.len() + second.len() > HEAVIEST => {
                return Err(Undone::Full)
            }
            Call::Concat(first, second) => Item::Text(maker.keep([first, second].concat())),
            Call::Tolower(text) => Item::Text(maker.keep(text.to_ascii_lowercase())),
            Call::Compare(comparison, first, second) => comparison.answer(first == second),
        };
        if item.weight() > HEAVIEST {
            return Err(Undone::Full);
        }
        Ok(item)
    }
}

/// The first bytes, so many or as many as there are, and the rest.
fn split(text: &[u8], count: usize) -> Record<'_> {
    let (first, rest) = text.split_at(count.min(text.len()));
    Record::new(&[
        Field {
            label: b"fst",
            text: first,
        },
        Field {
            label: b"snd",
            text: rest,
        },
    ])
}
