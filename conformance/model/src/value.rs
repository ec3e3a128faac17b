//! Values and what they weigh (01, Values and Weight). A string is a part of
//! the state text, of the program or of a string that the program made, and
//! records and lists are shared, so that copying a value copies none of its
//! bytes.

use std::rc::Rc;

#[derive(Clone, Copy, PartialEq, Eq, PartialOrd, Ord, Debug)]
pub struct Field<'a> {
    pub label: &'a [u8],
    pub text: &'a [u8],
}

/// A record: fields with different labels, one at least, in the order written.
#[derive(Clone, PartialEq, Eq, Debug)]
pub struct Record<'a> {
    fields: Rc<[Field<'a>]>,
    weight: usize,
}

impl<'a> Record<'a> {
    pub fn new(fields: &[Field<'a>]) -> Record<'a> {
        Record {
            weight: fields
                .iter()
                .map(|field| 1 + field.label.len() + field.text.len())
                .sum(),
            fields: fields.into(),
        }
    }

    pub fn fields(&self) -> &[Field<'a>] {
        &self.fields
    }

    pub fn get(&self, label: &[u8]) -> Option<&'a [u8]> {
        self.fields
            .iter()
            .find(|field| field.label == label)
            .map(|field| field.text)
    }

    /// Whether both have the same labels with the same texts, in whatever order
    /// written (02, M-106).
    pub fn has_the_fields_of(&self, other: &Record<'a>) -> bool {
        let sorted = |record: &Record<'a>| {
            let mut fields = record.fields.to_vec();
            fields.sort_unstable();
            fields
        };
        self.fields == other.fields
            || self.fields.len() == other.fields.len() && sorted(self) == sorted(other)
    }
}

/// What a list may hold: a string or a record.
#[derive(Clone, PartialEq, Eq, Debug)]
pub enum Item<'a> {
    Text(&'a [u8]),
    Record(Record<'a>),
}

impl<'a> Item<'a> {
    pub fn weight(&self) -> usize {
        match self {
            Item::Text(text) => text.len(),
            Item::Record(record) => record.weight,
        }
    }

    pub fn text(&self) -> Option<&'a [u8]> {
        match self {
            Item::Text(text) => Some(text),
            Item::Record(_) => None,
        }
    }

    /// Whether both are the same string, or records with the same fields. A
    /// string and a record are different.
    pub fn equals(&self, other: &Item<'a>) -> bool {
        match (self, other) {
            (Item::Text(text), Item::Text(other)) => text == other,
            (Item::Record(record), Item::Record(other)) => record.has_the_fields_of(other),
            _ => false,
        }
    }

    /// The text under a label, where this is a record that has it.
    pub fn field(&self, label: &[u8]) -> Option<&'a [u8]> {
        match self {
            Item::Text(_) => None,
            Item::Record(record) => record.get(label),
        }
    }
}

#[derive(Clone, Default, PartialEq, Eq, Debug)]
pub struct List<'a> {
    items: Vec<Item<'a>>,
    weight: usize,
}

impl<'a> List<'a> {
    /// An empty list with room for so many items.
    pub fn with_room(count: usize) -> List<'a> {
        List {
            items: Vec::with_capacity(count),
            weight: 0,
        }
    }

    pub fn items(&self) -> &[Item<'a>] {
        &self.items
    }

    pub fn weight(&self) -> usize {
        self.weight
    }

    pub fn push(&mut self, item: Item<'a>) {
        self.weight += 1 + item.weight();
        self.items.push(item);
    }

    pub fn join(&mut self, other: &List<'a>) {
        self.weight += other.weight;
        self.items.extend_from_slice(&other.items);
    }
}

#[derive(Clone, PartialEq, Eq, Debug)]
pub enum Value<'a> {
    Item(Item<'a>),
    List(Rc<List<'a>>),
}

impl<'a> Value<'a> {
    pub fn of_text(text: &'a [u8]) -> Value<'a> {
        Value::Item(Item::Text(text))
    }

    pub fn weight(&self) -> usize {
        match self {
            Value::Item(item) => item.weight(),
            Value::List(list) => list.weight,
        }
    }

    pub fn item(&self) -> Option<&Item<'a>> {
        match self {
            Value::Item(item) => Some(item),
            Value::List(_) => None,
        }
    }

    pub fn list(&self) -> Option<&Rc<List<'a>>> {
        match self {
            Value::Item(_) => None,
            Value::List(list) => Some(list),
        }
    }
}
