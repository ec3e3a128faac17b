//! The state text (01, State text; 02, M-101): its writing and its reading.
//! Only a well formed buffer is read, and what is read has this one text. A
//! text in the former lines, those from before M-101, is read as well.

use std::rc::Rc;

use crate::bytes::{all_zero, STRING, WORD};
use crate::names::{distinct, may_be_kept};
use crate::rights::{Assertion, Right, ADMIN, ANYONE};
use crate::state::{Principals, State, HEAVIEST};
use crate::value::{Field, Item, List, Record, Value};

/// The size of the state, work and output buffers.
pub const BUFFER: usize = 65_536;

/// Writes the state's text at the start of the buffer and says how long it is.
/// A state within the weight limit always has room.
pub fn encode(state: &State, buffer: &mut [u8]) -> usize {
    let mut writer = Writer { buffer, length: 0 };
    writer.header(state);
    for variable in state.variables.iter() {
        writer.put(b"V\t");
        writer.put(variable.name);
        writer.put(b"\t");
        writer.value(&variable.value);
    }
    for assertion in state.standing() {
        writer.assertion(state, assertion);
    }
    writer.length
}

struct Writer<'b> {
    buffer: &'b mut [u8],
    length: usize,
}

impl Writer<'_> {
    fn put(&mut self, bytes: &[u8]) {
        let end = self.length + bytes.len();
        self.buffer[self.length..end].copy_from_slice(bytes);
        self.length = end;
    }

    /// One line of a tag and fields.
    fn line(&mut self, tag: &[u8], fields: &[&[u8]]) {
        self.put(tag);
        for field in fields {
            self.put(b"\t");
            self.put(field);
        }
        self.put(b"\n");
    }

    fn header(&mut self, state: &State) {
        self.line(if state.open { b"O" } else { b"C" }, &[]);
        for principal in state.principals.iter() {
            let mut room = [0; 10];
            let completed = decimal(principal.completed, &mut room);
            match principal.password {
                Some(password) => self.line(b"P", &[principal.name, password, completed]),
                None => self.line(b"N", &[principal.name, completed]),
            }
        }
        self.line(b"D", &[state.principals.get(state.delegator).name]);
    }

    fn value(&mut self, value: &Value) {
        match value {
            Value::Item(item) => self.item(item),
            Value::List(list) => {
                self.put(b"L\n");
                list.items().iter().for_each(|item| self.item(item));
            }
        }
    }

    fn item(&mut self, item: &Item) {
        match item {
            Item::Text(text) => self.line(b"S", &[text]),
            Item::Record(record) => {
                self.put(b"R\n");
                for field in record.fields() {
                    self.line(b"F", &[field.label, field.text]);
                }
            }
        }
    }

    fn assertion(&mut self, state: &State, assertion: &Assertion) {
        let right = Right::of_number(assertion.right).expect("an entered right");
        self.line(
            b"A",
            &[
                state.variables.get(assertion.variable).name,
                state.principals.get(assertion.from).name,
                &[right.letter()],
                state.principals.get(assertion.to).name,
            ],
        );
    }
}

/// The digits of a count, without a leading zero. A venue has hundreds of them
/// in a text, so each is written in place.
fn decimal(mut number: u32, room: &mut [u8; 10]) -> &[u8] {
    let mut at = room.len();
    loop {
        at -= 1;
        room[at] = b'0' + (number % 10) as u8;
        number /= 10;
        if number == 0 {
            return &room[at..];
        }
    }
}

/// Where the counts stand.
#[derive(Clone, Copy, PartialEq, Eq)]
enum Form {
    /// One for all programs, in the first line. It is read and dropped.
    Former,
    /// One for each principal, as the last field of its line.
    Counted,
}

/// The state that the buffer holds and the length of its text; none where the
/// buffer is not well formed.
pub fn decode(buffer: &[u8]) -> Option<(State<'_>, usize)> {
    let (state, length) = read(buffer, Form::Counted)?;
    (state.weight() <= HEAVIEST).then_some((state, length))
}

/// The state that a buffer in the former lines says, every count being 0; none
/// where it is not well formed in those lines. By its weight of now it may be
/// too heavy.
pub fn decode_former(buffer: &[u8]) -> Option<State<'_>> {
    let (state, _) = read(buffer, Form::Former)?;
    (state.former_weight() <= HEAVIEST).then_some(state)
}

/// What the buffer says, whatever it weighs, and the length of its text.
fn read(buffer: &[u8], form: Form) -> Option<(State<'_>, usize)> {
    let mut reader = Reader { rest: buffer };
    let open = reader.first_line(form)?;
    let principals = reader.principals(form)?;
    reader.the(b"D\t")?;
    let delegator = principals.find(reader.name(b'\n')?)?;
    let mut state = State::new(open, principals, delegator);
    while reader.takes(b"V\t") {
        let name = reader.name(b'\t')?;
        let value = reader.value()?;
        state.variables.add(name, value)?;
    }
    while reader.takes(b"A\t") {
        let assertion = reader.assertion(&state)?;
        if !state.enter(assertion) {
            return None;
        }
    }
    all_zero(reader.rest).then_some((state, buffer.len() - reader.rest.len()))
}

/// Reads the parts of a text; none is a text that is not well formed.
struct Reader<'a> {
    rest: &'a [u8],
}

impl<'a> Reader<'a> {
    fn takes(&mut self, bytes: &[u8]) -> bool {
        match self.rest.strip_prefix(bytes) {
            Some(rest) => {
                self.rest = rest;
                true
            }
            None => false,
        }
    }

    fn the(&mut self, bytes: &[u8]) -> Option<()> {
        self.takes(bytes).then_some(())
    }

    /// The next `length` bytes, which are known to be there, and the byte that
    /// ends their field.
    fn field(&mut self, length: usize, end: u8) -> Option<&'a [u8]> {
        let (field, rest) = self.rest.split_at(length);
        self.rest = rest.strip_prefix(&[end])?;
        Some(field)
    }

    fn name(&mut self, end: u8) -> Option<&'a [u8]> {
        let name = self.field(WORD.run(self.rest), end)?;
        may_be_kept(name).then_some(name)
    }

    fn text(&mut self, end: u8) -> Option<&'a [u8]> {
        self.field(STRING.run(self.rest), end)
    }

    /// Whether the server is open.
    fn first_line(&mut self, form: Form) -> Option<bool> {
        let open = self.takes(b"O");
        if !open {
            self.the(b"C")?;
        }
        match form {
            Form::Former => {
                self.the(b"\t")?;
                self.number()?;
            }
            Form::Counted => self.the(b"\n")?,
        }
        Some(open)
    }

    /// A count at the end of its line: decimal, no leading zero.
    fn number(&mut self) -> Option<u32> {
        let digits = self.field(WORD.run(self.rest), b'\n')?;
        if digits.is_empty() || digits.len() > 1 && digits[0] == b'0' {
            return None;
        }
        digits.iter().try_fold(0u32, |number, digit| {
            let digit = digit.is_ascii_digit().then(|| u32::from(digit - b'0'))?;
            number.checked_mul(10)?.checked_add(digit)
        })
    }

    fn principals(&mut self, form: Form) -> Option<Principals<'a>> {
        // What ends the field before the count, or the line without one.
        let end = match form {
            Form::Former => b'\n',
            Form::Counted => b'\t',
        };
        let mut principals = Principals::default();
        loop {
            let (name, password) = if self.takes(b"P\t") {
                (self.name(b'\t')?, Some(self.text(end)?))
            } else if self.takes(b"N\t") {
                (self.name(end)?, None)
            } else {
                break;
            };
            let completed = match form {
                Form::Former => 0,
                Form::Counted => self.number()?,
            };
            let fits = match principals.add(name, password, completed)? {
                ADMIN => name == b"admin" && password.is_some(),
                ANYONE => name == b"anyone",
                _ => password.is_some(),
            };
            if !fits {
                return None;
            }
        }
        (principals.count() >= 2).then_some(principals)
    }

    /// The value of a variable, after the variable's name.
    fn value(&mut self) -> Option<Value<'a>> {
        let mut scratch = Vec::new();
        if !self.takes(b"L\n") {
            return self.item(&mut scratch)?.map(Value::Item);
        }
        let mut list = List::default();
        while let Some(item) = self.item(&mut scratch)? {
            list.push(item);
        }
        Some(Value::List(Rc::new(list)))
    }

    /// A string or record, if one follows; the outer none is a wrong one.
    fn item(&mut self, scratch: &mut Vec<Field<'a>>) -> Option<Option<Item<'a>>> {
        if self.takes(b"S\t") {
            return Some(Some(Item::Text(self.text(b'\n')?)));
        }
        if !self.takes(b"R\n") {
            return Some(None);
        }
        scratch.clear();
        while self.takes(b"F\t") {
            scratch.push(Field {
                label: self.name(b'\t')?,
                text: self.text(b'\n')?,
            });
        }
        if scratch.is_empty() || !distinct(scratch.iter().map(|field| field.label)) {
            return None;
        }
        Some(Some(Item::Record(Record::new(scratch))))
    }

    fn assertion(&mut self, state: &State) -> Option<Assertion> {
        let variable = state.variables.find(self.name(b'\t')?)?;
        let from = state.principals.find(self.name(b'\t')?)?;
        let (&letter, rest) = self.rest.split_first()?;
        let right = Right::of_letter(letter)?.number();
        self.rest = rest;
        self.the(b"\t")?;
        let to = state.principals.find(self.name(b'\n')?)?;
        Some(Assertion {
            variable,
            from,
            right,
            to,
        })
    }
}
