//! Status lines (01, Statuses; 001, Output), written into the output buffer.

use crate::syntax::Command;
use crate::value::{Item, Record, Value};

/// The status of a command that was done, other than the last.
pub fn status(command: &Command) -> &'static str {
    match command {
        Command::CreatePrincipal(..) => "CREATE_PRINCIPAL",
        Command::ChangePassword(..) => "CHANGE_PASSWORD",
        Command::Set(..) => "SET",
        Command::Append(..) => "APPEND",
        Command::Local(..) => "LOCAL",
        Command::Foreach(..) => "FOREACH",
        Command::Filtereach(..) => "FILTEREACH",
        Command::SetDelegation(..) => "SET_DELEGATION",
        Command::DeleteDelegation(..) => "DELETE_DELEGATION",
        Command::DefaultDelegator(..) => "DEFAULT_DELEGATOR",
    }
}

/// The lines of one program. The weight and the program's length keep them
/// within the buffer.
pub struct Lines<'b> {
    buffer: &'b mut [u8],
    bytes: usize,
    count: usize,
}

impl<'b> Lines<'b> {
    pub fn new(buffer: &'b mut [u8]) -> Lines<'b> {
        Lines {
            buffer,
            bytes: 0,
            count: 0,
        }
    }

    pub fn bytes(&self) -> usize {
        self.bytes
    }

    pub fn count(&self) -> usize {
        self.count
    }

    /// Drops the lines so far, as an uncompleted program does.
    pub fn restart(&mut self) {
        self.bytes = 0;
        self.count = 0;
    }

    /// Zeroes the buffer after the lines.
    pub fn finish(&mut self) {
        self.buffer[self.bytes..].fill(0);
    }

    pub fn status(&mut self, status: &str) {
        self.put(b"{\"status\":\"");
        self.put(status.as_bytes());
        self.put(b"\"}\n");
        self.count += 1;
    }

    pub fn returning(&mut self, value: &Value) {
        self.put(b"{\"status\":\"RETURNING\",\"output\":");
        self.value(value);
        self.put(b"}\n");
        self.count += 1;
    }

    fn put(&mut self, bytes: &[u8]) {
        let end = self.bytes + bytes.len();
        self.buffer[self.bytes..end].copy_from_slice(bytes);
        self.bytes = end;
    }

    fn value(&mut self, value: &Value) {
        match value {
            Value::Item(item) => self.item(item),
            Value::List(list) => {
                self.put(b"[");
                for (at, item) in list.items().iter().enumerate() {
                    self.comma(at);
                    self.item(item);
                }
                self.put(b"]");
            }
        }
    }

    fn item(&mut self, item: &Item) {
        match item {
            Item::Text(text) => self.quoted(text),
            Item::Record(record) => self.record(record),
        }
    }

    fn record(&mut self, record: &Record) {
        self.put(b"{");
        for (at, field) in record.fields().iter().enumerate() {
            self.comma(at);
            self.quoted(field.label);
            self.put(b":");
            self.quoted(field.text);
        }
        self.put(b"}");
    }

    /// No byte of the string alphabet needs an escape.
    fn quoted(&mut self, text: &[u8]) {
        self.put(b"\"");
        self.put(text);
        self.put(b"\"");
    }

    fn comma(&mut self, at: usize) {
        if at > 0 {
            self.put(b",");
        }
    }
}
