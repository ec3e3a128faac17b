//! Tokens and the scanner that moves over the program one token at a time.

use crate::bytes::{class, Class, COMMENT, STRING, WORD};
use crate::names::{keyword, Keyword, LONGEST_NAME};

#[derive(Clone, Copy, PartialEq, Eq, Debug)]
pub enum Token<'a> {
    Name(&'a [u8]),
    Keyword(Keyword),
    Text(&'a [u8]),
    Equals,
    Comma,
    Dot,
    OpenBrace,
    CloseBrace,
    OpenParenthesis,
    CloseParenthesis,
    /// `[]`
    EmptyList,
    /// `->`
    Arrow,
    /// A newline, with the comment that may stand before it.
    LineEnd,
}

pub struct Scanner<'a> {
    program: &'a [u8],
    position: usize,
}

impl<'a> Scanner<'a> {
    pub fn new(program: &'a [u8]) -> Scanner<'a> {
        Scanner {
            program,
            position: 0,
        }
    }

    /// How many bytes have been passed.
    pub fn position(&self) -> usize {
        self.position
    }

    fn rest(&self) -> &'a [u8] {
        &self.program[self.position..]
    }

    /// Takes the next `length` bytes, which are known to be there.
    fn advance(&mut self, length: usize) -> &'a [u8] {
        let taken = &self.rest()[..length];
        self.position += length;
        taken
    }

    fn skip_spaces(&mut self) {
        while self.program.get(self.position) == Some(&b' ') {
            self.position += 1;
        }
    }

    /// The next token, the longest that can be taken; none where the bytes
    /// make no token or the program is at its end. Inlined, because most
    /// callers ask for one kind of token.
    #[inline]
    pub fn token(&mut self) -> Option<Token<'a>> {
        self.skip_spaces();
        let rest = self.rest();
        match class(*rest.first()?) {
            Class::Letter => self.word(),
            Class::Newline => self.mark(1, Token::LineEnd),
            Class::Mark(mark) => match mark {
                b'"' => self.text(),
                b'=' => self.mark(1, Token::Equals),
                b',' => self.mark(1, Token::Comma),
                b'.' => self.mark(1, Token::Dot),
                b'{' => self.mark(1, Token::OpenBrace),
                b'}' => self.mark(1, Token::CloseBrace),
                b'(' => self.mark(1, Token::OpenParenthesis),
                b')' => self.mark(1, Token::CloseParenthesis),
                b'[' if rest.starts_with(b"[]") => self.mark(2, Token::EmptyList),
                b'-' if rest.starts_with(b"->") => self.mark(2, Token::Arrow),
                b'/' if rest.starts_with(b"//") => self.comment(),
                _ => None,
            },
            Class::Digit | Class::Space | Class::Foreign => None,
        }
    }

    fn mark(&mut self, length: usize, token: Token<'a>) -> Option<Token<'a>> {
        self.position += length;
        Some(token)
    }

    fn word(&mut self) -> Option<Token<'a>> {
        let word = self.advance(WORD.run(self.rest()));
        if word.len() > LONGEST_NAME {
            return None;
        }
        Some(match keyword(word) {
            Some(keyword) => Token::Keyword(keyword),
            None => Token::Name(word),
        })
    }

    fn text(&mut self) -> Option<Token<'a>> {
        self.position += 1;
        let text = self.advance(STRING.run(self.rest()));
        self.rest().starts_with(b"\"").then(|| {
            self.position += 1;
            Token::Text(text)
        })
    }

    /// A comment is the last thing on a line that has an end.
    fn comment(&mut self) -> Option<Token<'a>> {
        self.position += 2;
        self.advance(COMMENT.run(self.rest()));
        self.rest().starts_with(b"\n").then(|| {
            self.position += 1;
            Token::LineEnd
        })
    }

    /// Takes a dot if one comes next. A dot is always a token by itself.
    pub fn take_dot(&mut self) -> bool {
        self.skip_spaces();
        let found = self.rest().starts_with(b".");
        self.position += usize::from(found);
        found
    }

    /// At the start of a line: passes over comment lines, which have their
    /// `//` in column 1.
    pub fn comment_lines(&mut self) -> Option<()> {
        while self.rest().starts_with(b"//") {
            self.comment()?;
        }
        Some(())
    }

    /// At the start of a line: whether the last line and nothing else follows.
    pub fn at_last_line(&self) -> bool {
        matches!(self.rest(), b"***" | b"***\n")
    }
}
