//! Why a program does not parse, where that is for how one call, one let or one
//! command over a list is written.

use crate::names::Keyword;
use crate::parse::parse;
use crate::token::{Scanner, Token};

pub const SHAPES: [&str; 12] = [
    "number of arguments",
    "call in a call",
    "call in a field",
    "parenthesis missing",
    "parentheses without a function",
    "let in a call",
    "let in a field",
    "let without in",
    "let without a second expression",
    "let of what is no name",
    "filtereach and replacewith",
    "foreach and with",
];

/// A token with its first byte's place and its end.
type Placed<'a> = (Token<'a>, usize, usize);

/// Of [`SHAPES`], how many tokens are written wrongly, and what could stand in
/// their place.
struct Mistake {
    shape: &'static str,
    count: usize,
    instead: &'static [u8],
}

impl Mistake {
    /// An expression, for which an empty string could stand.
    fn of(shape: &'static str, count: usize) -> Option<Mistake> {
        let instead = b"\"\"";
        Some(Mistake {
            shape,
            count,
            instead,
        })
    }

    /// One word, for which another could stand.
    fn of_word(shape: &'static str, instead: &'static [u8]) -> Option<Mistake> {
        Some(Mistake {
            shape,
            count: 1,
            instead,
        })
    }
}

/// Why a program that does not parse does not, where it is for one mistake and
/// the program parses without.
pub fn misshapen(program: &[u8]) -> Option<&'static str> {
    let mut scanner = Scanner::new(program);
    let mut tokens: Vec<Placed> = Vec::new();
    let mut start = 0;
    while let Some(token) = scanner.token() {
        tokens.push((token, start, scanner.position()));
        start = scanner.position();
    }
    (0..tokens.len()).find_map(|at| {
        let mistake = mistake(&tokens, at)?;
        let (from, to) = (tokens[at].1, tokens[at + mistake.count - 1].2);
        let mended = [&program[..from], mistake.instead, &program[to..]].concat();
        parse(&mended).is_some().then_some(mistake.shape)
    })
}

/// What is wrong with what begins at a token.
fn mistake(tokens: &[Placed], at: usize) -> Option<Mistake> {
    let is_end = |token: &Placed| token.0 == Token::LineEnd;
    let line = tokens[..at].iter().rposition(is_end);
    let before = &tokens[line.map_or(0, |end| end + 1)..at];
    let rest = &tokens[at..];
    let rest = &rest[..rest.iter().position(is_end)?];
    let begins_with = |word| before.first().is_some_and(|token| is_word(token, word));
    match rest.first()?.0 {
        Token::Keyword(Keyword::Let) => of_let(before, rest),
        Token::Keyword(Keyword::Replacewith) if begins_with(Keyword::Filtereach) => {
            Mistake::of_word(SHAPES[10], b" with ")
        }
        Token::Keyword(Keyword::With) if begins_with(Keyword::Foreach) => {
            Mistake::of_word(SHAPES[11], b" replacewith ")
        }
        Token::Keyword(word) if is_function(word) => of_call(before, rest, word),
        Token::OpenParenthesis => {
            let last = before.last().map(|token| token.0);
            match last {
                Some(Token::Keyword(word)) if is_function(word) => None,
                _ => Mistake::of(SHAPES[4], closed(rest)?.0),
            }
        }
        _ => None,
    }
}

fn of_call(before: &[Placed], rest: &[Placed], function: Keyword) -> Option<Mistake> {
    let Some((count, commas)) = closed(&rest[1..]) else {
        return Mistake::of(SHAPES[3], rest.len());
    };
    if is_within(before, Token::OpenParenthesis, Token::CloseParenthesis) {
        Mistake::of(SHAPES[1], 1 + count)
    } else if is_within(before, Token::OpenBrace, Token::CloseBrace) {
        Mistake::of(SHAPES[2], 1 + count)
    } else if count == 2 || commas != usize::from(function != Keyword::Tolower) {
        Mistake::of(SHAPES[0], 1 + count)
    } else {
        None
    }
}

/// A let is the last in its line, unless it stands where a value should.
fn of_let(before: &[Placed], rest: &[Placed]) -> Option<Mistake> {
    let count = |word| rest.iter().filter(|token| is_word(token, word)).count();
    let is_named = matches!(rest, [_, (Token::Name(_), ..), (Token::Equals, ..), ..]);
    if is_within(before, Token::OpenParenthesis, Token::CloseParenthesis) {
        Mistake::of(SHAPES[5], value(rest))
    } else if is_within(before, Token::OpenBrace, Token::CloseBrace) {
        Mistake::of(SHAPES[6], value(rest))
    } else if !is_named {
        Mistake::of(SHAPES[9], rest.len())
    } else if count(Keyword::In) < count(Keyword::Let) {
        Mistake::of(SHAPES[7], rest.len())
    } else if rest.last().is_some_and(|token| is_word(token, Keyword::In)) {
        Mistake::of(SHAPES[8], rest.len())
    } else {
        None
    }
}

fn is_word(token: &Placed, word: Keyword) -> bool {
    token.0 == Token::Keyword(word)
}

fn is_function(word: Keyword) -> bool {
    matches!(
        word,
        Keyword::Split
            | Keyword::Concat
            | Keyword::Tolower
            | Keyword::Add
            | Keyword::Sub
            | Keyword::Times
            | Keyword::Per
            | Keyword::Equal
            | Keyword::Notequal
    )
}

/// Whether a mark is open at the end of these tokens.
fn is_within(tokens: &[Placed], open: Token, close: Token) -> bool {
    let count = |mark| tokens.iter().filter(|token| token.0 == mark).count();
    count(open) > count(close)
}

/// How many tokens there are up to a comma or a closing mark that belongs to
/// what stands around them.
fn value(tokens: &[Placed]) -> usize {
    let mut open = 0;
    let ends = |(token, _, _): &Placed| {
        match token {
            Token::Comma if open == 0 => return true,
            Token::OpenParenthesis | Token::OpenBrace => open += 1,
            Token::CloseParenthesis | Token::CloseBrace if open == 0 => return true,
            Token::CloseParenthesis | Token::CloseBrace => open -= 1,
            _ => {}
        }
        false
    };
    tokens.iter().position(ends).unwrap_or(tokens.len())
}

/// How many tokens there are from an opening parenthesis, which stands first,
/// to the one that closes it, and how many commas of its own it has between.
fn closed(tokens: &[Placed]) -> Option<(usize, usize)> {
    let (mut open, mut commas) = (0, 0);
    for (at, (token, _, _)) in tokens.iter().enumerate() {
        match token {
            Token::OpenParenthesis => open += 1,
            _ if open == 0 => return None,
            Token::CloseParenthesis if open == 1 => return Some((at + 1, commas)),
            Token::CloseParenthesis => open -= 1,
            Token::Comma if open == 1 => commas += 1,
            _ => {}
        }
    }
    None
}
