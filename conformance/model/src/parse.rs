//! The grammar of programs (01, Program text).

use crate::names::Keyword;
use crate::rights::Right;
use crate::syntax::{
    Call, Command, Comparison, Delegation, Each, Expression, Last, Operand, Operation, Plain,
    Program, Step, Target,
};
use crate::token::{Scanner, Token};

/// A longer program does not parse.
pub const LONGEST_PROGRAM: usize = 16_384;

/// The program that the bytes are the text of, if they are one's.
pub fn parse(program: &[u8]) -> Option<Program<'_>> {
    if program.len() > LONGEST_PROGRAM {
        return None;
    }
    let mut reader = Reader(Scanner::new(program));
    reader.0.comment_lines()?;
    let (principal, password) = reader.login()?;
    let mut commands = Vec::new();
    loop {
        reader.0.comment_lines()?;
        match reader.line()? {
            Line::Command(command) => commands.push(command),
            Line::Last(last) => {
                reader.0.comment_lines()?;
                return reader.0.at_last_line().then_some(Program {
                    principal,
                    password,
                    commands,
                    last,
                });
            }
        }
    }
}

enum Line<'a> {
    Command(Command<'a>),
    Last(Last<'a>),
}

/// Reads what the grammar asks for; none is a program that does not parse.
struct Reader<'a>(Scanner<'a>);

impl<'a> Reader<'a> {
    fn the(&mut self, token: Token<'_>) -> Option<()> {
        (self.0.token()? == token).then_some(())
    }

    fn word(&mut self, keyword: Keyword) -> Option<()> {
        self.the(Token::Keyword(keyword))
    }

    fn keyword(&mut self) -> Option<Keyword> {
        match self.0.token()? {
            Token::Keyword(keyword) => Some(keyword),
            _ => None,
        }
    }

    fn name(&mut self) -> Option<&'a [u8]> {
        match self.0.token()? {
            Token::Name(name) => Some(name),
            _ => None,
        }
    }

    fn text(&mut self) -> Option<&'a [u8]> {
        match self.0.token()? {
            Token::Text(text) => Some(text),
            _ => None,
        }
    }

    fn line_end(&mut self) -> Option<()> {
        self.the(Token::LineEnd)
    }

    /// `as principal p password s do`
    fn login(&mut self) -> Option<(&'a [u8], &'a [u8])> {
        self.word(Keyword::As)?;
        self.word(Keyword::Principal)?;
        let principal = self.name()?;
        self.word(Keyword::Password)?;
        let password = self.text()?;
        self.word(Keyword::Do)?;
        self.line_end()?;
        Some((principal, password))
    }

    fn line(&mut self) -> Option<Line<'a>> {
        let line = match self.keyword()? {
            Keyword::Exit => Line::Last(Last::Exit),
            Keyword::Return => Line::Last(Last::Return(self.expression()?)),
            keyword => Line::Command(self.command(keyword)?),
        };
        self.line_end()?;
        Some(line)
    }

    /// The rest of a command that starts with the keyword.
    fn command(&mut self, keyword: Keyword) -> Option<Command<'a>> {
        Some(match keyword {
            Keyword::Create => {
                self.word(Keyword::Principal)?;
                Command::CreatePrincipal(self.name()?, self.text()?)
            }
            Keyword::Change => {
                self.word(Keyword::Password)?;
                Command::ChangePassword(self.name()?, self.text()?)
            }
            Keyword::Set => match self.0.token()? {
                Token::Keyword(Keyword::Delegation) => Command::SetDelegation(self.delegation()?),
                Token::Name(variable) => Command::Set(variable, self.assigned()?),
                _ => return None,
            },
            Keyword::Append => {
                self.word(Keyword::To)?;
                let variable = self.name()?;
                self.word(Keyword::With)?;
                Command::Append(variable, self.expression()?)
            }
            Keyword::Local => Command::Local(self.name()?, self.assigned()?),
            Keyword::Foreach => Command::Foreach(self.each(Keyword::Replacewith)?),
            Keyword::Filtereach => Command::Filtereach(self.each(Keyword::With)?),
            Keyword::Delete => {
                self.word(Keyword::Delegation)?;
                Command::DeleteDelegation(self.delegation()?)
            }
            Keyword::Default => {
                self.word(Keyword::Delegator)?;
                self.the(Token::Equals)?;
                Command::DefaultDelegator(self.name()?)
            }
            _ => return None,
        })
    }

    /// `= expression`
    fn assigned(&mut self) -> Option<Expression<'a>> {
        self.the(Token::Equals)?;
        self.expression()
    }

    /// `y in x replacewith expression`, or with another word.
    fn each(&mut self, word: Keyword) -> Option<Each<'a>> {
        let element = self.name()?;
        self.word(Keyword::In)?;
        let list = self.name()?;
        self.word(word)?;
        Some(Each {
            element,
            list,
            expression: self.expression()?,
        })
    }

    /// `t q right -> p`
    fn delegation(&mut self) -> Option<Delegation<'a>> {
        let target = match self.0.token()? {
            Token::Keyword(Keyword::All) => Target::All,
            Token::Name(variable) => Target::Variable(variable),
            _ => return None,
        };
        let from = self.name()?;
        let right = match self.keyword()? {
            Keyword::Read => Right::Read,
            Keyword::Write => Right::Write,
            Keyword::Append => Right::Append,
            Keyword::Delegate => Right::Delegate,
            _ => return None,
        };
        self.the(Token::Arrow)?;
        Some(Delegation {
            target,
            from,
            right,
            to: self.name()?,
        })
    }

    fn expression(&mut self) -> Option<Expression<'a>> {
        match self.0.token()? {
            Token::Keyword(Keyword::Let) => Some(Expression::Lets(self.lets()?)),
            first => Some(Expression::Plain(self.plain(first)?)),
        }
    }

    /// The rest of an expression that starts with `let`, by its steps. Of the
    /// lets that are open each is in its first expression, and then its name
    /// is kept for later, or in its second.
    fn lets(&mut self) -> Option<Vec<Step<'a>>> {
        let mut steps = Vec::new();
        let mut open = vec![Some(self.let_name()?)];
        loop {
            match self.0.token()? {
                Token::Keyword(Keyword::Let) => {
                    open.push(Some(self.let_name()?));
                    continue;
                }
                first => steps.push(Step::Evaluate(self.plain(first)?)),
            }
            while let Some(None) = open.last() {
                open.pop();
                steps.push(Step::Unbind);
            }
            let Some(innermost) = open.last_mut() else {
                return Some(steps);
            };
            self.word(Keyword::In)?;
            steps.extend(innermost.take().map(Step::Bind));
        }
    }

    /// `x =`
    fn let_name(&mut self) -> Option<&'a [u8]> {
        let name = self.name()?;
        self.the(Token::Equals)?;
        Some(name)
    }

    /// An expression without lets, of which the first token has been taken.
    fn plain(&mut self, first: Token<'a>) -> Option<Plain<'a>> {
        Some(match first {
            Token::EmptyList => Plain::EmptyList,
            Token::OpenBrace => Plain::Record(self.fields()?),
            Token::Keyword(keyword) => Plain::Call(Box::new(self.call(keyword)?)),
            first => Plain::Operand(self.operand(first)?),
        })
    }

    /// The fields of a record, one at least, and its closing brace.
    fn fields(&mut self) -> Option<Vec<(&'a [u8], Operand<'a>)>> {
        let mut fields = Vec::new();
        loop {
            let label = self.name()?;
            self.the(Token::Equals)?;
            fields.push((label, self.value()?));
            match self.0.token()? {
                Token::Comma => {}
                Token::CloseBrace => return Some(fields),
                _ => return None,
            }
        }
    }

    /// The rest of a call of the function that the keyword names. One with
    /// another number of arguments than the function takes does not parse.
    fn call(&mut self, keyword: Keyword) -> Option<Call<Operand<'a>>> {
        self.the(Token::OpenParenthesis)?;
        let call = match keyword {
            Keyword::Split => Call::Split(self.value()?, self.next_value()?),
            Keyword::Concat => Call::Concat(self.value()?, self.next_value()?),
            Keyword::Tolower => Call::Tolower(self.value()?),
            Keyword::Add => self.prices(Operation::Add)?,
            Keyword::Sub => self.prices(Operation::Sub)?,
            Keyword::Times => self.prices(Operation::Times)?,
            Keyword::Per => self.prices(Operation::Per)?,
            Keyword::Equal => self.compared(Comparison::Equal)?,
            Keyword::Notequal => self.compared(Comparison::Notequal)?,
            _ => return None,
        };
        self.the(Token::CloseParenthesis)?;
        Some(call)
    }

    /// The two values of an operation on prices.
    fn prices(&mut self, operation: Operation) -> Option<Call<Operand<'a>>> {
        Some(Call::Prices(operation, self.value()?, self.next_value()?))
    }

    /// The two values that are compared.
    fn compared(&mut self, comparison: Comparison) -> Option<Call<Operand<'a>>> {
        Some(Call::Compare(comparison, self.value()?, self.next_value()?))
    }

    /// 01's value: x, x.y or a string.
    fn value(&mut self) -> Option<Operand<'a>> {
        let first = self.0.token()?;
        self.operand(first)
    }

    fn next_value(&mut self) -> Option<Operand<'a>> {
        self.the(Token::Comma)?;
        self.value()
    }

    /// A value of which the first token has been taken.
    fn operand(&mut self, first: Token<'a>) -> Option<Operand<'a>> {
        match first {
            Token::Text(text) => Some(Operand::Text(text)),
            Token::Name(variable) if self.0.take_dot() => {
                Some(Operand::Field(variable, self.name()?))
            }
            Token::Name(variable) => Some(Operand::Variable(variable)),
            _ => None,
        }
    }
}
