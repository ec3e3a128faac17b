//! Expressions (01, Values; 02, M-106). What is tried needs its reads, and an
//! expression comes to a value or to DENIED, FAILED or FULL, whichever goes
//! before the others.

use std::rc::Rc;

use crate::names::distinct;
use crate::rights::Right;
use crate::session::{Place, Session, Undone};
use crate::state::{Variable, HEAVIEST};
use crate::syntax::{Call, Each, Expression, Operand, Plain, Step};
use crate::value::{Field, Item, List, Record, Value};

impl<'a> Session<'a> {
    pub fn evaluate(&mut self, expression: &Expression<'a>) -> Result<Value<'a>, Undone> {
        match expression {
            Expression::Plain(plain) => self.plain(plain),
            Expression::Lets(steps) => self.lets(steps),
        }
    }

    /// The second expression of a let is left untried where its name is not
    /// bound. Then the whole let is not done, and where it stands in the first
    /// expression of another, neither is that one.
    fn lets(&mut self, steps: &[Step<'a>]) -> Result<Value<'a>, Undone> {
        let mut outcome = Err(Undone::Failed);
        // How many lets are open from an untried expression on.
        let mut untried = 0;
        for step in steps {
            match step {
                Step::Evaluate(_) if untried > 0 => {}
                Step::Bind(_) if untried > 0 => untried += 1,
                Step::Unbind if untried > 0 => untried -= 1,
                Step::Evaluate(plain) => outcome = self.plain(plain),
                Step::Bind(name) => {
                    let first = outcome;
                    outcome = Err(Undone::Failed);
                    if let Err(undone) = self.bind(name, first) {
                        outcome = Err(undone);
                        untried = 1;
                    }
                }
                Step::Unbind => self.bound.remove_last(),
            }
        }
        outcome
    }

    pub fn plain(&mut self, plain: &Plain<'a>) -> Result<Value<'a>, Undone> {
        if self.unreadable(plain) {
            return Err(Undone::Denied);
        }
        let value = match plain {
            Plain::Operand(Operand::Variable(name)) => self.read(name).cloned(),
            Plain::Operand(operand) => self.text(operand).map(Value::of_text),
            Plain::EmptyList => Some(Value::List(Rc::default())),
            Plain::Record(fields) => self
                .record(fields)
                .map(|record| Value::Item(Item::Record(record))),
            Plain::Call(call) => return self.call(call).map(Value::Item),
        };
        let value = value.ok_or(Undone::Failed)?;
        if value.weight() > HEAVIEST {
            return Err(Undone::Full);
        }
        Ok(value)
    }

    /// Whether evaluating the expression needs a read that the sender lacks.
    fn unreadable(&mut self, plain: &Plain) -> bool {
        if self.by_admin() {
            return false;
        }
        match plain {
            Plain::Operand(operand) => self.operand_unreadable(operand),
            Plain::EmptyList => false,
            Plain::Record(fields) => fields
                .iter()
                .any(|(_, operand)| self.operand_unreadable(operand)),
            Plain::Call(call) => call
                .arguments()
                .any(|operand| self.operand_unreadable(operand)),
        }
    }

    fn operand_unreadable(&mut self, operand: &Operand) -> bool {
        match *operand {
            Operand::Variable(name) | Operand::Field(name, _) => match self.find(name) {
                Some(Place::Shared(number)) => !self.may(Right::Read, number),
                _ => false,
            },
            Operand::Text(_) => false,
        }
    }

    /// Only the functions that compare take records.
    fn call(&self, call: &Call<Operand<'a>>) -> Result<Item<'a>, Undone> {
        if let Call::Compare(..) = call {
            let call = call.map(|operand| self.item(operand));
            return call.ok_or(Undone::Failed)?.result(&self.maker);
        }
        let call = call.map(|operand| self.text(operand));
        call.ok_or(Undone::Failed)?.of_strings(&self.maker)
    }

    /// The operand's value where it is a string or a record.
    pub fn item(&self, operand: &Operand<'a>) -> Option<Item<'a>> {
        match *operand {
            Operand::Variable(name) => self.read(name)?.item().cloned(),
            _ => self.text(operand).map(Item::Text),
        }
    }

    /// The operand's value where it is a string.
    fn text(&self, operand: &Operand<'a>) -> Option<&'a [u8]> {
        match *operand {
            Operand::Variable(name) => self.read(name)?.item()?.text(),
            Operand::Field(name, label) => self.read(name)?.item()?.field(label),
            Operand::Text(text) => Some(text),
        }
    }

    fn record(&self, fields: &[(&'a [u8], Operand<'a>)]) -> Option<Record<'a>> {
        if !distinct(fields.iter().map(|&(label, _)| label)) {
            return None;
        }
        let fields = fields
            .iter()
            .map(|&(label, ref operand)| {
                let text = self.text(operand)?;
                Some(Field { label, text })
            })
            .collect::<Option<Vec<_>>>()?;
        Some(Record::new(&fields))
    }

    /// The list that foreach leaves. A result that is a list is FAILED. Once
    /// it weighs too much, items are not kept any more.
    pub fn replaced(&mut self, each: &Each<'a>) -> Result<List<'a>, Undone> {
        let list = self.list_of(each)?;
        let mut replaced = List::with_room(list.items().len());
        self.for_each(each, &list, |_, result| {
            let Value::Item(item) = result else {
                return Err(Undone::Failed);
            };
            if replaced.weight() + 1 + item.weight() > HEAVIEST {
                return Err(Undone::Full);
            }
            replaced.push(item);
            Ok(())
        })?;
        Ok(replaced)
    }

    /// The list that filtereach leaves: the elements for which the expression
    /// comes to the empty string (001, Filtering lists).
    pub fn filtered(&mut self, each: &Each<'a>) -> Result<List<'a>, Undone> {
        let list = self.list_of(each)?;
        let mut filtered = List::with_room(list.items().len());
        self.for_each(each, &list, |element, result| {
            if result == Value::of_text(b"") {
                filtered.push(element.clone());
            }
            Ok(())
        })?;
        Ok(filtered)
    }

    /// The list x, where it is one and y is undefined.
    fn list_of(&self, each: &Each<'a>) -> Result<Rc<List<'a>>, Undone> {
        let list = self.read(each.list).and_then(Value::list);
        let list = list.filter(|_| !self.is_defined(each.element));
        list.cloned().ok_or(Undone::Failed)
    }

    /// Evaluates the expression for each element, for which y stands. It goes
    /// on after an element for which that, or the taking of the result, is not
    /// done: what goes before may come later.
    fn for_each(
        &mut self,
        each: &Each<'a>,
        list: &List<'a>,
        mut take: impl FnMut(&Item<'a>, Value<'a>) -> Result<(), Undone>,
    ) -> Result<(), Undone> {
        let mut undone = None;
        for item in list.items() {
            self.element = Some(Variable {
                name: each.element,
                value: Value::Item(item.clone()),
            });
            let result = self.evaluate(&each.expression);
            let taken = result.and_then(|result| take(item, result));
            undone = undone.into_iter().chain(taken.err()).min();
        }
        self.element = None;
        undone.map_or(Ok(()), Err)
    }
}
