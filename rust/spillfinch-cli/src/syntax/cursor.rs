//! The parts of a pair, one behind the other, each with its fault and its hint.

use spillfinch::{sizes, Refusal};

use super::key::{Argument, Key, Operator};
use super::line::{fault, Pair, Value};
use super::{content, escape, hints, is_blank, Fault, Span};

const ARGUMENT_MOST: usize = 64;

/// A place in a line that is read.
pub(super) struct Cursor<'a> {
    line: &'a [u8],
    place: usize,
}

impl<'a> Cursor<'a> {
    pub fn new(line: &'a [u8]) -> Cursor<'a> {
        Cursor { line, place: 0 }
    }

    fn rest(&self) -> &'a [u8] {
        &self.line[self.place..]
    }

    fn next(&self) -> Option<u8> {
        self.rest().first().copied()
    }

    /// The place of the next byte; the last one of the line at its end.
    fn here(&self) -> Span {
        match self.next() {
            Some(_) => self.place..self.place + 1,
            None => self.line.len().saturating_sub(1)..self.line.len(),
        }
    }

    fn skip_blanks(&mut self) {
        self.place += self.rest().iter().take_while(|byte| is_blank(byte)).count();
    }

    /// Passes over the comma behind a pair, if the line does not end there.
    pub fn is_at_end(&mut self) -> Result<bool, Fault> {
        self.skip_blanks();
        match self.next() {
            None => Ok(true),
            Some(b',') => {
                self.place += 1;
                Ok(false)
            }
            Some(_) => {
                let hint = hints::behind_pair(self.rest());
                fault(Refusal::CommaMissing, self.here(), hint)
            }
        }
    }

    pub fn pair(&mut self) -> Result<Pair, Fault> {
        self.skip_blanks();
        let start = self.place;
        let key = self.key()?;
        let argument = self.argument(key)?;
        self.skip_blanks();
        let operator = self.operator(key)?;
        self.skip_blanks();
        let value = self.value()?;
        if let Some(content) = content::fault(key, operator, &value.bytes) {
            let span = value.place(&content.span);
            return fault(Refusal::ContentBad, span, content.hint);
        }
        Ok(Pair {
            key,
            argument,
            operator,
            value,
            span: start..self.place,
        })
    }

    fn key(&mut self) -> Result<Key, Fault> {
        let capitals = self
            .rest()
            .iter()
            .take_while(|byte| byte.is_ascii_uppercase());
        let length = capitals.count();
        if let Some(key) = Key::named(&self.rest()[..length]) {
            self.place += length;
            return Ok(key);
        }
        let hint = hints::key(self.line, self.place);
        let letters = self
            .rest()
            .iter()
            .take_while(|byte| byte.is_ascii_alphabetic());
        let span = match letters.count() {
            0 => self.here(),
            length => self.place..self.place + length,
        };
        fault(Refusal::KeyBad, span, hint)
    }

    fn argument(&mut self, key: Key) -> Result<Vec<u8>, Fault> {
        let open = self.place;
        let name = key.name();
        if self.next() != Some(b'{') {
            if key.argument() != Argument::Name {
                return Ok(Vec::new());
            }
            let hint = match hints::brace_behind_blanks(self.rest()) {
                true => format!("the brace stands directly behind {name}"),
                false => format!("{name} takes a name in braces: {name}{{name}}"),
            };
            return fault(Refusal::ArgumentBad, self.here(), hint);
        }
        if key.argument() == Argument::None {
            let hint = format!("{name} takes no argument");
            return fault(Refusal::ArgumentBad, self.here(), hint);
        }
        let Some(length) = self.rest().iter().position(|&byte| byte == b'}') else {
            let hint = String::from("no `}` closes this brace");
            return fault(Refusal::ArgumentBad, self.here(), hint);
        };
        let argument = &self.rest()[1..length];
        let hint = match (key.argument(), argument.len()) {
            (Argument::RunType, _) if !matches!(argument, b"program" | b"builtin") => {
                format!("{name} takes program or builtin")
            }
            (_, 0) => String::from("the braces are empty"),
            (_, length) if length > ARGUMENT_MOST => {
                format!("the name has {length} bytes; {ARGUMENT_MOST} are taken")
            }
            _ => {
                self.place += length + 1;
                return Ok(argument.to_vec());
            }
        };
        fault(Refusal::ArgumentBad, open..open + length + 1, hint)
    }

    fn operator(&mut self, key: Key) -> Result<Operator, Fault> {
        let found = Operator::ALL
            .into_iter()
            .find(|operator| self.rest().starts_with(operator.symbol().as_bytes()));
        match found {
            Some(operator) if key.operators().contains(&operator) => {
                self.place += operator.symbol().len();
                Ok(operator)
            }
            Some(operator) => {
                let span = self.place..self.place + operator.symbol().len();
                fault(Refusal::OperatorBad, span, hints::operator(key))
            }
            None => {
                let hint = match self.next() {
                    Some(b'{') => format!("the brace stands directly behind {}", key.name()),
                    _ => hints::operator(key),
                };
                fault(Refusal::OperatorBad, self.here(), hint)
            }
        }
    }

    fn value(&mut self) -> Result<Value, Fault> {
        let start = self.place;
        let is_coded = self.rest().starts_with(b"e\"");
        self.place += usize::from(is_coded);
        let open = self.place;
        if self.next() != Some(b'"') {
            let hint = hints::unopened(self.rest());
            return fault(Refusal::ValueBad, self.here(), hint);
        }
        self.place += 1;
        let (mut bytes, mut places) = (Vec::new(), vec![self.place]);
        loop {
            let (byte, width) = match self.rest() {
                [] | [b'\\'] => {
                    let hint = hints::unclosed(&self.line[open..]);
                    return fault(Refusal::ValueBad, open..open + 1, hint);
                }
                [b'"', ..] => break,
                [b'\\', behind @ ..] if is_coded => self.escape(behind)?,
                [b'\\', b'"', ..] => (b'"', 2),
                [byte, ..] => (*byte, 1),
            };
            bytes.push(byte);
            self.place += width;
            places.push(self.place);
        }
        self.place += 1;
        let span = start..self.place;
        if bytes.len() > sizes::VALUE_MOST {
            let most = sizes::VALUE_MOST;
            let hint = format!("the value has {} bytes; {most} are taken", bytes.len());
            return fault(Refusal::ValueBad, span, hint);
        }
        Ok(Value {
            bytes,
            span,
            places,
        })
    }

    /// The byte that the backslash here and what stands behind it stand for, and how many bytes
    /// are written for it.
    fn escape(&self, behind: &[u8]) -> Result<(u8, usize), Fault> {
        escape::read(behind).or_else(|(width, hint)| {
            let span = self.place..self.place + width;
            fault(Refusal::ValueBad, span, String::from(hint))
        })
    }
}
