//! Reading a rules text.

use crate::bytes::is_blank;
use crate::content::{read_content, Assignment, Content, Match};
use crate::key::{ArgumentRule, Key, KeyRow, Operator, KEYS};
use crate::lines::{is_skipped, lines, Line};
use crate::pattern::Pattern;
use crate::refusal::{Fault, Refusal};
use crate::sizes;
use crate::template::Template;

#[derive(Clone, Debug, PartialEq, Eq)]
pub struct Rule {
    /// The number of its first physical line.
    pub line: u32,
    pub pairs: Vec<Pair>,
    /// The index of the rule that its GOTO goes to.
    pub jump: Option<usize>,
}

#[derive(Clone, Debug, PartialEq, Eq)]
pub struct Pair {
    pub key: Key,
    /// Without its braces; `None` if there are none.
    pub argument: Option<Vec<u8>>,
    pub operator: Operator,
    /// What the text between the quotation marks stands for.
    pub value: Vec<u8>,
    pub content: Content,
}

impl Rule {
    pub fn label(&self) -> Option<&[u8]> {
        label_of(&self.pairs)
    }

    pub fn goto(&self) -> Option<&[u8]> {
        goto_of(&self.pairs)
    }

    /// The match keys but PROGRAM and RESULT.
    pub fn matches(&self) -> impl Iterator<Item = (Operator, &Match)> {
        self.pairs.iter().filter_map(|pair| match &pair.content {
            Content::Match(content) => Some((pair.operator, content)),
            _ => None,
        })
    }

    pub fn programs(&self) -> impl Iterator<Item = (Operator, &Template)> {
        self.pairs.iter().filter_map(|pair| match &pair.content {
            Content::Program(command) => Some((pair.operator, command)),
            _ => None,
        })
    }

    pub fn results(&self) -> impl Iterator<Item = (Operator, &Pattern)> {
        self.pairs.iter().filter_map(|pair| match &pair.content {
            Content::Result(pattern) => Some((pair.operator, pattern)),
            _ => None,
        })
    }

    pub fn assignments(&self) -> impl Iterator<Item = (Operator, &Assignment)> {
        self.pairs.iter().filter_map(|pair| match &pair.content {
            Content::Assignment(assignment) => Some((pair.operator, assignment)),
            _ => None,
        })
    }
}

pub fn label_of(pairs: &[Pair]) -> Option<&[u8]> {
    pairs.iter().find_map(|pair| match &pair.content {
        Content::Label(label) => Some(label.as_slice()),
        _ => None,
    })
}

pub fn goto_of(pairs: &[Pair]) -> Option<&[u8]> {
    pairs.iter().find_map(|pair| match &pair.content {
        Content::Goto(label) => Some(label.as_slice()),
        _ => None,
    })
}

/// The rules of an accepted text.
pub fn read(text: &[u8]) -> Result<Vec<Rule>, Refusal> {
    if text.len() > sizes::TEXT {
        return Err(Fault::Text.without_line());
    }
    let mut rules = Vec::new();
    for line in lines(text) {
        let at_line = |fault: Fault| fault.at_line(line.number);
        let Some(pairs) = read_line(&line).map_err(at_line)? else {
            continue;
        };
        if rules.len() == sizes::RULES {
            return Err(at_line(Fault::RuleCount));
        }
        rules.push(Rule {
            line: line.number,
            pairs,
            jump: None,
        });
    }
    find_jumps(&mut rules)?;
    Ok(rules)
}

/// The pairs of a line, or `None` if it is skipped.
pub fn read_line(line: &Line) -> Result<Option<Vec<Pair>>, Fault> {
    if line.is_open {
        return Err(Fault::OpenJoin);
    }
    if line.bytes.len() > sizes::LINE || line.bytes.contains(&0) {
        return Err(Fault::Line);
    }
    if is_skipped(&line.bytes) {
        return Ok(None);
    }
    read_pairs(&line.bytes).map(Some)
}

fn read_pairs(line: &[u8]) -> Result<Vec<Pair>, Fault> {
    let mut cursor = Cursor { rest: line };
    let mut pairs = Vec::new();
    loop {
        cursor.skip_blanks();
        let pair = read_pair(&mut cursor)?;
        if pairs.len() == sizes::PAIRS || is_second_label_or_goto(&pair, &pairs) {
            return Err(Fault::PairCount);
        }
        pairs.push(pair);
        cursor.skip_blanks();
        match cursor.next() {
            None => return Ok(pairs),
            Some(b',') => {}
            Some(_) => return Err(Fault::Separator),
        }
    }
}

fn is_second_label_or_goto(pair: &Pair, earlier: &[Pair]) -> bool {
    matches!(pair.key, Key::Label | Key::Goto)
        && earlier.iter().any(|earlier| earlier.key == pair.key)
}

fn read_pair(cursor: &mut Cursor) -> Result<Pair, Fault> {
    let row = read_key(cursor).ok_or(Fault::Key)?;
    let argument = read_argument(cursor, row.argument).ok_or(Fault::Argument)?;
    cursor.skip_blanks();
    let operator = read_operator(cursor)
        .filter(|operator| row.operators.contains(operator))
        .ok_or(Fault::Operator)?;
    cursor.skip_blanks();
    let value = read_value(cursor).ok_or(Fault::Value)?;
    let content = read_content(row.key, argument.unwrap_or_default(), operator, &value)
        .ok_or(Fault::Content)?;
    Ok(Pair {
        key: row.key,
        argument: argument.map(<[u8]>::to_vec),
        operator,
        value,
        content,
    })
}

fn read_key(cursor: &mut Cursor) -> Option<&'static KeyRow> {
    let name = cursor.take_while(|byte| byte.is_ascii_uppercase());
    KEYS.iter().find(|row| row.name.as_bytes() == name)
}

/// The argument without its braces, or `Some(None)` where it may be absent and is.
fn read_argument<'a>(cursor: &mut Cursor<'a>, rule: ArgumentRule) -> Option<Option<&'a [u8]>> {
    if !cursor.take(b"{") {
        return (rule != ArgumentRule::Name).then_some(None);
    }
    let argument = cursor.take_while(|byte| byte != b'}');
    let is_closed = cursor.take(b"}");
    let is_allowed = match rule {
        ArgumentRule::None => false,
        ArgumentRule::Name => (1..=sizes::ARGUMENT).contains(&argument.len()),
        ArgumentRule::RunTypeOrNone => matches!(argument, b"program" | b"builtin"),
    };
    (is_closed && is_allowed).then_some(Some(argument))
}

fn read_operator(cursor: &mut Cursor) -> Option<Operator> {
    // `==` stands before `=` in this list, so the longest is found.
    Operator::ALL
        .into_iter()
        .find(|operator| cursor.take(operator.symbol().as_bytes()))
}

fn read_value(cursor: &mut Cursor) -> Option<Vec<u8>> {
    let value = if cursor.take(b"e\"") {
        read_escaped_value(cursor)?
    } else if cursor.take(b"\"") {
        read_plain_value(cursor)?
    } else {
        return None;
    };
    (value.len() <= sizes::VALUE).then_some(value)
}

/// Reads a value after its `"`, and takes the one that closes it.
fn read_plain_value(cursor: &mut Cursor) -> Option<Vec<u8>> {
    let mut value = Vec::new();
    while !cursor.take(b"\"") {
        if cursor.take(b"\\\"") {
            value.push(b'"');
        } else {
            value.push(cursor.next()?);
        }
    }
    Some(value)
}

/// Reads a value after its `e"`, in which every backslash begins an escape.
fn read_escaped_value(cursor: &mut Cursor) -> Option<Vec<u8>> {
    let mut value = Vec::new();
    while !cursor.take(b"\"") {
        if cursor.take(b"\\") {
            value.push(read_escape(cursor)?);
        } else {
            value.push(cursor.next()?);
        }
    }
    Some(value)
}

/// The byte of an escape, after its backslash.
fn read_escape(cursor: &mut Cursor) -> Option<u8> {
    Some(match cursor.next()? {
        b'a' => 7,
        b'b' => 8,
        b't' => 9,
        b'n' => 10,
        b'v' => 11,
        b'f' => 12,
        b'r' => 13,
        byte @ (b'\\' | b'"' | b'\'') => byte,
        b'x' => {
            let byte = 16 * hexadecimal_digit(cursor.next()?)? + hexadecimal_digit(cursor.next()?)?;
            return (byte != 0).then_some(byte);
        }
        _ => return None,
    })
}

fn hexadecimal_digit(digit: u8) -> Option<u8> {
    let number = char::from(digit).to_digit(16)?;
    u8::try_from(number).ok()
}

fn find_jumps(rules: &mut [Rule]) -> Result<(), Refusal> {
    for index in 0..rules.len() {
        let Some(label) = rules[index].goto() else {
            continue;
        };
        let is_target = |later: &usize| rules[*later].label() == Some(label);
        let target = (index + 1..rules.len()).find(is_target);
        if target.is_none() {
            return Err(Fault::Jump.at_line(rules[index].line));
        }
        rules[index].jump = target;
    }
    Ok(())
}

/// The part of a line that is not read yet.
struct Cursor<'a> {
    rest: &'a [u8],
}

impl<'a> Cursor<'a> {
    fn next(&mut self) -> Option<u8> {
        let (&byte, rest) = self.rest.split_first()?;
        self.rest = rest;
        Some(byte)
    }

    fn take(&mut self, expected: &[u8]) -> bool {
        match self.rest.strip_prefix(expected) {
            Some(rest) => {
                self.rest = rest;
                true
            }
            None => false,
        }
    }

    fn take_while(&mut self, wanted: impl Fn(u8) -> bool) -> &'a [u8] {
        let length = self.rest.iter().take_while(|&&byte| wanted(byte)).count();
        let (taken, rest) = self.rest.split_at(length);
        self.rest = rest;
        taken
    }

    fn skip_blanks(&mut self) {
        self.take_while(is_blank);
    }
}
