//! Templates: their pieces, or what is wrong with one.

use super::{did_you_mean, Span};

#[derive(Clone, Copy, Debug, PartialEq, Eq)]
pub enum What {
    /// Bytes that stand for themselves, or a sign that is written twice.
    Text,
    Kernel,
    Number,
    Devpath,
    Id,
    Driver,
    Attr,
    Env,
    Major,
    Minor,
    /// The output that is stored.
    Result,
}

#[derive(Clone, Debug, PartialEq, Eq)]
pub struct Piece<'a> {
    pub what: What,
    pub span: Span,
    /// What stands in braces, of an attribute or a property; else the piece as it is written.
    pub name: &'a [u8],
}

#[derive(Clone, Debug, PartialEq, Eq)]
pub struct TemplateFault {
    pub span: Span,
    pub hint: Option<String>,
}

/// The names behind `$` and the letters behind `%`.
const NAMES: [(&str, Option<u8>, What); 10] = [
    ("kernel", Some(b'k'), What::Kernel),
    ("number", Some(b'n'), What::Number),
    ("devpath", Some(b'p'), What::Devpath),
    ("id", Some(b'b'), What::Id),
    ("driver", None, What::Driver),
    ("attr", Some(b's'), What::Attr),
    ("env", Some(b'E'), What::Env),
    ("major", Some(b'M'), What::Major),
    ("minor", Some(b'm'), What::Minor),
    ("result", Some(b'c'), What::Result),
];

/// Those of udev that the engine does not read.
const UNREAD: [(&str, Option<u8>); 6] = [
    ("name", None),
    ("links", None),
    ("root", Some(b'r')),
    ("sys", Some(b'S')),
    ("devnode", Some(b'N')),
    ("parent", Some(b'P')),
];

const NAME_MOST: usize = 64;

/// The pieces of a template, up to its first fault.
pub fn pieces(template: &[u8]) -> Result<Vec<Piece<'_>>, TemplateFault> {
    let mut pieces = Vec::new();
    let mut place = 0;
    while place < template.len() {
        let piece = piece_at(template, place)?;
        place = piece.span.end;
        pieces.push(piece);
    }
    Ok(pieces)
}

fn piece_at(template: &[u8], start: usize) -> Result<Piece<'_>, TemplateFault> {
    let is_sign = |byte: &u8| matches!(byte, b'$' | b'%');
    let rest = &template[start..];
    let sign = rest[0];
    if !is_sign(&sign) {
        let length = rest.iter().position(is_sign).unwrap_or(rest.len());
        return Ok(text(template, start..start + length));
    }
    if rest.get(1) == Some(&sign) {
        return Ok(text(template, start..start + 2));
    }
    let Some((what, length)) = substitution(&rest[1..], sign) else {
        return Err(unknown(rest, start));
    };
    let end = start + 1 + length;
    if what == What::Result && template.get(end) == Some(&b'{') {
        let written = String::from_utf8_lossy(&template[start..end]);
        return Err(TemplateFault {
            span: start..end + 1,
            hint: Some(format!(
                "{written} inserts the whole output; its parts are not read here"
            )),
        });
    }
    if !matches!(what, What::Attr | What::Env) {
        return Ok(Piece {
            what,
            span: start..end,
            name: &template[start..end],
        });
    }
    braced(template, what, start, end)
}

fn text(template: &[u8], span: Span) -> Piece<'_> {
    Piece {
        what: What::Text,
        name: &template[span.clone()],
        span,
    }
}

/// What a sign is followed by, and how many bytes say so.
fn substitution(rest: &[u8], sign: u8) -> Option<(What, usize)> {
    NAMES.iter().find_map(|&(name, letter, what)| match sign {
        b'$' => rest
            .starts_with(name.as_bytes())
            .then_some((what, name.len())),
        _ => (letter.is_some() && rest.first().copied() == letter).then_some((what, 1)),
    })
}

/// An attribute or a property, whose name in braces begins at `open`.
fn braced(
    template: &[u8],
    what: What,
    start: usize,
    open: usize,
) -> Result<Piece<'_>, TemplateFault> {
    let written = String::from_utf8_lossy(&template[start..open]).into_owned();
    let fault = |end: usize, hint: String| TemplateFault {
        span: start..end,
        hint: Some(hint),
    };
    if template.get(open) != Some(&b'{') {
        let hint = format!("{written} takes a name in braces: {written}{{name}}");
        return Err(fault(open, hint));
    }
    let rest = &template[open + 1..];
    let Some(length) = rest.iter().position(|&byte| byte == b'}') else {
        return Err(fault(open + 1, String::from("no `}` closes this brace")));
    };
    let end = open + length + 2;
    match length {
        0 => Err(fault(end, String::from("the braces are empty"))),
        1..=NAME_MOST => Ok(Piece {
            what,
            span: start..end,
            name: &rest[..length],
        }),
        _ => Err(fault(
            end,
            format!("the name has {length} bytes; {NAME_MOST} are taken"),
        )),
    }
}

/// A sign that nothing known follows.
fn unknown(rest: &[u8], start: usize) -> TemplateFault {
    let sign = char::from(rest[0]);
    let letters = rest[1..]
        .iter()
        .take_while(|byte| byte.is_ascii_lowercase())
        .count();
    let word = String::from_utf8_lossy(&rest[1..1 + letters]);
    let is_unread = |(name, letter): &(&str, Option<u8>)| match sign {
        '$' => word.starts_with(name),
        _ => letter.is_some() && rest.get(1).copied() == *letter,
    };
    let names: Vec<String> = NAMES.iter().map(|row| format!("${}", row.0)).collect();
    let unread = UNREAD.iter().find(|row| is_unread(row));
    let alike = || match sign {
        '$' => did_you_mean(&format!("${word}"), names.iter().map(String::as_str)),
        _ => None,
    };
    let hint = match unread {
        Some((name, _)) => format!("udev's ${name} is not read here"),
        None => alike().unwrap_or_else(|| format!("write {sign}{sign} for the sign itself")),
    };
    let length = if sign == '$' { 1 + letters } else { 2 };
    TemplateFault {
        span: start..start + length.min(rest.len()),
        hint: Some(hint),
    }
}
