//! Bytes as text: `\xHH` stands for the byte with that hexadecimal number.

/// Printable ASCII as it is, all other bytes and the backslash escaped. Every listing and
/// message shows bytes so.
pub fn escape(text: &[u8]) -> String {
    let mut shown = String::with_capacity(text.len());
    for &byte in text {
        push(&mut shown, byte, matches!(byte, b' '..=b'~'));
    }
    shown
}

/// The same for a text form, in which a space at either end would be lost.
pub fn escape_for_form(text: &[u8]) -> String {
    let last = text.len().saturating_sub(1);
    let mut shown = String::with_capacity(text.len());
    for (place, &byte) in text.iter().enumerate() {
        let is_inside = 0 < place && place < last;
        let is_plain = matches!(byte, b'!'..=b'~') || byte == b' ' && is_inside;
        push(&mut shown, byte, is_plain);
    }
    shown
}

fn push(shown: &mut String, byte: u8, is_plain: bool) {
    if is_plain && byte != b'\\' {
        shown.push(char::from(byte));
    } else {
        shown.push_str(&format!("\\x{byte:02x}"));
    }
}

/// The bytes of a text in which a backslash stands only in `\xHH`.
pub fn unescape(written: &[u8]) -> Result<Vec<u8>, &'static str> {
    let mut text = Vec::with_capacity(written.len());
    let mut rest = written;
    while let Some((&byte, after)) = rest.split_first() {
        rest = after;
        if byte != b'\\' {
            text.push(byte);
            continue;
        }
        let [b'x', high, low, after @ ..] = rest else {
            return Err("a backslash stands only in `\\xHH`; write it as `\\x5c`");
        };
        let byte = hexadecimal(*high, *low).ok_or("`\\x` takes two hexadecimal digits")?;
        text.push(byte);
        rest = after;
    }
    Ok(text)
}

/// The byte that two hexadecimal digits give.
pub fn hexadecimal(high: u8, low: u8) -> Option<u8> {
    let digit = |byte: u8| char::from(byte).to_digit(16);
    Some((digit(high)? << 4 | digit(low)?) as u8)
}
