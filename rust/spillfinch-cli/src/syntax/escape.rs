//! Escapes of a value with an `e` before its mark.

/// The byte that a backslash stands for together with what is written behind it, and how many
/// bytes that takes; or the bytes that are no escape, and why.
pub fn read(behind: &[u8]) -> Result<(u8, usize), (usize, &'static str)> {
    let byte = match behind {
        [b'x', digits @ ..] => return hex(digits),
        [b'a', ..] => 7,
        [b'b', ..] => 8,
        [b'f', ..] => 12,
        [b'n', ..] => b'\n',
        [b'r', ..] => b'\r',
        [b't', ..] => b'\t',
        [b'v', ..] => 11,
        [byte @ (b'\\' | b'"' | b'\''), ..] => *byte,
        [b'0'..=b'7', ..] => return Err((2, "write \\x and two hex digits for a byte")),
        _ => return Err((2, "write \\\\ for a backslash")),
    };
    Ok((byte, 2))
}

fn hex(digits: &[u8]) -> Result<(u8, usize), (usize, &'static str)> {
    let digit = |place: usize| char::from(*digits.get(place)?).to_digit(16);
    match (digit(0), digit(1)) {
        (Some(0), Some(0)) => Err((4, "a value holds no NUL byte")),
        (Some(high), Some(low)) => Ok(((high * 16 + low) as u8, 4)),
        _ => Err((2, "\\x takes two hex digits")),
    }
}

/// A value in its marks: behind an `e` for a newline in it or a backslash at its end, which the
/// plain form cannot say.
pub fn written(value: &[u8]) -> Vec<u8> {
    let is_coded = value.contains(&b'\n') || value.ends_with(b"\\");
    let mut written = match is_coded {
        true => b"e\"".to_vec(),
        false => b"\"".to_vec(),
    };
    for &byte in value {
        match byte {
            b'"' => written.extend_from_slice(b"\\\""),
            b'\n' => written.extend_from_slice(b"\\n"),
            b'\\' if is_coded => written.extend_from_slice(b"\\\\"),
            _ => written.push(byte),
        }
    }
    written.push(b'"');
    written
}
