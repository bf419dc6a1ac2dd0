//! Small questions about bytes that several parts ask.

/// Space or tab, as between the parts of a rule.
pub fn is_blank(byte: u8) -> bool {
    matches!(byte, b' ' | b'\t')
}

pub fn is_whitespace(byte: u8) -> bool {
    matches!(byte, 9..=13 | 32)
}

pub fn ends_in_whitespace(text: &[u8]) -> bool {
    text.last().is_some_and(|&byte| is_whitespace(byte))
}

pub fn without_trailing_whitespace(mut text: &[u8]) -> &[u8] {
    while ends_in_whitespace(text) {
        text = &text[..text.len() - 1];
    }
    text
}

pub fn all_distinct<'a>(entries: impl IntoIterator<Item = &'a [u8]>) -> bool {
    let mut seen = Vec::new();
    for entry in entries {
        if seen.contains(&entry) {
            return false;
        }
        seen.push(entry);
    }
    true
}
