//! The names of links.

use crate::sizes;

/// The names in a substituted text.
pub fn split_names(text: &[u8]) -> impl Iterator<Item = &[u8]> {
    text.split(|&byte| byte == b' ')
        .filter(|name| !name.is_empty())
}

/// The text with `_` for every byte that a link name should not have.
pub fn cleaned(text: &[u8]) -> Vec<u8> {
    text.iter()
        .map(|&byte| if is_clean(byte) { byte } else { b'_' })
        .collect()
}

fn is_clean(byte: u8) -> bool {
    byte.is_ascii_alphanumeric() || b"#+-.:=@_/".contains(&byte)
}

/// Refusal 31 is given for every other name.
pub fn is_sound_link(name: &[u8]) -> bool {
    name.len() <= sizes::LINK
        && name
            .split(|&byte| byte == b'/')
            .all(|component| !matches!(component, b"" | b"." | b".."))
}
