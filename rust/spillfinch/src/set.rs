//! The bytes of a set, as the library is lent it: counts and lengths before what they count.

/// A count and the bytes of each entry, if all counts and lengths can be said.
pub fn lent<T>(entries: &[T], put: impl Fn(&mut Vec<u8>, &T) -> Option<()>) -> Option<Vec<u8>> {
    let mut set = vec![u8::try_from(entries.len()).ok()?];
    for entry in entries {
        put(&mut set, entry)?;
    }
    Some(set)
}

/// Bytes behind their length in 8 bits.
pub fn put_short(set: &mut Vec<u8>, bytes: &[u8]) -> Option<()> {
    set.push(u8::try_from(bytes.len()).ok()?);
    set.extend(bytes);
    Some(())
}

/// Bytes behind their length in 16 bits.
pub fn put_long(set: &mut Vec<u8>, bytes: &[u8]) -> Option<()> {
    set.extend(u16::try_from(bytes.len()).ok()?.to_be_bytes());
    set.extend(bytes);
    Some(())
}
