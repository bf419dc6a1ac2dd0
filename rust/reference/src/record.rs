//! Packed records: fields of bits, most significant first, and texts of whole bytes.

use std::ops::RangeInclusive;

pub struct BitReader<'a> {
    record: &'a [u8],
    /// Counted in bits.
    position: usize,
}

/// Every method gives `None` where the record is faulty.
impl<'a> BitReader<'a> {
    pub fn new(record: &'a [u8]) -> Self {
        BitReader {
            record,
            position: 0,
        }
    }

    fn bit(&mut self) -> Option<u32> {
        let byte = *self.record.get(self.position / 8)?;
        let shift = 7 - self.position % 8;
        self.position += 1;
        Some(u32::from(byte >> shift & 1))
    }

    pub fn field(&mut self, width: u32) -> Option<u32> {
        let mut number = 0;
        for _ in 0..width {
            number = number << 1 | self.bit()?;
        }
        Some(number)
    }

    pub fn flag(&mut self) -> Option<bool> {
        Some(self.bit()? == 1)
    }

    pub fn count(&mut self, width: u32) -> Option<usize> {
        Some(self.field(width)? as usize)
    }

    pub fn unused(&mut self, width: u32) -> Option<()> {
        (self.field(width)? == 0).then_some(())
    }

    /// The fields before each text fill whole bytes, so a text starts at a byte.
    pub fn text(&mut self, length: usize) -> Option<Vec<u8>> {
        let text = self.bytes(length)?;
        (!text.contains(&0)).then_some(text)
    }

    /// Any bytes, NUL among them.
    pub fn bytes(&mut self, length: usize) -> Option<Vec<u8>> {
        debug_assert_eq!(self.position % 8, 0);
        let start = self.position / 8;
        let bytes = self.record.get(start..start + length)?;
        self.position += 8 * length;
        Some(bytes.to_vec())
    }

    /// Any bytes behind their length, as in a set.
    pub fn long_bytes(&mut self) -> Option<Vec<u8>> {
        let length = self.count(16)?;
        self.bytes(length)
    }

    pub fn end(&self) -> Option<()> {
        (self.position == 8 * self.record.len()).then_some(())
    }
}

#[derive(Default)]
pub struct BitWriter {
    record: Vec<u8>,
    /// How many bits of the last byte are written; 0 if it is whole.
    bits_in_last: u32,
}

impl BitWriter {
    pub fn new() -> Self {
        BitWriter::default()
    }

    fn bit(&mut self, bit: u32) {
        if self.bits_in_last == 0 {
            self.record.push(0);
        }
        let shift = 7 - self.bits_in_last;
        *self.record.last_mut().expect("a byte was pushed") |= (bit as u8) << shift;
        self.bits_in_last = (self.bits_in_last + 1) % 8;
    }

    pub fn field(&mut self, width: u32, number: u32) {
        assert!(
            u64::from(number) < 1 << width,
            "{number} does not fit into {width} bits"
        );
        for shift in (0..width).rev() {
            self.bit(number >> shift & 1);
        }
    }

    pub fn flag(&mut self, flag: bool) {
        self.bit(u32::from(flag));
    }

    pub fn count(&mut self, width: u32, count: usize) {
        self.field(width, u32::try_from(count).expect("a small count"));
    }

    pub fn unused(&mut self, width: u32) {
        self.field(width, 0);
    }

    pub fn text(&mut self, text: &[u8]) {
        debug_assert_eq!(self.bits_in_last, 0);
        self.record.extend_from_slice(text);
    }

    pub fn long_bytes(&mut self, bytes: &[u8]) {
        self.count(16, bytes.len());
        self.text(bytes);
    }

    pub fn finish(self) -> Vec<u8> {
        self.record
    }
}

// ---- sets

/// The entries of a set: their number in a byte, then one behind the other, and nothing behind the last. `None` if there are not as
/// many as a set may have, or if one is not there.
pub fn read_entries<T>(
    set: &[u8],
    counts: RangeInclusive<usize>,
    read: impl Fn(&mut BitReader) -> Option<T>,
) -> Option<Vec<T>> {
    let mut reader = BitReader::new(set);
    let count = reader.count(8)?;
    if !counts.contains(&count) {
        return None;
    }
    let entries = (0..count)
        .map(|_| read(&mut reader))
        .collect::<Option<_>>()?;
    reader.end()?;
    Some(entries)
}

/// The set of entries whose number and lengths fit into their fields.
pub fn write_entries<T>(entries: &[T], write: impl Fn(&T, &mut BitWriter)) -> Vec<u8> {
    let mut writer = BitWriter::new();
    writer.count(8, entries.len());
    for entry in entries {
        write(entry, &mut writer);
    }
    writer.finish()
}
