//! Packed records: groups of fields that fill whole bytes, and texts between them.

/// A property or an attribute.
#[derive(Clone, Debug, PartialEq, Eq)]
pub struct Entry {
    pub name: Vec<u8>,
    pub value: Vec<u8>,
}

const ENTRY: [u32; 2] = [7, 9];

impl Entry {
    pub fn new(name: impl Into<Vec<u8>>, value: impl Into<Vec<u8>>) -> Entry {
        Entry {
            name: name.into(),
            value: value.into(),
        }
    }

    /// How many bytes of a record it takes.
    pub fn packed_length(&self) -> usize {
        2 + self.name.len() + self.value.len()
    }
}

pub fn value_of<'a>(entries: &'a [Entry], name: &[u8]) -> Option<&'a [u8]> {
    let entry = entries.iter().find(|entry| entry.name == name)?;
    Some(&entry.value)
}

pub struct Reader<'a> {
    rest: &'a [u8],
}

/// Every method gives `None` where the record ends too early.
impl<'a> Reader<'a> {
    pub fn new(record: &'a [u8]) -> Reader<'a> {
        Reader { rest: record }
    }

    /// Numbers of these widths in bits, the most significant bit first.
    pub fn fields<const N: usize>(&mut self, widths: [u32; N]) -> Option<[usize; N]> {
        let width: u32 = widths.iter().sum();
        let bytes = self.bytes(width as usize / 8)?;
        let bits = bytes
            .iter()
            .fold(0, |bits: u128, &byte| bits << 8 | u128::from(byte));
        let mut left = width;
        Some(widths.map(|width| {
            left -= width;
            (bits >> left) as usize & ((1 << width) - 1)
        }))
    }

    fn bytes(&mut self, length: usize) -> Option<&'a [u8]> {
        let bytes = self.rest.get(..length)?;
        self.rest = &self.rest[length..];
        Some(bytes)
    }

    pub fn text(&mut self, length: usize) -> Option<Vec<u8>> {
        self.bytes(length).map(<[u8]>::to_vec)
    }

    pub fn entries(&mut self, count: usize) -> Option<Vec<Entry>> {
        let mut entry = || {
            let [name, value] = self.fields(ENTRY)?;
            Some(Entry {
                name: self.text(name)?,
                value: self.text(value)?,
            })
        };
        (0..count).map(|_| entry()).collect()
    }

    pub fn end(&self) -> Option<()> {
        self.rest.is_empty().then_some(())
    }
}

#[derive(Default)]
pub struct Writer {
    record: Vec<u8>,
    /// Set by a number that its field cannot hold.
    overflows: bool,
}

impl Writer {
    pub fn fields<const N: usize>(&mut self, widths: [u32; N], numbers: [usize; N]) {
        let mut bits: u128 = 0;
        for (&width, number) in widths.iter().zip(numbers) {
            self.overflows |= number >> width != 0;
            bits = bits << width | number as u128;
        }
        let length = widths.iter().sum::<u32>() as usize / 8;
        let bytes = bits.to_be_bytes();
        self.record
            .extend_from_slice(&bytes[bytes.len() - length..]);
    }

    pub fn text(&mut self, text: &[u8]) {
        self.record.extend_from_slice(text);
    }

    pub fn entries(&mut self, entries: &[Entry]) {
        for Entry { name, value } in entries {
            self.fields(ENTRY, [name.len(), value.len()]);
            self.text(name);
            self.text(value);
        }
    }

    /// The record, or `None` if a number did not fit into its field.
    pub fn finish(self) -> Option<Vec<u8>> {
        (!self.overflows).then_some(self.record)
    }
}
