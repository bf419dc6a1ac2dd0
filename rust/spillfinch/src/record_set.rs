//! Sets of records, as the library is lent them.

use crate::set::{lent, put_long};

/// An outcome record, and the record of the device that it belongs to.
#[derive(Clone, Copy, Debug, PartialEq, Eq)]
pub struct RecordPair<'a> {
    pub device: &'a [u8],
    pub outcome: &'a [u8],
}

/// The bytes of a set, if its counts and lengths can be said.
pub fn lent_records(records: &[RecordPair]) -> Option<Vec<u8>> {
    lent(records, |set, record| {
        put_long(set, record.device)?;
        put_long(set, record.outcome)
    })
}
