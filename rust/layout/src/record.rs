//! A record.

use std::collections::BTreeSet;

use hedjosur_model::record::Record;

use crate::places::RECORD_BYTES;

/// The record of eight bytes, which owns nothing yet.
pub(crate) fn decode_record(bytes: [u8; RECORD_BYTES]) -> Record {
    let [start, span, w0, w1, i0, i1, i2, i3] = bytes;
    Record {
        start,
        span,
        word: u16::from_le_bytes([w0, w1]),
        intercept: i32::from_le_bytes([i0, i1, i2, i3]),
        owns: BTreeSet::new(),
    }
}
