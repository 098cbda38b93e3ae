//! Stand-in for the crate's shreds: a shred is its place, and holds no data.

use crate::Slot;

/// Number of shreds of a slice, as in the commit's shredder.rs.
pub const TOTAL_SHREDS: usize = 64;

pub struct Shred(ShredPayload);

impl Shred {
    /// A shred of the first slice of the first slot. As in the commit's
    /// shred_index.rs, no index is `TOTAL_SHREDS` or above.
    pub fn at(index: usize) -> Self {
        assert!(index < TOTAL_SHREDS, "no shred index");
        let header = SliceHeader {
            slot: Slot::new(0),
            slice_index: Index(0),
        };
        Self(ShredPayload {
            header,
            shred_index: Index(index),
        })
    }

    pub fn payload(&self) -> &ShredPayload {
        &self.0
    }
}

pub struct ShredPayload {
    pub header: SliceHeader,
    pub shred_index: Index,
}

impl ShredPayload {
    pub fn index_in_slot(&self) -> usize {
        self.header.slice_index.inner() * TOTAL_SHREDS + self.shred_index.inner()
    }
}

pub struct SliceHeader {
    pub slot: Slot,
    pub slice_index: Index,
}

pub struct Index(usize);

impl Index {
    pub fn inner(&self) -> usize {
        self.0
    }
}
