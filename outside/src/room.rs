//! Where the logger writes its records.

/// Bytes in a record.
pub const RECORD: usize = 28;

#[derive(Clone, Copy)]
pub struct Record {
    /// The kind, and the mark in its second byte.
    pub head: u32,
    pub start: u64,
    pub duration: u64,
    pub first: u32,
    pub second: u32,
}

impl Record {
    fn write(&self, b: &mut [u8; RECORD]) {
        b[..4].copy_from_slice(&self.head.to_le_bytes());
        b[4..12].copy_from_slice(&self.start.to_le_bytes());
        b[12..20].copy_from_slice(&self.duration.to_le_bytes());
        b[20..24].copy_from_slice(&self.first.to_le_bytes());
        b[24..].copy_from_slice(&self.second.to_le_bytes());
    }
}

/// The first number of a record.
pub fn head(kind: u32, clipped: bool) -> u32 {
    kind | (clipped as u32) << 8
}

/// Where records go.
pub struct Room<'a> {
    pub bytes: &'a mut [u8],
    /// Bytes written so far.
    pub used: usize,
}

impl Room<'_> {
    /// Writes the records due at one value: all, or none if they do not fit.
    pub fn write(&mut self, due: [Option<Record>; 4]) -> bool {
        let count = due.iter().flatten().count();
        let Some(room) = self.bytes[self.used..].get_mut(..RECORD * count) else {
            return false;
        };
        for (place, x) in room.as_chunks_mut().0.iter_mut().zip(due.iter().flatten()) {
            x.write(place);
        }
        self.used += RECORD * count;
        true
    }
}
