//! Packets: which are admitted, which share a batch, and what the journal keeps of them.

use crate::layout::{
    CREATE_ACCOUNTS, CREATE_TRANSFERS, EVENT_SIZE, ID_SIZE, LOOKUP_ACCOUNTS, is_linked,
};

#[derive(Clone, Copy, Debug)]
pub enum Refusal {
    InvalidOperation = 1,
    InvalidDataSize = 2,
    TooMuchData = 3,
}

/// What a submitter hands in, and gets back.
#[derive(Debug)]
pub struct Packet {
    pub submitter: u32,
    pub operation: u8,
    pub bytes: Vec<u8>,
}

/// A packet's place in a batch of the journal.
pub struct Stub {
    pub submitter: u32,
    pub number: u64,
    pub count: u32,
}

/// What was committed. The journal is kept and, as in `tbpipe`, not printed.
pub enum Entry {
    Batch {
        operation: u8,
        body: Vec<u8>,
        stubs: Vec<Stub>,
    },
    Pulse {
        moment: u64,
    },
}

impl Packet {
    /// How many events it has, or why it is refused.
    pub fn admit(&self, limit: u32) -> Result<u32, Refusal> {
        let size = match self.operation {
            CREATE_ACCOUNTS | CREATE_TRANSFERS => EVENT_SIZE,
            LOOKUP_ACCOUNTS => ID_SIZE,
            _ => return Err(Refusal::InvalidOperation),
        };
        if !self.bytes.len().is_multiple_of(size) {
            return Err(Refusal::InvalidDataSize);
        }
        let count = self.bytes.len() / size;
        if count > limit as usize {
            return Err(Refusal::TooMuchData);
        }
        Ok(count as u32)
    }

    /// Whether it may share a batch: its last event isn't linked, and it is no lookup.
    pub fn may_share(&self) -> bool {
        self.operation != LOOKUP_ACCOUNTS
            && !self.bytes.last_chunk::<EVENT_SIZE>().is_some_and(is_linked)
    }
}
