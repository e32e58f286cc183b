//! Accounts, transfers and failures, and their bytes.

pub const EVENT_SIZE: usize = 128;

pub const ID_SIZE: usize = 16;

/// The most events of a batch.
pub const BATCH_MAX: u32 = 8190;

pub const CREATE_ACCOUNTS: u8 = 129;
pub const CREATE_TRANSFERS: u8 = 130;
pub const LOOKUP_ACCOUNTS: u8 = 131;

/// Of accounts and transfers.
pub const LINKED: u16 = 1;

/// Of an account.
pub const DEBITS_MUST_NOT_EXCEED_CREDITS: u16 = 2;
pub const CREDITS_MUST_NOT_EXCEED_DEBITS: u16 = 4;

/// Of a transfer.
pub const PENDING: u16 = 2;
pub const POST: u16 = 4;
pub const VOID: u16 = 8;

/// The flags that have a meaning.
pub const KNOWN_FLAGS: u16 = 15;

#[derive(Clone, Copy, Debug)]
#[repr(C)]
pub struct Account {
    pub id: u128,
    pub debits_pending: u128,
    pub debits_posted: u128,
    pub credits_pending: u128,
    pub credits_posted: u128,
    pub user_data_128: u128,
    pub user_data_64: u64,
    pub user_data_32: u32,
    pub reserved: u32,
    pub ledger: u32,
    pub code: u16,
    pub flags: u16,
    pub timestamp: u64,
}

#[derive(Clone, Copy, Debug)]
#[repr(C)]
pub struct Transfer {
    pub id: u128,
    pub debit_account_id: u128,
    pub credit_account_id: u128,
    pub amount: u128,
    pub pending_id: u128,
    pub user_data_128: u128,
    pub user_data_64: u64,
    pub user_data_32: u32,
    pub timeout: u32,
    pub ledger: u32,
    pub code: u16,
    pub flags: u16,
    pub timestamp: u64,
}

/// A failed event: its index, and the number of its result.
#[derive(Clone, Copy, Debug)]
pub struct Failure {
    pub index: u32,
    pub code: u32,
}

fn bytes_at<const N: usize>(bytes: &[u8; EVENT_SIZE], offset: usize) -> [u8; N] {
    bytes[offset..offset + N].try_into().unwrap()
}

impl Account {
    pub fn read(bytes: &[u8; EVENT_SIZE]) -> Account {
        Account {
            id: u128::from_le_bytes(bytes_at(bytes, 0)),
            debits_pending: u128::from_le_bytes(bytes_at(bytes, 16)),
            debits_posted: u128::from_le_bytes(bytes_at(bytes, 32)),
            credits_pending: u128::from_le_bytes(bytes_at(bytes, 48)),
            credits_posted: u128::from_le_bytes(bytes_at(bytes, 64)),
            user_data_128: u128::from_le_bytes(bytes_at(bytes, 80)),
            user_data_64: u64::from_le_bytes(bytes_at(bytes, 96)),
            user_data_32: u32::from_le_bytes(bytes_at(bytes, 104)),
            reserved: u32::from_le_bytes(bytes_at(bytes, 108)),
            ledger: u32::from_le_bytes(bytes_at(bytes, 112)),
            code: u16::from_le_bytes(bytes_at(bytes, 116)),
            flags: u16::from_le_bytes(bytes_at(bytes, 118)),
            timestamp: u64::from_le_bytes(bytes_at(bytes, 120)),
        }
    }

    pub fn has(&self, flag: u16) -> bool {
        self.flags & flag != 0
    }
}

impl Transfer {
    pub fn read(bytes: &[u8; EVENT_SIZE]) -> Transfer {
        Transfer {
            id: u128::from_le_bytes(bytes_at(bytes, 0)),
            debit_account_id: u128::from_le_bytes(bytes_at(bytes, 16)),
            credit_account_id: u128::from_le_bytes(bytes_at(bytes, 32)),
            amount: u128::from_le_bytes(bytes_at(bytes, 48)),
            pending_id: u128::from_le_bytes(bytes_at(bytes, 64)),
            user_data_128: u128::from_le_bytes(bytes_at(bytes, 80)),
            user_data_64: u64::from_le_bytes(bytes_at(bytes, 96)),
            user_data_32: u32::from_le_bytes(bytes_at(bytes, 104)),
            timeout: u32::from_le_bytes(bytes_at(bytes, 108)),
            ledger: u32::from_le_bytes(bytes_at(bytes, 112)),
            code: u16::from_le_bytes(bytes_at(bytes, 116)),
            flags: u16::from_le_bytes(bytes_at(bytes, 118)),
            timestamp: u64::from_le_bytes(bytes_at(bytes, 120)),
        }
    }

    pub fn has(&self, flag: u16) -> bool {
        self.flags & flag != 0
    }
}

/// Whether the event in these bytes is linked; the flags stand at one place in accounts and transfers.
pub fn is_linked(event: &[u8; EVENT_SIZE]) -> bool {
    u16::from_le_bytes(bytes_at(event, 118)) & LINKED != 0
}
