//! Accounts, transfers and their flags, with the bytes that TigerBeetle gives them.

/// Writes a field at the start of what is left.
fn put(rest: &mut &mut [u8], field: &[u8]) {
    let (own, after) = std::mem::take(rest).split_at_mut(field.len());
    own.copy_from_slice(field);
    *rest = after;
}

/// Cuts a field off the start of what is left.
fn cut<const SIZE: usize>(rest: &mut &[u8]) -> [u8; SIZE] {
    let (own, after) = rest.split_at(SIZE);
    *rest = after;
    own.try_into().expect("as many bytes as the field has")
}

macro_rules! record {
    ($(#[$doc:meta])* $name:ident { $($field:ident: $type:ty,)* }) => {
        $(#[$doc])*
        #[derive(Clone, Copy, Debug, Default, PartialEq, Eq)]
        pub struct $name {
            $(pub $field: $type,)*
        }

        impl $name {
            /// Returns the record's 128 bytes, little-endian.
            pub fn to_bytes(&self) -> [u8; 128] {
                let mut bytes = [0; 128];
                let mut rest = &mut bytes[..];
                $(put(&mut rest, &self.$field.to_le_bytes());)*
                bytes
            }

            /// Returns the record with these bytes.
            pub fn from_bytes(bytes: &[u8; 128]) -> $name {
                let mut rest = &bytes[..];
                $name {
                    $($field: <$type>::from_le_bytes(cut(&mut rest)),)*
                }
            }
        }
    };
}

record! {
    /// An account. Fields that aren't given are 0: `Account { id: 1, ledger: 1, code: 1, ..Account::default() }`.
    Account {
        id: u128,
        debits_pending: u128,
        debits_posted: u128,
        credits_pending: u128,
        credits_posted: u128,
        user_data_128: u128,
        user_data_64: u64,
        user_data_32: u32,
        reserved: u32,
        ledger: u32,
        code: u16,
        flags: u16,
        timestamp: u64,
    }
}

record! {
    /// A transfer. Fields that aren't given are 0.
    Transfer {
        id: u128,
        debit_account_id: u128,
        credit_account_id: u128,
        amount: u128,
        pending_id: u128,
        user_data_128: u128,
        user_data_64: u64,
        user_data_32: u32,
        timeout: u32,
        ledger: u32,
        code: u16,
        flags: u16,
        timestamp: u64,
    }
}

macro_rules! flags {
    ($(#[$doc:meta])* $name:ident { $($flag:ident = $bit:literal,)* }) => {
        $(#[$doc])*
        pub struct $name;

        impl $name {
            $(pub const $flag: u16 = $bit;)*
        }
    };
}

flags! {
    /// The flags of an account, joined by `|`.
    AccountFlags {
        LINKED = 1,
        DEBITS_MUST_NOT_EXCEED_CREDITS = 2,
        CREDITS_MUST_NOT_EXCEED_DEBITS = 4,
        HISTORY = 8,
    }
}

flags! {
    /// The flags of a transfer, joined by `|`.
    TransferFlags {
        LINKED = 1,
        PENDING = 2,
        POST_PENDING_TRANSFER = 4,
        VOID_PENDING_TRANSFER = 8,
    }
}

/// The status of a transfer that is or was pending.
#[derive(Clone, Copy, Debug, PartialEq, Eq)]
pub enum PendingStatus {
    Pending,
    Posted,
    Voided,
    Expired,
}

impl PendingStatus {
    pub(crate) fn of(number: u32) -> Option<PendingStatus> {
        match number {
            1 => Some(PendingStatus::Pending),
            2 => Some(PendingStatus::Posted),
            3 => Some(PendingStatus::Voided),
            4 => Some(PendingStatus::Expired),
            _ => None,
        }
    }
}
