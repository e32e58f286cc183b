//! The declarations of `include/kip.h`.

use std::ffi::c_void;

/// All replies are read, or none is there yet.
pub(crate) const NO_REPLY: u32 = 102;
/// The buffer is too small for the results, or for an entry's data.
pub(crate) const TOO_SMALL: u32 = 103;
/// There is no such account or transfer.
pub(crate) const NOT_FOUND: u32 = 104;
/// All that is committed was handed out.
pub(crate) const NO_ENTRY: u32 = 107;

/// The outcome of a packet that is committed.
pub(crate) const COMMITTED: u32 = 0;
/// The outcome of a packet that was queued after the Close. The only other one is that of a ledger that stopped.
pub(crate) const SHUTDOWN: u32 = 7;

#[repr(C)]
pub(crate) struct Handle {
    engine: *mut c_void,
    is_open: bool,
}

impl Handle {
    pub(crate) fn closed() -> Handle {
        Handle {
            engine: std::ptr::null_mut(),
            is_open: false,
        }
    }
}

/// The head of a reply.
#[repr(C)]
#[derive(Clone, Copy, Default)]
pub(crate) struct Head {
    pub(crate) user_data: u64,
    pub(crate) number: u64,
    pub(crate) place: u64,
    pub(crate) size: u64,
    pub(crate) submitter: u32,
    pub(crate) outcome: u32,
    pub(crate) operation: u32,
    reserved: u32,
}

/// The head of an entry.
#[repr(C)]
#[derive(Clone, Copy, Default)]
pub(crate) struct EntryHead {
    pub(crate) place: u64,
    pub(crate) moment: u64,
    pub(crate) number: u64,
    pub(crate) size: u64,
    pub(crate) submitter: u32,
    pub(crate) operation: u32,
}

/// How much a ledger stores.
#[repr(C)]
#[derive(Clone, Copy, Debug, Default, PartialEq, Eq)]
pub struct Counts {
    pub accounts: u64,
    pub transfers: u64,
    /// The ids of transfers that failed so that later transfers with them fail as `IdAlreadyFailed`. Each takes 36 bytes, and nothing limits
    /// them.
    pub failed_ids: u64,
}

extern "C" {
    pub(crate) fn kip_version() -> u32;
    pub(crate) fn kip_open(kip: *mut Handle, clock: u64, limit: u32, submitters: u32) -> u32;
    pub(crate) fn kip_open_seeded(
        kip: *mut Handle,
        clock: u64,
        limit: u32,
        submitters: u32,
        seed_low: u64,
        seed_high: u64,
    ) -> u32;
    pub(crate) fn kip_open_recorded(
        kip: *mut Handle,
        clock: u64,
        limit: u32,
        submitters: u32,
        seed_low: u64,
        seed_high: u64,
    ) -> u32;
    pub(crate) fn kip_reserve(kip: *mut Handle, accounts: usize, transfers: usize) -> u32;
    pub(crate) fn kip_close(kip: *mut Handle) -> u32;
    pub(crate) fn kip_submit_bytes(
        kip: *mut Handle,
        submitter: u32,
        operation: u8,
        data: *const u8,
        data_size: usize,
        user_data: u64,
        number: *mut u64,
    ) -> u32;
    pub(crate) fn kip_pulse(kip: *mut Handle, nanoseconds: u64) -> u32;
    pub(crate) fn kip_shut(kip: *mut Handle) -> u32;
    pub(crate) fn kip_flush(kip: *mut Handle) -> u32;
    pub(crate) fn kip_reply_bytes(
        kip: *mut Handle,
        reply: *mut Head,
        results: *mut u8,
        results_size: usize,
    ) -> u32;
    pub(crate) fn kip_entry_bytes(
        kip: *mut Handle,
        entry: *mut EntryHead,
        data: *mut u8,
        data_size: usize,
    ) -> u32;
    pub(crate) fn kip_durable(kip: *mut Handle, places: u64) -> u32;
    pub(crate) fn kip_restore_bytes(
        kip: *mut Handle,
        entry: *const EntryHead,
        data: *const u8,
        data_size: usize,
    ) -> u32;
    pub(crate) fn kip_lookup_account(
        kip: *mut Handle,
        id_low: u64,
        id_high: u64,
        account: *mut [u8; 128],
    ) -> u32;
    pub(crate) fn kip_account_at(kip: *mut Handle, index: usize, account: *mut [u8; 128]) -> u32;
    pub(crate) fn kip_lookup_transfer(
        kip: *mut Handle,
        id_low: u64,
        id_high: u64,
        transfer: *mut [u8; 128],
        pending_status: *mut u32,
    ) -> u32;
    pub(crate) fn kip_transfer_at(
        kip: *mut Handle,
        index: usize,
        transfer: *mut [u8; 128],
        pending_status: *mut u32,
    ) -> u32;
    pub(crate) fn kip_stopped(kip: *mut Handle) -> u32;
    pub(crate) fn kip_counts(kip: *mut Handle, counts: *mut Counts) -> u32;
    pub(crate) fn kip_clock(kip: *mut Handle, nanoseconds: *mut u64) -> u32;
    pub(crate) fn kip_places(kip: *mut Handle, places: *mut u64) -> u32;
}
