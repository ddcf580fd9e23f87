//! The record's store: the Rust's own, kept where all that is built over it
//! finds the same one, the dispatcher or the app that reads a stream and the
//! app whose `confirm` or `set_baud` comes in between.

use std::cell::UnsafeCell;

use tinyboot_ch32::boot_meta_store::{BootMetaError, BootMetaStore};
use tinyboot_core::traits::{self, BootState};

struct StoreCell(UnsafeCell<Option<BootMetaStore>>);

// SAFETY: the driver has one thread.
unsafe impl Sync for StoreCell {}

static STORE: StoreCell = StoreCell(UnsafeCell::new(None));

/// Reads the record anew.
pub fn load() {
    // SAFETY: one thread, and no reference to the store outlives a call.
    unsafe { *STORE.0.get() = Some(BootMetaStore::default()) };
}

fn store() -> &'static mut BootMetaStore {
    // SAFETY: as in `load`.
    unsafe { (*STORE.0.get()).as_mut().expect("the record is loaded first") }
}

/// The store, by its name: each call is handed on.
pub struct Shared;

impl traits::BootMetaStore for Shared {
    type Error = BootMetaError;

    fn boot_state(&self) -> BootState {
        store().boot_state()
    }

    fn has_trials(&self) -> bool {
        store().has_trials()
    }

    fn app_checksum(&self) -> u16 {
        store().app_checksum()
    }

    fn app_size(&self) -> u32 {
        store().app_size()
    }

    fn baud(&self) -> u8 {
        store().baud()
    }

    fn set_baud(&mut self, baud: u8) -> Result<(), BootMetaError> {
        store().set_baud(baud)
    }

    fn advance(&mut self) -> Result<BootState, BootMetaError> {
        store().advance()
    }

    fn consume_trial(&mut self) -> Result<(), BootMetaError> {
        store().consume_trial()
    }

    fn refresh(&mut self, checksum: u16, state: BootState, size: u32) -> Result<(), BootMetaError> {
        store().refresh(checksum, state, size)
    }
}
