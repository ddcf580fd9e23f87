#![no_std]
//! The Rust's CH32 storage and boot record, unchanged, over the shared flash.

pub mod hal {
    pub use flash;
}

#[rustfmt::skip]
#[path = "../../docs/src/ch32/src/platform/boot_meta_store.rs"]
pub mod boot_meta_store;
#[rustfmt::skip]
#[path = "../../docs/src/ch32/src/platform/storage.rs"]
pub mod storage;
