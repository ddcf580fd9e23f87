//! The Rust's CH32 storage and boot record, unchanged, over a flash of ours.

pub mod hal;
pub mod tail;

// Not ours to format, either.
#[rustfmt::skip]
#[path = "../../../docs/src/ch32/src/platform/boot_meta_store.rs"]
pub mod boot_meta_store;
#[rustfmt::skip]
#[path = "../../../docs/src/ch32/src/platform/storage.rs"]
pub mod storage;
