//! The boot image's tail, which the Rust finds by its linker symbol.

use tinyboot_core::ImageTail;

// Mutable, and in a crate apart from the code that reads it, so that each
// scenario's values are loaded anew.
#[unsafe(export_name = "__tb_tail")]
static mut TAIL: ImageTail = ImageTail {
    compat: tinyboot_core::COMPAT_UNSET,
    version: 0,
};

/// Sets version and compatibility key from now on.
pub fn set(version: u16, compat: u32) {
    // SAFETY: one thread, and no reference to the tail is ever held.
    unsafe { (&raw mut TAIL).write_volatile(ImageTail { compat, version }) };
}
