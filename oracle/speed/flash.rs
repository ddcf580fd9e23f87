#![no_std]
//! The simulated chip under all sides: pages of 64, erase to 0xFF, a write keeps old AND new. The names are those of the chip's module, which
//! the Rust's storage and record call. The program is linked at fixed low addresses, since the Rust keeps an address in 32 bits.

use core::slice::from_raw_parts_mut;

pub const PAGE_SIZE: usize = 64;
pub const CAPACITY: usize = 65_536;
pub const RECORD: usize = 12;

#[repr(align(65536))]
struct Cells([u8; CAPACITY]);
#[repr(align(64))]
struct Page([u8; PAGE_SIZE]);

static mut FLASH: Cells = Cells([0xFF; CAPACITY]);
static mut META: Page = Page([0xFF; PAGE_SIZE]);

#[inline(always)]
pub fn meta_addr() -> u32 {
    (&raw const META) as usize as u32
}

#[inline(always)]
pub fn app_capacity() -> u32 {
    CAPACITY as u32
}

#[inline(always)]
pub fn app_base() -> u32 {
    (&raw const FLASH) as usize as u32
}

#[inline]
pub fn erase(addr: u32) {
    // SAFETY: the Rust erases pages of the two statics only; one thread.
    unsafe { from_raw_parts_mut(addr as usize as *mut u8, PAGE_SIZE) }.fill(0xFF);
}

#[inline]
pub fn write(addr: u32, data: &[u8]) {
    // SAFETY: as above.
    let cells = unsafe { from_raw_parts_mut(addr as usize as *mut u8, data.len()) };
    for (cell, byte) in cells.iter_mut().zip(data) {
        *cell &= byte;
    }
}

/// All cells, for who does not go through the calls above.
pub fn cells() -> &'static mut [u8] {
    // SAFETY: one thread, and not held across a call of the Rust.
    unsafe { &mut (*&raw mut FLASH).0 }
}

/// The record. As `cells`.
pub fn record() -> &'static mut [u8] {
    // SAFETY: as above.
    unsafe { &mut (*&raw mut META).0[..RECORD] }
}
