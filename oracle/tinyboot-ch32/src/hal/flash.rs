//! Simulated flash in place of the chip's module: the same names, run-time
//! geometry.
//!
//! The Rust keeps addresses in 32 bits and reads the flash through them, so
//! the memory lies below 4 GiB. Around it nothing is readable: a read past
//! the end of the flash faults instead of finding something.

use std::ffi::{c_int, c_void};
use std::slice::from_raw_parts_mut;
use std::sync::atomic::{AtomicU32, Ordering::Relaxed};

/// Page of the chip, the unit of erase and the most one write may carry.
pub const PAGE_SIZE: usize = 64;
/// Largest app region.
pub const MAX_CAPACITY: u32 = 65_536;
/// Length of the boot record.
pub const RECORD: usize = 12;

static META: AtomicU32 = AtomicU32::new(0);
static FLASH_END: AtomicU32 = AtomicU32::new(0);
static CAPACITY: AtomicU32 = AtomicU32::new(0);
static REWRITES: AtomicU32 = AtomicU32::new(0);

// Linux. No crate of bindings: the build has no registry.
unsafe extern "C" {
    fn mmap(
        a: *mut c_void,
        len: usize,
        prot: c_int,
        flags: c_int,
        fd: c_int,
        at: i64,
    ) -> *mut c_void;
    fn munmap(a: *mut c_void, len: usize) -> c_int;
    fn mprotect(a: *mut c_void, len: usize, prot: c_int) -> c_int;
}
const PROT_NONE: c_int = 0;
const PROT_READ_WRITE: c_int = 3;
const MAP_PRIVATE_ANONYMOUS_NORESERVE: c_int = 0x02 | 0x20 | 0x4000;

/// A whole number of memory pages, whatever their size.
const GRAIN: usize = 65_536;

/// Maps the memory, once, at the largest size: guard, record, guard, flash,
/// guard. The record lies below the flash, and the last guard is as long as
/// a 32-bit number reaches, so no stored size leads to readable memory.
pub fn map() -> Result<(), &'static str> {
    for guard in [(4usize << 30) + GRAIN, GRAIN] {
        let len = 4 * GRAIN + guard;
        for hint in (1..8).map(|n| n << 28) {
            // SAFETY: a hint, not a demand: nothing mapped is replaced.
            let at = unsafe {
                let flags = MAP_PRIVATE_ANONYMOUS_NORESERVE;
                mmap(hint as *mut c_void, len, PROT_NONE, flags, -1, 0)
            };
            if at as isize == -1 {
                break;
            }
            let base = at as usize;
            if base >= 1 << 31 {
                // SAFETY: just mapped, and in no use.
                unsafe { munmap(at, len) };
                continue;
            }
            let (record, flash) = (base + GRAIN, base + 3 * GRAIN);
            for part in [record, flash] {
                // SAFETY: inside the mapping made above.
                if unsafe { mprotect(part as *mut c_void, GRAIN, PROT_READ_WRITE) } != 0 {
                    return Err("cannot open the flash's memory");
                }
            }
            META.store((record + GRAIN - PAGE_SIZE) as u32, Relaxed);
            FLASH_END.store((flash + GRAIN) as u32, Relaxed);
            return Ok(());
        }
    }
    Err("no memory below 4 GiB to map")
}

/// A new chip: this capacity (a multiple of the page, not 0, at most
/// [`MAX_CAPACITY`]), flash and record erased. The flash ends where the
/// mapping ends.
pub fn renew(capacity: u32) {
    assert!(capacity != 0 && capacity <= MAX_CAPACITY && capacity.is_multiple_of(PAGE_SIZE as u32));
    CAPACITY.store(capacity, Relaxed);
    REWRITES.store(0, Relaxed);
    bytes().fill(0xFF);
    page_of_record().fill(0xFF);
}

/// How often the record was rewritten since the chip is new: each rewrite
/// erases it once, and nothing else does.
pub fn rewrites() -> u32 {
    REWRITES.load(Relaxed)
}

/// The app region's bytes. Not to be held across a call of the Rust, which
/// reads them through its own slices.
pub fn bytes() -> &'static mut [u8] {
    // SAFETY: mapped, one thread, and see above.
    unsafe { from_raw_parts_mut(app_base() as *mut u8, app_capacity() as usize) }
}

/// The record's bytes. As [`bytes`].
pub fn record() -> &'static mut [u8] {
    &mut page_of_record()[..RECORD]
}

fn page_of_record() -> &'static mut [u8] {
    // SAFETY: as in `bytes`.
    unsafe { from_raw_parts_mut(meta_addr() as *mut u8, PAGE_SIZE) }
}

/// Boot metadata address.
pub fn meta_addr() -> u32 {
    META.load(Relaxed)
}

/// App region capacity.
pub fn app_capacity() -> u32 {
    CAPACITY.load(Relaxed)
}

/// App region base.
pub fn app_base() -> u32 {
    FLASH_END.load(Relaxed) - CAPACITY.load(Relaxed)
}

/// Erases the page at `addr`.
pub fn erase(addr: u32) {
    if addr == meta_addr() {
        REWRITES.fetch_add(1, Relaxed);
        page_of_record().fill(0xFF);
    } else {
        match page_at(addr) {
            Some(at) => bytes()[at..at + PAGE_SIZE].fill(0xFF),
            None => panic!("stray erase"),
        }
    }
}

/// Writes at most a page from `addr`: a bit once 0 stays 0 until erased.
pub fn write(addr: u32, data: &[u8]) {
    let cells = if addr == meta_addr() {
        record().get_mut(..data.len())
    } else {
        page_at(addr).and_then(|at| bytes()[at..at + PAGE_SIZE].get_mut(..data.len()))
    };
    match cells {
        Some(cells) => cells.iter_mut().zip(data).for_each(|(c, d)| *c &= d),
        None => panic!("stray write"),
    }
}

/// Place in the app region of the page that begins at `addr`, if one does.
fn page_at(addr: u32) -> Option<usize> {
    let at = addr.checked_sub(app_base())?;
    (at < app_capacity() && at.is_multiple_of(PAGE_SIZE as u32)).then_some(at as usize)
}
