//! What the sides share: the flash, what came back on the wire, and what a side is.

use std::time::Duration;

pub use flash;

/// The id of the addressed device.
pub static ID: [u8; 12] = [0x5A, 0x01, 0xC3, 0x7E, 0x00, 0xFF, 0x10, 0x32, 0x54, 0x76, 0x98, 0xBA];

/// What came back on the wire. Off, replies are counted; on, they are kept with their place and wait.
#[derive(Default)]
pub struct Log {
    pub on: bool,
    pub replies: usize,
    pub kept: Vec<(usize, u8, Vec<u8>)>,
}

impl Log {
    #[inline(always)]
    pub fn reply(&mut self, at: usize, wait: u8, bytes: &[u8]) {
        self.replies += 1;
        if self.on {
            self.kept.push((at, wait, bytes.to_vec()));
        }
    }
}

/// One implementation. `piece` is how many bytes come at a time: 64, 16, 1, or 0 for all that are left.
pub struct Side {
    pub name: &'static str,
    pub crc: fn(&[u8]) -> u16,
    pub upload: fn(stream: &[u8], piece: usize, log: &mut Log),
    pub select: fn(stream: &[u8], log: &mut Log),
    /// A start that asks for the app: how long until it is decided, and whether the app is run.
    pub start: fn() -> (Duration, bool),
}
