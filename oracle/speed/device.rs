//! The Rust as a side. Built once for each variant of its crates.

use std::panic::{AssertUnwindSafe, catch_unwind, resume_unwind};
use std::time::{Duration, Instant};

use common::flash::PAGE_SIZE;
use common::{ID, Log, Side};
use tinyboot_ch32::boot_meta_store::BootMetaStore;
use tinyboot_ch32::storage::Storage;
use tinyboot_core::addressing::{Addressable, Addressing, Unaddressed};
use tinyboot_core::protocol::Dispatcher;
use tinyboot_core::traits::{BootCtl, RunMode, Transport};
use tinyboot_core::{Core, Platform};
use tinyboot_protocol::DEFAULT_PAYLOAD;
use tinyboot_protocol::crc::{CRC_INIT, crc16};

pub fn side(name: &'static str) -> Side {
    Side { name, crc, upload, select, start }
}

fn crc(bytes: &[u8]) -> u16 {
    crc16(CRC_INIT, bytes)
}

fn upload(stream: &[u8], piece: usize, log: &mut Log) {
    match piece {
        0 => dispatch_all::<0, _>(stream, Unaddressed, log),
        1 => dispatch_all::<1, _>(stream, Unaddressed, log),
        16 => dispatch_all::<16, _>(stream, Unaddressed, log),
        64 => dispatch_all::<64, _>(stream, Unaddressed, log),
        _ => panic!("no piece of {piece}"),
    }
}

fn id() -> &'static [u8; 12] {
    &ID
}

fn select(stream: &[u8], log: &mut Log) {
    dispatch_all::<0, _>(stream, Addressable::new(id), log);
}

/// Puts a stream to a new dispatcher until it has read all.
fn dispatch_all<const PIECE: usize, A: Addressing>(stream: &[u8], addressing: A, log: &mut Log) {
    let wire = Wire::<PIECE> { rest: stream, all: stream.len(), wait: 0, room: [0; 64], sent: 0, log };
    let mut platform = Platform::new(wire, Storage::default(), BootMetaStore::default(), Ctl);
    let mut dispatcher =
        Dispatcher::<_, _, _, _, PAGE_SIZE, DEFAULT_PAYLOAD, A>::with_addressing(&mut platform, addressing);
    while dispatcher.dispatch().is_ok() {}
}

/// The app is run: when that was decided.
struct HandOff(Instant);
/// The start goes on to listen: when it did.
struct Listens(Instant);

/// The clock is stopped where the Rust leaves, before it is unwound.
fn start() -> (Duration, bool) {
    let mut log = Log::default();
    let wire = Waits { log: &mut log };
    let platform = Platform::new(wire, Storage::default(), BootMetaStore::default(), Ctl);
    let core = Core::<_, _, _, _, PAGE_SIZE>::new(platform);
    let begun = Instant::now();
    let Err(payload) = catch_unwind(AssertUnwindSafe(|| -> std::convert::Infallible { core.run() }));
    match payload.downcast::<HandOff>() {
        Ok(left) => (left.0 - begun, true),
        Err(payload) => (payload.downcast::<Listens>().expect("no start ends so").0 - begun, false),
    }
}

#[derive(Debug)]
struct Ended;

impl embedded_io::Error for Ended {
    fn kind(&self) -> embedded_io::ErrorKind {
        embedded_io::ErrorKind::Other
    }
}

/// The transport: a stream that comes in pieces, and a room for the reply.
struct Wire<'a, const PIECE: usize> {
    rest: &'a [u8],
    all: usize,
    wait: u8,
    room: [u8; 64],
    sent: usize,
    log: &'a mut Log,
}

impl<const PIECE: usize> embedded_io::ErrorType for Wire<'_, PIECE> {
    type Error = Ended;
}

impl<const PIECE: usize> embedded_io::Read for Wire<'_, PIECE> {
    // A read gives no more than is left of the present piece. Failing at the end is what the sync scan leaves by.
    #[inline(always)]
    fn read(&mut self, buf: &mut [u8]) -> Result<usize, Ended> {
        let mut n = self.rest.len().min(buf.len());
        if n == 0 {
            return Err(Ended);
        }
        if PIECE == 1 || buf.len() == 1 {
            buf[0] = self.rest[0];
            self.rest = &self.rest[1..];
            return Ok(1);
        }
        if PIECE != 0 {
            n = n.min(PIECE - self.at() % PIECE);
        }
        let (now, later) = self.rest.split_at(n);
        buf[..n].copy_from_slice(now);
        self.rest = later;
        Ok(n)
    }
}

impl<const PIECE: usize> Wire<'_, PIECE> {
    /// How many bytes have been read.
    #[inline(always)]
    fn at(&self) -> usize {
        self.all - self.rest.len()
    }
}

impl<const PIECE: usize> embedded_io::Write for Wire<'_, PIECE> {
    #[inline(always)]
    fn write(&mut self, buf: &[u8]) -> Result<usize, Ended> {
        let n = buf.len().min(64);
        self.room[..n].copy_from_slice(&buf[..n]);
        self.sent = n;
        Ok(n)
    }

    // The Rust flushes once after each reply.
    #[inline(always)]
    fn flush(&mut self) -> Result<(), Ended> {
        self.log.reply(self.at(), self.wait, &self.room[..self.sent]);
        self.wait = 0;
        Ok(())
    }
}

impl<const PIECE: usize> Transport for Wire<'_, PIECE> {
    #[inline(always)]
    fn wait_bytes(&mut self, n: u8) {
        self.wait = n;
    }
}

/// The transport of a start, at which it is left.
struct Waits<'a> {
    log: &'a mut Log,
}

impl embedded_io::ErrorType for Waits<'_> {
    type Error = Ended;
}

impl embedded_io::Read for Waits<'_> {
    fn read(&mut self, _: &mut [u8]) -> Result<usize, Ended> {
        resume_unwind(Box::new(Listens(Instant::now())))
    }
}

impl embedded_io::Write for Waits<'_> {
    fn write(&mut self, buf: &[u8]) -> Result<usize, Ended> {
        self.log.replies += 1;
        Ok(buf.len())
    }

    fn flush(&mut self) -> Result<(), Ended> {
        Ok(())
    }
}

impl Transport for Waits<'_> {}

/// Boot control; the streams have no Reset.
struct Ctl;

impl BootCtl for Ctl {
    fn run_mode(&self) -> RunMode {
        RunMode::HandOff
    }

    fn set_run_mode(&mut self, _: RunMode) {}

    fn reset(&mut self) -> ! {
        panic!("no stream resets")
    }

    fn hand_off(&mut self) -> ! {
        resume_unwind(Box::new(HandOff(Instant::now())))
    }
}
