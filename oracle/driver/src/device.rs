//! The Rust, instantiated: one start or one stream at a time.

use std::any::Any;
use std::cell::UnsafeCell;
use std::panic::{AssertUnwindSafe, catch_unwind, resume_unwind};

use embedded_storage::nor_flash::{ErrorType, NorFlash, ReadNorFlash};
use tinyboot_ch32::boot_meta_store::BootMetaStore;
use tinyboot_ch32::hal::flash::PAGE_SIZE;
use tinyboot_ch32::storage::{Storage as Ch32Storage, StorageError};
use tinyboot_core::addressing::{Addressable, Addressing, Unaddressed};
use tinyboot_core::protocol::Dispatcher;
use tinyboot_core::traits::{BootCtl, RunMode, Storage, Transport};
use tinyboot_core::{Core, Platform};
use tinyboot_protocol::frame::Frame;
use tinyboot_protocol::{Cmd, DEFAULT_PAYLOAD, Status};

use crate::app;
use crate::desk;
use crate::out;
use crate::record::{self, Shared};
use crate::scenario::{Mark, Setup, Stream};

/// What a new state is made from and an old one leaves.
pub struct State {
    pub data: [u8; DEFAULT_PAYLOAD],
    pub selected: bool,
}

/// The payloads by which the calls that never return are left, and the
/// protocol loop of a start.
enum Stop {
    Reset(RunMode),
    HandOff,
    Listening,
}

/// The Rust panicked: it left its domain. The panic hook noted why.
pub struct Left;

pub type Start = fn(RunMode) -> Result<RunMode, Left>;
pub type Run = fn(&Stream, &mut State) -> Result<Option<(usize, RunMode)>, Left>;
pub type RunApp = fn(&Setup, u16, &Stream, &mut State) -> Result<Option<(usize, RunMode)>, Left>;

/// The three calls, for one erase size and one id length.
pub struct Device {
    pub start: Start,
    pub run: Run,
    pub run_app: RunApp,
}

/// The instance for a setup, if there is one.
pub fn device(setup: &Setup) -> Option<Device> {
    set_id(&setup.id);
    macro_rules! erase_sizes {
        ($($size:literal)*) => {
            match setup.erase {
                // The Rust's own storage, nothing of ours around it.
                64 => of_storage::<Ch32Storage>(setup.id_len),
                $($size => of_storage::<Coarse<$size>>(setup.id_len),)*
                _ => None,
            }
        };
    }
    erase_sizes!(128 192 256 320 512 1024 1088 2048 3008 4096 8192 16384 21824 32704 32768)
}

fn of_storage<S: Storage + Default>(id_len: u8) -> Option<Device> {
    macro_rules! id_lengths {
        ($($len:literal)*) => {
            match id_len {
                0 => Some(of::<S, Plain>()),
                $($len => Some(of::<S, Id<$len>>()),)*
                _ => None,
            }
        };
    }
    id_lengths!(1 2 3 4 5 6 7 8 9 10 11 12 13 14 15 16)
}

fn of<S: Storage + Default, I: Address>() -> Device {
    Device {
        start: start::<S, I>,
        run: run::<S, I>,
        run_app: app::run::<I>,
    }
}

/// Runs the start. Its own protocol loop is left at the first read.
fn start<S: Storage + Default, I: Address>(mode: RunMode) -> Result<RunMode, Left> {
    let nothing = Stream::default();
    let platform = Platform::new(
        Wire::new(&nothing, true),
        S::default(),
        BootMetaStore::default(),
        Ctl(mode),
    );
    let core = Core::<_, _, _, _, PAGE_SIZE, DEFAULT_PAYLOAD, I::A>::with_addressing(
        platform,
        I::address(),
    );
    match stopped(catch_unwind(AssertUnwindSafe(|| core.run())))? {
        Stop::Listening => Ok(RunMode::Service),
        Stop::HandOff => Ok(RunMode::HandOff),
        Stop::Reset(_) => unreachable!("a start never resets"),
    }
}

/// Runs the careful start. The Rust has none: this is its own start over a
/// storage that says no where the start asks for the sign of an app, and it
/// asks for it in that one place. Neither erase size nor id decides a start.
pub fn careful_start(mode: RunMode) -> Result<RunMode, Left> {
    start::<NoSign, Plain>(mode)
}

/// Puts a stream to a new dispatcher. Some with place and mode of the reset
/// that ended it.
fn run<S: Storage + Default, I: Address>(
    stream: &Stream,
    state: &mut State,
) -> Result<Option<(usize, RunMode)>, Left> {
    record::load();
    let mut platform = Platform::new(
        Wire::new(stream, false),
        S::default(),
        Shared,
        Ctl(RunMode::Service),
    );
    let mut dispatcher =
        Dispatcher::<_, _, _, _, PAGE_SIZE, DEFAULT_PAYLOAD, I::A>::with_addressing(
            &mut platform,
            I::address(),
        );
    dispatcher.frame.data.raw = state.data;

    let ended = catch_unwind(AssertUnwindSafe(|| {
        loop {
            dispatcher.platform.transport.replied = false;
            let from = dispatcher.platform.transport.at;
            let selected = dispatcher.addressing.selected();
            if dispatcher.dispatch().is_err() {
                return;
            }
            let wire = &dispatcher.platform.transport;
            if !wire.replied {
                let why = why_silent(&stream.bytes[from..wire.at], selected);
                out!("silent {} {why}", wire.at);
            }
        }
    }));
    // SAFETY: every byte was stored above.
    state.data = unsafe { dispatcher.frame.data.raw };
    state.selected = dispatcher.addressing.selected();
    after(ended, &mut dispatcher.platform.transport)
}

/// What a stream's end leaves to be said. Some with place and mode of the
/// reset that ended it.
pub fn after(
    ended: Result<(), Box<dyn Any + Send>>,
    wire: &mut Wire,
) -> Result<Option<(usize, RunMode)>, Left> {
    let reset = match ended {
        Ok(()) => None,
        Err(payload) => match stopped(Err(payload))? {
            Stop::Reset(mode) => Some((wire.at, mode)),
            Stop::HandOff | Stop::Listening => unreachable!("behind a start there are resets only"),
        },
    };
    wire.say_rest(reset);
    Ok(reset)
}

/// Why a frame was left without a reply, in the words of `bench`: what the
/// Rust's own reader says of the bytes that were taken, and, of a good
/// frame, whether it is a Select and whether the device was selected.
pub fn why_silent(bytes: &[u8], selected: bool) -> &'static str {
    let mut frame = Frame::<DEFAULT_PAYLOAD>::default();
    let mut rest = Rest(bytes);
    let read = frame.read_request(&mut rest);
    assert!(rest.0.is_empty(), "a frame is read otherwise the second time");
    match read {
        Ok(Status::Request) => "overheard reply",
        Ok(Status::Unsupported | Status::PayloadOverflow) => "unreadable frame",
        Ok(Status::CrcMismatch) => "wrong CRC",
        Ok(Status::Ok) if frame.cmd == Cmd::Select => "Select without a match",
        Ok(Status::Ok) if !selected => "not selected",
        _ => "no reason",
    }
}

/// Bytes read by a reader of their own.
pub struct Rest<'a>(pub &'a [u8]);

impl embedded_io::ErrorType for Rest<'_> {
    type Error = Ended;
}

impl embedded_io::Read for Rest<'_> {
    fn read(&mut self, buf: &mut [u8]) -> Result<usize, Ended> {
        if self.0.is_empty() {
            return Err(Ended);
        }
        let n = self.0.len().min(buf.len());
        buf[..n].copy_from_slice(&self.0[..n]);
        self.0 = &self.0[n..];
        Ok(n)
    }
}

fn stopped(ended: Result<std::convert::Infallible, Box<dyn Any + Send>>) -> Result<Stop, Left> {
    let Err(payload) = ended;
    payload
        .downcast::<Stop>()
        .map(|stop| *stop)
        .map_err(|_| Left)
}

/// The transport: a stream of given bytes, and the replies to it.
pub struct Wire<'a> {
    stream: &'a Stream,
    pub at: usize,
    marks_met: usize,
    pub wait: u8,
    sent: Vec<u8>,
    pub replied: bool,
    /// A read found nothing more.
    pub ended: bool,
    unwind_at_end: bool,
}

impl<'a> Wire<'a> {
    pub fn new(stream: &'a Stream, unwind_at_end: bool) -> Self {
        Wire {
            stream,
            at: 0,
            marks_met: 0,
            wait: 0,
            sent: Vec::new(),
            replied: false,
            ended: false,
            unwind_at_end,
        }
    }

    /// What stands after the last byte read: the reset, then its marks.
    fn say_rest(&mut self, reset: Option<(usize, RunMode)>) {
        if let Some((at, mode)) = reset {
            out!("reset {at} {}", name(mode));
            out!("unread {}", self.stream.bytes.len() - at);
        }
        desk::listen();
        for (_, mark) in &self.stream.marks[self.marks_met..] {
            meet(mark);
        }
    }
}

/// A mark of a stream that has come to it.
pub fn meet(mark: &Mark) {
    match mark {
        Mark::Text(text) => out!("{text}"),
        Mark::Call(call) => app::call(*call),
        Mark::Wrote(request) => out!("wrote {}", crate::Hex(request)),
        Mark::Heard(bytes) => {
            desk::put(bytes);
            desk::listen();
        }
    }
}

#[derive(Debug)]
pub struct Ended;

impl embedded_io::Error for Ended {
    fn kind(&self) -> embedded_io::ErrorKind {
        embedded_io::ErrorKind::Other
    }
}

impl embedded_io::ErrorType for Wire<'_> {
    type Error = Ended;
}

impl embedded_io::Read for Wire<'_> {
    // Failing at the end, instead of Ok(0), is what the sync scan leaves by.
    fn read(&mut self, buf: &mut [u8]) -> Result<usize, Ended> {
        // The last reply, if the desk has asked for it.
        desk::listen();
        let mut end = self.stream.bytes.len();
        while let Some((at, mark)) = self.stream.marks.get(self.marks_met) {
            if *at > self.at {
                // No read goes past a mark, so that replies keep their side.
                end = *at;
                break;
            }
            meet(mark);
            self.marks_met += 1;
        }
        let rest = &self.stream.bytes[self.at..end];
        if rest.is_empty() {
            if self.unwind_at_end {
                resume_unwind(Box::new(Stop::Listening));
            }
            self.ended = true;
            return Err(Ended);
        }
        let n = rest.len().min(buf.len());
        buf[..n].copy_from_slice(&rest[..n]);
        self.at += n;
        Ok(n)
    }
}

impl embedded_io::Write for Wire<'_> {
    fn write(&mut self, buf: &[u8]) -> Result<usize, Ended> {
        self.sent.extend_from_slice(buf);
        Ok(buf.len())
    }

    // The Rust flushes once after each reply.
    fn flush(&mut self) -> Result<(), Ended> {
        out!("reply {} {} {}", self.at, self.wait, crate::Hex(&self.sent));
        if self.stream.asked.iter().any(|(from, to)| (from + 1..=*to).contains(&self.at)) {
            desk::put(&self.sent);
        }
        self.sent.clear();
        self.wait = 0;
        self.replied = true;
        Ok(())
    }
}

impl Transport for Wire<'_> {
    fn wait_bytes(&mut self, n: u8) {
        self.wait = n;
    }
}

/// Boot control whose resets and hand-offs unwind.
pub struct Ctl(pub RunMode);

impl BootCtl for Ctl {
    fn run_mode(&self) -> RunMode {
        self.0
    }

    fn set_run_mode(&mut self, mode: RunMode) {
        self.0 = mode;
    }

    fn reset(&mut self) -> ! {
        resume_unwind(Box::new(Stop::Reset(self.0)))
    }

    fn hand_off(&mut self) -> ! {
        resume_unwind(Box::new(Stop::HandOff))
    }
}

/// How a mode is written.
pub fn name(mode: RunMode) -> &'static str {
    match mode {
        RunMode::Service => "service",
        RunMode::HandOff => "handoff",
    }
}

/// The Rust's storage under an erase size of `E` bytes instead of a page's.
#[derive(Default)]
struct Coarse<const E: usize>(Ch32Storage);

impl<const E: usize> ErrorType for Coarse<E> {
    type Error = StorageError;
}

impl<const E: usize> ReadNorFlash for Coarse<E> {
    const READ_SIZE: usize = Ch32Storage::READ_SIZE;

    fn read(&mut self, offset: u32, bytes: &mut [u8]) -> Result<(), StorageError> {
        self.0.read(offset, bytes)
    }

    fn capacity(&self) -> usize {
        self.0.capacity()
    }
}

impl<const E: usize> NorFlash for Coarse<E> {
    const WRITE_SIZE: usize = Ch32Storage::WRITE_SIZE;
    const ERASE_SIZE: usize = E;

    fn erase(&mut self, from: u32, to: u32) -> Result<(), StorageError> {
        assert!(
            (from as usize).is_multiple_of(E) && (to as usize).is_multiple_of(E),
            "stray erase"
        );
        self.0.erase(from, to)
    }

    fn write(&mut self, offset: u32, bytes: &[u8]) -> Result<(), StorageError> {
        self.0.write(offset, bytes)
    }
}

impl<const E: usize> Storage for Coarse<E> {
    fn as_slice(&self) -> &[u8] {
        self.0.as_slice()
    }

    fn app_present(&self) -> bool {
        self.0.app_present()
    }
}

/// The Rust's storage without the sign of an app, for a careful start.
#[derive(Default)]
struct NoSign(Ch32Storage);

impl ErrorType for NoSign {
    type Error = StorageError;
}

impl ReadNorFlash for NoSign {
    const READ_SIZE: usize = Ch32Storage::READ_SIZE;

    fn read(&mut self, offset: u32, bytes: &mut [u8]) -> Result<(), StorageError> {
        self.0.read(offset, bytes)
    }

    fn capacity(&self) -> usize {
        self.0.capacity()
    }
}

impl NorFlash for NoSign {
    const WRITE_SIZE: usize = Ch32Storage::WRITE_SIZE;
    const ERASE_SIZE: usize = Ch32Storage::ERASE_SIZE;

    fn erase(&mut self, _: u32, _: u32) -> Result<(), StorageError> {
        unreachable!("a start never erases")
    }

    fn write(&mut self, _: u32, _: &[u8]) -> Result<(), StorageError> {
        unreachable!("a start never writes")
    }
}

impl Storage for NoSign {
    fn as_slice(&self) -> &[u8] {
        self.0.as_slice()
    }

    fn app_present(&self) -> bool {
        false
    }
}

/// An addressing by name, since the id's length is part of the Rust's type.
pub trait Address {
    type A: Addressing;
    fn address() -> Self::A;
}

struct Plain;

impl Address for Plain {
    type A = Unaddressed;

    fn address() -> Unaddressed {
        Unaddressed
    }
}

struct Id<const L: usize>;

impl<const L: usize> Address for Id<L> {
    type A = Addressable<L, fn() -> &'static [u8; L]>;

    fn address() -> Self::A {
        Addressable::new(id::<L>)
    }
}

/// The id, as a chip's factory id: fixed while a dispatcher lives.
struct IdCell(UnsafeCell<[u8; 16]>);

// SAFETY: the driver has one thread.
unsafe impl Sync for IdCell {}

static ID: IdCell = IdCell(UnsafeCell::new([0; 16]));

fn set_id(id: &[u8; 16]) {
    // SAFETY: between scenarios nothing holds the id.
    unsafe { ID.0.get().write(*id) };
}

fn id<const L: usize>() -> &'static [u8; L] {
    const { assert!(L <= 16) };
    // SAFETY: L bytes of 16, not written while a dispatcher lives.
    unsafe { &*ID.0.get().cast::<[u8; L]>() }
}
