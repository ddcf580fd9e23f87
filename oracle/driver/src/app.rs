//! The Rust's app-side client: a stream put to it, and the calls of the app
//! itself.

use std::cell::RefCell;
use std::panic::{AssertUnwindSafe, catch_unwind};
use std::sync::atomic::{AtomicBool, AtomicU8, Ordering::Relaxed};

use tinyboot_ch32::hal::flash;
use tinyboot_core::addressing::{Addressing, Unaddressed};
use tinyboot_core::app::{App, AppConfig};
use tinyboot_core::traits::RunMode;
use tinyboot_protocol::DEFAULT_PAYLOAD;

use crate::device::{Address, Ctl, Ended, Left, State, Wire, after, why_silent};
use crate::out;
use crate::record::{self, Shared};
use crate::scenario::{Call, Setup, Stream};

/// Puts a stream to a new app client. Some with place and mode of the reset
/// that ended it.
pub fn run<I: Address>(
    setup: &Setup,
    version: u16,
    stream: &Stream,
    state: &mut State,
) -> Result<Option<(usize, RunMode)>, Left> {
    record::load();
    let address = Watched(I::address());
    SELECTED.store(address.selected(), Relaxed);
    WAIT.store(0, Relaxed);
    let config = AppConfig {
        capacity: setup.capacity,
        erase_size: setup.erase as u16,
        boot_version: setup.version,
        boot_compat: setup.key,
        app_version: version,
    };
    let mut app: App<_, _, DEFAULT_PAYLOAD, _> =
        App::with_addressing(config, Ctl(RunMode::Service), Shared, address, wait);
    let place = prime(&mut app, &state.data);

    let wire = RefCell::new(Wire::new(stream, false));
    let ended = catch_unwind(AssertUnwindSafe(|| {
        loop {
            wire.borrow_mut().replied = false;
            let from = wire.borrow().at;
            let selected = SELECTED.load(Relaxed);
            app.poll(&mut Rx(&wire), &mut Tx(&wire));
            let wire = wire.borrow();
            if wire.ended {
                return;
            }
            if !wire.replied {
                let why = why_silent(&stream.bytes[from..wire.at], selected);
                out!("silent {} {why}", wire.at);
            }
        }
    }));
    state.data = data_area(&app, place);
    state.selected = SELECTED.load(Relaxed);
    after(ended, &mut wire.into_inner())
}

/// One of the app's own calls, made by a client of its own over the same
/// record: the one that reads a stream may be inside a frame. Whether the
/// record was rewritten the Rust does not say; the flash does.
pub fn call(call: Call) {
    let config = AppConfig {
        capacity: 0,
        erase_size: 0,
        boot_version: 0,
        boot_compat: 0,
        app_version: 0,
    };
    let ctl = Ctl(RunMode::Service);
    let mut app: App<_, _, DEFAULT_PAYLOAD, Unaddressed> = App::new(config, ctl, Shared);
    let before = flash::rewrites();
    match call {
        Call::Confirm => {
            app.confirm();
            out!("confirm {}", flash::rewrites() - before);
        }
        Call::SetBaud(rate) => {
            app.set_baud(rate);
            out!("baud {}", flash::rewrites() - before);
        }
        Call::Baud(default) => out!("rate {}", app.baud().unwrap_or(default).hz()),
    }
}

/// The client's frame begins uninitialised. So the first it reads is a
/// reply, overheard, that fills the data area. Gives the area's place in the
/// client, which is private: it is where the reader was asked to put it.
fn prime<A: Addressing>(
    app: &mut App<Ctl, Shared, DEFAULT_PAYLOAD, A>,
    data: &[u8; DEFAULT_PAYLOAD],
) -> usize {
    let mut reply = vec![0xAA, 0x55, 0, 1, 0, 0, 0, 0, DEFAULT_PAYLOAD as u8, 0];
    reply.extend_from_slice(data);
    reply.extend_from_slice(&[0, 0]);
    let mut first = First {
        rest: &reply,
        data_at: 0,
    };
    app.poll(&mut first, &mut Nowhere);
    let place = first.data_at.wrapping_sub(&raw const *app as usize);
    assert!(first.rest.is_empty() && place <= size_of_val(app) - DEFAULT_PAYLOAD);
    assert!(data_area(app, place) == *data);
    place
}

fn data_area<A: Addressing>(
    app: &App<Ctl, Shared, DEFAULT_PAYLOAD, A>,
    place: usize,
) -> [u8; DEFAULT_PAYLOAD] {
    // SAFETY: inside the client, and every byte was stored by `prime`.
    unsafe { (&raw const *app).cast::<u8>().add(place).cast::<[u8; DEFAULT_PAYLOAD]>().read_unaligned() }
}

/// The first frame, and where its data were put.
struct First<'a> {
    rest: &'a [u8],
    data_at: usize,
}

impl embedded_io::ErrorType for First<'_> {
    type Error = Ended;
}

impl embedded_io::Read for First<'_> {
    fn read(&mut self, buf: &mut [u8]) -> Result<usize, Ended> {
        if buf.len() == DEFAULT_PAYLOAD {
            self.data_at = buf.as_ptr() as usize;
        }
        let (now, rest) = self.rest.split_at_checked(buf.len()).ok_or(Ended)?;
        buf.copy_from_slice(now);
        self.rest = rest;
        Ok(now.len())
    }
}

/// Nothing is sent there.
struct Nowhere;

impl embedded_io::ErrorType for Nowhere {
    type Error = Ended;
}

impl embedded_io::Write for Nowhere {
    fn write(&mut self, _: &[u8]) -> Result<usize, Ended> {
        panic!("a reply to an overheard one")
    }

    fn flush(&mut self) -> Result<(), Ended> {
        panic!("a reply to an overheard one")
    }
}

/// The two sides of a wire, which the client wants apart.
struct Rx<'a, 'b>(&'a RefCell<Wire<'b>>);
struct Tx<'a, 'b>(&'a RefCell<Wire<'b>>);

impl embedded_io::ErrorType for Rx<'_, '_> {
    type Error = Ended;
}

impl embedded_io::Read for Rx<'_, '_> {
    fn read(&mut self, buf: &mut [u8]) -> Result<usize, Ended> {
        self.0.borrow_mut().read(buf)
    }
}

impl embedded_io::ErrorType for Tx<'_, '_> {
    type Error = Ended;
}

impl embedded_io::Write for Tx<'_, '_> {
    fn write(&mut self, buf: &[u8]) -> Result<usize, Ended> {
        self.0.borrow_mut().write(buf)
    }

    fn flush(&mut self) -> Result<(), Ended> {
        let mut wire = self.0.borrow_mut();
        wire.wait = WAIT.swap(0, Relaxed);
        wire.flush()
    }
}

/// What the client's `wait_bytes`, a plain function, was last called with.
static WAIT: AtomicU8 = AtomicU8::new(0);

fn wait(n: u8) {
    WAIT.store(n, Relaxed);
}

/// The Rust's addressing, with its selection seen: the client's is private.
#[derive(Clone, Copy)]
struct Watched<A: Addressing>(A);

static SELECTED: AtomicBool = AtomicBool::new(false);

impl<A: Addressing> Addressing for Watched<A> {
    const ADDRESSABLE: bool = A::ADDRESSABLE;

    fn uid(&self) -> &'static [u8] {
        self.0.uid()
    }

    fn selected(&self) -> bool {
        self.0.selected()
    }

    fn set_selected(&mut self, selected: bool) {
        self.0.set_selected(selected);
        SELECTED.store(self.0.selected(), Relaxed);
    }
}
