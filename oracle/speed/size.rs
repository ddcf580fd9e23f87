#![no_std]
#![no_main]
//! The smallest program around a side, for the size of its code: the wire's and the chip's calls are empty stubs.
//! Built three times: `--cfg side="none"`, `"rust"` (start, all commands, addressed by an id of 12 bytes), `"rattle"`.

#[cfg(side = "none")]
use core::hint::black_box;

#[panic_handler]
fn panic(_: &core::panic::PanicInfo) -> ! {
    loop {}
}

#[unsafe(no_mangle)]
extern "C" fn _start() -> ! {
    run()
}

#[cfg(side = "rust")]
use rust::run;

#[cfg(side = "none")]
fn run() -> ! {
    loop {
        black_box(());
    }
}

#[cfg(side = "rattle")]
fn run() -> ! {
    loop {
        rattle::run();
    }
}

#[cfg(side = "rust")]
mod rust {
    use core::hint::black_box;
    use flash::PAGE_SIZE;
    use tinyboot_ch32::boot_meta_store::BootMetaStore;
    use tinyboot_ch32::storage::Storage;
    use tinyboot_core::addressing::Addressable;
    use tinyboot_core::traits::{BootCtl, RunMode, Transport};
    use tinyboot_core::{Core, Platform};
    use tinyboot_protocol::DEFAULT_PAYLOAD;

    #[repr(C, packed(2))]
    struct Tail(u32, u16);
    #[unsafe(export_name = "__tb_tail")]
    static mut TAIL: Tail = Tail(0xFFFF_FFFF, 0);

    static mut UID: [u8; 12] = [0; 12];

    fn id() -> &'static [u8; 12] {
        unsafe { &*&raw const UID }
    }

    pub fn run() -> ! {
        let platform = Platform::new(Wire, Storage::default(), BootMetaStore::default(), Ctl);
        Core::<_, _, _, _, PAGE_SIZE, DEFAULT_PAYLOAD, _>::with_addressing(platform, Addressable::new(id)).run()
    }

    #[derive(Debug)]
    struct Ended;
    impl embedded_io::Error for Ended {
        fn kind(&self) -> embedded_io::ErrorKind {
            embedded_io::ErrorKind::Other
        }
    }

    struct Wire;
    impl embedded_io::ErrorType for Wire {
        type Error = Ended;
    }
    impl embedded_io::Read for Wire {
        #[inline(never)]
        fn read(&mut self, buf: &mut [u8]) -> Result<usize, Ended> {
            if black_box(buf).is_empty() { Err(Ended) } else { Ok(black_box(1)) }
        }
    }
    impl embedded_io::Write for Wire {
        #[inline(never)]
        fn write(&mut self, buf: &[u8]) -> Result<usize, Ended> {
            Ok(black_box(buf).len())
        }
        #[inline(never)]
        fn flush(&mut self) -> Result<(), Ended> {
            black_box(Ok(()))
        }
    }
    impl Transport for Wire {
        #[inline(never)]
        fn wait_bytes(&mut self, n: u8) {
            black_box(n);
        }
    }

    struct Ctl;
    impl BootCtl for Ctl {
        #[inline(never)]
        fn run_mode(&self) -> RunMode {
            black_box(RunMode::HandOff)
        }
        #[inline(never)]
        fn set_run_mode(&mut self, mode: RunMode) {
            black_box(mode);
        }
        #[inline(never)]
        fn reset(&mut self) -> ! {
            loop {
                black_box(());
            }
        }
        #[inline(never)]
        fn hand_off(&mut self) -> ! {
            loop {
                black_box(1);
            }
        }
    }
}

#[cfg(side = "rattle")]
mod rattle {
    use core::hint::black_box;

    unsafe extern "C" {
        fn tinyboot_new_state(s: *mut u8, n: usize) -> u8;
        fn tinyboot_feed(
            a: *const u8, al: usize, b: *mut u8, bl: usize, c: *const u8, cl: usize, d: *mut u8, dl: usize,
            e: *mut u8, el: usize, f: *mut u8, fl: usize, g: *mut u8, gl: usize,
        ) -> u8;
        fn tinyboot_start(
            m: u8, a: *const u8, al: usize, b: *mut u8, bl: usize, c: *const u8, cl: usize, d: *mut u8, dl: usize,
            e: *mut u8, el: usize,
        ) -> u8;
    }

    pub fn run() {
        let b = black_box(64 as *mut u8);
        unsafe {
            tinyboot_new_state(b, 0);
            tinyboot_start(0, b, 0, b, 0, b, 0, b, 0, b, 0);
            tinyboot_feed(b, 0, b, 0, b, 0, b, 0, b, 0, b, 0, b, 0);
        }
    }
}
