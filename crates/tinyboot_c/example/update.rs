//! A whole update through the C interface: Info, Erase, Writes of which the last flushes, Verify, Info, Reset, then starts until the trials are used up.
//! rustc alone builds it (see `run`). It prints its answers in the words of `oracle/`, so that they can be compared with those of the Rust.

// The sizes, numbers and modes of tinyboot.h.
const SETUP_SIZE: usize = 32;
const STATE_SIZE: usize = 136;
const META_SIZE: usize = 12;
const REPLY_SIZE: usize = 64;
const ANSWER_SIZE: usize = 16;
const STARTED: u8 = 0;
const QUIET: u8 = 0;
const SILENT: u8 = 1;
const REPLY: u8 = 2;
const RESTART: u8 = 3;
const HANDOFF: u8 = 0;
const SERVICE: u8 = 1;

extern "C" {
    fn tinyboot_state_size() -> usize;
    #[rustfmt::skip]
    fn tinyboot_feed(
        setup: *const u8, setup_len: usize, state: *mut u8, state_len: usize, bytes: *const u8, bytes_len: usize, flash: *mut u8, flash_len: usize,
        meta: *mut u8, meta_len: usize, reply: *mut u8, reply_len: usize, answer: *mut u8, answer_len: usize,
    ) -> u8;
    #[rustfmt::skip]
    fn tinyboot_start(
        mode: u8, setup: *const u8, setup_len: usize, state: *mut u8, state_len: usize, flash: *const u8, flash_len: usize,
        meta: *mut u8, meta_len: usize, answer: *mut u8, answer_len: usize,
    ) -> u8;
    fn tinyboot_crc16(crc: u16, bytes: *const u8, bytes_len: usize) -> u16;
    fn tinyboot_key(name: *const u8, name_len: usize) -> u32;
}

/// What an answer says.
struct Answer {
    number: u8,
    mode: u8,
    len: usize,
    wait: u8,
    reason: u8,
    taken: usize,
}

impl Answer {
    fn new(b: [u8; ANSWER_SIZE]) -> Answer {
        Answer {
            number: b[0],
            mode: b[1],
            len: u16::from_le_bytes([b[2], b[3]]) as usize,
            wait: b[4],
            reason: b[5],
            taken: u64::from_le_bytes(b[8..16].try_into().unwrap()) as usize,
        }
    }

    fn mode(&self) -> &'static str {
        ["handoff", "service"][self.mode as usize]
    }

    fn reason(&self) -> &'static str {
        ["", "overheard reply", "unreadable frame", "wrong CRC", "not selected", "Select without a match"][self.reason as usize]
    }
}

/// A device, with all its buffers. Each is its own allocation or field, so that no two overlap, which is what the calls ask for.
struct Device {
    setup: [u8; SETUP_SIZE],
    state: [u8; STATE_SIZE],
    flash: Vec<u8>,
    record: [u8; META_SIZE],
    reply: [u8; REPLY_SIZE],
}

impl Device {
    /// A device with an erased flash and record, powered on: its first start, which asks for the app, stays in Service. No id.
    fn new(erase_size: u32, capacity: u32, version: u16, key: u32) -> Device {
        let mut setup = [0; SETUP_SIZE];
        setup[0..4].copy_from_slice(&erase_size.to_le_bytes());
        setup[4..8].copy_from_slice(&capacity.to_le_bytes());
        setup[25..27].copy_from_slice(&version.to_le_bytes());
        setup[27..31].copy_from_slice(&key.to_le_bytes());
        let flash = vec![0xFF; capacity as usize];
        let mut device = Device { setup, state: [0; STATE_SIZE], flash, record: [0xFF; META_SIZE], reply: [0; REPLY_SIZE] };
        assert_eq!(unsafe { tinyboot_state_size() }, device.state.len());
        let started = device.start(HANDOFF);
        assert_eq!((started.number, started.mode), (STARTED, SERVICE));
        device
    }

    #[rustfmt::skip]
    fn feed(&mut self, bytes: &[u8]) -> Answer {
        let mut answer = [0; ANSWER_SIZE];
        unsafe {
            tinyboot_feed(
                self.setup.as_ptr(), self.setup.len(), self.state.as_mut_ptr(), self.state.len(), bytes.as_ptr(), bytes.len(),
                self.flash.as_mut_ptr(), self.flash.len(), self.record.as_mut_ptr(), self.record.len(),
                self.reply.as_mut_ptr(), self.reply.len(), answer.as_mut_ptr(), answer.len(),
            );
        }
        Answer::new(answer)
    }

    #[rustfmt::skip]
    fn start(&mut self, mode: u8) -> Answer {
        let mut answer = [0; ANSWER_SIZE];
        unsafe {
            tinyboot_start(
                mode, self.setup.as_ptr(), self.setup.len(), self.state.as_mut_ptr(), self.state.len(), self.flash.as_ptr(), self.flash.len(),
                self.record.as_mut_ptr(), self.record.len(), answer.as_mut_ptr(), answer.len(),
            );
        }
        Answer::new(answer)
    }
}

fn crc(bytes: &[u8]) -> u16 {
    unsafe { tinyboot_crc16(0xFFFF, bytes.as_ptr(), bytes.len()) }
}

fn key(name: &[u8]) -> u32 {
    unsafe { tinyboot_key(name.as_ptr(), name.len()) }
}

/// A request as a host makes it.
fn frame(command: u8, address: u32, flags: u8, data: &[u8]) -> Vec<u8> {
    let mut f = vec![0xAA, 0x55, command, 0];
    f.extend_from_slice(&address.to_le_bytes()[..3]);
    f.push(flags);
    f.extend_from_slice(&(data.len() as u16).to_le_bytes());
    f.extend_from_slice(data);
    let c = crc(&f);
    f.extend_from_slice(&c.to_le_bytes());
    f
}

fn hex(bytes: &[u8]) -> String {
    bytes.iter().map(|b| format!("{b:02X}")).collect()
}

/// The stream in pieces of so many bytes; what is not taken of one is handed in again before the next.
fn stream(device: &mut Device, bytes: &[u8], piece: usize) {
    let (mut read, mut end) = (0, 0);
    while end < bytes.len() || read < end {
        if read == end {
            end = (end + piece).min(bytes.len());
        }
        let answer = device.feed(&bytes[read..end]);
        read += answer.taken;
        match answer.number {
            QUIET => {}
            SILENT => println!("silent {read} {}", answer.reason()),
            REPLY | RESTART => println!("reply {read} {} {}", answer.wait, hex(&device.reply[..answer.len])),
            refused => panic!("refused: {refused}"),
        }
        if answer.number == RESTART {
            println!("reset {read} {}", answer.mode());
            println!("unread {}", bytes.len() - read);
            let started = device.start(answer.mode);
            println!("start {}", started.mode());
            return;
        }
    }
}

fn main() {
    let piece = std::env::args().nth(1).map_or(7, |n| n.parse().expect("bytes in a piece"));
    assert_eq!(key(b"foobar"), 0xBF9C_F968); // FNV-1a's published vector
    let mut device = Device::new(128, 1024, 0x0840, 0xA1B2_C3D4); // version 1.1.0
    let app: Vec<u8> = (0..192).map(|i: u32| (3 + 7 * i) as u8).collect();
    let mut sent = frame(0, 0, 0, &[]);
    sent.extend(frame(1, 0, 0, &256u16.to_le_bytes()));
    for (i, part) in app.chunks(48).enumerate() {
        sent.extend(frame(2, 48 * i as u32, 0, part));
    }
    sent.extend(frame(2, 192, 0x80, &[0xD4, 0xC3, 0xB2, 0xA1, 0x83, 0x08]));
    sent.extend(frame(3, 198, 0, &[]));
    sent.extend(frame(0, 0, 0, &[]));
    sent.extend(frame(4, 0, 0, &[]));
    stream(&mut device, &sent, piece);
    for mode in [HANDOFF, HANDOFF, HANDOFF, HANDOFF, HANDOFF, HANDOFF, HANDOFF, HANDOFF, SERVICE] {
        let started = device.start(mode);
        assert_eq!(started.number, STARTED);
        println!("start {}", started.mode());
    }
    stream(&mut device, &frame(0, 0, 0, &[]), piece);
    println!("flash {} {:04X}", device.flash.len(), crc(&device.flash));
    println!("record {}", hex(&device.record));
}
