//! The desk, the other end of the wire: requests by the Rust's own `send`,
//! and what its own `read` says of all that comes to the desk.

use std::cell::UnsafeCell;

use tinyboot_core::addressing::MAX_UID_LEN;
use tinyboot_protocol::frame::{Frame, InfoData, VerifyData};
use tinyboot_protocol::{Cmd, DEFAULT_PAYLOAD, Status};

use crate::Hex;
use crate::device::{Ended, Rest};
use crate::out;

const COMMANDS: [Cmd; 6] = [Cmd::Info, Cmd::Erase, Cmd::Write, Cmd::Verify, Cmd::Reset, Cmd::Select];

/// A request of command 1, flags 1, address 4 and its data, as the Rust sends
/// it. It has no refusals: what does not fit its frame is no line here.
pub fn request(line: &[u8]) -> Result<Vec<u8>, String> {
    let (head, data) = line.split_at_checked(6).ok_or("too few bytes")?;
    let address = u32::from_le_bytes([head[2], head[3], head[4], head[5]]);
    if address >= 1 << 24 || data.len() > DEFAULT_PAYLOAD {
        return Err("the Rust's frame does not hold this request".into());
    }
    let mut frame = Frame::<DEFAULT_PAYLOAD>::default();
    frame.cmd = *COMMANDS.get(head[0] as usize).ok_or("a command is 00 to 05")?;
    frame.flags.raw = head[1];
    frame.set_addr(address);
    frame.len = data.len() as u16;
    // SAFETY: bytes of the union's array; a write reads nothing.
    unsafe { (&raw mut frame.data.raw).cast::<u8>().copy_from_nonoverlapping(data.as_ptr(), data.len()) };
    let mut sent = Sent(Vec::new());
    frame.send(&mut sent).map_err(|_| "a desk's line never ends")?;
    Ok(sent.0)
}

/// What was sent.
struct Sent(Vec<u8>);

impl embedded_io::ErrorType for Sent {
    type Error = Ended;
}

impl embedded_io::Write for Sent {
    fn write(&mut self, buf: &[u8]) -> Result<usize, Ended> {
        self.0.extend_from_slice(buf);
        Ok(buf.len())
    }

    fn flush(&mut self) -> Result<(), Ended> {
        Ok(())
    }
}

/// One frame that is read into again and again, and all that has come.
struct Desk {
    frame: Frame<DEFAULT_PAYLOAD>,
    came: Vec<u8>,
    /// Bytes up to the end of the last frame that ended.
    read: usize,
    /// How many had come when it last listened.
    listened: usize,
}

struct DeskCell(UnsafeCell<Option<Desk>>);

// SAFETY: the driver has one thread.
unsafe impl Sync for DeskCell {}

static DESK: DeskCell = DeskCell(UnsafeCell::new(None));

fn desk() -> &'static mut Desk {
    // SAFETY: one thread, and no reference to the desk outlives a call.
    unsafe { (*DESK.0.get()).as_mut().expect("the desk is renewed first") }
}

/// A new desk.
pub fn renew() {
    let desk = Desk {
        frame: Frame::default(),
        came: Vec::new(),
        read: 0,
        listened: 0,
    };
    // SAFETY: as in `desk`.
    unsafe { *DESK.0.get() = Some(desk) };
}

/// Bytes come to the desk.
pub fn put(bytes: &[u8]) {
    desk().came.extend_from_slice(bytes);
}

/// How many bytes have come.
pub fn came() -> usize {
    desk().came.len()
}

/// Says each frame that has ended. The Rust's `read` waits for a frame's end,
/// so one that has not come whole is read anew from its beginning when there
/// is more, by the frame as it was.
pub fn listen() {
    let desk = desk();
    if desk.listened == desk.came.len() {
        return;
    }
    desk.listened = desk.came.len();
    loop {
        // SAFETY: a frame is plain bytes; one of the two is dropped unread.
        let before = unsafe { std::ptr::read(&desk.frame) };
        let mut rest = Rest(&desk.came[desk.read..]);
        let read = desk.frame.read(&mut rest);
        let left = rest.0.len();
        match read {
            Err(_) => {
                desk.frame = before;
                return;
            }
            Ok(status) => {
                desk.read = desk.came.len() - left;
                say(desk.read, status, &desk.frame);
            }
        }
    }
}

fn say(at: usize, read: Status, frame: &Frame<DEFAULT_PAYLOAD>) {
    if read != Status::Ok {
        out!("heard {at} fault {}", read as u8);
        return;
    }
    let len = frame.len as usize;
    // SAFETY: the reader has stored so many bytes; a flags byte is any.
    let (data, flags) = unsafe { (std::slice::from_raw_parts((&raw const frame.data).cast::<u8>(), len), frame.flags.raw) };
    let (command, address) = (frame.cmd as u8, frame.addr());
    if frame.status == Status::Request {
        out!("heard {at} request {command} {address} {flags}{}", Tail(data));
        return;
    }
    let status = frame.status as u8;
    out!("heard {at} reply {command} {status} {address} {flags} {}", contents(frame, data));
}

/// A reply's contents by command and length, which is request E1's rule; the
/// fields are the Rust's.
fn contents(frame: &Frame<DEFAULT_PAYLOAD>, data: &[u8]) -> String {
    match (frame.cmd, data.len()) {
        (Cmd::Info, len) if len == InfoData::SIZE as usize => {
            // SAFETY: all its bytes were read; any bytes are one.
            let info = unsafe { frame.data.info };
            let (capacity, erase_size, boot, app) = (info.capacity, info.erase_size, info.boot_version, info.app_version);
            let (mode, baud, key, payload) = (info.mode, info.boot_baud, info.compat, info.max_payload);
            format!("info {capacity} {erase_size} {boot} {app} {mode} {baud} {key} {payload}")
        }
        // SAFETY: as above.
        (Cmd::Verify, len) if len == size_of::<VerifyData>() => format!("verify {}", unsafe { frame.data.verify.crc }),
        (Cmd::Select, len) if (1..=MAX_UID_LEN).contains(&len) => format!("select{}", Tail(data)),
        _ => format!("plain{}", Tail(data)),
    }
}

/// A blank and bytes; nothing where there are none.
struct Tail<'a>(&'a [u8]);

impl std::fmt::Display for Tail<'_> {
    fn fmt(&self, f: &mut std::fmt::Formatter) -> std::fmt::Result {
        if self.0.is_empty() { Ok(()) } else { write!(f, " {}", Hex(self.0)) }
    }
}

#[cfg(test)]
mod tests {
    use super::*;

    #[test]
    fn requests() {
        let sent = request(&[2, 0x80, 1, 2, 3, 0, 0x61, 0x62]).unwrap();
        assert_eq!(sent[..12], [0xAA, 0x55, 2, 0, 1, 2, 3, 0x80, 2, 0, 0x61, 0x62]);
        assert_eq!(sent.len(), 14);
        assert!(request(&[5, 0, 0xFF, 0xFF, 0xFF, 0]).is_ok_and(|sent| sent.len() == 12));
        let full = [&[0; 6][..], &[7; DEFAULT_PAYLOAD]].concat();
        assert!(request(&full).is_ok_and(|sent| sent.len() == 64));
        assert!(request(&[&full[..], &[7]].concat()).is_err());
        for none in [&[6, 0, 0, 0, 0, 0][..], &[0, 0, 0, 0, 0, 1], &[0; 5], &[]] {
            assert!(request(none).is_err());
        }
    }
}
