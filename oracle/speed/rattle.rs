//! The library of this repository as a side, through its C interface.

use std::time::{Duration, Instant};

use common::flash::{self, CAPACITY};
use common::{ID, Log, Side};

unsafe extern "C" {
    fn tinyboot_state_size() -> usize;
    fn tinyboot_new_state(state: *mut u8, state_len: usize) -> u8;
    fn tinyboot_feed(
        setup: *const u8,
        setup_len: usize,
        state: *mut u8,
        state_len: usize,
        bytes: *const u8,
        bytes_len: usize,
        flash: *mut u8,
        flash_len: usize,
        meta: *mut u8,
        meta_len: usize,
        reply: *mut u8,
        reply_len: usize,
        answer: *mut u8,
        answer_len: usize,
    ) -> u8;
    fn tinyboot_start(
        mode: u8,
        setup: *const u8,
        setup_len: usize,
        state: *mut u8,
        state_len: usize,
        flash: *const u8,
        flash_len: usize,
        meta: *mut u8,
        meta_len: usize,
        answer: *mut u8,
        answer_len: usize,
    ) -> u8;
    fn tinyboot_crc16(crc: u16, bytes: *const u8, bytes_len: usize) -> u16;
}

const STATE: usize = 136;
/// Below it a call says nothing.
const REPLY: u8 = 2;

pub fn side(name: &'static str) -> Side {
    // SAFETY: no argument.
    assert_eq!(unsafe { tinyboot_state_size() }, STATE);
    Side { name, crc, upload, select, start }
}

fn crc(bytes: &[u8]) -> u16 {
    // SAFETY: a lent slice.
    unsafe { tinyboot_crc16(0xFFFF, bytes.as_ptr(), bytes.len()) }
}

/// Erase size 64, the whole capacity, this id, version 0, no key, the present start.
fn setup(id: &[u8]) -> [u8; 32] {
    let mut s = [0u8; 32];
    s[0..4].copy_from_slice(&64u32.to_le_bytes());
    s[4..8].copy_from_slice(&(CAPACITY as u32).to_le_bytes());
    s[8] = id.len() as u8;
    s[9..9 + id.len()].copy_from_slice(id);
    s[27..31].copy_from_slice(&[0xFF; 4]);
    s
}

fn upload(stream: &[u8], piece: usize, log: &mut Log) {
    feed_all(&setup(&[]), stream, if piece == 0 { usize::MAX } else { piece }, log);
}

fn select(stream: &[u8], log: &mut Log) {
    feed_all(&setup(&ID), stream, usize::MAX, log);
}

/// Feeds a stream to a new state. What is left of a piece after a frame's end is handed in again before the next piece.
fn feed_all(setup: &[u8; 32], stream: &[u8], piece: usize, log: &mut Log) {
    let mut state = [0u8; STATE];
    let mut room = [0u8; 64];
    let mut answer = [0u8; 16];
    let (cells, record) = (flash::cells(), flash::record());
    // SAFETY: a lent array.
    assert_eq!(unsafe { tinyboot_new_state(state.as_mut_ptr(), STATE) }, 0);
    let (mut at, mut end) = (0, piece.min(stream.len()));
    loop {
        // SAFETY: lent arrays and slices; at is at most end, and end at most the stream's length.
        let number = unsafe {
            tinyboot_feed(
                setup.as_ptr(),
                setup.len(),
                state.as_mut_ptr(),
                state.len(),
                stream.as_ptr().add(at),
                end - at,
                cells.as_mut_ptr(),
                cells.len(),
                record.as_mut_ptr(),
                record.len(),
                room.as_mut_ptr(),
                room.len(),
                answer.as_mut_ptr(),
                answer.len(),
            )
        };
        at += u64::from_le_bytes(answer[8..16].try_into().unwrap()) as usize;
        if number >= REPLY {
            replied(number, at, &answer, &room, log);
        }
        if at == end {
            if end == stream.len() {
                return;
            }
            end = stream.len().min(end + piece);
        }
    }
}

#[inline(always)]
fn replied(number: u8, at: usize, answer: &[u8; 16], room: &[u8; 64], log: &mut Log) {
    assert_eq!(number, REPLY);
    log.reply(at, answer[4], &room[..answer[2] as usize]);
}

fn start() -> (Duration, bool) {
    let mut state = [0u8; STATE];
    let mut answer = [0u8; 16];
    let setup = setup(&[]);
    let (cells, record) = (flash::cells(), flash::record());
    let begun = Instant::now();
    // SAFETY: lent arrays and slices.
    let number = unsafe {
        tinyboot_start(
            0,
            setup.as_ptr(),
            setup.len(),
            state.as_mut_ptr(),
            state.len(),
            cells.as_ptr(),
            cells.len(),
            record.as_mut_ptr(),
            record.len(),
            answer.as_mut_ptr(),
            answer.len(),
        )
    };
    let took = begun.elapsed();
    assert_eq!(number, 0);
    (took, answer[1] == 0)
}
