//! The oracle: scenarios in, the Rust's answers out.
//!
//! A check that aborts, or a read outside the flash, ends the process. So
//! scenarios run in a child; where it dies, the parent notes that for the
//! scenario at hand and starts a new child behind it.

mod app;
mod desk;
mod device;
mod proc;
mod record;
mod scenario;

use std::fmt;
use std::io::{self, BufRead, Write};

use tinyboot_ch32::hal::flash;
use tinyboot_ch32::tail;
use tinyboot_core::traits::RunMode;
use tinyboot_protocol::DEFAULT_PAYLOAD;
use tinyboot_protocol::crc::{CRC_INIT, crc16};

use device::{Left, State, meet, name};
use proc::Death;
use scenario::{Scenario, Step, content};

/// Bytes of input that one child is given. Large, for a child costs time.
const BATCH: usize = 4 << 20;

fn main() -> io::Result<()> {
    let mut show_flash = false;
    for arg in std::env::args().skip(1) {
        match arg.as_str() {
            "--flash" => show_flash = true,
            _ => {
                eprintln!("usage: oracle [--flash] < scenarios");
                std::process::exit(2);
            }
        }
    }
    flash::map().map_err(io::Error::other)?;
    proc::prepare().map_err(io::Error::other)?;
    let oracle = Oracle {
        show_flash,
        crc: CrcTable::new(),
    };

    let mut input = io::stdin().lock();
    let mut batch = Batch::default();
    let mut line_number = 0;
    loop {
        let from = batch.text.len();
        if input.read_until(b'\n', &mut batch.text)? == 0 {
            break;
        }
        line_number += 1;
        let line = content(&batch.text[from..]);
        if line.first() == Some(&b's') {
            if from >= BATCH {
                let line = batch.text.split_off(from);
                oracle.run_batch(&batch)?;
                batch = Batch::default();
                batch.text = line;
                batch.starts.push((0, line_number));
            } else {
                batch.starts.push((from, line_number));
            }
        } else if batch.starts.is_empty() && !line.is_empty() {
            batch.starts.push((from, line_number));
        }
    }
    oracle.run_batch(&batch)
}

/// Scenarios as text, with place and line number of each one's first line.
#[derive(Default)]
struct Batch {
    text: Vec<u8>,
    starts: Vec<(usize, usize)>,
}

impl Batch {
    fn scenario(&self, n: usize) -> Result<Scenario, String> {
        let (from, line) = self.starts[n];
        let to = self.starts.get(n + 1).map_or(self.text.len(), |s| s.0);
        scenario::parse(&self.text[from..to], line)
    }
}

struct Oracle {
    show_flash: bool,
    crc: CrcTable,
}

impl Oracle {
    fn run_batch(&self, batch: &Batch) -> io::Result<()> {
        let count = batch.starts.len();
        let mut next = 0;
        while next < count {
            let death = proc::in_child(|| {
                for n in next..count {
                    proc::begin(n);
                    self.run(batch.scenario(n));
                }
            })?;
            match death {
                None => next = count,
                Some(Death { at, why }) => {
                    let mut stdout = io::stdout().lock();
                    writeln!(stdout, "left the domain: abort: {why}\nend")?;
                    stdout.flush()?;
                    next = at + 1;
                }
            }
        }
        Ok(())
    }

    fn run(&self, scenario: Result<Scenario, String>) {
        let steps = scenario.and_then(|s| {
            let device = device::device(&s.setup);
            let device = device.ok_or("setup: no instance of this erase size")?;
            Ok((s, device))
        });
        match steps {
            Err(why) => out!("unsupported {why}"),
            Ok((scenario, device)) => match self.steps(&scenario, &device) {
                Err(Left) => out!("left the domain: {}", proc::noted()),
                Ok(state) => self.show(&state),
            },
        }
        out!("end");
    }

    fn steps(&self, scenario: &Scenario, device: &device::Device) -> Result<State, Left> {
        let setup = &scenario.setup;
        flash::renew(setup.capacity);
        tail::set(setup.version, setup.key);
        desk::renew();
        let new = || State {
            data: [0; DEFAULT_PAYLOAD],
            selected: setup.id_len == 0,
        };
        let mut state = new();
        let mut runs = Runs::Bootloader;
        for step in &scenario.steps {
            match step {
                Step::Flash(at, bytes) => {
                    flash::bytes()[*at..][..bytes.len()].copy_from_slice(bytes)
                }
                Step::Record(bytes) => flash::record()[..bytes.len()].copy_from_slice(bytes),
                Step::Cut(steps, new) => cut(flash::record(), *steps, new),
                Step::Data(at, bytes) => state.data[*at..][..bytes.len()].copy_from_slice(bytes),
                Step::Mark(mark) => {
                    record::load();
                    meet(mark);
                }
                Step::Start(mode) => {
                    let start = if setup.careful { device::careful_start } else { device.start };
                    let mode = start(*mode)?;
                    out!("start {}", name(mode));
                    runs = match mode {
                        RunMode::Service => Runs::Bootloader,
                        RunMode::HandOff => Runs::Nobody,
                    };
                    state = new();
                }
                Step::App(version) => {
                    out!("app");
                    runs = Runs::App(*version);
                    state = new();
                }
                Step::Stream(stream) => match runs {
                    Runs::Bootloader => {
                        (device.run)(stream, &mut state)?;
                    }
                    Runs::App(version) => {
                        (device.run_app)(setup, version, stream, &mut state)?;
                    }
                    Runs::Nobody => {
                        out!("unread {}", stream.bytes.len());
                        record::load();
                        stream.marks.iter().for_each(|(_, mark)| meet(mark));
                    }
                },
            }
        }
        Ok(state)
    }

    fn show(&self, state: &State) {
        let bytes = flash::bytes();
        out!("flash {} {:04X}", bytes.len(), self.crc.of(bytes));
        if self.show_flash {
            out!("bytes {}", Hex(bytes));
        }
        out!("record {}", Hex(flash::record()));
        out!("selected {}", state.selected as u8);
        out!("data {}", Hex(&state.data));
        if desk::came() > 0 {
            out!("desk {}", desk::came());
        }
        out!("rewrites {}", flash::rewrites());
    }
}

/// The first steps of a rewrite: an erase, then a word of four bytes each. The
/// Rust's own rewrite cannot be stopped half way.
fn cut(record: &mut [u8], steps: usize, new: &[u8]) {
    let Some(words) = steps.checked_sub(1) else {
        return;
    };
    record.fill(0xFF);
    record[..4 * words].copy_from_slice(&new[..4 * words]);
}

/// Who reads a stream.
enum Runs {
    Bootloader,
    App(u16),
    /// Handed off to an app that does not listen.
    Nobody,
}

/// The Rust's `crc16`, a byte at a time: its own answers for single bytes
/// from 0, of which by linearity every other follows.
struct CrcTable([u16; 256]);

impl CrcTable {
    fn new() -> Self {
        CrcTable(std::array::from_fn(|b| crc16(0, &[b as u8])))
    }

    fn of(&self, bytes: &[u8]) -> u16 {
        bytes.iter().fold(CRC_INIT, |crc, &b| {
            crc << 8 ^ self.0[((crc >> 8) as u8 ^ b) as usize]
        })
    }
}

/// Bytes in upper-case digit pairs.
pub struct Hex<'a>(pub &'a [u8]);

impl fmt::Display for Hex<'_> {
    fn fmt(&self, f: &mut fmt::Formatter) -> fmt::Result {
        const DIGITS: &[u8; 16] = b"0123456789ABCDEF";
        for chunk in self.0.chunks(64) {
            let mut text = [0; 128];
            for (pair, &b) in text.chunks_exact_mut(2).zip(chunk) {
                pair[0] = DIGITS[(b >> 4) as usize];
                pair[1] = DIGITS[(b & 15) as usize];
            }
            let text = &text[..2 * chunk.len()];
            f.write_str(std::str::from_utf8(text).map_err(|_| fmt::Error)?)?;
        }
        Ok(())
    }
}

/// Says one line of the answer.
#[macro_export]
macro_rules! out {
    ($($arg:tt)*) => { $crate::proc::say(format_args!($($arg)*)) };
}

#[cfg(test)]
mod tests {
    use super::*;

    #[test]
    fn table_is_the_rusts_crc() {
        let table = CrcTable::new();
        assert_eq!(table.of(b"123456789"), 0x29B1);
        let mut x = 1u32;
        let bytes: Vec<u8> = (0..65_536)
            .map(|_| {
                x = x.wrapping_mul(1_664_525).wrapping_add(1_013_904_223);
                (x >> 24) as u8
            })
            .collect();
        for len in [0, 1, 2, 63, 64, 1000, 65_536] {
            assert_eq!(table.of(&bytes[..len]), crc16(CRC_INIT, &bytes[..len]));
        }
        // Every state of the register, every byte.
        for crc in 0..=0xFFFFu16 {
            for b in 0..=255u8 {
                let here = crc << 8 ^ table.0[((crc >> 8) as u8 ^ b) as usize];
                assert_eq!(here, crc16(crc, &[b]));
            }
        }
    }

    #[test]
    fn cuts() {
        let (old, new): ([u8; 12], [u8; 12]) = ([9; 12], std::array::from_fn(|n| n as u8));
        let words = [0x0302_0100u32, 0x0706_0504, 0x0B0A_0908, !0].map(u32::to_le_bytes);
        let [one, two, three, blank] = words;
        let wanted = [[blank, blank, blank], [one, blank, blank], [one, two, blank], [one, two, three]];
        let mut record = old;
        cut(&mut record, 0, &new);
        assert_eq!(record, old);
        for (steps, wanted) in wanted.iter().enumerate() {
            let mut record = old;
            cut(&mut record, steps + 1, &new);
            assert_eq!(record, wanted.concat()[..]);
        }
    }

    #[test]
    fn tail_is_loaded_anew() {
        for (version, key) in [(1, 2), (0xFFFF, 0xFFFF_FFFF), (0x8040, 0x1234_5678)] {
            tail::set(version, key);
            assert_eq!(tinyboot_core::tinyboot_version(), version);
            assert_eq!(tinyboot_core::tinyboot_compat(), key);
        }
    }

    #[test]
    fn hexadecimal() {
        assert_eq!(Hex(&[0, 0x9A, 0xFF]).to_string(), "009AFF");
        assert_eq!(Hex(&[0xAB; 100]).to_string(), "AB".repeat(100));
    }
}
