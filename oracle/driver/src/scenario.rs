//! The scenario language: lines to steps.

use tinyboot_ch32::hal::flash::{MAX_CAPACITY, PAGE_SIZE, RECORD};
use tinyboot_core::traits::RunMode;
use tinyboot_protocol::crc::{CRC_INIT, crc16};
use tinyboot_protocol::{BaudRate, DEFAULT_PAYLOAD, compat_key, pack_version, unpack_version};

use crate::desk;

/// Place of the data area in a frame, as the script language counts.
const DATA: usize = 10;

/// An `s` line.
pub struct Setup {
    pub erase: u32,
    pub capacity: u32,
    pub id_len: u8,
    pub id: [u8; 16],
    pub version: u16,
    pub key: u32,
    pub careful: bool,
}

impl Setup {
    /// The setup of `listen`, for lines before the first `s`.
    fn listen() -> Self {
        Setup {
            erase: 64,
            capacity: 16_384,
            id_len: 0,
            id: [0; 16],
            version: 0,
            key: 0xFFFF_FFFF,
            careful: false,
        }
    }

    /// Of 31 bytes, or of 32 with the kind of start.
    fn of(b: &[u8]) -> Result<Self, String> {
        let careful = match b.len() {
            31 => false,
            32 if b[31] < 2 => b[31] == 1,
            32 => return Err("a kind of start is 00 or 01".into()),
            _ => return Err("a setup has 31 or 32 bytes".into()),
        };
        let long = |i: usize| u32::from_le_bytes([b[i], b[i + 1], b[i + 2], b[i + 3]]);
        let mut id = [0; 16];
        id.copy_from_slice(&b[9..25]);
        Ok(Setup {
            erase: long(0),
            capacity: long(4),
            id_len: b[8],
            id,
            version: u16::from_le_bytes([b[25], b[26]]),
            key: long(27),
            careful,
        })
    }
}

/// One dispatcher's or one app's bytes, with the marks between them.
#[derive(Default)]
pub struct Stream {
    pub bytes: Vec<u8>,
    pub marks: Vec<(usize, Mark)>,
    /// From where to where the desk asked: it hears the replies to these.
    pub asked: Vec<(usize, usize)>,
}

/// What stands between bytes and does not part them.
pub enum Mark {
    Text(String),
    Call(Call),
    /// The desk wrote this request.
    Wrote(Vec<u8>),
    /// These bytes came to the desk.
    Heard(Vec<u8>),
}

/// A call of the app itself.
#[derive(Clone, Copy)]
pub enum Call {
    Confirm,
    SetBaud(BaudRate),
    /// With the build's default.
    Baud(BaudRate),
}

pub enum Step {
    Flash(usize, Vec<u8>),
    Record(Vec<u8>),
    /// So many steps of a rewrite to this record.
    Cut(usize, [u8; RECORD]),
    Data(usize, Vec<u8>),
    Start(RunMode),
    /// The app runs, with this version.
    App(u16),
    Stream(Stream),
    Mark(Mark),
}

pub struct Scenario {
    pub setup: Setup,
    pub steps: Vec<Step>,
}

/// Reads a scenario. `first` is the number of its first line in the input.
pub fn parse(text: &[u8], first: usize) -> Result<Scenario, String> {
    let mut setup = Setup::listen();
    let mut steps: Vec<Step> = Vec::new();
    for (n, line) in text.split(|&c| c == b'\n').enumerate() {
        let line = content(line);
        if let Some((&letter, rest)) = line.split_first() {
            take(letter, rest, &mut setup, &mut steps)
                .map_err(|why| format!("line {}: {why}", first + n))?;
        }
    }
    Ok(Scenario { setup, steps })
}

/// A line without its comment and the blanks around it.
pub fn content(line: &[u8]) -> &[u8] {
    let end = line.iter().position(|&c| c == b'#').unwrap_or(line.len());
    line[..end].trim_ascii()
}

fn take(letter: u8, rest: &[u8], setup: &mut Setup, steps: &mut Vec<Step>) -> Result<(), String> {
    let mark = match letter {
        b't' => Some(Mark::Text(String::from_utf8_lossy(rest.trim_ascii()).into_owned())),
        b'A'..=b'Z' => Some(Mark::Text(value(letter, &pairs(rest)?)?)),
        b'k' | b'g' | b'y' => Some(Mark::Call(call(letter, &pairs(rest)?)?)),
        b'w' | b'u' => Some(Mark::Wrote(desk::request(&pairs(rest)?)?)),
        b'h' => Some(Mark::Heard(pairs(rest)?)),
        _ => None,
    };
    if let Some(mark) = mark {
        match steps.last_mut() {
            // Between two pieces of one stream the mark must not part them.
            Some(Step::Stream(s)) => s.marks.push((s.bytes.len(), mark)),
            _ => steps.push(Step::Mark(mark)),
        }
        if letter != b'u' {
            return Ok(());
        }
    }
    let bytes = pairs(rest)?;
    // A cut in a stream ends it: the plug is pulled.
    let begins = |step: &&Step| matches!(step, Step::Start(_) | Step::App(_));
    let mut since_start = steps.iter().rev().take_while(|step| !begins(step));
    let in_stream = since_start.any(|step| matches!(step, Step::Stream(_)));
    match letter {
        b's' => {
            *setup = Setup::of(&bytes)?;
            if setup.id_len > 16 {
                return Err("an id has at most 16 bytes".into());
            }
            let page = PAGE_SIZE as u32;
            if setup.capacity == 0
                || setup.capacity > MAX_CAPACITY
                || !setup.capacity.is_multiple_of(page)
            {
                return Err("a capacity is a multiple of 64, not 0, at most 65536".into());
            }
        }
        b'f' | b'r' | b'q' if in_stream => {
            // The Rust holds its record and frame while it reads a stream.
            return Err("only before a stream".into());
        }
        b'f' => {
            let (place, bytes) = bytes.split_at_checked(4).ok_or("too few bytes")?;
            let at = u32::from_le_bytes([place[0], place[1], place[2], place[3]]) as usize;
            if at + bytes.len() > setup.capacity as usize {
                return Err("past the flash".into());
            }
            steps.push(Step::Flash(at, bytes.to_vec()));
        }
        b'r' => {
            if bytes.is_empty() || bytes.len() > RECORD {
                return Err("a record has 1 to 12 bytes".into());
            }
            steps.push(Step::Record(bytes));
        }
        b'j' => {
            let (&cut, bytes) = bytes.split_first().ok_or("too few bytes")?;
            let new = bytes.try_into().map_err(|_| "a record has 12 bytes")?;
            if cut > 4 {
                return Err("a rewrite has 4 steps".into());
            }
            steps.push(Step::Cut(cut as usize, new));
        }
        b'q' => {
            let (&place, bytes) = bytes.split_first().ok_or("too few bytes")?;
            let at = (place as usize)
                .checked_sub(DATA)
                .ok_or("not in the data area")?;
            if at + bytes.len() > DEFAULT_PAYLOAD {
                return Err("not in the data area".into());
            }
            steps.push(Step::Data(at, bytes.to_vec()));
        }
        b'b' => steps.push(Step::Start(match bytes[..] {
            [0] => RunMode::HandOff,
            [1] => RunMode::Service,
            _ => return Err("a mode is 00 or 01".into()),
        })),
        b'a' => match bytes[..] {
            [low, high] => steps.push(Step::App(u16::from_le_bytes([low, high]))),
            _ => return Err("an app version has 2 bytes".into()),
        },
        b'x' | b'u' => {
            if !matches!(steps.last(), Some(Step::Stream(_))) {
                if in_stream {
                    return Err("after a cut in a stream a start or an app comes first".into());
                }
                steps.push(Step::Stream(Stream::default()));
            }
            if let Some(Step::Stream(s)) = steps.last_mut() {
                let from = s.bytes.len();
                if letter == b'u' {
                    s.bytes.extend_from_slice(&desk::request(&bytes)?);
                    s.asked.push((from, s.bytes.len()));
                } else {
                    s.bytes.extend_from_slice(&bytes);
                }
            }
        }
        _ => return Err("no such line".into()),
    }
    Ok(())
}

/// A call of the app.
fn call(letter: u8, bytes: &[u8]) -> Result<Call, String> {
    let rate = |index| BaudRate::from_u8(index).ok_or("a rate's index is 00 to 0D".to_string());
    Ok(match (letter, bytes) {
        (b'k', []) => Call::Confirm,
        (b'g', &[index]) => Call::SetBaud(rate(index)?),
        (b'y', &[index]) => Call::Baud(rate(index)?),
        _ => return Err("too few or too many bytes".into()),
    })
}

/// The Rust's small functions, asked directly.
fn value(letter: u8, bytes: &[u8]) -> Result<String, String> {
    Ok(match (letter, bytes) {
        (b'E', _) => format!("crc {:04X}", crc16(CRC_INIT, bytes)),
        (b'K', _) => {
            let name = str::from_utf8(bytes).map_err(|_| "a name is UTF-8".to_string())?;
            format!("key {:08X}", compat_key(name))
        }
        (b'V', &[major, minor, patch]) => format!("version {}", pack_version(major, minor, patch)),
        (b'U', &[low, high]) => {
            let (major, minor, patch) = unpack_version(u16::from_le_bytes([low, high]));
            format!("parts {major} {minor} {patch}")
        }
        (b'H', &[index]) => match BaudRate::from_u8(index) {
            Some(rate) => format!("rate {}", rate.hz()),
            None => "rate none".into(),
        },
        (b'G', &[a, b, c, d]) => match BaudRate::from_hz(u32::from_le_bytes([a, b, c, d])) {
            Some(rate) => format!("index {}", rate as u8),
            None => "index none".into(),
        },
        (b'G' | b'H' | b'U' | b'V', _) => return Err("too few or too many bytes".into()),
        _ => return Err("no such line".into()),
    })
}

/// Hexadecimal pairs, blanks free.
fn pairs(text: &[u8]) -> Result<Vec<u8>, String> {
    let mut bytes = Vec::with_capacity(text.len() / 2);
    let mut high = None;
    for &c in text {
        let digit = match c {
            b' ' | b'\t' => continue,
            b'0'..=b'9' => c - b'0',
            b'a'..=b'f' => c - b'a' + 10,
            b'A'..=b'F' => c - b'A' + 10,
            _ => return Err("not a hexadecimal digit".into()),
        };
        high = match high {
            None => Some(digit),
            Some(h) => {
                bytes.push(h << 4 | digit);
                None
            }
        };
    }
    match high {
        None => Ok(bytes),
        Some(_) => Err("an odd number of digits".into()),
    }
}
