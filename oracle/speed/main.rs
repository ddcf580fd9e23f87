//! Times the sides on the same inputs, in turn, and prints the best of many runs.
//!
//! `speed ROUNDS`: all cases. `speed count SIDE CASE RUNS`: nothing but so many runs of one case, for who counts instructions.

mod rattle;

use std::hint::black_box;
use std::time::{Duration, Instant};

use common::flash::{self, CAPACITY};
use common::{ID, Log, Side};

/// The boot image's tail, which the Rust finds by its linker symbol: no key, version 0.
#[repr(C, packed(2))]
struct Tail(u32, u16);
#[unsafe(export_name = "__tb_tail")]
static TAIL: Tail = Tail(0xFFFF_FFFF, 0);

const WHOLE: usize = 0;
const PIECES: [usize; 4] = [WHOLE, 64, 16, 1];
const PAYLOAD: usize = 52;

/// Cases: the CRC, the upload for each piece, the start, Select.
const CASES: [&str; 7] =
    ["crc", "upload-whole", "upload-64", "upload-16", "upload-1", "start", "select"];

struct Inputs {
    image: Vec<u8>,
    upload: Vec<u8>,
    select: Vec<u8>,
    crc: u16,
}

/// A request with its CRC.
fn frame(cmd: u8, addr: usize, flags: u8, data: &[u8], crc: fn(&[u8]) -> u16) -> Vec<u8> {
    let mut f = vec![0xAA, 0x55, cmd, 0, addr as u8, (addr >> 8) as u8, (addr >> 16) as u8, flags];
    f.extend((data.len() as u16).to_le_bytes());
    f.extend(data);
    f.extend(crc(&f).to_le_bytes());
    f
}

impl Inputs {
    /// An image of pseudo-random bytes, its upload, and Selects that match and do not, with counts from 0 to past the id.
    fn new(crc: fn(&[u8]) -> u16) -> Inputs {
        let mut x = 0x2545_F491_4F6C_DD1Du64;
        let mut random = move || {
            x ^= x << 13;
            x ^= x >> 7;
            x ^= x << 17;
            (x >> 32) as usize
        };
        let image: Vec<u8> = (0..CAPACITY).map(|_| random() as u8).collect();
        let mut upload = Vec::new();
        for (k, data) in image.chunks(PAYLOAD).enumerate() {
            let last = (k + 1) * PAYLOAD >= CAPACITY;
            upload.extend(frame(2, k * PAYLOAD, if last { 0x80 } else { 0 }, data, crc));
        }
        let mut select = Vec::new();
        for _ in 0..1000 {
            let bits = random() % (8 * ID.len() + 8);
            let mut data = vec![random() as u8, bits as u8];
            data.extend(ID);
            if random() % 4 == 0 {
                let at = 2 + random() % ID.len();
                data[at] ^= 1 << (random() % 8);
            }
            select.extend(frame(5, 0, 0, &data, crc));
        }
        Inputs { crc: crc(&image), image, upload, select }
    }

    /// The chip before a case.
    fn prepare(&self, case: usize) {
        let record = flash::record();
        record.fill(0xFF);
        match CASES[case] {
            "start" => {
                flash::cells().copy_from_slice(&self.image);
                record[0] = 0x3F;
                record[2..4].copy_from_slice(&self.crc.to_le_bytes());
                record[4..8].copy_from_slice(&(CAPACITY as u32).to_le_bytes());
            }
            "crc" => {}
            _ => {
                flash::cells().fill(0xFF);
                record[0] = 0x7F;
            }
        }
    }

    /// One run of a case: how long it took, and whether a start ran the app.
    fn run(&self, side: &Side, case: usize, log: &mut Log) -> (Duration, bool) {
        if CASES[case] == "start" {
            return (side.start)();
        }
        let begun = Instant::now();
        match case {
            0 => {
                black_box((side.crc)(black_box(&self.image)));
            }
            1..=4 => (side.upload)(black_box(&self.upload), PIECES[case - 1], log),
            _ => (side.select)(black_box(&self.select), log),
        }
        (begun.elapsed(), false)
    }

    /// How many things a run does, and what: its time is shown for each.
    fn parts(&self, case: usize) -> (usize, &'static str) {
        match CASES[case] {
            "crc" | "start" => (CAPACITY, "ns/byte"),
            "select" => (1000, "ns/frame"),
            _ => (self.upload.len(), "ns/byte"),
        }
    }
}

/// What a case leaves: the replies, the flash, the record, and a start's decision.
type Left = (Vec<(usize, u8, Vec<u8>)>, u16, Vec<u8>, bool);

fn left(inputs: &Inputs, side: &Side, case: usize) -> Left {
    inputs.prepare(case);
    let mut log = Log { on: true, ..Log::default() };
    let (_, ran) = inputs.run(side, case, &mut log);
    (log.kept, (side.crc)(flash::cells()), flash::record().to_vec(), ran)
}

/// Every side must do the same, or a time says nothing; and what it does must be the case's purpose.
fn check(inputs: &Inputs, sides: &[Side]) {
    for case in 1..CASES.len() {
        let first = left(inputs, &sides[0], case);
        for side in &sides[1..] {
            assert!(left(inputs, side, case) == first, "{} differs at {}", side.name, CASES[case]);
        }
        let (replies, flash, record, ran) = first;
        match CASES[case] {
            "start" => assert!(ran && record[1] == 0x7F),
            "select" => {
                assert!(replies.len() > 600 && replies.len() < 1000);
                eprintln!("checked: {} of 1000 Selects answered", replies.len());
            }
            _ => {
                assert_eq!((replies.len(), flash), (CAPACITY.div_ceil(PAYLOAD), inputs.crc));
                assert!(replies.iter().all(|(_, _, r)| r.len() == 12 && r[3] == 1));
            }
        }
    }
    for side in sides {
        assert_eq!((side.crc)(&inputs.image), inputs.crc);
        assert_eq!((side.crc)(b"123456789"), 0x29B1);
    }
    eprintln!("checked: the sides leave the same replies, waits, flash, record and decision");
}

fn main() {
    let sides = [
        written::side("Rust as written"),
        counted::side("Rust, counted CRC"),
        rattle::side("Rattle"),
    ];
    let inputs = Inputs::new(sides[0].crc);
    let args: Vec<String> = std::env::args().skip(1).collect();
    if args.first().is_some_and(|a| a == "count") {
        let side: usize = args[1].parse().expect("a side's number");
        let case = CASES.iter().position(|c| *c == args[2]).expect("a case's name");
        inputs.prepare(case);
        for _ in 0..args[3].parse().expect("how often") {
            flash::record()[1] = 0xFF;
            inputs.run(&sides[side], case, &mut Log::default());
        }
        return;
    }
    let rounds: usize = args.first().map_or(300, |a| a.parse().expect("how many rounds"));
    check(&inputs, &sides);

    let mut best = vec![[Duration::MAX; 3]; CASES.len()];
    for _ in 0..rounds {
        for case in 0..CASES.len() {
            for (k, side) in sides.iter().enumerate() {
                inputs.prepare(case);
                let took = inputs.run(side, case, &mut Log::default()).0;
                best[case][k] = best[case][k].min(took);
            }
        }
    }
    print(&inputs, &sides, &best);
}

fn print(inputs: &Inputs, sides: &[Side], best: &[[Duration; 3]]) {
    print!("| case | unit |");
    sides.iter().for_each(|s| print!(" {} |", s.name));
    println!(" Rust / Rattle | counted / Rattle |\n|---|---|---|---|---|---|---|");
    for (case, took) in best.iter().enumerate() {
        let (parts, unit) = inputs.parts(case);
        let of = |k: usize| took[k].as_nanos() as f64 / parts as f64;
        print!("| {} | {unit} |", CASES[case]);
        (0..3).for_each(|k| print!(" {:.2} |", of(k)));
        println!(" {:.2} | {:.2} |", of(0) / of(2), of(1) / of(2));
    }
    for (k, side) in sides.iter().enumerate() {
        let ratio = best[4][k].as_secs_f64() / best[1][k].as_secs_f64();
        println!("{}: 1-byte pieces cost {ratio:.2} times the whole", side.name);
    }
}
