//! The workloads: each one instruction and an exit, or a loop of ten register instructions.
use peer::machine::Record;

/// What a workload is counted with.
#[derive(Clone, Copy, PartialEq)]
pub enum Kind {
    Items,
    Scalar,
}

pub struct Job {
    pub name: &'static str,
    pub kind: Kind,
    pub memory: Vec<u8>,
    pub registers: Vec<u64>,
    pub record: Record,
}

const WORDS: u64 = 4_000;
const BITS: u64 = 60_000;
const ORIGIN: u64 = 0x4000;
/// Where A (or R), B (or S), C (or T) and the control field begin, in bytes of the memory.
const A: u64 = 64;
const B: u64 = A + 8 * WORDS;
const CONTROL: u64 = B + 8 * WORDS;

fn descriptor(length: u64, byte: u64) -> u64 {
    length << 48 | (ORIGIN + 8 * byte)
}

/// Words that look like numbers: exponents about zero, coefficients of both signs.
fn filled() -> Vec<u8> {
    let mut x = 0x9E37_79B9_7F4A_7C15u64;
    let mut memory = vec![0; 65_536];
    for word in memory.chunks_exact_mut(8) {
        x ^= x << 13;
        x ^= x >> 7;
        x ^= x << 17;
        let exponent = (x >> 56) as i64 - 160;
        word.copy_from_slice(&((exponent as u64) << 48 | x & 0xFFFF_FFFF_FFFF).to_be_bytes());
    }
    memory
}

fn job(name: &'static str, word: u64, registers: &[(usize, u64)]) -> Job {
    let mut memory = filled();
    let exit = 0x0900_0000_0000_0000u64;
    memory[..8].copy_from_slice(&word.to_be_bytes());
    // a 32-bit word is followed by an exit in its right half
    if word & 0xFFFF_FFFF == 0 {
        memory[4..8].copy_from_slice(&exit.to_be_bytes()[..4]);
    }
    memory[8..16].copy_from_slice(&exit.to_be_bytes());
    let mut all = vec![0; 256];
    for &(k, value) in registers {
        all[k] = value;
    }
    Job { name, kind: Kind::Items, memory, registers: all, record: Record { p: ORIGIN, mark: 0, word: 0, items: 0, flags: 0 } }
}

/// A vector: A is register 10, B 11, C 12, the control field's base 13.
fn vector(name: &'static str, code: u64, g: u64, b: u64, controlled: bool, half: bool) -> Job {
    let z = if controlled { 0x13 } else { 0 };
    let word = code << 56 | g << 48 | 0x10 << 32 | b << 16 | z << 8 | 0x12;
    // two sources work in place on B; one source works in place on A; half words go where B would be
    let result = if b != 0 || half { B } else { A };
    job(
        name,
        word,
        &[(0x10, descriptor(WORDS, A)), (0x11, descriptor(WORDS, B)), (0x12, descriptor(WORDS, result)), (0x13, ORIGIN + 8 * CONTROL)],
    )
}

/// Compress, merge, mask: R at A, S a third further on, T behind both.
fn bits(name: &'static str, code: u64, r: u64, s: u64) -> Job {
    let word = code << 56 | 0x10 << 48 | 0x11 << 40 | 0x12 << 32;
    job(name, word, &[(0x10, descriptor(r, A)), (0x11, descriptor(s, A + 20_000)), (0x12, descriptor(BITS, A + 40_000))])
}

fn move_bytes() -> Job {
    job("F8 move 30,000 bytes", 0xF800_0010_0020_0011, &[(0x10, descriptor(30_000, A)), (0x11, descriptor(30_000, A + 32_000))])
}

/// Ten register instructions, 1,000 times: two loads, a store, sums, logic, floor, contract, and the branch back.
fn scalar_loop() -> Job {
    let mut job = job(
        "ten instructions, 1,000 times",
        0,
        &[(0x10, ORIGIN + 8 * A), (0x11, 0), (0x12, 1), (0x13, 1_000), (0x20, ORIGIN), (0x30, 0xFFFF), (0x31, 0x0123_4567_89AB)],
    );
    let code: [u64; 9] = [
        0x7E10_1140, // load word 40 at 10 plus 11
        0x1210_1141, // load byte
        0x6340_3142, // add low 48
        0x2C42_4143, // exclusive or
        0x2D43_3044, // and
        0x7140_0045, // floor
        0x7640_008C, // contract to half word 8C
        0x6345_4446, // add
        0x7F10_1146, // store word
    ];
    for (k, word) in code.iter().enumerate() {
        job.memory[4 * k..4 * k + 4].copy_from_slice(&(*word as u32).to_be_bytes());
    }
    // B1: 11 becomes 11 plus 12, and branches to 4000 unless it is 13; a 64-bit word may stand at a half word
    let branch = 0xB100_1211_0020_1311u64;
    job.memory[36..44].copy_from_slice(&branch.to_be_bytes());
    job.memory[44..48].copy_from_slice(&0x0900_0000u32.to_be_bytes());
    job.kind = Kind::Scalar;
    job
}

pub fn all() -> Vec<Job> {
    vec![
        vector("83 add in place, 4,000 words", 0x83, 0, 0x11, false, false),
        vector("83 with control and broadcast", 0x83, 0x10, 0x11, true, false),
        vector("90 truncate", 0x90, 0, 0, false, false),
        vector("90 truncate, control", 0x90, 0, 0, true, false),
        vector("91 floor", 0x91, 0, 0, false, false),
        vector("91 floor, control", 0x91, 0, 0, true, false),
        vector("96 contract", 0x96, 0, 0, false, true),
        vector("96 contract, control", 0x96, 0, 0, true, true),
        vector("8A shift in place", 0x8A, 0, 0x11, false, false),
        bits("15 merge, runs 3 and 2", 0x15, 3, 2),
        bits("15 merge, runs 500 and 300", 0x15, 500, 300),
        bits("16 mask, runs 3 and 2", 0x16, 3, 2),
        bits("16 mask, runs 500 and 300", 0x16, 500, 300),
        bits("14 compress, runs 3 and 2", 0x14, 3, 2),
        bits("14 compress, runs 500 and 300", 0x14, 500, 300),
        move_bytes(),
        scalar_loop(),
    ]
}
