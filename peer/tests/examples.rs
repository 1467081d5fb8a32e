//! 01's worked examples.

use peer::machine::{run, Record};
use peer::numbers::{FLAG_42, FLAG_43, FLAG_46};

struct Machine {
    memory: Vec<u8>,
    registers: Vec<u64>,
    record: Record,
}

/// A machine with these words from 4000 on and an exit after them; P at 4000.
fn machine(words: &[u64]) -> Machine {
    let mut memory: Vec<u8> = words.iter().flat_map(|word| word.to_be_bytes()).collect();
    memory.extend((0x09u64 << 56).to_be_bytes());
    memory.resize(512, 0);
    let record = Record { p: 0x4000, ..Record::default() };
    Machine { memory, registers: vec![0; 256], record }
}

impl Machine {
    fn run(&mut self, budget: u32) -> (u32, u32) {
        run(&mut self.memory, &mut self.registers, &mut self.record, budget)
    }
}

/// Register 2 by a format A code to register 4, or half word 8, its left half.
fn by(code: u64, word: u64) -> (u64, u64) {
    let half = code == 0x76 || code == 0x77;
    let t = if half { 8 } else { 4 };
    let mut machine = machine(&[(code << 24 | 0x02_00_00 | t) << 32]);
    machine.registers[2] = word;
    assert_eq!(machine.run(1), (0, 1));
    let result = machine.registers[4];
    (if half { result >> 32 } else { result }, machine.record.flags)
}

#[test]
fn contract() {
    assert_eq!(by(0x76, 0x0000_0000_0100_0000), (0x1800_0001, 0)); // 1
    assert_eq!(by(0x76, 0x0000_FFFF_FFFF_FFFF), (0x18FF_FFFF, 0)); // 2
    assert_eq!(by(0x77, 0x0000_FFFF_FFFF_FFFF), (0x1800_0000, 0));
    assert_eq!(by(0x77, 0x0000_0000_0080_0000), (0x1800_0001, 0)); // 3
    assert_eq!(by(0x77, 0x0000_FFFF_FF80_0000), (0x1800_0000, 0));
    assert_eq!(by(0x77, 0x0000_7FFF_FFFF_FFFF), (0x1940_0000, 0)); // 4
    assert_eq!(by(0x76, 0x0057_7FFF_FFFF_FFFF), (0x6F7F_FFFF, 0)); // 5
    assert_eq!(by(0x77, 0x0057_7FFF_FFFF_FFFF), (0x7000_0000, FLAG_42 | FLAG_46));
    assert_eq!(by(0x77, 0xFF77_7FFF_FFFF_FFFF), (0x8000_0000, FLAG_43)); // 6
    assert_eq!(by(0x76, 0xFF78_0000_0100_0000), (0x9000_0001, 0));
}

#[test]
fn truncate_floor_ceiling() {
    assert_eq!(by(0x70, 0xFFFF_FFFF_FFFF_FFFD), (0x0000_FFFF_FFFF_FFFF, 0)); // 7
    assert_eq!(by(0x72, 0xFFFF_FFFF_FFFF_FFFD), (0x0000_FFFF_FFFF_FFFF, 0));
    assert_eq!(by(0x71, 0xFFFF_FFFF_FFFF_FFFD), (0x0000_FFFF_FFFF_FFFE, 0));
    assert_eq!(by(0x71, 0x9000_FFFF_FFFF_FFFF), (0x0000_FFFF_FFFF_FFFF, 0)); // 8
    assert_eq!(by(0x70, 0x9000_FFFF_FFFF_FFFF), (0, 0));
    assert_eq!(by(0x71, 0x8FFF_FFFF_FFFF_FFFF), (0, 0));
    assert_eq!(by(0x71, 0x7000_FFFF_FFFF_FFFF), (0x7000_FFFF_FFFF_FFFF, FLAG_46));
}

#[test]
fn shift() {
    // 9, both sources broadcast.
    for (count, result) in [(0x01, 3), (0xFF, 0xC000_0000_0000_0000), (0x40, 0x8000_0000_0000_0001u64)] {
        let mut machine = machine(&[0x8A_18_00_02_00_03_00_04]);
        machine.registers[2] = 0x8000_0000_0000_0001;
        machine.registers[3] = count;
        machine.registers[4] = 1 << 48 | 0x4100;
        assert_eq!(machine.run(9), (1, 1));
        assert_eq!(machine.memory[32..40], result.to_be_bytes());
    }
}

fn bit_fields(code: u64, r: (u64, u8), s: (u64, u8), n: u64) -> u8 {
    let mut machine = machine(&[(code << 24 | 0x02_03_04) << 32 | 0x09 << 24]);
    machine.registers[2] = r.0 << 48 | 0x4400;
    machine.registers[3] = s.0 << 48 | 0x4408;
    machine.registers[4] = n << 48 | 0x4410;
    machine.memory[0x80] = r.1;
    machine.memory[0x81] = s.1;
    assert_eq!(machine.run(100), (1, n as u32));
    machine.memory[0x82]
}

#[test]
fn compress_merge_mask() {
    assert_eq!(bit_fields(0x14, (2, 0b1011_0100), (1, 0), 5), 0b1010_0000); // 10
    assert_eq!(bit_fields(0x15, (2, 0b1011_0000), (1, 0b0100_0000), 6), 0b1001_1100); // 11
    assert_eq!(bit_fields(0x16, (2, 0b1011_0100), (1, 0b0100_1000), 6), 0b1001_0000);
    // 12
}

#[test]
fn branches() {
    // 13
    let mut b0 = machine(&[0xB0_00_00_00_00_05_00_06]);
    b0.registers[5] = 0x4080;
    assert_eq!(b0.run(1), (0, 1));
    assert_eq!((b0.registers[6], b0.record.p), (0x8000 << 48, 0x4080));
    // 14
    for (g, p) in [(0x00u64, 0x4080), (0x08, 0x4040)] {
        let mut b3 = machine(&[0xB3_00_00_02_00_05_00_06 | g << 48]);
        b3.registers[2] = 0xFFFF_FFFF_FFFF;
        b3.registers[5] = 0x4080;
        assert_eq!(b3.run(1), (0, 1));
        assert_eq!((b3.registers[6], b3.record.p), (0xFFFF_FFFF_FFFF, p));
    }
}

#[test]
fn moving() {
    // 15
    let mut f8 = machine(&[0xF8_00_00_02_00_2E_00_03]);
    f8.registers[2] = 2 << 48 | 0x4400;
    f8.registers[3] = 5 << 48 | 0x4440;
    f8.memory[0x80..0x82].copy_from_slice(b"AB");
    assert_eq!(f8.run(3), (0, 3));
    assert_eq!(f8.record, Record { p: 0x4000, mark: 1, word: 0xF8_00_00_02_00_2E_00_03, items: 3, flags: 0 });
    assert_eq!(f8.run(3), (1, 2));
    assert_eq!(f8.memory[0x88..0x8D], *b"AB...");
    assert_eq!(f8.record, Record { p: 0x4040, ..Record::default() });
}

/// "Fetching again after a pause. A vector may store over its own word." In place it adds once.
#[test]
fn a_vector_over_its_own_word() {
    let word = 0x83_08_00_02_00_03_00_02;
    let mut one = machine(&[word, 5, 6]);
    one.registers[2] = 3 << 48 | 0x4000;
    one.registers[3] = 1;
    let mut parts = machine(&[word, 5, 6]);
    parts.registers = one.registers.clone();
    assert_eq!(one.run(3), (0, 3));
    for _ in 0..3 {
        assert_eq!(parts.run(1), (0, 1));
    }
    assert_eq!(one.memory, parts.memory);
    assert_eq!(one.memory[..24], [word + 1, 6, 7].map(u64::to_be_bytes).concat());
    assert_eq!(one.record, parts.record);
}

#[test]
fn total_on_odd_lengths() {
    let mut record = Record { p: 1, ..Record::default() };
    for length in [0, 1, 7, 9, 65_544] {
        assert_eq!(run(&mut vec![0; length], &mut [0; 256], &mut record, 0), (2, 0));
    }
    assert_eq!(run(&mut [0; 8], &mut [0; 255], &mut record, 5), (2, 0));
    assert_eq!(run(&mut [0; 8], &mut [0; 256], &mut record, 0), (3, 0));
    record.p = 0;
    assert_eq!(run(&mut [0; 8], &mut [0; 256], &mut record, 0), (0, 0));
    assert_eq!(run(&mut [0; 8], &mut [0; 256], &mut record, 1), (4, 0));
}
