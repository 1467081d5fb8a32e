//! `machine::run` against the plain machine, over the cases and over long bit fields.

mod plain;

use peer::cases::make;
use peer::machine::{run, Record};
use peer::random::Random;

#[test]
fn cases_agree_with_the_plain_machine() {
    for number in 0..6000 {
        let made = make(7, number);
        // The plain machine takes its time with long fields.
        if made.state.memory.len() > 4096 {
            continue;
        }
        let (mut ours, mut theirs) = (made.state.clone(), made.state.clone());
        let budget = made.budget;
        let a = run(&mut ours.memory, &mut ours.registers, &mut ours.record, budget);
        let b = plain::run(&mut theirs.memory, &mut theirs.registers, &mut theirs.record, budget);
        assert_eq!(a, b, "case {number}");
        assert!(ours == theirs, "case {number}: {ours:X?} {theirs:X?}");
    }
}

/// Compress, merge and mask over all small lengths, from every item on.
#[test]
fn bit_fields_agree_with_the_plain_machine() {
    let mut random = Random::new(3);
    for round in 0..20_000u64 {
        let lengths = |random: &mut Random| match random.below(4) {
            0 => 1 + random.below(4),
            1 => 1 + random.below(20),
            2 => 1 + random.below(70),
            _ => 1 + random.below(300),
        };
        let code = 0x14 + round % 3;
        let (r, s) = (lengths(&mut random), lengths(&mut random));
        let n = 1 + random.below(600);
        let mut memory: Vec<u8> = (0..1024).map(|_| random.next() as u8).collect();
        let mut registers = vec![0; 256];
        // R and S in the left part, T in the right part.
        let low = if random.below(8) == 0 { 0 } else { 0x4000 + random.below(2000) };
        registers[2] = r << 48 | (0x4000 + random.below(2000));
        registers[3] = s << 48 | low;
        registers[4] = n << 48 | (0x4000 + 8192 - n - random.below(500));
        let p = 0x4000 + 32 * random.below(255);
        let word = code << 56 | 0x02_03_04 << 32;
        let mut record = Record { p, ..Record::default() };
        let from = random.below(n);
        if from > 0 {
            record = Record { p, mark: 1, word, items: from, flags: 0 };
        } else {
            let at = (p - 0x4000) as usize / 8;
            memory[at..at + 4].copy_from_slice(&word.to_be_bytes()[..4]);
        }
        let budget = 1 + random.below(n - from) as u32;
        let (mut m2, mut r2, mut rec2) = (memory.clone(), registers.clone(), record);
        let a = run(&mut memory, &mut registers, &mut record, budget);
        let b = plain::run(&mut m2, &mut r2, &mut rec2, budget);
        assert_eq!((a, record), (b, rec2), "r {r} s {s} n {n} from {from}");
        assert!(memory == m2, "code {code:X} r {r} s {s} n {n} from {from} budget {budget}");
    }
}

/// Any bytes, registers and record whatever: no panic, and the plain machine says the same.
#[test]
fn anything_agrees_with_the_plain_machine() {
    let mut random = Random::new(11);
    for _ in 0..30_000 {
        let bytes = 8 * random.below(12) as usize + if random.below(10) == 0 { 3 } else { 0 };
        let count = if random.below(20) == 0 { random.below(300) as usize } else { 256 };
        let codes = [0x14, 0x15, 0x16, 0x83, 0x8A, 0x90, 0x96, 0x98, 0xB1, 0xB3, 0xF8, 0x7E, 0x13, 0x77];
        let mut memory: Vec<u8> = (0..bytes).map(|_| random.next() as u8).collect();
        for eight in memory.chunks_mut(8).filter(|eight| eight.len() == 8) {
            // A listed code with few bits in its designators.
            let word = random.next() & random.next() & random.next() & 0x0018_0003_0007_0707;
            let code = codes[random.below(14) as usize] << 56;
            eight.copy_from_slice(&(code | word | 0x0101_0001).to_be_bytes());
        }
        let registers: Vec<u64> = (0..count)
            .map(|_| match random.below(4) {
                0 => random.next(),
                1 => random.below(8),
                _ => random.below(20) << 48 | (0x4000 + 8 * random.below(2 * bytes as u64 + 1)),
            })
            .collect();
        let mut record = Record { p: 0x4000 + 32 * random.below(8), ..Record::default() };
        if random.below(4) == 0 {
            record.mark = random.below(3);
            record.word = memory.first_chunk().map_or(0, |word| u64::from_be_bytes(*word));
            record.items = random.below(20);
            record.flags = random.next() & if random.below(2) == 0 { 0x32_0000 } else { !0 };
        }
        let budget = [0, 1, 3, 50, 400][random.below(5) as usize];
        let (mut m1, mut r1, mut rec1) = (memory.clone(), registers.clone(), record);
        let (mut m2, mut r2, mut rec2) = (memory, registers, record);
        let a = run(&mut m1, &mut r1, &mut rec1, budget);
        let b = plain::run(&mut m2, &mut r2, &mut rec2, budget);
        assert_eq!((a, rec1, r1, m1), (b, rec2, r2, m2));
    }
}
