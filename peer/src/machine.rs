//! One call: "Checked in this order: 2, 3, budget 0, then 1 and 4 to 11 at each instruction."

use crate::checks::{work, Registers};
use crate::fields::{formed, Field, BASE};
use crate::items::Work;
use crate::numbers::*;
use crate::words::{designator, listed, Kind, A, B, C, G4, R, S, T, X, Y, Z};

/// "The record holds: program address P (48 bits, a multiple of 32), a half-done mark, a held instruction
/// word, the items done, the data flags." Every pattern of bits can be lent.
#[derive(Clone, Copy, PartialEq, Eq, Debug, Default)]
#[repr(C)] // so that the bench can lend one record to both
pub struct Record {
    pub p: u64,
    pub mark: u64,
    pub word: u64,
    pub items: u64,
    pub flags: u64,
}

/// Answers by 01's numbers.
pub const PAUSED: u32 = 0;
pub const EXIT: u32 = 1;
pub const WRONG_LENGTH: u32 = 2;
pub const IMPOSSIBLE: u32 = 3;

/// Runs a job: gives the answer's number and the steps.
pub fn run(memory: &mut [u8], registers: &mut [u64], record: &mut Record, budget: u32) -> (u32, u32) {
    // 2: "memory length wrong, or not 256 registers"; "8 to 65,536 bytes, a multiple of 8".
    if memory.len() % 8 != 0 || !(8..=65_536).contains(&memory.len()) {
        return (WRONG_LENGTH, 0);
    }
    let Ok(registers) = <&mut Registers>::try_from(registers) else {
        return (WRONG_LENGTH, 0);
    };
    let memory_bits = 8 * memory.len() as u64;
    // 3: "record impossible".
    let Ok(held) = possible(record, registers, memory_bits) else {
        return (IMPOSSIBLE, 0);
    };
    if budget == 0 {
        return (PAUSED, 0);
    }
    let mut left = budget;
    // "The instruction is fetched once": a half-done one goes on with the held word.
    if let Some((work, bits)) = held {
        if !go_on(&work, memory, record, &mut left) {
            return (PAUSED, budget);
        }
        *record = Record { p: record.p + bits, flags: record.flags, ..Record::default() };
    }
    let (answer, left) = job(memory, registers, record, left, memory_bits);
    (answer, budget - left)
}

/// "A record is possible if P is below 2^48 and a multiple of 32, its flags are only the three, and
/// either it isn't half done, with held word and items zero, or the held word at P would fit memory, is a
/// vector, bit or move instruction (zeros right of a 32-bit one) passing 5 to 11 with the present
/// registers, and 1 <= items done < its items."
/// Gives the held work and the length of its word.
fn possible(record: &Record, registers: &Registers, memory: u64) -> Result<Option<(Work, u64)>, ()> {
    if record.p > LOW_48 || record.p % 32 != 0 || record.flags & !FLAGS != 0 {
        return Err(());
    }
    match record.mark {
        0 if record.word == 0 && record.items == 0 => Ok(None),
        1 => {
            let row = listed((record.word >> 56) as u8).ok_or(())?;
            let word = Field { base: record.p, bits: row.bits() };
            // Zeros right of a 32-bit word are among the bits that are to be zero.
            if !row.has_items() || !word.inside(memory) || row.refuses_6(record.word) || row.refuses_7(record.word) {
                return Err(());
            }
            let held = work(row, record.word, registers, memory).map_err(|_| ())?;
            if record.items < 1 || record.items >= held.items as u64 {
                return Err(());
            }
            Ok(Some((held, row.bits())))
        }
        _ => Err(()),
    }
}

/// Works items of an instruction from the record's on, "one step for each result item", as far as the
/// budget goes. True if the last one is done; else the record's items say how many are.
fn go_on(work: &Work, memory: &mut [u8], record: &mut Record, left: &mut u32) -> bool {
    let done = record.items as usize;
    let count = (work.items - done).min(*left as usize);
    record.flags |= work.do_items(memory, done, count);
    *left -= count as u32;
    record.items += count as u64;
    done + count == work.items
}

/// Instructions from P on, none being half done, until the budget is used or a number from 1 on comes.
/// "Numbers 1 to 11 leave all as the last finished step left it, P at the refused word."
/// Gives the answer and what is left of the budget.
fn job(
    memory: &mut [u8],
    registers: &mut Registers,
    record: &mut Record,
    mut left: u32,
    memory_bits: u64,
) -> (u32, u32) {
    // P is a multiple of 32 throughout; kept as bits from the beginning of memory.
    let mut at = record.p.wrapping_sub(BASE);
    let mut flags = record.flags;
    macro_rules! stop {
        ($answer:expr) => {{
            record.p = at.wrapping_add(BASE);
            record.flags = flags;
            return ($answer, left);
        }};
    }
    macro_rules! or_stop {
        ($checked:expr) => {
            match $checked {
                Ok(value) => value,
                Err(number) => stop!(number),
            }
        };
    }
    loop {
        // 0: "all the budget is used".
        if left == 0 {
            stop!(PAUSED);
        }
        // 4: "first 32 bits at P not in memory, or the code there is a listed 64-bit one and the next
        // 32 are not". P below 4000 lies far above here.
        if at >= memory_bits {
            stop!(4);
        }
        let first = &memory[(at / 8) as usize..];
        let mut word = (u32::from_be_bytes(*first.first_chunk().unwrap()) as u64) << 32;
        // 5: "function not in the table".
        let Some(row) = listed((word >> 56) as u8) else {
            stop!(5);
        };
        if row.long {
            match first.first_chunk() {
                Some(eight) => word = u64::from_be_bytes(*eight),
                None => stop!(4),
            }
        }
        if row.refuses_6(word) {
            stop!(6);
        }
        // "1 after 4; a 09 with operands is 6".
        if row.kind == Kind::Exit {
            stop!(EXIT);
        }
        if row.refuses_7(word) {
            stop!(7);
        }
        let get = |place| registers[designator(word, place) as usize];
        let (r, s, t) = (get(R), get(S), designator(word, T) as usize);
        match row.code {
            // 12, 13: "load (rest of T cleared), store a byte, T bits 56-63, at R plus S bytes".
            0x12 => registers[t] = memory[or_stop!(address(r, s, 3, memory_bits))] as u64,
            0x13 => memory[or_stop!(address(r, s, 3, memory_bits))] = registers[t] as u8,
            // 7E, 7F: "load, store word T at R plus S words".
            0x7E => {
                let there = &memory[or_stop!(address(r, s, 6, memory_bits))..];
                registers[t] = u64::from_be_bytes(*there.first_chunk().unwrap());
            }
            0x7F => {
                let there = &mut memory[or_stop!(address(r, s, 6, memory_bits))..];
                *there.first_chunk_mut().unwrap() = registers[t].to_be_bytes();
            }
            0x2C => registers[t] = r ^ s,
            0x2D => registers[t] = r & s,
            0x2E => registers[t] = r | s,
            0x63 => registers[t] = add_48(r, s),
            0x67 => registers[t] = subtract_48(r, s),
            0x70..=0x72 => {
                let (result, set) = match row.code {
                    0x70 => truncate(r),
                    0x71 => floor(r),
                    _ => ceiling(r),
                };
                registers[t] = result;
                flags |= set;
            }
            0x76 | 0x77 => {
                let (half, set) = if row.code == 0x76 { contract(r) } else { rounded_contract(r) };
                // "As half words, number t is the left half of register t/2 (rounded down) for even t
                // and the right half for odd t." The other half is kept.
                let both = &mut registers[t / 2];
                *both = if t % 2 == 0 {
                    (half as u64) << 32 | *both & 0xFFFF_FFFF
                } else {
                    *both & !0xFFFF_FFFF | half as u64
                };
                flags |= set;
            }
            0x78 => registers[t] = r,
            // "exponent of R to the right 16 of T, sign extended to bit 16, left 16 zero"
            0x7A => registers[t] = low_48(exponent(r) as u64),
            // "pack: right 16 of R, right 48 of S"
            0x7B => registers[t] = r << 48 | low_48(s),
            // "left 16 of R to the right 16 of T, rest zero"
            0x7C => registers[t] = r >> 48,
            0xB0..=0xB5 => {
                // "A or X 00 supplies 8000 000000000000; Z 00 supplies zero."
                let or_zero = |place| if word & place == 0 { MACHINE_ZERO } else { get(place) };
                let sum = add_48(or_zero(A), or_zero(X));
                // "It is compared with low 48 of Z, signed, or unsigned with G bit 4."
                let z = or_zero(Z);
                let order =
                    if word & G4 == 0 { signed_48(sum).cmp(&signed_48(z)) } else { low_48(sum).cmp(&low_48(z)) };
                let taken = match row.code {
                    0xB0 => order.is_eq(),
                    0xB1 => order.is_ne(),
                    0xB2 => order.is_ge(),
                    0xB3 => order.is_lt(),
                    0xB4 => order.is_le(),
                    _ => order.is_gt(),
                };
                // "Target: low 48 of B plus Y half words; Y 00 means none (house)." 8: "a taken target 32".
                let target = formed(get(B), or_zero(Y), 5);
                if taken && target % 32 != 0 {
                    stop!(8);
                }
                // "The sum of low 48 of A and X goes to C with A's left 16, taken or not."
                registers[designator(word, C) as usize] = sum;
                at = if taken { target.wrapping_sub(BASE) } else { at + 64 };
                left -= 1;
                continue;
            }
            _ => {
                let work = or_stop!(work(row, word, registers, memory_bits));
                if work.items == 0 {
                    // "One with no items takes one step."
                    left -= 1;
                } else {
                    record.flags = flags;
                    let whole = go_on(&work, memory, record, &mut left);
                    flags = record.flags;
                    if !whole {
                        // "After a step short of the last, the record is half done: it holds P, the
                        // word (a 32-bit one in the left half, zeros right) and the items done."
                        record.mark = 1;
                        record.word = word;
                        stop!(PAUSED);
                    }
                    record.items = 0;
                }
                at += row.bits();
                continue;
            }
        }
        at += 32;
        left -= 1;
    }
}

/// Where the byte (unit 3) or word (6) at a base plus a count of units lies in the lent bytes; or 8, or 10.
#[inline]
fn address(base: u64, count: u64, unit: u32, memory: u64) -> Result<usize, u32> {
    let field = Field { base: formed(base, count, unit), bits: 1 << unit };
    if !field.aligned(field.bits) {
        Err(8)
    } else if !field.inside(memory) {
        Err(10)
    } else {
        Ok(field.place() / 8)
    }
}
