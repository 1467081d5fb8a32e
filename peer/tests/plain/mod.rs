//! The machine once more, one step at a time and bit by bit, as 01 says it and without regard to speed.
//! It shares nothing with `src` but the record's type, and serves to check it.

use peer::machine::Record;

const BASE: i128 = 0x4000;
const TWO_48: i128 = 1 << 48;

struct Plain<'m> {
    memory: &'m mut [u8],
    registers: &'m mut [u64],
    record: &'m mut Record,
}

/// A field: where it begins, how many bits it has, its unit in bits.
#[derive(Clone, Copy)]
struct Field {
    base: i128,
    bits: i128,
    unit: i128,
}

/// What an instruction's words and registers come to.
struct Fields {
    items: i128,
    result: Field,
    sources: Vec<Field>,
    control: Option<Field>,
    /// A vector source that is not broadcast is shorter than C.
    short: bool,
}

enum Format {
    F1,
    F3,
    FC,
    F4,
    F7,
    FA,
}

fn format(code: u8) -> Option<Format> {
    Some(match code {
        0x09 | 0x2C | 0x2D | 0x2E | 0x63 | 0x67 | 0x7B => Format::F4,
        0x12 | 0x13 | 0x14 | 0x15 | 0x16 | 0x7E | 0x7F => Format::F7,
        0x70 | 0x71 | 0x72 | 0x76 | 0x77 | 0x78 | 0x7A | 0x7C => Format::FA,
        0x83 | 0x87 | 0x8A | 0x90 | 0x91 | 0x92 | 0x96 | 0x97 | 0x98 => Format::F1,
        0xB0..=0xB5 => Format::FC,
        0xF8 => Format::F3,
        _ => return None,
    })
}

fn length_of(code: u8) -> i128 {
    match format(code) {
        Some(Format::F1 | Format::F3 | Format::FC) => 64,
        _ => 32,
    }
}

fn has_items(code: u8) -> bool {
    matches!(code, 0x14..=0x16 | 0xF8) || matches!(format(code), Some(Format::F1))
}

/// The parts of a word: F G X A Y B Z C, or F R S T.
type Parts = [u8; 8];
const G: usize = 1;
const X: usize = 2;
const A: usize = 3;
const Y: usize = 4;
const B: usize = 5;
const Z: usize = 6;
const C: usize = 7;
const R: usize = 1;
const S: usize = 2;
const T: usize = 3;

fn g(parts: &Parts, bit: u32) -> bool {
    parts[G] >> (7 - bit) & 1 == 1
}

/// 5, 6 and 7.
fn listed(parts: &Parts) -> Result<(), u32> {
    let code = parts[0];
    let format = format(code).ok_or(5u32)?;
    let allowed: &[u32] = match code {
        0x83 | 0x87 | 0x8A => &[1, 3, 4],
        0x90 | 0x91 | 0x92 | 0x98 => &[1, 3],
        0x96 | 0x97 => &[1],
        0xB0..=0xB5 => &[4],
        _ => &[],
    };
    let (zero, meant): (&[usize], &[usize]) = match format {
        Format::F1 if matches!(code, 0x83 | 0x87 | 0x8A) => (&[X, Y], &[Z]),
        Format::F1 => (&[X, Y, B], &[Z]),
        Format::F3 => (&[Y], &[X, Z, B]),
        Format::FC => (&[], &[A, X, Y, Z]),
        Format::F4 if code == 0x09 => (&[R, S, T], &[]),
        Format::F4 | Format::F7 => (&[], &[]),
        Format::FA => (&[S], &[]),
    };
    let long = length_of(code) == 64;
    let mut six = zero.iter().any(|&place| parts[place] != 0);
    if long {
        six |= (0..8).any(|bit| g(parts, bit) && !allowed.contains(&bit));
        six |= matches!(format, Format::F1) && g(parts, 1) && parts[Z] == 0;
    } else {
        six |= parts[4..] != [0; 4];
    }
    if six {
        return Err(6);
    }
    let places = if long { 2..8 } else { 1..4 };
    for place in places {
        if parts[place] == 0 && !zero.contains(&place) && !meant.contains(&place) {
            return Err(7);
        }
    }
    if matches!(code, 0x76 | 0x77) && parts[T] == 1 {
        return Err(7);
    }
    Ok(())
}

fn exponent(word: u64) -> i128 {
    (word >> 48) as u16 as i16 as i128
}

fn signed(value: u64, bits: u32) -> i128 {
    let value = value as i128 & ((1 << bits) - 1);
    if value >> (bits - 1) == 1 {
        value - (1 << bits)
    } else {
        value
    }
}

const F42: u64 = 0x20_0000;
const F43: u64 = 0x10_0000;
const F46: u64 = 0x2_0000;

fn whole(code: u8, word: u64) -> (u64, u64) {
    match word >> 60 {
        8 => return (0, 0),
        7 => return (word, F46),
        0..=6 => return (word, 0),
        _ => {}
    }
    let k = -exponent(word);
    let c = signed(word, 48);
    let two_k = if k < 100 { 1i128 << k } else { 1 << 100 };
    let q = match code & 0xF {
        0 => c / two_k,
        1 => c.div_euclid(two_k),
        _ => -(-c).div_euclid(two_k),
    };
    (q.rem_euclid(TWO_48) as u64, 0)
}

fn contract(rounded: bool, word: u64) -> (u64, u64) {
    let e = exponent(word);
    if e >= 0x7000 {
        return (0x7000_0000, F46);
    }
    if e >= 0x58 {
        return (0x7000_0000, F42 | F46);
    }
    if e <= -137 {
        return (0x8000_0000, F43);
    }
    let mut c = signed(word, 48);
    let mut e = e + 24;
    let mut two = 1 << 24;
    if rounded {
        c += 1 << 23;
        if c >= 1 << 47 {
            e += 1;
            two = 1 << 25;
        }
    }
    if e == 0x70 {
        return (0x7000_0000, F42 | F46);
    }
    let c = c.div_euclid(two).rem_euclid(1 << 24);
    ((e.rem_euclid(256) << 24 | c) as u64, 0)
}

fn shift(a: u64, b: u64) -> u64 {
    let mut a = a;
    match b & 0xFF {
        n @ 0..=0x3F => {
            for _ in 0..n {
                a = a << 1 | a >> 63;
            }
        }
        n @ 0xC1..=0xFF => {
            for _ in 0..256 - n {
                a = a >> 1 | a & 1 << 63;
            }
        }
        _ => {}
    }
    a
}

/// 63, 67 by their last digit.
fn sum(code: u8, r: u64, s: u64) -> u64 {
    let low = |word: u64| word as i128 % TWO_48;
    let sum = if code & 7 == 3 { low(r) + low(s) } else { low(r) - low(s) };
    r >> 48 << 48 | sum.rem_euclid(TWO_48) as u64
}

impl Plain<'_> {
    fn end(&self) -> i128 {
        BASE + 8 * self.memory.len() as i128
    }

    fn bit(&self, address: i128) -> bool {
        let place = (address - BASE) as usize;
        self.memory[place / 8] >> (7 - place % 8) & 1 == 1
    }

    fn set_bit(&mut self, address: i128, bit: bool) {
        let place = (address - BASE) as usize;
        let one = 1 << (7 - place % 8);
        self.memory[place / 8] = self.memory[place / 8] & !one | if bit { one } else { 0 };
    }

    fn load(&self, address: i128, bits: i128) -> u64 {
        (0..bits).fold(0, |word, i| word << 1 | self.bit(address + i) as u64)
    }

    fn store(&mut self, address: i128, bits: i128, word: u64) {
        for i in 0..bits {
            self.set_bit(address + i, word >> (bits - 1 - i) & 1 == 1);
        }
    }

    fn register(&self, parts: &Parts, place: usize) -> u64 {
        self.registers[parts[place] as usize]
    }

    fn length(&self, parts: &Parts, place: usize) -> i128 {
        (self.register(parts, place) >> 48) as i128
    }

    fn low(&self, parts: &Parts, place: usize) -> i128 {
        self.register(parts, place) as i128 % TWO_48
    }

    /// Base plus a count of units; designator 00 of the count means none.
    fn formed(&self, parts: &Parts, base: usize, count: usize, unit: i128) -> i128 {
        let count = if parts[count] == 0 { 0 } else { self.low(parts, count) };
        (self.low(parts, base) + count * unit) % TWO_48
    }

    /// Which bit of R (true) or S (false) bit j of T is.
    fn chosen(&self, parts: &Parts, j: i128) -> (bool, i128) {
        let (r, s) = (self.length(parts, R), self.length(parts, S));
        if parts[0] == 0x14 {
            return (true, (j / r) * (r + s) + j % r);
        }
        let m = j % (r + s);
        match (parts[0], m < r) {
            (0x15, true) => (true, (j / (r + s)) * r + m),
            (0x15, false) => (false, (j / (r + s)) * s + m - r),
            (_, of_r) => (of_r, j),
        }
    }

    fn fields(&self, parts: &Parts) -> Fields {
        let code = parts[0];
        let none = Field { base: 0, bits: 0, unit: 1 };
        let mut fields = Fields { items: 0, result: none, sources: vec![], control: None, short: false };
        match code {
            0x14..=0x16 => {
                let (r, s, n) = (self.length(parts, R), self.length(parts, S), self.length(parts, T));
                if r == 0 || n == 0 || code != 0x14 && s == 0 {
                    return fields;
                }
                fields.items = n;
                fields.result = Field { base: self.low(parts, T), bits: n, unit: 1 };
                let (mut of_r, mut of_s) = (0, 0);
                for j in 0..n {
                    match self.chosen(parts, j) {
                        (true, i) => of_r = of_r.max(i + 1),
                        (false, i) => of_s = of_s.max(i + 1),
                    }
                }
                if self.low(parts, S) == 0 {
                    of_s = 0;
                }
                fields.sources.push(Field { base: self.low(parts, R), bits: of_r, unit: 1 });
                fields.sources.push(Field { base: self.low(parts, S), bits: of_s, unit: 1 });
            }
            0xF8 => {
                let n = self.length(parts, C);
                fields.items = n;
                fields.result = Field { base: self.formed(parts, C, Z, 8), bits: 8 * n, unit: 8 };
                let read = self.length(parts, A).min(n);
                let base = self.formed(parts, A, X, 8);
                fields.sources.push(Field { base, bits: 8 * read, unit: 8 });
            }
            _ => {
                let n = self.length(parts, C);
                let unit = if matches!(code, 0x96 | 0x97) { 32 } else { 64 };
                fields.items = n;
                fields.result = Field { base: self.low(parts, C), bits: unit * n, unit };
                for (place, bit) in [(A, 3), (B, 4)] {
                    if g(parts, bit) || place == B && code >= 0x90 {
                        continue;
                    }
                    fields.sources.push(Field { base: self.low(parts, place), bits: 64 * n, unit: 64 });
                    fields.short |= self.length(parts, place) < n;
                }
                if parts[Z] != 0 {
                    fields.control = Some(Field { base: self.low(parts, Z), bits: n, unit: 1 });
                }
            }
        }
        fields
    }

    /// 8 to 11 of an instruction with items: how many it has.
    fn checked(&self, parts: &Parts) -> Result<i128, u32> {
        let fields = self.fields(parts);
        if fields.items == 0 {
            return Ok(0);
        }
        let read: Vec<Field> = fields.sources.iter().chain(&fields.control).copied().collect();
        let mut all: Vec<Field> = read.iter().copied().chain([fields.result]).collect();
        all.retain(|field| field.bits > 0);
        if all.iter().any(|field| field.base % field.unit != 0) {
            return Err(8);
        }
        if fields.short {
            return Err(9);
        }
        if all.iter().any(|field| field.base < BASE || field.base + field.bits > self.end()) {
            return Err(10);
        }
        for field in read.iter().filter(|field| field.bits > 0) {
            let c = fields.result;
            let from = field.base.max(c.base);
            let to = (field.base + field.bits).min(c.base + c.bits);
            let free = c.unit == 64 && field.unit == 64 && c.base == field.base;
            if from < to && !free {
                return Err(11);
            }
        }
        Ok(fields.items)
    }

    /// Works item i.
    fn item(&mut self, parts: &Parts, i: i128) {
        let code = parts[0];
        match code {
            0x14..=0x16 => {
                let (of_r, j) = self.chosen(parts, i);
                let bit = if of_r {
                    self.bit(self.low(parts, R) + j)
                } else {
                    self.low(parts, S) != 0 && self.bit(self.low(parts, S) + j)
                };
                self.set_bit(self.low(parts, T) + i, bit);
            }
            0xF8 => {
                let byte = if i < self.length(parts, A) {
                    self.load(self.formed(parts, A, X, 8) + 8 * i, 8)
                } else {
                    parts[B] as u64
                };
                self.store(self.formed(parts, C, Z, 8) + 8 * i, 8, byte);
            }
            _ => {
                if let Some(control) = self.control_base(parts) {
                    // "G bit 1: 0 stores where the control bit is one, 1 where it is zero."
                    if self.bit(control + i) == g(parts, 1) {
                        return;
                    }
                }
                let source = |place, bit| {
                    if g(parts, bit) {
                        self.register(parts, place)
                    } else {
                        self.load(self.low(parts, place) + 64 * i, 64)
                    }
                };
                let a = source(A, 3);
                let (unit, (value, flags)) = match code {
                    0x83 | 0x87 => (64, (sum(code, a, source(B, 4)), 0)),
                    0x8A => (64, (shift(a, source(B, 4)), 0)),
                    0x90..=0x92 => (64, whole(code, a)),
                    0x96 => (32, contract(false, a)),
                    0x97 => (32, contract(true, a)),
                    _ => (64, (a, 0)),
                };
                self.store(self.low(parts, C) + unit * i, unit, value);
                self.record.flags |= flags;
            }
        }
    }

    /// The base of a vector's control field; Z 00 means store all.
    fn control_base(&self, parts: &Parts) -> Option<i128> {
        (parts[Z] != 0).then(|| self.low(parts, Z))
    }

    fn possible(&self) -> bool {
        let record = &*self.record;
        if record.p as i128 >= TWO_48 || record.p % 32 != 0 || record.flags & !(F42 | F43 | F46) != 0 {
            return false;
        }
        if record.mark == 0 {
            return record.word == 0 && record.items == 0;
        }
        let parts = record.word.to_be_bytes();
        record.mark == 1
            && has_items(parts[0])
            && record.p as i128 >= BASE
            && record.p as i128 + length_of(parts[0]) <= self.end()
            && listed(&parts).is_ok()
            && self.checked(&parts).is_ok_and(|n| 1 <= record.items && (record.items as i128) < n)
    }

    /// One step: an item, or an instruction without items. Or the number that stops.
    fn step(&mut self) -> Result<(), u32> {
        if self.record.mark == 1 {
            let parts = self.record.word.to_be_bytes();
            let n = self.count(&parts);
            return self.step_item(&parts, n);
        }
        let p = self.record.p as i128;
        if p < BASE || p + 32 > self.end() {
            return Err(4);
        }
        let code = self.load(p, 8) as u8;
        let bits = length_of(code);
        if p + bits > self.end() {
            return Err(4);
        }
        let parts = (self.load(p, bits) << (64 - bits)).to_be_bytes();
        listed(&parts)?;
        if code == 0x09 {
            return Err(1);
        }
        if has_items(code) {
            let n = self.checked(&parts)?;
            if n == 0 {
                self.record.p += bits as u64;
                return Ok(());
            }
            return self.step_item(&parts, n);
        }
        let mut next = p + bits;
        let t = parts[T] as usize;
        let (r, s) = (self.register(&parts, R), self.register(&parts, S));
        match code {
            0x12 | 0x13 | 0x7E | 0x7F => {
                let unit = if code < 0x20 { 8 } else { 64 };
                let address = self.formed(&parts, R, S, unit);
                if address % unit != 0 {
                    return Err(8);
                }
                if address < BASE || address + unit > self.end() {
                    return Err(10);
                }
                if matches!(code, 0x12 | 0x7E) {
                    self.registers[t] = self.load(address, unit);
                } else {
                    self.store(address, unit, self.registers[t]);
                }
            }
            0x2C => self.registers[t] = r ^ s,
            0x2D => self.registers[t] = r & s,
            0x2E => self.registers[t] = r | s,
            0x63 | 0x67 => self.registers[t] = sum(code, r, s),
            0x70..=0x72 => {
                let (value, flags) = whole(code, r);
                self.registers[t] = value;
                self.record.flags |= flags;
            }
            0x76 | 0x77 => {
                let (value, flags) = contract(code == 0x77, r);
                let old = self.registers[t / 2];
                self.registers[t / 2] = match t % 2 {
                    0 => value << 32 | old % (1 << 32),
                    _ => old >> 32 << 32 | value,
                };
                self.record.flags |= flags;
            }
            0x78 => self.registers[t] = r,
            0x7A => self.registers[t] = exponent(r).rem_euclid(TWO_48) as u64,
            0x7B => self.registers[t] = (r % (1 << 16)) << 48 | s % (1 << 48),
            0x7C => self.registers[t] = r >> 48,
            _ => {
                let value = |place| match parts[place] {
                    0 if place == Z => 0,
                    0 => 0x8000 << 48,
                    _ => self.register(&parts, place),
                };
                let c = sum(0x63, value(A), value(X));
                let number = |word: u64| {
                    if g(&parts, 4) {
                        word as i128 % TWO_48
                    } else {
                        signed(word, 48)
                    }
                };
                let (left, right) = (number(c), number(value(Z)));
                let taken = match code {
                    0xB0 => left == right,
                    0xB1 => left != right,
                    0xB2 => left >= right,
                    0xB3 => left < right,
                    0xB4 => left <= right,
                    _ => left > right,
                };
                if taken {
                    next = self.formed(&parts, B, Y, 32);
                    if next % 32 != 0 {
                        return Err(8);
                    }
                }
                self.registers[parts[C] as usize] = c;
            }
        }
        self.record.p = next as u64;
        Ok(())
    }

    /// The items of an instruction that has some.
    fn count(&self, parts: &Parts) -> i128 {
        self.length(parts, if matches!(parts[0], 0x14..=0x16) { T } else { C })
    }

    fn step_item(&mut self, parts: &Parts, n: i128) -> Result<(), u32> {
        self.item(parts, self.record.items as i128);
        self.record.items += 1;
        if self.record.items as i128 == n {
            let p = self.record.p + length_of(parts[0]) as u64;
            *self.record = Record { p, flags: self.record.flags, ..Record::default() };
        } else {
            self.record.mark = 1;
            self.record.word = u64::from_be_bytes(*parts);
        }
        Ok(())
    }
}

pub fn run(memory: &mut [u8], registers: &mut [u64], record: &mut Record, budget: u32) -> (u32, u32) {
    let length = memory.len();
    if length < 8 || length > 65_536 || length % 8 != 0 || registers.len() != 256 {
        return (2, 0);
    }
    let mut plain = Plain { memory, registers, record };
    if !plain.possible() {
        return (3, 0);
    }
    for steps in 0..budget {
        if let Err(number) = plain.step() {
            return (number, steps);
        }
    }
    (0, budget)
}
