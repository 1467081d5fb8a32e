//! A case in the making: memory, registers, a record, and words built from the table.

use crate::cases::Made;
use crate::checks::extents;
use crate::fields::{Field, BASE};
use crate::machine::{run, Record};
use crate::numbers::{FLAGS, FLAG_42, FLAG_43, FLAG_46, LOW_48};
use crate::random::Random;
use crate::stream::State;
use crate::words::{designator, listed, Kind, Row, A, B, C, G, G1, G3, G4, R, S, T, TABLE, X, Y, Z};

fn rows() -> impl Iterator<Item = &'static Row> {
    (0..TABLE.len()).map(row_number)
}

/// The designators of a code where 00 has no meaning.
fn named(row: &Row) -> Vec<u64> {
    [G, X, A, Y, B, Z, C].into_iter().filter(|place| row.named & place != 0).collect()
}

/// The row of this number in the table.
pub fn row_number(number: usize) -> &'static Row {
    listed(TABLE[number].code).unwrap()
}

#[derive(Clone, Copy, PartialEq)]
enum Role {
    Result,
    Source,
    Control,
}

/// A register that says where a field or an address is.
#[derive(Clone, Copy)]
pub struct Operand {
    place: u64,
    /// Alignment in bits.
    unit: u64,
    bits: u64,
    role: Role,
    vector: bool,
}

pub struct Draft {
    pub random: Random,
    pub memory: Vec<u8>,
    pub registers: Vec<u64>,
    pub record: Record,
    /// Where fields are placed, as bit addresses from and to.
    room: (u64, u64),
    pub built_word: u64,
}

impl Draft {
    pub fn new(random: Random, bytes: Option<usize>) -> Draft {
        let mut draft =
            Draft { random, memory: vec![], registers: vec![], record: Record::default(), room: (0, 0), built_word: 0 };
        draft.fresh(bytes);
        draft
    }

    /// New memory of at least so many bytes and new registers.
    pub fn fresh(&mut self, bytes: Option<usize>) {
        let random = &mut self.random;
        let bytes = match bytes {
            Some(bytes @ 1000..) => bytes,
            Some(bytes) => bytes + 8 * random.below(32) as usize,
            None => match random.below(20) {
                0 => 8,
                1 => 16,
                2 | 3 => 24 + 8 * random.below(5) as usize,
                4..=13 => 64 + 8 * random.below(24) as usize,
                14..=18 => 256 + 8 * random.below(40) as usize,
                _ => 1024,
            },
        };
        self.memory = vec![0; bytes];
        self.room = (BASE, BASE + 8 * bytes as u64);
        let style = self.random.below(8);
        for at in (0..bytes).step_by(8) {
            let word = match style {
                0 => 0,
                1 => !0,
                2 => self.random.next(),
                3 => self.random.next() & self.random.next() & self.random.next(),
                4 => b"ABCDEFGHIJKLMNOP"[self.random.below(9) as usize..][..8]
                    .iter()
                    .fold(0, |word, &byte| word << 8 | byte as u64),
                _ => self.number(),
            };
            if let Some(eight) = self.memory.get_mut(at..at + 8) {
                eight.copy_from_slice(&word.to_be_bytes());
            }
        }
        self.registers = vec![0; 256];
        if self.random.once_in(2) {
            for i in 0..256 {
                self.registers[i] = if self.random.once_in(2) { self.random.next() } else { self.number() };
            }
        }
        self.record = Record::default();
        self.record.flags = self.random.pick(&[0, 0, 0, FLAG_42, FLAG_43, FLAG_46, FLAGS]);
    }

    /// A word that is at a boundary as a number, or a shift count.
    fn number(&mut self) -> u64 {
        let random = &mut self.random;
        let any = random.next();
        if random.once_in(6) {
            let count = random.pick(&[0, 1, 0x1F, 0x3F, 0x40, 0x41, 0x7F, 0x80, 0xBF, 0xC0, 0xC1, 0xC2, 0xFF]);
            return any & !0xFF | count;
        }
        if random.once_in(8) {
            // Where rounding reaches 2^47, at the ends of what is contracted.
            let exponent = random.pick(&[0x0057, 0x0057, 0x0056, 0x0058, 0xFF78, 0xFF77, 0x0000]);
            let under = random.pick(&[1 << 23, 1 << 23, (1 << 23) + 1, (1 << 23) - 1, 1, 1 + any % (1 << 24)]);
            return exponent << 48 | ((1 << 47) - under);
        }
        let exponent = match random.below(5) {
            0 | 1 => random.pick(&[
                0x7000, 0x7FFF, 0x7ABC, 0x8000, 0x8FFF, 0x8123, 0x9000, 0x9001, 0x0057, 0x0058, 0x0056, 0x6FFF, 0xFF77,
                0xFF78, 0xFF79, 0x0000, 0x0001, 0xFFFF, 0xFFD2, 0xFFD1, 0xFFD0, 0xFFCF, 0xFFC1, 0xFFC0,
            ]),
            2 => 0u64.wrapping_sub(1 + any % 60) & 0xFFFF,
            3 => (any >> 20) % 200,
            _ => any >> 48,
        };
        let minus = |n: u64| 0u64.wrapping_sub(n);
        let coefficient = match random.below(5) {
            0 | 1 => random.pick(&[
                0,
                1,
                2,
                3,
                minus(1),
                minus(2),
                minus(3),
                (1 << 47) - 1,
                1 << 47,
                (1 << 47) + 1,
                (1 << 47) - (1 << 23),
                (1 << 47) - (1 << 23) - 1,
                (1 << 47) - (1 << 24),
                1 << 46,
                1 << 23,
                (1 << 23) - 1,
                1 << 24,
                (1 << 24) - 1,
                (1 << 24) + 1,
                minus(1 << 23),
                minus((1 << 23) + 1),
                minus((1 << 23) - 1),
                minus(1 << 24),
                minus((1 << 24) + 1),
            ]),
            2 => any % 16,
            3 => minus(any % 16),
            _ => any,
        };
        exponent << 48 | coefficient & LOW_48
    }

    pub fn any_row(&mut self) -> &'static Row {
        if self.random.once_in(3) {
            self.item_row()
        } else {
            row_number(self.random.below(38) as usize)
        }
    }

    pub fn item_row(&mut self) -> &'static Row {
        let items: Vec<&Row> = rows().filter(|row| row.has_items()).collect();
        self.random.pick(&items)
    }

    pub fn poke(&mut self, address: u64, word: u64, bits: u64) {
        let at = (address - BASE) as usize / 8;
        let bytes = word.to_be_bytes();
        self.memory[at..at + bits as usize / 8].copy_from_slice(&bytes[..bits as usize / 8]);
    }

    /// The answer and steps of a run of this state.
    pub fn probe(&self, budget: u32) -> (u32, u32) {
        let (mut memory, mut registers, mut record) = (self.memory.clone(), self.registers.clone(), self.record);
        run(&mut memory, &mut registers, &mut record, budget)
    }

    /// Chooses the budget, after what the whole run takes.
    pub fn finish(mut self, planted: Vec<u32>, about: &'static str) -> Made {
        let most = if self.memory.len() > 4096 { 70_000 } else { 3000 };
        let (answer, steps) = self.probe(most);
        let random = &mut self.random;
        // A run that does not end by itself gets no large budget.
        let large = if answer == 0 { most } else { random.pick(&[u32::MAX, 1 << 31, 1_000_000, 70_000]) };
        let budget = match random.below(40) {
            0 | 1 => 0,
            2 | 3 => 1,
            _ if steps == 0 => large,
            4..=6 => 1 + random.below(8) as u32,
            7..=9 => steps,
            10 | 11 => steps.saturating_sub(1),
            12..=14 => steps + 1,
            15..=18 => 1 + random.below(steps as u64) as u32,
            _ => large,
        };
        let few = match random.below(4) {
            0 => steps / 2 + 1,
            1 => steps / 3 + 1,
            _ => 2 + random.below(8) as u32,
        };
        let Draft { memory, registers, record, .. } = self;
        Made { state: State { memory, registers, record }, budget, few, planted, about }
    }

    // ---- instructions ----

    /// One instruction without fault somewhere at P; what follows it is an exit or what lies there.
    pub fn place_instruction(&mut self, row: &'static Row) -> Vec<Operand> {
        let end = BASE + 8 * self.memory.len() as u64;
        let bits = row.bits();
        let halves = (8 * self.memory.len() as u64 - bits) / 32 + 1;
        let p = match self.random.below(8) {
            0 | 1 => BASE,
            2 => end - bits,
            _ => BASE + 32 * self.random.below(halves),
        };
        self.record.p = p;
        let (word, operands) = self.instruction(row, p, &[]);
        self.built_word = word;
        self.poke(p, word, bits);
        if p + bits < end && self.random.once_in(2) {
            self.poke(p + bits, 0x09 << 56, 32);
        }
        operands
    }

    /// Puts a fault of this number into the word at P; false if that cannot be.
    pub fn plant(&mut self, number: u32, row: &Row, operands: &[Operand]) -> bool {
        let mut word = self.built_word;
        let done = self.fault_of(number, row, &mut word, operands);
        self.built_word = word;
        self.poke(self.record.p, word, row.bits());
        done
    }

    /// Puts so many faults of any numbers into the word at P.
    pub fn plant_any(&mut self, faults: u64, row: &Row, operands: &[Operand]) {
        for _ in 0..faults {
            let numbers: Vec<u32> = (0..20).map(|_| 5 + self.random.below(7) as u32).collect();
            numbers.into_iter().find(|&number| self.plant(number, row, operands));
        }
    }

    pub fn code_at(&self, address: u64) -> u8 {
        self.memory[(address - BASE) as usize / 8]
    }

    /// Instructions one after another from near the beginning of memory; fields mostly behind them.
    pub fn place_job(&mut self) {
        let count = 2 + self.random.below(9) as usize;
        let rows: Vec<&'static Row> = (0..count)
            .map(|_| match self.random.below(4) {
                0 => self.item_row(),
                1 => listed(0xB0 + self.random.below(6) as u8).unwrap(),
                _ => self.any_row(),
            })
            .collect();
        let mut starts = vec![BASE + 32 * self.random.below(4)];
        for row in &rows {
            starts.push(starts.last().unwrap() + row.bits());
        }
        let end = BASE + 8 * self.memory.len() as u64;
        self.record.p = starts[0];
        let last = *starts.last().unwrap();
        if !self.random.once_in(8) {
            self.room = ((last + 32).next_multiple_of(64).min(end - 64), end);
        }
        self.poke(last, 0x09 << 56, 32);
        let faulty = if self.random.once_in(4) { self.random.below(count as u64) as usize } else { count };
        for (i, row) in rows.iter().enumerate() {
            if row.kind == Kind::Exit && !self.random.once_in(4) {
                // Most jobs go on to their end.
                self.poke(starts[i], 0x78_02_00_F0 << 32, 32);
                continue;
            }
            let (mut word, operands) = self.instruction(row, starts[i], &starts);
            if i == faulty {
                let number = 5 + self.random.below(7) as u32;
                self.fault_of(number, row, &mut word, &operands);
            }
            self.built_word = word;
            self.poke(starts[i], word, row.bits());
        }
        self.room = (BASE, end);
    }

    /// A word of this code for P, with its registers set; `starts` are good branch targets.
    fn instruction(&mut self, row: &'static Row, p: u64, starts: &[u64]) -> (u64, Vec<Operand>) {
        let mut word = (row.code as u64) << 56;
        let operands = match row.kind {
            Kind::Exit => vec![],
            Kind::Register => self.register(row, &mut word, starts),
            Kind::Memory => self.in_memory(row, &mut word, starts),
            Kind::Branch => self.branch(&mut word, p, starts),
            Kind::Vector => self.vector(row, &mut word, p),
            Kind::Bits => self.bits(row, &mut word, p),
            Kind::Move => self.moving(&mut word, p),
        };
        (word, operands)
    }

    /// A register's number that is not yet a designator of the word, mostly.
    fn free(&mut self, word: u64, starts: &[u64]) -> u64 {
        let mut chosen = 1;
        for _ in 0..10 {
            chosen = match self.random.below(12) {
                0 => 1,
                1 => 255,
                2 => 2 + self.random.below(6),
                _ => 2 + self.random.below(if starts.is_empty() { 254 } else { 0xB0 }),
            };
            let used = word.to_be_bytes()[1..].iter().any(|&byte| byte as u64 == chosen);
            if !used || self.random.once_in(24) {
                break;
            }
        }
        chosen
    }

    fn set(&mut self, word: &mut u64, place: u64, register: u64) {
        *word = *word & !place | register << place.trailing_zeros();
    }

    /// Chooses a register for a designator and puts a value there.
    fn give(&mut self, word: &mut u64, place: u64, value: u64, starts: &[u64]) -> usize {
        let register = self.free(*word, starts);
        self.set(word, place, register);
        self.registers[register as usize] = value;
        register as usize
    }

    fn register(&mut self, row: &Row, word: &mut u64, starts: &[u64]) -> Vec<Operand> {
        let value = self.number();
        let r = self.give(word, R, value, starts);
        if row.named & S != 0 {
            let value = if self.random.once_in(2) { self.number() } else { self.random.next() };
            self.give(word, S, value, starts);
        }
        // In a job results mostly go where no descriptor is.
        let t = match self.random.below(6) {
            0 => r as u64,
            1 => self.random.pick(&[2, 3, 0xFE, 0xFF]),
            _ if starts.is_empty() => 2 + self.random.below(254),
            _ => 0xF0 + self.random.below(16),
        };
        self.set(word, T, if row.code & 0xFE == 0x76 { t.max(2) } else { t });
        vec![]
    }

    /// A count for an index register, with anything in its left 16.
    fn count(&mut self) -> u64 {
        let any = self.random.next();
        match self.random.below(5) {
            0 => 0,
            1 => any % 100,
            2 => 0u64.wrapping_sub(any % 100) & LOW_48,
            3 => any & LOW_48,
            _ => any,
        }
    }

    fn in_memory(&mut self, row: &Row, word: &mut u64, starts: &[u64]) -> Vec<Operand> {
        let (unit, shift) = if row.code < 0x20 { (8, 3) } else { (64, 6) };
        let address = self.place(unit, unit, &[], None);
        let count = self.count();
        let base = address.wrapping_sub(count << shift) & LOW_48;
        let left = self.random.next() & !LOW_48;
        self.give(word, S, count, starts);
        self.give(word, R, base | left, starts);
        let value = self.number();
        if row.code & 1 == 0 && !starts.is_empty() {
            let t = 0xF0 + self.random.below(16);
            self.set(word, T, t);
        } else {
            self.give(word, T, value, starts);
        }
        vec![Operand { place: R, unit, bits: unit, role: Role::Source, vector: false }]
    }

    fn branch(&mut self, word: &mut u64, p: u64, starts: &[u64]) -> Vec<Operand> {
        if self.random.once_in(3) {
            *word |= G4;
        }
        let mut sum = 0;
        for place in [A, X] {
            if self.random.once_in(6) {
                continue;
            }
            let value = if self.random.once_in(2) { self.number() } else { self.random.below(4) };
            self.give(word, place, value, starts);
            sum += value & LOW_48;
        }
        let compared = match self.random.below(8) {
            0 | 1 => sum,
            2 => sum.wrapping_add(1),
            3 => sum.wrapping_sub(1),
            4 => sum ^ 1 << 47,
            _ => self.number(),
        };
        if !self.random.once_in(6) {
            let left = self.random.next() & !LOW_48;
            self.give(word, Z, compared & LOW_48 | left, starts);
        }
        let end = BASE + 8 * self.memory.len() as u64;
        let target = match self.random.below(8) {
            0 => p,
            1 => self.random.pick(&[0, 0x3FE0, end, end - 32, LOW_48 & !31]),
            2..=5 if !starts.is_empty() => self.random.pick(starts),
            _ => BASE + 32 * self.random.below((end - BASE) / 32),
        };
        let count = if self.random.once_in(3) { 0 } else { self.count() };
        if count != 0 {
            self.give(word, Y, count, starts);
        }
        let left = self.random.next() & !LOW_48;
        self.give(word, B, target.wrapping_sub(count << 5) & LOW_48 | left, starts);
        // C may be any of the operands, and often is A: a counter.
        let c = match self.random.below(6) {
            0 | 1 if *word & A != 0 => designator(*word, A) as u64,
            2 => designator(*word, B) as u64,
            3 if *word & Y != 0 => designator(*word, Y) as u64,
            4 if *word & Z != 0 => designator(*word, Z) as u64,
            _ => self.free(*word, starts),
        };
        self.set(word, C, c);
        vec![Operand { place: B, unit: 32, bits: 32, role: Role::Source, vector: false }]
    }

    /// How many items, at most the limit: none, one, all or something between.
    fn items(&mut self, limit: u64) -> u64 {
        let limit = limit.clamp(1, 65_535);
        match self.random.below(24) {
            0 | 1 => 0,
            2..=4 => 1,
            5..=7 => limit,
            8..=13 => 1 + self.random.below(limit.min(5)),
            _ => 1 + self.random.below(limit),
        }
    }

    /// A base for a field of so many bits in the room that shares no bit with the others, if one is found;
    /// often at the ends of the room, right beside another, or over the instruction at P.
    fn place(&mut self, bits: u64, unit: u64, others: &[Field], p: Option<u64>) -> u64 {
        let (from, to) = self.room;
        let mut base = from;
        for _ in 0..24 {
            let highest = to.saturating_sub(bits).max(from);
            base = match (self.random.below(8), others.first(), p) {
                (0, _, _) => from,
                (1, _, _) => highest,
                (2, Some(other), _) => other.base + other.bits,
                (3, Some(other), _) => other.base.saturating_sub(bits),
                (4, _, Some(p)) => p.saturating_sub(self.random.below(bits.max(1))),
                _ => from + self.random.below(highest - from + 1),
            };
            base -= base % unit;
            let field = Field { base, bits };
            let inside = base >= from && base + bits <= to;
            if inside && !others.iter().any(|other| other.shares(field)) {
                break;
            }
        }
        base
    }

    fn vector(&mut self, row: &Row, word: &mut u64, p: u64) -> Vec<Operand> {
        let half = row.code & 0xFE == 0x96;
        let unit = if half { 32 } else { 64 };
        let two = row.named & B != 0;
        let limit = (self.room.1 - self.room.0) / 64 / 3;
        let n = self.items(limit);
        let c = Field { base: self.place(n * unit, unit, &[], Some(p)), bits: n * unit };
        let mut operands = vec![Operand { place: C, unit, bits: c.bits, role: Role::Result, vector: true }];
        self.give(word, C, n << 48 | c.base, &[]);
        for (place, broadcast) in [(A, G3), (B, G4)] {
            if place == B && !two {
                continue;
            }
            if row.zero & broadcast == 0 && self.random.once_in(4) {
                *word |= broadcast;
                let value = self.number();
                self.give(word, place, value, &[]);
                continue;
            }
            // The source's own length is C's, or longer.
            let more = if self.random.once_in(2) { 0 } else { self.random.below(65_536 - n) };
            let base = if !half && self.random.once_in(4) { c.base } else { self.place(n * 64, 64, &[c], None) };
            self.give(word, place, (n + more) << 48 | base, &[]);
            operands.push(Operand { place, unit: 64, bits: n * 64, role: Role::Source, vector: true });
        }
        if self.random.once_in(2) {
            let base = self.place(n, 1, &[c], None);
            let left = self.random.next() & !LOW_48;
            self.give(word, Z, base | left, &[]);
            if self.random.once_in(2) {
                *word |= G1;
            }
            operands.push(Operand { place: Z, unit: 1, bits: n, role: Role::Control, vector: true });
        }
        operands
    }

    fn bit_length(&mut self) -> u64 {
        match self.random.below(20) {
            0 => 0,
            1 => 65_535 - self.random.below(4),
            2 => self.random.below(65_536),
            3 => self.random.pick(&[63, 64, 65, 127, 128]),
            4..=12 => 1 + self.random.below(9),
            _ => 1 + self.random.below(90),
        }
    }

    fn bits(&mut self, row: &Row, word: &mut u64, p: u64) -> Vec<Operand> {
        let room = self.room.1 - self.room.0;
        let (r, s) = (self.bit_length(), self.bit_length());
        let mut n = self.items(room / 3);
        let mut read = (0, 0);
        if r + s > 0 && r > 0 && (s > 0 || row.code == 0x14) {
            // So few that the sources fit beside the result, mostly.
            while n > 1 {
                read = extents(row.code, r, s, n);
                if read.0.max(read.1) + n <= room {
                    break;
                }
                n /= 2;
            }
            if n == 1 {
                read = extents(row.code, r, s, 1);
            }
        }
        let t = Field { base: self.place(n, 1, &[], Some(p)), bits: n };
        self.give(word, T, n << 48 | t.base, &[]);
        let base = self.place(read.0, 1, &[t], None);
        self.give(word, R, r << 48 | base, &[]);
        let base = if self.random.once_in(6) { 0 } else { self.place(read.1, 1, &[t], None) };
        self.give(word, S, s << 48 | base, &[]);
        let mut operands = vec![
            Operand { place: T, unit: 1, bits: n, role: Role::Result, vector: false },
            Operand { place: R, unit: 1, bits: read.0, role: Role::Source, vector: false },
        ];
        if base != 0 && row.code != 0x14 {
            operands.push(Operand { place: S, unit: 1, bits: read.1, role: Role::Source, vector: false });
        }
        operands
    }

    fn moving(&mut self, word: &mut u64, p: u64) -> Vec<Operand> {
        let limit = (self.room.1 - self.room.0) / 8 / 2;
        let n = self.items(limit);
        let length = match self.random.below(6) {
            0 => 0,
            1 => self.random.below(n + 1),
            2 => n + self.random.below(65_536 - n),
            _ => n,
        };
        let read = length.min(n);
        let c = Field { base: self.place(8 * n, 8, &[], Some(p)), bits: 8 * n };
        let a = self.place(8 * read, 8, &[c], None);
        let literal = self.random.pick(&[0, 0x2E, 0xFF, 0x20]);
        self.set(word, B, literal);
        for (place, index, address, length) in [(C, Z, c.base, n), (A, X, a, length)] {
            let mut base = address;
            if !self.random.once_in(3) {
                let count = self.count();
                base = base.wrapping_sub(count << 3) & LOW_48;
                self.give(word, index, count, &[]);
            }
            self.give(word, place, length << 48 | base, &[]);
        }
        vec![
            Operand { place: C, unit: 8, bits: c.bits, role: Role::Result, vector: false },
            Operand { place: A, unit: 8, bits: 8 * read, role: Role::Source, vector: false },
        ]
    }

    // ---- faults ----

    /// Puts a fault of this number into a word or its registers; false if the code has none such.
    fn fault_of(&mut self, number: u32, row: &Row, word: &mut u64, operands: &[Operand]) -> bool {
        let fields: Vec<Operand> = operands.iter().copied().filter(|o| o.bits > 0).collect();
        // Empty fields, and those of an instruction without items, may be anywhere.
        let anywhere = if fields.is_empty() || self.random.once_in(4) { operands.to_vec() } else { fields.clone() };
        match number {
            5 => self.another_code(word),
            6 => self.set_zero_bit(row, word),
            7 => self.clear_designator(row, word),
            8 => self.misalign(*word, &anywhere),
            9 => self.shorten(*word, &fields),
            10 => row.kind != Kind::Branch && self.move_out(*word, &anywhere),
            _ => self.overlap(*word, &fields),
        }
    }

    fn another_code(&mut self, word: &mut u64) -> bool {
        let code = self.random.below(256);
        if listed(code as u8).is_some() {
            return false;
        }
        *word = *word & !(0xFF << 56) | code << 56;
        true
    }

    fn set_zero_bit(&mut self, row: &Row, word: &mut u64) -> bool {
        let zero = if row.long { row.zero } else { row.zero & !0xFFFF_FFFF };
        if row.kind == Kind::Vector && self.random.once_in(4) {
            *word = *word & !Z | G1;
            return true;
        }
        let bits: Vec<u64> = (0..64).map(|i| 1 << i).filter(|bit| zero & bit != 0).collect();
        if bits.is_empty() {
            return false;
        }
        *word |= self.random.pick(&bits);
        true
    }

    fn clear_designator(&mut self, row: &Row, word: &mut u64) -> bool {
        if row.code & 0xFE == 0x76 && self.random.once_in(2) {
            *word = *word & !T | 1 << T.trailing_zeros();
            return true;
        }
        let places = named(row);
        if places.is_empty() {
            return false;
        }
        *word &= !self.random.pick(&places);
        true
    }

    fn misalign(&mut self, word: u64, fields: &[Operand]) -> bool {
        let fields: Vec<Operand> = fields.iter().copied().filter(|o| o.unit > 1).collect();
        if fields.is_empty() {
            return false;
        }
        let field = self.random.pick(&fields);
        let mut off = 1 + self.random.below(field.unit - 1);
        if field.unit > 8 && self.random.once_in(2) {
            off = field.unit / 2;
        }
        let address = self.address(word, field);
        self.move_field(word, field, address.wrapping_add(off) & LOW_48);
        true
    }

    /// Makes a vector source shorter than C.
    fn shorten(&mut self, word: u64, fields: &[Operand]) -> bool {
        let sources: Vec<Operand> = fields.iter().copied().filter(|o| o.vector && o.role == Role::Source).collect();
        if sources.is_empty() {
            return false;
        }
        let field = self.random.pick(&sources);
        let n = field.bits / 64;
        let less = if self.random.once_in(2) { n - 1 } else { self.random.below(n) };
        let register = &mut self.registers[designator(word, field.place) as usize];
        *register = *register & LOW_48 | less << 48;
        true
    }

    /// Moves a field out of memory: to the nearest places on both sides, or far away; none below 0.
    fn move_out(&mut self, word: u64, fields: &[Operand]) -> bool {
        if fields.is_empty() {
            return false;
        }
        let field = self.random.pick(fields);
        let end = BASE + 8 * self.memory.len() as u64;
        let unit = field.unit;
        let wanted = match self.random.below(8) {
            0 => BASE - unit,
            1 => BASE - unit * (1 + self.random.below(8)),
            2 => end - field.bits.min(end) + unit,
            3 => end,
            4 => end - unit * self.random.below(3) + unit,
            5 => (1 << 48) - unit,
            6 => (1 << 48) - field.bits.next_multiple_of(unit),
            _ => self.random.next(),
        };
        self.move_field(word, field, wanted & LOW_48 & !(unit - 1));
        true
    }

    /// Moves the result or another field so that they share a bit inside memory.
    fn overlap(&mut self, word: u64, fields: &[Operand]) -> bool {
        let others: Vec<Operand> = fields.iter().copied().filter(|o| o.role != Role::Result).collect();
        let result = fields.iter().copied().find(|o| o.role == Role::Result);
        let (Some(result), false) = (result, others.is_empty()) else {
            return false;
        };
        let other = self.random.pick(&others);
        let end = BASE + 8 * self.memory.len() as u64;
        let (moved, still) = if self.random.once_in(2) { (result, other) } else { (other, result) };
        let at = self.address(word, still);
        for _ in 0..20 {
            let reach = if self.random.once_in(3) { 3 * moved.unit } else { moved.bits + still.bits };
            let shift = self.random.below(reach);
            let wanted = match self.random.below(3) {
                0 => (at + still.bits).saturating_sub(1 + shift),
                1 => (at + shift + 1).saturating_sub(moved.bits),
                _ => at,
            };
            let wanted = wanted & !(moved.unit - 1);
            let field = Field { base: wanted, bits: moved.bits };
            let meets = field.shares(Field { base: at, bits: still.bits });
            if meets && wanted >= BASE && wanted + moved.bits <= end {
                self.move_field(word, moved, wanted);
                return true;
            }
        }
        false
    }

    /// The address that the operand's register gives, together with its index.
    fn address(&self, word: u64, operand: Operand) -> u64 {
        let base = self.registers[designator(word, operand.place) as usize];
        base.wrapping_add(self.index(word, operand)) & LOW_48
    }

    fn index(&self, word: u64, operand: Operand) -> u64 {
        let (place, unit) = match ((word >> 56) as u8, operand.place) {
            (0xF8, C) => (Z, 3),
            (0xF8, _) => (X, 3),
            (0x12 | 0x13, _) => (S, 3),
            (0x7E | 0x7F, _) => (S, 6),
            _ => return 0,
        };
        match designator(word, place) {
            0 => 0,
            register => self.registers[register as usize] << unit & LOW_48,
        }
    }

    fn move_field(&mut self, word: u64, operand: Operand, wanted: u64) {
        let index = self.index(word, operand);
        let register = &mut self.registers[designator(word, operand.place) as usize];
        *register = *register & !LOW_48 | wanted.wrapping_sub(index) & LOW_48;
    }

    /// Changes a half-done record, or what it stands on; many changes make it impossible.
    pub fn spoil_half_done(&mut self) {
        let any = self.random.next();
        let end = BASE + 8 * self.memory.len() as u64;
        let row = listed((self.record.word >> 56) as u8).unwrap();
        let p = self.record.p;
        match self.random.below(27) {
            0..=4 => {}
            5..=8 => {
                // "Memory at P may differ from the held word."
                let other = self.random.pick(&[0, any, 0x09 << 56, self.record.word ^ 1 << (any % 64)]);
                self.poke(p, other, row.bits());
            }
            9 | 10 => {
                let of_c = if row.long { C } else { T };
                let holder = designator(self.record.word, of_c) as usize;
                let n = self.registers[holder] >> 48;
                self.record.items = self.random.pick(&[0, 1, n - 1, n, n + 1, 1 << 16, 1 << 32, !0]);
            }
            11 => self.record.word ^= 1 << (any % 64),
            12 => self.record.word |= 1 << (any % 32),
            13..=15 => {
                // Another descriptor: length or base of one designator's register.
                let places = named(row);
                let place = self.random.pick(&places);
                let holder = designator(self.record.word, place) as usize;
                self.registers[holder] ^= match self.random.below(3) {
                    0 => 1 << (48 + any % 4),
                    1 => 1 << (any % 12),
                    _ => 1 << (any % 64),
                };
            }
            16 => {
                self.record.p = self.random.pick(&[
                    0,
                    0x3FE0,
                    BASE,
                    end - 32,
                    end - 64,
                    end,
                    p + 1,
                    p + 16,
                    p | 1 << 48,
                    (end - 96).max(BASE),
                ]);
            }
            17 => self.record.mark = self.random.pick(&[0, 2, 3, 1 << 63, !0]),
            18 | 24 | 25 => {
                // Another code over the same designators, often one that is never half done.
                let same: Vec<&Row> = rows().filter(|other| other.long == row.long).collect();
                let other = self.random.pick(&same);
                let word = self.record.word & !(0xFF << 56) | (other.code as u64) << 56;
                self.record.word = word & !other.zero;
            }
            26 => self.record.flags = self.random.pick(&[FLAGS, FLAG_43, 1, !0, 1 << (any % 64)]),
            19..=22 => {
                // The word of another instruction, whose registers would let it run.
                let row = self.any_row();
                let record = self.record;
                let (word, _) = self.instruction(row, p, &[]);
                self.record = Record { word, ..record };
                if self.random.once_in(2) {
                    self.record.items = 1;
                }
            }
            _ => {
                let row = self.item_row();
                let (mut word, operands) = self.instruction(row, p, &[]);
                let number = 5 + self.random.below(7) as u32;
                self.fault_of(number, row, &mut word, &operands);
                self.record.word = word;
                self.record.items = 1;
            }
        }
    }
}
