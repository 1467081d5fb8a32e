//! The streams between the peer and a program under test. All numbers are 64-bit words, big-endian.
//!
//! CASE: bytes of memory (any number up to 65,536), count of registers (up to 512), P, mark, word,
//! items, flags, budget N, part; the registers; memory, padded with zero bytes to a multiple of 8.
//! Part 0 is one call with budget N. Part k is calls of budget k one after another, each on the
//! state that the one before left, the last smaller so that the budgets add up to N, stopping at the
//! first answer other than 0. With N = 0 there is one call with budget 0.
//!
//! RESULT: answer of the last call, steps in all, P, mark, word, items, flags; registers; memory, padded.

use crate::machine::{run, Record};
use std::io::{self, Error, ErrorKind, Read, Write};

/// What a call is lent.
#[derive(Clone, PartialEq, Eq, Debug)]
pub struct State {
    pub memory: Vec<u8>,
    pub registers: Vec<u64>,
    pub record: Record,
}

#[derive(Clone, Debug)]
pub struct Case {
    pub state: State,
    pub budget: u32,
    pub part: u32,
}

#[derive(Clone, PartialEq, Eq, Debug)]
pub struct Outcome {
    pub answer: u64,
    pub steps: u64,
    pub state: State,
}

pub const MOST_BYTES: u64 = 65_536;
pub const MOST_REGISTERS: u64 = 512;

impl Case {
    /// Runs the case on this machine.
    pub fn run(&self) -> Outcome {
        let mut state = self.state.clone();
        let mut left = self.budget;
        let mut steps = 0;
        loop {
            let budget = if self.part == 0 { left } else { left.min(self.part) };
            let State { memory, registers, record } = &mut state;
            let (answer, taken) = run(memory, registers, record, budget);
            steps += taken as u64;
            left -= budget;
            if answer != 0 || left == 0 {
                return Outcome { answer: answer as u64, steps, state };
            }
        }
    }

    pub fn write(&self, out: &mut impl Write) -> io::Result<()> {
        let state = &self.state;
        put(out, state.memory.len() as u64)?;
        put(out, state.registers.len() as u64)?;
        put_record(out, &state.record)?;
        put(out, self.budget as u64)?;
        put(out, self.part as u64)?;
        put_state(out, state)
    }

    /// The next case; none at the end of the stream.
    pub fn read(from: &mut impl Read) -> io::Result<Option<Case>> {
        let Some(bytes) = get_or_end(from)? else {
            return Ok(None);
        };
        let count = get(from)?;
        if bytes > MOST_BYTES || count > MOST_REGISTERS {
            return Err(Error::new(ErrorKind::InvalidData, "a case is too large"));
        }
        let record = get_record(from)?;
        let number =
            |word: u64| u32::try_from(word).map_err(|_| Error::new(ErrorKind::InvalidData, "a budget has 32 bits"));
        let budget = number(get(from)?)?;
        let part = number(get(from)?)?;
        let state = get_state(from, bytes as usize, count as usize, record)?;
        Ok(Some(Case { state, budget, part }))
    }
}

impl Outcome {
    pub fn write(&self, out: &mut impl Write) -> io::Result<()> {
        put(out, self.answer)?;
        put(out, self.steps)?;
        put_record(out, &self.state.record)?;
        put_state(out, &self.state)
    }

    /// The next result, of a case with so many bytes and registers.
    pub fn read(from: &mut impl Read, bytes: usize, count: usize) -> io::Result<Outcome> {
        let answer = get(from)?;
        let steps = get(from)?;
        let record = get_record(from)?;
        let state = get_state(from, bytes, count, record)?;
        Ok(Outcome { answer, steps, state })
    }
}

fn put(out: &mut impl Write, word: u64) -> io::Result<()> {
    out.write_all(&word.to_be_bytes())
}

fn put_record(out: &mut impl Write, record: &Record) -> io::Result<()> {
    for word in [record.p, record.mark, record.word, record.items, record.flags] {
        put(out, word)?;
    }
    Ok(())
}

fn put_state(out: &mut impl Write, state: &State) -> io::Result<()> {
    for &register in &state.registers {
        put(out, register)?;
    }
    out.write_all(&state.memory)?;
    let padding = state.memory.len().next_multiple_of(8) - state.memory.len();
    out.write_all(&[0; 8][..padding])
}

fn get(from: &mut impl Read) -> io::Result<u64> {
    let mut bytes = [0; 8];
    from.read_exact(&mut bytes)?;
    Ok(u64::from_be_bytes(bytes))
}

fn get_or_end(from: &mut impl Read) -> io::Result<Option<u64>> {
    let mut bytes = [0; 8];
    loop {
        match from.read(&mut bytes[..1]) {
            Ok(0) => return Ok(None),
            Ok(_) => break,
            Err(error) if error.kind() == ErrorKind::Interrupted => {}
            Err(error) => return Err(error),
        }
    }
    from.read_exact(&mut bytes[1..])?;
    Ok(Some(u64::from_be_bytes(bytes)))
}

fn get_record(from: &mut impl Read) -> io::Result<Record> {
    Ok(Record { p: get(from)?, mark: get(from)?, word: get(from)?, items: get(from)?, flags: get(from)? })
}

fn get_state(from: &mut impl Read, bytes: usize, count: usize, record: Record) -> io::Result<State> {
    let mut padded = vec![0; 8 * count];
    from.read_exact(&mut padded)?;
    let registers = padded.as_chunks().0.iter().map(|word| u64::from_be_bytes(*word)).collect();
    let mut memory = vec![0; bytes.next_multiple_of(8)];
    from.read_exact(&mut memory)?;
    if memory[bytes..].iter().any(|&byte| byte != 0) {
        return Err(Error::new(ErrorKind::InvalidData, "the padding of memory is not zero"));
    }
    memory.truncate(bytes);
    Ok(State { memory, registers, record })
}
