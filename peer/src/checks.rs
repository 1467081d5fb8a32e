//! Refusals 8 to 11 of vector, bit and move instructions, and what is left to do after them.

use crate::bits::BitFields;
use crate::fields::{formed, length, Field};
use crate::items::{MoveBytes, Task, Work};
use crate::numbers::low_48;
use crate::vectors::{Control, Source, Vector};
use crate::words::{designator, Kind, Row, A, B, C, G1, G3, G4, R, S, T, X, Z};

pub type Registers = [u64; 256];

/// Checks 8 to 11 of an instruction with items that has passed 5 to 7: its work, or the number.
/// "A vector, bit or move instruction that has no items skips 8 to 11."
pub fn work(row: &Row, word: u64, registers: &Registers, memory: u64) -> Result<Work, u32> {
    match row.kind {
        Kind::Vector => vector(row.code, word, registers, memory),
        Kind::Bits => bits(row.code, word, registers, memory),
        _ => moving(word, registers, memory),
    }
}

fn vector(code: u8, word: u64, registers: &Registers, memory: u64) -> Result<Work, u32> {
    let register = |place| registers[designator(word, place) as usize];
    // "The length of C governs."
    let n = length(register(C));
    if n == 0 {
        return Ok(Work { items: 0, task: Task::Nothing });
    }
    // "96, 97: C items are half words."
    let half = matches!(code, 0x96 | 0x97);
    let unit = if half { 32 } else { 64 };
    let c = Field { base: low_48(register(C)), bits: n * unit };
    // "A source field runs from its base to the last bit read if every item were stored": n words.
    // A broadcast source, and B where only A is used, is no field.
    let words = |place, broadcast: u64| {
        if word & broadcast != 0 || word & place == 0 {
            Field::EMPTY
        } else {
            Field { base: low_48(register(place)), bits: n * 64 }
        }
    };
    let a = words(A, G3);
    let b = words(B, G4);
    // "Z names the control field's base, one bit an item; Z 00 means store all."
    let z = if word & Z == 0 { Field::EMPTY } else { Field { base: low_48(register(Z)), bits: n } };

    // 8: "word fields and addresses 64, half-word fields 32".
    if !c.aligned(unit) || !a.aligned(64) || !b.aligned(64) {
        return Err(8);
    }
    // 9: "vector source, not broadcast, shorter than C".
    let short = |field: Field, place| field.bits != 0 && length(register(place)) < n;
    if short(a, A) || short(b, B) {
        return Err(9);
    }
    // 10: "an address or field not wholly in memory".
    if ![c, a, b, z].iter().all(|field| field.inside(memory)) {
        return Err(10);
    }
    // 11: "result field shares a bit with a source or control field". "A word result may be exactly
    // a word source's start."
    let meets = |source: Field| c.shares(source) && (half || source.base != c.base);
    if meets(a) || meets(b) || c.shares(z) {
        return Err(11);
    }
    let source = |field: Field, place| {
        if field.bits == 0 {
            Source::Every(register(place))
        } else {
            Source::Field(field.place() / 8)
        }
    };
    let control = (z.bits != 0).then(|| Control { place: z.place(), zeros: word & G1 != 0 });
    let task = Vector { code, c: c.place() / 8, a: source(a, A), b: source(b, B), control };
    Ok(Work { items: n as usize, task: Task::Vector(task) })
}

fn bits(code: u8, word: u64, registers: &Registers, memory: u64) -> Result<Work, u32> {
    let register = |place| registers[designator(word, place) as usize];
    // "r, s, n are the lengths in R, S, T."
    let (r, s, n) = (length(register(R)), length(register(S)), length(register(T)));
    // "Compress with r or n zero, and the others with r, s or n zero, do nothing."
    if r == 0 || n == 0 || (s == 0 && code != 0x14) {
        return Ok(Work { items: 0, task: Task::Nothing });
    }
    // "Where low 48 of S is zero, merge and mask take zeros for S." Compress has no field S.
    let zeros = low_48(register(S)) == 0;
    let (read_r, read_s) = extents(code, r, s, n);
    let t_field = Field { base: low_48(register(T)), bits: n };
    let r_field = Field { base: low_48(register(R)), bits: read_r };
    let s_field = if zeros { Field::EMPTY } else { Field { base: low_48(register(S)), bits: read_s } };
    // Bits have no alignment (8), and bit instructions no vector sources (9).
    if ![t_field, r_field, s_field].iter().all(|field| field.inside(memory)) {
        return Err(10);
    }
    if t_field.shares(r_field) || t_field.shares(s_field) {
        return Err(11);
    }
    let task = BitFields {
        code,
        r: r as usize,
        s: s as usize,
        from_r: r_field.place(),
        from_s: (s_field.bits != 0).then(|| s_field.place()),
        to: t_field.place(),
    };
    Ok(Work { items: n as usize, task: Task::Bits(task) })
}

/// How far R and S are read for n result bits: one more than the last bit read, 0 if none is.
pub(crate) fn extents(code: u8, r: u64, s: u64, n: u64) -> (u64, u64) {
    // The places of the last result bit that comes from R, and from S; with the period p.
    let p = r + s;
    let last = n - 1;
    let (turn, m) = (last / p, last % p);
    match code {
        // "compress takes R's bit (j / r)(r + s) + j mod r", which grows with j.
        0x14 => ((last / r) * p + last % r + 1, 0),
        // "R bit (j / (r+s)) r + m or S bit (j / (r+s)) s + m - r"
        0x15 => (turn * r + (m + 1).min(r), turn * s + (m + 1).saturating_sub(r)),
        // "mask reads bit j": the last j with m < r, and the last with m >= r.
        _ => {
            let in_r = turn * p + m.min(r - 1) + 1;
            let in_s = if m >= r { n } else { turn * p };
            (in_r, in_s)
        }
    }
}

/// "Source A plus X bytes, result C plus Z bytes, X or Z 00 meaning none."
fn moving(word: u64, registers: &Registers, memory: u64) -> Result<Work, u32> {
    let register = |place| registers[designator(word, place) as usize];
    let count = |place| if word & place == 0 { 0 } else { register(place) };
    let n = length(register(C));
    if n == 0 {
        return Ok(Work { items: 0, task: Task::Nothing });
    }
    let read = length(register(A)).min(n);
    let c = Field { base: formed(register(C), count(Z), 3), bits: n * 8 };
    let a = Field { base: formed(register(A), count(X), 3), bits: read * 8 };
    // 8: "bytes 8".
    if !c.aligned(8) || !a.aligned(8) {
        return Err(8);
    }
    if !c.inside(memory) || !a.inside(memory) {
        return Err(10);
    }
    if c.shares(a) {
        return Err(11);
    }
    let task = MoveBytes { from: a.place() / 8, read: read as usize, to: c.place() / 8, literal: designator(word, B) };
    Ok(Work { items: n as usize, task: Task::Move(task) })
}
