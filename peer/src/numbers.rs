//! "A 64-bit number has a 16-bit exponent and a 48-bit coefficient, both two's complement; a 32-bit
//! one has 8 and 24. Exponents 7xxx (7x) are indefinite, 8xxx (8x) machine zero."

pub const LOW_48: u64 = 0xFFFF_FFFF_FFFF;

/// Data flag n is bit n from the left.
pub const FLAG_42: u64 = 1 << (63 - 42);
pub const FLAG_43: u64 = 1 << (63 - 43);
pub const FLAG_46: u64 = 1 << (63 - 46);
pub const FLAGS: u64 = FLAG_42 | FLAG_43 | FLAG_46;

/// "A or X 00 supplies 8000 000000000000."
pub const MACHINE_ZERO: u64 = 0x8000 << 48;

/// "The result words are 70000000 and 80000000 (house)."
const INDEFINITE_32: u32 = 0x7000_0000;
const MACHINE_ZERO_32: u32 = 0x8000_0000;

#[inline]
pub fn low_48(word: u64) -> u64 {
    word & LOW_48
}

#[inline]
pub fn exponent(word: u64) -> i64 {
    word as i64 >> 48
}

#[inline]
pub fn coefficient(word: u64) -> i64 {
    signed_48(word)
}

/// Low 48 as a signed number.
#[inline]
pub fn signed_48(word: u64) -> i64 {
    (word << 16) as i64 >> 16
}

/// 63: "add low 48 of R and S; left 16 from R"; "sums of low 48 drop the carry".
#[inline]
pub fn add_48(r: u64, s: u64) -> u64 {
    (r & !LOW_48) | (r.wrapping_add(s) & LOW_48)
}

/// 67: subtract.
#[inline]
pub fn subtract_48(r: u64, s: u64) -> u64 {
    (r & !LOW_48) | (r.wrapping_sub(s) & LOW_48)
}

/// "Machine zero gives an all-zero word. Exponent zero or more, indefinite included: the word itself;
/// an indefinite result sets 46. Else, with exponent -k, the coefficient becomes C / 2^k taken toward
/// zero, down or up, exponent 0." Gives the word and the flags it sets.
#[inline]
fn whole(word: u64, divide: impl Fn(i64, u32) -> i64) -> (u64, u64) {
    let e = exponent(word);
    if (-0x7000..0).contains(&e) {
        // C has 48 bits, so a k beyond 63 gives what 63 gives.
        let k = (-e).min(63) as u32;
        (divide(coefficient(word), k) as u64 & LOW_48, 0)
    } else if e < 0 {
        (0, 0)
    } else {
        (word, if e >= 0x7000 { FLAG_46 } else { 0 })
    }
}

#[inline]
pub fn truncate(word: u64) -> (u64, u64) {
    whole(word, |c, k| if c < 0 { -(c.abs() >> k) } else { c.abs() >> k })
}

#[inline]
pub fn floor(word: u64) -> (u64, u64) {
    whole(word, |c, k| c >> k)
}

#[inline]
pub fn ceiling(word: u64) -> (u64, u64) {
    whole(word, |c, k| -(-c >> k))
}

#[inline]
fn join_32(exponent: i64, coefficient: i64) -> u32 {
    (exponent as u32) << 24 | coefficient as u32 & 0xFF_FFFF
}

/// "0057 down to FF78", as signed numbers.
const CONTRACTED: std::ops::RangeInclusive<i64> = 0xFF78 - 0x1_0000..=0x57;

/// "Exponent 7000-7FFF: indefinite, flag 46. 0058-6FFF: indefinite, 42 and 46. [...] FF77 down to
/// 8000: machine zero, 43."
#[inline(never)]
fn contract_end(e: i64) -> (u32, u64) {
    if e >= 0x7000 {
        (INDEFINITE_32, FLAG_46)
    } else if e >= 0x58 {
        (INDEFINITE_32, FLAG_42 | FLAG_46)
    } else {
        (MACHINE_ZERO_32, FLAG_43)
    }
}

/// "0057 down to FF78: exponent plus 24, coefficient C / 2^24 rounded down."
#[inline]
pub fn contract(word: u64) -> (u32, u64) {
    let e = exponent(word);
    if !CONTRACTED.contains(&e) {
        return contract_end(e);
    }
    (join_32(e + 24, coefficient(word) >> 24), 0)
}

/// "Rounded: 2^23 is added first; if the sum reaches 2^47 it is divided by 2^25 and the exponent grows
/// by 25. If that makes 70, the result is indefinite, 42 and 46. FF77 and below stays machine zero."
#[inline]
pub fn rounded_contract(word: u64) -> (u32, u64) {
    let e = exponent(word);
    if !CONTRACTED.contains(&e) {
        return contract_end(e);
    }
    let sum = coefficient(word) + (1 << 23);
    if sum < 1 << 47 {
        (join_32(e + 24, sum >> 24), 0)
    } else if e + 25 == 0x70 {
        (INDEFINITE_32, FLAG_42 | FLAG_46)
    } else {
        (join_32(e + 25, sum >> 25), 0)
    }
}

/// "Right byte of B 00-3F: left end-around. C1-FF: right with sign, by 1 to 63. Others: the item
/// unchanged (house)."
#[inline]
pub fn shift(a: u64, b: u64) -> u64 {
    match b as u8 {
        left @ 0x00..=0x3F => a.rotate_left(left as u32),
        right @ 0xC1..=0xFF => (a as i64 >> (0x100 - right as u32)) as u64,
        _ => a,
    }
}
