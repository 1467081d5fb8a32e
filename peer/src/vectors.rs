//! The loops over vector items. The result field shares no bit with a source or control field, or is exactly
//! a word source.

use crate::fields::{bits_at, ones};
use crate::numbers::{add_48, ceiling, contract, floor, rounded_contract, shift, subtract_48, truncate};

/// Where a source's items come from; fields by their first byte in memory.
#[derive(Clone, Copy)]
pub enum Source {
    Every(u64),
    Field(usize),
}

/// The control field's first bit in memory; stored where the bit is one, or where it is zero.
#[derive(Clone, Copy)]
pub struct Control {
    pub place: usize,
    pub zeros: bool,
}

pub struct Vector {
    pub code: u8,
    pub c: usize,
    pub a: Source,
    pub b: Source,
    pub control: Option<Control>,
}

impl Vector {
    /// Works `count` items from item `from` on; gives the flags they set.
    pub fn do_items(&self, memory: &mut [u8], from: usize, count: usize) -> u64 {
        match self.code {
            0x83 => self.words(memory, from, count, |a, b| (add_48(scalar(a), b), 0)),
            0x87 => self.words(memory, from, count, |a, b| (subtract_48(scalar(a), b), 0)),
            0x8A => self.words(memory, from, count, |a, b| (shift(a, b), 0)),
            0x90 => self.words_of_a(memory, from, count, false, truncate),
            0x91 => self.words_of_a(memory, from, count, false, floor),
            0x92 => self.words_of_a(memory, from, count, false, ceiling),
            0x96 => self.halves(memory, from, count, |a| contract(scalar(a))),
            0x97 => self.halves(memory, from, count, |a| rounded_contract(scalar(a))),
            _ => self.words_of_a(memory, from, count, true, |a| (a, 0)),
        }
    }

    fn words_of_a<F>(&self, memory: &mut [u8], from: usize, count: usize, cheap: bool, make: F) -> u64
    where
        F: Fn(u64) -> (u64, u64) + Copy,
    {
        let (c, around) = split(memory, self.c + 8 * from, 8 * count);
        let c = c.as_chunks_mut::<8>().0;
        let control = self.control.map(|control| around.control(control, from, cheap));
        let make = |a, _| make(a);
        match self.a {
            Source::Every(x) => each(c, Every(x), Every(0), control, make),
            Source::Field(a) if a == self.c => each(c, Same, Every(0), control, make),
            Source::Field(a) => {
                let a = Words(around.bytes(a + 8 * from, 8 * count).as_chunks().0);
                each(c, a, Every(0), control, make)
            }
        }
    }

    fn words<F>(&self, memory: &mut [u8], from: usize, count: usize, make: F) -> u64
    where
        F: Fn(u64, u64) -> (u64, u64) + Copy,
    {
        let (c, around) = split(memory, self.c + 8 * from, 8 * count);
        let c = c.as_chunks_mut::<8>().0;
        let control = self.control.map(|control| around.control(control, from, true));
        let field = |place: usize| Words(around.bytes(place + 8 * from, 8 * count).as_chunks().0);
        // Each pair of kinds of source has a loop of its own.
        match (self.a, self.b) {
            (Source::Every(x), Source::Every(y)) => each(c, Every(x), Every(y), control, make),
            (Source::Every(x), Source::Field(b)) if b == self.c => each(c, Every(x), Same, control, make),
            (Source::Every(x), Source::Field(b)) => each(c, Every(x), field(b), control, make),
            (Source::Field(a), Source::Every(y)) if a == self.c => each(c, Same, Every(y), control, make),
            (Source::Field(a), Source::Every(y)) => each(c, field(a), Every(y), control, make),
            (Source::Field(a), Source::Field(b)) => match (a == self.c, b == self.c) {
                (true, true) => each(c, Same, Same, control, make),
                (true, false) => each(c, Same, field(b), control, make),
                (false, true) => each(c, field(a), Same, control, make),
                (false, false) => each(c, field(a), field(b), control, make),
            },
        }
    }

    fn halves<F>(&self, memory: &mut [u8], from: usize, count: usize, make: F) -> u64
    where
        F: Fn(u64) -> (u32, u64) + Copy,
    {
        let (c, around) = split(memory, self.c + 4 * from, 4 * count);
        let c = c.as_chunks_mut::<4>().0;
        let control = self.control.map(|control| around.control(control, from, false));
        let make = |a, _| make(a);
        match self.a {
            Source::Every(x) => each(c, Every(x), Every(0), control, make),
            Source::Field(a) => {
                let a = Words(around.bytes(a + 8 * from, 8 * count).as_chunks().0);
                each(c, a, Every(0), control, make)
            }
        }
    }
}

/// The word itself. Keeps a loop scalar on targets without a byte shuffle, where swapping the bytes of two
/// words at once takes longer than swapping each.
#[inline]
fn scalar(word: u64) -> u64 {
    if cfg!(all(target_arch = "x86_64", not(target_feature = "ssse3"))) {
        std::hint::black_box(word)
    } else {
        word
    }
}

/// Memory before and after the items that are written; every other field lies on one side.
struct Around<'m> {
    before: &'m [u8],
    after: &'m [u8],
    after_at: usize,
}

fn split(memory: &mut [u8], at: usize, bytes: usize) -> (&mut [u8], Around<'_>) {
    let (before, rest) = memory.split_at_mut(at);
    let (here, after) = rest.split_at_mut(bytes);
    (here, Around { before, after, after_at: at + bytes })
}

impl<'m> Around<'m> {
    fn bytes(&self, at: usize, bytes: usize) -> &'m [u8] {
        if at < self.before.len() {
            &self.before[at..at + bytes]
        } else {
            &self.after[at - self.after_at..][..bytes]
        }
    }

    fn control(&self, control: Control, from: usize, cheap: bool) -> Stored<'m> {
        let place = control.place + from;
        let flip = if control.zeros { !0 } else { 0 };
        if place / 8 < self.before.len() {
            Stored { bytes: self.before, place, flip, cheap }
        } else {
            Stored { bytes: self.after, place: place - 8 * self.after_at, flip, cheap }
        }
    }
}

/// Which items are stored: control bits from a place on.
#[derive(Clone, Copy)]
struct Stored<'m> {
    bytes: &'m [u8],
    place: usize,
    flip: u64,
    /// An item is made faster than a branch is missed.
    cheap: bool,
}

/// A result item as it lies in memory.
trait Item: Copy {
    type Value: Copy;
    fn get(self) -> Self::Value;
    fn of(value: Self::Value) -> Self;
}

impl Item for [u8; 8] {
    type Value = u64;
    #[inline]
    fn get(self) -> u64 {
        u64::from_be_bytes(self)
    }
    #[inline]
    fn of(value: u64) -> Self {
        value.to_be_bytes()
    }
}

impl Item for [u8; 4] {
    type Value = u32;
    #[inline]
    fn get(self) -> u32 {
        u32::from_be_bytes(self)
    }
    #[inline]
    fn of(value: u32) -> Self {
        value.to_be_bytes()
    }
}

/// A source of items, beside the result items of the same numbers.
trait Stream<I: Item>: Copy {
    /// Item i, the result's item being `old` still.
    fn item(&self, i: usize, old: I) -> u64;
    fn part(self, from: usize, count: usize) -> Self;
}

#[derive(Clone, Copy)]
struct Every(u64);

/// The result field itself: "a word result may be exactly a word source's start".
#[derive(Clone, Copy)]
struct Same;

#[derive(Clone, Copy)]
struct Words<'m>(&'m [[u8; 8]]);

impl<I: Item> Stream<I> for Every {
    #[inline]
    fn item(&self, _: usize, _: I) -> u64 {
        self.0
    }
    #[inline]
    fn part(self, _: usize, _: usize) -> Self {
        self
    }
}

impl Stream<[u8; 8]> for Same {
    #[inline]
    fn item(&self, _: usize, old: [u8; 8]) -> u64 {
        old.get()
    }
    #[inline]
    fn part(self, _: usize, _: usize) -> Self {
        self
    }
}

impl<I: Item> Stream<I> for Words<'_> {
    #[inline]
    fn item(&self, i: usize, _: I) -> u64 {
        self.0[i].get()
    }
    #[inline]
    fn part(self, from: usize, count: usize) -> Self {
        Words(&self.0[from..from + count])
    }
}

/// Works the items of `c` that are stored.
#[inline(never)]
fn each<I, A, B, F>(c: &mut [I], a: A, b: B, control: Option<Stored>, make: F) -> u64
where
    I: Item,
    A: Stream<I>,
    B: Stream<I>,
    F: Fn(u64, u64) -> (I::Value, u64) + Copy,
{
    let Some(stored) = control else {
        return all(c, a, b, make);
    };
    // "An item not stored keeps its bits and sets no flag." 64 control bits at a time.
    let mut flags = 0;
    for (turn, c) in c.chunks_mut(64).enumerate() {
        let (from, count) = (64 * turn, c.len());
        let (a, b) = (a.part(from, count), b.part(from, count));
        let mut bits = (bits_at(stored.bytes, stored.place + from) ^ stored.flip) & ones(count);
        if bits == !0 {
            flags |= all(c, a, b, make);
            continue;
        }
        if stored.cheap && bits.count_ones() > 12 {
            // Many are stored: each item is made, and kept or not without a branch.
            for i in 0..count {
                let old = c[i];
                let (value, set) = make(a.item(i, old), b.item(i, old));
                let one = bits << i >> 63 != 0;
                c[i] = if one { I::of(value) } else { old };
                flags |= if one { set } else { 0 };
            }
            continue;
        }
        while bits != 0 {
            let i = bits.leading_zeros() as usize;
            let (value, set) = make(a.item(i, c[i]), b.item(i, c[i]));
            c[i] = I::of(value);
            flags |= set;
            bits &= !(1 << (63 - i));
        }
    }
    flags
}

/// A function of its own, so that the loop has all registers.
#[inline(never)]
fn all<I, A, B, F>(c: &mut [I], a: A, b: B, make: F) -> u64
where
    I: Item,
    A: Stream<I>,
    B: Stream<I>,
    F: Fn(u64, u64) -> (I::Value, u64) + Copy,
{
    let mut flags = 0;
    for i in 0..c.len() {
        let (value, set) = make(a.item(i, c[i]), b.item(i, c[i]));
        c[i] = I::of(value);
        flags |= set;
    }
    flags
}
