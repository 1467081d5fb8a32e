//! Bit compress, merge and mask. "r, s, n are the lengths in R, S, T."

use crate::fields::{bits_at, ones};

pub struct BitFields {
    pub code: u8,
    pub r: usize,
    pub s: usize,
    pub from_r: usize,
    /// None: zeros for S.
    pub from_s: Option<usize>,
    pub to: usize,
}

impl BitFields {
    /// Works `count` bits from bit `from` on.
    pub fn do_items(&self, memory: &mut [u8], from: usize, count: usize) {
        // Short runs are worked by whole words of several turns, long ones run by run.
        let short = self.r + self.s <= 32 && count > 64;
        match self.code {
            0x14 if short => self.compress_short(memory, from, count),
            0x14 => self.compress(memory, from, count),
            0x15 if short => self.merge_short(memory, from, count),
            0x15 => self.merge(memory, from, count),
            _ => self.mask(memory, from, count),
        }
    }

    /// "compress takes R's bit (j / r)(r + s) + j mod r": runs of r bits, s bits apart.
    fn compress(&self, memory: &mut [u8], from: usize, count: usize) {
        let (r, s) = (self.r, self.s);
        let mut place = self.from_r + from / r * (r + s) + from % r;
        let mut left = r - from % r;
        store_bits(memory, self.to + from, count, |memory, wanted| {
            let (mut bits, mut have) = (0, 0);
            loop {
                let take = left.min(wanted - have);
                bits |= (bits_at(memory, place) & ones(take)) >> have;
                have += take;
                place += take;
                left -= take;
                if left == 0 {
                    place += s;
                    left = r;
                }
                if have == wanted {
                    return bits;
                }
            }
        });
    }

    fn compress_short(&self, memory: &mut [u8], from: usize, count: usize) {
        let comb = Comb::new(self.r, self.s);
        let (read, made) = (comb.turns * (self.r + self.s), comb.turns * self.r);
        let mut place = self.from_r + from / self.r * (self.r + self.s);
        store_windows(memory, self.to + from, count, from % self.r, made, |memory| {
            let bits = comb.gather(bits_at(memory, place));
            place += read;
            bits
        });
    }

    /// "with m = j mod (r + s), take R if m < r, else S; [...] merge reads R bit (j / (r+s)) r + m or S
    /// bit (j / (r+s)) s + m - r": runs of r and of s bits by turns.
    fn merge(&self, memory: &mut [u8], from: usize, count: usize) {
        let (r, s) = (self.r, self.s);
        let (turn, m) = (from / (r + s), from % (r + s));
        let mut in_r = m < r;
        let mut place_r = self.from_r + turn * r + m.min(r);
        let mut place_s = self.from_s.unwrap_or(0) + turn * s + m.saturating_sub(r);
        let mut left = if in_r { r - m } else { r + s - m };
        let keep_s = if self.from_s.is_some() { !0 } else { 0 };
        store_bits(memory, self.to + from, count, |memory, wanted| {
            let (mut bits, mut have) = (0, 0);
            loop {
                let take = left.min(wanted - have);
                let run = if in_r {
                    let run = bits_at(memory, place_r);
                    place_r += take;
                    run
                } else {
                    let run = bits_at(memory, place_s) & keep_s;
                    place_s += take;
                    run
                };
                bits |= (run & ones(take)) >> have;
                have += take;
                left -= take;
                if left == 0 {
                    in_r = !in_r;
                    left = if in_r { r } else { s };
                }
                if have == wanted {
                    return bits;
                }
            }
        });
    }

    fn merge_short(&self, memory: &mut [u8], from: usize, count: usize) {
        let (r, s) = (self.r, self.s);
        let (comb_r, comb_s) = (Comb::new(r, s), Comb::new(s, r));
        let turns = comb_r.turns;
        let turn = from / (r + s);
        let mut place_r = self.from_r + turn * r;
        let mut place_s = self.from_s.map(|place| place + turn * s);
        store_windows(memory, self.to + from, count, from % (r + s), turns * (r + s), |memory| {
            let mut bits = comb_r.spread(bits_at(memory, place_r) & ones(turns * r));
            place_r += turns * r;
            if let Some(place) = &mut place_s {
                bits |= comb_s.spread(bits_at(memory, *place) & ones(turns * s)) >> r;
                *place += turns * s;
            }
            bits
        });
    }

    /// "mask reads bit j": R's or S's by a pattern of r ones and s zeros.
    fn mask(&self, memory: &mut [u8], from: usize, count: usize) {
        let (r, p) = (self.r, self.r + self.s);
        let mut j = from;
        let mut m = from % p;
        // With a period below 64 every window of the pattern lies in its first 128 bits.
        let short = if p < 64 { (0..128).fold(0, |bits, i| bits << 1 | (i % p < r) as u128) } else { 0 };
        store_bits(memory, self.to + from, count, |memory, wanted| {
            let pattern = if p < 64 { (short << m >> 64) as u64 } else { pattern(r, p, m) };
            m = (m + wanted) % p;
            let of_r = bits_at(memory, self.from_r + j);
            let of_s = self.from_s.map_or(0, |s| bits_at(memory, s + j));
            j += wanted;
            of_r & pattern | of_s & !pattern
        });
    }
}

/// 64 bits, from phase m on, of r ones and zeros up to a period p of 64 or more.
fn pattern(r: usize, p: usize, m: usize) -> u64 {
    if m < r {
        // The rest of the ones; the next turn's ones begin p - m bits on.
        ones(r - m) | if p - m < 64 { ones(r) >> (p - m) } else { 0 }
    } else if p - m < 64 {
        ones(r) >> (p - m)
    } else {
        0
    }
}

/// Moves runs of a word together or apart: `turns` runs of `run` bits with gaps of `gap`. Run q has to go
/// q gaps to the left, by one step for each bit of q.
struct Comb {
    turns: usize,
    /// All runs, set apart.
    runs: u64,
    /// The runs that a step moves, where they stand before it, and how far.
    steps: [(u64, u32); 5],
    used: usize,
}

impl Comb {
    /// For periods of 2 to 32 bits.
    fn new(run: usize, gap: usize) -> Comb {
        let turns = 64 / (run + gap);
        let runs = (0..turns).fold(0, |runs, q| runs | ones(run) >> (q * (run + gap)));
        let mut comb = Comb { turns, runs, steps: [(0, 0); 5], used: 0 };
        if gap == 0 {
            return comb;
        }
        while 1 << comb.used < turns {
            let i = comb.used;
            for q in (0..turns).filter(|q| q >> i & 1 == 1) {
                let place = q * (run + gap) - q % (1 << i) * gap;
                comb.steps[i].0 |= ones(run) >> place;
            }
            comb.steps[i].1 = (gap << i) as u32;
            comb.used += 1;
        }
        comb
    }

    /// The runs without the gaps, on the left.
    #[inline]
    fn gather(&self, mut bits: u64) -> u64 {
        bits &= self.runs;
        for (runs, by) in &self.steps[..self.used] {
            let moved = bits & runs;
            bits = bits ^ moved | moved << by;
        }
        bits
    }

    /// The runs set apart again; the word holds nothing else.
    #[inline]
    fn spread(&self, mut bits: u64) -> u64 {
        for (runs, by) in self.steps[..self.used].iter().rev() {
            let moved = bits & runs << by;
            bits = bits ^ moved | moved >> by;
        }
        bits
    }
}

/// Stores `count` bits at a place, made by windows of `made` bits each, without the first `drop`.
#[inline]
fn store_windows(
    memory: &mut [u8],
    place: usize,
    count: usize,
    drop: usize,
    made: usize,
    mut window: impl FnMut(&[u8]) -> u64,
) {
    // Bits that are made and not yet stored, on the left.
    let mut kept = window(memory) << drop;
    let mut have = made - drop;
    store_bits(memory, place, count, |memory, wanted| {
        let mut bits = kept;
        if have >= wanted {
            kept = kept.unbounded_shl(wanted as u32);
            have -= wanted;
            return bits;
        }
        bits &= ones(have);
        while have < wanted {
            kept = window(memory);
            bits |= (kept & ones(made)) >> have;
            have += made;
        }
        have -= wanted;
        kept = kept.unbounded_shl((made - have) as u32);
        bits
    });
}

/// Stores `count` bits at a place, a word of memory at a time. `next` gives as many bits as it is asked
/// for, from the left; it is asked in order.
#[inline]
fn store_bits(memory: &mut [u8], mut place: usize, mut count: usize, mut next: impl FnMut(&[u8], usize) -> u64) {
    while count > 0 {
        let (at, off) = (place / 64 * 8, place % 64);
        let wanted = count.min(64 - off);
        let bits = next(memory, wanted) >> off;
        let here = ones(wanted) >> off;
        let word = &mut memory[at..at + 8];
        let old = u64::from_be_bytes((&*word).try_into().unwrap());
        word.copy_from_slice(&(old & !here | bits & here).to_be_bytes());
        place += wanted;
        count -= wanted;
    }
}
