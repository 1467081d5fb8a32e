//! Cases, made from a seed and a number: the same every time. Plain random words are nearly all refused
//! 5, so words are built from the table to pass every check, and then given the faults that a case wants.

use crate::coverage::can_occur;
use crate::draft::{row_number, Draft};
use crate::fields::BASE;
use crate::machine::run;
use crate::numbers::{FLAGS, LOW_48};
use crate::random::Random;
use crate::stream::{Case, State};
use crate::words::{designator, C, R, S, T};

/// A case in three cuts: one call; calls of budget 1; calls of budget `few`.
pub struct Made {
    pub state: State,
    pub budget: u32,
    pub few: u32,
    /// The refusals that were put into one word on purpose; another may come before them.
    pub planted: Vec<u32>,
    pub about: &'static str,
}

impl Made {
    pub fn cuts(&self) -> [Case; 3] {
        [0, 1, self.few].map(|part| Case { state: self.state.clone(), budget: self.budget, part })
    }
}

/// The case of this number under this seed.
pub fn make(seed: u64, number: u64) -> Made {
    let mut random = Random::new(seed ^ number.wrapping_mul(0xD134_2543_DE82_EF95));
    random.next();
    match number % 8 {
        0 | 1 => return one_cell(random, number / 4),
        2 => return two_refusals(random, number / 8),
        3 if number % 32 == 3 => return no_items(random),
        _ => {}
    }
    match random.below(100) {
        0..=42 => single(random),
        43..=65 => job(random),
        66..=84 => half_done(random),
        85..=89 => impossible(random),
        90..=92 => wrong_length(random),
        93..=98 => fetching(random),
        _ => large(random),
    }
}

// ---- the kinds of cases ----

/// One code with one answer, cell after cell of the table of what can occur.
fn one_cell(random: Random, which: u64) -> Made {
    let cells: Vec<(usize, usize)> = (0..38)
        .flat_map(|row| (0..12).map(move |answer| (row, answer)))
        .filter(|&(row, answer)| can_occur(row, answer))
        .collect();
    let (row, answer) = cells[(which % cells.len() as u64) as usize];
    let (row, answer) = (row_number(row), answer as u32);
    let mut draft = Draft::new(random, None);
    for _ in 0..40 {
        draft.fresh(None);
        let operands = draft.place_instruction(row);
        let p = draft.record.p;
        match answer {
            3 => {
                draft.record.mark = 1;
                draft.record.word = draft.built_word;
                draft.record.items = draft.random.pick(&[0, 1, 2, 65_535, 65_536]);
            }
            4 => {
                let end = BASE + 8 * draft.memory.len() as u64;
                draft.record.p = end - 32;
                draft.poke(end - 32, draft.built_word, 32);
            }
            5.. if !draft.plant(answer, row, &operands) => continue,
            _ => {}
        }
        let budget = if answer == 0 { 1 } else { 3000 };
        if draft.probe(budget).0 == answer && (answer > 4 || answer == 3 || draft.code_at(p) == row.code) {
            break;
        }
    }
    let mut made = draft.finish(vec![], "one code, one answer");
    if answer == 0 {
        made.budget = 1;
    } else if made.budget == 0 {
        made.budget = 1;
    }
    made
}

/// One word with two faults: with the larger alone the larger number comes, with both the smaller.
fn two_refusals(random: Random, which: u64) -> Made {
    let pairs: Vec<(u32, u32)> = (5..12).flat_map(|a| (a + 1..12).map(move |b| (a, b))).collect();
    let (first, second) = pairs[(which % pairs.len() as u64) as usize];
    let mut draft = Draft::new(random, None);
    let mut planted = vec![];
    for _ in 0..200 {
        draft.fresh(None);
        let row = draft.any_row();
        let operands = draft.place_instruction(row);
        if !draft.plant(second, row, &operands) || draft.probe(1) != (second, 0) {
            continue;
        }
        if draft.plant(first, row, &operands) && draft.probe(1) == (first, 0) {
            planted = vec![first, second];
            break;
        }
    }
    let mut made = draft.finish(planted, "two refusals in one word");
    made.budget = made.budget.max(1);
    made
}

/// An instruction without items whose fields would be refused if it had any.
fn no_items(random: Random) -> Made {
    let mut draft = Draft::new(random, None);
    let row = draft.item_row();
    let operands = draft.place_instruction(row);
    for _ in 0..2 {
        let number = draft.random.pick(&[6, 7, 8, 8, 8, 9, 10, 10, 10, 11]);
        draft.plant(number, row, &operands);
    }
    // C's length, or one of R, S and T.
    let place = if row.long { C } else { draft.random.pick(&[R, S, T, T]) };
    let holder = designator(draft.built_word, place) as usize;
    draft.registers[holder] &= LOW_48;
    draft.finish(vec![], "no items")
}

/// One instruction with no fault, one or two, and something after it.
fn single(random: Random) -> Made {
    let mut draft = Draft::new(random, None);
    let row = draft.any_row();
    let faults = match draft.random.below(100) {
        0..=54 => 0,
        55..=81 => 1,
        _ => 2,
    };
    let operands = draft.place_instruction(row);
    draft.plant_any(faults, row, &operands);
    draft.finish(vec![], "one instruction")
}

/// Several instructions with branches between them, mostly with an exit at the end.
fn job(random: Random) -> Made {
    let mut draft = Draft::new(random, Some(256));
    draft.place_job();
    draft.finish(vec![], "a job")
}

/// A record that a run of some steps left half done, or such a record with something changed.
fn half_done(random: Random) -> Made {
    let mut draft = Draft::new(random, None);
    for _ in 0..30 {
        if draft.random.once_in(4) {
            draft.fresh(Some(256));
            draft.place_job();
        } else {
            draft.fresh(None);
            let row = draft.item_row();
            draft.place_instruction(row);
        }
        let steps = draft.probe(3000).1;
        if steps < 2 {
            continue;
        }
        let budget = 1 + draft.random.below(steps as u64 - 1) as u32;
        let Draft { memory, registers, record, .. } = &mut draft;
        run(memory, registers, record, budget);
        if record.mark == 1 {
            break;
        }
    }
    if draft.record.mark == 1 {
        draft.spoil_half_done();
    }
    draft.finish(vec![], "a half-done record")
}

/// Records that are not half done and may be impossible, each by one rule.
fn impossible(random: Random) -> Made {
    let mut draft = Draft::new(random, None);
    let row = draft.any_row();
    draft.place_instruction(row);
    let any = draft.random.next();
    let record = &mut draft.record;
    match draft.random.below(16) {
        0 => record.p |= 1 << 48,
        1 => record.p |= 1 << (48 + any % 16),
        2 => record.p += 1 + any % 31,
        3 => record.mark = 1,
        4 => record.mark = draft.random.pick(&[2, 3, 1 << 32, 1 << 63, !0]),
        5 => record.word = draft.random.pick(&[1, 1 << 63, any | 1]),
        6 => record.items = draft.random.pick(&[1, 2, 1 << 16, 1 << 32, !0]),
        7 => record.flags |= 1 << (any % 64),
        8 => record.flags = any,
        9 => {
            record.word = draft.built_word;
            record.items = 1;
        }
        10 => record.p = any & LOW_48 & !31,
        11 => record.flags = any & FLAGS,
        _ => {
            // The word at P as if it had begun.
            record.mark = 1;
            record.word = draft.built_word;
            record.items = 1 + any % 2;
        }
    }
    draft.finish(vec![], "a record")
}

/// Memory or registers of a wrong length, sometimes with a bad record or a budget of 0 too.
fn wrong_length(random: Random) -> Made {
    let mut draft = Draft::new(random, None);
    let row = draft.any_row();
    draft.place_instruction(row);
    let what = draft.random.below(4);
    if what != 0 {
        let bytes = match draft.random.below(4) {
            0 => draft.random.below(8) as usize,
            1 => draft.memory.len() + 1 + draft.random.below(7) as usize,
            2 => draft.memory.len() - 1 - draft.random.below(7) as usize,
            _ => 4 + 8 * draft.random.below(30) as usize,
        };
        if draft.random.once_in(100) {
            draft.memory.resize(65_535, 0);
        } else {
            draft.memory.resize(bytes, 0x5A);
        }
    }
    if what != 1 {
        let count = draft.random.pick(&[0, 1, 128, 255, 257, 512, 256]);
        draft.registers.resize(count, 0x1234);
    }
    if draft.random.once_in(3) {
        draft.record.p += 1;
    }
    draft.finish(vec![], "a wrong length")
}

/// P at the ends of memory and outside; words cut off by the end; codes that are not in the table.
fn fetching(random: Random) -> Made {
    let mut draft = Draft::new(random, None);
    let row = draft.any_row();
    draft.place_instruction(row);
    let end = BASE + 8 * draft.memory.len() as u64;
    match draft.random.below(9) {
        0 => {
            draft.record.p = draft.random.pick(&[0, 0x20, 0x3FE0, 0x3FC0, 0x2000, LOW_48 & !31, LOW_48 & !63]);
        }
        1 => draft.record.p = end + 32 * draft.random.pick(&[0, 0, 1, 2, 1 << 20]),
        2..=5 => {
            // A word, or the left half of one, in the last half word.
            let word = draft.built_word;
            draft.record.p = end - 32;
            draft.poke(end - 32, word, 32);
        }
        6 => {
            let code = draft.random.next();
            let p = draft.record.p;
            draft.poke(p, code, 32);
        }
        7 => {
            let code = draft.random.next();
            draft.record.p = end - 32;
            draft.poke(end - 32, code, 32);
        }
        _ => {
            // The last instruction of memory is whole, and P runs out after it.
            let p = end - row.bits();
            draft.record.p = p;
            let word = draft.built_word;
            draft.poke(p, word, row.bits());
        }
    }
    draft.finish(vec![], "fetching")
}

/// A memory of 65,536 bytes, seldom; else one of a few thousand; with long fields.
fn large(random: Random) -> Made {
    let mut draft = Draft::new(random, Some(0));
    let bytes = match draft.random.below(8) {
        0 => 65_536,
        1 => 65_528,
        _ => 2048,
    };
    draft.fresh(Some(bytes));
    let row = draft.item_row();
    let operands = draft.place_instruction(row);
    if draft.random.once_in(5) {
        draft.plant_any(1, row, &operands);
    }
    draft.finish(vec![], "a large memory")
}
