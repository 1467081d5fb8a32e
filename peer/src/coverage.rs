//! Which codes met which answers, and which of these cells can occur at all.

use crate::cases::Made;
use crate::fields::BASE;
use crate::stream::{Outcome, State};
use crate::words::{listed, Kind, Row, TABLE};
use std::fmt::Write;

/// Rows: the 38 codes in the order of the table, then "no instruction".
const ROWS: usize = TABLE.len() + 1;
const NONE: usize = TABLE.len();
const ANSWERS: usize = 12;

/// One line for each answer: the rows it can come with, and why these.
struct Rule {
    answer: usize,
    code: fn(&Row) -> bool,
    none: bool,
    why: &'static str,
}

const RULES: [Rule; ANSWERS] = [
    Rule {
        answer: 0,
        code: |row| row.kind != Kind::Exit,
        none: true,
        why: "row: the instruction that took the last step; exit takes none. No instruction: budget 0",
    },
    Rule { answer: 1, code: |row| row.kind == Kind::Exit, none: false, why: "09 is at P" },
    Rule { answer: 2, code: |_| false, none: true, why: "lengths are judged before any instruction" },
    Rule {
        answer: 3,
        code: |_| true,
        none: true,
        why: "row: the held word's code; a scalar one is never half done. No instruction: not marked 1, \
              or a held code that is not listed",
    },
    Rule {
        answer: 4,
        code: |row| row.long,
        none: true,
        why: "row: a listed 64-bit code whose right half is not in memory. No instruction: nothing at P",
    },
    Rule { answer: 5, code: |_| false, none: true, why: "the function is none of the 38" },
    Rule {
        answer: 6,
        // In a 32-bit word of formats 4 and 7 all bits are function or designators.
        code: |row| row.long || row.zero >> 32 != 0,
        none: false,
        why: "codes with bits that are to be zero: 09, format A, vectors, B0-B5, F8",
    },
    Rule {
        answer: 7,
        code: |row| row.named != 0,
        none: false,
        why: "every code but 09 has a designator where 00 has no meaning",
    },
    Rule {
        answer: 8,
        code: |row| matches!(row.kind, Kind::Memory | Kind::Branch | Kind::Vector | Kind::Move),
        none: false,
        why: "bytes, words, half words and taken targets are aligned; bits are not, registers neither",
    },
    Rule { answer: 9, code: |row| row.kind == Kind::Vector, none: false, why: "vector sources alone" },
    Rule {
        answer: 10,
        code: |row| matches!(row.kind, Kind::Memory) || row.has_items(),
        none: false,
        why: "codes that read or write memory; a taken target outside is refused 4 afterwards",
    },
    Rule { answer: 11, code: |row| row.has_items(), none: false, why: "codes with a result field and source fields" },
];

/// Whether a row of the table of instructions (38: no instruction) can come with an answer.
pub fn can_occur(row: usize, answer: usize) -> bool {
    let rule = &RULES[answer];
    if row == NONE {
        rule.none
    } else {
        (rule.code)(&TABLE[row])
    }
}

pub struct Coverage {
    counts: [[u64; ANSWERS]; ROWS],
    /// Planted pairs: the smaller was answered.
    pairs: [[u64; ANSWERS]; ANSWERS],
    /// The instruction that was next at the beginning took a step.
    worked: [u64; ROWS],
    /// For each row: ended half done; went on from a half-done record; the latter with another word at P.
    halves: [[u64; 3]; ROWS],
}

impl Default for Coverage {
    fn default() -> Self {
        Coverage {
            counts: [[0; ANSWERS]; ROWS],
            pairs: [[0; ANSWERS]; ANSWERS],
            worked: [0; ROWS],
            halves: [[0; 3]; ROWS],
        }
    }
}

fn row_of(code: u8) -> usize {
    TABLE.iter().position(|row| row.code == code).unwrap_or(NONE)
}

/// The first byte at P, if it is in memory.
fn code_at(state: &State) -> Option<u8> {
    let at = state.record.p.checked_sub(BASE)? / 8;
    state.memory.get(usize::try_from(at).ok()?).copied()
}

/// The code that is held or at P.
fn code_next(state: &State) -> Option<u8> {
    if state.record.mark == 1 {
        Some((state.record.word >> 56) as u8)
    } else {
        code_at(state)
    }
}

/// Whether memory at P is still the held word.
fn word_kept(state: &State) -> bool {
    let Some(row) = listed((state.record.word >> 56) as u8) else {
        return true;
    };
    let at = (state.record.p - BASE) as usize / 8;
    let bytes = row.bits() as usize / 8;
    state.memory[at..at + bytes] == state.record.word.to_be_bytes()[..bytes]
}

impl Coverage {
    /// Counts a case by its outcome in one call.
    pub fn count(&mut self, made: &Made, outcome: &Outcome) {
        let answer = outcome.answer as usize;
        let row = match answer {
            0 if made.budget == 0 => None,
            0 => {
                // What is next one step before the end has taken the last step.
                let mut before = made.cuts()[0].clone();
                before.budget -= 1;
                code_next(&before.run().state)
            }
            2 => None,
            3 if made.state.record.mark == 1 => code_next(&made.state),
            3 => None,
            _ => code_at(&outcome.state),
        };
        let row = row.map_or(NONE, row_of);
        if let Some(count) = self.counts[row].get_mut(answer) {
            *count += 1;
        }
        if outcome.steps > 0 {
            self.worked[code_next(&made.state).map_or(NONE, row_of)] += 1;
        }
        if let [first, second] = made.planted[..] {
            if outcome.answer == first as u64 {
                self.pairs[first as usize][second as usize] += 1;
            }
        }
        if answer != 2 && answer != 3 {
            if outcome.state.record.mark == 1 {
                self.halves[row_of((outcome.state.record.word >> 56) as u8)][0] += 1;
            }
            if made.state.record.mark == 1 && made.budget > 0 {
                let row = row_of((made.state.record.word >> 56) as u8);
                self.halves[row][1] += 1;
                if !word_kept(&made.state) {
                    self.halves[row][2] += 1;
                }
            }
        }
    }

    /// The table in words, how many cells can occur, and what is missing or should not be there.
    pub fn table(&self) -> (String, usize, Vec<String>) {
        let mut text = String::new();
        let mut cells = 0;
        let mut wrong = vec![];
        writeln!(text, "Cases by code and answer; - is a cell that cannot occur:").unwrap();
        write!(text, "{:30}", "").unwrap();
        for answer in 0..ANSWERS {
            write!(text, "{answer:>6}").unwrap();
        }
        writeln!(text, "   worked first").unwrap();
        for row in 0..ROWS {
            let name = name(row);
            write!(text, "{name:30}").unwrap();
            for answer in 0..ANSWERS {
                let count = self.counts[row][answer];
                match (can_occur(row, answer), count) {
                    (true, 0) => wrong.push(format!("not reached: {name} with answer {answer}")),
                    (false, 1..) => wrong.push(format!("cannot occur: {name} with answer {answer}")),
                    _ => {}
                }
                cells += can_occur(row, answer) as usize;
                if can_occur(row, answer) || count > 0 {
                    write!(text, "{count:>6}").unwrap();
                } else {
                    write!(text, "{:>6}", "-").unwrap();
                }
            }
            if can_occur(row, 0) && row != NONE {
                writeln!(text, "{:>15}", self.worked[row]).unwrap();
                cells += 1;
                if self.worked[row] == 0 {
                    wrong.push(format!("not reached: {name} as the first to take a step"));
                }
            } else {
                writeln!(text, "{:>15}", "-").unwrap();
            }
        }
        writeln!(text, "What can occur:").unwrap();
        for rule in &RULES {
            writeln!(text, "  {:>2}: {}", rule.answer, rule.why).unwrap();
        }
        writeln!(text, "Half done: left so by the run; taken up from a record; of these, another word at P:").unwrap();
        for row in (0..ROWS - 1).filter(|&row| TABLE[row].has_items()) {
            let [left, taken, other] = self.halves[row];
            cells += 3;
            let name = name(row);
            writeln!(text, "{name:30}{left:>6}{taken:>6}{other:>6}").unwrap();
            for (count, what) in [(left, "left"), (taken, "taken up"), (other, "taken up with another word at P")] {
                if count == 0 {
                    wrong.push(format!("not reached: {name} {what} half done"));
                }
            }
        }
        writeln!(text, "Two refusals put into one word, the smaller number answered:").unwrap();
        for first in 5..ANSWERS {
            for second in first + 1..ANSWERS {
                write!(text, "{:>12}", format!("{first},{second}: {}", self.pairs[first][second])).unwrap();
                cells += 1;
                if self.pairs[first][second] == 0 {
                    wrong.push(format!("not reached: refusals {first} and {second} in one word"));
                }
            }
            writeln!(text).unwrap();
        }
        text.truncate(text.trim_end().len());
        text.push('\n');
        (text, cells, wrong)
    }
}

fn name(row: usize) -> String {
    match TABLE.get(row) {
        Some(row) => format!("{:02X} {}", row.code, row.name),
        None => "no instruction".into(),
    }
}
