//! A case and its results in readable form. All numbers of a word are hex.

use crate::fields::BASE;
use crate::machine::Record;
use crate::stream::{Case, Outcome, State};
use crate::words::listed;
use std::fmt::Write;

/// The case, both outcomes, and where they differ.
pub fn difference(case: &Case, about: &str, ours: &Outcome, theirs: &Outcome) -> String {
    let mut text = String::new();
    let state = &case.state;
    writeln!(text, "about    {about}").unwrap();
    writeln!(text, "budget   {} in parts of {} (0: one call)", case.budget, case.part).unwrap();
    writeln!(text, "record   {}", record(&state.record)).unwrap();
    if let Some(word) = word_at(state, state.record.p) {
        writeln!(text, "at P     {}", instruction(word)).unwrap();
    }
    if state.record.mark == 1 {
        writeln!(text, "held     {}", instruction(state.record.word)).unwrap();
    }
    writeln!(text, "registers {} (those that are not zero)", state.registers.len()).unwrap();
    let mut line = 0;
    for (i, &register) in state.registers.iter().enumerate() {
        if register != 0 {
            let end = if line % 4 == 3 { "\n" } else { "" };
            write!(text, "  {i:02X} {:04X} {:012X}{end}", register >> 48, register << 16 >> 16).unwrap();
            line += 1;
        }
    }
    if line % 4 != 0 {
        writeln!(text).unwrap();
    }
    writeln!(text, "memory   {} bytes", state.memory.len()).unwrap();
    let mut lines = 0;
    for (i, eight) in state.memory.chunks(8).enumerate() {
        if eight.iter().any(|&byte| byte != 0) && lines < 300 {
            writeln!(text, "  {:05X} {}", BASE + 64 * i as u64, hex(eight)).unwrap();
            lines += 1;
        }
    }
    for (who, outcome) in [("peer", ours), ("other", theirs)] {
        writeln!(text, "{who:8} answer {} steps {} {}", outcome.answer, outcome.steps, record(&outcome.state.record))
            .unwrap();
    }
    for (i, (a, b)) in ours.state.registers.iter().zip(&theirs.state.registers).enumerate() {
        if a != b {
            writeln!(text, "register {i:02X}: peer {a:016X}, other {b:016X}").unwrap();
        }
    }
    let pairs = ours.state.memory.chunks(8).zip(theirs.state.memory.chunks(8));
    for (i, (a, b)) in pairs.enumerate().filter(|(_, (a, b))| a != b).take(40) {
        writeln!(text, "memory {:05X}: peer {}, other {}", BASE + 64 * i as u64, hex(a), hex(b)).unwrap();
    }
    text
}

fn record(record: &Record) -> String {
    let Record { p, mark, word, items, flags } = record;
    format!("P {p:X} mark {mark:X} word {word:016X} items {items} flags {flags:X}")
}

/// The 64 bits at an address, zeros past the end; none if it is not in memory.
fn word_at(state: &State, address: u64) -> Option<u64> {
    let at = usize::try_from(address.checked_sub(BASE)? / 8).ok()?;
    let rest = state.memory.get(at..)?;
    let mut eight = [0; 8];
    let n = rest.len().min(8);
    eight[..n].copy_from_slice(&rest[..n]);
    (n > 0).then(|| u64::from_be_bytes(eight))
}

fn instruction(word: u64) -> String {
    let bytes = word.to_be_bytes();
    match listed(bytes[0]) {
        None => format!("{word:016X} (not in the table)"),
        Some(row) => {
            let letters = if row.long { "GXAYBZC" } else { "RST" };
            let mut text = format!("{:02X} {}:", row.code, row.name);
            for (letter, byte) in letters.chars().zip(&bytes[1..]) {
                write!(text, " {letter} {byte:02X}").unwrap();
            }
            text
        }
    }
}

fn hex(bytes: &[u8]) -> String {
    bytes.iter().map(|byte| format!("{byte:02X}")).collect()
}
