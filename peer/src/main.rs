//! Commands:
//!
//!     peer cases SEED COUNT     writes the cases, each in three cuts, to stdout
//!     peer run                  reads cases from stdin, writes results to stdout
//!     peer compare SEED COUNT   reads results from stdin, runs the same cases, compares
//!
//! `peer cases 1 20000 | PROGRAM | peer compare 1 20000`

use peer::cases::make;
use peer::coverage::Coverage;
use peer::report::difference;
use peer::stream::{Case, Outcome};
use std::io::{self, BufReader, BufWriter, ErrorKind, Read, Write};
use std::process::ExitCode;

fn main() -> ExitCode {
    let arguments: Vec<String> = std::env::args().skip(1).collect();
    let words: Vec<&str> = arguments.iter().map(String::as_str).collect();
    let number = |text: &str| text.parse::<u64>().ok();
    let done = match words[..] {
        ["cases", seed, count] => match (number(seed), number(count)) {
            (Some(seed), Some(count)) => cases(seed, count).map(|()| true),
            _ => return usage(),
        },
        ["compare", seed, count] => match (number(seed), number(count)) {
            (Some(seed), Some(count)) => compare(seed, count),
            _ => return usage(),
        },
        ["run"] => run().map(|()| true),
        _ => return usage(),
    };
    match done {
        Ok(true) => ExitCode::SUCCESS,
        Ok(false) => ExitCode::from(1),
        // The reader went away, and says why.
        Err(error) if error.kind() == ErrorKind::BrokenPipe => ExitCode::from(1),
        Err(error) => {
            eprintln!("peer: {error}");
            ExitCode::from(2)
        }
    }
}

fn usage() -> ExitCode {
    eprintln!("peer cases SEED COUNT | peer run | peer compare SEED COUNT");
    ExitCode::from(2)
}

const BUFFER: usize = 1 << 18;

fn cases(seed: u64, count: u64) -> io::Result<()> {
    let mut out = BufWriter::with_capacity(BUFFER, io::stdout().lock());
    for number in 0..count {
        for case in make(seed, number).cuts() {
            case.write(&mut out)?;
        }
    }
    out.flush()
}

fn run() -> io::Result<()> {
    let mut from = BufReader::with_capacity(BUFFER, io::stdin().lock());
    let mut out = BufWriter::with_capacity(BUFFER, io::stdout().lock());
    while let Some(case) = Case::read(&mut from)? {
        case.run().write(&mut out)?;
    }
    out.flush()
}

/// True if there is no difference and every cell that can occur was reached.
fn compare(seed: u64, count: u64) -> io::Result<bool> {
    let mut from = BufReader::with_capacity(BUFFER, io::stdin().lock());
    let mut coverage = Coverage::default();
    for number in 0..count {
        let made = make(seed, number);
        let mut in_one_call: Option<Outcome> = None;
        for case in made.cuts() {
            let which = format!("case {number} of seed {seed}, part {}", case.part);
            let (bytes, registers) = (case.state.memory.len(), case.state.registers.len());
            let theirs = match Outcome::read(&mut from, bytes, registers) {
                Ok(theirs) => theirs,
                Err(error) => {
                    println!("the results end or break off before {which}: {error}");
                    return Ok(false);
                }
            };
            let ours = case.run();
            if ours != theirs {
                println!("a difference in {which}");
                print!("{}", difference(&case, made.about, &ours, &theirs));
                return Ok(false);
            }
            match &in_one_call {
                None => in_one_call = Some(ours),
                Some(one) if *one != ours => {
                    println!("{which} ends otherwise than one call (shown as other)");
                    print!("{}", difference(&case, made.about, &ours, one));
                    return Ok(false);
                }
                Some(_) => {}
            }
        }
        coverage.count(&made, &in_one_call.unwrap());
        if (number + 1) % 5000 == 0 && number + 1 < count {
            println!("compared {} runs of {} cases so far", 3 * (number + 1), number + 1);
        }
    }
    if from.read(&mut [0])? != 0 {
        println!("there are results after the last case");
        return Ok(false);
    }
    let (table, cells, wrong) = coverage.table();
    print!("{table}");
    for line in &wrong {
        println!("{line}");
    }
    let reached = if wrong.is_empty() {
        format!("all {cells} cells reached")
    } else {
        format!("of {cells} cells {} are wrong", wrong.len())
    };
    println!("compared {} runs of {count} cases: no difference; {reached}", 3 * count);
    Ok(wrong.is_empty())
}
