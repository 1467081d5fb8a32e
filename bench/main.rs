//! The proved call and the peer in one process, turn about, on the same jobs: the medians' ratio for each, uncut and cut.
//! Writes the table, the targets and a picture as SVG.
use std::time::Instant;

mod jobs;
mod report;

use jobs::Job;
use peer::machine::Record;

extern "C" {
    fn rawgunshet_run(memory: *mut u8, bytes: usize, registers: *mut u64, count: usize, record: *mut Record, budget: u32) -> u64;
}

/// One call, of the proved runner or of the peer: the answer and the steps.
type Call = fn(&mut [u8], &mut [u64], &mut Record, u32) -> (u32, u32);

fn proved(memory: &mut [u8], registers: &mut [u64], record: &mut Record, budget: u32) -> (u32, u32) {
    // SAFETY: the lengths are those of the slices, which do not overlap each other or the record.
    let r = unsafe { rawgunshet_run(memory.as_mut_ptr(), memory.len(), registers.as_mut_ptr(), registers.len(), record, budget) };
    ((r >> 32) as u32, r as u32)
}

/// A job's state.
#[derive(Clone, PartialEq)]
struct State {
    memory: Vec<u8>,
    registers: Vec<u64>,
    record: Record,
}

/// Runs a job to its end in calls of at most `part` steps; the time in nanoseconds, the steps and the last answer.
fn to_its_end(call: Call, state: &mut State, part: u32) -> (f64, u64, u32) {
    let start = Instant::now();
    let mut steps = 0;
    loop {
        let (answer, done) = call(&mut state.memory, &mut state.registers, &mut state.record, part);
        steps += u64::from(done);
        if answer != 0 {
            return (start.elapsed().as_nanos() as f64, steps, answer);
        }
    }
}

fn median(times: &mut [f64]) -> f64 {
    times.sort_by(f64::total_cmp);
    times[times.len() / 2]
}

/// The medians of both on a job, turn about, each from the same start; the ends have to be the same.
fn measure(job: &Job, part: u32, rounds: usize) -> (f64, f64, u64) {
    let start = State { memory: job.memory.clone(), registers: job.registers.clone(), record: job.record };
    let mut ours = Vec::new();
    let mut theirs = Vec::new();
    let mut steps = 0;
    for _ in 0..rounds {
        let mut a = start.clone();
        let mut b = start.clone();
        let (time, done, answer) = to_its_end(proved, &mut a, part);
        ours.push(time);
        let (time, peer_done, peer_answer) = to_its_end(peer::machine::run, &mut b, part);
        theirs.push(time);
        assert!(a == b && done == peer_done && answer == peer_answer, "{}: the two ends differ", job.name);
        assert!(answer == 1, "{}: answer {answer}", job.name);
        steps = done;
    }
    (median(&mut ours), median(&mut theirs), steps)
}

pub fn main() {
    let rounds = 31;
    let mut rows = Vec::new();
    for job in jobs::all() {
        for (cut, part, rounds) in [("uncut", u32::MAX, rounds), ("by 1,000", 1_000, rounds), ("by 1", 1, rounds.min(11))] {
            let (ours, theirs, steps) = measure(&job, part, rounds);
            rows.push(report::Row { name: job.name, kind: job.kind, cut, steps, ours, theirs });
        }
    }
    print!("{}{}", report::text(&rows), report::picture(&rows));
}
