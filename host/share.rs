// A host that shares its time: five jobs in turn, three steps each, until each has ended. After each turn it writes the record, all five fields of it.
// share.c is the same host in C.

const BUDGET: u32 = 3;

// Where a job stands between two calls, as include/rawgunshet.h has it.
#[repr(C)]
#[derive(Default)]
struct Record {
    p: u64,
    mark: u64,
    word: u64,
    items: u64,
    flags: u64,
}

// The archive has the five numbers in this order, 8 bytes each. The compiler checks that the record is the same.
const _: () = {
    // SAFETY: five numbers of 64 bits are a record of 40 bytes, or this does not compile; every pattern of bits is a number.
    let Record { p, mark, word, items, flags } = unsafe { std::mem::transmute::<[u64; 5], Record>([0, 1, 2, 3, 4]) };
    assert!(p == 0 && mark == 1 && word == 2 && items == 3 && flags == 4);
};

extern "C" {
    fn rawgunshet_run(memory: *mut u8, bytes: usize, registers: *mut u64, count: usize, record: *mut Record, budget: u32) -> u64;
}

// The answer's number and the steps of a run of at most `budget` steps.
fn run(memory: &mut [u8], registers: &mut [u64], record: &mut Record, budget: u32) -> (u32, u32) {
    // SAFETY: a slice has its true length; three exclusive references are aligned and written, do not overlap, and nothing else reaches them.
    let result = unsafe { rawgunshet_run(memory.as_mut_ptr(), memory.len(), registers.as_mut_ptr(), registers.len(), record, budget) };
    ((result >> 32) as u32, result as u32)
}

const WORDS: [&str; 12] = [
    "all the budget is used",
    "exit",
    "memory length wrong, or not 256 registers",
    "record impossible",
    "word at P not in memory",
    "function not in the table",
    "a bit that is to be zero isn't",
    "designator 00 where no meaning is given",
    "misaligned",
    "vector source shorter than C",
    "an address or field not wholly in memory",
    "result field shares a bit with a source or control field",
];

struct Job {
    name: &'static str,
    memory: [u8; 128],
    registers: [u64; 256],
    record: Record,
    ended: bool,
}

impl Job {
    fn new(name: &'static str) -> Job {
        let record = Record { p: 0x4000, ..Record::default() };
        Job { name, memory: [0; 128], registers: [0; 256], record, ended: false }
    }

    // Word k of memory, at bit address 0x4000 + 64 * k: its left byte comes first.
    fn put(&mut self, k: usize, word: u64) {
        self.memory[8 * k..8 * k + 8].copy_from_slice(&word.to_be_bytes());
    }

    fn get(&self, k: usize) -> u64 {
        self.memory[8 * k..8 * k + 8].iter().fold(0, |word, byte| word << 8 | u64::from(*byte))
    }

    // One turn of a job.
    fn turn(&mut self, turn: u32) {
        let (answer, steps) = run(&mut self.memory, &mut self.registers, &mut self.record, BUDGET);
        let Record { p, mark, word, items, flags } = self.record;
        let (name, words) = (self.name, WORDS[answer as usize]);
        print!("turn {turn}, {name}: answer {answer} ({words}), steps {steps}; ");
        println!("p {p:X}, mark {mark}, word {word:X}, items {items}, flags {flags:X}");
        self.ended = answer != 0;
    }

    fn show_storage(&self) {
        print!("{}: storage", self.name);
        for k in 0..7 {
            print!(" {}", self.get(9 + k));
        }
        println!();
    }
}

// A vector add of seven words, then exit: the inflow at 4080 is added to the storage at 4240, in place.
fn reservoir(name: &'static str) -> Job {
    let mut job = Job::new(name);
    job.put(0, 0x8300_0010_0011_0011);
    job.put(1, 0x0900_0000_0000_0000);
    for k in 0..7 {
        job.put(2 + k, k as u64 + 1);
        job.put(9 + k, 100 * (k as u64 + 1));
    }
    job.registers[0x10] = 0x0007_0000_0000_4080;
    job.registers[0x11] = 0x0007_0000_0000_4240;
    job
}

// Register 20 grows by the count in 21; the count falls by one and branches back to 4000 unless it is zero; then exit.
fn counting() -> Job {
    let mut job = Job::new("loop");
    job.put(0, 0x6320_2120_B100_2221);
    job.put(1, 0x0023_0021_0900_0000);
    job.registers[0x21] = 4;
    job.registers[0x22] = 0x0000_FFFF_FFFF_FFFF;
    job.registers[0x23] = 0x4000;
    job
}

// A vector transmits four words over itself: a zero on its own word, then a load of a word at 4108, which is refused.
fn own_word() -> Job {
    let mut job = Job::new("own word");
    job.put(0, 0x9800_0010_0000_0011);
    job.put(5, 0x7E12_1314_0900_0000);
    job.registers[0x10] = 0x0004_0000_0000_4100;
    job.registers[0x11] = 0x0004_0000_0000_4000;
    job.registers[0x12] = 0x4108;
    job
}

// A vector contracts five words to half words, rounded, then exit: the second is too large (flags 42 and 46), the fourth too small (43).
fn trace() -> Job {
    let mut job = Job::new("trace");
    job.put(0, 0x9700_0010_0000_0011);
    job.put(1, 0x0900_0000_0000_0000);
    job.put(2, 0x0000_0000_0080_0000);
    job.put(3, 0x0057_7FFF_FFFF_FFFF);
    job.put(4, 0x0000_7FFF_FFFF_FFFF);
    job.put(5, 0xFF77_7FFF_FFFF_FFFF);
    job.put(6, 0x0000_FFFF_FF80_0000);
    job.registers[0x10] = 0x0005_0000_0000_4080;
    job.registers[0x11] = 0x0005_0000_0000_41C0;
    job
}

// The reservoir as a host kept it, two of its seven items added: the record says so, and that flag 46 was set before.
fn kept() -> Job {
    let mut job = reservoir("kept");
    job.put(9, 101);
    job.put(10, 202);
    job.record = Record { p: 0x4000, mark: 1, word: 0x8300_0010_0011_0011, items: 2, flags: 1 << 17 };
    job
}

pub fn main() {
    let mut jobs = [reservoir("reservoir"), counting(), own_word(), trace(), kept()];
    let mut turn = 1;
    while jobs.iter().any(|job| !job.ended) {
        for job in jobs.iter_mut().filter(|job| !job.ended) {
            job.turn(turn);
        }
        turn += 1;
    }

    let [reservoir, counting, own_word, trace, kept] = &jobs;
    reservoir.show_storage();
    println!("loop: sum {}, count {}", counting.registers[0x20], counting.registers[0x21]);
    println!("own word: {:016X} at 4000", own_word.get(0));
    println!("trace: {:016X} {:016X} {:016X} at 41C0", trace.get(7), trace.get(8), trace.get(9));
    kept.show_storage();
}
