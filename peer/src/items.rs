//! The loops over result items. What comes here has passed all checks: every field lies in memory, and
//! the result field shares no bit with a source or control field, or is exactly a word source.

use crate::bits::BitFields;
use crate::vectors::Vector;

/// A checked instruction: how many result items it has, and what makes them.
pub struct Work {
    pub items: usize,
    pub task: Task,
}

pub enum Task {
    Nothing,
    Vector(Vector),
    Bits(BitFields),
    Move(MoveBytes),
}

pub struct MoveBytes {
    pub from: usize,
    pub read: usize,
    pub to: usize,
    pub literal: u8,
}

impl Work {
    /// Works `count` items from item `from` on; gives the flags they set.
    pub fn do_items(&self, memory: &mut [u8], from: usize, count: usize) -> u64 {
        match &self.task {
            Task::Nothing => 0,
            Task::Vector(vector) => vector.do_items(memory, from, count),
            Task::Bits(fields) => {
                fields.do_items(memory, from, count);
                0
            }
            Task::Move(bytes) => {
                bytes.do_items(memory, from, count);
                0
            }
        }
    }
}

impl MoveBytes {
    /// "When A is exhausted the literal byte B (any value) fills."
    fn do_items(&self, memory: &mut [u8], from: usize, count: usize) {
        let end = from + count;
        let copied = end.min(self.read).max(from);
        // An empty source has no place in memory.
        if copied > from {
            memory.copy_within(self.from + from..self.from + copied, self.to + from);
        }
        memory[self.to + copied..self.to + end].fill(self.literal);
    }
}
