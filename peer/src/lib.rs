//! A second reading of paper 01 (01-scope.md), written from the paper alone.
//!
//! | Module | What |
//! |---|---|
//! | `words` | instruction words: the table, refusals 5, 6 and 7 |
//! | `numbers` | truncate, floor, ceiling, contract, shift, 48-bit sums |
//! | `fields` | descriptors, fields in memory, bits at any place |
//! | `checks` | refusals 8 to 11 and what is left to do after them |
//! | `items`, `vectors`, `bits` | the loops over result items |
//! | `machine` | one call: `run` |
//! | `cases`, `draft`, `random` | the cases and how they are made |
//! | `stream`, `coverage`, `report` | their format between programs, the comparison |

pub mod bits;
pub mod cases;
pub mod checks;
pub mod coverage;
pub mod draft;
pub mod fields;
pub mod items;
pub mod machine;
pub mod numbers;
pub mod random;
pub mod report;
pub mod stream;
pub mod vectors;
pub mod words;
