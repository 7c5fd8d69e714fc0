//! A second implementation of the gate, in plain Rust, written from document 01 (the scope paper)
//! alone; it follows the requests that came later (02) and shares no code with the gate. It is kept
//! naive so that it can be read beside `docs/SPECIFICATION.md`: a number such as 4.17 in a comment is
//! a clause there.

pub mod answers;
pub mod book;
pub mod calls;
pub mod codes;
pub mod coverage;
pub mod demand3;
pub mod events;
pub mod generate;
pub mod hand_backs;
pub mod icr;
pub mod ipi;
pub mod lines;
pub mod machine_checks;
pub mod merging;
pub mod odd_lines;
pub mod outcomes;
pub mod page;
pub mod play;
pub mod print;
pub mod questions;
pub mod random;
pub mod registers;
pub mod set;
pub mod state;
pub mod sums;
pub mod sums_check;
pub mod sums_print;
pub mod trace;
pub mod twin;
pub mod unreadable;
pub mod value_lists;
