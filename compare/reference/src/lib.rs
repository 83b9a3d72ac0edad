//! The twelve calls of the library in plain Rust: those of the scope paper, with the feeding windows of request R-1, the day
//! lengths of request R-4, the rows of request R-5, the suppliers of request R-6, the ranges of request R-9, the 48 choices of
//! request R-10 and the factor of request R-11; the search of request R-3; the supplier's listing of request R-7; and the costliest
//! register of request R-12. Written from the paper, the requests and the readings of their open points, not from the code or the
//! definitions of this repository. Nothing here is proved; it is what the proved library is compared with.
//!
//! Each part has a module that reads it. All arithmetic is in i64, which holds every number that accepted bytes can lead to;
//! built with overflow checks, a step that left it would stop the program.

pub mod builder;
pub mod calls;
pub mod certificate;
pub mod costliest;
pub mod plain;
pub mod plan;
pub mod register;
pub mod scheme;
pub mod search;
pub mod table;
pub mod wire;

pub use calls::*;
