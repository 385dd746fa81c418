//! The program once more, in plain Rust: the same algorithm, frames, rounds and output, with nothing proved.
//!
//! It is what the proved program's speed is measured against, so it is written for speed as far as the algorithm
//! goes: codes are 16-bit numbers, rows stand in a ring by packet number modulo 32, the table is reduced, and bytes
//! are multiplied by tables.

pub mod carried;
pub mod elimination;
pub mod field;
pub mod file;
pub mod frame;
pub mod job;
pub mod link;
pub mod receiver;
pub mod sender;
pub mod source;
