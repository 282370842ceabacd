//! The rules of docs/RULES.md once more in plain Rust, written from the customer's papers. It has a method of its
//! own: nothing is booked. The accepted calls are kept with their days, and each figure is recounted from the calls of the
//! pairs when it is asked for.

pub mod book;
pub mod calls;
pub mod lines;
pub mod mistakes;
pub mod participants;
pub mod reports;
pub mod texts;
