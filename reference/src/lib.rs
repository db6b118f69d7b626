//! The rules of docs/RULES.md in ordinary Rust, to compare other implementations with.

pub mod board;
pub mod call;
pub mod card;
pub mod hash;
pub mod inputs;
mod random;
pub mod record;
pub mod refusal;
#[cfg(test)]
mod serial;
pub mod shift;
pub mod signature;

pub use board::{Board, Entry, Parts, Stepped};
pub use call::{Answer, Call};
pub use card::punch;
pub use record::{Phase, PlainRecord};
pub use refusal::Refusal;
pub use shift::shift;
pub use signature::{Both, Coarse, List, Register, Register1024, Register128, Signature};
