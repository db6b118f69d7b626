//! When the board says no.

use std::error::Error;
use std::fmt;

use crate::record::Phase;

/// Why a call was not made; in the order of the rules, where the upper one wins.
#[derive(Clone, Copy, Debug, PartialEq, Eq)]
pub enum Refusal {
    /// A part has another length than the rules state.
    Length,
    /// The board has no such thread.
    Thread(u32),
    /// A counted entry of this thread has an address that the board does not have.
    Entry(u32),
    /// The board has no such address.
    Address(u32),
    /// The thread is in this phase, which the call does not allow.
    Phase(Phase),
    /// This thread is Aborted.
    Aborted(u32),
    /// This thread has no entry left for one more address.
    Full(u32),
    /// This thread nacked the request.
    Nacked(u32),
}

impl Refusal {
    pub fn number(self) -> u32 {
        match self {
            Self::Length => 1,
            Self::Thread(_) => 2,
            Self::Entry(_) => 3,
            Self::Address(_) => 4,
            Self::Phase(_) => 5,
            Self::Aborted(_) => 6,
            Self::Full(_) => 7,
            Self::Nacked(_) => 8,
        }
    }

    /// The number that comes with the refusal.
    pub fn value(self) -> Option<u32> {
        match self {
            Self::Length => None,
            Self::Phase(phase) => Some(phase.number()),
            Self::Thread(value)
            | Self::Entry(value)
            | Self::Address(value)
            | Self::Aborted(value)
            | Self::Full(value)
            | Self::Nacked(value) => Some(value),
        }
    }
}

impl fmt::Display for Refusal {
    fn fmt(&self, f: &mut fmt::Formatter<'_>) -> fmt::Result {
        match self {
            Self::Length => write!(f, "a part has another length than stated"),
            Self::Thread(thread) => write!(f, "there is no thread {thread}"),
            Self::Entry(thread) => write!(f, "an entry of thread {thread} is beyond memory"),
            Self::Address(address) => write!(f, "there is no address {address}"),
            Self::Phase(phase) => write!(f, "the thread is {phase:?}"),
            Self::Aborted(thread) => write!(f, "thread {thread} is Aborted"),
            Self::Full(thread) => write!(f, "thread {thread} has no entry left"),
            Self::Nacked(thread) => write!(f, "thread {thread} nacked the request"),
        }
    }
}

impl Error for Refusal {}

#[cfg(test)]
mod tests {
    use super::*;

    #[test]
    fn refusals_have_the_numbers_and_values_of_the_rules() {
        let rows = [
            (Refusal::Length, 1, None),
            (Refusal::Thread(70), 2, Some(70)),
            (Refusal::Entry(3), 3, Some(3)),
            (Refusal::Address(99), 4, Some(99)),
            (Refusal::Phase(Phase::Copying), 5, Some(3)),
            (Refusal::Aborted(2), 6, Some(2)),
            (Refusal::Full(1), 7, Some(1)),
            (Refusal::Nacked(4), 8, Some(4)),
        ];
        for (refusal, number, value) in rows {
            assert_eq!((refusal.number(), refusal.value()), (number, value));
        }
    }
}
