//! Calls and answers as values, for those that choose calls, make them again or list them.

use std::fmt;

use crate::board::{Board, Stepped};
use crate::refusal::Refusal;
use crate::signature::Signature;

/// A call on an open board, with all that it names.
#[derive(Clone, Copy, Debug, PartialEq, Eq)]
pub enum Call {
    Begin(u32),
    /// The thread and the address.
    Read(u32, u32),
    /// The thread, the address and the word.
    Write(u32, u32, u32),
    Commit(u32),
    Step(u32),
    Abandon(u32),
    /// The address.
    PlainRead(u32),
    /// The address and the word.
    PlainWrite(u32, u32),
}

/// What an accepted call says.
#[derive(Clone, Copy, Debug, PartialEq, Eq)]
pub enum Answer {
    Done,
    Word(u32),
    Stepped(Stepped),
}

impl Call {
    pub fn make<R: Signature, W: Signature>(
        self,
        board: &mut Board<'_, R, W>,
    ) -> Result<Answer, Refusal> {
        let done = |()| Answer::Done;
        match self {
            Self::Begin(thread) => board.begin(thread).map(done),
            Self::Read(thread, address) => board.read(thread, address).map(Answer::Word),
            Self::Write(thread, address, word) => board.write(thread, address, word).map(done),
            Self::Commit(thread) => board.commit(thread).map(done),
            Self::Step(thread) => board.step(thread).map(Answer::Stepped),
            Self::Abandon(thread) => board.abandon(thread).map(done),
            Self::PlainRead(address) => board.plain_read(address).map(Answer::Word),
            Self::PlainWrite(address, word) => board.plain_write(address, word).map(done),
        }
    }
}

/// As in a listing, which says by itself who makes the call: the thread is left out.
impl fmt::Display for Call {
    fn fmt(&self, f: &mut fmt::Formatter<'_>) -> fmt::Result {
        match self {
            Self::Begin(_) => write!(f, "begin"),
            Self::Read(_, address) | Self::PlainRead(address) => write!(f, "read {address}"),
            Self::Write(_, address, word) | Self::PlainWrite(address, word) => {
                write!(f, "write {address} {word}")
            }
            Self::Commit(_) => write!(f, "commit"),
            Self::Step(_) => write!(f, "step"),
            Self::Abandon(_) => write!(f, "abandon"),
        }
    }
}

impl fmt::Display for Answer {
    fn fmt(&self, f: &mut fmt::Formatter<'_>) -> fmt::Result {
        match self {
            Self::Done => write!(f, "ok"),
            Self::Word(word) => write!(f, "= {word}"),
            Self::Stepped(Stepped::Fetched) => write!(f, "fetched"),
            Self::Stepped(Stepped::Repeated(by)) => write!(f, "repeated {by}"),
            Self::Stepped(Stepped::Lost) => write!(f, "lost"),
            Self::Stepped(Stepped::Passed) => write!(f, "passed"),
            Self::Stepped(Stepped::Copied) => write!(f, "copied"),
            Self::Stepped(Stepped::Ended) => write!(f, "ended"),
        }
    }
}

#[cfg(test)]
mod tests {
    use super::*;

    #[test]
    fn answers_are_listed_as_in_the_rules() {
        let listed = [
            (Answer::Done, "ok"),
            (Answer::Word(7), "= 7"),
            (Answer::Stepped(Stepped::Fetched), "fetched"),
            (Answer::Stepped(Stepped::Repeated(3)), "repeated 3"),
            (Answer::Stepped(Stepped::Lost), "lost"),
            (Answer::Stepped(Stepped::Passed), "passed"),
            (Answer::Stepped(Stepped::Copied), "copied"),
            (Answer::Stepped(Stepped::Ended), "ended"),
        ];
        for (answer, text) in listed {
            assert_eq!(answer.to_string(), text);
        }
    }
}
