//! The shift program: two workers and two clerks at one board, each call listed with its answer.

use std::fmt::Display;

use crate::board::{Parts, Stepped};
use crate::call::{Answer, Call};
use crate::refusal::Refusal;
use crate::signature::{Register1024, Register128};

/// The word that counts the pages waiting.
const WAITING: u32 = 0;
/// The word that counts the pages in work, on another line.
const IN_WORK: u32 = 8;
/// The word that says that the morning's scans are in.
const SCANS_IN: u32 = 1;

/// How many pages the scan clerk brings.
const SCANNED: u32 = 5;

/// Who has the turn: a worker by its number, or the scan clerk.
const TURNS: &str = "0000000cc0000000000011c0100c11111111111";

type Outcome = Result<Answer, Refusal>;

/// Runs the program and returns all that it prints.
///
/// The handover clerk cannot go on without its two words, so a refusal there ends the run.
pub fn shift() -> Result<String, Refusal> {
    let mut desk = Desk::new();
    desk.open()?;
    let mut workers = [Worker::new(0, 12), Worker::new(1, 7)];
    let mut clerk = ScanClerk::ReadWaiting;
    for turn in TURNS.chars() {
        match turn {
            '0' => desk.turn(&mut workers[0]),
            '1' => desk.turn(&mut workers[1]),
            _ => desk.turn(&mut clerk),
        }
    }
    let waiting = desk.hand_over(WAITING)?;
    let in_work = desk.hand_over(IN_WORK)?;
    let all = waiting.wrapping_add(in_work);
    desk.line(format_args!(
        "{waiting} waiting and {in_work} in work make {all}"
    ));
    Ok(desk.listing)
}

/// One that takes turns.
trait Player {
    /// Who makes the call.
    fn name(&self) -> String;
    /// The call of its next turn, unless it has made its last.
    fn call(&self) -> Option<Call>;
    /// Takes what the call came to.
    fn hear(&mut self, outcome: Outcome);
}

/// The board and what was listed so far.
struct Desk {
    parts: Parts<Register1024, Register128>,
    listing: String,
}

impl Desk {
    fn new() -> Self {
        let mut parts = Parts::new(24, 2);
        parts.words[WAITING as usize] = 40;
        Self {
            parts,
            listing: String::new(),
        }
    }

    fn turn(&mut self, player: &mut impl Player) {
        if let Some(call) = player.call() {
            let outcome = call.make(&mut self.parts.lend());
            self.list(&format!("{}: {call}", player.name()), outcome);
            player.hear(outcome);
        }
    }

    fn open(&mut self) -> Result<(), Refusal> {
        let opened = self.parts.lend().open();
        self.list("open", opened.map(|()| Answer::Done));
        opened
    }

    fn hand_over(&mut self, address: u32) -> Result<u32, Refusal> {
        let read = self.parts.lend().plain_read(address);
        let call = Call::PlainRead(address);
        self.list(&format!("handover clerk: {call}"), read.map(Answer::Word));
        read
    }

    fn list(&mut self, call: &str, outcome: Outcome) {
        match outcome {
            Ok(answer) => self.line(format_args!("{call}: {answer}")),
            Err(refusal) => self.line(format_args!("{call}: no {}", refusal.number())),
        }
    }

    fn line(&mut self, text: impl Display) {
        self.listing.push_str(&format!("{text}\n"));
    }
}

/// Takes pages from waiting to in work by one transaction.
struct Worker {
    thread: u32,
    pages: u32,
    next: Task,
}

/// The next call of a worker, with what it still needs of what it has read.
#[derive(Clone, Copy)]
enum Task {
    Begin,
    ReadWaiting,
    ReadInWork { waiting: u32 },
    WriteWaiting { waiting: u32, in_work: u32 },
    WriteInWork { in_work: u32 },
    Commit,
    Step,
    Abandon,
    Ended,
}

impl Worker {
    fn new(thread: u32, pages: u32) -> Self {
        Self {
            thread,
            pages,
            next: Task::Begin,
        }
    }
}

impl Player for Worker {
    fn name(&self) -> String {
        format!("worker {}", self.thread)
    }

    fn call(&self) -> Option<Call> {
        let thread = self.thread;
        let call = match self.next {
            Task::Begin => Call::Begin(thread),
            Task::ReadWaiting => Call::Read(thread, WAITING),
            Task::ReadInWork { .. } => Call::Read(thread, IN_WORK),
            Task::WriteWaiting { waiting, .. } => {
                Call::Write(thread, WAITING, waiting.saturating_sub(self.pages))
            }
            Task::WriteInWork { in_work } => {
                Call::Write(thread, IN_WORK, in_work.wrapping_add(self.pages))
            }
            Task::Commit => Call::Commit(thread),
            Task::Step => Call::Step(thread),
            Task::Abandon => Call::Abandon(thread),
            Task::Ended => return None,
        };
        Some(call)
    }

    fn hear(&mut self, outcome: Outcome) {
        self.next = match (self.next, outcome) {
            (_, Err(Refusal::Aborted(_)) | Ok(Answer::Stepped(Stepped::Lost))) => Task::Abandon,
            (_, Ok(Answer::Stepped(Stepped::Ended))) => Task::Ended,
            (Task::Begin, Ok(_)) => Task::ReadWaiting,
            (Task::ReadWaiting, Ok(Answer::Word(waiting))) => Task::ReadInWork { waiting },
            (Task::ReadInWork { waiting }, Ok(Answer::Word(in_work))) => {
                Task::WriteWaiting { waiting, in_work }
            }
            (Task::WriteWaiting { in_work, .. }, Ok(_)) => Task::WriteInWork { in_work },
            (Task::WriteInWork { .. }, Ok(_)) => Task::Commit,
            (Task::Commit, Ok(_)) => Task::Step,
            (Task::Abandon, Ok(_)) => Task::Begin,
            // A refused call is made again, and so is a step before the last.
            (same, _) => same,
        };
    }
}

/// Works without transactions; the case is its next call.
#[derive(Clone, Copy)]
enum ScanClerk {
    ReadWaiting,
    WriteWaiting { waiting: u32 },
    WriteScansIn,
    Done,
}

impl Player for ScanClerk {
    fn name(&self) -> String {
        "scan clerk".into()
    }

    fn call(&self) -> Option<Call> {
        match *self {
            Self::ReadWaiting => Some(Call::PlainRead(WAITING)),
            Self::WriteWaiting { waiting } => {
                Some(Call::PlainWrite(WAITING, waiting.wrapping_add(SCANNED)))
            }
            Self::WriteScansIn => Some(Call::PlainWrite(SCANS_IN, 1)),
            Self::Done => None,
        }
    }

    fn hear(&mut self, outcome: Outcome) {
        *self = match (*self, outcome) {
            (Self::ReadWaiting, Ok(Answer::Word(waiting))) => Self::WriteWaiting { waiting },
            (Self::WriteWaiting { .. }, Ok(_)) => Self::WriteScansIn,
            (Self::WriteScansIn, Ok(_)) => Self::Done,
            (same, _) => same,
        };
    }
}

#[cfg(test)]
mod tests {
    use super::*;

    #[test]
    fn the_whole_listing() {
        let listing = "\
open: ok
worker 0: begin: ok
worker 0: read 0: = 40
worker 0: read 8: = 0
worker 0: write 0 28: ok
worker 0: write 8 12: ok
worker 0: commit: ok
worker 0: step: fetched
scan clerk: read 0: = 40
scan clerk: write 0 45: ok
worker 0: step: no 6
worker 0: abandon: ok
worker 0: begin: ok
worker 0: read 0: = 45
worker 0: read 8: = 0
worker 0: write 0 33: ok
worker 0: write 8 12: ok
worker 0: commit: ok
worker 0: step: fetched
worker 0: step: fetched
worker 0: step: passed
worker 1: begin: ok
worker 1: read 0: no 8
scan clerk: write 1 1: no 8
worker 0: step: copied
worker 1: read 0: no 8
worker 0: step: copied
worker 0: step: ended
scan clerk: write 1 1: ok
worker 1: read 0: = 33
worker 1: read 8: = 12
worker 1: write 0 26: ok
worker 1: write 8 19: ok
worker 1: commit: ok
worker 1: step: fetched
worker 1: step: fetched
worker 1: step: passed
worker 1: step: copied
worker 1: step: copied
worker 1: step: ended
handover clerk: read 0: = 26
handover clerk: read 8: = 19
26 waiting and 19 in work make 45
";
        assert_eq!(shift(), Ok(listing.into()));
    }

    #[test]
    fn a_worker_whose_step_is_lost_starts_again() {
        let mut worker = Worker::new(1, 7);
        worker.next = Task::Step;
        worker.hear(Ok(Answer::Stepped(Stepped::Repeated(0))));
        assert_eq!(worker.call(), Some(Call::Step(1)));
        worker.hear(Ok(Answer::Stepped(Stepped::Lost)));
        assert_eq!(worker.call(), Some(Call::Abandon(1)));
        worker.hear(Ok(Answer::Done));
        assert_eq!(worker.call(), Some(Call::Begin(1)));
    }

    #[test]
    fn no_count_of_pages_falls_below_0() {
        let mut worker = Worker::new(1, 7);
        worker.next = Task::ReadInWork { waiting: 3 };
        worker.hear(Ok(Answer::Word(20)));
        assert_eq!(worker.call(), Some(Call::Write(1, WAITING, 0)));
        worker.hear(Ok(Answer::Done));
        assert_eq!(worker.call(), Some(Call::Write(1, IN_WORK, 27)));
    }
}
