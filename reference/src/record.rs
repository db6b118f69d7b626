//! The records: four plain numbers for each thread, and what they mean.

use crate::refusal::Refusal;

/// How many entries each thread has.
pub const ROOM: usize = 32;
/// How many repeats a thread may have; one more aborts it.
pub const MOST_REPEATS: u32 = 4;

/// What a thread is about.
#[derive(Clone, Copy, Debug, PartialEq, Eq)]
pub enum Phase {
    Idle = 0,
    Running = 1,
    Validating = 2,
    Copying = 3,
    Aborted = 4,
}

impl Phase {
    pub fn number(self) -> u32 {
        self as u32
    }
}

/// A record as the caller keeps it: any four numbers.
#[derive(Clone, Copy, Debug, Default, PartialEq, Eq)]
pub struct PlainRecord {
    pub phase: u32,
    pub count: u32,
    pub cursor: u32,
    pub repeats: u32,
}

/// What the plain numbers mean. A phase carries only the numbers that the rules do not fix at 0.
#[derive(Clone, Copy, Debug, PartialEq, Eq)]
pub(crate) enum Record {
    Idle,
    Running {
        count: usize,
    },
    Validating {
        count: usize,
        cursor: usize,
        repeats: u32,
    },
    Copying {
        count: usize,
        cursor: usize,
    },
    Aborted,
}

impl From<PlainRecord> for Record {
    fn from(plain: PlainRecord) -> Self {
        let count = (plain.count as usize).min(ROOM);
        let cursor = (plain.cursor as usize).min(count);
        match plain.phase {
            0 => Self::Idle,
            1 => Self::Running { count },
            2 => Self::Validating {
                count,
                cursor,
                repeats: plain.repeats.min(MOST_REPEATS),
            },
            3 => Self::Copying { count, cursor },
            _ => Self::Aborted,
        }
    }
}

impl From<Record> for PlainRecord {
    fn from(record: Record) -> Self {
        let (count, cursor, repeats) = match record {
            Record::Idle | Record::Aborted => (0, 0, 0),
            Record::Running { count } => (count, 0, 0),
            Record::Validating {
                count,
                cursor,
                repeats,
            } => (count, cursor, repeats),
            Record::Copying { count, cursor } => (count, cursor, 0),
        };
        Self {
            phase: record.phase().number(),
            count: count as u32,
            cursor: cursor as u32,
            repeats,
        }
    }
}

impl Record {
    pub fn phase(self) -> Phase {
        match self {
            Self::Idle => Phase::Idle,
            Self::Running { .. } => Phase::Running,
            Self::Validating { .. } => Phase::Validating,
            Self::Copying { .. } => Phase::Copying,
            Self::Aborted => Phase::Aborted,
        }
    }

    pub fn count(self) -> usize {
        match self {
            Self::Idle | Self::Aborted => 0,
            Self::Running { count }
            | Self::Validating { count, .. }
            | Self::Copying { count, .. } => count,
        }
    }

    /// The count of a thread that has to be Running.
    pub fn running(self, thread: u32) -> Result<usize, Refusal> {
        match self {
            Self::Running { count } => Ok(count),
            other => Err(other.unfit(thread)),
        }
    }

    /// What a call says to a thread in a phase that it does not allow.
    pub fn unfit(self, thread: u32) -> Refusal {
        match self.phase() {
            Phase::Aborted => Refusal::Aborted(thread),
            phase => Refusal::Phase(phase),
        }
    }
}

#[cfg(test)]
mod tests {
    use super::*;

    fn plain(phase: u32, count: u32, cursor: u32, repeats: u32) -> PlainRecord {
        PlainRecord {
            phase,
            count,
            cursor,
            repeats,
        }
    }

    #[test]
    fn records_are_read_by_the_limits() {
        let read = |plain| PlainRecord::from(Record::from(plain));
        let most = u32::MAX;
        for (stored, meant) in [
            (plain(0, 5, 6, 7), plain(0, 0, 0, 0)),
            (plain(1, 40, 7, 9), plain(1, 32, 0, 0)),
            (plain(2, 40, 33, 5), plain(2, 32, 32, 4)),
            (plain(2, 6, 7, 4), plain(2, 6, 6, 4)),
            (plain(3, 3, 9, 2), plain(3, 3, 3, 0)),
            (plain(4, 1, 1, 1), plain(4, 0, 0, 0)),
            (plain(9, 40, 7, 9), plain(4, 0, 0, 0)),
            (plain(most, most, most, most), plain(4, 0, 0, 0)),
        ] {
            assert_eq!(read(stored), meant);
        }
    }
}
