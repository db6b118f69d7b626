//! The word board: words in memory, and threads that change them by transactions.

use std::iter;

use crate::record::{PlainRecord, Record, MOST_REPEATS, ROOM};
use crate::refusal::Refusal;
use crate::signature::Signature;

/// How many words make a line.
pub const LINE: usize = 8;
/// How many words a board may have.
pub const MOST_WORDS: usize = 65_536;
/// How many threads a board may have.
pub const MOST_THREADS: usize = 16;

/// A buffered word, when it is among the counted ones of its thread.
#[derive(Clone, Copy, Debug, Default, PartialEq, Eq)]
pub struct Entry {
    pub address: u32,
    pub word: u32,
}

/// What a step did.
#[derive(Clone, Copy, Debug, PartialEq, Eq)]
pub enum Stepped {
    Fetched,
    /// This thread nacked the request, and the fetching starts again.
    Repeated(u32),
    Lost,
    Passed,
    Copied,
    Ended,
}

impl Stepped {
    pub fn number(self) -> u32 {
        match self {
            Self::Fetched => 1,
            Self::Repeated(_) => 2,
            Self::Lost => 3,
            Self::Passed => 4,
            Self::Copied => 5,
            Self::Ended => 6,
        }
    }
}

/// How a request wants its line.
#[derive(Clone, Copy, PartialEq, Eq)]
enum Access {
    Shared,
    Exclusive,
}

/// The thread that nacked a request: a refusal for most calls, an answer for a step.
struct Nack(u32);

impl From<Nack> for Refusal {
    fn from(Nack(by): Nack) -> Self {
        Self::Nacked(by)
    }
}

/// The line of an address that the board has, so that 16 bits hold it.
fn line(address: u32) -> u16 {
    (address / LINE as u32) as u16
}

/// The parts of a board, owned.
#[derive(Clone, Debug, PartialEq, Eq)]
pub struct Parts<R, W> {
    pub words: Vec<u32>,
    pub records: Vec<PlainRecord>,
    pub entries: Vec<Entry>,
    pub reads: Vec<R>,
    pub writes: Vec<W>,
}

impl<R: Default, W: Default> Parts<R, W> {
    /// Zeros and empty signatures; whether the lengths are allowed is for the calls to say.
    pub fn new(words: usize, threads: usize) -> Self {
        Self {
            words: vec![0; words],
            records: vec![PlainRecord::default(); threads],
            entries: vec![Entry::default(); threads * ROOM],
            reads: iter::repeat_with(R::default).take(threads).collect(),
            writes: iter::repeat_with(W::default).take(threads).collect(),
        }
    }
}

impl<R, W> Parts<R, W> {
    pub fn lend(&mut self) -> Board<'_, R, W> {
        Board {
            words: &mut self.words,
            records: &mut self.records,
            entries: &mut self.entries,
            reads: &mut self.reads,
            writes: &mut self.writes,
        }
    }
}

/// A board over lent parts. They may hold anything and have any length, so each call checks them.
pub struct Board<'a, R, W> {
    pub words: &'a mut [u32],
    pub records: &'a mut [PlainRecord],
    pub entries: &'a mut [Entry],
    pub reads: &'a mut [R],
    pub writes: &'a mut [W],
}

impl<R: Signature, W: Signature> Board<'_, R, W> {
    /// Sets every thread Idle; words and entries stay.
    pub fn open(&mut self) -> Result<(), Refusal> {
        self.check_lengths()?;
        self.records.fill(Record::Idle.into());
        self.reads.iter_mut().for_each(R::reset);
        self.writes.iter_mut().for_each(W::reset);
        Ok(())
    }

    /// Starts a transaction.
    pub fn begin(&mut self, thread: u32) -> Result<(), Refusal> {
        let (t, record) = self.thread(thread)?;
        match record {
            Record::Idle => {
                self.store(t, Record::Running { count: 0 });
                self.reset(t);
                Ok(())
            }
            other => Err(other.unfit(thread)),
        }
    }

    /// Answers the word that the thread has buffered for the address, or else the one in memory.
    pub fn read(&mut self, thread: u32, address: u32) -> Result<u32, Refusal> {
        let (t, record) = self.thread(thread)?;
        self.check_address(address)?;
        let count = record.running(thread)?;
        if let Some(held) = self.held(t, count, address) {
            return Ok(self.counted(t, count)[held].word);
        }
        self.request(Some(t), Access::Shared, line(address))?;
        self.reads[t].insert(line(address));
        Ok(self.words[address as usize])
    }

    /// Buffers a word; memory takes it when the transaction has passed.
    pub fn write(&mut self, thread: u32, address: u32, word: u32) -> Result<(), Refusal> {
        let (t, record) = self.thread(thread)?;
        self.check_address(address)?;
        let count = record.running(thread)?;
        let place = match self.held(t, count, address) {
            Some(held) => held,
            None if count == ROOM => return Err(Refusal::Full(thread)),
            None => count,
        };
        let count = count.max(place + 1);
        self.store(t, Record::Running { count });
        self.entries[t * ROOM + place] = Entry { address, word };
        self.writes[t].insert(line(address));
        Ok(())
    }

    /// Ends the reading and writing; steps do the rest.
    pub fn commit(&mut self, thread: u32) -> Result<(), Refusal> {
        let (t, record) = self.thread(thread)?;
        let count = record.running(thread)?;
        let validating = Record::Validating {
            count,
            cursor: 0,
            repeats: 0,
        };
        self.store(t, validating);
        Ok(())
    }

    /// Takes the next step of a commit.
    pub fn step(&mut self, thread: u32) -> Result<Stepped, Refusal> {
        let (t, record) = self.thread(thread)?;
        let stepped = match record {
            Record::Validating {
                count,
                cursor,
                repeats,
            } if cursor < count => self.fetch(t, count, cursor, repeats),
            Record::Validating { count, .. } => {
                self.reads[t].reset();
                self.store(t, Record::Copying { count, cursor: 0 });
                Stepped::Passed
            }
            Record::Copying { count, cursor } if cursor < count => {
                let Entry { address, word } = self.counted(t, count)[cursor];
                self.words[address as usize] = word;
                let cursor = cursor + 1;
                self.store(t, Record::Copying { count, cursor });
                Stepped::Copied
            }
            Record::Copying { .. } => {
                self.writes[t].reset();
                self.store(t, Record::Idle);
                Stepped::Ended
            }
            other => return Err(other.unfit(thread)),
        };
        Ok(stepped)
    }

    /// Gives a transaction up that has not passed.
    pub fn abandon(&mut self, thread: u32) -> Result<(), Refusal> {
        let (t, record) = self.thread(thread)?;
        match record {
            Record::Running { .. } | Record::Validating { .. } | Record::Aborted => {
                self.store(t, Record::Idle);
                self.reset(t);
                Ok(())
            }
            Record::Idle | Record::Copying { .. } => Err(record.unfit(thread)),
        }
    }

    /// Reads outside of any transaction.
    pub fn plain_read(&mut self, address: u32) -> Result<u32, Refusal> {
        self.check_lengths()?;
        self.check_address(address)?;
        self.request(None, Access::Shared, line(address))?;
        Ok(self.words[address as usize])
    }

    /// Writes outside of any transaction.
    pub fn plain_write(&mut self, address: u32, word: u32) -> Result<(), Refusal> {
        self.check_lengths()?;
        self.check_address(address)?;
        self.request(None, Access::Exclusive, line(address))?;
        self.words[address as usize] = word;
        Ok(())
    }

    fn check_lengths(&self) -> Result<(), Refusal> {
        let words = self.words.len();
        let threads = self.records.len();
        let stated = words.is_multiple_of(LINE)
            && (LINE..=MOST_WORDS).contains(&words)
            && (1..=MOST_THREADS).contains(&threads)
            && self.entries.len() == threads * ROOM
            && self.reads.len() == threads
            && self.writes.len() == threads;
        if stated {
            Ok(())
        } else {
            Err(Refusal::Length)
        }
    }

    /// The first three rows of the refusals, then where the thread is and what its record means.
    fn thread(&self, thread: u32) -> Result<(usize, Record), Refusal> {
        self.check_lengths()?;
        let t = thread as usize;
        let plain = self.records.get(t).ok_or(Refusal::Thread(thread))?;
        let record = Record::from(*plain);
        let counted = self.counted(t, record.count());
        if counted.iter().all(|entry| self.has(entry.address)) {
            Ok((t, record))
        } else {
            Err(Refusal::Entry(thread))
        }
    }

    fn check_address(&self, address: u32) -> Result<(), Refusal> {
        if self.has(address) {
            Ok(())
        } else {
            Err(Refusal::Address(address))
        }
    }

    fn has(&self, address: u32) -> bool {
        (address as usize) < self.words.len()
    }

    fn counted(&self, t: usize, count: usize) -> &[Entry] {
        &self.entries[t * ROOM..][..count]
    }

    /// The place of the first counted entry with the address.
    fn held(&self, t: usize, count: usize, address: u32) -> Option<usize> {
        self.counted(t, count)
            .iter()
            .position(|entry| entry.address == address)
    }

    fn store(&mut self, t: usize, record: Record) {
        self.records[t] = record.into();
    }

    fn reset(&mut self, t: usize) {
        self.reads[t].reset();
        self.writes[t].reset();
    }

    /// The step of a Validating thread that asks for the line of the entry at the cursor.
    fn fetch(&mut self, t: usize, count: usize, cursor: usize, repeats: u32) -> Stepped {
        let Entry { address, .. } = self.counted(t, count)[cursor];
        match self.request(Some(t), Access::Exclusive, line(address)) {
            Ok(()) => {
                let fetched = Record::Validating {
                    count,
                    cursor: cursor + 1,
                    repeats,
                };
                self.store(t, fetched);
                Stepped::Fetched
            }
            Err(Nack(by)) => {
                if self.repeat(t, count, repeats) {
                    Stepped::Repeated(by)
                } else {
                    Stepped::Lost
                }
            }
        }
    }

    /// Asks the other threads for a line; a nack leaves all as it was.
    fn request(&mut self, from: Option<usize>, access: Access, line: u16) -> Result<(), Nack> {
        // All are asked before any is changed.
        for (t, (&plain, writes)) in iter::zip(&*self.records, &*self.writes).enumerate() {
            let copying = matches!(Record::from(plain), Record::Copying { .. });
            if copying && Some(t) != from && writes.hit(line) {
                return Err(Nack(t as u32));
            }
        }
        let exclusive = access == Access::Exclusive;
        for t in (0..self.records.len()).filter(|&t| Some(t) != from) {
            match Record::from(self.records[t]) {
                Record::Running { .. } | Record::Validating { .. }
                    if exclusive && self.reads[t].hit(line) =>
                {
                    self.abort(t)
                }
                Record::Validating { count, repeats, .. } if self.writes[t].hit(line) => {
                    self.repeat(t, count, repeats);
                }
                _ => {}
            }
        }
        Ok(())
    }

    fn abort(&mut self, t: usize) {
        self.store(t, Record::Aborted);
        self.reset(t);
    }

    /// Sends a Validating thread back to its first entry, and answers whether it may go on.
    fn repeat(&mut self, t: usize, count: usize, repeats: u32) -> bool {
        if repeats >= MOST_REPEATS {
            self.abort(t);
            return false;
        }
        let again = Record::Validating {
            count,
            cursor: 0,
            repeats: repeats + 1,
        };
        self.store(t, again);
        true
    }
}

#[cfg(test)]
mod tests {
    use super::*;
    use crate::call::Call;
    use crate::record::Phase;
    use crate::signature::List;

    /// Lists know their lines exactly, so that only what a test says conflicts.
    type Exact = Parts<List, List>;

    const WORDS: usize = 24;
    const END: u32 = WORDS as u32;

    fn opened(threads: usize) -> Exact {
        let mut parts = Exact::new(WORDS, threads);
        for (word, a) in parts.words.iter_mut().zip(100..) {
            *word = a;
        }
        parts.lend().open().unwrap();
        parts
    }

    fn plain(phase: u32, count: u32, cursor: u32, repeats: u32) -> PlainRecord {
        PlainRecord {
            phase,
            count,
            cursor,
            repeats,
        }
    }

    fn entry(address: u32, word: u32) -> Entry {
        Entry { address, word }
    }

    /// Makes a call that has to be refused so, and looks that it altered nothing.
    fn refused(parts: &mut Exact, call: Call, refusal: Refusal) {
        let before = parts.clone();
        assert_eq!(call.make(&mut parts.lend()), Err(refusal), "{call:?}");
        assert_eq!(*parts, before, "{call:?}");
    }

    fn step(parts: &mut Exact, thread: u32) -> Stepped {
        parts.lend().step(thread).unwrap()
    }

    /// Brings an Idle thread to Validating, with the addresses written in order.
    fn validate(parts: &mut Exact, thread: u32, addresses: &[u32]) {
        let mut board = parts.lend();
        board.begin(thread).unwrap();
        for &address in addresses {
            board.write(thread, address, 1000 + address).unwrap();
        }
        board.commit(thread).unwrap();
    }

    /// Brings an Idle thread to Copying.
    fn pass(parts: &mut Exact, thread: u32, addresses: &[u32]) {
        validate(parts, thread, addresses);
        for _ in addresses {
            assert_eq!(step(parts, thread), Stepped::Fetched);
        }
        assert_eq!(step(parts, thread), Stepped::Passed);
    }

    fn every_call(thread: u32, address: u32) -> [Call; 8] {
        [
            Call::Begin(thread),
            Call::Read(thread, address),
            Call::Write(thread, address, 5),
            Call::Commit(thread),
            Call::Step(thread),
            Call::Abandon(thread),
            Call::PlainRead(address),
            Call::PlainWrite(address, 5),
        ]
    }

    #[test]
    fn steps_have_the_numbers_of_the_rules() {
        let steps = [
            Stepped::Fetched,
            Stepped::Repeated(9),
            Stepped::Lost,
            Stepped::Passed,
            Stepped::Copied,
            Stepped::Ended,
        ];
        assert!(steps.into_iter().map(Stepped::number).eq(1..=6));
    }

    #[test]
    fn the_lengths_at_the_edges() {
        for (words, threads) in [(8, 1), (8, 16), (65_536, 1), (65_536, 16)] {
            assert_eq!(Exact::new(words, threads).lend().open(), Ok(()));
        }
        for (words, threads) in [
            (0, 1),
            (7, 1),
            (9, 1),
            (12, 2),
            (65_537, 1),
            (65_544, 1),
            (131_072, 1),
            (8, 0),
            (8, 17),
        ] {
            let mut parts = Exact::new(words, threads);
            assert_eq!(parts.lend().open(), Err(Refusal::Length));
            for call in every_call(0, 0) {
                refused(&mut parts, call, Refusal::Length);
            }
        }
    }

    #[test]
    fn each_part_has_its_length() {
        let spoil: [fn(&mut Exact); 9] = [
            |parts| parts.words.push(0),
            |parts| parts.words.truncate(WORDS - 1),
            |parts| parts.records.truncate(1),
            |parts| parts.entries.push(Entry::default()),
            |parts| parts.entries.truncate(2 * ROOM - 1),
            |parts| parts.reads.push(List::default()),
            |parts| parts.reads.truncate(1),
            |parts| parts.writes.push(List::default()),
            |parts| parts.writes.truncate(1),
        ];
        for spoil in spoil {
            let mut parts = opened(2);
            spoil(&mut parts);
            let before = parts.clone();
            assert_eq!(parts.lend().open(), Err(Refusal::Length));
            assert_eq!(parts, before);
            // A thread and an address that the board does not have come lower.
            for call in every_call(2, END) {
                refused(&mut parts, call, Refusal::Length);
            }
        }
    }

    #[test]
    fn open_leaves_words_and_entries() {
        let mut parts = opened(2);
        pass(&mut parts, 0, &[0, 8]);
        parts.lend().begin(1).unwrap();
        parts.lend().read(1, 16).unwrap();
        let before = parts.clone();
        parts.lend().open().unwrap();
        assert_eq!(parts.records, [plain(0, 0, 0, 0); 2]);
        assert_eq!(parts.reads, [List::default(), List::default()]);
        assert_eq!(parts.writes, [List::default(), List::default()]);
        assert_eq!((parts.words, parts.entries), (before.words, before.entries));
    }

    #[test]
    fn a_thread_that_is_not_there_comes_before_the_address() {
        let mut parts = opened(3);
        for thread in [3, 16, u32::MAX] {
            for call in &every_call(thread, END)[..6] {
                refused(&mut parts, *call, Refusal::Thread(thread));
            }
        }
    }

    #[test]
    fn a_stray_entry_comes_before_the_address_and_the_phase() {
        let mut parts = opened(2);
        for phase in 1..=3 {
            parts.records[1] = plain(phase, 2, 0, 0);
            parts.entries[ROOM] = entry(0, 7);
            parts.entries[ROOM + 1] = entry(END, 7);
            for call in &every_call(1, END)[..6] {
                refused(&mut parts, *call, Refusal::Entry(1));
            }
        }
        // Entries that are not counted may have any address, and so may those of other threads.
        parts.records[1] = plain(1, 1, 0, 0);
        assert_eq!(parts.lend().read(1, 0), Ok(7));
        parts.records[1] = plain(1, 2, 0, 0);
        assert_eq!(parts.lend().begin(0), Ok(()));
        assert_eq!(parts.lend().read(0, 1), Ok(101));
        // Idle and Aborted threads have no counted entries.
        parts.records[1] = plain(4, 2, 0, 0);
        assert_eq!(parts.lend().abandon(1), Ok(()));
        parts.records[1] = plain(0, 2, 0, 0);
        assert_eq!(parts.lend().begin(1), Ok(()));
    }

    #[test]
    fn an_address_that_is_not_there_comes_before_the_phase() {
        let mut parts = opened(1);
        for phase in 0..=4 {
            parts.records[0] = plain(phase, 0, 0, 0);
            for address in [END, END + 1, 65_536, u32::MAX] {
                let refusal = Refusal::Address(address);
                refused(&mut parts, Call::Read(0, address), refusal);
                refused(&mut parts, Call::Write(0, address, 5), refusal);
                refused(&mut parts, Call::PlainRead(address), refusal);
                refused(&mut parts, Call::PlainWrite(address, 5), refusal);
            }
        }
    }

    #[test]
    fn each_call_allows_its_phases() {
        use Phase::{Aborted, Copying, Idle, Running, Validating};
        let allowed: [&[Phase]; 6] = [
            &[Idle],
            &[Running],
            &[Running],
            &[Running],
            &[Validating, Copying],
            &[Running, Validating, Aborted],
        ];
        for (call, allowed) in iter::zip(every_call(1, 3), allowed) {
            for phase in [Idle, Running, Validating, Copying, Aborted] {
                let mut parts = opened(2);
                parts.records[1] = plain(phase.number(), 0, 0, 0);
                if allowed.contains(&phase) {
                    assert!(call.make(&mut parts.lend()).is_ok(), "{call:?}, {phase:?}");
                } else if phase == Aborted {
                    refused(&mut parts, call, Refusal::Aborted(1));
                } else {
                    refused(&mut parts, call, Refusal::Phase(phase));
                }
            }
        }
    }

    #[test]
    fn the_phase_comes_before_a_nack() {
        let mut parts = opened(3);
        pass(&mut parts, 0, &[3]);
        refused(&mut parts, Call::Read(1, 3), Refusal::Phase(Phase::Idle));
        parts.records[1] = plain(4, 0, 0, 0);
        refused(&mut parts, Call::Read(1, 3), Refusal::Aborted(1));
    }

    #[test]
    fn a_33rd_address_is_refused_and_a_held_one_is_not() {
        let mut parts = Exact::new(40, 2);
        parts.lend().begin(1).unwrap();
        for address in 0..32 {
            parts.lend().write(1, address, address).unwrap();
        }
        refused(&mut parts, Call::Write(1, 32, 5), Refusal::Full(1));
        refused(&mut parts, Call::Write(1, 40, 5), Refusal::Address(40));
        assert_eq!(parts.lend().write(1, 31, 77), Ok(()));
        assert_eq!(parts.lend().read(1, 31), Ok(77));
        assert_eq!(parts.records[1], plain(1, 32, 0, 0));
        assert_eq!(parts.entries[2 * ROOM - 1], entry(31, 77));
    }

    #[test]
    fn a_read_of_a_buffered_word_changes_nothing() {
        let mut parts = opened(2);
        validate(&mut parts, 1, &[3]);
        parts.lend().begin(0).unwrap();
        parts.lend().write(0, 3, 9).unwrap();
        let before = parts.clone();
        assert_eq!(parts.lend().read(0, 3), Ok(9));
        assert_eq!(parts, before);
    }

    #[test]
    fn the_first_of_two_entries_with_an_address_counts() {
        let mut parts = opened(1);
        parts.records[0] = plain(1, 2, 0, 0);
        parts.entries[..2].fill(entry(5, 1));
        parts.lend().write(0, 5, 2).unwrap();
        assert_eq!(parts.entries[..2], [entry(5, 2), entry(5, 1)]);
        assert_eq!(parts.lend().read(0, 5), Ok(2));
        assert_eq!(parts.records[0], plain(1, 2, 0, 0));
        // The line goes in at every write, whatever the caller did with the signature.
        assert!(parts.writes[0].hit(0));
    }

    #[test]
    fn a_read_from_memory_goes_into_the_read_signature() {
        let mut parts = opened(1);
        parts.lend().begin(0).unwrap();
        assert_eq!(parts.lend().read(0, 17), Ok(117));
        assert!(parts.reads[0].hit(2) && !parts.reads[0].hit(0));
        assert_eq!(parts.records[0], plain(1, 0, 0, 0));
    }

    #[test]
    fn a_commit_goes_through_its_steps() {
        let mut parts = opened(1);
        parts.lend().begin(0).unwrap();
        parts.lend().read(0, 16).unwrap();
        for (address, word) in [(3, 1), (9, 2), (3, 4)] {
            parts.lend().write(0, address, word).unwrap();
        }
        assert_eq!(parts.records[0], plain(1, 2, 0, 0));
        parts.lend().commit(0).unwrap();
        assert_eq!(parts.records[0], plain(2, 2, 0, 0));
        for cursor in 1..=2 {
            assert_eq!(step(&mut parts, 0), Stepped::Fetched);
            assert_eq!(parts.records[0], plain(2, 2, cursor, 0));
        }
        assert!(parts.reads[0].hit(2));
        assert_eq!(step(&mut parts, 0), Stepped::Passed);
        assert_eq!(parts.records[0], plain(3, 2, 0, 0));
        assert_eq!(parts.reads[0], List::default());
        assert_eq!((parts.words[3], parts.words[9]), (103, 109));
        assert_eq!(step(&mut parts, 0), Stepped::Copied);
        assert_eq!((parts.words[3], parts.words[9]), (4, 109));
        assert_eq!(step(&mut parts, 0), Stepped::Copied);
        assert_eq!((parts.words[3], parts.words[9]), (4, 2));
        assert_eq!(parts.records[0], plain(3, 2, 2, 0));
        assert!(parts.writes[0].hit(0) && parts.writes[0].hit(1));
        assert_eq!(step(&mut parts, 0), Stepped::Ended);
        assert_eq!(parts.records[0], plain(0, 0, 0, 0));
        assert_eq!(parts.writes[0], List::default());
        assert_eq!(parts.entries[..2], [entry(3, 4), entry(9, 2)]);
        refused(&mut parts, Call::Step(0), Refusal::Phase(Phase::Idle));
    }

    #[test]
    fn without_writes_a_commit_passes_and_ends() {
        let mut parts = opened(1);
        parts.lend().begin(0).unwrap();
        parts.lend().read(0, 16).unwrap();
        parts.lend().commit(0).unwrap();
        assert_eq!(step(&mut parts, 0), Stepped::Passed);
        assert_eq!(step(&mut parts, 0), Stepped::Ended);
        assert_eq!(parts, opened(1));
    }

    #[test]
    fn a_copying_thread_nacks_its_lines_and_nothing_changes() {
        let mut parts = opened(5);
        pass(&mut parts, 2, &[3]);
        pass(&mut parts, 3, &[8]);
        // Both hit line 1 now, and the lower one answers.
        parts.writes[2].insert(1);
        parts.lend().begin(4).unwrap();
        parts.lend().read(4, 16).unwrap();
        // Were the request not nacked, this one would be sent back.
        validate(&mut parts, 0, &[9]);
        parts.lend().begin(1).unwrap();
        for (address, by) in [(3, 2), (4, 2), (8, 2), (15, 2)] {
            refused(&mut parts, Call::Read(1, address), Refusal::Nacked(by));
            refused(&mut parts, Call::PlainRead(address), Refusal::Nacked(by));
            refused(
                &mut parts,
                Call::PlainWrite(address, 5),
                Refusal::Nacked(by),
            );
        }
        assert_eq!(parts.lend().read(1, 16), Ok(116));
        // To the end, and with every word copied.
        assert_eq!(step(&mut parts, 2), Stepped::Copied);
        refused(&mut parts, Call::PlainRead(3), Refusal::Nacked(2));
        assert_eq!(step(&mut parts, 2), Stepped::Ended);
        assert_eq!(parts.lend().plain_read(3), Ok(1003));
        refused(&mut parts, Call::PlainRead(15), Refusal::Nacked(3));
    }

    #[test]
    fn a_nacked_step_repeats_by_itself_and_changes_no_other() {
        let mut parts = opened(3);
        pass(&mut parts, 2, &[0]);
        validate(&mut parts, 1, &[7]);
        parts.lend().begin(0).unwrap();
        parts.lend().write(0, 8, 5).unwrap();
        parts.lend().write(0, 1, 6).unwrap();
        parts.lend().commit(0).unwrap();
        assert_eq!(step(&mut parts, 0), Stepped::Fetched);
        let mut expected = parts.clone();
        expected.records[0] = plain(2, 2, 0, 1);
        assert_eq!(step(&mut parts, 0), Stepped::Repeated(2));
        assert_eq!(parts, expected);
    }

    #[test]
    fn after_four_repeats_a_nacked_fetch_is_lost() {
        let mut parts = opened(2);
        pass(&mut parts, 1, &[0]);
        parts.lend().begin(0).unwrap();
        parts.lend().read(0, 16).unwrap();
        parts.lend().write(0, 5, 6).unwrap();
        parts.lend().commit(0).unwrap();
        for repeats in 1..=4 {
            assert_eq!(step(&mut parts, 0), Stepped::Repeated(1));
            assert_eq!(parts.records[0], plain(2, 1, 0, repeats));
        }
        assert_eq!(step(&mut parts, 0), Stepped::Lost);
        assert_eq!(parts.records[0], plain(4, 0, 0, 0));
        assert_eq!(parts.reads[0], List::default());
        assert_eq!(parts.writes[0], List::default());
        refused(&mut parts, Call::Step(0), Refusal::Aborted(0));
    }

    #[test]
    fn an_exclusive_request_aborts_readers() {
        let mut parts = opened(4);
        for thread in 0..3 {
            parts.lend().begin(thread).unwrap();
            parts.lend().read(thread, 16 * (thread / 2)).unwrap();
        }
        parts.lend().commit(1).unwrap();
        validate(&mut parts, 3, &[7]);
        assert_eq!(step(&mut parts, 3), Stepped::Fetched);
        assert_eq!(parts.records[0], plain(4, 0, 0, 0));
        assert_eq!(parts.records[1], plain(4, 0, 0, 0));
        assert_eq!(parts.records[2], plain(1, 0, 0, 0));
        assert_eq!(parts.reads[0], List::default());
        assert!(parts.reads[2].hit(2));
        // A plain write is one too, and the word does not matter but its line.
        parts.lend().plain_write(23, 5).unwrap();
        assert_eq!(parts.records[2], plain(4, 0, 0, 0));
        assert_eq!(parts.words[23], 5);
        assert_eq!(parts.records[3], plain(2, 1, 1, 0));
    }

    #[test]
    fn every_request_sends_validating_writers_back() {
        let mut parts = opened(3);
        validate(&mut parts, 0, &[8, 0]);
        parts.lend().begin(1).unwrap();
        parts.lend().write(1, 1, 5).unwrap();
        let again = |parts: &mut Exact, repeats: u32| {
            assert_eq!(parts.records[0], plain(2, 2, 0, repeats));
            assert_eq!(step(parts, 0), Stepped::Fetched);
        };
        again(&mut parts, 0);
        // A read from memory; that a Running thread has written the line does not matter.
        parts.lend().read(1, 3).unwrap();
        again(&mut parts, 1);
        parts.lend().plain_read(3).unwrap();
        again(&mut parts, 2);
        parts.lend().plain_write(3, 4).unwrap();
        assert_eq!(parts.records[1], plain(4, 0, 0, 0));
        again(&mut parts, 3);
        validate(&mut parts, 2, &[9]);
        assert_eq!(step(&mut parts, 2), Stepped::Fetched);
        again(&mut parts, 4);
        // Line 1 is fetched once more, so the other is sent back in its turn.
        assert_eq!(parts.records[2], plain(2, 1, 0, 1));
        // A fifth time aborts.
        parts.lend().plain_read(3).unwrap();
        assert_eq!(parts.records[0], plain(4, 0, 0, 0));
        assert_eq!(parts.writes[0], List::default());
    }

    #[test]
    fn a_thread_does_not_conflict_with_itself() {
        let mut parts = opened(1);
        parts.lend().begin(0).unwrap();
        parts.lend().read(0, 0).unwrap();
        parts.lend().write(0, 0, 5).unwrap();
        assert_eq!(parts.lend().read(0, 1), Ok(101));
        parts.lend().commit(0).unwrap();
        assert_eq!(step(&mut parts, 0), Stepped::Fetched);
        assert_eq!(parts.records[0], plain(2, 1, 1, 0));
    }

    #[test]
    fn abandon_forgets_the_transaction_and_keeps_the_entries() {
        for phase in [1, 2, 4] {
            let mut parts = opened(1);
            parts.lend().begin(0).unwrap();
            parts.lend().read(0, 8).unwrap();
            parts.lend().write(0, 0, 5).unwrap();
            parts.records[0] = plain(phase, 1, 0, 0);
            assert_eq!(parts.lend().abandon(0), Ok(()));
            let mut expected = opened(1);
            expected.entries[0] = entry(0, 5);
            assert_eq!(parts, expected);
        }
    }

    #[test]
    fn calls_go_by_what_is_read() {
        let mut parts = opened(1);
        // Phase 9 is Aborted.
        parts.records[0] = plain(9, 40, 7, 9);
        refused(&mut parts, Call::Begin(0), Refusal::Aborted(0));
        parts.lend().abandon(0).unwrap();
        assert_eq!(parts.records[0], plain(0, 0, 0, 0));
        // An Idle thread has nothing counted.
        parts.records[0] = plain(0, 40, 7, 9);
        parts.lend().begin(0).unwrap();
        assert_eq!(parts.records[0], plain(1, 0, 0, 0));
        // Forty counted are 32.
        parts.records[0] = plain(1, 40, 7, 9);
        refused(&mut parts, Call::Write(0, 1, 5), Refusal::Full(0));
        // A read stores no record, and a write does, to a held address too.
        parts.lend().read(0, 1).unwrap();
        assert_eq!(parts.records[0], plain(1, 40, 7, 9));
        parts.lend().write(0, 0, 5).unwrap();
        assert_eq!(parts.records[0], plain(1, 32, 0, 0));
        parts.lend().commit(0).unwrap();
        assert_eq!(parts.records[0], plain(2, 32, 0, 0));
        // A cursor beyond the count is at the count.
        parts.records[0] = plain(2, 3, 7, 9);
        assert_eq!(step(&mut parts, 0), Stepped::Passed);
        assert_eq!(parts.records[0], plain(3, 3, 0, 0));
        parts.records[0] = plain(3, 3, 7, 9);
        assert_eq!(step(&mut parts, 0), Stepped::Ended);
        assert_eq!(parts.records[0], plain(0, 0, 0, 0));
    }

    #[test]
    fn fetching_stores_what_is_read() {
        let mut parts = opened(2);
        parts.records[0] = plain(2, 40, 2, 9);
        assert_eq!(step(&mut parts, 0), Stepped::Fetched);
        assert_eq!(parts.records[0], plain(2, 32, 3, 4));
        parts.records[0] = plain(2, 40, 2, 9);
        pass(&mut parts, 1, &[0]);
        assert_eq!(step(&mut parts, 0), Stepped::Lost);
    }

    #[test]
    fn a_thread_that_no_call_touches_keeps_its_numbers() {
        let mut parts = opened(4);
        let garbage = [plain(9, 7, 7, 7), plain(2, 40, 50, 1), plain(3, 40, 50, 60)];
        parts.records[1..].copy_from_slice(&garbage);
        parts.lend().plain_write(0, 1).unwrap();
        parts.lend().begin(0).unwrap();
        parts.lend().read(0, 0).unwrap();
        assert_eq!(parts.records[1..], garbage);
        // Sent back, the thread has the numbers that were read.
        parts.writes[2].insert(0);
        parts.lend().plain_read(0).unwrap();
        assert_eq!(parts.records[2], plain(2, 32, 0, 2));
        assert_eq!(parts.records[3], garbage[2]);
    }
}
