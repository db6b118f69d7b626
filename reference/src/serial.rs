//! Random runs against the serial order: what every run on an opened board keeps, call by call.

use crate::board::{Parts, Stepped};
use crate::call::{Answer, Call};
use crate::random::Random;
use crate::record::{PlainRecord, ROOM};
use crate::refusal::Refusal;
use crate::signature::{Both, Coarse, List, Register1024, Register128, Signature};

/// A promise that was not kept, and where.
#[derive(Debug)]
#[allow(dead_code)] // The values are for the one who reads the message.
enum Breach {
    /// A plain read was answered another word than the serial one.
    PlainRead { address: u32, serial: u32 },
    /// A transaction passed that had been answered another word than the serial one.
    PassedRead { address: u32, serial: u32 },
    /// A live transaction holds a word from memory that is not the serial one now.
    LiveRead { thread: usize, address: u32 },
    /// Memory has another word than the serial one, and nobody has still to copy it.
    Memory { address: usize },
    /// A transaction took other steps after it passed than one for each buffered word and one more.
    Steps { thread: u32 },
    /// A refused call altered a part.
    Altered,
}

/// An operation of a transaction, with what was answered.
#[derive(Clone, Copy)]
enum Operation {
    Read { address: u32, answer: u32 },
    Write { address: u32, word: u32 },
}

/// What became of the transaction that a thread began last.
#[derive(Clone, Default)]
enum Fate {
    /// None was begun, or it was abandoned or aborted, or it has ended.
    #[default]
    Over,
    Live,
    Passed {
        /// The addresses that it wrote, by when each was first written.
        addresses: Vec<u32>,
        copied: usize,
        steps: usize,
    },
}

#[derive(Clone, Default)]
struct Transaction {
    operations: Vec<Operation>,
    fate: Fate,
}

impl Transaction {
    /// The addresses written, each once, by when it was first written.
    fn written(operations: &[Operation]) -> Vec<u32> {
        let mut addresses = Vec::new();
        for operation in operations {
            if let Operation::Write { address, .. } = *operation {
                if !addresses.contains(&address) {
                    addresses.push(address);
                }
            }
        }
        addresses
    }

    /// The reads at addresses that had not been written before.
    fn memory_reads(&self) -> impl Iterator<Item = (u32, u32)> + '_ {
        let mut written = Vec::new();
        self.operations
            .iter()
            .filter_map(move |operation| match *operation {
                Operation::Read { address, answer } => {
                    (!written.contains(&address)).then_some((address, answer))
                }
                Operation::Write { address, .. } => {
                    written.push(address);
                    None
                }
            })
    }
}

/// The serial words, and a transaction for each thread. It knows the accepted calls and their
/// answers; of the parts it looks at memory, and at the phases for who was aborted.
struct Serial {
    words: Vec<u32>,
    transactions: Vec<Transaction>,
}

impl Serial {
    /// As the board is at open.
    fn new(words: &[u32], threads: usize) -> Self {
        Self {
            words: words.to_vec(),
            transactions: vec![Transaction::default(); threads],
        }
    }

    /// Takes an accepted call.
    fn hear(&mut self, call: Call, answer: Answer) -> Result<(), Breach> {
        match (call, answer) {
            (Call::Begin(thread), _) => {
                self.transactions[thread as usize] = Transaction {
                    operations: Vec::new(),
                    fate: Fate::Live,
                };
            }
            (Call::Abandon(thread), _) => {
                self.transactions[thread as usize] = Transaction::default();
            }
            (Call::Read(thread, address), Answer::Word(answer)) => self.transactions
                [thread as usize]
                .operations
                .push(Operation::Read { address, answer }),
            (Call::Write(thread, address, word), _) => self.transactions[thread as usize]
                .operations
                .push(Operation::Write { address, word }),
            (Call::Step(thread), Answer::Stepped(stepped)) => self.step(thread, stepped)?,
            (Call::PlainRead(address), Answer::Word(answer)) => {
                let serial = self.words[address as usize];
                if answer != serial {
                    return Err(Breach::PlainRead { address, serial });
                }
            }
            (Call::PlainWrite(address, word), _) => self.words[address as usize] = word,
            _ => {}
        }
        Ok(())
    }

    fn step(&mut self, thread: u32, stepped: Stepped) -> Result<(), Breach> {
        let transaction = &mut self.transactions[thread as usize];
        match (&mut transaction.fate, stepped) {
            (Fate::Live, Stepped::Passed) => {
                for operation in &transaction.operations {
                    match *operation {
                        Operation::Read { address, answer } => {
                            let serial = self.words[address as usize];
                            if answer != serial {
                                return Err(Breach::PassedRead { address, serial });
                            }
                        }
                        Operation::Write { address, word } => self.words[address as usize] = word,
                    }
                }
                transaction.fate = Fate::Passed {
                    addresses: Transaction::written(&transaction.operations),
                    copied: 0,
                    steps: 0,
                };
                Ok(())
            }
            (Fate::Live, Stepped::Fetched | Stepped::Repeated(_) | Stepped::Lost) => Ok(()),
            (
                Fate::Passed {
                    addresses,
                    copied,
                    steps,
                },
                stepped,
            ) => {
                *steps += 1;
                match stepped {
                    Stepped::Copied if *copied < addresses.len() => {
                        *copied += 1;
                        Ok(())
                    }
                    Stepped::Ended if *steps == addresses.len() + 1 => {
                        transaction.fate = Fate::Over;
                        Ok(())
                    }
                    _ => Err(Breach::Steps { thread }),
                }
            }
            _ => Err(Breach::Steps { thread }),
        }
    }

    /// What holds after every call.
    fn check(&mut self, words: &[u32], records: &[PlainRecord]) -> Result<(), Breach> {
        let mut free = vec![true; words.len()];
        for (thread, transaction) in self.transactions.iter_mut().enumerate() {
            if matches!(transaction.fate, Fate::Live) && records[thread].phase == 4 {
                transaction.fate = Fate::Over;
            }
            match &transaction.fate {
                Fate::Over => {}
                Fate::Live => {
                    for (address, answer) in transaction.memory_reads() {
                        if answer != self.words[address as usize] {
                            return Err(Breach::LiveRead { thread, address });
                        }
                    }
                }
                Fate::Passed {
                    addresses, copied, ..
                } => {
                    for &address in &addresses[*copied..] {
                        free[address as usize] = false;
                    }
                }
            }
        }
        match (0..words.len()).find(|&a| free[a] && words[a] != self.words[a]) {
            Some(address) => Err(Breach::Memory { address }),
            None => Ok(()),
        }
    }
}

/// The poorest signature: it knows only whether it was told anything.
#[derive(Clone, Debug, Default, PartialEq, Eq)]
struct OneBit(bool);

impl Signature for OneBit {
    fn reset(&mut self) {
        self.0 = false;
    }

    fn insert(&mut self, _: u16) {
        self.0 = true;
    }

    fn hit(&self, _: u16) -> bool {
        self.0
    }
}

/// How often each answer came, by its number, so that a run of nothing but refusals shows.
#[derive(Debug, Default)]
struct Tally {
    refusals: [usize; 9],
    steps: [usize; 7],
    /// Threads that another one aborted.
    aborted: usize,
}

impl Tally {
    fn note(&mut self, outcome: Result<Answer, Refusal>) {
        match outcome {
            Ok(Answer::Stepped(stepped)) => self.steps[stepped.number() as usize] += 1,
            Ok(_) => {}
            Err(refusal) => self.refusals[refusal.number() as usize] += 1,
        }
    }
}

/// Chooses calls, most of them such that the phases allow them.
struct Caller {
    random: Random,
    /// One call in so many is a plain access.
    plain: usize,
    /// One call in so many goes to another thread than the one before.
    turn: usize,
    /// One call of a Running thread in so many is its commit.
    commit: usize,
    thread: u32,
    /// Counts the calls, and makes all words that are written different.
    word: u32,
}

impl Caller {
    fn new(mut random: Random) -> Self {
        Self {
            plain: 2 + random.below(25),
            turn: 1 + random.below(6),
            commit: 2 + random.below(12),
            thread: 0,
            word: 0,
            random,
        }
    }

    fn below(&mut self, end: usize) -> u32 {
        self.random.below(end) as u32
    }

    fn call(&mut self, words: usize, records: &[PlainRecord]) -> Call {
        self.word += 1;
        let word = self.word;
        if self.random.one_in(self.turn) {
            self.thread = self.below(records.len());
        }
        let mut thread = self.thread;
        let phase = records[thread as usize].phase;
        let mut address = self.below(words);
        if self.random.one_in(100) {
            address += words as u32;
        }
        if self.random.one_in(100) {
            thread += records.len() as u32;
        }
        if self.random.one_in(self.plain) {
            return if self.random.one_in(2) {
                Call::PlainRead(address)
            } else {
                Call::PlainWrite(address, word)
            };
        }
        let choice = match phase {
            _ if self.random.one_in(15) => self.below(6),
            0 => 0,
            1 if self.random.one_in(self.commit) => 3,
            1 => 1 + self.below(2),
            2 | 3 => 4,
            _ => 5,
        };
        match choice {
            0 => Call::Begin(thread),
            1 => Call::Read(thread, address),
            2 => Call::Write(thread, address, word),
            3 => Call::Commit(thread),
            4 => Call::Step(thread),
            _ => Call::Abandon(thread),
        }
    }
}

/// Parts with anything in them, as the caller of open may have them.
fn garbage<R, W>(random: &mut Random, words: usize, threads: usize) -> Parts<R, W>
where
    R: Signature + Default,
    W: Signature + Default,
{
    let mut parts = Parts::<R, W>::new(words, threads);
    parts.words.fill_with(|| random.next() as u32);
    for record in &mut parts.records {
        *record = PlainRecord {
            phase: random.below(6) as u32,
            count: random.below(ROOM + 9) as u32,
            cursor: random.below(ROOM + 9) as u32,
            repeats: random.below(6) as u32,
        };
    }
    for entry in &mut parts.entries {
        entry.address = random.below(words + 1) as u32;
        entry.word = random.next() as u32;
    }
    for t in 0..threads {
        parts.reads[t].insert(random.below(words / 8) as u16);
        parts.writes[t].insert(random.below(words / 8) as u16);
    }
    parts
}

/// Opens a board, makes `calls` calls on it, and checks after each.
fn run<R, W>(seed: u64, calls: usize, tally: &mut Tally) -> Result<(), (usize, Call, Breach)>
where
    R: Signature + Default + Clone + PartialEq,
    W: Signature + Default + Clone + PartialEq,
{
    let mut random = Random(seed);
    // With five lines even a coarse signature can tell two apart.
    let words = [8, 16, 16, 24, 40][random.below(5)];
    let threads = 1 + random.below(4);
    let mut parts: Parts<R, W> = garbage(&mut random, words, threads);
    let mut serial = Serial::new(&parts.words, threads);
    parts
        .lend()
        .open()
        .expect("the lengths are those of the rules");
    let mut caller = Caller::new(random);
    for at in 0..calls {
        let call = caller.call(words, &parts.records);
        let before = parts.clone();
        let outcome = call.make(&mut parts.lend());
        tally.note(outcome);
        tally.aborted += aborted(&before.records, &parts.records);
        let heard = match outcome {
            Ok(answer) => serial.hear(call, answer),
            Err(_) if parts != before => Err(Breach::Altered),
            Err(_) => Ok(()),
        };
        heard
            .and_then(|()| serial.check(&parts.words, &parts.records))
            .map_err(|breach| (at, call, breach))?;
    }
    Ok(())
}

fn aborted(before: &[PlainRecord], after: &[PlainRecord]) -> usize {
    std::iter::zip(before, after)
        .filter(|(before, after)| before.phase != 4 && after.phase == 4)
        .count()
}

type Run = fn(u64, usize, &mut Tally) -> Result<(), (usize, Call, Breach)>;

/// How many boards each pair of kinds gets, and how many calls each board.
const RUNS: u64 = 150;
const CALLS: usize = 400;

/// Read and write signatures of poor and exact kinds.
const KINDS: [(&str, Run); 10] = [
    ("one bit, one bit", run::<OneBit, OneBit>),
    ("one bit, list", run::<OneBit, List>),
    ("list, one bit", run::<List, OneBit>),
    ("list, list", run::<List, List>),
    ("1024, 128", run::<Register1024, Register128>),
    ("128, 1024", run::<Register128, Register1024>),
    ("both, list", run::<Both<Register128, List>, List>),
    ("list, both", run::<List, Both<OneBit, Register128>>),
    ("coarse, list", run::<Coarse<List>, List>),
    ("list, coarse", run::<List, Coarse<Register128>>),
];

#[test]
fn every_run_keeps_the_serial_order() {
    let mut tally = Tally::default();
    for (name, run) in KINDS {
        for seed in 0..RUNS {
            if let Err((at, call, breach)) = run(seed, CALLS, &mut tally) {
                panic!("{name}, seed {seed}, call {at}: {call:?}: {breach:?}");
            }
        }
    }
    // Each answer came often, but for refusals that need other lengths, other entries or more words.
    assert!(
        tally.steps[1..].iter().all(|&n| n > 500)
            && [2, 4, 5, 6, 8].iter().all(|&k| tally.refusals[k] > 500)
            && tally.aborted > 500,
        "{tally:?}"
    );
}
