//! The runs of a command: its parts one after another, the work of each shared among threads.

use std::fmt::{self, Display, Formatter};
use std::sync::atomic::{AtomicBool, AtomicU64, Ordering::Relaxed};
use std::thread::{self, available_parallelism};
use std::time::Instant;

use crate::difference::{Difference, Held};
use crate::tally::Sum;

/// What a thread keeps from call to call.
pub trait Worker: Sized {
    /// What is under test.
    type Subject: Copy + Sync;
    type Tally: Sum + Default + Display + Send;

    fn new(subject: Self::Subject) -> Self;

    /// What it has counted.
    fn tally(self) -> Self::Tally;
}

/// What a part has counted, or the difference that it found.
pub type Found<W> = Result<<W as Worker>::Tally, Difference>;

/// A part's name, and what does it.
pub type Part<W, A> = (&'static str, fn(&Runs<W, A>) -> Found<W>);

/// How the runs are done.
pub struct Runs<W: Worker, A> {
    pub subject: W::Subject,
    pub seed: u64,
    pub threads: usize,
    /// How much is done.
    pub amount: A,
}

/// How much of decoding or of coding.
pub struct Amount {
    /// How many random inputs or texts.
    pub random: u64,
    /// Of the inputs of three bytes, or of all characters, one in so many.
    pub every: u64,
    /// Also what has the greatest answer or needs the greatest store.
    pub greatest: bool,
}

impl<W: Worker, A: Sync> Runs<W, A> {
    /// With the first seed and all processors.
    pub fn new(subject: W::Subject, amount: A) -> Self {
        let threads = available_parallelism().map_or(1, usize::from);
        Runs { subject, seed: 1, threads, amount }
    }

    /// Does all parts and prints what each counted; false at a difference.
    pub fn all(&self, parts: &[Part<W, A>]) -> bool {
        let mut sum = W::Tally::default();
        for (name, part) in parts {
            let start = Instant::now();
            match part(self) {
                Ok(tally) => {
                    println!("{name}, {:.0} s: {tally}", start.elapsed().as_secs_f64());
                    sum.add(&tally);
                }
                Err(difference) => {
                    println!("{name}, seed {}: {difference}", self.seed);
                    return false;
                }
            }
        }
        println!("in all: {sum}\nno difference");
        true
    }

    /// Does `work` for each index below `total`, each thread with a worker of its own, and adds up
    /// the tallies; the first difference found stops all threads.
    pub fn each(&self, total: u64, work: impl Fn(&mut W, u64) -> Held + Sync) -> Found<W> {
        // How many indices a thread takes at a time.
        let block = (total / 256).clamp(1, 4_096);
        let (next, stopped) = (AtomicU64::new(0), AtomicBool::new(false));
        let one = || -> Found<W> {
            let mut worker = W::new(self.subject);
            while !stopped.load(Relaxed) {
                let first = next.fetch_add(block, Relaxed);
                if first >= total {
                    break;
                }
                for index in first..total.min(first + block) {
                    work(&mut worker, index).inspect_err(|_| stopped.store(true, Relaxed))?;
                }
            }
            Ok(worker.tally())
        };
        thread::scope(|scope| {
            let threads: Vec<_> = (0..self.threads).map(|_| scope.spawn(one)).collect();
            let mut sum = W::Tally::default();
            for thread in threads {
                sum.add(&thread.join().expect("no thread panics")?);
            }
            Ok(sum)
        })
    }

    /// The same for each of the list.
    pub fn each_of<T: Sync>(
        &self,
        list: &[T],
        work: impl Fn(&mut W, &T) -> Held + Sync,
    ) -> Found<W> {
        self.each(list.len() as u64, |worker, index| work(worker, &list[index as usize]))
    }
}

impl<W: Worker, A> Display for Runs<W, A> {
    fn fmt(&self, f: &mut Formatter<'_>) -> fmt::Result {
        write!(f, "seed {}, {} threads", self.seed, self.threads)
    }
}
