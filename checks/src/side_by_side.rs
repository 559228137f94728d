//! Many cases, run by several threads at once, each with a [`Room`] of its own.
use crate::program::{self, Room, Slot, end_overdue};
use std::sync::Mutex;
use std::sync::atomic::{AtomicBool, AtomicU64, Ordering};
use std::thread;
use std::time::{Duration, Instant};

/// What all cases came to.
#[derive(Default)]
pub struct Sum {
    pub passed: u64,
    /// The number and what is wrong of each case that failed.
    pub failed: Vec<(u64, String)>,
    pub runs: u64,
    /// In kilobytes.
    pub most_memory: u64,
    pub longest: Duration,
    pub time: Duration,
    /// The number of cases that there are. Where the time is up before, not all have run.
    pub cases: u64,
}

/// A check fails where fewer than one case in this number could be run in its time.
const LEAST: u64 = 10;

impl Sum {
    /// The number of cases that were run.
    fn ran(&self) -> u64 {
        self.passed + self.failed.len() as u64
    }

    /// Prints the cases that failed, the figures, and the count as the last line, where a check that could run too few of its
    /// cases has failed once more. Ends the program.
    pub fn report(self, name: &str) -> ! {
        for (number, wrong) in self.failed.iter().take(20) {
            println!("failed: {name} {number}: {wrong}");
        }
        let rate = self.runs as f64 / self.time.as_secs_f64();
        println!(
            "{name}: {} runs in {:.1} s ({rate:.0} a second), the longest {:.2} s, the most memory {:.1} MB{}",
            self.runs,
            self.time.as_secs_f64(),
            self.longest.as_secs_f64(),
            self.most_memory as f64 / 1024.0,
            if self.ran() < self.cases { "; the time was up before all cases had run" } else { "" }
        );
        let mut failed = self.failed.len();
        if self.ran() < self.cases / LEAST {
            println!("failed: {name}: only {} of {} cases could be run in the time", self.ran(), self.cases);
            failed += 1;
        }
        println!("{} passed, {failed} failed", self.passed);
        std::process::exit(i32::from(failed > 0 || self.passed == 0));
    }
}

/// Runs the cases with the numbers from `first` on, `count` of them, until they are done or the time is up. Before its
/// first case each thread prepares itself.
pub fn run(
    threads: usize,
    first: u64,
    count: u64,
    time: Duration,
    prepare: impl Fn(usize) + Sync,
    case: impl Fn(u64, &mut Room) -> Result<(), String> + Sync,
) -> Sum {
    let program = program::path();
    let folder = std::env::temp_dir();
    let (next, done) = (AtomicU64::new(first), AtomicBool::new(false));
    let slots: Vec<Slot> = (0..threads).map(|_| Mutex::new(None)).collect();
    let sum = Mutex::new(Sum::default());
    let started = Instant::now();
    let work = |thread: usize| {
        let name = format!("checks-{}-{thread}", std::process::id());
        let mut room = Room::new(&program, &folder, &name, &slots[thread]).expect("the files of a room can't be made");
        prepare(thread);
        let mut mine = Sum::default();
        loop {
            let number = next.fetch_add(1, Ordering::Relaxed);
            if number >= first + count || started.elapsed() > time {
                break;
            }
            match case(number, &mut room) {
                Ok(()) => mine.passed += 1,
                Err(wrong) => mine.failed.push((number, wrong)),
            }
        }
        let mut sum = sum.lock().unwrap();
        sum.passed += mine.passed;
        sum.failed.append(&mut mine.failed);
        sum.runs += room.runs;
        sum.most_memory = sum.most_memory.max(room.most_memory);
        sum.longest = sum.longest.max(room.longest);
    };
    thread::scope(|scope| {
        scope.spawn(|| {
            while !done.load(Ordering::Relaxed) {
                thread::sleep(Duration::from_millis(100));
                slots.iter().for_each(end_overdue);
            }
        });
        let work = &work;
        let threads: Vec<_> = (0..threads).map(|thread| scope.spawn(move || work(thread))).collect();
        threads.into_iter().for_each(|thread| thread.join().expect("a thread of the check failed"));
        done.store(true, Ordering::Relaxed);
    });
    let mut sum = sum.into_inner().unwrap();
    sum.failed.sort();
    sum.time = started.elapsed();
    sum.cases = count;
    sum
}

/// The number of processors.
pub fn processors() -> usize {
    thread::available_parallelism().map_or(1, usize::from)
}
