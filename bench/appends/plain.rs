//! Appends to queues of plain Rust, to compare the claim buffer with: a `VecDeque` under a `Mutex`, and where it was built
//! with them (`--cfg crossbeam`) the two queues of `crossbeam_queue`. Each has at most 256 entries, as the claim buffer.
//!
//! Prints lines `QUEUE THREADS APPENDS NANOSECONDS`: so many threads append entries that were made before, against one that
//! takes them and lets them go. Then lines `QUEUE burst EMPTY FULL`: what an append takes, in nanoseconds, where at most 31
//! entries wait and where 224 or more do, by one thread alone.

use std::collections::VecDeque;
use std::hint::black_box;
use std::sync::{Arc, Mutex};
use std::thread;
use std::time::Instant;

const PLACES: usize = 256;
const APPENDS: usize = 400_000;
const BURSTS: usize = 2_000;
const GROUP: usize = 32;

/// About as large as a command with its record.
struct Entry {
    command: [u64; 16],
    bytes: Vec<u8>,
}

impl Entry {
    fn new(number: usize) -> Entry {
        Entry {
            command: [number as u64; 16],
            bytes: vec![number as u8; 18],
        }
    }
}

trait Queue: Send + Sync + 'static {
    const NAME: &'static str;

    fn new() -> Self;

    /// Appends, or hands the entry back where there is no room.
    fn append(&self, entry: Entry) -> Result<(), Entry>;

    fn take(&self) -> Option<Entry>;
}

struct Locked(Mutex<VecDeque<Entry>>);

impl Queue for Locked {
    const NAME: &'static str = "mutex_vecdeque";

    fn new() -> Locked {
        Locked(Mutex::new(VecDeque::with_capacity(PLACES)))
    }

    fn append(&self, entry: Entry) -> Result<(), Entry> {
        let mut queue = self.0.lock().unwrap();
        if queue.len() == PLACES {
            return Err(entry);
        }
        queue.push_back(entry);
        Ok(())
    }

    fn take(&self) -> Option<Entry> {
        self.0.lock().unwrap().pop_front()
    }
}

#[cfg(crossbeam)]
impl Queue for crossbeam_queue::ArrayQueue<Entry> {
    const NAME: &'static str = "crossbeam_array";

    fn new() -> Self {
        crossbeam_queue::ArrayQueue::new(PLACES)
    }

    fn append(&self, entry: Entry) -> Result<(), Entry> {
        self.push(entry)
    }

    fn take(&self) -> Option<Entry> {
        self.pop()
    }
}

#[cfg(crossbeam)]
impl Queue for crossbeam_queue::SegQueue<Entry> {
    const NAME: &'static str = "crossbeam_seg";

    fn new() -> Self {
        crossbeam_queue::SegQueue::new()
    }

    // It has no bound, and to count what waits would cost it more than the append.
    fn append(&self, entry: Entry) -> Result<(), Entry> {
        self.push(entry);
        Ok(())
    }

    fn take(&self) -> Option<Entry> {
        self.pop()
    }
}

/// Appends all, trying again where there is no room.
fn append_all(queue: &impl Queue, entries: Vec<Entry>) {
    for mut entry in entries {
        while let Err(back) = queue.append(entry) {
            entry = back;
            thread::yield_now();
        }
    }
}

fn take_all(queue: &impl Queue, count: usize) {
    let mut taken = 0;
    while taken < count {
        match queue.take() {
            Some(entry) => {
                black_box((entry.command[0], entry.bytes.len()));
                taken += 1;
            }
            None => thread::yield_now(),
        }
    }
}

fn threads<Q: Queue>(count: usize) {
    let queue = Arc::new(Q::new());
    let each = APPENDS / count;
    let lists: Vec<Vec<Entry>> = (0..count)
        .map(|_| (0..each).map(Entry::new).collect())
        .collect();
    // As for the claim buffer, the clock starts before the threads do.
    let start = Instant::now();
    let appending: Vec<_> = lists
        .into_iter()
        .map(|entries| {
            let queue = queue.clone();
            thread::spawn(move || append_all(&*queue, entries))
        })
        .collect();
    take_all(&*queue, each * count);
    let nanoseconds = start.elapsed().as_nanos();
    for thread in appending {
        thread.join().unwrap();
    }
    println!("{} {count} {} {nanoseconds}", Q::NAME, each * count);
}

/// Fills the queue in groups and empties it, and times the first and the last group of each time.
fn bursts<Q: Queue>() {
    let queue = Q::new();
    let mut spare: Vec<Entry> = (0..PLACES).map(Entry::new).collect();
    let mut times = [0; PLACES / GROUP];
    for _ in 0..BURSTS {
        for time in &mut times {
            let start = Instant::now();
            for _ in 0..GROUP {
                assert!(queue.append(spare.pop().unwrap()).is_ok(), "there is room");
            }
            *time += start.elapsed().as_nanos();
        }
        while let Some(entry) = queue.take() {
            spare.push(entry);
        }
    }
    let each = |time: u128| time as f64 / (BURSTS * GROUP) as f64;
    println!("{} burst {:.1} {:.1}", Q::NAME, each(times[0]), each(times[PLACES / GROUP - 1]));
}

fn measure<Q: Queue>() {
    for count in [1, 2, 4, 8] {
        threads::<Q>(count);
    }
    bursts::<Q>();
}

fn main() {
    measure::<Locked>();
    #[cfg(crossbeam)]
    {
        measure::<crossbeam_queue::ArrayQueue<Entry>>();
        measure::<crossbeam_queue::SegQueue<Entry>>();
    }
}
