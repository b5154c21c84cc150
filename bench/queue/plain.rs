//! Items a second through `std::sync::mpsc::sync_channel` and through a `Mutex<VecDeque>`, by 1, 2 and 4 putters and one
//! taker, each on a thread of its own. The items are as large as those of the server's queue, and take no memory.

use std::collections::VecDeque;
use std::sync::Mutex;
use std::sync::mpsc::{TrySendError, sync_channel};
use std::thread;
use std::time::{Duration, Instant};

const PARTS: u32 = 10_000;
const ROUNDS: u32 = 20;

#[allow(dead_code)]
struct Param {
    mandatory: bool,
    key: Vec<u8>,
    value: Vec<u8>,
}

#[allow(dead_code)]
struct Part {
    kind: Vec<u8>,
    id: u32,
    params: Vec<Param>,
    payload: Vec<u8>,
}

#[allow(dead_code)]
struct Item {
    push: u32,
    index: u32,
    part: Part,
}

fn item(push: u32, index: u32) -> Item {
    let part = Part {
        kind: Vec::new(),
        id: index,
        params: Vec::new(),
        payload: Vec::new(),
    };
    Item { push, index, part }
}

/// The channel, whose putters and taker sleep while they wait.
fn by_channel(putters: u32, capacity: usize) -> Duration {
    let start = Instant::now();
    let (sender, receiver) = sync_channel(capacity);
    thread::scope(|scope| {
        for push in 0..putters {
            let sender = sender.clone();
            scope.spawn(move || {
                for index in 0..PARTS {
                    sender.send(item(push, index)).unwrap();
                }
            });
        }
        for _ in 0..putters * PARTS {
            receiver.recv().unwrap();
        }
    });
    start.elapsed()
}

/// The channel, whose putters and taker yield and try again, as at the server's queue.
fn by_channel_yielding(putters: u32, capacity: usize) -> Duration {
    let start = Instant::now();
    let (sender, receiver) = sync_channel(capacity);
    thread::scope(|scope| {
        for push in 0..putters {
            let sender = sender.clone();
            scope.spawn(move || {
                for index in 0..PARTS {
                    let mut next = item(push, index);
                    while let Err(TrySendError::Full(back)) = sender.try_send(next) {
                        next = back;
                        thread::yield_now();
                    }
                }
            });
        }
        for _ in 0..putters * PARTS {
            while receiver.try_recv().is_err() {
                thread::yield_now();
            }
        }
    });
    start.elapsed()
}

/// The list under a lock, whose putters and taker yield and try again.
fn by_lock(putters: u32, capacity: usize) -> Duration {
    let start = Instant::now();
    let queue = Mutex::new(VecDeque::with_capacity(capacity));
    thread::scope(|scope| {
        for push in 0..putters {
            let queue = &queue;
            scope.spawn(move || {
                for index in 0..PARTS {
                    let mut next = Some(item(push, index));
                    while next.is_some() {
                        let mut held = queue.lock().unwrap();
                        if held.len() < capacity {
                            held.extend(next.take());
                        } else {
                            drop(held);
                            thread::yield_now();
                        }
                    }
                }
            });
        }
        for _ in 0..putters * PARTS {
            while queue.lock().unwrap().pop_front().is_none() {
                thread::yield_now();
            }
        }
    });
    start.elapsed()
}

fn main() {
    let ways: [(&str, fn(u32, usize) -> Duration); 3] = [
        ("sync_channel, sleeping", by_channel),
        ("sync_channel, yielding", by_channel_yielding),
        ("Mutex<VecDeque>", by_lock),
    ];
    for (name, run) in ways {
        for capacity in [1, 64, 1_024, 65_536] {
            for putters in [1, 2, 4] {
                let taken: Duration = (0..ROUNDS).map(|_| run(putters, capacity)).sum();
                let items = u64::from(ROUNDS) * u64::from(PARTS) * u64::from(putters);
                let rate = items as f64 / taken.as_secs_f64();
                eprintln!("{name}\t{capacity}\t{putters}\t{rate:.0}");
            }
        }
    }
}
