//! The same parts, put into plain vectors: what the memory alone costs, with no book, no rows to search and nothing proved.

use std::time::Instant;

/// The parts of each push.
const PARTS: [u32; 3] = [2, 12, 100];

/// The pushes of each round.
const PUSHES: u32 = 1_024;

/// The rounds, of which the fastest counts. In each the numbers of parts and of open pushes take turns.
const ROUNDS: u32 = 15;

/// How many pushes are open at once.
const OPEN: [u32; 3] = [1, 64, 1_024];

/// A block as large as the C library ever takes from the system by itself. Once it is given back, the library keeps what it
/// gets back of smaller ones, so that each round but the first works in memory that the process has.
const BLOCK: usize = 1 << 25;

struct Param {
    _mandatory: bool,
    _key: Vec<u8>,
    _value: Vec<u8>,
}

struct Part {
    _kind: Vec<u8>,
    _id: u32,
    _params: Vec<Param>,
    _payload: Vec<u8>,
}

struct Item {
    push: u32,
    part: Part,
}

fn small_part(id: u32) -> Part {
    Part {
        _kind: b"output".to_vec(),
        _id: id,
        _params: Vec::new(),
        _payload: vec![7; 16],
    }
}

/// The parts of all pushes, by groups of so many pushes that are open at once; in a group a part of each push in turn.
fn items_in_turn(parts: u32, open: u32) -> Vec<Item> {
    let groups = 0..PUSHES / open;
    let turns = groups.flat_map(|_| (0..parts).flat_map(move |index| (0..open).map(move |push| (push, index))));
    turns.map(|(push, index)| Item { push, part: small_part(index) }).collect()
}

#[inline(never)]
fn step(staged: &mut [Vec<Part>], item: Item) {
    staged[item.push as usize].push(item.part);
}

/// The nanoseconds of the puts alone, with so many lists at once.
fn time_steps(parts: u32, open: u32) -> u128 {
    let mut items = items_in_turn(parts, open).into_iter();
    let mut sum = 0;
    for _ in 0..PUSHES / open {
        let mut staged: Vec<Vec<Part>> = (0..open).map(|_| Vec::new()).collect();
        let start = Instant::now();
        for item in items.by_ref().take((open * parts) as usize) {
            step(&mut staged, item);
        }
        sum += start.elapsed().as_nanos();
    }
    sum
}

/// The nanoseconds of all lists, each from its making to its end.
fn time_pushes(parts: u32, open: u32) -> u128 {
    let mut items = items_in_turn(parts, open).into_iter();
    let start = Instant::now();
    for _ in 0..PUSHES / open {
        let mut staged: Vec<Vec<Part>> = (0..open).map(|_| Vec::new()).collect();
        for item in items.by_ref().take((open * parts) as usize) {
            step(&mut staged, item);
        }
    }
    start.elapsed().as_nanos()
}

fn main() {
    drop(std::hint::black_box(Vec::<u8>::with_capacity(BLOCK)));
    let mut least = [[(u128::MAX, u128::MAX); 3]; 3];
    for _ in 0..ROUNDS {
        for (row, parts) in least.iter_mut().zip(PARTS) {
            for (least, open) in row.iter_mut().zip(OPEN) {
                *least = (least.0.min(time_steps(parts, open)), least.1.min(time_pushes(parts, open)));
            }
        }
    }
    for (row, parts) in least.into_iter().zip(PARTS) {
        for ((steps, whole), open) in row.into_iter().zip(OPEN) {
            let step = steps as f64 / f64::from(PUSHES * parts);
            let push = whole / u128::from(PUSHES);
            println!("plain vectors, {parts} parts, {open} open: {step:.1} ns a step, {push} ns a push");
        }
    }
}
