//! A plain pool of parked threads, beside which bench/standing.py times a standing heap.
//!
//!     pool THREADS PARTS
//!
//! A keeper opens parts: it hands each thread a ticket, and parks until each has handed in a note. A thread parks until its
//! ticket comes, and stores four numbers. It prints how many microseconds so many parts took, behind the first ones.
use std::sync::atomic::{AtomicBool, AtomicU64, Ordering::SeqCst};
use std::time::Instant;
use std::{env, thread};

const BEFORE: u64 = 200;

/// What the keeper and one thread tell each other, on lines of its own.
#[repr(align(128))]
#[derive(Default)]
struct Place {
    ticket: AtomicU64,
    note: AtomicU64,
    stored: AtomicU64,
}

fn play(place: &Place, is_over: &AtomicBool, keeper: &thread::Thread) {
    for part in 1.. {
        while place.ticket.load(SeqCst) != part {
            if is_over.load(SeqCst) {
                return;
            }
            thread::park();
        }
        for n in 0..4 {
            place.stored.store(n, SeqCst);
        }
        place.note.store(part, SeqCst);
        keeper.unpark();
    }
}

fn main() {
    let numbers: Vec<u64> = env::args().skip(1).map(|word| word.parse().unwrap()).collect();
    let (count, parts) = (numbers[0] as usize, numbers[1]);
    let places: Vec<Place> = (0..count).map(|_| Place::default()).collect();
    let (is_over, keeper) = (AtomicBool::new(false), thread::current());
    thread::scope(|scope| {
        let (is_over, keeper) = (&is_over, &keeper);
        let threads: Vec<_> = places.iter().map(|place| scope.spawn(move || play(place, is_over, keeper))).collect();
        let mut start = Instant::now();
        for part in 1..=parts + BEFORE {
            for (place, thread) in places.iter().zip(&threads) {
                place.ticket.store(part, SeqCst);
                thread.thread().unpark();
            }
            while places.iter().any(|place| place.note.load(SeqCst) != part) {
                thread::park();
            }
            if part == BEFORE {
                start = Instant::now();
            }
        }
        println!("{}", start.elapsed().as_micros());
        is_over.store(true, SeqCst);
        threads.iter().for_each(|thread| thread.thread().unpark());
    });
}
