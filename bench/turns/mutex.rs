// The lock of std, nobody else there: the same value is moved out, touched, and moved in. The nanoseconds of the best round.
use std::hint::black_box;
use std::sync::Mutex;
use std::time::Instant;

struct Load {
    count: u64,
    rest: [u64; 99],
}

#[inline(never)]
fn take_locks(lock: &Mutex<Option<Load>>, turns: u32) {
    for i in 0..turns {
        let mut guard = lock.lock().unwrap();
        if let Some(mut load) = guard.take() {
            load.count = load.count.wrapping_add(u64::from(i));
            *guard = black_box(Some(load));
        }
    }
}

fn main() {
    let turns = 1_000_000;
    let lock = Mutex::new(Some(Load { count: 0, rest: [0; 99] }));
    let mut best = u128::MAX;
    for _ in 0..20 {
        let begun = Instant::now();
        take_locks(black_box(&lock), turns);
        best = best.min(begun.elapsed().as_nanos());
    }
    let load = lock.into_inner().unwrap().unwrap();
    println!("std lock {} ns ({})", best / u128::from(turns), load.count ^ load.rest[7]);
}
