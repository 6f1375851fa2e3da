//! The peer of `turn_counter`: the same additions under a std `Mutex`.
//! `mutex THREADS TURNS` prints the sum at the end, and whether all replies rose.
use std::sync::Mutex;
use std::thread;

fn climb(cell: &Mutex<u64>, turns: u32) -> bool {
    let mut rising = true;
    let mut least = 0u64;
    for amount in 0..turns {
        let mut sum = cell.lock().unwrap();
        let reply = *sum;
        *sum = reply.wrapping_add(u64::from(amount));
        drop(sum);
        rising &= least <= reply;
        least = reply.wrapping_add(u64::from(amount));
    }
    rising
}

fn main() {
    let numbers: Vec<u32> = std::env::args().skip(1).map(|word| word.parse().unwrap()).collect();
    let cell = Mutex::new(0u64);
    let rising = thread::scope(|scope| {
        let threads: Vec<_> =
            (0..numbers[0]).map(|_| scope.spawn(|| climb(&cell, numbers[1]))).collect();
        threads.into_iter().all(|thread| thread.join().unwrap())
    });
    println!("{} {rising}", cell.into_inner().unwrap());
}
