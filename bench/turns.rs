//! Callers in threads that append to a list under a `Mutex`, after some rounds of work each: what bench/ times turns beside.

use std::sync::Mutex;

fn found_after(rounds: u32) -> u64 {
    let mut number: u64 = 88_172_645_463_325_252;
    for _ in 0..rounds {
        number ^= number << 13;
        number ^= number >> 7;
        number ^= number << 17;
    }
    number
}

fn main() {
    let numbers: Vec<u32> = std::env::args().skip(1).map(|word| word.parse().unwrap()).collect();
    let [callers, turns, rounds] = numbers[..] else {
        panic!("CALLERS TURNS ROUNDS")
    };
    let log = Mutex::new(Vec::new());
    std::thread::scope(|scope| {
        for caller in 0..callers {
            let log = &log;
            scope.spawn(move || {
                for _ in 0..turns {
                    let mut entries = log.lock().unwrap();
                    if found_after(rounds) != 0 {
                        entries.push(caller);
                    }
                }
            });
        }
    });
    let entries = log.into_inner().unwrap();
    println!("{} entries", entries.len());
    for caller in 0..callers {
        let count = entries.iter().filter(|entry| **entry == caller).count();
        println!("caller {caller}: {count}");
    }
}
