// The same work under the Mutex of Rust's own library: `mutex ROUNDS`.
use std::sync::Mutex;
use std::time::{Duration, Instant};

fn tell(what: &str, took: Duration, turns: u64) {
    println!("{what} {turns} turns {} ns", took.as_nanos());
}

fn add(lock: &Mutex<Vec<u64>>, who: u64, rounds: u64) {
    for _ in 0..rounds {
        lock.lock().unwrap().push(who);
    }
}

fn main() {
    let rounds: u64 = std::env::args().nth(1).and_then(|text| text.parse().ok()).unwrap_or(1000);

    let lock = Mutex::new(Vec::new());
    let start = Instant::now();
    add(&lock, 0, rounds);
    tell("Mutex of Rust, alone", start.elapsed(), lock.lock().unwrap().len() as u64);

    let lock = Mutex::new(Vec::new());
    let start = Instant::now();
    std::thread::scope(|scope| {
        for who in 0..8 {
            let lock = &lock;
            scope.spawn(move || add(lock, who, rounds / 8));
        }
    });
    tell("Mutex of Rust, eight threads", start.elapsed(), lock.lock().unwrap().len() as u64);
}
