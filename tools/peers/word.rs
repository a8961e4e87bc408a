//! One limit word in plain Rust, to measure beside: `word THREADS ROUNDS` has each thread ask for a permit and give it
//! back so many times, by the steps of `budget::WordBudget`: a load, an exchange, a subtraction. Prints how often it
//! got one.
use std::sync::atomic::{AtomicU64, Ordering::SeqCst};

const LIMIT: u64 = 65_535;

fn ask_and_give_back(word: &AtomicU64, rounds: u64) -> u64 {
    let mut given = 0;
    for _ in 0..rounds {
        let seen = word.load(SeqCst);
        if seen == LIMIT || word.compare_exchange(seen, seen + 1, SeqCst, SeqCst).is_err() {
            continue;
        }
        given += 1;
        word.fetch_sub(1, SeqCst);
    }
    given
}

fn main() {
    let words: Vec<String> = std::env::args().collect();
    let number = |place: usize| words[place].parse::<u64>().expect("a number");
    let word = AtomicU64::new(0);
    let given: u64 = std::thread::scope(|scope| {
        let threads: Vec<_> = (0..number(1)).map(|_| scope.spawn(|| ask_and_give_back(&word, number(2)))).collect();
        threads.into_iter().map(|it| it.join().unwrap()).sum()
    });
    println!("{given}");
}
