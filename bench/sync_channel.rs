//! Times std's bounded channel with room for one value on what `crates/morsel_bench_lanes` does with a connector. The code
//! of that channel is the one of the crate `crossbeam_channel`. Prints nanoseconds a value, the least of seven runs.
//!
//!     rustc -O -C target-cpu=x86-64-v2 bench/sync_channel.rs -o sync_channel && ./sync_channel 1000000
use std::hint::black_box;
use std::sync::mpsc::sync_channel;
use std::thread;
use std::time::Instant;

/// Tells the least time of seven runs, for each value.
fn tell(name: &str, values: u64, mut run: impl FnMut(u64) -> u64) {
    let mut best = f64::INFINITY;
    let mut count = 0;
    for _ in 0..7 {
        let begun = Instant::now();
        count = black_box(run(values));
        best = best.min(begun.elapsed().as_nanos() as f64 / values as f64);
    }
    println!("{name}: {count}, {best:.3} ns each");
}

/// Each value is sent and then taken, within one thread. How many came.
fn within(values: u64) -> u64 {
    let (sender, receiver) = sync_channel(1);
    let mut count = 0;
    for value in 0..values {
        if sender.try_send(value).is_ok() && receiver.try_recv().is_ok() {
            count += 1;
        }
    }
    count
}

/// One thread sends each value, and another one takes them. How many came, or 0 where one came out of order.
fn across(values: u64) -> u64 {
    let (sender, receiver) = sync_channel(1);
    thread::scope(|threads| {
        threads.spawn(move || (0..values).all(|value| sender.send(value).is_ok()));
        let mut count = 0;
        while let Ok(value) = receiver.recv() {
            if value != count {
                return 0;
            }
            count += 1;
        }
        count
    })
}

fn main() {
    let asked = std::env::args().nth(1).and_then(|word| word.parse().ok());
    let values = asked.unwrap_or(1000000);
    tell("one value through a channel, values", values, within);
    tell("one value from one thread to another, values", values, across);
}
