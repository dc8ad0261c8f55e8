//! Times std's `HashMap` on what `crates/morsel_bench_keys` does: rows are numbered by keys in order of arrival, and counted and added up
//! by the numbers of their groups. Prints nanoseconds a row, the least of seven runs.
//!
//!     rustc -O -C target-cpu=x86-64-v2 bench/hash_map.rs -o hash_map && ./hash_map 10000000
use std::collections::HashMap;
use std::hash::Hash;
use std::hint::black_box;
use std::time::Instant;

/// Numbers in no order, the same as those of the program.
struct Numbers(u64);

impl Numbers {
    fn next(&mut self) -> u64 {
        self.0 ^= self.0 << 13;
        self.0 ^= self.0 >> 7;
        self.0 ^= self.0 << 17;
        self.0
    }
}

/// Tells the least time of seven runs, for each row.
fn tell(name: &str, rows: usize, mut run: impl FnMut() -> usize) {
    let mut best = f64::INFINITY;
    let mut count = 0;
    for _ in 0..7 {
        let begun = Instant::now();
        count = black_box(run());
        best = best.min(begun.elapsed().as_nanos() as f64 / rows as f64);
    }
    println!("{name}: {count}, {best:.3} ns each");
}

/// Numbers keys in order of arrival, in pieces of 65,536 rows. How many keys there are.
fn number<K: Copy + Eq + Hash>(keys: &[K], out: &mut [u32]) -> usize {
    let mut numbers: HashMap<K, u32> = HashMap::new();
    for piece in keys.chunks(out.len()) {
        for (at, key) in out.iter_mut().zip(piece) {
            let next = numbers.len() as u32;
            *at = *numbers.entry(*key).or_insert(next);
        }
    }
    numbers.len()
}

fn main() {
    let rows = std::env::args().nth(1).and_then(|word| word.parse().ok()).unwrap_or(10_000_000);
    let mut out = vec![0; 65536];
    for distinct in [5_000, 1_000_000] {
        let mut numbers = Numbers(88172645463325252);
        let keys: Vec<i64> = (0..rows).map(|_| (numbers.next() % distinct) as i64).collect();
        tell(&format!("numbers of keys, of {distinct} whole numbers"), rows, || number(&keys, &mut out));
    }
    let mut numbers = Numbers(88172645463325252);
    let texts: Vec<String> = (0..rows).map(|_| format!("key{}", 100_000 + numbers.next() % 100_000)).collect();
    let keys: Vec<&str> = texts.iter().map(String::as_str).collect();
    tell("numbers of keys, of 100000 texts of 9 bytes", rows, || number(&keys, &mut out));
    let rows_of_groups: Vec<(u32, i64)> = (0..rows).map(|_| ((numbers.next() % 5_000) as u32, numbers.next() as i64 % 1_000)).collect();
    tell("len and sum of 5,000 groups, in a HashMap by group", rows, || {
        let mut groups: HashMap<u32, (u64, i64)> = HashMap::new();
        for (group, value) in &rows_of_groups {
            let state = groups.entry(*group).or_insert((0, 0));
            *state = (state.0 + 1, state.1 + value);
        }
        groups.len()
    });
}
