//! Decoding and encoding of calls: the proved codec against the plain Rust one, in one run, both built for release.
//! Buffers are reused and not cleared. Prints nanoseconds for each call, the best of nine rounds, and the ratio.
use bench::proved;
use oracle::random::Random;
use oracle::codec::{self as plain, Call};
use std::hint::black_box;
use std::time::Instant;

const CALLS: usize = 4096;
const ROUNDS: usize = 9;
const TURNS: usize = 50;

/// Nanoseconds for one of `CALLS`, the best of all rounds.
fn best(mut work: impl FnMut()) -> f64 {
    let mut best = f64::MAX;
    for _ in 0..ROUNDS {
        let start = Instant::now();
        for _ in 0..TURNS {
            work();
        }
        best = best.min(start.elapsed().as_nanos() as f64 / (CALLS * TURNS) as f64);
    }
    best
}

fn row(what: &str, proved: f64, plain: f64) {
    println!("| {what} | {proved:.1} | {plain:.1} | {:.2} |", proved / plain);
}

fn main() {
    let mut random = Random::new(1);
    let calls: Vec<Call> = (0..CALLS)
        .map(|_| match random.below(8) {
            0 => Call::Still { log: 3, time: random.next() },
            1 => Call::Out { from: random.next(), most: 100 },
            _ => Call::Put { log: 1, time: random.next(), key: random.next(), value: random.next() },
        })
        .collect();
    let encoded: Vec<Vec<u8>> = calls
        .iter()
        .map(|call| {
            let mut bytes = Vec::new();
            plain::encode(*call, &mut bytes);
            bytes
        })
        .collect();
    println!("| | proved, ns | plain, ns | ratio |");
    println!("|---|---|---|---|");
    let a = best(|| encoded.iter().for_each(|bytes| {
            let _ = black_box(proved::decode(black_box(bytes)));
        }));
    let b = best(|| encoded.iter().for_each(|bytes| {
            let _ = black_box(plain::decode(black_box(bytes)));
        }));
    row("decode", a, b);
    let mut out = [0; 32];
    let a = best(|| {
        calls.iter().for_each(|call| {
            black_box(proved::encode(black_box(*call), &mut out));
            black_box(&out);
        })
    });
    let mut vec = Vec::with_capacity(32);
    let b = best(|| {
        calls.iter().for_each(|call| {
            vec.clear();
            plain::encode(black_box(*call), &mut vec);
            black_box(&vec);
        })
    });
    row("encode", a, b);
}
