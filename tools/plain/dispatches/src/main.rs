//! Stages of groups as plain Rust runs them: by the pool of `rayon`, and by threads that are started for each stage. What
//! `bench_dispatch dispatches` measures of stages with workers that stand by, beside both.
//!
//! Debian's `librust-rayon-dev` has `rayon`; in this folder:
//! `cargo run --release --offline --config 'source.crates-io.replace-with="debian"' --config
//! 'source.debian.directory="/usr/share/cargo/registry"'`.
use std::time::Instant;

/// How many dispatches are timed.
const DISPATCHES: u32 = 10_000;

/// Makes 31 times a number and an amount of it, so often.
fn mix(number: &mut u64, amount: u64, rounds: u32) {
    for _ in 0..rounds {
        *number = std::hint::black_box(number.wrapping_mul(31).wrapping_add(amount));
    }
}

/// One stage, each number by a task of the pool but the first, which the caller mixes.
fn by_pool(numbers: &mut [u64], rounds: u32) {
    let Some((first, others)) = numbers.split_first_mut() else {
        return;
    };
    rayon::in_place_scope(|scope| {
        for (place, number) in others.iter_mut().enumerate() {
            scope.spawn(move |_| mix(number, place as u64 + 2, rounds));
        }
        mix(first, 1, rounds);
    });
}

/// One stage, each number by a thread of its own but the first.
fn by_threads(numbers: &mut [u64], rounds: u32) {
    let Some((first, others)) = numbers.split_first_mut() else {
        return;
    };
    std::thread::scope(|scope| {
        for (place, number) in others.iter_mut().enumerate() {
            scope.spawn(move || mix(number, place as u64 + 2, rounds));
        }
        mix(first, 1, rounds);
    });
}

fn time(
    name: &str,
    layers: u32,
    groups: usize,
    rounds: u32,
    dispatches: u32,
    stage: fn(&mut [u64], u32),
) {
    let mut numbers = vec![1u64; groups];
    let start = Instant::now();
    for _ in 0..dispatches {
        for _ in 0..layers {
            stage(&mut numbers, rounds);
        }
    }
    let taken = start.elapsed().as_nanos() / u128::from(dispatches);
    let sum = numbers.iter().fold(0u64, |sum, it| sum.wrapping_add(*it));
    println!("{name}, {layers} stages of {groups} groups of {rounds} rounds: {taken} ns ({sum})");
}

fn main() {
    for workers in [1, 2, 4] {
        let pool = rayon::ThreadPoolBuilder::new()
            .num_threads(workers)
            .build()
            .expect("a pool");
        for (layers, groups) in [(1, 2), (1, 8), (16, 2), (16, 4)] {
            pool.install(|| {
                time(
                    &format!("pool of {workers}"),
                    layers,
                    groups,
                    1,
                    DISPATCHES,
                    by_pool,
                )
            });
        }
    }
    for (layers, groups) in [(1, 2), (1, 8), (16, 2), (16, 4)] {
        time("threads", layers, groups, 1, 1_000, by_threads);
    }
}
