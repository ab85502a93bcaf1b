//! What `bench_joins phases` measures, as plain Rust does it: `rustc -O phases.rs && ./phases`.
//!
//! A claim counter and sets of four layers of atomic words, shared by threads; each thread keeps a list of what it created.
use std::sync::atomic::{AtomicU64, Ordering::SeqCst};
use std::sync::Mutex;
use std::time::Instant;

const COUNT: u32 = 200_000;
const ROUNDS: u32 = 5;

struct Layers {
    first: Vec<AtomicU64>,
    second: Vec<AtomicU64>,
    third: Vec<AtomicU64>,
    fourth: AtomicU64,
}

fn words(count: usize) -> Vec<AtomicU64> {
    (0..count).map(|_| AtomicU64::new(0)).collect()
}

impl Layers {
    fn new(indices: usize) -> Layers {
        let first = (indices + 63) / 64;
        let second = (first + 63) / 64;
        let third = (second + 63) / 64;
        Layers { first: words(first), second: words(second), third: words(third), fourth: AtomicU64::new(0) }
    }

    fn add(&self, id: u32) -> bool {
        let id = id as usize;
        let (one, two, three) = (id / 64, id / 4096, id / 262_144);
        let found = self.first[one].fetch_or(1 << (id % 64), SeqCst);
        self.second[two].fetch_or(1 << (one % 64), SeqCst);
        self.third[three].fetch_or(1 << (two % 64), SeqCst);
        self.fourth.fetch_or(1 << (three % 64), SeqCst);
        (found >> (id % 64)) & 1 == 1
    }

    fn contains(&self, id: u32) -> bool {
        (self.first[id as usize / 64].load(SeqCst) >> (id % 64)) & 1 == 1
    }
}

struct Phase {
    claim: AtomicU64,
    raised: Layers,
    killed: Layers,
    generations: Vec<i32>,
}

impl Phase {
    fn new(reserve: u32) -> Phase {
        Phase {
            claim: AtomicU64::new(0),
            raised: Layers::new(reserve as usize),
            killed: Layers::new(reserve as usize),
            generations: vec![0; reserve as usize],
        }
    }

    fn create(&self, known: &mut Vec<(u32, i32)>) -> Option<(u32, i32)> {
        let id = self.claim.fetch_add(1, SeqCst) as u32;
        let generation = *self.generations.get(id as usize)?;
        self.raised.add(id);
        known.push((id, 1 - generation));
        Some((id, 1 - generation))
    }

    fn delete(&self, (id, generation): (u32, i32)) -> bool {
        let last = self.generations[id as usize];
        let alive = last == generation || (1 - last == generation && self.raised.contains(id));
        if alive {
            self.killed.add(id);
        }
        alive
    }
}

fn work(phase: &Phase, count: u32) -> u32 {
    let mut known = Vec::with_capacity(count as usize);
    let mut made = 0;
    for _ in 0..count {
        if let Some(entity) = phase.create(&mut known) {
            made += phase.delete(entity) as u32;
        }
    }
    made
}

fn by_threads(threads: u32) -> u64 {
    let phase = Phase::new(COUNT);
    let began = Instant::now();
    let made: u32 = if threads == 1 {
        work(&phase, COUNT)
    } else {
        std::thread::scope(|scope| {
            let all: Vec<_> = (0..threads).map(|_| scope.spawn(|| work(&phase, COUNT / threads))).collect();
            all.into_iter().map(|one| one.join().unwrap()).sum()
        })
    };
    assert_eq!(made, COUNT);
    began.elapsed().as_micros() as u64
}

struct Alone {
    generations: Vec<i32>,
    raised: Vec<u64>,
    killed: Vec<u64>,
    next: u32,
}

impl Alone {
    fn create(&mut self) -> u32 {
        let id = self.next;
        self.next += 1;
        if id as usize >= self.generations.len() {
            self.generations.push(0);
        }
        if id as usize / 64 >= self.raised.len() {
            self.raised.push(0);
            self.killed.push(0);
        }
        self.raised[id as usize / 64] |= 1 << (id % 64);
        id
    }

    fn delete(&mut self, id: u32) -> bool {
        let alive = (self.raised[id as usize / 64] >> (id % 64)) & 1 == 1;
        self.killed[id as usize / 64] |= 1 << (id % 64);
        alive
    }
}

fn by_lock(threads: u32) -> u64 {
    let all = Mutex::new(Alone { generations: Vec::new(), raised: Vec::new(), killed: Vec::new(), next: 0 });
    let began = Instant::now();
    std::thread::scope(|scope| {
        for _ in 0..threads {
            scope.spawn(|| {
                for _ in 0..COUNT / threads {
                    let id = all.lock().unwrap().create();
                    assert!(all.lock().unwrap().delete(id));
                }
            });
        }
    });
    began.elapsed().as_micros() as u64
}

fn sets() -> (u64, u64) {
    let set = Layers::new(16_777_216);
    let began = Instant::now();
    let mut new = 0u32;
    for id in 0..COUNT {
        new += !set.add(id) as u32;
    }
    let added = began.elapsed().as_micros() as u64;
    assert_eq!(new, COUNT);
    let began = Instant::now();
    let found: u32 = (0..COUNT).map(|id| set.contains(std::hint::black_box(id)) as u32).sum();
    assert_eq!(found, COUNT);
    (added, began.elapsed().as_micros() as u64)
}

fn least(of: impl Fn() -> u64) -> u64 {
    (0..ROUNDS).map(|_| of()).min().unwrap()
}

fn main() {
    for threads in [1, 2, 4] {
        println!("{COUNT} created and deleted by {threads} threads: atomics {} us, one lock {} us", least(|| by_threads(threads)), least(|| by_lock(threads)));
    }
    println!("set of {COUNT}: add {} us, find {} us", least(|| sets().0), least(|| sets().1));
}
