//! The frames of `bench_scene`'s documents, as plain Rust does them that keeps nothing of a frame:
//! `rustc -O scene.rs && ./scene drift 10000 10`.
//!
//! Columns by index beside a mask of 64 bits a word, a map from id to index, a list of free indices, and for each id those that are
//! bound to it. It prints a checksum of what is left.
use std::collections::HashMap;

const COMMANDS: u64 = 1000;

#[derive(Default)]
struct Column {
    mask: Vec<u64>,
    values: Vec<i64>,
}

impl Column {
    fn put(&mut self, index: usize, value: i64) {
        if index >= self.values.len() {
            self.values.resize(index + 1, 0);
            self.mask.resize(index / 64 + 1, 0);
        }
        self.mask[index / 64] |= 1 << (index % 64);
        self.values[index] = value;
    }

    fn take(&mut self, index: usize) {
        if let Some(word) = self.mask.get_mut(index / 64) {
            *word &= !(1 << (index % 64));
        }
    }

    fn each(&self, mut visit: impl FnMut(usize, i64)) {
        for (place, word) in self.mask.iter().enumerate() {
            let mut left = *word;
            while left != 0 {
                let index = 64 * place + left.trailing_zeros() as usize;
                left &= left - 1;
                visit(index, self.values[index]);
            }
        }
    }

    /// Adds a number to each value, or the value of another column where both have one.
    fn add(&mut self, by: Option<&Column>, each: i64) -> Result<(), &'static str> {
        for place in 0..self.mask.len() {
            let mut left = self.mask[place];
            if let Some(by) = by {
                left &= by.mask.get(place).copied().unwrap_or(0);
            }
            while left != 0 {
                let index = 64 * place + left.trailing_zeros() as usize;
                left &= left - 1;
                let gain = by.map_or(each, |by| by.values[index]);
                self.values[index] = self.values[index].checked_add(gain).ok_or("overflow")?;
            }
        }
        Ok(())
    }
}

#[derive(Default)]
struct World {
    next: u64,
    indices: HashMap<u64, usize>,
    ids: Vec<u64>,
    free: Vec<usize>,
    hp: Column,
    pos: Column,
    vel: Column,
    bond: Column,
    holders: HashMap<u64, Vec<u64>>,
}

impl World {
    fn spawn(&mut self) -> usize {
        let id = self.next;
        self.next += 1;
        let index = self.free.pop().unwrap_or_else(|| {
            self.ids.push(0);
            self.ids.len() - 1
        });
        self.ids[index] = id;
        self.indices.insert(id, index);
        index
    }

    fn bind(&mut self, index: usize, to: u64) {
        self.bond.put(index, to as i64);
        let id = self.ids[index];
        self.holders.entry(to).or_default().push(id);
    }

    fn kill(&mut self, id: u64) {
        let mut dying = vec![id];
        while let Some(id) = dying.pop() {
            let Some(index) = self.indices.remove(&id) else { continue };
            for column in [&mut self.hp, &mut self.pos, &mut self.vel, &mut self.bond] {
                column.take(index);
            }
            self.free.push(index);
            if let Some(holders) = self.holders.remove(&id) {
                dying.extend(holders);
            }
        }
    }

    fn put_hp(&mut self, id: u64, value: i64) {
        if let Some(&index) = self.indices.get(&id) {
            self.hp.put(index, value);
        }
    }
}

fn load(way: &str, count: u64) -> World {
    let mut world = World::default();
    for place in 0..count {
        let index = world.spawn();
        match way {
            "drift" => {
                world.pos.put(index, place as i64);
                world.vel.put(index, 1);
            }
            "five" => {
                world.hp.put(index, 1_000_000_000);
                world.pos.put(index, place as i64);
                world.vel.put(index, 1);
            }
            "sparse" if place % 100 == 0 => {
                world.hp.put(index, 1);
                world.pos.put(index, place as i64);
                world.vel.put(index, 1);
            }
            "chains" if place % 1000 != 0 => world.bind(index, place - 1),
            "star" if place != 0 => world.bind(index, 0),
            "bonds" if place % 2 != 0 => world.bind(index, place - 1),
            _ => world.hp.put(index, 1),
        }
    }
    world
}

fn frame(world: &mut World, way: &str, count: u64, number: u64) -> Result<(), &'static str> {
    match way {
        "drift" | "sparse" => world.pos.add(Some(&world.vel), 0)?,
        "five" => {
            world.vel.add(None, 1)?;
            world.pos.add(Some(&world.vel), 0)?;
            world.hp.add(None, -1)?;
            let mut dead = Vec::new();
            world.hp.each(|index, hp| if hp <= 0 { dead.push(world.ids[index]) });
            for id in dead {
                world.kill(id);
            }
        }
        "commands" => {
            for place in 0..COMMANDS / 4 {
                let one = count.saturating_sub(1).saturating_sub(place);
                world.put_hp(one, number as i64);
                world.put_hp(one.saturating_sub(COMMANDS / 4), number as i64);
                world.kill(number * (COMMANDS / 4) + place);
                let index = world.spawn();
                world.hp.put(index, number as i64);
            }
        }
        "chains" => world.kill(number * 1000),
        "star" => world.kill(0),
        "bonds" => (0..COMMANDS).for_each(|place| world.kill(number * 2 * COMMANDS + 2 * place)),
        _ => {}
    }
    Ok(())
}

fn main() {
    let words: Vec<String> = std::env::args().skip(1).collect();
    let way = words.first().map_or("drift", |word| word.as_str());
    let number = |place: usize| words.get(place).and_then(|word| word.parse().ok()).unwrap_or(10_000u64);
    let (count, frames) = (number(1), number(2));
    let mut world = load(way, count);
    for at in 0..frames {
        frame(&mut world, way, count, at).unwrap();
    }
    let mut sum = world.indices.len() as i64;
    for column in [&world.hp, &world.pos, &world.vel] {
        column.each(|index, value| sum = sum.wrapping_mul(31).wrapping_add(value ^ world.ids[index] as i64));
    }
    println!("{way} {count} {frames}: {} entities, sum {sum}", world.indices.len());
}
