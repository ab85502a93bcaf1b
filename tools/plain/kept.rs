//! What a frame of `drift` costs in plain Rust that keeps the scene by index as `scene` does: `rustc -O kept.rs && ./kept 10000 10`.
//!
//! All that is new is read before anything that is kept changes; each entry that is touched leaves, its row is written, and it
//! enters, and each counts.
#[derive(Clone)]
enum Datum {
    Number(i64),
    Reference(Option<u64>),
}

struct Kept {
    seats: Vec<Option<u64>>,
    rows: Vec<Option<Datum>>,
    changes: u64,
}

fn each(words: &[u64], mut visit: impl FnMut(usize)) {
    for (place, word) in words.iter().enumerate() {
        let mut left = *word;
        while left != 0 {
            visit(64 * place + left.trailing_zeros() as usize);
            left &= left - 1;
        }
    }
}

struct World {
    values: Vec<i64>,
    by: Vec<i64>,
    mask: Vec<u64>,
    ids: Vec<u64>,
}

#[inline(never)]
fn drift(world: &mut World, dirty: &mut [u64]) -> Option<()> {
    for place in 0..world.mask.len() {
        let mut left = world.mask[place];
        dirty[place] |= left;
        while left != 0 {
            let index = 64 * place + left.trailing_zeros() as usize;
            left &= left - 1;
            world.values[index] = world.values[index].checked_add(world.by[index])?;
        }
    }
    Some(())
}

#[inline(never)]
fn keep(world: &World, dirty: &[u64], kept: &mut Kept) {
    let mut found: Vec<(u32, Datum)> = Vec::new();
    each(dirty, |index| {
        if world.mask[index / 64] >> (index % 64) & 1 == 1 {
            found.push((index as u32, Datum::Number(world.values[index])));
        }
    });
    let mut entries: Vec<(u32, u64)> = Vec::new();
    each(dirty, |index| {
        if world.mask[index / 64] >> (index % 64) & 1 == 1 {
            entries.push((index as u32, world.ids[index]));
        }
    });
    each(dirty, |index| {
        if kept.seats[index].take().is_some() {
            kept.changes = kept.changes.saturating_add(1);
        }
    });
    each(dirty, |index| kept.rows[index] = None);
    for (index, datum) in found {
        kept.rows[index as usize] = Some(datum);
    }
    for (index, id) in entries {
        kept.seats[index as usize] = Some(id);
        kept.changes = kept.changes.saturating_add(1);
    }
}

fn main() {
    let mut words = std::env::args().skip(1);
    let count: usize = words.next().unwrap().parse().unwrap();
    let frames: u32 = words.next().unwrap().parse().unwrap();
    let mut mask = vec![0u64; count / 64 + 1];
    for index in 0..count {
        mask[index / 64] |= 1 << (index % 64);
    }
    let mut world = World {
        values: (0..count as i64).collect(),
        by: vec![3; count],
        mask,
        ids: (0..count as u64).collect(),
    };
    let mut kept = Kept {
        seats: (0..count as u64).map(Some).collect(),
        rows: (0..count as i64)
            .map(|it| {
                Some(if it == 0 {
                    Datum::Reference(None)
                } else {
                    Datum::Number(it)
                })
            })
            .collect(),
        changes: 0,
    };
    for _ in 0..frames {
        let mut dirty = vec![0u64; world.mask.len()];
        drift(&mut world, &mut dirty).unwrap();
        keep(&world, &dirty, &mut kept);
    }
    let sum: i64 = kept
        .rows
        .iter()
        .map(|it| match it {
            Some(Datum::Number(value)) => *value,
            Some(Datum::Reference(it)) => it.unwrap_or(1) as i64,
            None => 0,
        })
        .fold(0, i64::wrapping_add);
    println!("{sum} {}", kept.changes);
}
