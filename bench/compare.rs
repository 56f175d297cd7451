// Times the keyed table beside the standard library's HashMap, over the same keys, in one process.
use std::collections::HashMap;
use std::hash::{BuildHasher, BuildHasherDefault, Hasher, RandomState};
use std::hint::black_box;
use std::time::Instant;

extern "C" {
    // crates/table_speed; the allocator of the exported function takes no bytes.
    fn table_speed(keys: *const u32, keys_len: usize, sought: *const u32, sought_len: usize, rounds: u32) -> u64;
}

fn table(keys: &[u32], sought: &[u32], rounds: u32) -> u64 {
    unsafe { table_speed(keys.as_ptr(), keys.len(), sought.as_ptr(), sought.len(), rounds) }
}

fn map<S: BuildHasher + Default>(keys: &[u32], sought: &[u32], rounds: u32) -> u64 {
    let mut places: HashMap<u32, u32, S> = HashMap::with_capacity_and_hasher(keys.len(), S::default());
    for key in keys {
        let next = places.len() as u32;
        places.entry(*key).or_insert(next);
    }
    let mut sum = 0u64;
    for _ in 0..rounds {
        for key in sought {
            if let Some(place) = places.get(key) {
                sum = sum.wrapping_add(*place as u64);
            }
        }
    }
    sum
}

// A multiplicative hasher, as the faster ones in common use.
#[derive(Default)]
struct Multiply(u64);

impl Hasher for Multiply {
    fn finish(&self) -> u64 {
        self.0
    }
    fn write(&mut self, bytes: &[u8]) {
        for b in bytes {
            self.write_u32(*b as u32);
        }
    }
    fn write_u32(&mut self, x: u32) {
        self.0 = (self.0.rotate_left(5) ^ x as u64).wrapping_mul(0x517c_c1b7_2722_0a95);
    }
}

type Work = fn(&[u32], &[u32], u32) -> u64;

// The least time in nanoseconds of several runs.
fn nanos(work: Work, keys: &[u32], sought: &[u32], rounds: u32) -> f64 {
    (0..9)
        .map(|_| {
            let start = Instant::now();
            black_box(work(black_box(keys), black_box(sought), rounds));
            start.elapsed().as_nanos() as f64
        })
        .fold(f64::INFINITY, f64::min)
}

// Time for one put, and for one find of the keys sought, without the puts.
fn times(work: Work, keys: &[u32], sought: &[u32]) -> (f64, f64) {
    let n = keys.len() as f64;
    let rounds = (2_000_000 / keys.len()).max(4) as u32;
    let puts = nanos(work, keys, sought, 0);
    let all = nanos(work, keys, sought, rounds);
    (puts / n, (all - puts).max(0.0) / (n * rounds as f64))
}

fn shuffled(keys: &[u32]) -> Vec<u32> {
    let mut out = keys.to_vec();
    let mut state = 88_172_645_463_325_252u64;
    for i in (1..out.len()).rev() {
        state ^= state << 13;
        state ^= state >> 7;
        state ^= state << 17;
        out.swap(i, (state % (i as u64 + 1)) as usize);
    }
    out
}

fn main() {
    println!("nanoseconds for one call; ratio: table / HashMap (default hasher), table / HashMap (multiplicative hasher)");
    for stride in [1u32, 64, 7919] {
        for n in [1_000u32, 4_096, 16_384, 32_768, 65_536] {
            let keys: Vec<u32> = (0..n).map(|i| i.wrapping_mul(stride)).collect();
            let others: Vec<u32> = (n..2 * n).map(|i| i.wrapping_mul(stride)).collect();
            let held = shuffled(&keys);
            let others = shuffled(&others);
            assert_eq!(table(&keys, &held, 1), map::<RandomState>(&keys, &held, 1));
            let fast: Work = map::<BuildHasherDefault<Multiply>>;
            let rows = [("held", &held), ("other", &others)].map(|(what, sought)| {
                let (tp, tf) = times(table, &keys, sought);
                let (sp, sf) = times(map::<RandomState>, &keys, sought);
                let (mp, mf) = times(fast, &keys, sought);
                (what, [tp, sp, mp], [tf, sf, mf])
            });
            let line = |what: &str, t: [f64; 3]| {
                println!(
                    "stride {stride:5} n {n:6} {what:10} table {:6.2} HashMap {:6.2} ratio {:4.2}  multiplicative {:6.2} ratio {:4.2}",
                    t[0], t[1], t[0] / t[1], t[2], t[0] / t[2]
                )
            };
            line("put", rows[0].1);
            for (what, _, find) in rows {
                line(&format!("find {what}"), find);
            }
        }
    }
}
