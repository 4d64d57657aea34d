// The own-reference walk of the marker stack in Rust, beside the proved one: the same entries, the same algorithm, the same work.
//
// A ring of blocks is referred to one after the other, so that every reference walks down the whole ring.
// Both answer the sum of the positions that they found, and the two sums must agree.

use std::hint::black_box;
use std::time::Instant;

const LEVELS: usize = 17;
const PLACES: usize = 2048;
const RUNS: usize = 60;

unsafe extern "C" {
    safe fn bench_stack_ring(blocks: u32, references: u32) -> u64;
}

#[derive(Clone, Copy)]
struct Levels(u32);

impl Levels {
    fn below(n: u32) -> Levels {
        if n < 32 { Levels((1 << n) - 1) } else { Levels(u32::MAX) }
    }

    fn is_none(self) -> bool {
        self.0 == 0
    }
}

#[derive(Clone, Copy)]
enum Entry {
    Empty,
    Block(u32),
    Marker(u32, Levels),
}

struct Walk {
    place: usize,
    found: bool,
    stays: usize,
    given: Levels,
    positions: [usize; LEVELS],
}

fn shared_levels(a: u32, b: u32) -> u32 {
    (a ^ b).trailing_zeros().min(16) + 1
}

struct Met {
    counts: Levels,
    gives: Levels,
    keeps: Levels,
}

fn meet(q: u32, b: u32, v: Levels, given: Levels) -> Met {
    let counts = Levels(v.0 & Levels::below(shared_levels(q, b)).0);
    let gives = Levels(counts.0 & !given.0);
    Met { counts, gives, keeps: Levels(v.0 & !gives.0) }
}

fn walk_to(es: &[Entry], q: u32) -> Walk {
    let mut sharing = [0; LEVELS + 1];
    let mut markers = [0; LEVELS];
    let mut given = Levels(0);
    let mut stays = 0;
    let mut place = es.len();
    let mut found = false;
    for (i, e) in es.iter().enumerate() {
        match *e {
            Entry::Empty => {
                place = i;
                break;
            }
            Entry::Block(b) => {
                if b == q {
                    place = i;
                    found = true;
                    break;
                }
                sharing[shared_levels(q, b).min(17) as usize] += 1;
                stays += 1;
            }
            Entry::Marker(b, v) => {
                let met = meet(q, b, v, given);
                for (level, count) in markers.iter_mut().enumerate() {
                    *count += ((met.counts.0 >> level) % 2) as usize;
                }
                if !met.keeps.is_none() {
                    stays += 1;
                }
                given = Levels(given.0 | met.gives.0);
            }
        }
    }
    let mut positions = [1; LEVELS];
    let mut above = 0;
    for i in (0..LEVELS).rev() {
        above += sharing[i + 1];
        positions[i] = 1 + above + markers[i];
    }
    Walk { place, found, stays, given, positions }
}

fn stack_end(es: &[Entry], from: usize) -> usize {
    let rest = es[from..].iter().position(|e| matches!(e, Entry::Empty));
    rest.map_or(es.len(), |n| from + n)
}

fn thin(es: &mut [Entry], place: usize, q: u32) {
    let mut given = Levels(0);
    let mut to = 0;
    for at in 0..place {
        match es[at] {
            Entry::Marker(b, v) => {
                let met = meet(q, b, v, given);
                given = Levels(given.0 | met.gives.0);
                if !met.keeps.is_none() {
                    es[to] = Entry::Marker(b, met.keeps);
                    to += 1;
                }
            }
            e => {
                es[to] = e;
                to += 1;
            }
        }
    }
}

fn bring_to_front(es: &mut [Entry], at: usize) {
    let found = es[at];
    es.copy_within(0..at, 1);
    es[0] = found;
}

fn touch(es: &mut [Entry], q: u32) -> Option<Walk> {
    let walk = walk_to(es, q);
    let leaves_marker = walk.found && !walk.given.is_none();
    let to = walk.stays + usize::from(leaves_marker);
    let rest = walk.place + usize::from(walk.found);
    if to >= rest && stack_end(es, rest) >= es.len() {
        return None;
    }
    if walk.stays < walk.place || !walk.given.is_none() {
        thin(es, walk.place, q);
    }
    if leaves_marker {
        es[walk.stays] = Entry::Marker(q, walk.given);
    }
    if to < rest {
        es[to] = Entry::Block(q);
        bring_to_front(es, to);
        if to + 1 < rest {
            let end = stack_end(es, rest);
            es.copy_within(rest..end, to + 1);
            es[to + 1 + (end - rest)..end].fill(Entry::Empty);
        }
    } else {
        let end = stack_end(es, rest);
        es[end] = Entry::Block(q);
        bring_to_front(es, end);
    }
    Some(walk)
}

#[inline(never)]
fn rust_ring(blocks: u32, references: u32) -> u64 {
    let mut es = [Entry::Empty; PLACES];
    let ring = blocks.max(1);
    let mut sum: u64 = 0;
    for i in 0..references {
        if let Some(walk) = touch(&mut es, i % ring) {
            if walk.found {
                sum = sum.wrapping_add(walk.positions[(i % 17) as usize] as u64);
            }
        }
    }
    sum
}

// The time of a call in nanoseconds, and its answer.
fn timed(ring: impl Fn(u32, u32) -> u64, blocks: u32, references: u32) -> (f64, u64) {
    let start = Instant::now();
    let sum = ring(black_box(blocks), black_box(references));
    (start.elapsed().as_nanos() as f64, black_box(sum))
}

fn main() {
    println!("depth  Rust entries/ns  Rattle entries/ns  Rust ns/reference  Rattle ns/reference  Rattle time / Rust time");
    for depth in [10u32, 20, 200, 2000] {
        let references = (4_000_000 / depth).max(4 * depth);
        let (mut rust, mut rattle) = (f64::MAX, f64::MAX);
        // short runs in turn, and the best of each, so that a busy machine harms both alike
        for _ in 0..RUNS {
            let (time, sum) = timed(rust_ring, depth, references);
            rust = rust.min(time);
            let (time, proved) = timed(|b, r| bench_stack_ring(b, r), depth, references);
            rattle = rattle.min(time);
            assert_eq!(sum, proved, "the two sums differ at depth {depth}");
        }
        let each = f64::from(references);
        // the first reference to each block walks down what is there
        let first = f64::from(depth) * f64::from(depth - 1) / 2.0;
        let entries = first + f64::from(depth) * f64::from(references - depth);
        println!(
            "{depth:5}  {:15.3}  {:17.3}  {:17.1}  {:19.1}  {:23.2}",
            entries / rust,
            entries / rattle,
            rust / each,
            rattle / each,
            rattle / rust
        );
    }
}
