// Makes a trace for the benchmark of the grid. To be run as `generate [KEY=VALUE ...] >TRACE`; what it made goes to
// standard error.
//
// Each processor has blocks of its own, and there is a pool of blocks that all processors use. A reference takes the
// block at a drawn distance from the top of a recency list: mostly a short one, now and then any. So most references
// are near, and a few reach all blocks.

use std::collections::HashSet;
use std::env;
use std::io::{self, BufWriter, Write};
use std::process::ExitCode;

const KEYS: &str = "processors=4 blocks=2048 references=10000000 writes=20 fetches=10 shared=5 depth=5 reach=1 \
                    seed=1 form=records shift=6";

const READ: u8 = 0;
const WRITE: u8 = 1;
const FETCH: u8 = 2;

#[derive(Default)]
struct Settings {
    processors: usize,
    // the most different blocks, over all processors
    blocks: usize,
    references: u64,
    // percent of the references, the rest are reads
    writes: u64,
    fetches: u64,
    // percent of the references that go to the blocks that all processors use
    shared: u64,
    // the mean distance of the near references, the top of a list being 1
    depth: usize,
    // percent of the references that go anywhere in a list
    reach: u64,
    seed: u64,
    text: bool,
    shift: u32,
}

impl Settings {
    // Takes a word `key=value`, and says what is wrong with it.
    fn take(&mut self, word: &str) -> Result<(), String> {
        let (key, value) = word.split_once('=').ok_or_else(|| format!("not key=value: {word}"))?;
        if key == "form" {
            self.text = match value {
                "records" => false,
                "text" => true,
                _ => return Err(format!("no such form: {value}")),
            };
            return Ok(());
        }
        let number: u64 = value.parse().map_err(|_| format!("not a number: {word}"))?;
        let within = |low, high| {
            if (low..=high).contains(&number) { Ok(number) } else { Err(format!("not {low} to {high}: {word}")) }
        };
        match key {
            "processors" => self.processors = within(1, 64)? as usize,
            "blocks" => self.blocks = within(1, 32_768)? as usize,
            "references" => self.references = number,
            "writes" => self.writes = within(0, 100)?,
            "fetches" => self.fetches = within(0, 100)?,
            "shared" => self.shared = within(0, 100)?,
            "depth" => self.depth = within(1, 1_000)? as usize,
            "reach" => self.reach = within(0, 100)?,
            "seed" => self.seed = number,
            "shift" => self.shift = within(0, 12)? as u32,
            _ => return Err(format!("no such key: {key}")),
        }
        Ok(())
    }

    fn read(words: impl Iterator<Item = String>) -> Result<Settings, String> {
        let mut settings = Settings::default();
        for word in KEYS.split_whitespace().map(String::from).chain(words) {
            settings.take(&word)?;
        }
        if settings.writes + settings.fetches > 100 {
            return Err("writes and fetches are more than 100 percent".into());
        }
        Ok(settings)
    }

    fn words(&self) -> String {
        let Settings { processors, blocks, references, writes, fetches, shared, depth, reach, seed, shift, .. } = self;
        let form = if self.text { "text" } else { "records" };
        format!(
            "processors={processors} blocks={blocks} references={references} writes={writes} fetches={fetches} \
             shared={shared} depth={depth} reach={reach} seed={seed} form={form} shift={shift}"
        )
    }
}

// Splitmix: small, and the same numbers for the same seed on every machine.
struct Random(u64);

impl Random {
    fn bits(&mut self) -> u64 {
        self.0 = self.0.wrapping_add(0x9e37_79b9_7f4a_7c15);
        let mut z = self.0;
        z = (z ^ (z >> 30)).wrapping_mul(0xbf58_476d_1ce4_e5b9);
        z = (z ^ (z >> 27)).wrapping_mul(0x94d0_49bb_1331_11eb);
        z ^ (z >> 31)
    }

    fn below(&mut self, n: usize) -> usize {
        (((self.bits() >> 32) * n as u64) >> 32) as usize
    }

    fn percent(&mut self, share: u64) -> bool {
        self.below(100) < share as usize
    }
}

// The block numbers of `count` blocks, in runs as a program's data stands in memory. Every other run agrees with an
// earlier one in some low bits, so that sets are shared at the later levels too.
fn place_runs(count: usize, bits: u32, taken: &mut HashSet<u32>, random: &mut Random) -> Vec<u32> {
    let end = 1 << bits;
    let mut blocks = Vec::with_capacity(count);
    let mut bases: Vec<u32> = Vec::new();
    while blocks.len() < count {
        let mut base = random.below(end as usize) as u32;
        if bases.len() % 2 == 1 {
            let low = (1 << (4 + random.below(15))) - 1;
            base = (base & !low) | (bases[random.below(bases.len())] & low);
        }
        let length = (8 + random.below(57)).min(count - blocks.len()) as u32;
        let run = base..base + length;
        if run.end > end || run.clone().any(|block| taken.contains(&block)) {
            continue;
        }
        bases.push(base);
        taken.extend(run.clone());
        blocks.extend(run);
    }
    blocks
}

// Short distances with a given mean: a table of as many equal shares as it has places, so that a draw is one look.
struct Near(Vec<u16>);

impl Near {
    const SHARES: usize = 65_536;

    fn new(mean: usize) -> Near {
        let further = 1.0 - 1.0 / mean as f64;
        let mut distances = Vec::with_capacity(Near::SHARES);
        let (mut distance, mut deeper) = (0, further);
        for share in 0..Near::SHARES {
            while (Near::SHARES - share) as f64 - 0.5 < deeper * Near::SHARES as f64 {
                distance += 1;
                deeper *= further;
            }
            distances.push(distance);
        }
        Near(distances)
    }

    fn draw(&self, random: &mut Random) -> usize {
        self.0[random.below(Near::SHARES)].into()
    }
}

// Blocks, by their places among all blocks, the latest first. Those not yet referred to stand there too, so that
// a far draw brings them in.
struct Recency(Vec<u16>);

impl Recency {
    fn draw(&mut self, near: &Near, reach: u64, random: &mut Random) -> u16 {
        let last = self.0.len() - 1;
        let distance = if random.percent(reach) { random.below(last + 1) } else { near.draw(random).min(last) };
        let block = self.0[distance];
        self.0.copy_within(0..distance, 1);
        self.0[0] = block;
        block
    }
}

// A processor's stack at level 0 with the holes that others' writes leave. The trace does not depend on it: it only
// tells how deep the references go.
struct Stack(Vec<u16>);

const HOLE: u16 = u16::MAX;

impl Stack {
    // The position of a block before an own reference to it.
    fn refer(&mut self, block: u16) -> Option<usize> {
        let cells = &mut self.0;
        let found = cells.iter().position(|&cell| cell == block);
        let hole = cells[..found.unwrap_or(cells.len())].iter().position(|&cell| cell == HOLE);
        if let (Some(at), Some(_)) = (found, hole) {
            cells[at] = HOLE;
        }
        match hole.or(found) {
            Some(free) => cells.copy_within(0..free, 1),
            None => cells.insert(0, block),
        }
        cells[0] = block;
        found.map(|at| at + 1)
    }

    fn lose(&mut self, block: u16) {
        if let Some(cell) = self.0.iter_mut().find(|cell| **cell == block) {
            *cell = HOLE;
        }
    }
}

// How many references had which position at level 0.
struct Positions {
    stacks: Vec<Stack>,
    // for each bound below, the positions under it and not under the one before
    counts: [u64; 5],
    absent: u64,
    // of all positions
    sum: u64,
}

const BOUNDS: [usize; 5] = [2, 5, 20, 200, usize::MAX];

impl Positions {
    fn new(processors: usize) -> Positions {
        let stacks = (0..processors).map(|_| Stack(Vec::new())).collect();
        Positions { stacks, counts: [0; 5], absent: 0, sum: 0 }
    }

    fn refer(&mut self, processor: usize, block: u16, operation: u8, shared: bool) {
        match self.stacks[processor].refer(block) {
            Some(position) => {
                let range = BOUNDS.iter().position(|&bound| position < bound).unwrap_or(4);
                self.counts[range] += 1;
                self.sum += position as u64;
            }
            None => self.absent += 1,
        }
        if operation == WRITE && shared {
            for (other, stack) in self.stacks.iter_mut().enumerate() {
                if other != processor {
                    stack.lose(block);
                }
            }
        }
    }

    fn line(&self) -> String {
        let found: u64 = self.counts.iter().sum();
        let mean = self.sum as f64 / found.max(1) as f64;
        let share = |count: u64| 100.0 * count as f64 / (found + self.absent).max(1) as f64;
        let [first, few, near, far, deep] = self.counts.map(share);
        let below = first + few + near;
        format!(
            "positions at level 0: 1 {first:.1} %, 2 to 4 {few:.1} %, 5 to 19 {near:.1} % (below 20 {below:.1} %), \
             20 to 199 {far:.1} %, 200 and more {deep:.1} %, absent (cold or lost) {:.1} %, mean {mean:.1}",
            share(self.absent)
        )
    }
}

fn write_reference(out: &mut impl Write, text: bool, processor: usize, operation: u8, address: u32) -> io::Result<()> {
    let number = processor + 1;
    if text {
        let letter = ['r', 'w', 'f'][operation as usize];
        return writeln!(out, "{number},{letter},{address}");
    }
    let [a, b, c, d] = address.to_be_bytes();
    out.write_all(&[number as u8, operation, a, b, c, d])
}

fn draw_operation(settings: &Settings, random: &mut Random) -> u8 {
    let share = random.below(100) as u64;
    if share < settings.writes {
        WRITE
    } else if share < settings.writes + settings.fetches {
        FETCH
    } else {
        READ
    }
}

// How many blocks all processors use, and how many each has of its own besides.
fn divide(settings: &Settings) -> (usize, usize) {
    let pool = match settings.shared {
        0 => 0,
        share => (settings.blocks * share as usize / 100).max(1),
    };
    match (settings.blocks - pool) / settings.processors {
        0 => (settings.blocks, 0),
        own => (pool, own),
    }
}

fn generate(settings: &Settings, out: &mut impl Write) -> io::Result<()> {
    let mut random = Random(settings.seed);
    let (pool, own) = divide(settings);
    let bits = (32 - settings.shift).min(26);
    let mut taken = HashSet::new();
    let mut blocks = place_runs(pool, bits, &mut taken, &mut random);
    for _ in 0..settings.processors {
        blocks.extend(place_runs(own, bits, &mut taken, &mut random));
    }
    let list = |from: usize, count: usize| Recency((from..from + count).map(|place| place as u16).collect());
    let mut common = list(0, pool);
    let mut owns: Vec<Recency> = (0..settings.processors).map(|p| list(pool + p * own, own)).collect();

    let near = Near::new(settings.depth);
    let mut positions = Positions::new(settings.processors);
    let mut used = vec![false; blocks.len()];
    for _ in 0..settings.references {
        let processor = random.below(settings.processors);
        let operation = draw_operation(settings, &mut random);
        let shared = own == 0 || random.percent(settings.shared);
        let recency = if shared { &mut common } else { &mut owns[processor] };
        let place = recency.draw(&near, settings.reach, &mut random);
        let low = random.below(1 << settings.shift) as u32;
        let address = (blocks[place as usize] << settings.shift) | low;
        write_reference(out, settings.text, processor, operation, address)?;
        positions.refer(processor, place, operation, shared);
        used[place as usize] = true;
    }
    out.flush()?;
    eprintln!("different blocks: {}", used.iter().filter(|&&used| used).count());
    eprintln!("{}", positions.line());
    Ok(())
}

fn main() -> ExitCode {
    let settings = match Settings::read(env::args().skip(1)) {
        Ok(settings) => settings,
        Err(wrong) => {
            eprintln!("{wrong}\ngenerate [KEY=VALUE ...] >TRACE, by default {KEYS} (form: records or text)");
            return ExitCode::from(2);
        }
    };
    eprintln!("generate {}", settings.words());
    match generate(&settings, &mut BufWriter::with_capacity(1 << 18, io::stdout())) {
        Ok(()) => ExitCode::SUCCESS,
        Err(error) => {
            eprintln!("generate: {error}");
            ExitCode::FAILURE
        }
    }
}
