// The sheet of a trace of records, one level at a time, to be measured beside the grid program. To be run as
// `compare b,PROCESSORS,SHIFT,LEVELS,WAYS,BLOCKS FILE`; times go to standard error.
//
// For each level the trace is read again. Each processor has a linked stack for each set of the level: cells from the
// latest down, each a block or a hole that another's write left. With D ways a cache holds the blocks among the first
// D cells, so the position of a block says at once for which numbers of ways a reference hits.
//
// Only the block that is referred to rises; every other cell stays or sinks. So a block deeper than the ways does not
// count till it is referred to, a hole there never again, and no walk has to be longer than the ways.

use std::env;
use std::fs::File;
use std::io::{self, BufWriter, Read, Write};
use std::process::ExitCode;
use std::time::Instant;

const WRITE: u8 = 1;
const FETCH: u8 = 2;

const MOST_WAYS: usize = 16;

// The refusals of an item.
const PROCESSOR: u8 = 4;
const BLOCKS: u8 = 5;
const FORM: u8 = 9;
const CUT_OFF: u8 = 11;

#[derive(Clone, Copy)]
struct Settings {
    processors: usize,
    shift: u32,
    levels: u32,
    ways: usize,
    blocks: usize,
}

impl Settings {
    fn read(text: &str) -> Option<Settings> {
        let numbers: Option<Vec<usize>> = text.strip_prefix("b,")?.split(',').map(|field| field.parse().ok()).collect();
        let &[processors, shift, levels, ways, blocks] = numbers?.as_slice() else { return None };
        let fits = (1..=64).contains(&processors)
            && shift <= 12
            && (1..=17).contains(&levels)
            && (1..=MOST_WAYS).contains(&ways)
            && (1..=4096).contains(&blocks);
        fits.then_some(Settings { processors, shift: shift as u32, levels: levels as u32, ways, blocks })
    }
}

// A block that is known: its cell and the head of its stack, for each processor the same.
#[derive(Clone, Copy)]
struct Known {
    block: u32,
    cell: u16,
    head: u16,
}

const NONE: u16 = u16::MAX;

// The known blocks in a table with open addressing, at most a quarter full. Heads are given only to sets that a known
// block stands in, so that the stacks of a level with many sets stay close together.
struct KnownBlocks {
    table: Vec<Known>,
    table_shift: u32,
    known: usize,
    limit: usize,
    heads: Vec<u16>,
    next_head: u16,
}

impl KnownBlocks {
    fn new(limit: usize, level: u32) -> KnownBlocks {
        let bits = (4 * limit).next_power_of_two().trailing_zeros();
        KnownBlocks {
            table: vec![Known { block: 0, cell: NONE, head: NONE }; 1 << bits],
            table_shift: 32 - bits,
            known: 0,
            limit,
            heads: vec![NONE; 1 << level],
            next_head: limit as u16,
        }
    }

    // Where a block stands in the table; none if it is unknown and there is no room for one more.
    #[inline(always)]
    fn find(&mut self, block: u32) -> Option<usize> {
        let mask = self.table.len() - 1;
        // the high bits of the product: neighbours in memory go far apart
        let mut at = (block.wrapping_mul(0x9e37_79b9) >> self.table_shift) as usize;
        loop {
            let known = self.at(at);
            if known.cell == NONE {
                return self.learn(block, at);
            }
            if known.block == block {
                return Some(at);
            }
            at = (at + 1) & mask;
        }
    }

    #[inline(always)]
    fn at(&self, at: usize) -> Known {
        debug_assert!(at < self.table.len());
        // Sound: `find` makes no other places, the table's length being a power of two.
        unsafe { *self.table.get_unchecked(at) }
    }

    #[cold]
    fn learn(&mut self, block: u32, at: usize) -> Option<usize> {
        if self.known == self.limit {
            return None;
        }
        let set = block as usize & (self.heads.len() - 1);
        if self.heads[set] == NONE {
            self.heads[set] = self.next_head;
            self.next_head += 1;
        }
        self.table[at] = Known { block, cell: self.known as u16, head: self.heads[set] };
        self.known += 1;
        Some(at)
    }
}

// A cell of a stack, or the head of one. A stack is a ring: below its head stands the top, above it the last cell.
// Eight bytes, so that a cell is found without a product.
#[derive(Clone, Copy)]
#[repr(align(8))]
struct Cell {
    above: u16,
    below: u16,
    hole: bool,
}

// The stacks of one processor: a cell for each known block, then the heads. A block whose copy was taken away leaves
// its cell as a hole. With its next own reference a hole goes, so that there is a cell for the block again.
struct Stacks<'a> {
    cells: &'a mut [Cell],
    ways: usize,
}

impl Stacks<'_> {
    #[inline(always)]
    fn cell(&mut self, at: u16) -> &mut Cell {
        debug_assert!((at as usize) < self.cells.len());
        // Sound: known blocks have cells and heads in the slice (see `Level::new`), and links lead to such alone.
        unsafe { self.cells.get_unchecked_mut(at as usize) }
    }

    #[inline(always)]
    fn unlink(&mut self, at: u16) {
        let Cell { above, below, .. } = *self.cell(at);
        self.cell(above).below = below;
        self.cell(below).above = above;
    }

    #[inline(always)]
    fn put_on_top(&mut self, at: u16, head: u16) {
        let top = self.cell(head).below;
        *self.cell(at) = Cell { above: head, below: top, hole: false };
        self.cell(head).below = at;
        self.cell(top).above = at;
    }

    // Lets the cell `hole` stand as a hole where another stood.
    #[inline(always)]
    fn put_hole_for(&mut self, hole: u16, at: u16) {
        let Cell { above, below, .. } = *self.cell(at);
        *self.cell(hole) = Cell { above, below, hole: true };
        self.cell(above).below = hole;
        self.cell(below).above = hole;
    }

    // The position of `end`, given that of a cell above it; ways + 1 if it is deeper than the ways.
    #[inline(always)]
    fn position(&mut self, end: u16, from: u16, mut position: usize) -> usize {
        let mut at = from;
        while at != end && position <= self.ways {
            at = self.cell(at).below;
            position += 1;
        }
        position
    }

    // The first hole above `end`, and its position. Without one that is not deeper than the ways: none, and the
    // position of `end`, or ways + 1 if that is deeper.
    #[inline(always)]
    fn first_hole(&mut self, end: u16, head: u16) -> (Option<u16>, usize) {
        let mut at = self.cell(head).below;
        let mut position = 1;
        while at != end && position <= self.ways {
            if self.cell(at).hole {
                return (Some(at), position);
            }
            at = self.cell(at).below;
            position += 1;
        }
        (None, position)
    }

    // An own reference to a block that is in the stack; its position before, or ways + 1 if it was deeper.
    #[inline(always)]
    fn refer_held(&mut self, block: u16, head: u16) -> usize {
        if self.cell(head).below == block {
            return 1;
        }
        let (hole, mut position) = self.first_hole(block, head);
        match hole {
            None => self.unlink(block),
            Some(hole) => {
                // the block takes the free place, and leaves its own free
                position = self.position(block, hole, position);
                self.unlink(hole);
                self.put_hole_for(hole, block);
            }
        }
        self.put_on_top(block, head);
        position
    }

    // An own reference to a block that is not in the stack, though its cell may stand there as a hole.
    #[inline(always)]
    fn refer_absent(&mut self, block: u16, head: u16) {
        // the head ends the ring
        let (hole, _) = self.first_hole(head, head);
        if let Some(hole) = hole {
            self.unlink(hole);
            self.cell(hole).hole = false;
        }
        if self.cell(block).hole {
            match hole {
                // a lower hole stays, with the cell that has become free
                Some(hole) => self.put_hole_for(hole, block),
                None => self.unlink(block),
            }
        }
        self.put_on_top(block, head);
    }

    // Another's write of a block that is in the stack; its position before, or ways + 1 if it was deeper.
    #[inline(always)]
    fn lose(&mut self, block: u16, head: u16) -> usize {
        self.cell(block).hole = true;
        let top = self.cell(head).below;
        self.position(block, top, 1)
    }
}

#[derive(Clone, Copy, Default)]
struct Counts {
    references: u64,
    cold: u64,
    lost: u64,
    // by position from 1; the last place takes the positions that are deeper than the ways
    hits: [u64; MOST_WAYS + 2],
    drops: [u64; MOST_WAYS + 2],
}

// For a block, the processors that have referred to it and those that hold it, a bit each.
#[derive(Clone, Copy, Default)]
struct Past {
    met: u64,
    held: u64,
}

// The caches of one level.
struct Level {
    settings: Settings,
    known: KnownBlocks,
    pasts: Vec<Past>,
    cells: Vec<Cell>,
    counts: Vec<Counts>,
}

impl Level {
    fn new(settings: Settings, level: u32) -> Level {
        // for each processor a cell for each block, and as many heads: no more sets than blocks are in use
        let cells = 0..2 * settings.blocks as u16;
        let alone = |at| Cell { above: at, below: at, hole: false };
        Level {
            settings,
            known: KnownBlocks::new(settings.blocks, level),
            pasts: vec![Past::default(); settings.blocks],
            cells: (0..settings.processors).flat_map(|_| cells.clone().map(alone)).collect(),
            counts: vec![Counts::default(); settings.processors],
        }
    }

    // The stacks and counts of a processor.
    #[inline(always)]
    fn of(&mut self, processor: usize) -> (Stacks<'_>, &mut Counts) {
        debug_assert!(processor < self.settings.processors);
        let length = 2 * self.settings.blocks;
        let from = processor * length;
        // Sound: the processor is below the setting, and so many cells and counts there are.
        let cells = unsafe { self.cells.get_unchecked_mut(from..from + length) };
        let counts = unsafe { self.counts.get_unchecked_mut(processor) };
        (Stacks { cells, ways: self.settings.ways }, counts)
    }

    #[inline(always)]
    fn past(&mut self, known: Known) -> &mut Past {
        debug_assert!((known.cell as usize) < self.pasts.len());
        // Sound: no more blocks are known than there are pasts.
        unsafe { self.pasts.get_unchecked_mut(known.cell as usize) }
    }

    // The refusal of a record, if it is refused.
    #[inline(always)]
    fn take(&mut self, record: &[u8; 6]) -> Option<u8> {
        let [number, operation, address @ ..] = *record;
        if operation > FETCH {
            return Some(FORM);
        }
        let processor = (number as usize).wrapping_sub(1);
        if processor >= self.settings.processors {
            return Some(PROCESSOR);
        }
        let Some(at) = self.known.find(u32::from_be_bytes(address) >> self.settings.shift) else {
            return Some(BLOCKS);
        };
        let known = self.known.at(at);
        self.refer(processor, known);
        self.drop_others(processor, known, operation == WRITE);
        None
    }

    #[inline(always)]
    fn refer(&mut self, processor: usize, known: Known) {
        let bit = 1 << processor;
        let Past { met, held } = *self.past(known);
        let (mut stacks, counts) = self.of(processor);
        counts.references += 1;
        if held & bit != 0 {
            let position = stacks.refer_held(known.cell, known.head);
            counts.hits[position.min(MOST_WAYS + 1)] += 1;
        } else {
            let seen = met & bit != 0;
            counts.lost += u64::from(seen);
            counts.cold += u64::from(!seen);
            stacks.refer_absent(known.cell, known.head);
            *self.past(known) = Past { met: met | bit, held: held | bit };
        }
    }

    // The drops of a reference, none if it is no write: whether it is one cannot be foretold, but that there are no
    // others to drop is so most of the time.
    #[inline(always)]
    fn drop_others(&mut self, processor: usize, known: Known, write: bool) {
        let past = self.past(known);
        let mut others = past.held & !(1 << processor) & u64::from(write).wrapping_neg();
        past.held &= !others;
        while others != 0 {
            let other = others.trailing_zeros() as usize;
            others &= others - 1;
            let (mut stacks, counts) = self.of(other);
            let position = stacks.lose(known.cell, known.head);
            counts.drops[position.min(MOST_WAYS + 1)] += 1;
        }
    }
}

// The pieces in which a trace is read: whole records.
const PIECE: usize = 6 << 16;

// Fills the buffer but at the end of the file; how much of it is filled.
fn fill(file: &mut File, buffer: &mut [u8]) -> io::Result<usize> {
    let mut filled = 0;
    while filled < buffer.len() {
        match file.read(&mut buffer[filled..])? {
            0 => break,
            n => filled += n,
        }
    }
    Ok(filled)
}

// One pass over the trace; how many items it has. Each refused one is told to `refuse`, with its number from 1.
fn pass(path: &str, level: &mut Level, mut refuse: impl FnMut(u64, u8) -> io::Result<()>) -> io::Result<u64> {
    let mut file = File::open(path)?;
    let mut buffer = vec![0; PIECE];
    let mut items = 0;
    loop {
        let filled = fill(&mut file, &mut buffer)?;
        let (records, rest) = buffer[..filled].as_chunks();
        for (i, record) in records.iter().enumerate() {
            if let Some(refusal) = level.take(record) {
                refuse(items + i as u64 + 1, refusal)?;
            }
        }
        items += records.len() as u64;
        if !rest.is_empty() {
            items += 1;
            refuse(items, CUT_OFF)?;
        }
        if filled < PIECE {
            return Ok(items);
        }
    }
}

fn tell_time(what: &str, start: Instant, items: u64) {
    let time = start.elapsed().as_secs_f64();
    eprintln!("{what}: {time:.4} s, {:.2} ns a reference", 1e9 * time / items.max(1) as f64);
}

fn study(settings: Settings, path: &str, out: &mut impl Write) -> io::Result<()> {
    let start = Instant::now();
    let mut items = 0;
    let mut levels = Vec::new();
    for number in 0..settings.levels {
        let start = Instant::now();
        let mut level = Level::new(settings, number);
        // every pass refuses the same items
        let refuse = |item, refusal| match number {
            0 => writeln!(out, "refused,{item},{refusal}"),
            _ => Ok(()),
        };
        items = pass(path, &mut level, refuse)?;
        tell_time(&format!("level {number}"), start, items);
        levels.push(level.counts);
    }
    write_sheet(settings, &levels, out)?;
    tell_time("all", start, items);
    Ok(())
}

fn write_sheet(settings: Settings, levels: &[Vec<Counts>], out: &mut impl Write) -> io::Result<()> {
    writeln!(out, "processor,level,sets,ways,references,hits,drops,cold,lost,replaced")?;
    for processor in 0..settings.processors {
        for (level, counts) in levels.iter().enumerate() {
            let Counts { references, cold, lost, .. } = counts[processor];
            let (mut hits, mut drops) = (0, 0);
            for ways in 1..=settings.ways {
                hits += counts[processor].hits[ways];
                drops += counts[processor].drops[ways];
                let replaced = references - hits - cold - lost;
                let (number, sets) = (processor + 1, 1 << level);
                writeln!(out, "{number},{level},{sets},{ways},{references},{hits},{drops},{cold},{lost},{replaced}")?;
            }
        }
    }
    out.flush()
}

fn main() -> ExitCode {
    let words: Vec<String> = env::args().skip(1).collect();
    let (settings, path) = match words.as_slice() {
        [text, path] => (Settings::read(text), path),
        _ => (None, &String::new()),
    };
    let Some(settings) = settings else {
        eprintln!("compare b,PROCESSORS,SHIFT,LEVELS,WAYS,BLOCKS FILE");
        return ExitCode::from(2);
    };
    if let Err(error) = study(settings, path, &mut BufWriter::new(io::stdout())) {
        eprintln!("compare: {path}: {error}");
        return ExitCode::FAILURE;
    }
    ExitCode::SUCCESS
}
