// drift in plain Rust, for comparison: the same fields, caches and windows as the crates, with no contracts.
// It is built with `rustc -C opt-level=3` alone and shares no code with the crates.
use std::env;
use std::process::ExitCode;

const RIM: u32 = 1_000_000_000;
const SEED: u64 = 1;
const SIDE: i32 = 57;

// What stands in a table, and counts in the checksum, for a blank.
const MARK: u16 = 65_535;

// The most cells that a square has: 23 by 23, at a radius of 11.
const LARGEST_SQUARE: usize = 529;

#[derive(Clone, Copy)]
struct Cell {
    x: i32,
    y: i32,
}

#[derive(Clone, Copy, PartialEq, Eq)]
struct Chunk {
    x: i32,
    y: i32,
}

// The fields are never read here. They are kept so that an answer has the size that it has in the crates.
#[allow(dead_code)]
#[derive(Clone, Copy)]
struct Blank {
    place: Cell,
    rise: u8,
}

impl Cell {
    fn is_inside(self) -> bool {
        self.x.unsigned_abs() <= RIM && self.y.unsigned_abs() <= RIM
    }

    fn chunk(self) -> Chunk {
        Chunk {
            x: self.x >> 3,
            y: self.y >> 3,
        }
    }

    // The place of this cell in its chunk, in reading order from 0 to 63.
    fn place(self) -> usize {
        8 * self.y.rem_euclid(8) as usize + self.x.rem_euclid(8) as usize
    }
}

impl Chunk {
    fn slot(self) -> usize {
        8 * self.y.rem_euclid(8) as usize + self.x.rem_euclid(8) as usize
    }

    fn cell(self, place: i32) -> Cell {
        Cell {
            x: self.x * 8 + place % 8,
            y: self.y * 8 + place / 8,
        }
    }
}

impl Blank {
    fn new(place: Cell) -> Blank {
        Blank { place, rise: 0 }
    }

    fn raise(self) -> Blank {
        Blank {
            place: self.place,
            rise: self.rise.saturating_add(1),
        }
    }
}

trait Field {
    fn ask(&mut self, at: Cell) -> Result<u16, Blank>;
}

trait Rule {
    fn radius(&self) -> u8;
    fn answer(&self, square: &[u16]) -> u16;
}

struct Noise {
    seed: u64,
}

fn splitmix64(seed: u64, k: u64) -> u64 {
    let z = seed.wrapping_add(k.wrapping_add(1).wrapping_mul(0x9E37_79B9_7F4A_7C15));
    let z = (z ^ (z >> 30)).wrapping_mul(0xBF58_476D_1CE4_E5B9);
    let z = (z ^ (z >> 27)).wrapping_mul(0x94D0_49BB_1331_11EB);
    z ^ (z >> 31)
}

impl Field for Noise {
    fn ask(&mut self, at: Cell) -> Result<u16, Blank> {
        if !at.is_inside() {
            return Err(Blank::new(at));
        }
        let k = (u64::from(at.y as u32) << 32) + u64::from(at.x as u32);
        Ok((splitmix64(self.seed, k) >> 52) as u16)
    }
}

struct Table {
    heights: [u16; 4096],
    chunks: [Option<Chunk>; 64],
}

impl Table {
    fn new() -> Table {
        Table {
            heights: [MARK; 4096],
            chunks: [None; 64],
        }
    }

    fn has(&self, chunk: Chunk) -> bool {
        self.chunks[chunk.slot()] == Some(chunk)
    }

    fn get(&self, at: Cell) -> u16 {
        self.heights[64 * at.chunk().slot() + at.place()]
    }

    fn put(&mut self, at: Cell, number: u16) {
        self.heights[64 * at.chunk().slot() + at.place()] = number;
    }
}

struct Cache<F> {
    below: F,
    table: Table,
}

impl<F: Field> Cache<F> {
    fn new(below: F) -> Cache<F> {
        Cache {
            below,
            table: Table::new(),
        }
    }

    // Asks all 64 cells of a chunk and overwrites its slot.
    fn fill(&mut self, chunk: Chunk) {
        for place in 0..64 {
            let cell = chunk.cell(place);
            let number = self.below.ask(cell).unwrap_or(MARK);
            self.table.put(cell, number);
        }
        self.table.chunks[chunk.slot()] = Some(chunk);
    }
}

impl<F: Field> Field for Cache<F> {
    fn ask(&mut self, at: Cell) -> Result<u16, Blank> {
        if !at.is_inside() {
            return Err(Blank::new(at));
        }
        if !self.table.has(at.chunk()) {
            self.fill(at.chunk());
        }
        match self.table.get(at) {
            MARK => self.below.ask(at),
            height => Ok(height),
        }
    }
}

struct Layer<F, R> {
    below: F,
    rule: R,
}

impl<F: Field, R: Rule> Field for Layer<F, R> {
    fn ask(&mut self, at: Cell) -> Result<u16, Blank> {
        if !at.is_inside() {
            return Err(Blank::new(at));
        }
        let radius = i32::from(self.rule.radius());
        let mut square = [0; LARGEST_SQUARE];
        let mut count = 0;
        for y in at.y - radius..=at.y + radius {
            for x in at.x - radius..=at.x + radius {
                square[count] = self.below.ask(Cell { x, y }).map_err(Blank::raise)?;
                count += 1;
            }
        }
        Ok(self.rule.answer(&square[..count]))
    }
}

struct Smoothing;

impl Rule for Smoothing {
    fn radius(&self) -> u8 {
        1
    }

    fn answer(&self, square: &[u16]) -> u16 {
        let at = |i: usize| u32::from(square[i]);
        let corners = at(0) + at(2) + at(6) + at(8);
        let sides = at(1) + at(3) + at(5) + at(7);
        ((corners + 2 * sides + 4 * at(4)) / 16) as u16
    }
}

fn smoothed<F: Field>(below: F) -> Layer<Cache<F>, Smoothing> {
    Layer {
        below: Cache::new(below),
        rule: Smoothing,
    }
}

// What the answers so far add up to. Their order counts.
struct Tally {
    cells: u64,
    checksum: u64,
}

impl Tally {
    fn add(&mut self, answer: Result<u16, Blank>) {
        let number = answer.unwrap_or(MARK);
        self.cells += 1;
        self.checksum = self.checksum.wrapping_mul(31).wrapping_add(number.into());
    }
}

// Asks so many windows one after another through the same field.
fn drift(field: &mut impl Field, windows: u16) -> Tally {
    let mut tally = Tally {
        cells: 0,
        checksum: 0,
    };
    for i in 0..i32::from(windows) {
        let corner = Cell {
            x: i * 40 - 1000,
            y: i * 7 - 1000,
        };
        for y in corner.y..corner.y + SIDE {
            for x in corner.x..corner.x + SIDE {
                tally.add(field.ask(Cell { x, y }));
            }
        }
    }
    tally
}

fn main() -> ExitCode {
    let Some(Ok(windows)) = env::args().nth(1).map(|word| word.parse::<u16>()) else {
        eprintln!("drift: the one argument is the number of windows, from 0 to 65535");
        return ExitCode::FAILURE;
    };
    let mut heights = smoothed(smoothed(Noise { seed: SEED }));
    let tally = drift(&mut heights, windows);
    println!("cells {}", tally.cells);
    println!("checksum {}", tally.checksum);
    ExitCode::SUCCESS
}
