// drift in plain Rust, for comparison: the same fields, tables and drawings as the crates, with no contracts.
// It is built with `rustc -C opt-level=3` alone and shares no code with the crates.
use std::env;
use std::process::ExitCode;

const RIM: u32 = 1_000_000_000;
const SEED: u64 = 1;
const SIDE: i32 = 57;

// What stands in a table for a blank.
const MARK: u16 = 65_535;

// The most cells that a square has: 23 by 23, at a radius of 11.
const LARGEST_SQUARE: usize = 529;

#[derive(Clone, Copy)]
struct Cell {
    x: i32,
    y: i32,
}

#[derive(Clone, Copy, PartialEq, Eq)]
struct Chunk {
    x: i32,
    y: i32,
}

// The fields are never read here. They are kept so that an answer has the size that it has in the crates.
#[allow(dead_code)]
#[derive(Clone, Copy)]
struct Blank {
    place: Cell,
    rise: u8,
}

impl Cell {
    fn is_inside(self) -> bool {
        self.x.unsigned_abs() <= RIM && self.y.unsigned_abs() <= RIM
    }

    fn chunk(self) -> Chunk {
        Chunk {
            x: self.x >> 3,
            y: self.y >> 3,
        }
    }

    // The place of this cell in its chunk, in reading order from 0 to 63.
    fn place(self) -> usize {
        8 * self.y.rem_euclid(8) as usize + self.x.rem_euclid(8) as usize
    }
}

impl Chunk {
    fn slot(self) -> usize {
        8 * self.y.rem_euclid(8) as usize + self.x.rem_euclid(8) as usize
    }

    fn cell(self, place: i32) -> Cell {
        Cell {
            x: self.x * 8 + place % 8,
            y: self.y * 8 + place / 8,
        }
    }
}

impl Blank {
    fn new(place: Cell) -> Blank {
        Blank { place, rise: 0 }
    }

    fn raise(self) -> Blank {
        Blank {
            place: self.place,
            rise: self.rise.saturating_add(1),
        }
    }
}

trait Field {
    fn ask(&mut self, at: Cell) -> Result<u16, Blank>;
}

trait Rule {
    fn radius(&self) -> u8;
    fn answer(&self, square: &[u16]) -> u16;
}

struct Noise {
    seed: u64,
}

fn splitmix64(seed: u64, k: u64) -> u64 {
    let z = seed.wrapping_add(k.wrapping_add(1).wrapping_mul(0x9E37_79B9_7F4A_7C15));
    let z = (z ^ (z >> 30)).wrapping_mul(0xBF58_476D_1CE4_E5B9);
    let z = (z ^ (z >> 27)).wrapping_mul(0x94D0_49BB_1331_11EB);
    z ^ (z >> 31)
}

impl Field for Noise {
    fn ask(&mut self, at: Cell) -> Result<u16, Blank> {
        if !at.is_inside() {
            return Err(Blank::new(at));
        }
        let k = (u64::from(at.y as u32) << 32) + u64::from(at.x as u32);
        Ok((splitmix64(self.seed, k) >> 52) as u16)
    }
}

struct Table {
    heights: [u16; 4096],
    chunks: [Option<Chunk>; 64],
}

impl Table {
    fn new() -> Table {
        Table {
            heights: [MARK; 4096],
            chunks: [None; 64],
        }
    }

    fn has(&self, chunk: Chunk) -> bool {
        self.chunks[chunk.slot()] == Some(chunk)
    }

    fn get(&self, at: Cell) -> u16 {
        self.heights[64 * at.chunk().slot() + at.place()]
    }

    fn put(&mut self, at: Cell, number: u16) {
        self.heights[64 * at.chunk().slot() + at.place()] = number;
    }
}

// Asks all 64 cells of a chunk and overwrites its slot.
fn fill(below: &mut impl Field, table: &mut Table, chunk: Chunk) {
    for place in 0..64 {
        let cell = chunk.cell(place);
        let number = below.ask(cell).unwrap_or(MARK);
        table.put(cell, number);
    }
    table.chunks[chunk.slot()] = Some(chunk);
}

// What the field answers, from the table where it can, and whether that took a fill.
fn ask_through(below: &mut impl Field, table: &mut Table, at: Cell) -> (Result<u16, Blank>, bool) {
    if !at.is_inside() {
        return (Err(Blank::new(at)), false);
    }
    let filled = !table.has(at.chunk());
    if filled {
        fill(below, table, at.chunk());
    }
    match table.get(at) {
        MARK => (below.ask(at), filled),
        height => (Ok(height), filled),
    }
}

struct Cache<F> {
    below: F,
    table: Table,
}

impl<F: Field> Cache<F> {
    fn new(below: F) -> Cache<F> {
        Cache {
            below,
            table: Table::new(),
        }
    }
}

impl<F: Field> Field for Cache<F> {
    fn ask(&mut self, at: Cell) -> Result<u16, Blank> {
        ask_through(&mut self.below, &mut self.table, at).0
    }
}

struct Layer<F, R> {
    below: F,
    rule: R,
}

impl<F: Field, R: Rule> Field for Layer<F, R> {
    fn ask(&mut self, at: Cell) -> Result<u16, Blank> {
        if !at.is_inside() {
            return Err(Blank::new(at));
        }
        let radius = i32::from(self.rule.radius());
        let mut square = [0; LARGEST_SQUARE];
        let mut count = 0;
        for y in at.y - radius..=at.y + radius {
            for x in at.x - radius..=at.x + radius {
                square[count] = self.below.ask(Cell { x, y }).map_err(Blank::raise)?;
                count += 1;
            }
        }
        Ok(self.rule.answer(&square[..count]))
    }
}

struct Smoothing;

impl Rule for Smoothing {
    fn radius(&self) -> u8 {
        1
    }

    fn answer(&self, square: &[u16]) -> u16 {
        let at = |i: usize| u32::from(square[i]);
        let corners = at(0) + at(2) + at(6) + at(8);
        let sides = at(1) + at(3) + at(5) + at(7);
        ((corners + 2 * sides + 4 * at(4)) / 16) as u16
    }
}

struct Settlement;

impl Rule for Settlement {
    fn radius(&self) -> u8 {
        2
    }

    fn answer(&self, square: &[u16]) -> u16 {
        let centre = square[12];
        let outranked = |(place, &other): (usize, &u16)| place == 12 || other < centre || other == centre && 12 < place;
        u16::from(square.iter().enumerate().all(outranked))
    }
}

struct Road;

fn apart(i: usize, j: usize) -> usize {
    (i / 23).abs_diff(j / 23).max((i % 23).abs_diff(j % 23))
}

fn is_between(a: usize, b: usize, c: usize) -> bool {
    a <= c && c <= b || b <= c && c <= a
}

// Whether the centre lies on the path from `a` to `b`.
fn has_centre(a: usize, b: usize) -> bool {
    a / 23 == 11 && is_between(a % 23, b % 23, 11) || b % 23 == 11 && is_between(a / 23, b / 23, 11)
}

fn are_linked(square: &[u16], a: usize, b: usize) -> bool {
    let length = apart(a, b);
    if a >= b || length > 6 {
        return false;
    }
    let first = (b / 23 + 1).saturating_sub(length) * 23;
    let end = ((a / 23 + length) * 23).min(square.len());
    !(first..end).any(|c| square[c] != 0 && apart(c, a) < length && apart(c, b) < length)
}

impl Rule for Road {
    fn radius(&self) -> u8 {
        11
    }

    fn answer(&self, square: &[u16]) -> u16 {
        for a in 5 * 23..12 * 23 {
            if square[a] == 0 {
                continue;
            }
            for b in 11 * 23..18 * 23 {
                if square[b] != 0 && has_centre(a, b) && are_linked(square, a, b) {
                    return 1;
                }
            }
        }
        0
    }
}

struct Constant {
    height: u16,
}

impl Field for Constant {
    fn ask(&mut self, at: Cell) -> Result<u16, Blank> {
        if at.is_inside() {
            Ok(self.height)
        } else {
            Err(Blank::new(at))
        }
    }
}

fn cached<F: Field, R: Rule>(below: F, rule: R) -> Layer<Cache<F>, R> {
    Layer {
        below: Cache::new(below),
        rule,
    }
}

fn heights() -> impl Field {
    cached(cached(Noise { seed: SEED }, Smoothing), Smoothing)
}

struct World<F> {
    below: F,
    table: Table,
}

// The fields are never read here. They are kept so that an answer has the size that it has in the crates.
#[allow(dead_code)]
enum RowRefusal {
    Full,
    Short,
    Blank(Cell, Blank),
}

struct Drawing<F> {
    world: World<F>,
    corner: Cell,
    next: i32,
    fills: u32,
}

impl<F: Field> World<F> {
    fn open(below: F) -> World<F> {
        World {
            below,
            table: Table::new(),
        }
    }

    fn begin(self, corner: Cell) -> Drawing<F> {
        Drawing {
            world: self,
            corner,
            next: 0,
            fills: 0,
        }
    }
}

impl<F: Field> Drawing<F> {
    fn row(&mut self, out: &mut [u16]) -> Result<(), RowRefusal> {
        if self.next >= SIDE {
            return Err(RowRefusal::Full);
        }
        if out.len() < SIDE as usize {
            return Err(RowRefusal::Short);
        }
        for column in 0..SIDE {
            let at = Cell {
                x: self.corner.x + column,
                y: self.corner.y + self.next,
            };
            let (answer, filled) = ask_through(&mut self.world.below, &mut self.world.table, at);
            self.fills += u32::from(filled);
            out[column as usize] = answer.map_err(|blank| RowRefusal::Blank(at, blank))?;
        }
        self.next += 1;
        Ok(())
    }

    fn finish(self) -> (World<F>, u32) {
        (self.world, self.fills)
    }
}

// What the drawings so far add up to. The order of the heights counts.
struct Tally {
    cells: u64,
    checksum: u64,
    fills: u64,
}

// Draws so many windows one after another on one world.
fn drift(field: impl Field, windows: u16) -> Tally {
    let mut world = World::open(field);
    let mut tally = Tally {
        cells: 0,
        checksum: 0,
        fills: 0,
    };
    for i in 0..i32::from(windows) {
        let mut drawing = world.begin(Cell {
            x: i * 3 - 1000,
            y: i - 1000,
        });
        let mut row = [0; SIDE as usize];
        for _ in 0..SIDE {
            if drawing.row(&mut row).is_err() {
                break;
            }
            for height in row {
                tally.cells += 1;
                tally.checksum = tally.checksum.wrapping_mul(31).wrapping_add(height.into());
            }
        }
        let (back, fills) = drawing.finish();
        tally.fills += u64::from(fills);
        world = back;
    }
    tally
}

fn main() -> ExitCode {
    let words: Vec<String> = env::args().skip(1).collect();
    let [coast, windows] = words.as_slice() else {
        eprintln!("drift: the two arguments are the kind of coast and the number of windows");
        return ExitCode::FAILURE;
    };
    let Ok(windows) = windows.parse::<u16>() else {
        eprintln!("drift: the number of windows must lie from 0 to 65535");
        return ExitCode::FAILURE;
    };
    let tally = match coast.as_str() {
        "heights" => drift(heights(), windows),
        "roads" => drift(cached(cached(heights(), Settlement), Road), windows),
        "dense" => drift(
            Layer {
                below: Constant { height: 1 },
                rule: Road,
            },
            windows,
        ),
        _ => {
            eprintln!("drift: the kind of coast must be heights, roads or dense");
            return ExitCode::FAILURE;
        }
    };
    println!("cells {}", tally.cells);
    println!("checksum {}", tally.checksum);
    println!("fills {}", tally.fills);
    ExitCode::SUCCESS
}
