// Measures the proved listing of a map against plain Rust.
//
// Both list a map of nested islands, and a path of arcs with one ring through all sides,
// into a buffer that is there already. Times never fail the run; texts that differ do.

mod computed;
mod times;

use computed::seconds;
use std::hint::black_box;
use times::Times;

const SIZES: [usize; 5] = [1_024, 2_048, 4_096, 8_192, 16_384];
const REPETITIONS: usize = 31;
/// How many arcs are listed in one repetition, in as many listings as that takes.
const ARCS_TIMED: usize = 16 * 16_384;

/// Which map is listed.
#[derive(Clone, Copy)]
enum Sheet {
    /// Islands, each in the polygon of the one before: two rings for each arc.
    Nested,
    /// Arcs one after the other: one ring through all sides. At least two.
    Path,
}

mod natharqo {
    use super::Sheet;

    #[repr(C)]
    #[derive(Clone, Copy)]
    struct Place {
        x: f64,
        y: f64,
    }

    extern "C" {
        fn natharqo_list_nested(islands: usize, again: usize, out: *mut u8, len: usize) -> u64;
        fn natharqo_list_path(
            places: *const Place,
            places_len: usize,
            cuts: *const usize,
            cuts_len: usize,
            again: usize,
            out: *mut u8,
            len: usize,
        ) -> u64;
    }

    /// Round an island of one arc more than the path has, which is split from behind; then its first arc goes.
    fn list_path(arcs: usize, again: usize, out: &mut [u8]) -> u64 {
        let corner = |k: usize| Place { x: (k % (arcs + 1)) as f64, y: ((k % (arcs + 1)) * k) as f64 };
        let places: Vec<Place> = (0..arcs + 2).map(corner).collect();
        let cuts: Vec<usize> = (1..arcs + 1).rev().collect();
        // SAFETY: the function reads `places` and `cuts`, writes at most `len` bytes at `out` and keeps nothing.
        unsafe { natharqo_list_path(places.as_ptr(), places.len(), cuts.as_ptr(), cuts.len(), again, out.as_mut_ptr(), out.len()) }
    }

    /// Makes the map, lists it, and before that so many times more.
    #[inline(never)]
    pub fn list(sheet: Sheet, arcs: usize, again: usize, out: &mut [u8]) -> u64 {
        match sheet {
            // SAFETY: the function writes at most `len` bytes at `out` and keeps nothing.
            Sheet::Nested => unsafe { natharqo_list_nested(arcs, again, out.as_mut_ptr(), out.len()) },
            Sheet::Path => list_path(arcs, again, out),
        }
    }
}

/// The same work in plain Rust, written apart from the library.
mod plain {
    use super::Sheet;
    use std::io::Write;

    struct Side {
        polygon: usize,
        next: usize,
    }

    #[derive(Default)]
    pub struct Map {
        sides: Vec<Side>,
        nodes: usize,
        polygons: usize,
    }

    impl Map {
        pub fn of(sheet: Sheet, arcs: usize) -> Map {
            match sheet {
                Sheet::Nested => Map::nested(arcs),
                Sheet::Path => Map::path(arcs),
            }
        }

        /// An island of one arc more, split from behind, without its first arc; the last one has its number.
        fn path(arcs: usize) -> Map {
            let along = std::iter::once(0).chain((1..arcs).rev()).map(|arc| 2 * arc);
            let back = (1..arcs).chain(std::iter::once(0)).map(|arc| 2 * arc + 1);
            let ring: Vec<usize> = along.chain(back).collect();
            let mut sides: Vec<Side> = (0..2 * arcs).map(|side| Side { polygon: 0, next: side }).collect();
            for (at, side) in ring.iter().enumerate() {
                sides[*side].next = ring[(at + 1) % ring.len()];
            }
            Map { sides, nodes: arcs + 1, polygons: 1 }
        }

        /// So many islands, each in the polygon of the one before.
        fn nested(islands: usize) -> Map {
            let mut map = Map { polygons: 1, ..Map::default() };
            for outer in 0..islands {
                let n = map.sides.len();
                map.sides.push(Side { polygon: map.polygons, next: n });
                map.sides.push(Side { polygon: outer, next: n + 1 });
                map.nodes += 1;
                map.polygons += 1;
            }
            map
        }

        /// The lowest side of each ring, rising.
        fn ring_starts(&self) -> Vec<usize> {
            let mut seen = vec![false; self.sides.len()];
            let mut starts = Vec::new();
            for start in 0..self.sides.len() {
                if !seen[start] {
                    starts.push(start);
                    let mut side = start;
                    while !seen[side] {
                        seen[side] = true;
                        side = self.sides[side].next;
                    }
                }
            }
            starts
        }

        fn write(&self, out: &mut impl Write) -> std::io::Result<()> {
            let starts = self.ring_starts();
            writeln!(out, "arcs {} nodes {} polygons {} rings {}", self.sides.len() / 2, self.nodes, self.polygons, starts.len())?;
            for start in starts {
                write!(out, "{}:", self.sides[start].polygon)?;
                let mut side = start;
                loop {
                    write!(out, " {}{}", side / 2, if side % 2 == 0 { '+' } else { '-' })?;
                    side = self.sides[side].next;
                    if side == start {
                        break;
                    }
                }
                writeln!(out)?;
            }
            Ok(())
        }

        /// Lists the map into the buffer; `None` when that is too short.
        #[inline(never)]
        pub fn list(&self, out: &mut [u8]) -> Option<usize> {
            let room = out.len();
            let mut rest = out;
            self.write(&mut rest).ok()?;
            Some(room - rest.len())
        }
    }
}

/// Seconds for one listing.
struct Measured {
    median: f64,
    least: f64,
}

/// The times of both, taken in turns. The library's are those of calls that list many times, less those of calls that list once.
fn measured(sheet: Sheet, arcs: usize, out: &mut [u8]) -> (Measured, Measured) {
    let times = ARCS_TIMED / arcs;
    let map = plain::Map::of(sheet, arcs);
    let (mut many, mut once, mut plain) = (Times::default(), Times::default(), Times::default());
    for _ in 0..=REPETITIONS {
        many.0.push(seconds(|| {
            black_box(natharqo::list(sheet, black_box(arcs), black_box(times), black_box(out)));
        }));
        plain.0.push(seconds(|| {
            for _ in 0..times {
                black_box(black_box(&map).list(black_box(out)));
            }
        }));
        once.0.push(seconds(|| {
            black_box(natharqo::list(sheet, black_box(arcs), black_box(0), black_box(out)));
        }));
    }
    // the first of each warms up
    for all in [&mut many, &mut once, &mut plain] {
        all.0.remove(0);
    }
    let each = times as f64;
    (
        Measured { median: (many.median() - once.median()) / each, least: (many.least() - once.least()) / each },
        Measured { median: plain.median() / each, least: plain.least() / each },
    )
}

/// Texts of both, held against each other: how many were compared, and how many differed.
#[derive(Default)]
struct Agreement {
    compared: u64,
    differing: u64,
}

impl Agreement {
    fn note(&mut self, what: &str, arcs: usize, agrees: bool) {
        self.compared += 1;
        if !agrees {
            self.differing += 1;
            println!("DIFFER: {what}, {arcs} arcs");
        }
    }

    /// The text in a buffer that is too long, just long enough and a byte too short. Gives its length.
    fn hold(&mut self, sheet: Sheet, arcs: usize, again: usize) -> usize {
        let mut long = vec![b'!'; 64 * (arcs + 1)];
        let size = plain::Map::of(sheet, arcs).list(&mut long).unwrap();
        let text = &long[..size];

        let mut out = vec![b'!'; size + 9];
        let said = natharqo::list(sheet, arcs, again, &mut out);
        self.note("room to spare", arcs, said == size as u64 && out[..size] == *text && out[size..] == *b"!!!!!!!!!");

        let mut out = vec![b'!'; size];
        let said = natharqo::list(sheet, arcs, again, &mut out);
        self.note("no room to spare", arcs, said == size as u64 && out == text);

        let mut out = vec![b'!'; size - 1];
        let said = natharqo::list(sheet, arcs, again, &mut out);
        self.note("a byte too short", arcs, said == u64::MAX && out.iter().all(|byte| *byte == b'!'));
        size
    }
}

/// The table of one sheet, and by which factors the time rises.
fn table(agreement: &mut Agreement, sheet: Sheet, what: &str, fewer: usize) {
    println!("Times of one listing of {what}, in microseconds, {REPETITIONS} repetitions of each:\n");
    println!("| arcs | bytes | natharqo, median | plain, median | ratio | natharqo, least | plain, least | ratio |");
    println!("|---|---|---|---|---|---|---|---|");
    let mut all = Vec::new();
    for most in SIZES {
        let arcs = most - fewer;
        let size = agreement.hold(sheet, arcs, 1);
        let mut out = vec![0; size];
        let (natharqo, plain) = measured(sheet, arcs, &mut out);
        println!(
            "| {arcs} | {size} | {:.1} | {:.1} | {:.2} | {:.1} | {:.1} | {:.2} |",
            1e6 * natharqo.median,
            1e6 * plain.median,
            natharqo.median / plain.median,
            1e6 * natharqo.least,
            1e6 * plain.least,
            natharqo.least / plain.least,
        );
        all.push((size as f64, natharqo, plain));
    }
    let ((bytes, natharqo, plain), (more_bytes, natharqo_more, plain_more)) = (&all[0], &all[all.len() - 1]);
    println!(
        "\nFrom {} to {} arcs, 16 times as many, there are {:.1} times as many bytes. The time rises by these factors:\n",
        SIZES[0] - fewer,
        SIZES[SIZES.len() - 1] - fewer,
        more_bytes / bytes
    );
    println!("| | median | least |");
    println!("|---|---|---|");
    println!("| natharqo | {:.1} | {:.1} |", natharqo_more.median / natharqo.median, natharqo_more.least / natharqo.least);
    println!("| plain | {:.1} | {:.1} |\n", plain_more.median / plain.median, plain_more.least / plain.least);
}

fn main() {
    let mut agreement = Agreement::default();
    for again in [0, 1, 2] {
        for islands in 0..=130 {
            agreement.hold(Sheet::Nested, islands, again);
        }
        for arcs in 2..=130 {
            agreement.hold(Sheet::Path, arcs, again);
        }
    }
    for (sheet, arcs) in [(Sheet::Nested, 16_385), (Sheet::Path, 16_384)] {
        let mut out = [b'!'; 100];
        agreement.note("one arc too many", arcs, natharqo::list(sheet, arcs, 0, &mut out) == u64::MAX && out == [b'!'; 100]);
    }
    table(&mut agreement, Sheet::Nested, "a map of nested islands", 0);
    table(&mut agreement, Sheet::Path, "a path of arcs, one ring through all sides", 1);
    println!("{} texts compared, {} differing.", agreement.compared, agreement.differing);
    if agreement.differing != 0 {
        std::process::exit(1);
    }
}
