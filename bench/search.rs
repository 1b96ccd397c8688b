// Measures the proved search by window against plain Rust.
//
// Both count the arcs of an ARC file whose boxes meet a window. The files are made
// in memory. Times never fail the run; answers that differ do.

mod times;

use std::hint::black_box;
use std::time::Instant;
use times::Times;

const REFUSED: u64 = u64::MAX;
const RECORDS: usize = 1_000_000;
const REPETITIONS: usize = 31;

mod natharqo {
    extern "C" {
        fn natharqo_arcs_meeting(file: *const u8, len: usize, minx: f64, maxx: f64, miny: f64, maxy: f64) -> u64;
    }

    #[inline(never)]
    pub fn arcs_meeting(file: &[u8], [minx, maxx, miny, maxy]: [f64; 4]) -> u64 {
        // SAFETY: the function reads `len` bytes at `file` and keeps nothing.
        unsafe { natharqo_arcs_meeting(file.as_ptr(), file.len(), minx, maxx, miny, maxy) }
    }
}

/// The same work in plain Rust, written apart from the library.
mod plain {
    struct Extent {
        minx: f64,
        maxx: f64,
        miny: f64,
        maxy: f64,
    }

    impl Extent {
        fn new([minx, maxx, miny, maxy]: [f64; 4]) -> Option<Extent> {
            let finite = minx.is_finite() && maxx.is_finite() && miny.is_finite() && maxy.is_finite();
            (finite && minx <= maxx && miny <= maxy).then_some(Extent { minx, maxx, miny, maxy })
        }

        fn of_record(record: &[u8]) -> Option<Extent> {
            let double = |at: usize| f64::from_le_bytes(record[at..at + 8].try_into().unwrap());
            Extent::new([double(0), double(8), double(16), double(24)])
        }

        fn meets(&self, other: &Extent) -> bool {
            self.minx <= other.maxx && other.minx <= self.maxx && self.miny <= other.maxy && other.miny <= self.maxy
        }
    }

    fn count<const SIZE: usize>(records: &[u8], window: &Extent) -> u64 {
        records
            .chunks_exact(SIZE)
            .filter(|record| Extent::of_record(record).is_some_and(|extent| extent.meets(window)))
            .count() as u64
    }

    fn count_in_file(file: &[u8], window: [f64; 4]) -> Option<u64> {
        let wide = matches!(file.get(3..7)?, b" 2.0" | b"02.0");
        let (header, size) = if wide { (56, 72) } else { (48, 56) };
        let body = file.get(header..)?;
        if &file[0..3] != b"ARC" {
            return None;
        }
        let elements = if wide {
            u64::from_le_bytes(file[40..48].try_into().unwrap())
        } else if matches!(&file[3..7], b" 1.1" | b"01.1") {
            u32::from_le_bytes(file[40..44].try_into().unwrap()).into()
        } else {
            return None;
        };
        let bytes = usize::try_from(elements).ok()?.checked_mul(size)?;
        let records = body.get(..bytes)?;
        let window = Extent::new(window)?;
        // a size that is known to the compiler makes the loop a little faster
        Some(if wide { count::<72>(records, &window) } else { count::<56>(records, &window) })
    }

    #[inline(never)]
    pub fn arcs_meeting(file: &[u8], window: [f64; 4]) -> u64 {
        count_in_file(file, window).unwrap_or(super::REFUSED)
    }
}

#[derive(Clone, Copy)]
struct Edition {
    name: &'static str,
    version: &'static [u8; 4],
    header: usize,
    record: usize,
    width: usize,
}

const EDITIONS: [Edition; 2] = [
    Edition { name: "1.1", version: b" 1.1", header: 48, record: 56, width: 4 },
    Edition { name: "2.0", version: b" 2.0", header: 56, record: 72, width: 8 },
];

/// A small generator of numbers, the same in each run.
struct Numbers(u64);

impl Numbers {
    fn next(&mut self) -> u64 {
        self.0 = self.0.wrapping_mul(6364136223846793005).wrapping_add(1442695040888963407);
        self.0 >> 33
    }

    /// A double from 0 up to 1, which it is not.
    fn unit(&mut self) -> f64 {
        self.next() as f64 / (1u64 << 31) as f64
    }
}

/// What a stored box may have wrong.
const FLAWS: [fn(&mut [f64; 4]); 10] = [
    |b| b[0] = f64::NAN,
    |b| b[1] = -f64::NAN,
    |b| b[2] = f64::from_bits(0x7ff0_0000_0000_0001),
    |b| b[3] = f64::from_bits(0xfff8_0000_0000_1234),
    |b| b[0] = f64::NEG_INFINITY,
    |b| b[1] = f64::INFINITY,
    |b| b[2] = f64::NEG_INFINITY,
    |b| b[3] = f64::INFINITY,
    |b| b.swap(0, 1),
    |b| b.swap(2, 3),
];

const FLAW_EVERY: usize = 10_007;

/// An ARC file of so many records over a land of 1000 by 1000, and how many of its boxes are fit.
fn arc_file(edition: Edition, records: usize, flaw_every: usize) -> (Vec<u8>, u64) {
    let mut boxes = Vec::with_capacity(records);
    let mut numbers = Numbers(20);
    let mut fit = 0;
    for k in 0..records {
        let (x, y) = (1000.0 * numbers.unit(), 1000.0 * numbers.unit());
        let (across, up) = (0.01 + numbers.unit(), 0.01 + numbers.unit());
        let mut b = [x, x + across, y, y + up];
        if k % flaw_every == flaw_every - 1 {
            FLAWS[k / flaw_every % FLAWS.len()](&mut b);
        } else {
            fit += 1;
        }
        boxes.push(b);
    }
    (arc_file_of(edition, &boxes), fit)
}

fn arc_file_of(edition: Edition, boxes: &[[f64; 4]]) -> Vec<u8> {
    let number = |n: u64| n.to_le_bytes().into_iter().take(edition.width);
    let end = edition.header + edition.record * boxes.len();
    let mut file = Vec::with_capacity(end);
    file.extend_from_slice(b"ARC");
    file.extend_from_slice(edition.version);
    file.push(0x03);
    for bound in [0.0f64, 1001.01, 0.0, 1001.01] {
        file.extend_from_slice(&bound.to_le_bytes());
    }
    file.extend(number(boxes.len() as u64));
    file.extend(number(0));
    for (k, b) in boxes.iter().enumerate() {
        for bound in b {
            file.extend_from_slice(&bound.to_le_bytes());
        }
        // vertex count, vertex offset, first node, last node, length
        file.extend([0, end as u64, 2 * k as u64, 2 * k as u64 + 1].into_iter().flat_map(number));
        file.extend_from_slice(&1.0f64.to_le_bytes());
    }
    assert_eq!(file.len(), end);
    file
}

const HALF: [f64; 4] = [0.0, 706.6, 0.0, 706.6];
const ALL: [f64; 4] = [-1.0, 1002.0, -1.0, 1002.0];

const WINDOWS: [(&str, [f64; 4]); 5] = [
    ("none, beside", [2000.0, 2100.0, 400.0, 500.0]),
    ("none, above", [400.0, 500.0, 2000.0, 2100.0]),
    ("1 %", [400.0, 499.5, 400.0, 499.5]),
    ("50 %", HALF),
    ("all", ALL),
];

/// A box on a small grid, with zeros of either sign. Not in order, it may have a minimum above the maximum.
fn grid_box(numbers: &mut Numbers, in_order: bool) -> [f64; 4] {
    let mut bounds = || {
        let low = (numbers.next() % 9) as f64 - 4.0;
        let low = if low == 0.0 && numbers.next() % 2 == 0 { -0.0 } else { low };
        let long = (numbers.next() % 4) as f64 - if in_order { 0.0 } else { 1.0 };
        [low, low + long]
    };
    let ([minx, maxx], [miny, maxy]) = (bounds(), bounds());
    [minx, maxx, miny, maxy]
}

/// Answers of both, held against each other and, where it is known, against the right one.
#[derive(Default)]
struct Agreement {
    asked: u64,
    differing: u64,
}

impl Agreement {
    fn ask(&mut self, what: &str, file: &[u8], window: [f64; 4], right: Option<u64>) -> u64 {
        let natharqo = natharqo::arcs_meeting(file, window);
        let plain = plain::arcs_meeting(file, window);
        self.asked += 1;
        if natharqo != plain || right.is_some_and(|answer| answer != plain) {
            self.differing += 1;
            println!("DIFFER: {what}, window {window:?}: natharqo {natharqo}, plain {plain}, right {right:?}");
        }
        natharqo
    }

    /// Files of a few records, whole and damaged.
    fn small_files(&mut self, edition: Edition) {
        let (file, fit) = arc_file(edition, 1000, 7);
        self.ask("small file", &file, ALL, Some(fit));

        // boxes and windows of which many share an edge or a corner only
        let mut numbers = Numbers(7);
        let boxes: Vec<_> = (0..400).map(|_| grid_box(&mut numbers, false)).collect();
        let on_grid = arc_file_of(edition, &boxes);
        for _ in 0..400 {
            self.ask("grid", &on_grid, grid_box(&mut numbers, true), None);
            self.ask("grid, window in any order", &on_grid, grid_box(&mut numbers, false), None);
        }

        // windows that are refused
        for at in 0..4 {
            for bad in [f64::NAN, -f64::NAN, f64::INFINITY, f64::NEG_INFINITY] {
                let mut window = ALL;
                window[at] = bad;
                self.ask("window not finite", &file, window, Some(REFUSED));
            }
        }
        self.ask("window out of order in x", &file, [2.0, 1.0, 1.0, 2.0], Some(REFUSED));
        self.ask("window out of order in y", &file, [1.0, 2.0, 2.0, 1.0], Some(REFUSED));
        self.ask("window of one place", &file, [1.0, 1.0, 2.0, 2.0], None);

        // short files: every length, with all records counted
        let (three, _) = arc_file(edition, 3, usize::MAX);
        for len in 0..three.len() {
            self.ask("short file", &three[..len], ALL, Some(REFUSED));
        }
        self.ask("three records", &three, ALL, Some(3));
        let mut longer = three.clone();
        longer.extend_from_slice(b"more");
        self.ask("bytes after the records", &longer, ALL, Some(3));
        let (empty, _) = arc_file(edition, 0, usize::MAX);
        self.ask("no record", &empty, ALL, Some(0));

        // counts
        let mut counted = |count: u64, right: Option<u64>| {
            let mut file = three.clone();
            file[40..40 + edition.width].copy_from_slice(&count.to_le_bytes()[..edition.width]);
            self.ask("another count", &file, ALL, right);
        };
        counted(2, Some(2));
        for past in [4, 5, 1 << 31, u32::MAX.into()] {
            counted(past, Some(REFUSED));
        }
        if edition.width == 8 {
            // products that would wrap to 0, to few bytes, or to a large number
            for past in [1 << 61, (1 << 61) + 2, u64::MAX / 72, u64::MAX / 72 + 1, u64::MAX / 2, u64::MAX] {
                counted(past, Some(REFUSED));
            }
        }

        // kinds and versions
        for kind in [b"PNT", b"NOD", b"POL", b"arc", b"ARX", b"\0\0\0"] {
            let mut file = three.clone();
            file[0..3].copy_from_slice(kind);
            self.ask("another kind", &file, ALL, Some(REFUSED));
        }
        for version in [b" 1.0", b" 2.1", b"11.1", b"1.1 ", b" 3.0", b" 1,1", b"\0\0\0\0"] {
            let mut file = three.clone();
            file[3..7].copy_from_slice(version);
            self.ask("another version", &file, ALL, Some(REFUSED));
            self.ask("another version, short", &file[..47], ALL, Some(REFUSED));
        }
        let mut spelled = three.clone();
        spelled[3] = b'0';
        self.ask("version with a 0", &spelled, ALL, Some(3));

        // every byte of the header and of record 0, with every value
        for at in 0..edition.header + edition.record {
            for value in 0..=255 {
                let mut file = three.clone();
                file[at] = value;
                self.ask("one byte changed", &file, ALL, None);
                self.ask("one byte changed", &file, HALF, None);
            }
        }
    }
}

/// Seconds for one call.
fn timed(calls: usize, search: fn(&[u8], [f64; 4]) -> u64, file: &[u8], window: [f64; 4]) -> f64 {
    let start = Instant::now();
    for _ in 0..calls {
        black_box(search(black_box(file), black_box(window)));
    }
    start.elapsed().as_secs_f64() / calls as f64
}

/// The times of both, taken in turns.
fn measured(calls: usize, file: &[u8], window: [f64; 4]) -> (Times, Times) {
    let (mut natharqo, mut plain) = (Times::default(), Times::default());
    // once each, unmeasured
    timed(calls, natharqo::arcs_meeting, file, window);
    timed(calls, plain::arcs_meeting, file, window);
    for turn in 0..REPETITIONS {
        if turn % 2 == 0 {
            natharqo.0.push(timed(calls, natharqo::arcs_meeting, file, window));
            plain.0.push(timed(calls, plain::arcs_meeting, file, window));
        } else {
            plain.0.push(timed(calls, plain::arcs_meeting, file, window));
            natharqo.0.push(timed(calls, natharqo::arcs_meeting, file, window));
        }
    }
    (natharqo, plain)
}

/// One search over the whole file, by edition and window.
fn compare(agreement: &mut Agreement) {
    println!("Times of one search over {RECORDS} records, in milliseconds, {REPETITIONS} repetitions of each:\n");
    println!("| edition | window | found | natharqo, median | plain, median | ratio | natharqo, least | plain, least | ratio |");
    println!("|---|---|---|---|---|---|---|---|---|");
    for edition in EDITIONS {
        let (file, fit) = arc_file(edition, RECORDS, FLAW_EVERY);
        for (name, window) in WINDOWS {
            let right = match name {
                "1 %" | "50 %" => None,
                "all" => Some(fit),
                _ => Some(0),
            };
            let found = agreement.ask(edition.name, &file, window, right);
            let (natharqo, plain) = measured(1, &file, window);
            println!(
                "| {} | {name} | {found} | {:.2} | {:.2} | {:.2} | {:.2} | {:.2} | {:.2} |",
                edition.name,
                1e3 * natharqo.median(),
                1e3 * plain.median(),
                natharqo.median() / plain.median(),
                1e3 * natharqo.least(),
                1e3 * plain.least(),
                natharqo.least() / plain.least(),
            );
        }
    }
}

/// The time of a record in files of rising length.
fn grow(agreement: &mut Agreement) {
    println!("\nHow the time grows, in nanoseconds for each record (medians):\n");
    println!("| edition | window | records | megabytes | natharqo | plain | ratio |");
    println!("|---|---|---|---|---|---|---|");
    for edition in EDITIONS {
        for (name, window) in WINDOWS.into_iter().filter(|(name, _)| ["1 %", "all"].contains(name)) {
            for records in [10_000, 125_000, 250_000, 500_000, 1_000_000] {
                let (file, _) = arc_file(edition, records, FLAW_EVERY);
                agreement.ask(edition.name, &file, window, None);
                // a short file is searched some times over in each repetition
                let calls = (125_000 / records).max(1);
                let (natharqo, plain) = measured(calls, &file, window);
                println!(
                    "| {} | {name} | {records} | {:.1} | {:.2} | {:.2} | {:.2} |",
                    edition.name,
                    file.len() as f64 / 1e6,
                    1e9 * natharqo.median() / records as f64,
                    1e9 * plain.median() / records as f64,
                    natharqo.median() / plain.median(),
                );
            }
        }
    }
}

fn main() {
    let mut agreement = Agreement::default();
    for edition in EDITIONS {
        agreement.small_files(edition);
    }
    compare(&mut agreement);
    grow(&mut agreement);
    println!("\n{} questions asked of both, {} answered differently.", agreement.asked, agreement.differing);
    if agreement.differing != 0 {
        std::process::exit(1);
    }
}
