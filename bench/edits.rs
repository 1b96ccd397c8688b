// Measures the proved edits of a map against plain Rust.
//
// Both make a sheet of islands and edit it in pairs: a division and a dissolve, or a split and a join. Times never fail the run; answers
// that differ do.

mod computed;
mod times;

use computed::seconds;
use std::hint::black_box;
use times::Times;

const REPETITIONS: usize = 31;
/// So many arcs are there while a pair is made, the new one among them.
const SIZES: [usize; 2] = [1_024, 16_384];
/// In one repetition there are as many pairs as make this, times the arcs.
const ARCS_TIMED: usize = 256 * 16_384;

/// A place, as the library takes it.
#[repr(C)]
#[derive(Clone, Copy, PartialEq)]
pub struct Place {
    x: f64,
    y: f64,
}

/// A straight arc from the start of one arc to that of another, and the arc that is dissolved once it is there.
#[repr(C)]
#[derive(Clone, Copy, Debug)]
pub struct Chord {
    from: u32,
    to: u32,
    gone: u32,
}

/// An arc that is split at a vertex, and the node where two arcs are joined once it is.
#[repr(C)]
#[derive(Clone, Copy, Debug)]
pub struct Parting {
    arc: usize,
    vertex: usize,
    node: usize,
}

/// What a map answers about a side, and how many vertices its arc has.
#[repr(C)]
#[derive(Clone, Copy, Debug, Default, PartialEq, Eq)]
pub struct SideTold {
    node: usize,
    polygon: usize,
    next: usize,
    lowest: usize,
    vertices: usize,
}

/// So many islands round the same places, each in the polygon of the one before, and each split at the same vertices, from behind.
struct Sheet {
    islands: usize,
    places: Vec<Place>,
    cuts: Vec<usize>,
}

impl Sheet {
    /// Islands of so many arcs, of four vertices each.
    fn new(islands: usize, arcs: usize) -> Sheet {
        let corners = 3 * arcs;
        let corner = |k: usize| Place { x: (k % corners) as f64, y: ((k % corners) * (k % corners)) as f64 };
        Sheet { islands, places: (0..=corners).map(corner).collect(), cuts: (1..arcs).rev().map(|k| 3 * k).collect() }
    }

    fn arcs(&self) -> usize {
        self.islands * (self.cuts.len() + 1)
    }
}

/// What is done on a sheet, one after the other.
enum Edits {
    Chords(Vec<Chord>),
    Partings(Vec<Parting>),
}

mod natharqo {
    use super::{Chord, Edits, Parting, Place, Sheet, SideTold};

    /// A call: how many islands; the places, the cuts and the edits; the buffer; the rows.
    type Call<Edit> = unsafe extern "C" fn(usize, *const Place, usize, *const usize, usize, *const Edit, usize, *mut u8, usize, *mut SideTold, usize) -> u64;

    extern "C" {
        fn natharqo_divide_and_dissolve(
            islands: usize,
            places: *const Place,
            places_len: usize,
            cuts: *const usize,
            cuts_len: usize,
            chords: *const Chord,
            chords_len: usize,
            out: *mut u8,
            out_len: usize,
            told: *mut SideTold,
            told_len: usize,
        ) -> u64;
        fn natharqo_split_and_join(
            islands: usize,
            places: *const Place,
            places_len: usize,
            cuts: *const usize,
            cuts_len: usize,
            partings: *const Parting,
            partings_len: usize,
            out: *mut u8,
            out_len: usize,
            told: *mut SideTold,
            told_len: usize,
        ) -> u64;
    }

    fn call<Edit>(call: Call<Edit>, sheet: &Sheet, edits: &[Edit], out: &mut [u8], told: &mut [SideTold]) -> u64 {
        let (places, cuts) = (&sheet.places, &sheet.cuts);
        // SAFETY: the function reads and writes these slices alone, and keeps nothing.
        unsafe {
            call(
                sheet.islands,
                places.as_ptr(),
                places.len(),
                cuts.as_ptr(),
                cuts.len(),
                edits.as_ptr(),
                edits.len(),
                out.as_mut_ptr(),
                out.len(),
                told.as_mut_ptr(),
                told.len(),
            )
        }
    }

    /// Makes the sheet, edits it, tells each side and lists the map.
    #[inline(never)]
    pub fn edit(sheet: &Sheet, edits: &Edits, out: &mut [u8], told: &mut [SideTold]) -> u64 {
        match edits {
            Edits::Chords(chords) => call(natharqo_divide_and_dissolve, sheet, chords, out, told),
            Edits::Partings(partings) => call(natharqo_split_and_join, sheet, partings, out, told),
        }
    }
}

/// The same rules in plain Rust, written apart from the library.
mod plain {
    use super::{Chord, Edits, Parting, Place, Sheet, SideTold};
    use std::fmt::Write;

    const MOST_SIDES: usize = 32_768;
    const MOST_VERTICES: usize = 131_072;

    #[derive(Clone, Copy)]
    struct Side {
        node: u32,
        /// where the vertex lies at which the side begins
        vertex: u32,
        polygon: u32,
        next: u32,
        /// the lowest side of its ring
        lowest: u32,
    }

    #[derive(Clone)]
    pub struct Map {
        sides: Vec<Side>,
        vertices: Vec<Place>,
        nodes: u32,
        polygons: u32,
    }

    #[derive(Debug, PartialEq, Eq)]
    pub struct Refused(pub u32);

    pub type Edited = Result<(), Refused>;

    fn opposite(side: u32) -> u32 {
        side ^ 1
    }

    impl Map {
        pub fn new() -> Map {
            Map {
                sides: Vec::with_capacity(MOST_SIDES),
                vertices: Vec::with_capacity(MOST_VERTICES),
                nodes: 0,
                polygons: 1,
            }
        }

        pub fn arcs(&self) -> usize {
            self.sides.len() / 2
        }

        fn side(&mut self, side: u32) -> &mut Side {
            &mut self.sides[side as usize]
        }

        fn next(&self, side: u32) -> u32 {
            self.sides[side as usize].next
        }

        fn start(&self, side: u32) -> Place {
            self.vertices[self.sides[side as usize].vertex as usize]
        }

        /// The side before a side in its ring, found by turning about its node.
        fn before(&self, side: u32) -> u32 {
            let mut at = side;
            loop {
                let across = opposite(at);
                at = self.next(across);
                if at == side {
                    return across;
                }
            }
        }

        /// Tells each side of a ring its polygon and the lowest side of the ring.
        fn tell_ring(&mut self, start: u32, polygon: u32) {
            let mut lowest = start;
            let mut at = self.next(start);
            while at != start {
                lowest = lowest.min(at);
                at = self.next(at);
            }
            loop {
                let side = self.side(at);
                side.polygon = polygon;
                side.lowest = lowest;
                at = side.next;
                if at == start {
                    return;
                }
            }
        }

        fn has_room(&self, vertices: usize) -> bool {
            self.sides.len() + 2 <= MOST_SIDES && self.vertices.len() + vertices <= MOST_VERTICES
        }

        pub fn island(&mut self, polygon: u32, run: &[Place]) -> Edited {
            if polygon >= self.polygons {
                return Err(Refused(20));
            }
            if run.len() < 4 || run[0] != run[run.len() - 1] || !all_finite(run) {
                return Err(Refused(21));
            }
            if !self.has_room(run.len()) {
                return Err(Refused(22));
            }
            let n = self.sides.len() as u32;
            let first = self.vertices.len() as u32;
            let last = first + run.len() as u32 - 1;
            self.sides.push(Side { node: self.nodes, vertex: first, polygon: self.polygons, next: n, lowest: n });
            self.sides.push(Side { node: self.nodes, vertex: last, polygon, next: n + 1, lowest: n + 1 });
            self.vertices.extend_from_slice(run);
            self.nodes += 1;
            self.polygons += 1;
            Ok(())
        }

        pub fn split(&mut self, arc: usize, k: usize) -> Edited {
            if arc >= self.arcs() {
                return Err(Refused(20));
            }
            let along = 2 * arc as u32;
            let against = along + 1;
            let first = self.sides[along as usize].vertex as usize;
            let last = self.sides[against as usize].vertex as usize;
            if k == 0 || k >= last - first {
                return Err(Refused(25));
            }
            if !self.has_room(1) {
                return Err(Refused(22));
            }
            let n = self.sides.len() as u32;
            let node = self.nodes;
            let at = (first + k) as u32;
            let end = self.sides[against as usize];
            let before = self.before(against);
            self.side(before).next = n + 1;
            let begin = self.sides[along as usize];
            self.sides.push(Side { node, vertex: at, ..begin });
            self.sides.push(Side { next: against, ..end });
            self.side(along).next = n;
            let against = self.side(against);
            against.node = node;
            against.vertex = at;
            self.vertices.push(self.vertices[at as usize]);
            self.nodes += 1;
            Ok(())
        }

        /// The lower of the two arcs at the node keeps its number and direction, and takes the vertices of the other.
        pub fn join(&mut self, node: usize) -> Edited {
            if node >= self.nodes as usize {
                return Err(Refused(20));
            }
            let gone_node = node as u32;
            let stays = self.sides.iter().position(|side| side.node == gone_node).unwrap() as u32;
            let goes = self.next(opposite(stays));
            if goes == stays || goes == opposite(stays) || self.next(opposite(goes)) != stays {
                return Err(Refused(26));
            }
            let far = opposite(goes);
            let whole = self.run(stays / 2);
            let other = self.run(goes / 2);
            let room = whole.len() + other.len() - 1;
            if self.vertices.len() + room > MOST_VERTICES {
                return Err(Refused(22));
            }
            // the vertices of the other arc in the direction of the one that stays, without that at the node
            let first = self.vertices.len();
            let backwards = goes % 2 == stays % 2;
            let rest = if goes % 2 == 0 { other.start + 1..other.end } else { other.start..other.end - 1 };
            if stays % 2 == 1 {
                self.vertices.extend_from_within(whole.clone());
            }
            let at = self.vertices.len();
            self.vertices.extend_from_within(rest);
            if backwards {
                self.vertices[at..].reverse();
            }
            if stays % 2 == 0 {
                self.vertices.extend_from_within(whole);
            }
            let along = stays & !1;
            self.side(along).vertex = first as u32;
            self.side(along + 1).vertex = (first + room - 1) as u32;
            self.side(stays).node = self.sides[far as usize].node;
            // both sides of the other arc leave their rings
            let before = self.before(far);
            self.side(before).next = stays;
            self.side(opposite(stays)).next = self.next(goes);
            self.take_out(goes as usize / 2);
            self.nodes -= 1;
            let last = self.nodes;
            if gone_node != last {
                for side in &mut self.sides {
                    if side.node == last {
                        side.node = gone_node;
                    }
                }
            }
            Ok(())
        }

        /// Where the vertices of an arc lie.
        fn run(&self, arc: u32) -> std::ops::Range<usize> {
            let along = 2 * arc as usize;
            self.sides[along].vertex as usize..self.sides[along + 1].vertex as usize + 1
        }

        /// The ring of the new unturned side gets the new polygon.
        pub fn divide(&mut self, first: usize, second: usize, run: &[Place]) -> Edited {
            if first >= self.sides.len() || second >= self.sides.len() {
                return Err(Refused(20));
            }
            if self.sides[first].lowest != self.sides[second].lowest {
                return Err(Refused(27));
            }
            if run.len() < 2 || !all_finite(run) {
                return Err(Refused(21));
            }
            let (first, second) = (first as u32, second as u32);
            if run[0] != self.start(first) || run[run.len() - 1] != self.start(second) {
                return Err(Refused(28));
            }
            if !self.has_room(run.len()) {
                return Err(Refused(22));
            }
            let n = self.sides.len() as u32;
            let row = self.vertices.len() as u32;
            let old = self.sides[first as usize].polygon;
            let before_first = self.before(first);
            let before_second = self.before(second);
            self.sides.push(Side { vertex: row, next: second, ..self.sides[first as usize] });
            self.sides.push(Side { vertex: row + run.len() as u32 - 1, next: first, ..self.sides[second as usize] });
            if first == second {
                self.side(n + 1).next = n + 1;
            } else {
                self.side(before_second).next = n + 1;
            }
            self.side(before_first).next = n;
            self.tell_ring(n, self.polygons);
            self.tell_ring(n + 1, old);
            self.vertices.extend_from_slice(run);
            self.polygons += 1;
            Ok(())
        }

        pub fn dissolve(&mut self, arc: usize) -> Edited {
            if arc >= self.arcs() {
                return Err(Refused(20));
            }
            let along = 2 * arc as u32;
            let against = along + 1;
            let (a, b) = (self.sides[along as usize], self.sides[against as usize]);
            if a.lowest == b.lowest {
                return Err(Refused(29));
            }
            if a.next == along && b.next == against {
                return Err(Refused(30));
            }
            // what came before one side leads to what came after the other; a side that is a ring alone is just left out
            let before_along = self.before(along);
            let before_against = self.before(against);
            if a.next != along {
                self.side(before_along).next = if b.next == against { a.next } else { b.next };
            }
            if b.next != against {
                self.side(before_against).next = if a.next == along { b.next } else { a.next };
            }
            let left = a.polygon.min(b.polygon);
            let start = if a.next == along { b.next } else { a.next };
            self.tell_ring(start, left);
            self.take_out(arc);
            if a.polygon != b.polygon {
                let gone = a.polygon.max(b.polygon);
                self.polygons -= 1;
                let last = self.polygons;
                for side in &mut self.sides {
                    if side.polygon == gone {
                        side.polygon = left;
                    } else if side.polygon == last {
                        side.polygon = gone;
                    }
                }
            }
            Ok(())
        }

        /// Takes the rows of an arc out that no side leads to; the last arc takes its number.
        fn take_out(&mut self, arc: usize) {
            let along = 2 * arc as u32;
            let last = self.sides.len() as u32 - 2;
            if along == last {
                self.sides.truncate(last as usize);
                return;
            }
            let renumbered = |side: u32| if side >= last { side - last + along } else { side };
            let befores = [self.before(last), self.before(last + 1)];
            for side in [last, last + 1] {
                self.sides[renumbered(side) as usize] = self.sides[side as usize];
            }
            self.sides.truncate(last as usize);
            for before in befores {
                let side = self.side(renumbered(before));
                side.next = renumbered(side.next);
            }
            for side in [along, along + 1] {
                let polygon = self.side(side).polygon;
                self.tell_ring(side, polygon);
            }
        }

        /// What the map answers about each side.
        pub fn told(&self) -> Vec<SideTold> {
            let answer = |(k, side): (usize, &Side)| SideTold {
                node: side.node as usize,
                polygon: side.polygon as usize,
                next: side.next as usize,
                lowest: side.lowest as usize,
                vertices: (self.sides[k | 1].vertex - self.sides[k & !1].vertex) as usize + 1,
            };
            self.sides.iter().enumerate().map(answer).collect()
        }

        pub fn listing(&self) -> String {
            let starts = (0..self.sides.len()).filter(|s| self.sides[*s].lowest as usize == *s);
            let mut text = String::new();
            writeln!(text, "arcs {} nodes {} polygons {} rings {}", self.arcs(), self.nodes, self.polygons, starts.clone().count()).unwrap();
            for start in starts {
                write!(text, "{}:", self.sides[start].polygon).unwrap();
                let mut side = start as u32;
                loop {
                    write!(text, " {}{}", side / 2, if side % 2 == 0 { '+' } else { '-' }).unwrap();
                    side = self.next(side);
                    if side as usize == start {
                        break;
                    }
                }
                text.push('\n');
            }
            text
        }

        pub fn sheet(sheet: &Sheet) -> Result<Map, Refused> {
            let mut map = Map::new();
            for k in 0..sheet.islands {
                let arc = map.arcs();
                map.island(k as u32, &sheet.places)?;
                for cut in &sheet.cuts {
                    map.split(arc, *cut)?;
                }
            }
            Ok(map)
        }

        fn start_of_arc(&self, arc: u32) -> Result<Place, Refused> {
            if arc as usize >= self.arcs() {
                return Err(Refused(20));
            }
            Ok(self.start(2 * arc))
        }

        pub fn divide_and_dissolve(&mut self, chord: Chord) -> Edited {
            let run = [self.start_of_arc(chord.from)?, self.start_of_arc(chord.to)?];
            self.divide(2 * chord.from as usize, 2 * chord.to as usize, &run)?;
            self.dissolve(chord.gone as usize)
        }

        pub fn split_and_join(&mut self, parting: Parting) -> Edited {
            self.split(parting.arc, parting.vertex)?;
            self.join(parting.node)
        }

        /// Makes the edits one after the other, up to one that is refused.
        #[inline(never)]
        pub fn edit(&mut self, edits: &Edits) -> Edited {
            match edits {
                Edits::Chords(chords) => chords.iter().try_for_each(|chord| self.divide_and_dissolve(*chord)),
                Edits::Partings(partings) => partings.iter().try_for_each(|parting| self.split_and_join(*parting)),
            }
        }
    }

    fn all_finite(run: &[Place]) -> bool {
        run.iter().all(|v| v.x.is_finite() && v.y.is_finite())
    }
}

/// Seconds for one pair.
#[derive(Clone, Copy)]
struct Measured {
    median: f64,
    least: f64,
}

/// Pairs at islands spread over the sheet: from the start of an island to about half way round. Either the new arc is dissolved, or an
/// older one, whose number the new one takes.
fn chords(sheet: &Sheet, pairs: usize, older: bool) -> Edits {
    let arcs = sheet.arcs() / sheet.islands;
    let chord = |k: usize| {
        let from = k * 7_919 % sheet.islands * arcs;
        Chord { from: from as u32, to: (from + arcs / 2) as u32, gone: if older { from } else { sheet.arcs() } as u32 }
    };
    Edits::Chords((0..pairs).map(chord).collect())
}

/// Splits at arcs spread over the sheet. Either the new node goes again, or the highest one of before, and then the new one takes its
/// number.
fn partings(sheet: &Sheet, pairs: usize, older: bool) -> Edits {
    let parting = |k: usize| Parting { arc: (k + 1) * 7_919 % (sheet.arcs() - 2), vertex: 1, node: if older { sheet.arcs() - 1 } else { sheet.arcs() } };
    Edits::Partings((0..pairs).map(parting).collect())
}

/// The times of both, taken in turns, each first in every other repetition. The library's are those of calls with pairs, less those of
/// calls without.
fn measured(sheet: &Sheet, edits: &Edits, pairs: usize, out: &mut [u8]) -> (Measured, Measured) {
    let none = Edits::Chords(Vec::new());
    let (mut with, mut without, mut plain) = (Times::default(), Times::default(), Times::default());
    for k in 0..=REPETITIONS {
        let mut natharqo = || {
            for (edits, times) in [(edits, &mut with), (&none, &mut without)] {
                times.0.push(seconds(|| assert_ne!(natharqo::edit(black_box(sheet), black_box(edits), out, &mut []), u64::MAX)));
            }
        };
        let mut by_hand = || {
            let mut map = plain::Map::sheet(sheet).unwrap();
            plain.0.push(seconds(|| black_box(&mut map).edit(black_box(edits)).unwrap()));
            black_box(map);
        };
        if k % 2 == 0 {
            natharqo();
            by_hand();
        } else {
            by_hand();
            natharqo();
        }
    }
    // the first of each warms up
    for all in [&mut with, &mut without, &mut plain] {
        all.0.remove(0);
    }
    let each = pairs as f64;
    (
        Measured { median: (with.median() - without.median()) / each, least: (with.least() - without.least()) / each },
        Measured { median: plain.median() / each, least: plain.least() / each },
    )
}

/// Answers of both, held against each other: how many sheets were compared, how many were refused, and how many differed.
#[derive(Default)]
struct Agreement {
    compared: u64,
    refused: u64,
    differing: u64,
}

impl Agreement {
    /// The row of each side and the listing.
    fn hold(&mut self, sheet: &Sheet, edits: &Edits) {
        let made = plain::Map::sheet(sheet).and_then(|mut map| map.edit(edits).map(|()| map));
        let mut out = vec![b'!'; 600_000];
        let mut told = vec![SideTold::default(); 32_769];
        let size = natharqo::edit(sheet, edits, &mut out, &mut told);
        let (text, rows) = made.as_ref().map_or((String::new(), Vec::new()), |map| (map.listing(), map.told()));
        let agrees = size == if made.is_ok() { text.len() as u64 } else { u64::MAX }
            && text.as_bytes() == &out[..text.len()]
            && out[text.len()..].iter().all(|byte| *byte == b'!')
            && rows == told[..rows.len()]
            && told[rows.len()..].iter().all(|row| *row == SideTold::default());
        self.compared += 1;
        self.refused += u64::from(made.is_err());
        if !agrees {
            self.differing += 1;
            println!("DIFFER: {} islands of {} arcs", sheet.islands, sheet.cuts.len() + 1);
        }
    }

    /// Pairs that are taken, at places that look random, and now and then one that is refused after them.
    fn hold_any<Edit: Copy>(
        &mut self,
        sheet: &Sheet,
        numbers: &mut Numbers,
        any: impl Fn(&mut Numbers) -> Edit,
        play: impl Fn(&mut plain::Map, Edit) -> plain::Edited,
        edits: impl Fn(Vec<Edit>) -> Edits,
    ) {
        let mut map = plain::Map::sheet(sheet).unwrap();
        let mut pairs = Vec::new();
        for _ in 0..numbers.below(100) {
            let pair = any(numbers);
            let mut next = map.clone();
            if play(&mut next, pair).is_ok() {
                map = next;
                pairs.push(pair);
            } else if numbers.below(200) == 0 {
                pairs.push(pair);
                break;
            }
        }
        self.hold(sheet, &edits(pairs));
    }

    fn hold_chords(&mut self, sheet: &Sheet, numbers: &mut Numbers) {
        let any = |numbers: &mut Numbers| {
            let mut arc = || numbers.below(sheet.arcs() + 2) as u32;
            Chord { from: arc(), to: arc(), gone: arc() }
        };
        self.hold_any(sheet, numbers, any, plain::Map::divide_and_dissolve, Edits::Chords);
    }

    fn hold_partings(&mut self, sheet: &Sheet, numbers: &mut Numbers) {
        let any = |numbers: &mut Numbers| Parting { arc: numbers.below(sheet.arcs() + 1), vertex: numbers.below(5), node: numbers.below(sheet.arcs() + 2) };
        self.hold_any(sheet, numbers, any, plain::Map::split_and_join, Edits::Partings);
    }
}

/// Numbers that look random, and are the same in each run.
struct Numbers(u64);

impl Numbers {
    fn below(&mut self, limit: usize) -> usize {
        self.0 = self.0.wrapping_mul(6_364_136_223_846_793_005).wrapping_add(1_442_695_040_888_963_407);
        (self.0 >> 33) as usize % limit
    }
}

fn main() {
    let mut agreement = Agreement::default();
    let mut numbers = Numbers(1);
    for islands in 0..8 {
        for arcs in 1..8 {
            let sheet = Sheet::new(islands, arcs);
            for _ in 0..40 {
                agreement.hold_chords(&sheet, &mut numbers);
                agreement.hold_partings(&sheet, &mut numbers);
            }
        }
    }
    // one arc too many, and one vertex too many
    for arcs in [16_384, 16_385] {
        let sheet = Sheet::new(1, arcs);
        agreement.hold(&sheet, &chords(&sheet, 0, false));
        agreement.hold(&sheet, &chords(&sheet, 1, false));
        agreement.hold(&sheet, &Edits::Partings(vec![Parting { arc: 0, vertex: 1, node: arcs }]));
    }
    let sheet = Sheet::new(2, 1);
    for pairs in [65_532, 65_533] {
        agreement.hold(&sheet, &chords(&sheet, pairs, false));
    }
    for islands in [2, 3] {
        for pairs in [26_212, 26_213] {
            agreement.hold(&Sheet::new(islands, 1), &Edits::Partings(vec![Parting { arc: 0, vertex: 1, node: islands }; pairs]));
        }
    }

    let mut out = vec![0; 600_000];
    for (what, gone, make) in [
        ("a division and a dissolve", "dissolved", chords as fn(&Sheet, usize, bool) -> Edits),
        ("a split and a join", "node", partings),
    ] {
        println!("Times of one pair, {what}, in microseconds, {REPETITIONS} repetitions of each:\n");
        println!("| arcs | rings, of sides | {gone} | natharqo, median | plain, median | ratio | natharqo, least | plain, least | ratio |");
        println!("|---|---|---|---|---|---|---|---|---|");
        for size in SIZES {
            let shapes = if size == 1_024 { [(1_023, 1), (31, 33), (1, 1_023)] } else { [(16_383, 1), (127, 129), (1, 16_383)] };
            for (islands, arcs) in shapes {
                let sheet = Sheet::new(islands, arcs);
                for older in [false, true] {
                    if older && arcs == 1 && gone == "node" {
                        // no join at the highest node: one arc is closed there
                        continue;
                    }
                    let pairs = ARCS_TIMED / size;
                    let edits = make(&sheet, pairs, older);
                    agreement.hold(&sheet, &edits);
                    let (natharqo, plain) = measured(&sheet, &edits, pairs, &mut out);
                    println!(
                        "| {size} | {}, of {arcs} | {} | {:.2} | {:.2} | {:.2} | {:.2} | {:.2} | {:.2} |",
                        2 * islands,
                        if older { "older" } else { "new" },
                        1e6 * natharqo.median,
                        1e6 * plain.median,
                        natharqo.median / plain.median,
                        1e6 * natharqo.least,
                        1e6 * plain.least,
                        natharqo.least / plain.least,
                    );
                }
            }
        }
        println!();
    }
    println!("{} sheets compared, {} of them refused, {} differing.", agreement.compared, agreement.refused, agreement.differing);
    if agreement.differing != 0 {
        std::process::exit(1);
    }
}
