//! Entries on turns of cells, centres, the walk and the step.
use crate::frame::{Entry, Random, Tally};
use crate::model::{self, REFUSALS, Step};
use crate::{cells, rg};
use h3o::{Boundary, CellIndex, Direction, Resolution};

#[derive(Clone, Copy, PartialEq)]
enum Told {
    Refused(u16),
    Packed(u64),
    Point([i64; 3]),
    Walked(u64, u64),
    Inside(u64, u64),
    Leaves(u64),
    /// A kind that is neither 0 nor 1, or a step that leaves and has a cell.
    Odd,
}

/// What the Rust says of the right answer.
enum Rust {
    Agrees,
    /// An intended difference.
    Intended(&'static str),
    Says(String),
}

fn agrees(holds: bool, says: impl FnOnce() -> String) -> Rust {
    if holds { Rust::Agrees } else { Rust::Says(says()) }
}

#[derive(PartialEq)]
enum Second {
    Nothing,
    Count,
    Onward,
}

/// An entry that takes a cell and at most one number more.
struct Asked {
    line: &'static str,
    second: Second,
    /// The kinds of its answers beside the refusals of a cell.
    kinds: &'static [&'static str],
    ours: fn(u64, u32) -> (u16, u16, Told),
    /// Document 01's answer where nothing is refused for what is handed in.
    model: fn(u64, u32) -> Told,
    rust: fn(CellIndex, u32, Told) -> Rust,
}

fn packed(a: rg::Number) -> (u16, u16, Told) {
    (a.refusal, a.zero, Told::Packed(a.value))
}

fn text(told: Told) -> String {
    match told {
        Told::Refused(number) => format!("refusal {number}"),
        Told::Packed(n) => format!("{n:016x}"),
        Told::Point([i, j, k]) => format!("{i} {j} {k}"),
        Told::Walked(n, carry) => format!("{n:016x} {carry}"),
        Told::Inside(n, turn) => format!("Inside {n:016x} {turn}"),
        Told::Leaves(direction) => format!("Leaves {direction}"),
        Told::Odd => "an odd struct".into(),
    }
}

fn kind(told: Told) -> &'static str {
    match told {
        Told::Refused(number) => REFUSALS[number as usize],
        Told::Walked(_, 0) => "no carry",
        Told::Walked(..) => "carry",
        Told::Inside(_, 0) => "Inside",
        Told::Inside(_, 1) => "Inside, turn 1",
        Told::Inside(..) => "Inside, turn 5",
        Told::Leaves(_) => "Leaves",
        _ => REFUSALS[0],
    }
}

/// All values 0, as what is refused has.
fn is_zero(told: Told) -> bool {
    matches!(told, Told::Packed(0) | Told::Point([0, 0, 0]) | Told::Walked(0, 0) | Told::Inside(0, 0))
}

fn note(request: impl FnOnce() -> String, right: Told, rust: Rust, (refusal, zero, value): (u16, u16, Told), tally: &mut Tally) {
    let ours = if refusal == 0 { value } else { Told::Refused(refusal) };
    tally.compared(kind(right));
    if let Rust::Intended(name) = rust {
        tally.intended(name);
    }
    if ours != right || zero != 0 || (refusal != 0 && !is_zero(value)) || matches!(rust, Rust::Says(_)) {
        tally.unexplained(|| {
            let rust = match rust {
                Rust::Agrees => "agrees".into(),
                Rust::Intended(name) => name.into(),
                Rust::Says(what) => what,
            };
            format!("{}: ours refusal {refusal}, zero {zero}, value {}; document 01 {}; Rust {rust}", request(), text(value), text(right))
        });
    }
}

/// A line of the line program for a request whose right answer the Rust bears out.
fn line(request: String, right: Told, rust: Rust) -> (String, String) {
    if let Rust::Says(what) = rust {
        panic!("{request}: document 01 {}, Rust {what}", text(right));
    }
    (request, text(right))
}

/// Numbers of 32 bits that look small in 8 or 16, and the ends.
const NUMBERS: [u32; 9] = [7, 8, 255, 256, 257, 261, 65537, 1 << 31, u32::MAX];

impl Asked {
    fn judged(&self, n: u64, second: u32) -> (Told, Rust) {
        let refusal = model::check(n);
        let cell = CellIndex::try_from(n);
        let Ok(cell) = cell else {
            return (Told::Refused(refusal), agrees(refusal != 0, || "no cell".into()));
        };
        if refusal != 0 {
            return (Told::Refused(refusal), Rust::Says("a cell".into()));
        }
        if self.second == Second::Onward && !(1..=6).contains(&second) {
            // no number above 255 can be put to the Rust, and in a release 0 is the cell itself
            let rust = match u8::try_from(second) {
                Ok(0) if Boundary::neighbor_rotations(cell, 0, 0) == Some((cell, 0)) => Rust::Intended("direction-0"),
                Ok(d) => agrees(Direction::try_from(d).is_err(), || format!("direction {d}")),
                Err(_) => Rust::Agrees,
            };
            return (Told::Refused(13), rust);
        }
        if self.second == Second::Count && second > 5 {
            // the Rust turns on, by the count less its sixes
            let rust = (self.rust)(cell, second, (self.model)(n, second % 6));
            return (Told::Refused(14), if let Rust::Agrees = rust { Rust::Intended("count-above-5") } else { rust });
        }
        let right = (self.model)(n, second);
        (right, (self.rust)(cell, second, right))
    }

    fn request(&self, n: u64, second: u32) -> String {
        let cell = format!("{} {n:x}", self.line);
        if self.second == Second::Nothing { cell } else { format!("{cell} {second}") }
    }

    fn one(&self, n: u64, second: u32, tally: &mut Tally) {
        let (right, rust) = self.judged(n, second);
        note(|| self.request(n, second), right, rust, (self.ours)(n, second), tally);
    }

    /// Where nothing is refused.
    fn seconds(&self) -> std::ops::RangeInclusive<u32> {
        match self.second {
            Second::Nothing => 0..=0,
            Second::Count => 0..=5,
            Second::Onward => 1..=6,
        }
    }

    fn random(&self, random: &mut Random) -> (u64, u32) {
        let n = match random.below(16) {
            0 => cells::stray(random),
            1 => cells::random(random) ^ (1 << random.below(64)),
            _ => cells::random(random),
        };
        let second = match random.below(16) {
            0 => random.of(&NUMBERS),
            1 => random.below(8) as u32,
            _ => self.seconds().start() + random.below(6) as u32,
        };
        (n, if self.second == Second::Nothing { 0 } else { second })
    }

    fn compare(&self, random: &mut Random, count: u64, tally: &mut Tally) {
        for n in (0..=3).flat_map(cells::all) {
            self.seconds().for_each(|second| self.one(n, second, tally));
        }
        if self.second != Second::Nothing {
            for n in (0..=1).flat_map(cells::all) {
                [0, 6].into_iter().chain(NUMBERS).for_each(|second| self.one(n, second, tally));
            }
        }
        for _ in 0..count {
            let (n, second) = self.random(random);
            self.one(n, second, tally);
        }
        let missing = REFUSALS[1..=7].iter().chain(self.kinds).find(|k| !tally.answers.contains_key(**k));
        assert!(missing.is_none(), "{}: {missing:?} was never met", self.line);
    }

    /// Each kind of answer but the refusals of a cell as often as the others, and some of those.
    fn sample(&self, random: &mut Random, count: u64) -> Vec<(String, String)> {
        let mut lines = Vec::new();
        while (lines.len() as u64) < count {
            let at = lines.len() % (self.kinds.len() + 1);
            let (n, second) = if self.second == Second::Onward && at > 1 {
                // near a pentagon
                let base = random.of(&model::PENTAGONS);
                let digits: Vec<u64> = (0..1 + random.below(4)).map(|_| random.of(&[0, 0, 3, 5])).collect();
                (cells::pack(base, &digits), self.random(random).1)
            } else {
                self.random(random)
            };
            let (right, rust) = self.judged(n, second);
            if self.kinds.get(at).is_none_or(|k| *k == kind(right)) {
                lines.push(line(self.request(n, second), right, rust));
            }
        }
        lines
    }
}

/// An `Entry` of that name for an `Asked`.
macro_rules! entry {
    ($name:literal, $asked:expr) => {{
        const ASKED: Asked = $asked;
        Entry { name: $name, compare: |r, n, t| ASKED.compare(r, n, t), sample: |r, n| ASKED.sample(r, n) }
    }};
}

macro_rules! turn {
    ($name:literal, $line:literal, $ours:path, $ccw:literal) => {
        entry!($name, Asked {
            line: $line,
            second: Second::Count,
            kinds: &[REFUSALS[0], REFUSALS[14]],
            ours: |n, count| packed($ours(n, count)),
            model: |n, count| Told::Packed(model::turned($ccw, n, count)),
            rust: |c, count, right| packed_rust(Boundary::rotate60($ccw, c.into(), count as usize), right),
        })
    };
}

macro_rules! pentagon_turn {
    ($name:literal, $line:literal, $ours:path, $ccw:literal) => {
        entry!($name, Asked {
            line: $line,
            second: Second::Nothing,
            kinds: &[REFUSALS[0]],
            ours: |n, _| packed($ours(n)),
            model: |n, _| Told::Packed(model::pentagon_turned($ccw, n)),
            rust: |c, _, right| packed_rust(Boundary::pentagon_rotate60($ccw, c.into()), right),
        })
    };
}

fn packed_rust(rust: u64, right: Told) -> Rust {
    agrees(Told::Packed(rust) == right, || format!("{rust:016x}"))
}

/// The used digits of a number, in base cell 0, where no digit is refused.
fn in_base_0(n: u64) -> CellIndex {
    let digits: Vec<u64> = (1..=model::resolution(n)).map(|r| model::digit(n, r)).collect();
    CellIndex::try_from(cells::pack(0, &digits)).expect("a cell")
}

/// The Rust has no walk. By its own functions of points the new digits and the carry must stand for the old centre moved by the direction;
/// and where its step stays inside and does not turn, its cell is the number.
fn walk_rust(c: CellIndex, direction: u32, right: Told) -> Rust {
    let Told::Walked(number, carry) = right else { panic!("not a walk") };
    let d = direction as u8;
    let carried = (1..=u8::from(c.resolution())).fold(Boundary::unit(carry as u8), |p, r| Boundary::down_aperture7(r % 2 == 1, p));
    let there = Boundary::centre(in_base_0(number));
    let joint = Boundary::normalize((there.0 + carried.0, there.1 + carried.1, there.2 + carried.2));
    let moved = Boundary::neighbor(Boundary::centre(c), d);
    if joint != moved {
        return Rust::Says(format!("the joint point is {joint:?}, the moved centre {moved:?}"));
    }
    match Boundary::neighbor_rotations(c, d, 0) {
        Some((next, 0)) if next.base_cell() == c.base_cell() => agrees((u64::from(next), 0) == (number, carry), || format!("{next:x}")),
        _ => Rust::Agrees,
    }
}

fn step_rust(c: CellIndex, direction: u32, right: Told) -> Rust {
    let rust = Boundary::neighbor_rotations(c, direction as u8, 0);
    let base = c.base_cell();
    let says = || rust.map_or("None".into(), |(next, turns)| format!("{next:x}, {turns} turns"));
    match (right, rust) {
        (Told::Inside(n, turn), Some((next, turns))) => agrees((u64::from(next), u64::from(turns)) == (n, turn), says),
        (Told::Refused(17), None) => Rust::Agrees,
        (Told::Leaves(way), Some((next, _))) => {
            let beside = Boundary::base_neighbor(base.into(), way as u8);
            let there = u8::from(next.base_cell());
            // direction 1 of a pentagon has no base cell beside it
            if beside.map_or(there == u8::from(base), |b| there != b) {
                return Rust::Says(says());
            }
            let coarsest = c.resolution() == Resolution::Zero;
            Rust::Intended(if coarsest && beside.is_none() { "resolution-0-pentagon-direction-1" } else { "leaves-the-base-cell" })
        }
        _ => Rust::Says(says()),
    }
}

fn stepped(a: rg::Stepped) -> (u16, u16, Told) {
    let told = match (a.kind, a.cell) {
        (0, cell) => Told::Inside(cell, a.turn.into()),
        (1, 0) => Told::Leaves(a.turn.into()),
        _ => Told::Odd,
    };
    (a.refusal, a.zero, told)
}

/// Reading back: a length and a point.
mod back {
    use super::*;

    pub const ENTRY: Entry = Entry { name: "read_back", compare, sample };
    const LIMIT: i64 = 100_000_000;

    fn judged(length: u32, p: [i64; 3]) -> (Told, Rust) {
        if length > 15 {
            let taken = u8::try_from(length).is_ok_and(|r| Resolution::try_from(r).is_ok());
            return (Told::Refused(8), agrees(!taken, || format!("resolution {length}")));
        }
        if model::outside(&p) {
            return (Told::Refused(14), Rust::Intended("coordinate-beyond-the-range"));
        }
        let right = model::read_back(length.into(), p).map_or(Told::Refused(15), Told::Packed);
        let [i, j, k] = p.map(|c| c as i32);
        // the Rust goes on from the point that is left at the top: none is left where the string has that centre
        let rust = match Boundary::read_back(length as u8, (i, j, k)) {
            Some((n, left)) if Boundary::normalize(left) == (0, 0, 0) => Told::Packed(n),
            Some(_) => Told::Refused(15),
            None => Told::Odd,
        };
        (right, agrees(rust == right, || text(rust)))
    }

    fn request(length: u32, [i, j, k]: [i64; 3]) -> String {
        format!("readback {length} {i} {j} {k}")
    }

    fn one(length: u32, p: [i64; 3], tally: &mut Tally) {
        let (right, rust) = judged(length, p);
        let [i, j, k] = p.map(|c| c as i32);
        note(|| request(length, p), right, rust, packed(rg::read_back(length, i, j, k)), tally);
    }

    /// About the centre of a string of that length, or farther away.
    fn random(random: &mut Random) -> (u32, [i64; 3]) {
        let length = match random.below(16) {
            0 => random.of(&[16, 17, 255, 256, 257, 271, 65536, u32::MAX]),
            _ => random.below(16) as u32,
        };
        let within = |random: &mut Random, size: i64| random.below(2 * size as u64 + 1) as i64 - size;
        let mut p = match random.below(8) {
            0 => [0; 3].map(|_| within(random, LIMIT)),
            1 => [0; 3].map(|_| within(random, 4)),
            2 => [0; 3].map(|_| random.of(&[i32::MIN as i64, -LIMIT - 1, -LIMIT, -1, 0, 1, LIMIT, LIMIT + 1, i32::MAX as i64])),
            _ => {
                let digits: Vec<u64> = (0..length.min(15)).map(|_| random.below(7)).collect();
                model::centre(cells::pack(0, &digits))
            }
        };
        if random.below(2) == 0 {
            // another name of it, or a point near it
            let by = random.of(&[1, -1, 1_000, -LIMIT]);
            if !model::outside(&p.map(|c| c + by)) {
                p = p.map(|c| c + by);
            }
            let (at, by) = (random.below(3) as usize, random.of(&[0, 1, 30, 3_000_000]));
            p[at] = (p[at] + within(random, by)).clamp(i32::MIN.into(), i32::MAX.into());
        }
        (length, p)
    }

    fn compare(random: &mut Random, count: u64, tally: &mut Tally) {
        for length in 0..=16 {
            for i in -40..=40 {
                for j in -40..=40 {
                    one(length, model::from_ij([i, j]), tally);
                }
            }
        }
        // a cell's centre is read back as its digits
        for n in (0..=4).flat_map(|r| (0..7u64.pow(r)).map(move |string| (0..r).map(|place| string / 7u64.pow(place) % 7).collect::<Vec<_>>())) {
            let cell = cells::pack(0, &n);
            let (right, _) = judged(n.len() as u32, model::centre(cell));
            assert!(right == Told::Packed(cell), "{cell:016x}");
            one(n.len() as u32, model::centre(cell), tally);
        }
        for _ in 0..count {
            let (length, p) = self::random(random);
            one(length, p, tally);
        }
        assert_eq!(tally.answers.len(), 4, "an answer was never met");
    }

    fn sample(random: &mut Random, count: u64) -> Vec<(String, String)> {
        (0..count).map(|_| {
            let (length, p) = self::random(random);
            let (right, rust) = judged(length, p);
            line(request(length, p), right, rust)
        }).collect()
    }
}

pub const ENTRIES: [Entry; 8] = [
    turn!("turn_ccw", "turn ccw", rg::turn_ccw, true),
    turn!("turn_cw", "turn cw", rg::turn_cw, false),
    pentagon_turn!("pentagon_turn_ccw", "pentturn ccw", rg::pentagon_turn_ccw, true),
    pentagon_turn!("pentagon_turn_cw", "pentturn cw", rg::pentagon_turn_cw, false),
    entry!("centre", Asked {
        line: "centre",
        second: Second::Nothing,
        kinds: &[REFUSALS[0]],
        ours: |n, _| {
            let a = rg::centre(n);
            (a.refusal, a.zero, Told::Point([a.i, a.j, a.k].map(i64::from)))
        },
        model: |n, _| Told::Point(model::centre(n)),
        rust: |c, _, right| {
            let rust = Boundary::centre(c);
            agrees(Told::Point([rust.0, rust.1, rust.2].map(i64::from)) == right, || format!("{rust:?}"))
        },
    }),
    back::ENTRY,
    entry!("walk", Asked {
        line: "walk",
        second: Second::Onward,
        kinds: &["no carry", "carry", REFUSALS[13]],
        ours: |n, d| {
            let a = rg::walk(n, d);
            (a.refusal, a.zero, Told::Walked(a.number, a.carry.into()))
        },
        model: |n, d| {
            let (number, carry) = model::walked(n, d);
            Told::Walked(number, carry)
        },
        rust: walk_rust,
    }),
    entry!("step", Asked {
        line: "step",
        second: Second::Onward,
        kinds: &["Inside", "Leaves", "Inside, turn 1", "Inside, turn 5", REFUSALS[13], REFUSALS[17]],
        ours: |n, d| stepped(rg::step(n, d)),
        model: |n, d| match model::step(n, d) {
            Step::Inside(cell, turn) => Told::Inside(cell, turn),
            Step::Leaves(way) => Told::Leaves(way),
            Step::DeletedWay => Told::Refused(17),
        },
        rust: step_rust,
    }),
];
