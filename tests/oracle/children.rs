//! Entries on descendants and ancestors. The Rust has no lent buffer, no ancestor to hold a position against and no cursor that one
//! hands in: there its listing, its `parent` and its iterator are what ours is compared with.
use crate::frame::{Entry, Random, Tally};
use crate::model::{self, REFUSALS, Words};
use crate::{cells, rg};
use h3o::{CellIndex, Resolution};

/// The value, or the refusal.
pub type Outcome<T> = Result<T, u16>;

/// Numbers of 32 bits that look small in 8 or 16, and the ends.
pub const NO_RESOLUTIONS: [u64; 8] = [16, 17, 255, 256, 257, 65536, 1 << 31, u32::MAX as u64];

fn cell(n: u64) -> CellIndex {
    CellIndex::try_from(n).unwrap_or_else(|e| panic!("{n:016x} is no cell to the Rust: {e}"))
}
fn resolution(r: u64) -> Resolution {
    Resolution::try_from(r as u8).unwrap_or_else(|e| panic!("{r} is no resolution to the Rust: {e}"))
}
fn rust_children(n: u64, target: u64) -> Vec<u64> {
    cell(n).children(resolution(target)).map(u64::from).collect()
}

/// The refusals 1 to 7 of a cell, then 8.
fn refused(n: u64, r: u64) -> Option<u16> {
    Some(model::check(n)).filter(|&refusal| refusal != 0).or((r > 15).then_some(8))
}
/// The same, then 9 where the target is coarser.
fn coarser(n: u64, target: u64) -> Option<u16> {
    refused(n, target).or_else(|| (target < model::resolution(n)).then_some(9))
}

/// The Rust takes neither of these cells, or not this resolution (no number above 255 can be put to it).
fn rust_refuses(refusal: u16, numbers: &[u64], r: u64) -> bool {
    match refusal {
        8 => u8::try_from(r).is_err() || Resolution::try_from(r as u8).is_err(),
        _ => numbers.iter().any(|&n| CellIndex::try_from(n).is_err()),
    }
}

// Requests.

pub fn some_cell(random: &mut Random) -> u64 {
    let n = cells::random(random);
    match random.below(16) {
        0 => cells::stray(random),
        1 => n ^ (1 << random.below(64)),
        _ => n,
    }
}

/// A resolution: mostly one of the cell's own and finer ones, at most `down` down.
fn some_target(random: &mut Random, n: u64, down: u64) -> u64 {
    match random.below(16) {
        0 => random.of(&NO_RESOLUTIONS),
        1 | 2 => random.below(16),
        _ => (model::resolution(n) + random.below(down + 1)).min(15),
    }
}

fn some_position(random: &mut Random, n: u64, target: u64) -> u64 {
    if coarser(n, target).is_some() {
        return random.below(8);
    }
    let count = model::count(n, target);
    match random.below(16) {
        0 => count,
        1 => random.of(&[count + 1, 1 << 32, u64::MAX - 1, u64::MAX]),
        2 => count - 1,
        3 => 0,
        4 => random.next(),
        _ => random.below(count),
    }
}

// Entries that answer a number.

pub type Args = [u64; 3];

pub struct Asked {
    line: &'static str,
    /// How many cells come first, and whether a cell is answered.
    hexadecimal: (usize, bool),
    args: usize,
    /// Where the refusal is 9: the name of the difference, and what the Rust has there.
    order: (&'static str, Option<u64>),
    /// The answers that have to be met.
    refusals: &'static [u16],
    ask: fn(&mut Random) -> Args,
    ours: fn(Args) -> rg::Number,
    model: fn(Args) -> Outcome<u64>,
    /// Asked where no cell and no resolution is refused.
    rust: fn(Args) -> Option<u64>,
}

const COUNT: Asked = Asked {
    line: "count",
    hexadecimal: (1, false),
    args: 2,
    order: ("coarser-target", Some(0)),
    refusals: &[8, 9],
    ask: |random| {
        let n = some_cell(random);
        [n, some_target(random, n, 15), 0]
    },
    ours: |a| rg::count(a[0], a[1] as u32),
    model: |a| coarser(a[0], a[1]).map_or_else(|| Ok(model::count(a[0], a[1])), Err),
    rust: |a| Some(cell(a[0]).children_count(resolution(a[1]))),
};

const CHILD_AT: Asked = Asked {
    line: "childat",
    hexadecimal: (1, true),
    args: 3,
    order: ("coarser-target", None),
    refusals: &[8, 9, 11],
    ask: |random| {
        let n = some_cell(random);
        let target = some_target(random, n, 15);
        [n, target, some_position(random, n, target)]
    },
    ours: |a| rg::child_at(a[0], a[1] as u32, a[2]),
    model: |a| match coarser(a[0], a[1]) {
        Some(refusal) => Err(refusal),
        None if a[2] >= model::count(a[0], a[1]) => Err(11),
        None => Ok(model::child_at(a[0], a[1], a[2])),
    },
    rust: |a| cell(a[0]).child_at(a[2], resolution(a[1])).map(u64::from),
};

pub const POSITION: Asked = Asked {
    line: "position",
    hexadecimal: (2, false),
    args: 2,
    order: ("", None),
    refusals: &[12],
    ask: |random| {
        let n = some_cell(random);
        let target = some_target(random, n, 15);
        if coarser(n, target).is_some() {
            return [n, some_cell(random), 0];
        }
        let y = model::child_at(n, target, random.below(model::count(n, target)));
        match random.below(16) {
            0 => [y, n, 0],
            1 => [n, some_cell(random), 0],
            2 => [n, y ^ (1 << random.below(64)), 0],
            3 => [n ^ (1 << random.below(64)), y, 0],
            _ => [n, y, 0],
        }
    },
    ours: |a| rg::position(a[0], a[1]),
    model: |a| match (model::check(a[0]), model::check(a[1])) {
        (0, 0) if model::resolution(a[0]) <= model::resolution(a[1]) && model::ancestor(a[1], model::resolution(a[0])) == a[0] => {
            Ok(model::position(a[1], model::resolution(a[0])))
        }
        (0, 0) => Err(12),
        (0, refusal) | (refusal, _) => Err(refusal),
    },
    rust: |a| {
        let (first, second) = (cell(a[0]), cell(a[1]));
        (second.parent(first.resolution()) == Some(first)).then(|| second.child_position(first.resolution()).expect("it has that parent"))
    },
};

pub const ANCESTOR: Asked = Asked {
    line: "ancestor",
    hexadecimal: (1, true),
    args: 2,
    order: ("finer-ancestor", None),
    refusals: &[8, 9],
    ask: |random| {
        let n = some_cell(random);
        let r = if random.below(4) == 0 { some_target(random, n, 15) } else { random.below(model::resolution(n) + 1) };
        [n, r, 0]
    },
    ours: |a| rg::ancestor(a[0], a[1] as u32),
    model: |a| match refused(a[0], a[1]) {
        Some(refusal) => Err(refusal),
        None if a[1] > model::resolution(a[0]) => Err(9),
        None => Ok(model::ancestor(a[0], a[1])),
    },
    rust: |a| cell(a[0]).parent(resolution(a[1])).map(u64::from),
};

/// Does the Rust bear out an outcome: by its own, by an intended difference of that name, or not?
pub type Borne = Result<Option<&'static str>, Option<u64>>;

impl Asked {
    pub fn judged(&self, a: Args) -> (Outcome<u64>, Borne) {
        let right = (self.model)(a);
        let borne = match right {
            Err(refusal @ 1..=8) => if rust_refuses(refusal, &a[..self.hexadecimal.0], a[1]) { Ok(None) } else { Err(None) },
            Err(9) => Some((self.rust)(a)).filter(|&rust| rust == self.order.1).map_or_else(|| Err((self.rust)(a)), |_| Ok(Some(self.order.0))),
            _ => if (self.rust)(a) == right.ok() { Ok(None) } else { Err((self.rust)(a)) },
        };
        (right, borne)
    }

    fn one(&self, a: Args, tally: &mut Tally) {
        let (right, borne) = self.judged(a);
        let ours = (self.ours)(a);
        tally.compared(REFUSALS[right.err().unwrap_or(0) as usize]);
        if let Ok(Some(name)) = borne {
            tally.intended(name);
        }
        if (ours.refusal, ours.zero, ours.value) != (right.err().unwrap_or(0), 0, right.unwrap_or(0)) || borne.is_err() {
            tally.unexplained(|| {
                let args: Vec<String> = a[..self.args].iter().map(|n| format!("{n:x}")).collect();
                format!("{} {}: ours refusal {}, zero {}, value {:x}; document 01 {right:x?}; Rust {borne:x?}", self.line, args.join(" "), ours.refusal, ours.zero, ours.value)
            });
        }
    }

    fn compare(&self, random: &mut Random, count: u64, tally: &mut Tally) {
        let seconds = if self.hexadecimal.0 == 2 { small_cells() } else { (0..18).chain(NO_RESOLUTIONS).collect() };
        let thirds: &[u64] = if self.args == 3 { &[0, 1, 5, 6, 7, 40, 41, u64::MAX] } else { &[0] };
        for first in small_cells() {
            for &second in &seconds {
                thirds.iter().for_each(|&third| self.one([first, second, third], tally));
            }
        }
        for _ in 0..count {
            self.one((self.ask)(random), tally);
        }
        let met = |number: &u16| tally.answers.contains_key(REFUSALS[*number as usize]);
        assert!((0..8).all(|number| met(&number)) && self.refusals.iter().all(met), "{}: an answer was never met", self.line);
    }

    fn sample(&self, random: &mut Random, count: u64) -> Vec<(String, String)> {
        (0..count).map(|_| {
            let a = (self.ask)(random);
            let (right, borne) = self.judged(a);
            assert!(borne.is_ok(), "{} {a:x?}: the Rust does not bear out {right:x?}", self.line);
            let words: Vec<String> = a[..self.args].iter().enumerate().map(|(at, n)| if at < self.hexadecimal.0 { format!("{n:x}") } else { n.to_string() }).collect();
            (format!("{} {}", self.line, words.join(" ")), said(right, |n| if self.hexadecimal.1 { format!("{n:016x}") } else { n.to_string() }))
        }).collect()
    }
}

fn said<T>(outcome: Outcome<T>, value: impl Fn(T) -> String) -> String {
    outcome.map_or_else(|refusal| format!("refusal {refusal}"), value)
}

/// The 122 base cells and the pentagons of all resolutions, and four that are no cells.
fn small_cells() -> Vec<u64> {
    let pentagons = model::PENTAGONS.iter().flat_map(|&base| (1..16).map(move |r| cells::pack(base, &vec![0; r])));
    (0..122).map(|base| cells::pack(base, &[])).chain(pentagons).chain([0, u64::MAX, 0x0900_1fff_ffff_ffff, 0x080f_5fff_ffff_ffff]).collect()
}

// Listings.

/// A buffer is `room` elements that are told apart, and two more that are not lent.
fn buffer(room: u64) -> Vec<u64> {
    (0..room + 2).map(|at| 0xeeee_eeee_eeee_eeee ^ at << 8).collect()
}

/// The right answer of a listing, and whether the Rust bears it out.
fn listing(n: u64, target: u64, room: u64) -> (Outcome<Vec<u64>>, Borne) {
    match coarser(n, target) {
        Some(9) => (Err(9), if rust_children(n, target).is_empty() { Ok(Some("coarser-target")) } else { Err(None) }),
        Some(refusal) => (Err(refusal), if rust_refuses(refusal, &[n], target) { Ok(None) } else { Err(None) }),
        None if room < model::count(n, target) => (Err(10), if cell(n).children_count(resolution(target)) > room { Ok(None) } else { Err(None) }),
        None => {
            let all = model::descendants(n, target);
            let borne = if rust_children(n, target) == all { Ok(None) } else { Err(None) };
            (Ok(all), borne)
        }
    }
}

/// The target of a short listing; at resolution 15 it is 16, so refused.
fn next_finer(n: u64) -> u64 {
    model::resolution(n) + 1
}

/// `short`: the target is not handed in.
fn list_one(n: u64, target: u64, room: u64, short: bool, tally: &mut Tally) {
    let (right, borne) = listing(n, target, room);
    let mut after = buffer(room);
    let lent = &mut after[..room as usize];
    let ours = if short { rg::list_short(n, lent) } else { rg::list(n, target as u32, lent) };
    let mut wanted = buffer(room);
    if let Ok(all) = &right {
        wanted[..all.len()].copy_from_slice(all);
    }
    tally.compared(REFUSALS[*right.as_ref().err().unwrap_or(&0) as usize]);
    if let Ok(Some(name)) = borne {
        tally.intended(name);
    }
    let value = right.as_ref().map_or(0, |all| all.len() as u64);
    if (ours.refusal, ours.zero, ours.value) != (*right.as_ref().err().unwrap_or(&0), 0, value) || after != wanted || borne.is_err() {
        tally.unexplained(|| {
            let at = after.iter().zip(&wanted).position(|(a, b)| a != b);
            format!("list{} {n:x} {target} {room}: ours refusal {}, zero {}, value {}, document 01 {}, Rust {borne:?}, first other element {at:?}",
                if short { "_short" } else { "" }, ours.refusal, ours.zero, ours.value, said(right, |all| all.len().to_string()))
        });
    }
}

/// Room one short, exact and longer.
fn list_each(n: u64, target: u64, short: bool, tally: &mut Tally) {
    let count = model::count(n, target);
    for room in [count - 1, count, count + 3] {
        list_one(n, target, room, short, tally);
    }
}

fn compare_list(random: &mut Random, count: u64, tally: &mut Tally) {
    for base in 0..122 {
        (0..=4).for_each(|target| list_each(cells::pack(base, &[]), target, false, tally));
    }
    for base in model::PENTAGONS {
        for own in 1..=15 {
            (own..=(own + 4).min(15)).for_each(|target| list_each(cells::pack(base, &vec![0; own as usize]), target, false, tally));
        }
    }
    // cells of every resolution down to five
    for _ in 0..count / 1000 {
        let n = cells::random(random);
        let own = model::resolution(n);
        (own..=(own + 5).min(15)).for_each(|target| list_each(n, target, false, tally));
    }
    for _ in 0..count / 10 {
        let (n, target, room) = ask_list(random);
        list_one(n, target, room, false, tally);
    }
    assert_eq!(tally.answers.len(), 11, "an answer was never met");
}

/// Small listings, and some that are far too long for their room.
fn ask_list(random: &mut Random) -> (u64, u64, u64) {
    let n = some_cell(random);
    let target = some_target(random, n, 2);
    let most = if coarser(n, target).is_some() { 8 } else { model::count(n, target).min(60) };
    (n, target, random.of(&[0, most - 1, most, most, most + 1, most + 2]))
}

fn compare_list_short(random: &mut Random, count: u64, tally: &mut Tally) {
    for n in (0..=2).flat_map(cells::all) {
        list_each(n, next_finer(n), true, tally);
    }
    for _ in 0..count / 10 {
        let n = some_cell(random);
        list_one(n, next_finer(n), random.below(10), true, tally);
    }
    assert_eq!(tally.answers.len(), 10, "an answer was never met");
}

/// A line with a room, and its answer.
fn list_line(request: String, n: u64, target: u64, room: u64) -> (String, String) {
    let (right, borne) = listing(n, target, room);
    assert!(borne.is_ok(), "{request}: the Rust does not bear it out");
    let mut elements = vec![0xeeee_eeee_eeee_eeee; room as usize];
    if let Ok(all) = &right {
        elements[..all.len()].copy_from_slice(all);
    }
    let count = said(right, |all| all.len().to_string());
    (request, format!("{count} : {}", hexadecimal(&elements)))
}

fn hexadecimal(cells: &[u64]) -> String {
    cells.iter().map(|n| format!("{n:016x}")).collect::<Vec<_>>().join(" ")
}

fn sample_list(random: &mut Random, count: u64) -> Vec<(String, String)> {
    (0..count).map(|at| {
        let (n, target, room) = ask_list(random);
        if at % 4 != 0 {
            return list_line(format!("list {n:x} {target} {room}"), n, target, room);
        }
        let (right, borne) = listing(n, target, 8192);
        assert!(borne.is_ok(), "list {n:x} {target}: the Rust does not bear it out");
        (format!("list {n:x} {target}"), said(right, |all| hexadecimal(&all)))
    }).collect()
}

fn sample_list_short(random: &mut Random, count: u64) -> Vec<(String, String)> {
    (0..count).map(|_| {
        let (n, room) = (some_cell(random), random.below(10));
        list_line(format!("short {n:x} {room}"), n, next_finer(n), room)
    }).collect()
}

// The cursor.

const UNTOUCHED: Words = [0xeeee_eeee_eeee_eeee; 5];

/// The right answer, and whether the Rust bears it out by its first child and what its iterator has left.
fn started(n: u64, target: u64) -> (Outcome<Words>, Borne) {
    match coarser(n, target) {
        Some(9) => (Err(9), if cell(n).children(resolution(target)).next().is_none() { Ok(Some("coarser-target")) } else { Err(None) }),
        Some(refusal) => (Err(refusal), if rust_refuses(refusal, &[n], target) { Ok(None) } else { Err(None) }),
        None => {
            let words = model::cursor(n, target, 0);
            let mut rust = cell(n).children(resolution(target));
            let left = rust.size_hint().0 as u64;
            (Ok(words), if (rust.next().map(u64::from), left) == (Some(words[2]), words[4]) { Ok(None) } else { Err(None) })
        }
    }
}

fn compare_cursor(random: &mut Random, count: u64, tally: &mut Tally) {
    let mut one = |n: u64, target: u64| {
        let (right, borne) = started(n, target);
        let mut words = UNTOUCHED;
        let ours = rg::cursor(n, target as u32, &mut words);
        tally.compared(REFUSALS[right.err().unwrap_or(0) as usize]);
        if let Ok(Some(name)) = borne {
            tally.intended(name);
        }
        if (ours.refusal, ours.zero, words) != (right.err().unwrap_or(0), 0, right.unwrap_or(UNTOUCHED)) || borne.is_err() {
            tally.unexplained(|| format!("cursor {n:x} {target}: ours refusal {}, zero {}, {words:x?}; document 01 {right:x?}; Rust {borne:?}", ours.refusal, ours.zero));
        }
    };
    for n in small_cells() {
        (0..18).chain(NO_RESOLUTIONS).for_each(|target| one(n, target));
    }
    for _ in 0..count {
        let n = some_cell(random);
        one(n, some_target(random, n, 15));
    }
    assert_eq!(tally.answers.len(), 10, "an answer was never met");
}

/// The five numbers of a cursor in a line; none is cut there.
fn cursor_text(words: Words) -> String {
    let [own, target, number, skip, left] = words;
    format!("{own} {target} {number:016x} {} {left}", skip as i64)
}

fn sample_cursor(random: &mut Random, count: u64) -> Vec<(String, String)> {
    (0..count).map(|_| {
        let n = some_cell(random);
        let target = some_target(random, n, 15);
        let (right, borne) = started(n, target);
        assert!(borne.is_ok(), "cursor {n:x} {target}: the Rust does not bear it out");
        (format!("cursor {n:x} {target}"), said(right, cursor_text))
    }).collect()
}

/// What `next` answers (0 for Done), and the cursor afterwards. The Rust bears out the child and the one after it by its `child_at`.
fn next(words: Words) -> (Outcome<u64>, Words, Borne) {
    let Some((n, calls)) = model::made(words) else {
        return (Err(11), words, Ok(None));
    };
    let [_, target, y, _, left] = words;
    if left == 0 {
        return (Ok(0), words, Ok(None));
    }
    let after = model::cursor(n, target, calls + 1);
    let rust = |calls: u64| cell(n).child_at(calls, resolution(target)).map(u64::from);
    let borne = rust(calls) == Some(y) && (left == 1 || rust(calls + 1) == Some(after[2]));
    (Ok(y), after, if borne { Ok(None) } else { Err(rust(calls)) })
}

fn next_one(words: Words, right: (Outcome<u64>, Words, Borne), tally: &mut Tally) {
    let mut after = words;
    let ours = rg::next(&mut after);
    tally.compared(match right.0 {
        Ok(0) => "Done",
        outcome => REFUSALS[outcome.err().unwrap_or(0) as usize],
    });
    if (ours.refusal, ours.zero, ours.value, after) != (right.0.err().unwrap_or(0), 0, right.0.unwrap_or(0), right.1) || right.2.is_err() {
        tally.unexplained(|| format!("next {words:x?}: ours refusal {}, zero {}, value {:x}, {after:x?}; document 01 and Rust {right:x?}", ours.refusal, ours.zero, ours.value));
    }
}

/// From a fresh cursor to Done, twice, beside the Rust's iterator. The skip falls by one where the iterator leaps over deleted numbers.
fn run(n: u64, target: u64, tally: &mut Tally) {
    let mut rust = cell(n).children(resolution(target));
    let mut words = UNTOUCHED;
    assert_eq!(rg::cursor(n, target as u32, &mut words).refusal, 0, "cursor {n:x} {target}");
    let string = |y: u64| (1..=target).fold(0, |all, r| all * 7 + model::digit(y, r));
    let mut skip = if model::is_pentagon(n) { target } else { u64::MAX };
    let mut ahead = rust.next().map(u64::from);
    while let Some(child) = ahead {
        let left = rust.size_hint().0 as u64;
        ahead = rust.next().map(u64::from);
        if ahead.is_some_and(|y| string(y) != string(child) + 1) {
            skip -= 1;
        }
        let after = [words[0], target, ahead.unwrap_or(child), skip, left];
        assert_eq!(model::made(after).map(|m| m.0), Some(n), "the Rust makes a cursor that the model does not: {after:x?}");
        next_one(words, (Ok(child), after, Ok(None)), tally);
        words = after;
    }
    next_one(words, (Ok(0), words, Ok(None)), tally);
    next_one(words, (Ok(0), words, Ok(None)), tally);
}

/// A cursor that calls make, or one with up to three words damaged.
fn some_cursor(random: &mut Random) -> Words {
    let n = cells::random(random);
    let target = (model::resolution(n) + random.below(16)).min(15);
    let count = model::count(n, target);
    let calls = match random.below(8) {
        0 => count,
        1 => count - 1,
        2 => 0,
        3 => random.below(count.min(60)),
        _ => random.below(count + 1),
    };
    let mut words = model::cursor(n, target, calls);
    for _ in 0..random.of(&[0, 1, 1, 1, 1, 2, 3]) {
        let at = random.below(5) as usize;
        words[at] = match random.below(8) {
            0 => words[at] ^ (1 << random.below(64)),
            1 => words[at].wrapping_add(random.of(&[1, 2, 7, 256, 1 << 31, 1 << 32, u64::MAX, u64::MAX - 1])),
            2 => random.below(17),
            3 => random.of(&[0, u64::MAX, 255, 256, 1 << 31, 1 << 32, u64::MAX - (1 << 31), (1 << 32) - 1]),
            4 => random.next(),
            5 => words[random.below(5) as usize],
            // another cursor's word
            _ => model::cursor(n, target, random.below(count + 1))[at],
        };
    }
    words
}

fn compare_next(random: &mut Random, count: u64, tally: &mut Tally) {
    for base in 0..122 {
        (0..=4).for_each(|target| run(cells::pack(base, &[]), target, tally));
    }
    for base in model::PENTAGONS {
        for own in 1..=15 {
            (own..=(own + 3).min(15)).for_each(|target| run(cells::pack(base, &vec![0; own as usize]), target, tally));
        }
    }
    for _ in 0..count / 10_000 {
        let n = cells::random(random);
        let own = model::resolution(n);
        (own..=(own + 5).min(15)).for_each(|target| run(n, target, tally));
    }
    for _ in 0..count {
        let words = some_cursor(random);
        next_one(words, next(words), tally);
    }
    assert_eq!(tally.answers.len(), 3, "an answer was never met");
}

fn sample_next(random: &mut Random, count: u64) -> Vec<(String, String)> {
    // the words that a line can name
    let fits = |words: &Words| words[0] < 1 << 32 && words[1] < 1 << 32 && i32::try_from(words[3] as i64).is_ok();
    let cursors = std::iter::repeat_with(|| some_cursor(random)).filter(fits);
    cursors.take(count as usize).map(|words| {
        let (right, after, borne) = next(words);
        assert!(borne.is_ok(), "next {words:x?}: the Rust does not bear it out");
        let answer = said(right, |y| if y == 0 { "Done".into() } else { format!("{y:016x}") });
        (format!("next {}", cursor_text(words)), format!("{answer} : {}", cursor_text(after)))
    }).collect()
}

pub const ENTRIES: [Entry; 8] = [
    Entry { name: "count", compare: |r, n, t| COUNT.compare(r, n, t), sample: |r, n| COUNT.sample(r, n) },
    Entry { name: "list", compare: compare_list, sample: sample_list },
    Entry { name: "list_short", compare: compare_list_short, sample: sample_list_short },
    Entry { name: "child_at", compare: |r, n, t| CHILD_AT.compare(r, n, t), sample: |r, n| CHILD_AT.sample(r, n) },
    Entry { name: "position", compare: |r, n, t| POSITION.compare(r, n, t), sample: |r, n| POSITION.sample(r, n) },
    Entry { name: "ancestor", compare: |r, n, t| ANCESTOR.compare(r, n, t), sample: |r, n| ANCESTOR.sample(r, n) },
    Entry { name: "cursor", compare: compare_cursor, sample: sample_cursor },
    Entry { name: "next", compare: compare_next, sample: sample_next },
];
