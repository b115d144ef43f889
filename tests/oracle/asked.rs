//! Entries that take directions, counts and coordinates: one comparison for all of them.
use crate::frame::{Random, Tally};
use crate::model::{Answer, REFUSALS, outside};
use crate::rg;

#[derive(Clone, Copy, PartialEq)]
pub enum Takes {
    Direction,
    Count,
    Coordinate,
}
pub use Takes::*;

pub struct Asked {
    pub takes: &'static [Takes],
    /// The request's first words in a line of the line program.
    pub line: &'static str,
    /// The refusals that the entry has.
    pub refusals: &'static [u16],
    pub ours: fn(&[i64]) -> (u16, u16, Answer),
    /// Document 01's answer where nothing is refused for what is handed in.
    pub model: fn(&[i64]) -> Answer,
    /// The Rust's, asked as above.
    pub rust: fn(&[i64]) -> Answer,
}

/// An `Entry` of that name for an `Asked`.
macro_rules! entry {
    ($name:literal, $asked:expr) => {{
        const ASKED: crate::asked::Asked = $asked;
        crate::frame::Entry { name: $name, compare: |r, n, t| ASKED.compare($name, r, n, t), sample: |r, n| ASKED.sample($name, r, n) }
    }};
}
pub(crate) use entry;

pub fn number(a: rg::Number) -> (u16, u16, Answer) {
    (a.refusal, a.zero, Answer::Number(a.value as i64))
}
pub fn point(a: rg::Point) -> (u16, u16, Answer) {
    (a.refusal, a.zero, Answer::Point([a.i, a.j, a.k].map(i64::from)))
}
pub fn pair(a: rg::Pair) -> (u16, u16, Answer) {
    (a.refusal, a.zero, Answer::Pair([a.i, a.j].map(i64::from)))
}
pub fn truth(a: rg::Number) -> (u16, u16, Answer) {
    (a.refusal, a.zero, if a.value < 2 { Answer::Truth(a.value == 1) } else { Answer::Number(a.value as i64) })
}

/// All values 0, as what is refused has.
fn is_zero(a: Answer) -> bool {
    matches!(a, Answer::Number(0) | Answer::Truth(false) | Answer::Point([0, 0, 0]) | Answer::Pair([0, 0]))
}

fn text(a: Answer) -> String {
    let words = |n: &[i64]| n.iter().map(i64::to_string).collect::<Vec<_>>().join(" ");
    match a {
        Answer::Refused(number) => format!("refusal {number}"),
        Answer::Number(n) => n.to_string(),
        Answer::Truth(b) => if b { "yes" } else { "no" }.into(),
        Answer::Point(p) => words(&p),
        Answer::Pair(p) => words(&p),
    }
}

/// The range's ends and the numbers beside them, i32's ends, and the numbers about 0.
const LIMITS: [i64; 15] = [
    i32::MIN as i64, i32::MIN as i64 + 1, -100_000_001, -100_000_000, -99_999_999, -2, -1, 0, 1, 2, 99_999_999, 100_000_000, 100_000_001, i32::MAX as i64 - 1,
    i32::MAX as i64,
];
const SMALL: [i64; 7] = [-3, -2, -1, 0, 1, 2, 3];
/// Numbers of 32 bits that look small in 8 or 16, and the ends.
const NUMBERS: [i64; 8] = [255, 256, 257, 262, 65536, 65537, 1 << 31, u32::MAX as i64];

/// `n` coordinates of one family, often two of them equal; of two points, often two names of one.
fn coordinates(random: &mut Random, n: usize) -> Vec<i64> {
    let within = |random: &mut Random, size: u64| random.below(2 * size + 1) as i64 - size as i64;
    let family = random.below(8);
    let about = within(random, 100_000_000);
    let mut list: Vec<i64> = (0..n).map(|_| match family {
        0 => random.of(&SMALL),
        1 => within(random, 1_000),
        2 | 3 => within(random, 100_000_000),
        4 => random.of(&LIMITS),
        5 => random.next() as i32 as i64,
        6 => (about + within(random, 3)).clamp(-100_000_000, 100_000_000),
        _ => if random.below(3) == 0 { random.of(&LIMITS[3..12]) } else { within(random, 100_000_000) },
    }).collect();
    if random.below(4) == 0 {
        let (from, to) = (random.below(n as u64) as usize, random.below(n as u64) as usize);
        list[to] = list[from];
    }
    if n == 6 && random.below(3) == 0 {
        let by = random.of(&SMALL) * random.of(&[1, 1, 1_000]);
        for at in 0..3 {
            list[at + 3] = (list[at] + by).clamp(i32::MIN as i64, i32::MAX as i64);
        }
        if random.below(3) == 0 {
            let at = 3 + random.below(3) as usize;
            list[at] = (list[at] + random.of(&SMALL)).clamp(i32::MIN as i64, i32::MAX as i64);
        }
    }
    list
}

impl Asked {
    fn of(&self, takes: Takes, args: &[i64]) -> Vec<i64> {
        self.takes.iter().zip(args).filter(|(t, _)| **t == takes).map(|(_, a)| *a).collect()
    }

    /// 13 before 14.
    fn refused(&self, args: &[i64]) -> Option<u16> {
        if self.of(Direction, args).iter().any(|d| *d > 6) {
            return Some(13);
        }
        (outside(&self.of(Coordinate, args)) || self.of(Count, args).iter().any(|n| *n > 5)).then_some(14)
    }

    /// The right answer, and whether the Rust bears it out: it agrees, it differs by an intended difference of that name, or it has another answer.
    fn judged(&self, args: &[i64]) -> (Answer, Result<Option<&'static str>, Answer>) {
        let Some(refusal) = self.refused(args) else {
            let right = (self.model)(args);
            let rust = (self.rust)(args);
            return (right, if rust == right { Ok(None) } else { Err(rust) });
        };
        let rust = match refusal {
            13 => {
                // no number above 255 can be put to the Rust
                let taken = |d: &i64| u8::try_from(*d).is_ok_and(|d| d > 6 && h3o::Direction::try_from(d).is_ok());
                self.of(Direction, args).into_iter().find(taken).map_or(Ok(None), |d| Err(Answer::Number(d)))
            }
            _ if self.of(Count, args).is_empty() => Ok(Some("coordinate-beyond-the-range")),
            // the Rust turns on, by the count less its sixes
            _ => match (self.rust)(args) {
                rust if rust == (self.model)(&[args[0], args[1] % 6]) => Ok(Some("count-above-5")),
                rust => Err(rust),
            },
        };
        (Answer::Refused(refusal), rust)
    }

    fn one(&self, name: &str, args: &[i64], tally: &mut Tally) {
        let (right, rust) = self.judged(args);
        let (refusal, zero, value) = (self.ours)(args);
        let ours = match refusal {
            0 => value,
            _ => Answer::Refused(refusal),
        };
        tally.compared(match right {
            Answer::Refused(number) => REFUSALS[number as usize],
            Answer::Truth(true) => "yes",
            Answer::Truth(false) => "no",
            _ => REFUSALS[0],
        });
        if let Ok(Some(name)) = rust {
            tally.intended(name);
        }
        if ours != right || zero != 0 || (refusal != 0 && !is_zero(value)) || rust.is_err() {
            tally.unexplained(|| {
                let rust = rust.map_or_else(text, |name| name.unwrap_or("agrees").into());
                format!("{name} {args:?}: ours refusal {refusal}, zero {zero}, value {}; document 01 {}; Rust {rust}", text(value), text(right))
            });
        }
    }

    /// Every request whose coordinates are of a list, and whose directions and counts are 0 to 15 or of `NUMBERS`.
    fn product(&self, coordinates: &[i64], mut each: impl FnMut(&[i64])) {
        let numbers: Vec<i64> = (0..16).chain(NUMBERS).collect();
        let lists: Vec<&[i64]> = self.takes.iter().map(|t| if *t == Coordinate { coordinates } else { &numbers }).collect();
        for at in 0..lists.iter().map(|l| l.len()).product() {
            let mut left = at;
            let args: Vec<i64> = lists.iter().map(|l| {
                let a = l[left % l.len()];
                left /= l.len();
                a
            }).collect();
            each(&args);
        }
    }

    fn random(&self, random: &mut Random) -> Vec<i64> {
        let mut points = coordinates(random, self.of(Coordinate, &[0; 6]).len().max(1)).into_iter();
        self.takes.iter().map(|t| match t {
            Coordinate => points.next().expect("a coordinate for each"),
            _ => match random.below(16) {
                0 => random.of(&NUMBERS),
                1 => random.next() as u32 as i64,
                2..5 => random.below(12) as i64,
                _ => random.below(if *t == Count { 6 } else { 7 }) as i64,
            },
        }).collect()
    }

    pub fn compare(&self, name: &str, random: &mut Random, count: u64, tally: &mut Tally) {
        let two = self.takes.len() == 6;
        self.product(if two { &SMALL[2..5] } else { &SMALL }, |args| self.one(name, args, tally));
        self.product(if two { &[-100_000_001, -100_000_000, 0, 100_000_000, i32::MAX as i64] } else { &LIMITS }, |args| self.one(name, args, tally));
        for _ in 0..count {
            self.one(name, &self.random(random), tally);
        }
        let met = |number: &u16| tally.answers.contains_key(REFUSALS[*number as usize]);
        assert!(self.refusals.iter().all(met) && tally.answers.len() > self.refusals.len(), "{name}: an answer was never met");
    }

    pub fn sample(&self, name: &str, random: &mut Random, count: u64) -> Vec<(String, String)> {
        (0..count).map(|_| {
            let args = self.random(random);
            let (right, rust) = self.judged(&args);
            assert!(rust.is_ok(), "{name} {args:?}: the Rust does not bear out {}", text(right));
            let words: Vec<String> = args.iter().map(i64::to_string).collect();
            (format!("{} {}", self.line, words.join(" ")), text(right))
        }).collect()
    }
}
