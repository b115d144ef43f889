//! How a row is timed: the same inputs to both sides, warmed up, the least of many rounds. The sides take turns, and the rows too, so that
//! a busy second of the machine falls on all of them.
use std::fmt::Debug;
use std::hint::black_box;
use std::time::Instant;

const PASSES: usize = 25;
const ROUNDS: usize = 8;

/// What an entry answers, none where it refuses. Each answer is folded into a number, so that no call can be left out.
pub trait Answer: Copy + PartialEq + Debug {
    fn folded(self) -> u64;
}
impl Answer for Option<u64> {
    fn folded(self) -> u64 {
        self.unwrap_or(0)
    }
}
impl Answer for Option<[i32; 2]> {
    fn folded(self) -> u64 {
        self.map_or(0, |p| (p[0] ^ p[1]) as u64)
    }
}
impl Answer for Option<[i32; 3]> {
    fn folded(self) -> u64 {
        self.map_or(0, |p| (p[0] ^ p[1] ^ p[2]) as u64)
    }
}
impl Answer for Option<(u64, u64)> {
    fn folded(self) -> u64 {
        self.map_or(0, |p| p.0 ^ p.1)
    }
}

/// One way to answer all inputs of a row: it answers them all, and gives the nanoseconds.
type Side<'a> = Box<dyn FnMut() -> f64 + 'a>;

/// A row before it is timed. The sides are ours through the C face, then, where the Rust has the entry, the Rust by a call that is not
/// inlined and the Rust inlined in the loop. `elements` is what a round is divided by.
pub struct Row<'a> {
    pub name: String,
    elements: f64,
    sides: Vec<Side<'a>>,
    least: Vec<f64>,
}

impl Row<'_> {
    /// The least nanoseconds an element of each side.
    pub fn figures(&self) -> Vec<f64> {
        self.least.iter().map(|ns| ns / self.elements).collect()
    }
}

#[inline(never)]
fn round<I: Copy, T: Answer>(inputs: &[I], ask: &mut impl FnMut(I) -> T) -> f64 {
    let start = Instant::now();
    let folded = inputs.iter().fold(0u64, |sum, &input| sum.wrapping_add(ask(input).folded()));
    black_box(folded);
    start.elapsed().as_nanos() as f64
}

fn side<'a, I: Copy + 'a, T: Answer>(inputs: &[I], mut ask: impl FnMut(I) -> T + 'a) -> Side<'a> {
    let inputs = inputs.to_vec();
    Box::new(move || round(&inputs, &mut ask))
}

fn row<'a>(name: &str, elements: f64, sides: Vec<Side<'a>>) -> Row<'a> {
    let least = vec![f64::INFINITY; sides.len()];
    Row { name: name.into(), elements, sides, least }
}

/// A row of an entry that the Rust has too; an input stands for so many elements. The answers are compared first.
pub fn beside<'a, I: Copy + Debug + 'a, T: Answer>(
    name: &str, inputs: &[I], elements: f64, mut ours: impl FnMut(I) -> T + 'a, mut rust: impl FnMut(I) -> T + 'a, mut inlined: impl FnMut(I) -> T + 'a,
) -> Row<'a> {
    for &input in inputs {
        let (a, b, c) = (ours(input), rust(input), inlined(input));
        assert!(a == b && b == c, "{name} {input:x?}: ours {a:x?}, the Rust {b:x?}, inlined {c:x?}");
    }
    row(name, elements * inputs.len() as f64, vec![side(inputs, ours), side(inputs, rust), side(inputs, inlined)])
}

/// A row that only we have.
pub fn alone<'a, I: Copy + 'a, T: Answer>(name: &str, inputs: &[I], ours: impl FnMut(I) -> T + 'a) -> Row<'a> {
    row(name, inputs.len() as f64, vec![side(inputs, ours)])
}

/// A row of nothing but work that a closure times itself.
pub fn plain<'a>(name: &str, elements: f64, work: impl FnMut() -> f64 + 'a) -> Row<'a> {
    row(name, elements, vec![Box::new(work)])
}

pub fn measure(rows: &mut [Row]) {
    for _ in 0..PASSES {
        for row in rows.iter_mut() {
            for _ in 0..ROUNDS {
                for (least, side) in row.least.iter_mut().zip(&mut row.sides) {
                    *least = least.min(side());
                }
            }
        }
    }
}
