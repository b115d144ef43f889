//! Check, ancestor and position over a block: ours in one call, the Rust in one call that is not inlined.
use crate::frame::Random;
use crate::inputs::*;
use crate::lists::BLOCK;
use crate::time::{Row, alone, beside};
use crate::{model, rg, rust};

/// A block's answers.
#[derive(Clone, PartialEq)]
pub struct Answers {
    pub values: Vec<u64>,
    pub refusals: Vec<u16>,
}
impl Answers {
    pub fn new() -> Self {
        Self { values: vec![0; BLOCK], refusals: vec![0; BLOCK] }
    }
    /// With 1 for any refusal: the Rust has no numbers.
    fn plain(&self) -> Self {
        Self { values: self.values.clone(), refusals: self.refusals.iter().map(|&k| k.min(1)).collect() }
    }
}

/// The Rust's block: each answer written, 1 where it is refused.
#[inline(always)]
fn all(cells: &[u64], into: &mut Answers, one: impl Fn(u64) -> Option<u64>) -> Option<u64> {
    for ((&n, value), refusal) in cells.iter().zip(&mut into.values).zip(&mut into.refusals) {
        let answer = one(n);
        *value = answer.unwrap_or(0);
        *refusal = answer.is_none().into();
    }
    Some(cells.len() as u64)
}
#[inline(never)]
pub fn rust_check(cells: &[u64], into: &mut Answers) -> Option<u64> {
    all(cells, into, |n| rust::cell(n).map(u64::from))
}
#[inline(never)]
pub fn rust_ancestor(cells: &[u64], r: u32, into: &mut Answers) -> Option<u64> {
    all(cells, into, |n| rust::ancestor(n, r))
}
#[inline(never)]
pub fn rust_position(first: u64, cells: &[u64], into: &mut Answers) -> Option<u64> {
    all(cells, into, |n| rust::position(first, n))
}

fn number(a: rg::Number) -> Option<u64> {
    (a.refusal == 0).then_some(a.value)
}
pub fn check(cells: &[u64], into: &mut Answers) -> Option<u64> {
    number(rg::check_block(cells, (&mut into.values, &mut into.refusals)))
}
pub fn ancestor(cells: &[u64], r: u32, into: &mut Answers) -> Option<u64> {
    number(rg::ancestor_block(cells, r, (&mut into.values, &mut into.refusals)))
}
pub fn position(first: u64, cells: &[u64], into: &mut Answers) -> Option<u64> {
    number(rg::position_block(first, cells, (&mut into.values, &mut into.refusals)))
}

type Ask = Box<dyn Fn(&[u64], &mut Answers) -> Option<u64>>;

/// A row in nanoseconds an element, over blocks of 8,192.
fn row(name: &str, cells: Vec<u64>, ours: Ask, theirs: Ask) -> Row<'static> {
    let [mut a, mut b] = [(); 2].map(|()| Answers::new());
    for block in cells.chunks(BLOCK) {
        assert!(ours(block, &mut a) == theirs(block, &mut b) && a.plain() == b, "{name}");
    }
    let starts: Vec<usize> = (0..cells.len()).step_by(BLOCK).collect();
    let (again, once_more) = (cells.clone(), cells.clone());
    let theirs = std::rc::Rc::new(theirs);
    let (third, mut c) = (theirs.clone(), Answers::new());
    beside(
        name, &starts, BLOCK as f64, move |at| ours(&cells[at..at + BLOCK], &mut a), move |at| theirs(&again[at..at + BLOCK], &mut b),
        move |at| third(&once_more[at..at + BLOCK], &mut c),
    )
}

/// The single entry, a call for each of a block's numbers.
fn calls(name: &str, cells: &[u64], ours: impl Fn(u64) -> rg::Number + 'static) -> Row<'static> {
    alone(name, cells, move |n| number(ours(n)))
}

pub fn rows(random: &mut Random) -> Vec<Row<'static>> {
    let valid = many(|| cell(random));
    let half = many(|| if random.below(2) == 0 { cell(random) } else { damaged(random) });
    let fine = many(|| cell_at(random, 9));
    let first = hexagon_at(random, 5);
    let under = many(|| model::child_at(first, 9, random.below(2401)));
    let checked = |name, cells: &[u64]| alone(name, cells, |n| (rg::check(n).refusal == 0).then_some(1));
    vec![
        checked("check, valid cells, a call each", &valid),
        row("check in blocks, valid cells", valid, Box::new(move |n, a| check(n, a)), Box::new(move |n, a| rust_check(n, a))),
        checked("check, half of them damaged, a call each", &half),
        row("check in blocks, half of them damaged", half, Box::new(move |n, a| check(n, a)), Box::new(move |n, a| rust_check(n, a))),
        calls("ancestor, 9 to 5, a call each", &fine, |n| rg::ancestor(n, 5)),
        row("ancestor in blocks, 9 to 5", fine, Box::new(move |n, a| ancestor(n, 5, a)), Box::new(move |n, a| rust_ancestor(n, 5, a))),
        calls("position, 9 under 5, a call each", &under, move |n| rg::position(first, n)),
        row("position in blocks, 9 under 5", under, Box::new(move |n, a| position(first, n, a)), Box::new(move |n, a| rust_position(first, n, a))),
    ]
}
