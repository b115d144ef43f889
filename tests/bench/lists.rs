//! The listing and the cursor, and how the listing's time grows.
use crate::frame::Random;
use crate::inputs::*;
use crate::time::{Row, alone, beside, measure, plain};
use crate::{model, rg, rust};
use std::hint::black_box;
use std::time::Instant;

/// The block that formulas lend.
pub const BLOCK: usize = 8_192;

fn number(a: rg::Number) -> Option<u64> {
    (a.refusal == 0).then_some(a.value)
}

#[inline(never)]
pub fn called(n: u64, target: u32, block: &mut [u64]) -> Option<u64> {
    rust::list(n, target, block)
}

/// Listings into a block of so many elements, in nanoseconds a child.
fn listing(name: &str, cells: &[u64], target: u32, room: usize) -> Row<'static> {
    let [mut mine, mut theirs, mut inlined] = [(); 3].map(|()| vec![0; room]);
    for &n in cells {
        let (a, b) = (rg::list(n, target, &mut mine), called(n, target, &mut theirs));
        assert!(number(a) == b && mine == theirs, "{name} {n:x} to {target}");
    }
    let elements = model::count(cells[0], target.into()) as f64;
    beside(
        name, cells, elements, move |n| number(rg::list(n, target, &mut mine)), move |n| called(n, target, &mut theirs), move |n| rust::list(n, target, &mut inlined),
    )
}

/// All children by calls of `next`, folded; a call a child.
fn by_cursor(random: &mut Random) -> Row<'static> {
    #[inline(never)]
    fn next(children: &mut impl Iterator<Item = h3o::CellIndex>) -> Option<u64> {
        children.next().map(u64::from)
    }
    let ours = |n: u64| {
        let (mut cursor, mut sum) = ([0; 5], 0u64);
        assert!(rg::cursor(n, 9, &mut cursor).refusal == 0);
        while let child @ 1.. = rg::next(&mut cursor).value {
            sum = sum.wrapping_mul(3).wrapping_add(child);
        }
        Some(sum)
    };
    let fold = |sum: u64, child: u64| sum.wrapping_mul(3).wrapping_add(child);
    let rust = move |n: u64| {
        let (mut children, mut sum) = (rust::cell(n)?.children(rust::resolution(9)?), 0);
        while let Some(child) = next(&mut children) {
            sum = fold(sum, child);
        }
        Some(sum)
    };
    let inlined = move |n: u64| Some(rust::cell(n)?.children(rust::resolution(9)?).map(u64::from).fold(0, fold));
    let cells: Vec<u64> = (0..4).map(|_| hexagon_at(random, 5)).collect();
    beside("next, a call each", &cells, 2401.0, ours, rust, inlined)
}

pub fn rows(random: &mut Random) -> Vec<Row<'static>> {
    let hexagons: Vec<u64> = (0..64).map(|_| hexagon_at(random, 5)).collect();
    let pentagons: Vec<u64> = (0..64).map(|_| pentagon_at(random, 5)).collect();
    let coarse = many(|| { let r = random.below(15); hexagon_at(random, r) });
    let targets = many(|| { let n = cell(random); (n, model::resolution(n) as u32) });
    let mut block = [0; 7];
    let short = |n: u64, block: &mut [u64]| { let r = rust::cell(n)?.resolution() as u32; rust::list(n, r + 1, block) };
    let [mut theirs, mut inlined] = [[0; 7]; 2];
    #[inline(never)]
    fn never(n: u64, block: &mut [u64], short: impl Fn(u64, &mut [u64]) -> Option<u64>) -> Option<u64> {
        short(n, block)
    }
    vec![
        listing("listing, hexagon 5 to 9, a child", &hexagons, 9, BLOCK),
        listing("listing, pentagon 5 to 9, a child", &pentagons, 9, BLOCK),
        beside(
            "short listing, a call", &coarse, 1.0, move |n| number(rg::list_short(n, &mut block)), move |n| never(n, &mut theirs, short),
            move |n| short(n, &mut inlined),
        ),
        alone("cursor", &targets, |(n, t)| Some(u64::from(rg::cursor(n, t, &mut [0; 5]).refusal))),
        by_cursor(random),
    ]
}

/// The time a child over targets one to six finer, and what is written beside a plain fill of the same block.
pub fn growth(random: &mut Random) {
    let mut rows = Vec::new();
    let mut counts = Vec::new();
    for finer in 1..=6 {
        for cell in [hexagon_at(random, 5), pentagon_at(random, 5)] {
            let count = model::count(cell, 5 + finer) as usize;
            let cells = vec![cell; (70_000 / count).max(1)];
            rows.push(listing("", &cells, 5 + finer as u32, count));
            counts.push(count);
        }
        let mut block = vec![0u64; counts[counts.len() - 2]];
        let times = (70_000 / block.len()).max(1);
        rows.push(plain("", (times * block.len()) as f64, move || {
            let start = Instant::now();
            for at in 0..times as u64 {
                black_box(&mut block).fill(black_box(at));
            }
            start.elapsed().as_nanos() as f64
        }));
    }
    measure(&mut rows);
    println!("\nHow the listing grows: a cell of resolution 5, targets one to six finer, the whole count lent.\n");
    println!("| finer | hexagon: children | ns a child | Rust, ns | pentagon: children | ns a child | Rust, ns | hexagon: bytes a ns | plain fill: bytes a ns |");
    println!("|---|---|---|---|---|---|---|---|---|");
    for finer in 1..=6 {
        let at = finer - 1;
        let [hexagon, pentagon, fill] = [0, 1, 2].map(|side| rows[3 * at + side].figures());
        println!(
            "| {finer} | {} | {:.2} | {:.2} | {} | {:.2} | {:.2} | {:.1} | {:.1} |",
            counts[2 * at], hexagon[0], hexagon[1], counts[2 * at + 1], pentagon[0], pentagon[1], 8.0 / hexagon[0], 8.0 / fill[0]
        );
    }
}
