//! The workbook: 400,000 locations, each checked and taken to its parent and its position there, and every parent listed.
use crate::blocks::{self, Answers};
use crate::frame::Random;
use crate::inputs::cell_at;
use crate::lists::{self, BLOCK};
use crate::{model, rg};
use std::time::Instant;

const LOCATIONS: usize = 400_000;
const PARENTS: usize = 8_192;
const REPETITIONS: usize = 5;

/// What one side does with a block of cells or with a parent.
struct Side {
    check: fn(&[u64], &mut Answers) -> Option<u64>,
    ancestor: fn(&[u64], u32, &mut Answers) -> Option<u64>,
    position: fn(u64, &[u64], &mut Answers) -> Option<u64>,
    list: fn(u64, u32, &mut [u64]) -> Option<u64>,
}
const OURS: Side = Side {
    check: blocks::check,
    ancestor: blocks::ancestor,
    position: blocks::position,
    list: |n, target, block| Some(rg::list(n, target, block).value),
};
const RUST: Side = Side { check: blocks::rust_check, ancestor: blocks::rust_ancestor, position: blocks::rust_position, list: lists::called };

/// Seconds, and a sum over all that was answered. The locations are sorted, so those of a parent stand together.
fn run(side: &Side, locations: &[u64]) -> (f64, u64) {
    let mut answers = Answers::new();
    let mut parents = vec![0; locations.len()];
    let mut children = vec![0; BLOCK];
    let mut sum = 0u64;
    let mut add = |n: &[u64]| n.iter().for_each(|&n| sum = sum.wrapping_mul(31).wrapping_add(n));
    let start = Instant::now();
    for (cells, parents) in locations.chunks(BLOCK).zip(parents.chunks_mut(BLOCK)) {
        (side.check)(cells, &mut answers);
        assert!(answers.refusals[..cells.len()].iter().all(|&k| k == 0));
        (side.ancestor)(cells, 5, &mut answers);
        parents.copy_from_slice(&answers.values[..cells.len()]);
    }
    let mut at = 0;
    while at < locations.len() {
        let parent = parents[at];
        let end = at + parents[at..].iter().take(BLOCK).take_while(|&&p| p == parent).count();
        (side.position)(parent, &locations[at..end], &mut answers);
        let count = (side.list)(parent, 9, &mut children).unwrap_or(0) as usize;
        add(&answers.values[..end - at]);
        add(&[children[0], children[count / 2], children[count - 1]]);
        at = end;
    }
    (start.elapsed().as_secs_f64(), sum)
}

pub fn print(seed: u64) {
    let mut random = Random::new(seed, "workbook");
    let parents: Vec<u64> = (0..PARENTS).map(|_| cell_at(&mut random, 5)).collect();
    let mut locations: Vec<u64> = (0..LOCATIONS).map(|_| {
        let parent = random.of(&parents);
        model::child_at(parent, 9, random.below(model::count(parent, 9)))
    }).collect();
    locations.sort_unstable();
    let distinct = parents.iter().collect::<std::collections::BTreeSet<_>>().len();
    let mut least = [f64::INFINITY; 2];
    for _ in 0..REPETITIONS {
        let (ours, rust) = (run(&OURS, &locations), run(&RUST, &locations));
        assert_eq!(ours.1, rust.1, "the workbooks differ");
        least = [least[0].min(ours.0), least[1].min(rust.0)];
    }
    println!("\nThe workbook: {LOCATIONS} cells of resolution 9 under {distinct} cells of resolution 5, seed {seed}, in blocks of {BLOCK}:");
    println!("check, ancestor at 5, position there, and the listing of each distinct parent at 9. Least of {REPETITIONS}.\n");
    println!("| | seconds | share of nine seconds |");
    println!("|---|---|---|");
    for (who, seconds) in ["ours", "the Rust, fat LTO"].iter().zip(least) {
        println!("| {who} | {seconds:.4} | {:.2} % |", seconds / 9.0 * 100.0);
    }
}
