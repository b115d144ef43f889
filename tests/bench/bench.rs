//! Our library's time beside the Rust original's, in one process.
//!   bench FIGURES            times every row and writes the figures, for the other build of this program
//!   bench FIGURES --beside   times them again and prints the tables, with FIGURES as the release build's
//! It ends with a status that is not 0 where any pair of answers differs.
mod blocks;
#[path = "../oracle/cells.rs"]
mod cells;
#[path = "../oracle/frame.rs"]
mod frame;
mod inputs;
mod lists;
#[path = "../oracle/model.rs"]
mod model;
#[path = "../oracle/rg.rs"]
mod rg;
mod rust;
mod singles;
mod time;
mod workbook;

use frame::Random;
use time::{Row, measure};

const SEED: u64 = 1;

fn rows() -> Vec<Row<'static>> {
    let mut rows: Vec<_> = [singles::rows, lists::rows, blocks::rows].into_iter().flat_map(|rows| rows(&mut Random::new(SEED, "bench"))).collect();
    measure(&mut rows);
    rows
}

/// Ours and the Rust's called, of the release build, by name.
fn read(figures: &str) -> Vec<(String, f64, f64)> {
    let line = |line: &str| {
        let mut words = line.split('\t');
        let mut next = || words.next().expect("a figure");
        (next().into(), next().parse().expect("a number"), next().parse().expect("a number"))
    };
    std::fs::read_to_string(figures).expect(figures).lines().map(line).collect()
}

fn table(rows: &[Row], release: &[(String, f64, f64)]) {
    println!("| | ours, ns | Rust, release, ns | times | Rust, fat LTO, ns | times | Rust inlined, ns | times |");
    println!("|---|---|---|---|---|---|---|---|");
    for row in rows {
        let &[mine, called, inlined] = &row.figures()[..] else {
            println!("| {} | {:.2} | | | | | | |", row.name, row.figures()[0]);
            continue;
        };
        let (_, ours, rust) = release.iter().find(|r| r.0 == row.name).expect("the same rows");
        println!(
            "| {} | {mine:.2} | {rust:.2} | {:.2} | {called:.2} | {:.2} | {inlined:.2} | {:.2} |",
            row.name, rust / ours, called / mine, inlined / mine
        );
    }
}

fn main() {
    let words: Vec<String> = std::env::args().skip(1).collect();
    let rows = rows();
    match &words[..] {
        [figures] => {
            let lines: String = rows.iter().filter(|r| r.figures().len() == 3).map(|r| format!("{}\t{}\t{}\n", r.name, r.figures()[0], r.figures()[1])).collect();
            std::fs::write(figures, lines).expect(figures);
        }
        [figures, beside] if beside == "--beside" => {
            table(&rows, &read(figures));
            lists::growth(&mut Random::new(SEED, "growth"));
            workbook::print(SEED);
        }
        _ => panic!("bench FIGURES [--beside]"),
    }
}
