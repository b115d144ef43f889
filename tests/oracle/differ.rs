//! Our library against the Rust original and document 01, in one process.
//!   differ [--count N] [--seed S] [ENTRY..]
//!       compares; the status is not 0 where anything is left unexplained
//!   differ --sample N --into DIR [--seed S] [ENTRY..]
//!       writes N requests an entry to DIR/stdin and the Rust's answers to DIR/stdout
mod asked;
mod blocks;
mod cells;
mod check;
mod children;
mod directions;
mod frame;
mod model;
mod points;
mod rg;
mod steps;

use frame::{DONE, Entry, Random, Tally};
use std::io::IsTerminal;
use std::process::ExitCode;
use std::sync::atomic::{AtomicUsize, Ordering::Relaxed};
use std::time::{Duration, Instant};

const ENTRIES: [&[Entry]; 6] = [&[check::ENTRY], &children::ENTRIES, &[blocks::ENTRY], &directions::ENTRIES, &points::ENTRIES, &steps::ENTRIES];

struct Wish {
    count: u64,
    seed: u64,
    sample: Option<u64>,
    into: Option<String>,
    entries: Vec<&'static Entry>,
}

fn wish(mut words: impl Iterator<Item = String>) -> Result<Wish, String> {
    let mut wish = Wish { count: 3_000_000, seed: 1, sample: None, into: None, entries: Vec::new() };
    while let Some(word) = words.next() {
        if let Some(entry) = ENTRIES.into_iter().flatten().find(|e| e.name == word) {
            wish.entries.push(entry);
            continue;
        }
        if !["--count", "--seed", "--sample", "--into"].contains(&&*word) {
            return Err(format!("no entry or option {word}"));
        }
        let value = words.next().ok_or(format!("{word} needs a value"))?;
        let number = || value.parse::<u64>().map_err(|e| format!("{word} {value}: {e}"));
        match &*word {
            "--count" => wish.count = number()?,
            "--seed" => wish.seed = number()?,
            "--sample" => wish.sample = Some(number()?),
            _ => wish.into = Some(value),
        }
    }
    if wish.entries.is_empty() {
        wish.entries = ENTRIES.into_iter().flatten().collect();
    }
    // with fewer an entry might never meet one of its answers, which each comparison asserts
    if wish.count < 100_000 {
        return Err("--count is at least 100000".into());
    }
    if wish.sample.is_some() != wish.into.is_some() {
        return Err("--sample and --into go together".into());
    }
    Ok(wish)
}

fn sample(wish: &Wish, count: u64, into: &str) -> std::io::Result<()> {
    let lines: Vec<_> = wish.entries.iter().flat_map(|e| (e.sample)(&mut Random::new(wish.seed, e.name), count)).collect();
    let text = |of: fn(&(String, String)) -> &String| lines.iter().map(|l| format!("{}\n", of(l))).collect::<String>();
    std::fs::write(format!("{into}/stdin"), text(|l| &l.0))?;
    std::fs::write(format!("{into}/stdout"), text(|l| &l.1))
}

/// Which entry is being compared.
static AT: AtomicUsize = AtomicUsize::new(0);

/// To standard error, until the program ends: each second on a terminal, else each ten.
fn progress(entries: &[&'static Entry]) {
    let (names, terminal, start): (Vec<_>, _, _) = (entries.iter().map(|e| e.name).collect(), std::io::stderr().is_terminal(), Instant::now());
    std::thread::spawn(move || loop {
        std::thread::sleep(Duration::from_secs(if terminal { 1 } else { 10 }));
        let Some(name) = names.get(AT.load(Relaxed)) else {
            return;
        };
        let line = format!("{} s, entry {} of {}, {name}: {} compared", start.elapsed().as_secs(), AT.load(Relaxed) + 1, names.len(), DONE.load(Relaxed));
        if terminal {
            eprint!("\r{line:<78}\r");
        } else {
            eprintln!("{line}");
        }
    });
}

fn compare(wish: &Wish) -> bool {
    let counts = |of: &std::collections::BTreeMap<&str, u64>| {
        let list: Vec<String> = of.iter().map(|(name, count)| format!("{name} {count}")).collect();
        if list.is_empty() { "none".into() } else { list.join(", ") }
    };
    println!("seed {}, {} random requests an entry", wish.seed, wish.count);
    progress(&wish.entries);
    let tallies: Vec<Tally> = wish.entries.iter().map(|e| {
        let mut tally = Tally::default();
        (e.compare)(&mut Random::new(wish.seed, e.name), wish.count, &mut tally);
        AT.fetch_add(1, Relaxed);
        tally
    }).collect();
    println!("{:20} {:>10} {:>11}  intended differences", "entry", "compared", "unexplained");
    for (e, t) in wish.entries.iter().zip(&tallies) {
        println!("{:20} {:>10} {:>11}  {}", e.name, t.compared, t.unexplained, counts(&t.intended));
        println!("{:20} right answers: {}", "", counts(&t.answers));
    }
    let unexplained: u64 = tallies.iter().map(|t| t.unexplained).sum();
    println!("{} compared, {unexplained} unexplained", tallies.iter().map(|t| t.compared).sum::<u64>());
    unexplained == 0
}

fn main() -> ExitCode {
    let wish = match wish(std::env::args().skip(1)) {
        Ok(wish) => wish,
        Err(what) => {
            eprintln!("differ: {what}");
            return ExitCode::from(2);
        }
    };
    match (wish.sample, &wish.into) {
        (Some(count), Some(into)) => match sample(&wish, count, into) {
            Ok(()) => ExitCode::SUCCESS,
            Err(e) => {
                eprintln!("differ: {into}: {e}");
                ExitCode::FAILURE
            }
        },
        _ if compare(&wish) => ExitCode::SUCCESS,
        _ => ExitCode::FAILURE,
    }
}
