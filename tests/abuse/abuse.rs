//! The archive and hexline under abuse, held against document 01's model.
//!   abuse [--calls N] [--lines N] [--seed S] [--program PROGRAM] [--stored LINES]
//! Calls every export N times in all, what it is lent lying against an unreadable page above and then below; puts N damaged lines to hexline.
#[allow(dead_code)]
#[path = "../oracle/cells.rs"]
mod cells;
mod entries;
#[allow(dead_code)]
#[path = "../oracle/frame.rs"]
mod frame;
mod lines;
#[allow(dead_code)]
#[path = "../oracle/model.rs"]
mod model;
#[allow(dead_code, clashing_extern_declarations)]
#[path = "../oracle/rg.rs"]
mod rg;

use entries::{ENTRIES, Entry, Takes};
use frame::Random;
use std::process::ExitCode;

mod c {
    use std::ffi::{c_int, c_long, c_void};
    unsafe extern "C" {
        pub fn mmap(at: *mut c_void, length: usize, access: c_int, flags: c_int, file: c_int, offset: c_long) -> *mut c_void;
        pub fn mprotect(at: *mut c_void, length: usize, access: c_int) -> c_int;
    }
    #[allow(clashing_extern_declarations)]
    unsafe extern "C" {
        pub fn rg_list(cell: u64, target: u64, cells: *mut u64, length: usize) -> super::rg::Number;
        pub fn rg_list_short(cell: u64, cells: *mut u64, length: usize) -> super::rg::Number;
        pub fn rg_cursor(cell: u64, target: u64, cursor: *mut u64) -> super::rg::Checked;
        pub fn rg_next(cursor: *mut u64) -> super::rg::Number;
        pub fn rg_check_block(cells: *const u64, n: usize, values: *mut u64, v: usize, refusals: *mut u16, r: usize) -> super::rg::Number;
        pub fn rg_ancestor_block(cells: *const u64, n: usize, resolution: u64, values: *mut u64, v: usize, refusals: *mut u16, r: usize) -> super::rg::Number;
        pub fn rg_position_block(first: u64, seconds: *const u64, n: usize, values: *mut u64, v: usize, refusals: *mut u16, r: usize) -> super::rg::Number;
    }
}

const UNTOUCHED: u64 = 0xeeee_eeee_eeee_eeee;
const PAGE: usize = 65536; // a multiple of the page size of every machine
const READ_WRITE: i32 = 3;
const PRIVATE_ANONYMOUS: i32 = 0x22; // Linux

/// What a buffer is of, and its value where nothing was written.
trait Element: Copy + PartialEq {
    const UNTOUCHED: Self;
}
impl Element for u64 {
    const UNTOUCHED: u64 = UNTOUCHED;
}
impl Element for u16 {
    const UNTOUCHED: u16 = UNTOUCHED as u16;
}

/// Words between two pages that can be neither read nor written.
struct Lent(&'static mut [u64]);

impl Lent {
    fn new() -> Self {
        unsafe {
            let all = c::mmap(std::ptr::null_mut(), 3 * PAGE, 0, PRIVATE_ANONYMOUS, -1, 0);
            assert!(all as isize != -1, "mmap");
            let middle = all.byte_add(PAGE);
            assert!(c::mprotect(middle, PAGE, READ_WRITE) == 0, "mprotect");
            let words = std::slice::from_raw_parts_mut(middle as *mut u64, PAGE / 8);
            words.fill(UNTOUCHED);
            Lent(words)
        }
    }
    /// Hands `call` a buffer that holds `before`, at the upper guard or the lower, and finds it as `after` with nothing else written.
    /// The elements beside it are looked at as far as a long listing would reach.
    fn hand<E: Element, T>(&mut self, upper: bool, before: &[E], after: &[E], call: impl FnOnce(*mut E) -> T) -> (T, bool) {
        const NEAR: usize = 64;
        let (all, length) = (PAGE / size_of::<E>(), before.len());
        let elements = unsafe { std::slice::from_raw_parts_mut(self.0.as_mut_ptr() as *mut E, all) };
        let from = if upper { all - length } else { 0 };
        elements[from..from + length].copy_from_slice(before);
        let answer = call(unsafe { elements.as_mut_ptr().add(from) });
        let near = if upper { from.saturating_sub(NEAR)..from } else { length..(length + NEAR).min(all) };
        let kept = elements[from..from + length] == *after && elements[near].iter().all(|e| *e == E::UNTOUCHED);
        elements[from..from + length].fill(E::UNTOUCHED);
        (answer, kept)
    }
    fn untouched(&self) -> bool {
        self.0.iter().all(|w| *w == UNTOUCHED)
    }
}

fn some_cell(random: &mut Random) -> u64 {
    match random.below(16) {
        0 => random.next() >> random.below(64),
        1 => random.of(&[0, 1, u64::MAX, 1 << 63, 1 << 59, 0x0800_0000_0000_0000, 0x08ff_ffff_ffff_ffff, 0x08f3_ffff_ffff_ffff]),
        2 | 3 => cells::stray(random),
        4 | 5 => cells::random(random) ^ (1 << random.below(64)),
        _ => cells::random(random),
    }
}
fn some_word(random: &mut Random, small: u64) -> u64 {
    match random.below(8) {
        0 => random.of(&[5, 6, 7, 8, 15, 16, 17, 255, 256, 257, 262, 65535, 65536, 1 << 31, (1 << 31) - 1, u32::MAX as u64]),
        1 => u64::from(random.next() as u32 >> random.below(32)),
        _ => random.below(small),
    }
}
fn some_coordinate(random: &mut Random) -> i64 {
    const LIMITS: [i64; 11] =
        [i32::MIN as i64, i32::MIN as i64 + 1, -100_000_001, -100_000_000, -99_999_999, 0, 99_999_999, 100_000_000, 100_000_001, i32::MAX as i64 - 1, i32::MAX as i64];
    match random.below(8) {
        0 => random.of(&LIMITS),
        1 => (random.next() as i32 >> random.below(32)).into(),
        2..5 => random.below(7) as i64 - 3,
        _ => random.below(200_000_001) as i64 - 100_000_000,
    }
}

fn some_args(random: &mut Random, takes: &[Takes]) -> entries::Args {
    let mut args = [0; 6];
    for (at, takes) in takes.iter().enumerate() {
        args[at] = match takes {
            Takes::Cell => some_cell(random),
            Takes::Position => match random.below(4) {
                0 => random.next() >> random.below(64),
                _ if entries::finer(args[0], args[1]).is_err() => random.below(8),
                n => {
                    let count = model::count(args[0], args[1]);
                    if n == 1 { random.of(&[count - 1, count, count + 1]) } else { random.below(count) }
                }
            },
            Takes::Resolution | Takes::Length => some_word(random, 18),
            Takes::Direction => some_word(random, 8),
            Takes::Count => some_word(random, 7),
            Takes::Coordinate => some_coordinate(random) as u64,
        };
    }
    if random.below(2) == 0 {
        return args;
    }
    match takes {
        // a cell under the other
        [Takes::Cell, Takes::Cell] if model::check(args[0]) == 0 => {
            let target = model::resolution(args[0]) + random.below(16 - model::resolution(args[0]));
            args[1] = model::child_at(args[0], target, random.below(model::count(args[0], target)));
        }
        // a centre
        [Takes::Length, ..] => {
            let n = cells::random(random);
            args[0] = model::resolution(n);
            model::centre(n).iter().enumerate().for_each(|(at, c)| args[at + 1] = *c as u64);
        }
        // two names of one point
        [.., Takes::Coordinate] if takes.len() == 6 => (0..3).for_each(|at| args[at + 3] = (args[at] as i32).saturating_add(1) as i64 as u64),
        _ => {}
    }
    args
}

/// Right: the refusal, the value and the zero.
fn same(refusal: u16, zero: u16, values: [u64; 3], right: entries::Answer) -> bool {
    zero == 0 && refusal == right.err().unwrap_or(0) && values == right.unwrap_or([0; 3])
}

fn numbers(random: &mut Random, e: &Entry) -> Result<(), String> {
    let args = some_args(random, e.takes);
    let right = (e.model)(&args);
    let mut words = [0; 6].map(|_: u64| random.next());
    for (at, takes) in e.takes.iter().enumerate() {
        words[at] = match takes {
            Takes::Cell | Takes::Position => args[at],
            _ => args[at] & u64::from(u32::MAX) | words[at] << 32,
        };
    }
    let (refusal, zero, values) = (e.ours)(words);
    if same(refusal, zero, values, right) { Ok(()) } else { Err(format!("{} {words:x?}: refusal {refusal}, zero {zero}, {values:x?}; the model {right:x?}", e.line)) }
}

/// One listing at every length and both guards. Returns the calls.
fn listings(random: &mut Random, lent: &mut Lent, short: bool) -> Result<u64, String> {
    let n = some_cell(random);
    let down = random.of(&[0, 0, 1, 1, 1, 1, 1, 1, 2, 2, 2, 2, 3, 3, 4, 15]);
    let target = match short {
        true => model::resolution(n) + 1,
        false if random.below(4) == 0 => some_word(random, 18),
        false => (model::resolution(n) + down).min(15),
    };
    let finer = entries::finer(n, target);
    let count = finer.map_or(random.below(50), |()| model::count(n, target));
    let list = if finer.is_ok() && count <= 2401 { model::descendants(n, target) } else { Vec::new() };
    let most = (PAGE / 8) as u64;
    let lengths = [0, 1, count.saturating_sub(1), count, count + 1, count + random.below(60), random.below(count + 1), random.below(most)];
    let mut calls = 0;
    for (at, length) in lengths.into_iter().map(|l| l.min(most)).enumerate() {
        let right = match finer {
            Ok(()) if length < count => Err(10),
            Ok(()) => Ok([count, 0, 0]),
            Err(refusal) => Err(refusal),
        };
        let before = vec![random.next(); length as usize];
        let mut after = before.clone();
        if right.is_ok() {
            after[..list.len()].copy_from_slice(&list);
        }
        for upper in [true, false] {
            let ((a, null), kept) = lent.hand(upper, &before, &after, |cells| {
                let null = at == 0 && upper;
                let cells = if null { std::ptr::null_mut() } else { cells };
                let target = target | random.next() << 32;
                (unsafe { if short { c::rg_list_short(n, cells, length as usize) } else { c::rg_list(n, target, cells, length as usize) } }, null)
            });
            calls += 1;
            if !kept || !same(a.refusal, a.zero, [a.value, 0, 0], right) {
                return Err(format!("list {n:016x} {target} length {length} short {short} upper {upper} NULL {null}: refusal {}, value {}, kept {kept}; the model {right:x?}", a.refusal, a.value));
            }
        }
    }
    Ok(calls)
}

/// What a single entry gives for a number, with `with` as its other argument; a check the number itself.
fn single(line: &str, with: u64, n: u64) -> Result<u64, u16> {
    let model = ENTRIES.iter().find(|e| e.line == line).expect("an entry").model;
    let args = if line == "position" { [with, n, 0, 0, 0, 0] } else { [n, with, 0, 0, 0, 0] };
    model(&args).map(|values| if line == "check" { n } else { values[0] })
}

/// One block at both guards, for each length of the lent blocks. Returns the calls.
fn blocks(random: &mut Random, [cells, lent, lent_too]: &mut [Lent; 3]) -> Result<u64, String> {
    let line = random.of(&["check", "ancestor", "position"]);
    let with = if line == "position" { some_cell(random) } else { some_word(random, 18) };
    let most = if random.below(64) == 0 { PAGE / 8 } else { random.of(&[0, 1, 2, 7, 40]) };
    let block: Vec<u64> = (0..most).map(|_| match model::check(with) {
        0 if random.below(2) == 0 => {
            let target = model::resolution(with) + random.below(16 - model::resolution(with));
            model::child_at(with, target, random.below(model::count(with, target)))
        }
        _ => some_cell(random),
    }).collect();
    let (n, right): (usize, Vec<_>) = (block.len(), block.iter().map(|&n| single(line, with, n)).collect());
    let short = n.saturating_sub(1);
    let mut calls = 0;
    for (v, r) in [(n, n), (short, n), (n, short), (n + random.below(9) as usize, n), (n, n + random.below(9) as usize), (0, 0)] {
        let v = v.min(PAGE / 8);
        let (values, refusals) = (vec![random.next(); v], vec![random.next() as u16; r]);
        let (mut after, mut after_too) = (values.clone(), refusals.clone());
        let told = if v < n || r < n { Err(10) } else { Ok([n as u64, 0, 0]) };
        if told.is_ok() {
            right.iter().enumerate().for_each(|(at, a)| (after[at], after_too[at]) = (a.unwrap_or(0), a.err().unwrap_or(0)));
        }
        for upper in [true, false] {
            let rubbish = random.next() << 32;
            let null = |empty: bool| empty && upper;
            let call = |cells: *mut u64, values: *mut u64, refusals: *mut u16| unsafe {
                let cells = if null(n == 0) { std::ptr::null_mut() } else { cells };
                let values = if null(v == 0) { std::ptr::null_mut() } else { values };
                let refusals = if null(r == 0) { std::ptr::null_mut() } else { refusals };
                match line {
                    "check" => c::rg_check_block(cells, n, values, v, refusals, r),
                    "ancestor" => c::rg_ancestor_block(cells, n, with & u64::from(u32::MAX) | rubbish, values, v, refusals, r),
                    _ => c::rg_position_block(with, cells, n, values, v, refusals, r),
                }
            };
            let (((a, kept_too), kept), same_cells) = cells.hand(upper, &block, &block, |cells| {
                lent.hand(upper, &values, &after, |values| lent_too.hand(upper, &refusals, &after_too, |refusals| call(cells, values, refusals)))
            });
            calls += 1;
            if !kept || !kept_too || !same_cells || !same(a.refusal, a.zero, [a.value, 0, 0], told) {
                return Err(format!("{line} over {n} with {with:x}, lent {v} and {r}, upper {upper}: refusal {}, value {}, kept {kept} {kept_too} {same_cells}; {told:x?}", a.refusal, a.value));
            }
        }
    }
    Ok(calls)
}

fn cursors(random: &mut Random, lent: &mut Lent) -> Result<u64, String> {
    let n = some_cell(random);
    let target = if random.below(4) == 0 { some_word(random, 18) } else { (model::resolution(n) + random.below(16)).min(15) };
    let finer = entries::finer(n, target);
    let before = [0; 5].map(|_: u64| random.next());
    let fresh = finer.map_or(before, |()| model::cursor(n, target, 0));
    let mut at = fresh;
    if finer.is_ok() {
        let count = model::count(n, target);
        at = model::cursor(n, target, random.of(&[0, 1.min(count), count - 1, count]));
        if random.below(2) == 0 {
            at = model::cursor(n, target, random.below(count + 1));
        }
    }
    for _ in 0..random.of(&[0, 0, 0, 1, 1, 2]) {
        let word = random.below(5) as usize;
        at[word] = match random.below(5) {
            0 => at[word].wrapping_add(random.of(&[1, u64::MAX, 1 << 32, 1 << 8])),
            1 => at[word] ^ 1 << random.below(64),
            2 => random.of(&[0, 1, 15, 16, u64::MAX, 1 << 63, u32::MAX as u64, 1 << 32]),
            3 => random.below(17),
            _ => random.next() >> random.below(64),
        };
    }
    let (right, moved) = match model::made(at) {
        None => (Err(11), at),
        Some(_) if at[4] == 0 => (Ok([0; 3]), at),
        Some((n, calls)) => (Ok([at[2], 0, 0]), model::cursor(n, at[1], calls + 1)),
    };
    for upper in [true, false] {
        let (a, kept) = lent.hand(upper, &before, &fresh, |cursor| unsafe { c::rg_cursor(n, target | random.next() << 32, cursor) });
        if !kept || !same(a.refusal, a.zero, [0; 3], finer.map(|()| [0; 3])) {
            return Err(format!("cursor {n:016x} {target} upper {upper}: refusal {}, kept {kept}; the model {finer:?}", a.refusal));
        }
        let (a, kept) = lent.hand(upper, &at, &moved, |cursor| unsafe { c::rg_next(cursor) });
        if !kept || !same(a.refusal, a.zero, [a.value, 0, 0], right) {
            return Err(format!("next {at:x?} upper {upper}: refusal {}, value {:016x}, kept {kept}; the model {right:x?}", a.refusal, a.value));
        }
    }
    Ok(4)
}

fn calls(count: u64, seed: u64) -> Result<String, String> {
    let (mut random, mut lent, mut done) = (Random::new(seed, "abuse"), Lent::new(), 0);
    let mut three = [Lent::new(), Lent::new(), Lent::new()];
    while done < count {
        for e in ENTRIES {
            numbers(&mut random, e)?;
        }
        done += ENTRIES.len() as u64 + cursors(&mut random, &mut lent)?;
        if random.below(16) == 0 {
            let short = random.below(3) == 0;
            done += listings(&mut random, &mut lent, short)?;
            done += blocks(&mut random, &mut three)?;
        }
        if random.below(1000) == 0 && !(lent.untouched() && three.iter().all(Lent::untouched)) {
            return Err("a word far from every buffer was written".into());
        }
    }
    if !(lent.untouched() && three.iter().all(Lent::untouched)) {
        return Err("a word far from every buffer was written".into());
    }
    Ok(format!("abuse: seed {seed}, {done} calls of {} exports, each answer the model's, nothing else written", ENTRIES.len() + 7))
}

fn run() -> Result<(), String> {
    let (mut count, mut lines, mut seed) = (0, 0, 1);
    let (mut program, mut stored) = ("target/bin/hexline".to_string(), "crates/hexline/stdin".to_string());
    let mut words = std::env::args().skip(1);
    while let Some(word) = words.next() {
        let value = words.next().ok_or(format!("{word} needs a value"))?;
        let number = || value.parse::<u64>().map_err(|e| format!("{word} {value}: {e}"));
        match &*word {
            "--calls" => count = number()?,
            "--lines" => lines = number()?,
            "--seed" => seed = number()?,
            "--program" => program = value,
            "--stored" => stored = value,
            _ => return Err(format!("no option {word}")),
        }
    }
    if count > 0 {
        println!("{}", calls(count, seed)?);
    }
    if lines > 0 {
        println!("{}", lines::fuzz(&program, &stored, lines, seed)?);
    }
    Ok(())
}

fn main() -> ExitCode {
    match run() {
        Ok(()) => ExitCode::SUCCESS,
        Err(what) => {
            println!("{what}");
            ExitCode::FAILURE
        }
    }
}
