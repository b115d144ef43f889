//! hexline under random and damaged lines. `answer` reads a line by design/requests.md alone.
use crate::entries::{self, ENTRIES, Says, Takes};
use crate::frame::Random;
use crate::model;
use std::collections::HashMap;
use std::io::{Read, Write};
use std::process::{Command, Stdio};
use std::sync::mpsc::channel;
use std::time::Duration;

fn hexadecimal(word: &[u8]) -> Option<u64> {
    let digit = |b: &u8| b.is_ascii_digit() || (b'a'..=b'f').contains(b);
    let fits = (1..=16).contains(&word.len()) && word.iter().all(digit);
    fits.then(|| u64::from_str_radix(std::str::from_utf8(word).expect("ASCII"), 16).expect("16 digits"))
}
fn decimal(word: &[u8], greatest: u64) -> Option<u64> {
    let fits = !word.is_empty() && word.iter().all(u8::is_ascii_digit);
    let value = fits.then(|| word.iter().fold(0u128, |n, b| n.saturating_mul(10).saturating_add((b - b'0').into())))?;
    u64::try_from(value).ok().filter(|n| *n <= greatest)
}
fn signed(word: &[u8]) -> Option<u64> {
    match word.strip_prefix(b"-") {
        Some(digits) => decimal(digits, 1 << 31).map(u64::wrapping_neg),
        None => decimal(word, i32::MAX as u64),
    }
}
fn taken(takes: Takes, word: &[u8]) -> Option<u64> {
    match takes {
        Takes::Cell => hexadecimal(word),
        Takes::Position => decimal(word, u64::MAX),
        Takes::Coordinate => signed(word),
        _ => decimal(word, u32::MAX.into()),
    }
}

fn cells(list: &[u64]) -> String {
    list.iter().map(|n| format!("{n:016x}")).collect::<Vec<_>>().join(" ")
}
fn cursor(words: model::Words) -> String {
    let [own, target, number, skip, left] = words;
    format!("{own} {target} {number:016x} {} {left}", skip as i64)
}
fn said(says: Says, answer: entries::Answer) -> String {
    let v = match answer {
        Err(refusal) => return format!("refusal {refusal}"),
        Ok(v) => v,
    };
    let [i, j, k] = v.map(|n| n as i64);
    match says {
        Says::Okay => "ok".into(),
        Says::Decimal => format!("{}", v[0]),
        Says::Hexadecimal => format!("{:016x}", v[0]),
        Says::Truth => if i == 1 { "yes" } else { "no" }.into(),
        Says::Point => format!("{i} {j} {k}"),
        Says::Pair => format!("{i} {j}"),
        Says::Walk => format!("{:016x} {j}", v[0]),
        Says::Stepped if i == 0 => format!("Inside {:016x} {j}", v[2]),
        Says::Stepped => format!("Leaves {j}"),
    }
}

#[derive(Default)]
pub struct Reader(HashMap<(u64, u64), Vec<u64>>);

impl Reader {
    fn listing(&mut self, n: u64, target: u64, room: u64) -> Result<&[u64], u16> {
        if model::count(n, target) > room {
            return Err(10);
        }
        if self.0.len() > 10_000 {
            self.0.clear();
        }
        Ok(self.0.entry((n, target)).or_insert_with(|| model::descendants(n, target)))
    }
    /// The answer and every element of the room.
    fn in_room(&mut self, n: u64, target: u64, refused: Result<(), u16>, room: u64) -> String {
        let untouched = 0xeeee_eeee_eeee_eeee;
        match refused.and_then(|()| self.listing(n, target, room)) {
            Ok(list) => {
                let all: Vec<u64> = (0..room as usize).map(|at| *list.get(at).unwrap_or(&untouched)).collect();
                format!("{} : {}", list.len(), cells(&all))
            }
            Err(refusal) => format!("refusal {refusal} : {}", cells(&vec![untouched; room as usize])),
        }
    }
    fn fit(&mut self, line: &[u8]) -> Option<String> {
        let words: Vec<&[u8]> = line.split(|b| *b == b' ').collect();
        let small = |word: &[u8]| decimal(word, u32::MAX.into());
        match *words {
            [b"list", n, target] => {
                let (n, target) = (hexadecimal(n)?, small(target)?);
                return Some(match entries::finer(n, target).and_then(|()| self.listing(n, target, 8192)) {
                    Ok(list) => cells(list),
                    Err(refusal) => format!("refusal {refusal}"),
                });
            }
            [b"list", n, target, room] => {
                let (n, target, room) = (hexadecimal(n)?, small(target)?, decimal(room, 8192)?);
                return Some(self.in_room(n, target, entries::finer(n, target), room));
            }
            [b"short", n, room] => {
                let (n, room) = (hexadecimal(n)?, decimal(room, 8192)?);
                let target = model::resolution(n) + 1;
                return Some(self.in_room(n, target, entries::finer(n, target), room));
            }
            [b"cursor", n, target] => {
                let (n, target) = (hexadecimal(n)?, small(target)?);
                return Some(match entries::finer(n, target) {
                    Ok(()) => cursor(model::cursor(n, target, 0)),
                    Err(refusal) => format!("refusal {refusal}"),
                });
            }
            [b"next", own, target, number, skip, left] => {
                let at = [small(own)?, small(target)?, hexadecimal(number)?, signed(skip)?, decimal(left, u64::MAX)?];
                return Some(match model::made(at) {
                    None => format!("refusal 11 : {}", cursor(at)),
                    Some(_) if at[4] == 0 => format!("Done : {}", cursor(at)),
                    Some((n, calls)) => format!("{:016x} : {}", at[2], cursor(model::cursor(n, at[1], calls + 1))),
                });
            }
            _ => {}
        }
        ENTRIES.iter().find_map(|e| {
            let name: Vec<&[u8]> = e.line.as_bytes().split(|b| *b == b' ').collect();
            let rest = words.strip_prefix(&*name).filter(|rest| rest.len() == e.takes.len())?;
            let mut args = [0; 6];
            for (at, (takes, word)) in e.takes.iter().zip(rest).enumerate() {
                args[at] = taken(*takes, word)?;
            }
            Some(said(e.says, (e.model)(&args)))
        })
    }
    fn answer(&mut self, line: &[u8]) -> String {
        self.fit(line).unwrap_or_else(|| "input".into())
    }
}

/// One word dropped, doubled, moved or exchanged.
fn reworded(random: &mut Random, line: &[u8]) -> Vec<u8> {
    let limits = [
        "100000000", "100000001", "-100000000", "-100000001", "2147483647", "2147483648", "-2147483648", "-2147483649", "4294967295", "4294967296",
        "18446744073709551615", "18446744073709551616", "8192", "8193", "-0", "-", "", "ccw", "cw",
    ];
    let mut words: Vec<Vec<u8>> = line.split(|b| *b == b' ').map(<[u8]>::to_vec).collect();
    let (at, other) = (random.below(words.len() as u64) as usize, random.below(words.len() as u64) as usize);
    let n = random.next() >> random.below(64);
    match random.below(8) {
        0 => drop(words.remove(at)),
        1 => words.insert(at, words[other].clone()),
        2 => words.swap(at, other),
        3 => words[at] = random.below(20).to_string().into(),
        4 => words[at] = format!("{n:x}").into(),
        5 => words[at] = (n as i64 >> random.of(&[0, 32])).to_string().into(),
        6 => words[at] = random.of(&limits).into(),
        _ => {
            let most = if random.below(256) == 0 { 9_000 } else { 20 };
            let zeros = random.below(most);
            words[at].splice(0..0, std::iter::repeat_n(b'0', zeros as usize));
        }
    }
    words.join(&b' ')
}

/// A stored line with up to three damages, or bytes at random.
fn damaged(random: &mut Random, stored: &[&[u8]]) -> Vec<u8> {
    if random.below(16) == 0 {
        let most = if random.below(64) == 0 { 9_000 } else { 60 };
        let length = random.below(most);
        let (low, many) = random.of(&[(0, 256), (32, 95), (48, 10), (97, 6)]);
        return (0..length).map(|_| (low + random.below(many)) as u8).collect();
    }
    let mut line = random.of(stored).to_vec();
    for _ in 0..random.below(4) {
        let byte = random.below(line.len() as u64 + 1) as usize;
        match random.below(12) {
            0 if byte < line.len() => line[byte] ^= 1 << random.below(8),
            1 if byte < line.len() => line[byte] = random.of(b"\0\t\r\n\x1b\x7f\xff -+0179afx"),
            2 if byte < line.len() => drop(line.remove(byte)),
            3 => line.insert(byte, random.of(b"0179af -+\t\0\r\n")),
            4 => line.truncate(byte),
            _ => line = reworded(random, &line),
        }
    }
    line
}

/// What the program answers to an input. A minute without an end is a hang.
fn put(program: &str, input: &[u8]) -> Result<Vec<u8>, String> {
    let mut child = Command::new(program).stdin(Stdio::piped()).stdout(Stdio::piped()).spawn().map_err(|e| format!("{program}: {e}"))?;
    let (mut to, mut from) = (child.stdin.take().expect("a pipe"), child.stdout.take().expect("a pipe"));
    let (tell, told) = channel();
    let input = input.to_vec();
    std::thread::spawn(move || to.write_all(&input));
    std::thread::spawn(move || {
        let mut output = Vec::new();
        let read = from.read_to_end(&mut output);
        tell.send(read.map(|_| output))
    });
    let output = told.recv_timeout(Duration::from_secs(60));
    if output.is_err() {
        let _ = child.kill();
    }
    let status = child.wait().map_err(|e| e.to_string())?;
    let output = output.map_err(|_| "hangs")?.map_err(|e| e.to_string())?;
    if status.success() { Ok(output) } else { Err(format!("ended with {status}")) }
}

/// The lines of a text; the last may lack its end.
fn lines(text: &[u8]) -> Vec<&[u8]> {
    let mut all: Vec<&[u8]> = text.split(|b| *b == b'\n').collect();
    if all.last().is_some_and(|l| l.is_empty()) {
        all.pop();
    }
    all
}

pub fn fuzz(program: &str, stored: &str, count: u64, seed: u64) -> Result<String, String> {
    let text = std::fs::read(stored).map_err(|e| format!("{stored}: {e}"))?;
    let (stored, mut random, mut reader) = (lines(&text), Random::new(seed, "fuzz"), Reader::default());
    let (mut done, mut fit, mut refused) = (0, 0, 0);
    while done < count {
        let mut input = Vec::new();
        for _ in 0..(count - done).min(10_000) {
            input.extend(damaged(&mut random, &stored));
            input.push(b'\n');
        }
        if random.below(2) == 0 {
            input.pop();
        }
        let output = put(program, &input).map_err(|e| format!("fuzz: {program} {e}, seed {seed}, after line {done}"))?;
        let (asked, answers) = (lines(&input), lines(&output));
        for (at, line) in asked.iter().enumerate() {
            let right = reader.answer(line);
            let found = answers.get(at).map_or("no answer".into(), |a| String::from_utf8_lossy(a));
            if found != right {
                return Err(format!("fuzz: seed {seed}, line {}: '{}': expected '{right}', found '{found}'", done + at as u64, line.escape_ascii()));
            }
            fit += u64::from(right != "input");
            refused += u64::from(right.starts_with("refusal"));
        }
        if asked.len() != answers.len() || !output.ends_with(b"\n") {
            return Err(format!("fuzz: seed {seed}: {} lines, {} answers", asked.len(), answers.len()));
        }
        done += asked.len() as u64;
    }
    Ok(format!("fuzz: seed {seed}, {done} lines, as many answers, each the model's: {fit} requests, {refused} of them refused"))
}
