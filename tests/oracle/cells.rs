//! Cells to ask with, and damaged copies of them. Built by place value from (base cell, digits).
use crate::frame::Random;
use crate::model::{PENTAGONS, base_cell, digit, resolution};

pub fn pack(base: u64, digits: &[u64]) -> u64 {
    let resolution = digits.len() as u64;
    let digits = (0..15).fold(0, |n, at| n * 8 + digits.get(at).unwrap_or(&7));
    (((1 << 7) + resolution) * 128 + base) * 8u64.pow(15) + digits
}

/// Every valid cell of a resolution.
pub fn all(resolution: u32) -> Vec<u64> {
    let mut cells = Vec::new();
    for base in 0..122 {
        for string in 0..7u64.pow(resolution) {
            let digits: Vec<u64> = (0..resolution).rev().map(|place| string / 7u64.pow(place) % 7).collect();
            let first = digits.iter().find(|&&d| d != 0);
            if !(PENTAGONS.contains(&base) && first == Some(&1)) {
                cells.push(pack(base, &digits));
            }
        }
    }
    assert_eq!(cells.len() as u64, 2 + 120 * 7u64.pow(resolution));
    cells
}

/// A valid cell: half of them in pentagon base cells, half with a run of leading zeros.
pub fn random(random: &mut Random) -> u64 {
    let base = if random.below(2) == 0 { random.of(&PENTAGONS) } else { random.below(122) };
    let resolution = random.below(16);
    let zeros = if random.below(2) == 0 { random.below(resolution + 1) } else { 0 };
    let mut digits: Vec<u64> = (0..resolution).map(|at| if at < zeros { 0 } else { random.below(7) }).collect();
    if PENTAGONS.contains(&base) {
        if let Some(first) = digits.iter_mut().find(|d| **d != 0) {
            if *first == 1 {
                *first = 2 + random.below(5);
            }
        }
    }
    pack(base, &digits)
}

fn with_bits(n: u64, low: u64, width: u64, value: u64) -> u64 {
    let mask = ((1 << width) - 1) << low;
    (n & !mask) | ((value << low) & mask)
}

fn with_digit(n: u64, r: u64, value: u64) -> u64 {
    with_bits(n, 3 * (15 - r), 3, value)
}

/// Two fields of a width change places.
fn swap(n: u64, low: u64, other: u64, width: u64) -> u64 {
    let field = |at: u64| (n >> at) & ((1 << width) - 1);
    with_bits(with_bits(n, low, width, field(other)), other, width, field(low))
}

/// One damage at random, of every kind. Some copies are valid again.
fn damage(n: u64, random: &mut Random) -> u64 {
    let r = 1 + random.below(15);
    match random.below(14) {
        0 => n ^ (1 << random.below(64)),
        1 => with_bits(n, 59, 4, random.next()),                   // mode
        2 => with_bits(n, 56, 3, random.next()),                   // reserved
        3 => with_bits(n, 52, 4, random.next()),                   // resolution
        4 => with_bits(n, 45, 7, random.next()),                   // base cell
        5 => with_bits(n, 45, 7, 120 + random.below(8)),           // base cell about the border
        6 => with_bits(n, 45, 7, random.of(&PENTAGONS)),
        7 => with_digit(n, r, 7),
        8 => with_digit(n, r, random.below(7)),
        9 => swap(n, 3 * (15 - r), 3 * random.below(15), 3),       // two digits
        10 => swap(n, 52, 59, 4),                                  // resolution and mode
        11 => swap(n, 45, 38, 7),                                  // base cell and leading digits
        12 => swap(n, 45, 52, 4),                                  // base cell and resolution
        _ => (r + 1..=15).fold(with_digit(n, r, random.below(8)), |n, r| with_digit(n, r, 7)),
    }
}

/// Damaged copies: every bit flipped, every value of the small fields, every place set to 7 and to
/// something else, fields swapped, digit 1 after zeros at every place of a pentagon base cell, and
/// up to four damages at once.
pub fn damaged(n: u64, random: &mut Random, mut each: impl FnMut(u64)) {
    (0..64).for_each(|bit| each(n ^ (1 << bit)));
    for value in 0..16 {
        each(with_bits(n, 59, 4, value));
        each(with_bits(n, 52, 4, value));
        each(with_bits(n, 56, 3, value));
    }
    for r in 1..=15 {
        each(with_digit(n, r, 7));
        each(with_digit(n, r, random.below(7)));
        let pentagon = with_bits(n, 45, 7, random.of(&PENTAGONS));
        each(with_digit(pentagon, r, 1));
        each((1..r).fold(with_digit(pentagon, r, 1), |n, r| with_digit(n, r, 0)));
    }
    for at in [59, 52, 45, 38] {
        for other in [59, 52, 45, 38] {
            each(swap(n, at, other, if at.max(other) == 59 { 4 } else { 7 }));
        }
    }
    for number in [!n, n.swap_bytes(), n.reverse_bits(), n << 1, n >> 1, n << 3, n >> 3, n.wrapping_neg(), n + 1, n - 1] {
        each(number);
    }
    for damages in [2, 2, 2, 2, 2, 2, 3, 3, 3, 4, 4, 4] {
        each((0..damages).fold(n, |n, _| damage(n, random)));
    }
}

/// A random number, mended field by field so far as chance has it: without that hardly one in a
/// hundred would get past the first three refusals.
pub fn stray(random: &mut Random) -> u64 {
    let mut n = random.next();
    let mended = random.below(6);
    if mended > 0 {
        n = with_bits(n, 56, 8, 8);
    }
    if mended > 1 {
        n = with_bits(n, 45, 7, if mended % 2 == 0 { base_cell(n) % 122 } else { random.of(&PENTAGONS) });
    }
    if mended > 2 {
        n = (1..=resolution(n)).fold(n, |n, r| with_digit(n, r, digit(n, r) % 7));
    }
    if mended > 3 {
        n = (resolution(n) + 1..=15).fold(n, |n, r| with_digit(n, r, 7));
    }
    n
}

/// 0, the greatest number, one bit, one run of bits, and the corners of every field.
pub fn corners() -> Vec<u64> {
    let mut list = vec![0, u64::MAX];
    for low in 0..64 {
        for high in low..64 {
            let run = (u64::MAX >> (63 - (high - low))) << low;
            list.extend([run, !run]);
        }
    }
    for head in [0x00, 0x07, 0x08, 0x09, 0x0f, 0x10, 0x40, 0x78, 0x80, 0x88, 0x8f, 0xff] {
        for resolution in 0..16 {
            for base in [0, 3, 4, 5, 117, 118, 121, 122, 127] {
                for used in 0..8 {
                    for unused in [0, 1, 6, 7] {
                        let digits = (0..15).fold(0, |n, at| n * 8 + if at < resolution { used } else { unused });
                        list.push(((head * 16 + resolution) * 128 + base) * 8u64.pow(15) + digits);
                    }
                }
            }
        }
    }
    list
}
