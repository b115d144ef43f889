//! What is asked: cells spread evenly over base cells, resolutions and digits.
use crate::cells::pack;
use crate::frame::Random;
use crate::model;

/// How many inputs a row has: with a few thousand the branch predictor learns them.
pub const MANY: usize = 65_536;

pub fn many<I>(mut one: impl FnMut() -> I) -> Vec<I> {
    (0..MANY).map(|_| one()).collect()
}

/// A cell of a resolution.
pub fn cell_at(random: &mut Random, resolution: u64) -> u64 {
    loop {
        let base = random.below(122);
        let digits: Vec<u64> = (0..resolution).map(|_| random.below(7)).collect();
        let n = pack(base, &digits);
        if model::check(n) == 0 {
            return n;
        }
    }
}
pub fn cell(random: &mut Random) -> u64 {
    let resolution = random.below(16);
    cell_at(random, resolution)
}
/// A cell that is no pentagon.
pub fn hexagon_at(random: &mut Random, resolution: u64) -> u64 {
    loop {
        let n = cell_at(random, resolution);
        if !model::is_pentagon(n) {
            return n;
        }
    }
}
pub fn pentagon_at(random: &mut Random, resolution: u64) -> u64 {
    pack(random.of(&model::PENTAGONS), &vec![0; resolution as usize])
}
/// A number that is no cell for one or two bits, or one digit, that were changed.
pub fn damaged(random: &mut Random) -> u64 {
    loop {
        let n = cell(random);
        let digit = 3 * random.below(15);
        let n = match random.below(3) {
            0 => n ^ (1 << random.below(64)),
            1 => n ^ (1 << random.below(64)) ^ (1 << random.below(64)),
            _ => n & !(7 << digit) | random.below(8) << digit,
        };
        if model::check(n) != 0 {
            return n;
        }
    }
}
/// A cell, a finer resolution and a position below it.
pub fn child(random: &mut Random, cell: u64) -> (u64, u32, u64) {
    let own = model::resolution(cell);
    let target = own + random.below(16 - own);
    (cell, target as u32, random.below(model::count(cell, target)))
}
pub fn point(random: &mut Random) -> [i32; 3] {
    std::array::from_fn(|_| random.below(200_000_001) as i32 - 100_000_000)
}
