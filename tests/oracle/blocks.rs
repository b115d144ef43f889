//! Entry `blocks`: check, ancestor and position over a block. The Rust has none: each element is held against what the single entry's
//! comparison says of it, refusal 10 against the lengths, and what is not written against what was there.
use crate::children::{ANCESTOR, Borne, NO_RESOLUTIONS, Outcome, POSITION, some_cell};
use crate::frame::{Entry, Random, Tally};
use crate::model::{self, REFUSALS};
use crate::{check, rg};

pub const ENTRY: Entry = Entry { name: "blocks", compare, sample: |_, _| Vec::new() };

struct Over {
    name: &'static str,
    /// The other argument.
    with: fn(&mut Random) -> u64,
    ours: fn(&[u64], u64, rg::Two) -> rg::Number,
    judged: fn(u64, u64) -> (Outcome<u64>, Borne),
}

const OVER: [Over; 3] = [
    Over { name: "check", with: |_| 0, ours: |block, _, two| rg::check_block(block, two), judged: |n, _| check::judged(n) },
    Over {
        name: "ancestor",
        with: |random| if random.below(8) == 0 { random.of(&NO_RESOLUTIONS) } else { random.below(16) },
        ours: |block, r, two| rg::ancestor_block(block, r as u32, two),
        judged: |n, r| ANCESTOR.judged([n, r, 0]),
    },
    Over {
        name: "position",
        with: some_cell,
        ours: |block, first, two| rg::position_block(first, block, two),
        judged: |n, first| POSITION.judged([first, n, 0]),
    },
];

/// A number for a block: half of them under `with`, where that is a cell.
fn some_number(random: &mut Random, with: u64) -> u64 {
    if model::check(with) != 0 || random.below(2) == 0 {
        return some_cell(random);
    }
    let target = model::resolution(with) + random.below(16 - model::resolution(with));
    let n = model::child_at(with, target, random.below(model::count(with, target)));
    if random.below(8) == 0 { n ^ (1 << random.below(64)) } else { n }
}

/// Elements that are told apart, and two more that are not lent.
fn values(room: usize) -> Vec<u64> {
    (0..room as u64 + 2).map(|at| 0xeeee_eeee_eeee_eeee ^ at << 8).collect()
}
fn refusals(room: usize) -> Vec<u16> {
    (0..room + 2).map(|at| 0xe000 ^ at as u16).collect()
}

fn one(over: &Over, block: &[u64], with: u64, v: usize, r: usize, tally: &mut Tally) {
    let (mut after, mut after_too) = (values(v), refusals(r));
    let ours = (over.ours)(block, with, (&mut after[..v], &mut after_too[..r]));
    let (mut wanted, mut wanted_too) = (values(v), refusals(r));
    let right = if v < block.len() || r < block.len() { (10, 0, 0) } else { (0, 0, block.len() as u64) };
    let mut unborne = None;
    if right.0 == 0 {
        for (at, &n) in block.iter().enumerate() {
            let (right, borne) = (over.judged)(n, with);
            (wanted[at], wanted_too[at]) = (right.unwrap_or(0), right.err().unwrap_or(0));
            tally.compared(REFUSALS[wanted_too[at] as usize]);
            match borne {
                Ok(name) => name.into_iter().for_each(|name| tally.intended(name)),
                Err(_) => unborne = Some(at),
            }
        }
    } else {
        tally.compared(REFUSALS[10]);
    }
    if (ours.refusal, ours.zero, ours.value) != right || after != wanted || after_too != wanted_too || unborne.is_some() {
        tally.unexplained(|| {
            let at = (0..v).find(|&at| after[at] != wanted[at]).or((0..r).find(|&at| after_too[at] != wanted_too[at]));
            format!("{} over {} with {with:x}, room {v} and {r}: ours refusal {}, zero {}, value {}, expected {right:?}, first other element {at:?}, not as the Rust {unborne:?}",
                over.name, block.len(), ours.refusal, ours.zero, ours.value)
        });
    }
}

/// Room that is exact, longer, and one short in either.
fn each(over: &Over, length: usize, random: &mut Random, tally: &mut Tally) {
    let with = (over.with)(random);
    let block: Vec<u64> = (0..length).map(|_| some_number(random, with)).collect();
    one(over, &block, with, length, length + random.below(3) as usize, tally);
    if length > 0 {
        one(over, &block, with, length - 1, length, tally);
        one(over, &block, with, length + 3, length - 1, tally);
    }
}

fn compare(random: &mut Random, count: u64, tally: &mut Tally) {
    let end = tally.compared + count;
    for over in &OVER {
        [0, 1, 8192, 8193].into_iter().for_each(|length| each(over, length, random, tally));
    }
    while tally.compared < end {
        for over in &OVER {
            let length = if random.below(64) == 0 { random.below(8194) } else { random.below(40) };
            each(over, length as usize, random, tally);
        }
    }
    assert_eq!(tally.answers.len(), 12, "an answer was never met");
}
