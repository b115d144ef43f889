//! Entry `check`. The answer must be that of document 01's table; it is valid exactly where the Rust
//! answers Ok; and the Rust's reason must be ours, or one that is true too and that the Rust looks
//! for earlier.
use crate::children::Borne;
use crate::frame::{Entry, Random, Tally};
use crate::{cells, model, rg};
use h3o::CellIndex;

pub const ENTRY: Entry = Entry { name: "check", compare, sample };

/// The Rust's reason as refusal numbers (it has one reason for 1 and 3), empty where it answers Ok.
fn reasons(n: u64) -> &'static [u16] {
    match CellIndex::try_from(n).map_err(|e| e.reason) {
        Ok(_) => &[],
        Err("tainted reserved bits") => &[1, 3],
        Err("invalid index mode") => &[2],
        Err("invalid base cell") => &[4],
        Err("invalid unused direction pattern") => &[6],
        Err("unexpected unused direction") => &[5],
        Err("pentagonal cell index with a deleted subsequence") => &[7],
        Err(other) => panic!("{n:016x}: the Rust has a new reason: {other}"),
    }
}

enum Rust {
    Agrees,
    /// An intended difference.
    Earlier(&'static str),
    Differs,
}

/// Does the Rust bear out that document 01's table has `refusal` for this number?
fn rust(n: u64, refusal: u16) -> Rust {
    let reasons = reasons(n);
    if reasons.is_empty() || refusal == 0 {
        return if reasons.is_empty() && refusal == 0 { Rust::Agrees } else { Rust::Differs };
    }
    if reasons.contains(&refusal) {
        return Rust::Agrees;
    }
    match (refusal, reasons) {
        (2, [1, 3]) if model::holds(3, n) => Rust::Earlier("reason-order-3-before-2"),
        (5, [6]) if model::holds(6, n) => Rust::Earlier("reason-order-6-before-5"),
        _ => Rust::Differs,
    }
}

/// The refusal, or the number itself, and whether the Rust bears it out.
pub fn judged(n: u64) -> (Result<u64, u16>, Borne) {
    let refusal = model::check(n);
    let borne = match rust(n, refusal) {
        Rust::Agrees => Ok(None),
        Rust::Earlier(name) => Ok(Some(name)),
        Rust::Differs => Err(None),
    };
    (if refusal == 0 { Ok(n) } else { Err(refusal) }, borne)
}

fn one(n: u64, tally: &mut Tally) {
    let wanted = model::check(n);
    let ours = rg::check(n);
    tally.compared(model::REFUSALS[wanted as usize]);
    let rust = rust(n, wanted);
    if let Rust::Earlier(name) = rust {
        tally.intended(name);
    }
    if ours.refusal != wanted || ours.zero != 0 || matches!(rust, Rust::Differs) {
        tally.unexplained(|| {
            let reason = CellIndex::try_from(n).map_or_else(|e| e.reason, |_| "Ok");
            format!("check {n:016x}: ours {} (zero {}), document 01 {wanted}, Rust: {reason}", ours.refusal, ours.zero)
        });
    }
}

fn compare(random: &mut Random, count: u64, tally: &mut Tally) {
    cells::corners().into_iter().for_each(|n| one(n, tally));
    for n in (0..=3).flat_map(cells::all) {
        assert_eq!(model::check(n), 0, "{n:016x}");
        one(n, tally);
        cells::damaged(n, random, |n| one(n, tally));
    }
    let end = tally.compared + count;
    while tally.compared < end {
        let n = cells::random(random);
        assert_eq!(model::check(n), 0, "{n:016x}");
        one(n, tally);
        cells::damaged(n, random, |n| one(n, tally));
        for _ in 0..60 {
            one(cells::stray(random), tally);
            one(random.next(), tally);
        }
    }
    assert_eq!(tally.answers.len(), 8, "an answer was never met");
}

/// Document 01's examples 1 to 6, then each answer as often as the others.
fn sample(random: &mut Random, count: u64) -> Vec<(String, String)> {
    let mut numbers = vec![0, 0x080f_3fff_ffff_ffff, 0x080f_5fff_ffff_ffff, 0x0810_1fff_ffff_ffff, 0x0800_1fff_ffff_fffe, 0x0810_87ff_ffff_ffff];
    while (numbers.len() as u64) < count {
        let wanted = numbers.len() as u16 % 8;
        let mut family = vec![cells::random(random), cells::stray(random), random.next()];
        cells::damaged(family[0], random, |n| family.push(n));
        family.retain(|&n| model::check(n) == wanted);
        if !family.is_empty() {
            numbers.push(random.of(&family));
        }
    }
    numbers.truncate(count as usize);
    let line = |n: u64| {
        let refusal = model::check(n);
        assert!(!matches!(rust(n, refusal), Rust::Differs), "check {n:016x}: the Rust does not bear out {refusal}");
        let request = if random.below(4) == 0 { format!("check {n:016x}") } else { format!("check {n:x}") };
        (request, if refusal == 0 { "ok".into() } else { format!("refusal {refusal}") })
    };
    numbers.into_iter().map(line).collect()
}
