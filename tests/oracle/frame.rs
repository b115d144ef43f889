//! What every comparison needs: random numbers that a seed fixes, and a tally.
use std::collections::BTreeMap;
use std::sync::atomic::{AtomicU64, Ordering::Relaxed};

/// Requests compared so far, over all entries. One thread counts.
pub static DONE: AtomicU64 = AtomicU64::new(0);

/// One entry of the library. `compare` puts to both sides what can be listed whole and `count`
/// random requests; `sample` gives `count` lines of the line program with the answers that the
/// Rust gives, and does not ask our library.
pub struct Entry {
    pub name: &'static str,
    pub compare: fn(&mut Random, u64, &mut Tally),
    pub sample: fn(&mut Random, u64) -> Vec<(String, String)>,
}

/// SplitMix64.
pub struct Random(u64);

impl Random {
    /// Each entry has a run of its own, whatever other entries are asked for.
    pub fn new(seed: u64, entry: &str) -> Self {
        Self(entry.bytes().fold(seed, |s, b| Self(s ^ u64::from(b)).next()))
    }
    pub fn next(&mut self) -> u64 {
        self.0 = self.0.wrapping_add(0x9e37_79b9_7f4a_7c15);
        let mut z = self.0;
        z = (z ^ (z >> 30)).wrapping_mul(0xbf58_476d_1ce4_e5b9);
        z = (z ^ (z >> 27)).wrapping_mul(0x94d0_49bb_1331_11eb);
        z ^ (z >> 31)
    }
    /// 0 to n - 1.
    pub fn below(&mut self, n: u64) -> u64 {
        self.next() % n
    }
    /// One of a list.
    pub fn of<T: Copy>(&mut self, list: &[T]) -> T {
        list[self.below(list.len() as u64) as usize]
    }
}

#[derive(Default)]
pub struct Tally {
    pub compared: u64,
    pub unexplained: u64,
    pub intended: BTreeMap<&'static str, u64>,
    pub answers: BTreeMap<&'static str, u64>,
}

impl Tally {
    /// One request compared; `kind` names its right answer, so that one can see what was met.
    pub fn compared(&mut self, kind: &'static str) {
        self.compared += 1;
        DONE.store(DONE.load(Relaxed) + 1, Relaxed);
        *self.answers.entry(kind).or_default() += 1;
    }
    /// A difference that is meant (docs/DIFFERENCES.md).
    pub fn intended(&mut self, name: &'static str) {
        *self.intended.entry(name).or_default() += 1;
    }
    /// At most one for a request. The first ten are printed.
    pub fn unexplained(&mut self, what: impl FnOnce() -> String) {
        self.unexplained += 1;
        if self.unexplained <= 10 {
            println!("unexplained: {}", what());
        }
    }
}
