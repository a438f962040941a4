//! Counts at the places of counters.txt, in a build with the feature `counters`.

use std::sync::atomic::{AtomicU64, Ordering::Relaxed};

include!(concat!(env!("OUT_DIR"), "/counted.rs"));

static COUNTS: [[AtomicU64; 2]; PLACES.len()] =
    [const { [const { AtomicU64::new(0) }; 2] }; PLACES.len()];

pub fn hit(place: usize) {
    COUNTS[place][0].fetch_add(1, Relaxed);
}

pub fn cond(place: usize, holds: bool) -> bool {
    COUNTS[place][usize::from(!holds)].fetch_add(1, Relaxed);
    holds
}

pub trait Maybe {
    fn there(&self) -> bool;
}

impl<T> Maybe for Option<T> {
    fn there(&self) -> bool {
        self.is_some()
    }
}

impl<T, E> Maybe for Result<T, E> {
    fn there(&self) -> bool {
        self.is_ok()
    }
}

pub fn some<M: Maybe>(place: usize, value: M) -> M {
    cond(place, value.there());
    value
}

/// How often a place was reached: for `hit` the first figure alone, for `cond` true and false,
/// for `some` there and not there.
pub fn count(place: usize) -> (u64, u64) {
    let [first, second] = &COUNTS[place];
    (first.load(Relaxed), second.load(Relaxed))
}
