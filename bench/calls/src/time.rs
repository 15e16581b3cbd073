//! Batches of a call over eight states, which are put back outside the time that is taken.
use crate::drive::{Lent as Space, Window};
use crate::rows::Row;
use crate::scene::{window, Call, BLOCK, ROOM};
use crate::side::Side;
use std::hint::black_box;
use std::time::Instant;

/// States of a batch: few enough to stay in the nearest cache.
pub const STATES: usize = 8;

/// The bytes lent to every call.
pub struct Lent {
    pub window: Vec<u8>,
    pub reply: Vec<u8>,
}

impl Lent {
    pub fn new() -> Lent {
        Lent { window: window(), reply: vec![0x5A; ROOM] }
    }
}

/// Every state does the call so many times; the sum of the answers.
#[inline(never)]
pub fn batch<S: Side>(states: &mut [S], call: &Call, rounds: usize, lent: &mut Lent) -> u64 {
    let mut sum = 0;
    match call {
        Call::Frame { frame, start, room } => {
            let (window, reply) = (&mut lent.window[..], &mut lent.reply[..*room]);
            each(states, rounds, |s, _| {
                sum += s.frame(black_box(frame), black_box(Space { start: *start, bytes: &mut *window }), black_box(&mut *reply))
            });
        }
        Call::Data(frames) => {
            let (window, reply) = (&mut lent.window[..], &mut lent.reply[..]);
            each(states, rounds, |s, i| {
                sum +=
                    s.frame(black_box(&frames[i]), black_box(Space { start: BLOCK, bytes: &mut *window }), black_box(&mut *reply))
            });
        }
        Call::Next { address, ox_id, room } => {
            let window = Window { start: BLOCK, bytes: &lent.window };
            let reply = &mut lent.reply[..*room];
            each(states, rounds, |s, _| sum += s.next(*address, *ox_id, black_box(window), black_box(&mut *reply)));
        }
        Call::Event(event) => each(states, rounds, |s, _| sum += s.event(*event)),
    }
    sum
}

#[inline(always)]
fn each<S>(states: &mut [S], rounds: usize, mut call: impl FnMut(&mut S, usize)) {
    for i in 0..black_box(rounds) {
        for s in &mut *states {
            call(black_box(s), i);
        }
    }
}

/// The bytes of the same data frames, by memcpy alone: the nanoseconds of one.
pub fn copy(data: usize, rounds: usize, lent: &mut Lent) -> f64 {
    ns(STATES * rounds, || {
        for i in 0..black_box(rounds) {
            for _ in 0..STATES {
                let to = black_box(&mut lent.reply[24..]);
                to[..data].copy_from_slice(black_box(&lent.window[i * data..][..data]));
            }
        }
    })
}

/// Nanoseconds of one of so many calls.
pub fn ns(calls: usize, work: impl FnOnce()) -> f64 {
    let start = Instant::now();
    work();
    start.elapsed().as_nanos() as f64 / calls as f64
}

/// A side's states, and the times of its batches.
pub struct Timed<S> {
    from: S,
    states: Vec<S>,
    pub times: Vec<f64>,
}

impl<S: Side> Timed<S> {
    pub fn new(from: &S) -> Timed<S> {
        Timed { from: from.clone(), states: vec![from.clone(); STATES], times: vec![] }
    }

    /// A batch more.
    pub fn run(&mut self, row: &Row, lent: &mut Lent) {
        for s in &mut self.states {
            s.clone_from(&self.from);
        }
        let calls = STATES * row.rounds;
        let mut sum = 0;
        self.times.push(ns(calls, || sum = batch(&mut self.states, &row.call, row.rounds, lent)));
        assert_eq!(sum, row.answer * calls as u64, "{}: another answer", row.name);
    }
}

/// The least of some times.
pub fn least(times: &[f64]) -> f64 {
    times.iter().copied().fold(f64::MAX, f64::min)
}

pub fn median(times: &[f64]) -> f64 {
    let mut sorted = times.to_vec();
    sorted.sort_by(f64::total_cmp);
    sorted[sorted.len() / 2]
}
