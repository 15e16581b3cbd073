//! One table: each row timed, all sides in turn, and printed.
use crate::count::Counts;
use crate::drive::{Event, Lent as Space};
use crate::rows::{Row, MANY};
use crate::rule;
use crate::scene::{Both, Call};
use crate::seen::{copied, Seen};
use crate::side::{Bare, Nothing, Side, State, REFUSED};
use crate::time::{batch, copy, least, median, ns, Lent, Timed, STATES};
use std::hint::black_box;

/// Batches of each side of a row.
const RUNS: usize = 1000;
/// 8GFC: million bytes a second.
const LINE: f64 = 800.0;
const HEAD: &str = "\
| call                     | drive ns | median | model ns |  ratio | no test |  M/s | memcpy ns | times | MB/s | x 8GFC | instr. | model | copies | bytes |
|--------------------------|---------:|-------:|---------:|-------:|--------:|-----:|----------:|------:|-----:|-------:|-------:|------:|-------:|------:|";

/// What was measured of a row.
struct Measured {
    drive: Vec<f64>,
    model: Vec<f64>,
    /// the model without the well formed test
    bare: Vec<f64>,
    copy: Vec<f64>,
    copied: (usize, usize),
}

pub fn print(rows: &[Row], counts: Option<Counts>) {
    let mut lent = Lent::new();
    println!("{HEAD}");
    for (i, row) in rows.iter().enumerate() {
        let m = measure(row, &mut lent);
        let instructions = counts.as_ref().map(|c| c[i]);
        println!("{}", line(row, &m, instructions));
    }
    println!();
    boundary(&mut lent);
    formed();
    println!("{} changed states: drive and plain Rust find the same ones not well formed.", changed());
}

fn measure(row: &Row, lent: &mut Lent) -> Measured {
    let mut drive = Timed::new(&row.from.drive);
    let mut model = Timed::new(&row.from.model);
    let mut bare = Timed::new(&Bare(row.from.model.0.clone()));
    let mut copies = vec![];
    for _ in 0..RUNS {
        drive.run(row, lent);
        model.run(row, lent);
        if !row.is_ill_formed() {
            bare.run(row, lent);
        }
        if row.data > 0 {
            copies.push(copy(row.data, row.rounds, lent));
        }
    }
    copied();
    batch(&mut [Seen(row.from.drive)], &row.call, 1, lent);
    Measured { drive: drive.times, model: model.times, bare: bare.times, copy: copies, copied: copied() }
}

fn line(row: &Row, m: &Measured, instructions: Option<[f64; 2]>) -> String {
    let (drive, model) = (least(&m.drive), least(&m.model));
    let bare = if m.bare.is_empty() { "-".into() } else { short(least(&m.bare)) };
    let [ours, theirs] = instructions.map_or(["-".into(), "-".into()], |c| c.map(|n| format!("{n:.0}")));
    let (copies, bytes) = m.copied;
    let data = if m.copy.is_empty() { ["-"; 4].map(String::from) } else { beside_memcpy(row.data, drive, least(&m.copy)) };
    let [c, times, rate, lines] = data;
    format!(
        "| {:24} | {:>8} | {:>6} | {:>8} | {:6.2} | {bare:>7} | {:4.2} | {c:>9} | {times:>5} | {rate:>4} | {lines:>6} | {ours:>6} | {theirs:>5} | {copies:6} | {bytes:5} |",
        row.name,
        short(drive),
        short(median(&m.drive)),
        short(model),
        drive / model,
        1e3 / drive,
    )
}

/// Of a data frame: memcpy's time, how many times that the drive takes, the bytes a second, and these by the line's.
fn beside_memcpy(data: usize, drive: f64, copy: f64) -> [String; 4] {
    let rate = data as f64 / drive * 1e3;
    [short(copy), format!("{:.1}", drive / copy), format!("{rate:.0}"), format!("{:.2}", rate / LINE)]
}

fn short(ns: f64) -> String {
    if ns < 100.0 {
        format!("{ns:.1}")
    } else {
        format!("{ns:.0}")
    }
}

/// The least nanoseconds of one of so many calls of a work, done 256 times over.
fn best<T>(calls: usize, mut work: impl FnMut() -> T) -> f64 {
    let mut turn = |_| drop(black_box(work()));
    let times: Vec<f64> = (0..RUNS).map(|_| ns(256 * calls, || (0..256).for_each(&mut turn))).collect();
    least(&times)
}

/// What refusal 1 has to be held against.
fn boundary(lent: &mut Lent) {
    let mut none = [Nothing; STATES];
    let call = best(STATES * MANY, || batch(&mut none, &Call::Event(Event::LoopReset), MANY, lent));
    let size = std::mem::size_of::<State>();
    let (from, mut to) = (vec![0u8; size], vec![0u8; size]);
    let state = best(1, || black_box(&mut to[..]).copy_from_slice(black_box(&from)));
    println!("An empty C call, with the loop around it: {call:.1} ns. memcpy of a state ({size} bytes): {state:.1} ns.");
}

/// The well formed test in plain Rust, over references to the same state.
fn formed() {
    let time = |b: Both| best(1, || assert!(rule::well_formed(black_box(&b.drive.unit), black_box(&b.drive.port))));
    let (empty, full) = (time(Both::empty()), time(Both::full(2048)));
    println!("well_formed in plain Rust over references (rule.rs): empty {empty:.1} ns, full {full:.1} ns.");
}

/// Every byte of a drive full of READs, of one full of WRITEs, and of one with made data to send, is changed in turn: drive and `rule` must agree whether it is still well formed.
/// How many were tried.
fn changed() -> usize {
    changed_from(Both::full(2048).drive) + changed_from(Both::full_writing(2048).drive) + changed_from(Both::made(2048).drive)
}

fn changed_from(good: State) -> usize {
    let mut tried = 0;
    for at in 0..std::mem::size_of::<State>() {
        for value in [0x00, 0x01, 0x2F, 0x80, 0xFF] {
            let mut d = good;
            // SAFETY: any bytes are a state
            unsafe { *(&raw mut d).cast::<u8>().add(at) = value };
            let fine = rule::well_formed(&d.unit, &d.port);
            let answer = d.frame(&[], Space { start: 0, bytes: &mut [] }, &mut [0; 2136]);
            assert_eq!(answer, REFUSED + if fine { 3 } else { 2 }, "byte {at} as {value:02X}h");
            tried += 1;
        }
    }
    tried
}
