//! model: histories of calls to a drive on a pipe, each answer compared with the model's.

mod call;
mod compare;
mod histories;
mod random;

use call::{hex, unhex, Call};
use compare::{compare, replay, show, shrink, Difference, Program};
use histories::{History, Kind};
use model::record::Recorder;
use model::rules::{counts, TABLE, UNREACHABLE};
use random::Random;
use std::collections::BTreeSet;
use std::io::{BufReader, BufWriter, Write};
use std::process::exit;
use std::time::{Duration, Instant};

/// Prints a line; where nobody reads it any more, that is the end.
macro_rules! say {
    ($($line:tt)*) => {
        if writeln!(std::io::stdout(), $($line)*).is_err() {
            exit(2)
        }
    };
}

const USAGE: &str = "\
usage: model [options] --program PROGRAM [ARGUMENT..]   compare a recorder with the model
       model [options] --program PROGRAM [ARGUMENT..] --and PROGRAM [ARGUMENT..]
                                                        compare two, which share the histories
       model [options] --self                           only run the model over the histories
       model [options] --replay FILE [--program ..]     replay a history; without a program, show the model's answers
       model --serve                                    be a recorder: the model on standard input and output
options:
  --seed N        which histories (1)
  --calls N       calls in random histories (100,000); the long history comes on top
  --no-long       leave out the WRITE of 257 blocks and the READ of more than 65,536 frames
  --progress      a line for each history
  --counts        how often each rule branch was taken
  --no-shrink     leave a history that differs as long as it is
  --shrink-time N seconds for shrinking (60)
  --wait N        seconds to wait for an answer (60)
  --save FILE     write a history that differs to FILE, too
PROGRAM and all words after it are a recorder's command line. Of two the first, which may be slow, takes every fifth history, and the
other the rest and the long history; each replays a file. Exit status: 0 all alike, 1 a difference, 2 not run.";

struct Options {
    seed: u64,
    calls: usize,
    long: bool,
    progress: bool,
    counts: bool,
    shrink: bool,
    shrink_time: u64,
    wait: u64,
    save: Option<String>,
    replay: Option<String>,
    alone: bool,
    serve: bool,
    programs: Vec<Vec<String>>,
}

fn wrong(message: &str) -> ! {
    eprintln!("model: {message}");
    exit(2)
}

fn options() -> Options {
    let mut o = Options {
        seed: 1,
        calls: 100_000,
        long: true,
        progress: false,
        counts: false,
        shrink: true,
        shrink_time: 60,
        wait: 60,
        save: None,
        replay: None,
        alone: false,
        serve: false,
        programs: vec![],
    };
    let mut words = std::env::args().skip(1);
    while let Some(word) = words.next() {
        let mut value = || words.next().unwrap_or_else(|| wrong(&format!("{word} needs a value\n{USAGE}")));
        let number = |text: String| -> u64 {
            text.replace(',', "").parse().unwrap_or_else(|_| wrong(&format!("{text} is no number\n{USAGE}")))
        };
        match word.as_str() {
            "--seed" => o.seed = number(value()),
            "--calls" => o.calls = number(value()) as usize,
            "--no-long" => o.long = false,
            "--progress" => o.progress = true,
            "--counts" => o.counts = true,
            "--no-shrink" => o.shrink = false,
            "--shrink-time" => o.shrink_time = number(value()),
            "--wait" => o.wait = number(value()),
            "--save" => o.save = Some(value()),
            "--replay" => o.replay = Some(value()),
            "--self" => o.alone = true,
            "--serve" => o.serve = true,
            "--program" => {
                let words: Vec<String> = words.by_ref().collect();
                o.programs = words.split(|word| word == "--and").map(<[String]>::to_vec).collect();
                if o.programs.len() > 2 || o.programs.iter().any(Vec::is_empty) {
                    wrong(&format!("--program needs a program, and --and one more\n{USAGE}"));
                }
            }
            "--help" | "-h" => {
                say!("{USAGE}");
                exit(0)
            }
            _ => wrong(&format!("unknown option {word}\n{USAGE}")),
        }
    }
    o
}

fn main() {
    let o = options();
    if o.serve {
        model::record::serve(
            BufReader::with_capacity(1 << 16, std::io::stdin()),
            BufWriter::with_capacity(1 << 16, std::io::stdout()),
        );
        return;
    }
    let wait = Duration::from_secs(o.wait);
    let programs: Vec<Program> = o.programs.iter().map(|words| Program { words: words.clone(), wait }).collect();
    if let Some(file) = &o.replay {
        exit(replay_file(&programs, file));
    }
    if o.alone == !programs.is_empty() {
        wrong(&format!("give either --program or --self\n{USAGE}"));
    }
    exit(run(&o, &programs));
}

/// A history that is run: its number, its seed, its kind and how many calls.
struct Part {
    number: usize,
    seed: u64,
    kind: Kind,
    calls: usize,
}

impl Part {
    /// Every fourth history begins slowly: so many answers are waited for one by one.
    fn slow(&self) -> usize {
        if self.number % 4 == 0 {
            200
        } else {
            0
        }
    }

    /// Which of the programs takes it. Of two the first takes every fifth; 5 and 8, after which the kinds come round, have no common
    /// divisor, so each program meets every kind, slow beginnings and cut ends.
    fn taker(&self, programs: usize) -> usize {
        usize::from(programs > 1 && (self.kind == Kind::Long || self.number % 5 != 0))
    }

    /// Every second history ends in a cut record.
    fn cut(&self) -> Vec<u8> {
        if self.number % 2 == 1 {
            History::new(self.seed, Kind::Calm).cut_record()
        } else {
            vec![]
        }
    }

    /// Its calls, made one by one, and where the program's answers differ from the model's; without a program they are only made.
    fn play(&self, program: Option<&Program>, cut: &[u8]) -> (Vec<Call>, Option<Difference>) {
        let mut history = History::new(self.seed, self.kind);
        let mut calls = vec![];
        let mut next = || {
            if calls.len() == self.calls {
                return None;
            }
            let (call, body, answer) = history.step();
            let letter = call.letter;
            calls.push(call);
            Some((letter, body, answer))
        };
        let difference = match program {
            Some(program) => compare(program, self.slow(), cut, next).unwrap_or_else(|e| wrong(&e)),
            None => {
                while next().is_some() {}
                None
            }
        };
        (calls, difference)
    }
}

/// The histories of a run: random ones, then the long one.
fn parts(o: &Options) -> Vec<Part> {
    let mut random = Random::new(o.seed);
    let mut parts = vec![];
    let mut left = o.calls;
    while left > 0 {
        let number = parts.len();
        let calls = random.within(1_000, 6_000).min(left);
        parts.push(Part { number, seed: random.u64(), kind: Kind::of(number), calls });
        left -= calls;
    }
    if o.long {
        parts.push(Part { number: parts.len(), seed: random.u64(), kind: Kind::Long, calls: 66_000 });
    }
    parts
}

/// What a program has taken: calls, and rule branches in them.
#[derive(Default)]
struct Taken {
    calls: usize,
    branches: BTreeSet<usize>,
}

impl Taken {
    /// The calls of a history, from the counts before it.
    fn add(&mut self, calls: usize, before: &[u64]) {
        self.calls += calls;
        self.branches.extend(counts().iter().zip(before).enumerate().filter(|(_, (now, then))| now > then).map(|(i, _)| i));
    }
}

fn run(o: &Options, programs: &[Program]) -> i32 {
    let from = Instant::now();
    let (mut passed, mut taken) = (0, [Taken::default(), Taken::default()]);
    for part in parts(o) {
        let taker = part.taker(programs.len());
        let (cut, before) = (part.cut(), counts());
        let (calls, difference) = part.play(programs.get(taker), &cut);
        if let Some(difference) = difference {
            passed += difference.call;
            let (at, line) = (difference.call, programs[taker].line());
            say!(
                "difference: {line}, seed {}, history {} ({:?}), call {at} of it, call {passed} of the run",
                o.seed,
                part.number,
                part.kind
            );
            report(o, &programs[taker], &part, &calls, &cut, &difference);
            say!("{passed} passed, 1 failed");
            return 1;
        }
        passed += part.calls;
        taken[taker].add(part.calls, &before);
        if o.progress {
            progress(&part, passed, from.elapsed());
        }
    }
    let seconds = from.elapsed().as_secs_f64();
    say!("{passed} calls {} in {seconds:.1} seconds, seed {}", if o.alone { "made" } else { "compared" }, o.seed);
    for (program, t) in programs.iter().zip(&taken) {
        say!("  {} by {}, {} rule branches", t.calls, program.line(), t.branches.len());
    }
    coverage(o);
    say!("{passed} passed, 0 failed");
    0
}

/// The line of a history that passed.
fn progress(part: &Part, passed: usize, time: Duration) {
    let branches = counts().iter().filter(|&&n| n > 0).count();
    let rate = passed as f64 / time.as_secs_f64();
    eprintln!(
        "history {} {:?}: {} calls, {passed} in all, {branches} branches, {rate:.0} calls a second",
        part.number, part.kind, part.calls
    );
}

/// Prints how many rule branches were taken, and which were not.
fn coverage(o: &Options) {
    let counts = counts();
    let taken = counts.iter().filter(|&&n| n > 0).count();
    say!("{taken} of {} rule branches taken", TABLE.len());
    for (i, (name, text)) in TABLE.iter().enumerate() {
        let reason = UNREACHABLE.iter().find(|u| u.0 as usize == i).map(|u| u.1);
        match (counts[i], reason) {
            (0, Some(reason)) => say!("  not taken: {name}, {text} (cannot be: {reason})"),
            (0, None) => say!("  not taken: {name}, {text}"),
            (n, _) if o.counts => say!("  {n:8} {name}, {text}"),
            _ => {}
        }
    }
}

/// The call that differs, in words and in hex, and both answers.
fn tell(calls: &[Call], cut: &[u8], difference: &Difference) {
    match calls.get(difference.call) {
        Some(call) => say!("  call     {}\n           {}", call.words(), call.line()),
        None => say!("  call     the end of the input after {}", hex(cut)),
    }
    say!("  expected {}\n  answered {}", difference.expected, difference.answered);
}

/// Tells a difference, shrinks the history and prints it as a replay file.
fn report(o: &Options, program: &Program, part: &Part, calls: &[Call], cut: &[u8], difference: &Difference) {
    tell(calls, cut, difference);
    let at_end = difference.call == calls.len();
    let mut kept = calls[..calls.len().min(difference.call + 1)].to_vec();
    let cut = if at_end { cut } else { &[] };
    if o.shrink {
        // where the answers were waited for one by one, they are again
        let slow = if difference.call < part.slow() { usize::MAX } else { 0 };
        let (fewer, replays) = shrink(program, slow, kept, cut, Duration::from_secs(o.shrink_time)).unwrap_or_else(|e| wrong(&e));
        kept = fewer;
        say!("shrunk from {} calls to {} in {replays} replays", difference.call + usize::from(!at_end), kept.len());
        match replay(program, slow, &kept, cut).unwrap_or_else(|e| wrong(&e)) {
            Some(d) => tell(&kept, cut, &d),
            None => say!("  the shrunk history does not differ each time"),
        }
    }
    let mut text = format!("; seed {}, history {}: the last call differs\n", o.seed, part.number);
    for call in &kept {
        text += &format!("; {}\n{}\n", call.words(), call.line());
    }
    if at_end {
        text += &format!("CUT {}\n", hex(cut));
    }
    if let Some(file) = &o.save {
        std::fs::write(file, &text).unwrap_or_else(|e| wrong(&format!("cannot write {file}: {e}")));
    }
    if kept.len() <= 400 {
        say!("replay file:\n{text}");
    } else {
        say!("the history is {} calls long: --save FILE keeps it", kept.len());
    }
}

fn replay_file(programs: &[Program], file: &str) -> i32 {
    let text = std::fs::read_to_string(file).unwrap_or_else(|e| wrong(&format!("cannot read {file}: {e}")));
    let (mut calls, mut cut) = (vec![], vec![]);
    for (i, line) in text.lines().enumerate() {
        let line = line.trim();
        if line.is_empty() || line.starts_with(';') {
            continue;
        }
        match line.strip_prefix("CUT ") {
            Some(bytes) => cut = unhex(bytes).unwrap_or_else(|| wrong(&format!("{file}:{}: no bytes", i + 1))),
            None => calls.push(Call::parse(line).unwrap_or_else(|| wrong(&format!("{file}:{}: no call", i + 1)))),
        }
    }
    if programs.is_empty() {
        let mut model = Recorder::default();
        for call in &calls {
            say!("; {}\n{}\n  {}", call.words(), call.line(), show(&model.call(call.letter, &call.full_body()).bytes()));
        }
        say!("{} passed, 0 failed", calls.len());
        return 0;
    }
    let mut passed = 0;
    for program in programs {
        if let Some(d) = replay(program, 0, &calls, &cut).unwrap_or_else(|e| wrong(&e)) {
            say!("difference: {}, call {}", program.line(), d.call);
            tell(&calls, &cut, &d);
            say!("{} passed, 1 failed", passed + d.call);
            return 1;
        }
        passed += calls.len();
    }
    say!("{passed} passed, 0 failed");
    0
}
