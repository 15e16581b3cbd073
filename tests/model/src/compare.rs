//! Runs a recorder as a child, compares its answers with the model's, and shrinks a history that differs.

use crate::call::{hex, record, Call};
use model::record::{Answer, Recorder};
use std::collections::VecDeque;
use std::io::{BufReader, Read, Write};
use std::process::{Child, Command, Stdio};
use std::sync::mpsc::{channel, Receiver, RecvTimeoutError, Sender};
use std::time::{Duration, Instant};

/// How a recorder is run.
#[derive(Clone)]
pub struct Program {
    pub words: Vec<String>,
    /// how long to wait for an answer
    pub wait: Duration,
}

impl Program {
    /// Its command line.
    pub fn line(&self) -> String {
        self.words.join(" ")
    }
}

/// Where a recorder's answers differ from the model's.
pub struct Difference {
    /// the number of the call, from 0; the number of calls where it is the end that differs
    pub call: usize,
    pub expected: String,
    pub answered: String,
}

/// What the recorder wrote.
enum Written {
    Answer(Vec<u8>),
    /// the end of its output, and what of an answer stood before it
    End(Vec<u8>),
}

/// Calls on their way: so many are sent ahead of their answers.
const AHEAD: usize = 512;
const BATCH: usize = 64;

/// Runs the program over the calls that `next` gives, in turn, each with its body and the model's answer. The first `slow`
/// calls wait for their answers, which shows that the recorder flushes after each. Then the bytes `cut`, the front of a
/// record, and the end of input follow: the recorder must answer nothing more and end.
pub fn compare(
    program: &Program,
    slow: usize,
    cut: &[u8],
    mut next: impl FnMut() -> Option<(u8, Vec<u8>, Answer)>,
) -> Result<Option<Difference>, String> {
    let mut child = Command::new(&program.words[0])
        .args(&program.words[1..])
        .stdin(Stdio::piped())
        .stdout(Stdio::piped())
        .stderr(Stdio::piped())
        .spawn()
        .map_err(|e| format!("cannot run {}: {e}", program.words[0]))?;
    let (to, lent, from) = pipes(&mut child);
    let result = converse(program, slow, cut, &mut next, (to, lent, from));
    // ended or not, the child is not left behind
    if result.is_some() || !ends(&mut child, program.wait) {
        let _ = child.kill();
        let _ = child.wait();
    }
    // what it says of a cut record is no difference, and is not shown
    if result.is_some() {
        let mut said = String::new();
        let _ = child.stderr.take().unwrap().read_to_string(&mut said);
        eprint!("{said}");
    }
    Ok(result)
}

/// What goes to the child, how many bytes of a window stand behind each answer but 255, and what it wrote.
type Pipes = (Sender<Vec<u8>>, Sender<usize>, Receiver<Written>);

/// Threads that write to the child and read from it, so that neither side waits for the other.
fn pipes(child: &mut Child) -> Pipes {
    let (to, input) = channel::<Vec<u8>>();
    let (lent, windows) = channel::<usize>();
    let (output, from) = channel();
    let mut stdin = child.stdin.take().unwrap();
    let stdout = child.stdout.take().unwrap();
    std::thread::spawn(move || {
        for bytes in input {
            if stdin.write_all(&bytes).and_then(|()| stdin.flush()).is_err() {
                break;
            }
        }
    });
    std::thread::spawn(move || {
        let mut stdout = BufReader::with_capacity(1 << 16, stdout);
        loop {
            // after the last call no answer is due
            let window = windows.recv().unwrap_or(0);
            let written = read_answer(&mut stdout, window);
            let end = matches!(written, Written::End(_));
            if output.send(written).is_err() || end {
                break;
            }
        }
    });
    (to, lent, from)
}

fn read_answer(from: &mut impl Read, window: usize) -> Written {
    let mut answer = vec![];
    let mut read = |answer: &mut Vec<u8>, n: usize| from.by_ref().take(n as u64).read_to_end(answer).is_ok_and(|m| m == n);
    if !read(&mut answer, 3) {
        return Written::End(answer);
    }
    let length = usize::from(u16::from_be_bytes([answer[1], answer[2]]));
    let window = if answer[0] == 255 { 0 } else { window };
    if !read(&mut answer, length + 1) || !read(&mut answer, window) {
        return Written::End(answer);
    }
    Written::Answer(answer)
}

fn converse(
    program: &Program,
    slow: usize,
    cut: &[u8],
    next: &mut impl FnMut() -> Option<(u8, Vec<u8>, Answer)>,
    (to, lent, from): Pipes,
) -> Option<Difference> {
    let mut waiting: VecDeque<Answer> = VecDeque::new();
    let mut answered = 0;
    let mut more = true;
    while more || !waiting.is_empty() {
        let sent = answered + waiting.len();
        let (batch, ahead) = if sent < slow { (1, 0) } else { (BATCH, AHEAD) };
        if more && waiting.len() <= ahead {
            let mut bytes = vec![];
            for _ in 0..batch {
                let Some((letter, body, answer)) = next() else {
                    more = false;
                    break;
                };
                bytes.extend(record(letter, &body));
                let _ = lent.send(answer.window.len());
                waiting.push_back(answer);
            }
            // a child that ended is seen on its output
            let _ = to.send(bytes);
            continue;
        }
        let expected = waiting.pop_front().unwrap().bytes();
        let mut windows = None;
        let found = match from.recv_timeout(program.wait) {
            Ok(Written::Answer(bytes)) if bytes == expected => {
                answered += 1;
                continue;
            }
            Ok(Written::Answer(bytes)) => {
                windows = windows_differ(&expected, &bytes);
                show(&bytes)
            }
            Ok(Written::End(bytes)) => format!("{} and the end of its output", hex(&bytes)),
            Err(RecvTimeoutError::Timeout) => format!("nothing within {} seconds", program.wait.as_secs()),
            Err(RecvTimeoutError::Disconnected) => "nothing".into(),
        };
        let (expected, found) = match windows {
            Some((e, f)) => (format!("{} {e}", show(&expected)), format!("{found} {f}")),
            None => (show(&expected), found),
        };
        return Some(Difference { call: answered, expected, answered: found });
    }
    let _ = to.send(cut.to_vec());
    drop((to, lent));
    let found = match from.recv_timeout(program.wait) {
        Ok(Written::End(bytes)) if bytes.is_empty() => return None,
        Ok(Written::End(bytes)) | Ok(Written::Answer(bytes)) => hex(&bytes),
        Err(_) => format!("nothing within {} seconds", program.wait.as_secs()),
    };
    Some(Difference { call: answered, expected: "the end of its output".into(), answered: found })
}

fn ends(child: &mut Child, wait: Duration) -> bool {
    let from = Instant::now();
    loop {
        match child.try_wait() {
            Ok(Some(_)) => return true,
            Ok(None) if from.elapsed() < wait => std::thread::sleep(Duration::from_millis(1)),
            _ => return false,
        }
    }
}

/// An answer's bytes: number, length, reply, last byte, and how many of a window follow.
pub fn show(answer: &[u8]) -> String {
    let (head, window) = answer.split_at(4 + reply_length(answer));
    let n = head.len();
    let mut text = format!("{} {} {} {}", hex(&head[..1]), hex(&head[1..3]), hex(&head[3..n - 1]), hex(&head[n - 1..]));
    if !window.is_empty() {
        text += &format!(" window of {} bytes", window.len());
    }
    text
}

fn reply_length(answer: &[u8]) -> usize {
    u16::from_be_bytes([answer[1], answer[2]]).into()
}

/// Of two windows of one length: where they differ first, and some bytes of each from there.
fn windows_differ(expected: &[u8], found: &[u8]) -> Option<(String, String)> {
    let (one, other) = (&expected[4 + reply_length(expected)..], &found[4 + reply_length(found)..]);
    let at = one.iter().zip(other).position(|(a, b)| a != b).filter(|_| one.len() == other.len())?;
    let some = |bytes: &[u8]| format!("from byte {at} {}", hex(&bytes[at..bytes.len().min(at + 16)]));
    Some((some(one), some(other)))
}

/// Runs the program over given calls.
pub fn replay(program: &Program, slow: usize, calls: &[Call], cut: &[u8]) -> Result<Option<Difference>, String> {
    let mut model = Recorder::default();
    let mut calls = calls.iter();
    compare(program, slow, cut, || {
        let call = calls.next()?;
        let body = call.full_body();
        let answer = model.call(call.letter, &body);
        Some((call.letter, body, answer))
    })
}

/// Drops calls, large parts first, as long as the answers still differ; answers the calls kept and the number of replays.
pub fn shrink(
    program: &Program,
    slow: usize,
    calls: Vec<Call>,
    cut: &[u8],
    time: Duration,
) -> Result<(Vec<Call>, usize), String> {
    let from = Instant::now();
    let mut kept = calls;
    let mut replays = 0;
    let mut part = kept.len() / 2;
    while part >= 1 {
        let mut at = 0;
        let mut dropped = false;
        while at < kept.len() {
            if from.elapsed() > time {
                return Ok((kept, replays));
            }
            let mut fewer = kept.clone();
            fewer.drain(at..(at + part).min(kept.len()));
            replays += 1;
            match replay(program, slow, &fewer, cut)? {
                Some(difference) => {
                    fewer.truncate(difference.call + 1);
                    kept = fewer;
                    dropped = true;
                }
                None => at += part,
            }
        }
        // the last round, call by call, is made until nothing more can be dropped
        if part > 1 {
            part /= 2;
        } else if !dropped {
            break;
        }
    }
    Ok((kept, replays))
}
