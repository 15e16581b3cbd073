//! The record format of the program recorder: calls on standard input, answers on standard output.
//! "Big-endian records: letter, u32 length n of the body, body."

use crate::drive::{Drive, Event, Lent, Window};
use crate::rules::{hit, when, Rule};
use crate::setup::Setup;
use std::io::{Read, Write};

/// "over 70,000 bytes" is no call
pub const LONGEST: usize = 70_000;
/// "room of the reply buffer u16 (at most 4,096)"
pub const MOST_ROOM: usize = 4_096;
/// "the fill 5Ah it was lent with"
const FILL: u8 = 0x5A;

/// "Answer: refusal number u8 (0 answered), reply length u16, the reply's bytes, then one byte: 1 if every byte of the lent
/// buffer after the reply (after a refusal: every byte) still holds the fill".
#[derive(Clone, Debug, PartialEq)]
pub struct Answer {
    pub number: u8,
    pub reply: Vec<u8>,
    pub kept: u8,
    /// of a D, "all bytes of the window after the call, after a refusal too"
    pub window: Vec<u8>,
}

impl Answer {
    /// "255 stands for what is no call .., with length 0 and last byte 1"
    fn no_call(rule: Rule) -> Answer {
        hit(rule);
        Answer::bare(255)
    }

    /// A call that lends no buffer.
    fn bare(number: u8) -> Answer {
        Answer { number, reply: vec![], kept: 1, window: vec![] }
    }

    pub fn bytes(&self) -> Vec<u8> {
        let mut b = vec![self.number];
        b.extend((self.reply.len() as u16).to_be_bytes());
        b.extend(&self.reply);
        b.push(self.kept);
        b.extend(&self.window);
        b
    }
}

/// The recorder: the drive made last, if any.
#[derive(Clone, Debug, Default, PartialEq)]
pub struct Recorder {
    pub drive: Option<Drive>,
}

impl Recorder {
    /// One record's answer.
    pub fn call(&mut self, letter: u8, body: &[u8]) -> Answer {
        if body.len() > LONGEST {
            return Answer::no_call(Rule::NoCallLong);
        }
        match letter {
            b'S' => self.setup(body),
            b'F' => self.frame(body),
            b'N' => self.next(body),
            b'E' => self.event(body),
            b'D' => self.data(body),
            _ => Answer::no_call(Rule::NoCallLetter),
        }
    }

    /// "S capacity u64, own address u32, identity 28, accept words 112." 02, 2 appends writable u8.
    fn setup(&mut self, body: &[u8]) -> Answer {
        if body.len() < 153 {
            when(body.len() == 152, Rule::NoCallOldSetup);
            return Answer::no_call(Rule::NoCallShort);
        }
        when(body.len() > 153, Rule::CallLonger);
        let setup = Setup {
            capacity: u64::from_be_bytes(body[0..8].try_into().unwrap()),
            address: u32::from_be_bytes(body[8..12].try_into().unwrap()),
            identity: body[12..40].try_into().unwrap(),
            accept: body[40..152].try_into().unwrap(),
            writable: body[152],
        };
        match Drive::new(setup) {
            Ok(drive) => {
                when(self.drive.is_some(), Rule::MadeAgain);
                self.drive = Some(drive);
                Answer::bare(0)
            }
            // "A refused S leaves the drive as it was."
            Err(number) => {
                when(self.drive.is_some(), Rule::RefusedAgain);
                Answer::bare(number)
            }
        }
    }

    /// "F room of the reply buffer u16 (at most 4,096), frame." It "lends an empty window at block 0".
    fn frame(&mut self, body: &[u8]) -> Answer {
        if body.len() < 2 {
            return Answer::no_call(Rule::NoCallShort);
        }
        let room = usize::from(u16::from_be_bytes([body[0], body[1]]));
        self.lending(room, |drive, reply| drive.frame_in(&body[2..], Lent { start: 0, bytes: &mut [] }, reply))
    }

    /// "D room u16, start u64, frame length u16, frame, window. The usual answer, then all bytes of the window after the call, after a
    /// refusal too."
    fn data(&mut self, body: &[u8]) -> Answer {
        if body.len() < 12 {
            return Answer::no_call(Rule::NoCallShort);
        }
        let room = usize::from(u16::from_be_bytes([body[0], body[1]]));
        let start = u64::from_be_bytes(body[2..10].try_into().unwrap());
        let length = usize::from(u16::from_be_bytes([body[10], body[11]]));
        // "A frame length past the body is no call."
        if body.len() - 12 < length {
            return Answer::no_call(Rule::NoCallFrame);
        }
        let (frame, window) = body[12..].split_at(length);
        let mut window = window.to_vec();
        let mut answer = self.lending(room, |drive, reply| drive.frame_in(frame, Lent { start, bytes: &mut window }, reply));
        // what is no call has "nothing more"
        if answer.number != 255 {
            answer.window = window;
        }
        answer
    }

    /// "N address u32, OX_ID u16, room u16, window start u64, window bytes."
    fn next(&mut self, body: &[u8]) -> Answer {
        if body.len() < 16 {
            return Answer::no_call(Rule::NoCallShort);
        }
        let address = u32::from_be_bytes(body[0..4].try_into().unwrap());
        let ox_id = u16::from_be_bytes([body[4], body[5]]);
        let room = usize::from(u16::from_be_bytes([body[6], body[7]]));
        let start = u64::from_be_bytes(body[8..16].try_into().unwrap());
        let window = Window { start, bytes: &body[16..] };
        self.lending(room, |drive, reply| drive.next_frame(address, ox_id, window, reply))
    }

    /// "E one byte: 1 loop reset, 2 verification time over, 3 power on."
    fn event(&mut self, body: &[u8]) -> Answer {
        if body.is_empty() {
            return Answer::no_call(Rule::NoCallShort);
        }
        let event = match body[0] {
            1 => Event::LoopReset,
            2 => Event::TimeOver,
            3 => Event::PowerOn,
            _ => return Answer::no_call(Rule::NoCallEvent),
        };
        let Some(drive) = &mut self.drive else {
            return Answer::no_call(Rule::NoCallNoDrive);
        };
        when(body.len() > 1, Rule::CallLonger);
        drive.event(event);
        Answer::bare(0)
    }

    /// A call that lends a reply buffer of `room` bytes.
    fn lending(&mut self, room: usize, call: impl FnOnce(&mut Drive, &mut [u8]) -> Result<usize, u8>) -> Answer {
        if room > MOST_ROOM {
            return Answer::no_call(Rule::NoCallRoom);
        }
        let Some(drive) = &mut self.drive else {
            return Answer::no_call(Rule::NoCallNoDrive);
        };
        let mut buffer = [FILL; MOST_ROOM];
        let lent = &mut buffer[..room];
        let (number, length) = match call(drive, lent) {
            Ok(length) => (0, length),
            Err(number) => (number, 0),
        };
        let kept = lent[length..].iter().all(|&b| b == FILL);
        Answer { number, reply: lent[..length].to_vec(), kept: kept.into(), window: vec![] }
    }
}

/// Answers each record until the input ends. "It flushes after each answer and ends with its input; a cut record ends it."
pub fn serve(mut input: impl Read, mut output: impl Write) {
    let mut recorder = Recorder::default();
    let mut head = [0; 5];
    while input.read_exact(&mut head).is_ok() {
        let length = u64::from(u32::from_be_bytes([head[1], head[2], head[3], head[4]]));
        // of a body that is too long, so much is kept as shows it, and "the body is skipped"
        let mut body = vec![];
        let Ok(read) = input.by_ref().take(length.min(LONGEST as u64 + 1)).read_to_end(&mut body) else { break };
        let Ok(skipped) = std::io::copy(&mut input.by_ref().take(length - read as u64), &mut std::io::sink()) else { break };
        if read as u64 + skipped < length {
            break;
        }
        let answer = recorder.call(head[0], &body).bytes();
        if output.write_all(&answer).and_then(|()| output.flush()).is_err() {
            break;
        }
    }
}
