//! A call of a history: a record for the recorder, and its line in a replay file.

use crate::random::Random;
use model::frame::Header;

/// A record: its letter and body. The body may end in made bytes, given by their number and a seed, so that a window of
/// 65,536 bytes is a short line too.
#[derive(Clone, Debug, PartialEq)]
pub struct Call {
    pub letter: u8,
    pub body: Vec<u8>,
    pub tail: usize,
    pub seed: u32,
}

impl Call {
    pub fn new(letter: u8, body: Vec<u8>) -> Call {
        Call { letter, body, tail: 0, seed: 0 }
    }

    /// The body, made bytes and all.
    pub fn full_body(&self) -> Vec<u8> {
        let mut body = self.body.clone();
        body.extend(Random::new(self.seed.into()).bytes(self.tail));
        body
    }

    /// `letter body-in-hex`, then ` ~number:seed` where there are made bytes. `-` stands for no bytes, `#7F` for a letter.
    pub fn line(&self) -> String {
        let letter =
            if self.letter.is_ascii_uppercase() { (self.letter as char).to_string() } else { format!("#{:02X}", self.letter) };
        let tail = if self.tail > 0 { format!(" ~{}:{}", self.tail, self.seed) } else { String::new() };
        format!("{letter} {}{tail}", hex(&self.body))
    }

    /// What the call is, in words.
    pub fn words(&self) -> String {
        let b = self.full_body();
        let number = |from: usize, to: usize| b[from..to].iter().fold(0u64, |n, &b| n << 8 | u64::from(b));
        match self.letter {
            b'S' if b.len() >= 153 => {
                format!("make a drive: capacity {}, own address {:02X}, writable {}", number(0, 8), number(8, 12), b[152])
            }
            b'E' if b.len() == 1 => format!("event {}", b[0]),
            b'N' if b.len() >= 16 => format!(
                "next frame: address {:02X}, OX_ID {:04X}, room {}, window of {} bytes at block {}",
                number(0, 4),
                number(4, 6),
                number(6, 8),
                b.len() - 16,
                number(8, 16)
            ),
            b'F' if b.len() >= 2 => format!("{}, room {}", frame_words(&b[2..]), number(0, 2)),
            b'D' if b.len() >= 12 && b.len() - 12 >= number(10, 12) as usize => {
                let (frame, window) = b[12..].split_at(number(10, 12) as usize);
                let window = format!("window of {} bytes at block {}", window.len(), number(2, 10));
                format!("{}, room {}, {window}", frame_words(frame), number(0, 2))
            }
            _ => format!("letter {:02X}h with {} bytes", self.letter, b.len()),
        }
    }

    pub fn parse(line: &str) -> Option<Call> {
        let mut words = line.split_whitespace();
        let letter = words.next()?;
        let letter = match letter.strip_prefix('#') {
            Some(number) => u8::from_str_radix(number, 16).ok()?,
            None if letter.len() == 1 => letter.as_bytes()[0],
            None => return None,
        };
        let body = unhex(words.next()?)?;
        let mut call = Call::new(letter, body);
        if let Some(tail) = words.next() {
            let (tail, seed) = tail.strip_prefix('~')?.split_once(':')?;
            call.tail = tail.parse().ok()?;
            call.seed = seed.parse().ok()?;
        }
        words.next().is_none().then_some(call)
    }
}

/// What a frame is, in words.
fn frame_words(f: &[u8]) -> String {
    if f.len() < 24 {
        return format!("a frame of {} bytes", f.len());
    }
    let h = Header::read(f);
    let what = match (h.r_ctl, f.get(24)) {
        (0x22, Some(code)) => format!("link request {code:02X}h"),
        (0x23, ..) => "link reply".into(),
        (0x81, ..) => "ABTS".into(),
        (0x06, ..) if f.len() == 56 => {
            let fcp_dl = u32::from_be_bytes([f[52], f[53], f[54], f[55]]);
            format!("command {:02X}h, task flags {:02X}h, data bits {}, FCP_DL {fcp_dl}", f[36], f[34], f[35] & 3)
        }
        (0x01, ..) => format!("data at {}, fill {}", h.offset, h.fill()),
        (r_ctl, ..) => format!("R_CTL {r_ctl:02X}h"),
    };
    format!("{what} from {:02X}, OX_ID {:04X}, {} bytes", h.s_id, h.ox_id, f.len())
}

/// The record's bytes, of a body that was made already.
pub fn record(letter: u8, body: &[u8]) -> Vec<u8> {
    let mut bytes = vec![letter];
    bytes.extend((body.len() as u32).to_be_bytes());
    bytes.extend(body);
    bytes
}

pub fn hex(bytes: &[u8]) -> String {
    if bytes.is_empty() {
        return "-".into();
    }
    bytes.iter().map(|b| format!("{b:02x}")).collect()
}

pub fn unhex(text: &str) -> Option<Vec<u8>> {
    if text == "-" {
        return Some(vec![]);
    }
    if text.len() % 2 != 0 || !text.is_ascii() {
        return None;
    }
    (0..text.len()).step_by(2).map(|i| u8::from_str_radix(&text[i..i + 2], 16).ok()).collect()
}
