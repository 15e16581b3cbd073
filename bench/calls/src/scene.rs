//! The frames and the drives that are timed. Drive and model go through the same calls, and must answer alike.
pub use crate::drive::ROOM;
use crate::drive::{Drive, Event, Lent as Space, Window};
use crate::setup::Setup;
use crate::side::{Side, State, Tested};

/// The drive's own address, and those of eight hosts.
pub const OWN: u32 = 0xEF;
pub const HOSTS: [u32; 8] = [0x01, 0x02, 0x04, 0x08, 0x0F, 0x10, 0x17, 0x18];
/// An address that no host has at first.
pub const NEW: u32 = 0x1B;
/// The window that is lent starts at this block, and so does every READ and WRITE.
pub const BLOCK: u64 = 1000;
const CAPACITY: u64 = 71_132_959;

/// The accept words, and those of a host's PLOGI, with this size in W2 and W18.
fn words(name: u8, size: u16) -> [u8; 112] {
    let [high, low] = size.to_be_bytes();
    let mut w = [0; 112];
    let bytes = [
        (6, high),
        (7, low),
        (16, 0x21),
        (23, name),
        (24, 0x20),
        (31, name),
        (64, 0x80),
        (70, high),
        (71, low),
        (73, 1),
        (77, 1),
    ];
    for (at, byte) in bytes {
        w[at] = byte;
    }
    w
}

/// A frame from a host to the drive.
fn frame(r_ctl: u8, kind: u8, from: u32, ox_id: u16, payload: &[u8]) -> Vec<u8> {
    let [hi, lo] = ox_id.to_be_bytes();
    let mut f = vec![r_ctl, 0, 0, OWN as u8, 0, 0, 0, from as u8, kind, 0x29, 0, 0, 0, 0, 0, 0, hi, lo, 0xFF, 0xFF, 0, 0, 0, 0];
    f.extend(payload);
    f
}

pub fn plogi(from: u32, size: u16) -> Vec<u8> {
    plogi_as(from, from, size)
}

/// PLOGI with the names of the host at another address, which has moved.
pub fn plogi_as(from: u32, host: u32, size: u16) -> Vec<u8> {
    let mut payload = vec![0x03, 0, 0, 0];
    payload.extend(words(host as u8, size));
    frame(0x22, 0x01, from, 0x0100, &payload)
}

pub fn prli(from: u32) -> Vec<u8> {
    frame(0x22, 0x01, from, 0x0101, &[0x20, 0x10, 0, 0x14, 0x08, 0, 0x20, 0, 0, 0, 0, 0, 0, 0, 0, 0, 0, 0, 0, 0x22])
}

/// LOGO of the sender itself.
pub fn logo(from: u32) -> Vec<u8> {
    let mut payload = [0; 16];
    payload[0] = 0x05;
    payload[7] = from as u8;
    frame(0x22, 0x01, from, 0x0102, &payload)
}

/// FCP_CMND of this command block and FCP_DL.
fn command(from: u32, ox_id: u16, cdb: &[u8], expected: u32) -> Vec<u8> {
    let mut payload = [0; 32];
    payload[11] = if expected > 0 { 2 } else { 0 };
    payload[12..12 + cdb.len()].copy_from_slice(cdb);
    payload[28..].copy_from_slice(&expected.to_be_bytes());
    frame(0x06, 0x08, from, ox_id, &payload)
}

pub fn test_unit_ready(from: u32) -> Vec<u8> {
    command(from, 0x0200, &[0; 6], 0)
}

/// FCP_CMND with the task flag 20h.
pub fn target_reset(from: u32) -> Vec<u8> {
    let mut f = command(from, 0x0201, &[0; 6], 0);
    f[24 + 10] = 0x20;
    f
}

/// READ(10) of so many blocks from `BLOCK` on.
pub fn read(from: u32, ox_id: u16, blocks: u16) -> Vec<u8> {
    let [a, b, c, d] = (BLOCK as u32).to_be_bytes();
    let [hi, lo] = blocks.to_be_bytes();
    command(from, ox_id, &[0x28, 0, a, b, c, d, 0, hi, lo, 0], 512 * u32::from(blocks))
}

/// WRITE(10), likewise.
pub fn write(from: u32, ox_id: u16, blocks: u16) -> Vec<u8> {
    let mut f = read(from, ox_id, blocks);
    f[24 + 11] = 1;
    f[24 + 12] = 0x2A;
    f
}

/// Data of a WRITE: so many bytes at this offset.
pub fn data(from: u32, ox_id: u16, offset: u32, n: usize) -> Vec<u8> {
    let mut f = frame(0x01, 0x08, from, ox_id, &vec![0xC3; n]);
    f[20..24].copy_from_slice(&offset.to_be_bytes());
    f
}

/// INQUIRY, READ CAPACITY and REQUEST SENSE, each with its own OX_ID.
fn made_data(from: u32) -> [Vec<u8>; 3] {
    let inquiry = command(from, 0x1000, &[0x12, 0, 0, 0, 36, 0], 36);
    let capacity = command(from, 0x1001, &[0x25, 0, 0, 0, 0, 0, 0, 0, 0, 0], 8);
    let sense = command(from, 0x1002, &[0x03, 0, 0, 0, 18, 0], 18);
    [inquiry, capacity, sense]
}

/// A frame that the drive does not take: refusal 6.
pub fn unknown(from: u32) -> Vec<u8> {
    frame(0x05, 0x08, from, 0x0300, &[0; 32])
}

/// Drive and model in the same state.
#[derive(Clone)]
pub struct Both {
    pub drive: State,
    pub model: Tested,
}

impl Both {
    /// A drive with no login.
    pub fn empty() -> Both {
        let (identity, accept) = ([0x20; 28], words(OWN as u8, 2112));
        let setup = Setup { capacity: CAPACITY, address: OWN, identity, accept, writable: 1 };
        Both { drive: State::make(CAPACITY, OWN, &identity, &accept), model: Tested(Drive::new(setup).unwrap()) }
    }

    /// A drive with one login of this size, paired, and its attention told.
    pub fn one(size: u16) -> Both {
        let mut b = Both::empty();
        b.log_in(HOSTS[0], size);
        b
    }

    /// A drive with eight logins of this size, each with eight READs open.
    pub fn full(size: u16) -> Both {
        Both::full_by(size, read)
    }

    /// The same with WRITEs.
    pub fn full_writing(size: u16) -> Both {
        Both::full_by(size, write)
    }

    fn full_by(size: u16, command: fn(u32, u16, u16) -> Vec<u8>) -> Both {
        let mut b = Both::empty();
        for host in HOSTS {
            b.log_in(host, size);
            for ox_id in 0..8 {
                b.does(&Call::frame(command(host, 0x1000 + ox_id, 256)));
            }
        }
        b
    }

    /// A drive with one login of this size, and exchanges of made data open.
    pub fn made(size: u16) -> Both {
        let mut b = Both::one(size);
        for frame in made_data(HOSTS[0]) {
            b.does(&Call::frame(frame));
        }
        b
    }

    fn log_in(&mut self, host: u32, size: u16) {
        for frame in [plogi(host, size), prli(host), test_unit_ready(host)] {
            self.does(&Call::frame(frame));
        }
    }

    /// The state after a call more.
    pub fn after(mut self, call: &Call) -> Both {
        self.does(call);
        self
    }

    pub fn does(&mut self, call: &Call) -> u64 {
        self.does_round(call, 0)
    }

    /// Both sides do a call of this round; the answers and all bytes of the reply buffers and of the windows must be the same.
    pub fn does_round(&mut self, call: &Call, round: usize) -> u64 {
        let (mut ours, mut theirs) = ([0x5A; ROOM], [0x5A; ROOM]);
        let (mut lent, mut other) = (window(), window());
        let answer = call.done(&mut self.drive, round, &mut lent, &mut ours);
        assert_eq!(answer, call.done(&mut self.model, round, &mut other, &mut theirs), "the answers differ");
        assert!(ours == theirs, "the replies differ");
        assert!(lent == other, "the windows differ");
        answer
    }
}

/// 65,536 bytes of the unit, the most that may be lent.
pub fn window() -> Vec<u8> {
    (0..65_536u32).map(|i| (i.wrapping_mul(2_654_435_761) >> 24) as u8).collect()
}

/// A call, the same for both sides.
pub enum Call {
    Frame {
        frame: Vec<u8>,
        start: u64,
        room: usize,
    },
    /// the data of a WRITE, so many bytes a frame: a frame for each round
    Data(Vec<Vec<u8>>),
    Next {
        address: u32,
        ox_id: u16,
        room: usize,
    },
    Event(Event),
}

impl Call {
    pub fn frame(frame: Vec<u8>) -> Call {
        Call::Frame { frame, start: BLOCK, room: ROOM }
    }

    /// The first frames of this many bytes of the WRITE of an OX_ID.
    pub fn data(ox_id: u16, n: usize, rounds: usize) -> Call {
        Call::Data((0..rounds).map(|i| data(HOSTS[0], ox_id, (i * n) as u32, n)).collect())
    }

    pub fn next(ox_id: u16) -> Call {
        Call::Next { address: HOSTS[0], ox_id, room: ROOM }
    }

    fn done(&self, side: &mut impl Side, round: usize, window: &mut [u8], reply: &mut [u8]) -> u64 {
        match self {
            Call::Frame { frame, start, room } => side.frame(frame, Space { start: *start, bytes: window }, &mut reply[..*room]),
            Call::Data(frames) => side.frame(&frames[round], Space { start: BLOCK, bytes: window }, reply),
            Call::Next { address, ox_id, room } => {
                side.next(*address, *ox_id, Window { start: BLOCK, bytes: window }, &mut reply[..*room])
            }
            Call::Event(event) => side.event(*event),
        }
    }
}
