//! What is timed: a state, and a call on it.
use crate::drive::Event;
use crate::rule;
use crate::scene::{
    data, logo, plogi, plogi_as, read, target_reset, test_unit_ready, unknown, write, Both, Call, BLOCK, HOSTS, NEW, ROOM,
};
use crate::side::REFUSED;

pub struct Row {
    pub name: &'static str,
    pub from: Both,
    pub call: Call,
    /// calls on one state before it is put back as it was
    pub rounds: usize,
    /// what each of them answers
    pub answer: u64,
    /// bytes of data in the reply, or in the frame
    pub data: usize,
}

/// Rounds of a call that leaves the state as it is, or a READ or WRITE with frames to spare: a burst of 2,048 bytes a frame.
pub const MANY: usize = 32;
const SHORT: usize = ROOM - 1;
const READ: u16 = 0x1000;
const WRITE: u16 = 0x1000;

impl Row {
    fn new(name: &'static str, from: Both, call: Call, rounds: usize, answer: u64) -> Row {
        Row { name, from, call, rounds, answer, data: 0 }
    }

    /// A data frame of a READ of 256 blocks.
    fn data(name: &'static str, from: Both, data: usize) -> Row {
        Row { data, ..Row::new(name, from, Call::next(READ), MANY, 24 + data as u64) }
    }

    /// Data frames of a WRITE of 256 blocks.
    fn data_in(name: &'static str, from: Both, data: usize) -> Row {
        Row { data, ..Row::new(name, from, Call::data(WRITE, data, MANY), MANY, 0) }
    }

    fn refused(name: &'static str, from: Both, call: Call, number: u64) -> Row {
        Row::new(name, from, call, MANY, REFUSED + number)
    }

    /// The state is not well formed: the model without the test has no answer to that.
    pub fn is_ill_formed(&self) -> bool {
        self.answer == REFUSED + 2
    }

    /// Drive and model do all calls of a batch once and answer alike, byte for byte, and as the row says.
    pub fn check(&self) {
        let mut both = self.from.clone();
        assert_eq!(rule::well_formed(&both.drive.unit, &both.drive.port), !self.is_ill_formed(), "{}", self.name);
        for i in 0..self.rounds {
            assert_eq!(both.does_round(&self.call, i), self.answer, "{}", self.name);
        }
    }
}

pub fn rows() -> Vec<Row> {
    let mut rows = entries();
    rows.extend(refusals());
    rows.extend(formed());
    rows
}

/// One login with a READ open.
fn reading(size: u16) -> Both {
    Both::one(size).after(&Call::frame(read(HOSTS[0], READ, 256)))
}

/// One login with a READ whose data are all sent.
fn sent() -> Both {
    let one = Both::one(2048).after(&Call::frame(read(HOSTS[0], READ, 4)));
    one.after(&Call::next(READ))
}

/// One login with a WRITE open.
fn writing(size: u16) -> Both {
    Both::one(size).after(&Call::frame(write(HOSTS[0], WRITE, 256)))
}

/// Its data are awaited.
fn awaited(from: Both) -> Both {
    from.after(&Call::next(WRITE))
}

fn entries() -> Vec<Row> {
    let host = HOSTS[0];
    vec![
        Row::new("PLOGI to ACC", Both::empty(), Call::frame(plogi(host, 2048)), 1, 140),
        Row::new("PLOGI moved, one READ", reading(2048), Call::frame(plogi_as(NEW, host, 2048)), 1, 140),
        Row::new("PLOGI moved, full drive", Both::full(2048), Call::frame(plogi_as(NEW, HOSTS[7], 2048)), 1, 140),
        Row::new("LOGO to ACC", Both::one(2048), Call::frame(logo(host)), 1, 28),
        Row::new("TEST UNIT READY", Both::one(2048), Call::frame(test_unit_ready(host)), MANY, 48),
        Row::new("READ opened", Both::one(2048), Call::frame(read(host, READ, 256)), 1, 0),
        Row::new("target reset", reading(2048), Call::frame(target_reset(host)), MANY, 56),
        Row::data("data frame 2,048", reading(2048), 2048),
        Row::data("data frame 256", reading(256), 256),
        Row::new("FCP_RSP after data", sent(), Call::next(READ), 1, 48),
        Row::data("data frame 2,048, full", Both::full(2048), 2048),
        Row::data("data frame 256, full", Both::full(256), 256),
        Row::new("WRITE opened", Both::one(2048), Call::frame(write(host, WRITE, 256)), 1, 0),
        Row::new("FCP_XFER_RDY", writing(2048), Call::next(WRITE), 1, 36),
        Row::new("next, awaited", awaited(writing(2048)), Call::next(WRITE), MANY, 0),
        Row::data_in("data in 2,048", awaited(writing(2048)), 2048),
        Row::data_in("data in 256", awaited(writing(2048)), 256),
        Row::data_in("data in 2,048, full", awaited(Both::full_writing(2048)), 2048),
        Row::data_in("data in 256, full", awaited(Both::full_writing(2048)), 256),
        Row::new("loop reset", reading(2048), Call::Event(Event::LoopReset), MANY, 0),
        Row::new("loop reset, full", Both::full(2048), Call::Event(Event::LoopReset), MANY, 0),
        Row::new("time over", reading(2048), Call::Event(Event::TimeOver), MANY, 0),
        Row::new("power on", reading(2048), Call::Event(Event::PowerOn), 1, 0),
        Row::new("power on, full", Both::full(2048), Call::Event(Event::PowerOn), 1, 0),
    ]
}

fn refusals() -> Vec<Row> {
    let host = HOSTS[0];
    let ready = || test_unit_ready(host);
    let short = Call::Frame { frame: ready(), start: BLOCK, room: SHORT };
    let beside = Call::Frame { frame: data(host, WRITE, 0, 2048), start: BLOCK + 1, room: ROOM };
    let short_next = Call::Next { address: host, ox_id: READ, room: SHORT };
    vec![
        Row::refused("frame in, refusal 1", reading(2048), short, 1),
        Row::refused("next, refusal 1", reading(2048), short_next, 1),
        Row::refused("refusal 2, full", ill_formed(), Call::frame(ready()), 2),
        Row::refused("refusal 3", reading(2048), Call::frame(ready()[..20].to_vec()), 3),
        Row::refused("refusal 6", reading(2048), Call::frame(unknown(host)), 6),
        Row::refused("frame in, refusal 7", reading(2048).after(&Call::Event(Event::LoopReset)), Call::frame(ready()), 7),
        Row::refused("next, refusal 7", reading(2048).after(&Call::Event(Event::LoopReset)), Call::next(READ), 7),
        Row::refused("refusal 9", reading(2048), Call::next(READ + 9), 9),
        Row::refused("data in, refusal 10", awaited(writing(2048)), beside, 10),
        Row::refused("refusal 11", awaited(writing(2048)), Call::frame(data(host, WRITE + 9, 0, 2048)), 11),
    ]
}

/// A full drive, in whose last exchange more was sent than there is.
fn ill_formed() -> Both {
    let mut b = Both::full(2048);
    b.drive.port.logins[7].places[7].sent += 262_144 + 1;
    b.model.0.logins[7].as_mut().unwrap().exchanges[7].as_mut().unwrap().sent += 262_144 + 1;
    b
}

/// The well formed test, seen through the refusal that comes next after it: a frame of no bytes, refusal 3.
fn formed() -> Vec<Row> {
    let none = || Call::frame(vec![]);
    vec![
        Row::refused("well_formed, empty", Both::empty(), none(), 3),
        Row::refused("well_formed, one READ", reading(2048), none(), 3),
        Row::refused("well_formed, full", Both::full(2048), none(), 3),
    ]
}
