//! Seeded histories of calls. Each call is chosen with the model's state in view, so that histories reach deep states.

mod calls;
mod frames;
mod moves;
mod plans;
mod writes;

use crate::call::{unhex, Call};
use crate::random::Random;
use model::drive::{Drive, Exchange, Login};
use model::frame::Header;
use model::record::{Answer, Recorder};
use model::setup::LOOP_ADDRESSES;
use std::collections::VecDeque;
use writes::Change;

/// Frames that libfc's own code builds, to own address E8h from address 01h.
const REAL: &str = include_str!("../libfc.frames");

/// What a history is about.
#[derive(Clone, Copy, Debug, PartialEq)]
pub enum Kind {
    /// hosts that come and go seldom: full tables, many open exchanges
    Calm,
    /// hosts that come and go often
    Restless,
    /// much damage of frames, and sweeps over every byte, bit and length
    Damage,
    /// setups and what is no call
    Setups,
    /// a WRITE of three bursts, then a READ of more than 65,536 frames
    Long,
}

impl Kind {
    /// The kind of the history of that number.
    pub fn of(number: usize) -> Kind {
        match number % 8 {
            0 | 3 | 6 => Kind::Calm,
            1 | 5 => Kind::Restless,
            2 | 7 => Kind::Damage,
            _ => Kind::Setups,
        }
    }
}

/// A host as the history plays it.
#[derive(Clone, Copy)]
struct Host {
    address: u32,
    port_name: [u8; 8],
    node_name: [u8; 8],
    size: u32,
}

/// What is to be done next, made into a call when its turn comes.
#[derive(Clone)]
enum Plan {
    /// a call as it is
    Call(Call),
    /// a frame as it is, with room enough
    Frame(Vec<u8>),
    Setup,
    Login(u32),
    Pair(u32),
    Prove(u32),
    /// whatever is missing for a command of that login to pass tests 1 to 3 and 9, in so many steps at most
    Ready(u32, usize),
    /// the same without looking at attention and open exchanges
    Paired(u32, usize),
    Clear(u32),
    /// a READ or, where the unit may be written, at times a WRITE
    Read(u32),
    WriteOut(u32),
    Inquiry(u32),
    Sense(u32),
    Task(u32, u8),
    /// a command under an OX_ID that is open at that login
    Again(u32),
    Event(u8),
    Next(u32, u16),
    /// next frames of an exchange, so many at most
    Drain(u32, u16, usize),
    /// the same with windows that fit
    Exact(u32, u16, usize),
    /// the host of the first address comes back at the second
    Move(u32, u32),
    /// a data frame
    Data(u32, u16),
    /// a write to its end, in so many steps at most, with data frames of so many bytes
    Write(u32, u16, usize, usize),
    /// whatever is missing for a write under that OX_ID to await data, in so many steps at most
    Awaited(u32, u16, usize),
    /// a data frame with one change
    Changed(u32, u16, Change),
}

pub struct History {
    random: Random,
    pub recorder: Recorder,
    kind: Kind,
    plans: VecDeque<Plan>,
    hosts: Vec<Host>,
    /// exchanges opened lately, ended or not
    recent: VecDeque<(u32, u16)>,
    real: Vec<Vec<u8>>,
}

/// The values around the limits of W2 and W18.
const SIZES_GOOD: [u32; 10] = [256, 256, 260, 512, 1024, 1452, 2044, 2048, 2052, 2112];
const SIZES_BAD: [u32; 14] = [0, 4, 252, 255, 257, 258, 259, 1026, 2047, 2111, 2113, 2114, 2116, 4095];

impl History {
    pub fn new(seed: u64, kind: Kind) -> History {
        let real = REAL.lines().filter_map(|l| unhex(l.split_whitespace().nth(1)?)).collect();
        let mut h = History {
            random: Random::new(seed),
            recorder: Recorder::default(),
            kind,
            plans: VecDeque::new(),
            hosts: vec![],
            recent: VecDeque::new(),
            real,
        };
        h.make_hosts(None);
        if kind == Kind::Long {
            h.plan_long_read();
        }
        h
    }

    /// The next call and the model's answer to it.
    pub fn step(&mut self) -> (Call, Vec<u8>, Answer) {
        let call = loop {
            let plan = match self.plans.pop_front() {
                Some(plan) => plan,
                None => match self.choose() {
                    Some(call) => break call,
                    None => continue,
                },
            };
            if let Some(call) = self.carry_out(plan) {
                break call;
            }
        };
        let body = call.full_body();
        let answer = self.recorder.call(call.letter, &body);
        if let Some(fault) = self.drive().and_then(Drive::ill_formed) {
            panic!("the model itself is ill formed: {fault}, after {}", call.line());
        }
        if answer.number == 0 && answer.reply.is_empty() {
            self.note_opened(call.letter, &body);
        }
        if call.letter == b'S' && answer.number == 0 {
            let own = self.own();
            if self.random.chance(500) || self.hosts.iter().any(|h| h.address == own) {
                self.make_hosts(Some(own));
            }
        }
        (call, body, answer)
    }

    /// A frame that was answered in silence: a command opened an exchange.
    fn note_opened(&mut self, letter: u8, body: &[u8]) {
        let front = match letter {
            b'F' => 2,
            b'D' => 12,
            _ => return,
        };
        let frame = &body[front..];
        if frame[0] == 0x06 {
            let h = Header::read(frame);
            self.recent.push_front((h.s_id, h.ox_id));
            self.recent.truncate(40);
        }
    }

    fn drive(&self) -> Option<&Drive> {
        self.recorder.drive.as_ref()
    }

    fn own(&self) -> u32 {
        self.drive().map_or(0xE8, |d| d.setup.address)
    }

    fn capacity(&self) -> u64 {
        self.drive().map_or(1, |d| d.setup.capacity)
    }

    fn login(&self, address: u32) -> Option<&Login> {
        self.drive()?.login(address)
    }

    fn logins(&self) -> impl Iterator<Item = &Login> {
        self.drive().into_iter().flat_map(|d| d.logins.iter().flatten())
    }

    /// The addresses of the logins that are so.
    fn addresses(&self, so: impl Fn(&Login) -> bool) -> Vec<u32> {
        self.logins().filter(|l| so(l)).map(|l| l.address).collect()
    }

    fn open(&self) -> Vec<(u32, u16)> {
        self.logins().flat_map(|l| l.exchanges.iter().flatten().map(|e| (l.address, e.ox_id))).collect()
    }

    fn exchange(&self, address: u32, ox_id: u16) -> Option<(&Login, &Exchange)> {
        let login = self.login(address)?;
        let place = login.place_of(ox_id)?;
        Some((login, login.exchanges[place].as_ref()?))
    }

    fn make_hosts(&mut self, own: Option<u32>) {
        let n = self.random.within(if self.kind == Kind::Calm { 9 } else { 3 }, 12);
        self.hosts.clear();
        while self.hosts.len() < n {
            let address = u32::from(self.random.pick(&LOOP_ADDRESSES));
            if Some(address) == own || self.hosts.iter().any(|h| h.address == address) {
                continue;
            }
            let (port_name, node_name) = (self.name(), self.name());
            let size =
                if self.random.chance(700) { self.random.pick(&SIZES_GOOD) } else { 4 * self.random.within(64, 528) as u32 };
            let mut host = Host { address, port_name, node_name, size };
            if self.random.chance(300) && !self.hosts.is_empty() {
                let other = self.random.pick(&self.hosts);
                self.name_alike(&mut host, other);
            }
            self.hosts.push(host);
        }
    }

    /// A name: any bytes, or a single one that is not 0.
    fn name(&mut self) -> [u8; 8] {
        let mut name = [0; 8];
        if self.random.chance(400) {
            name[self.random.below(8)] = self.random.some_u8();
        } else {
            name.copy_from_slice(&self.random.bytes(8));
            name[0] |= 0x10;
        }
        name
    }

    fn host(&mut self, address: u32) -> Host {
        match self.hosts.iter().find(|h| h.address == address) {
            Some(&host) => host,
            None => {
                let (port_name, node_name) = (self.name(), self.name());
                Host { address, port_name, node_name, size: self.random.pick(&SIZES_GOOD) }
            }
        }
    }

    /// Names to give for a link service: the login's, or else the host's.
    fn names(&mut self, address: u32) -> ([u8; 8], [u8; 8]) {
        if let Some(login) = self.login(address) {
            return (login.parameters.port_name, login.parameters.node_name);
        }
        let host = self.host(address);
        (host.port_name, host.node_name)
    }

    /// An address to send from: mostly one that has a login.
    fn sender(&mut self) -> u32 {
        let logins = self.addresses(|_| true);
        match self.random.below(100) {
            0..=84 if !logins.is_empty() => self.random.pick(&logins),
            85..=97 => {
                let host = self.random.below(self.hosts.len());
                self.hosts[host].address
            }
            98 => u32::from(self.random.pick(&LOOP_ADDRESSES)),
            _ => self.random.pick(&self.hosts).address,
        }
    }

    /// An address to send commands from: mostly one that is paired, in a calm history nearly always.
    fn commander(&mut self) -> u32 {
        let paired = self.addresses(|l| l.paired);
        let strays = if self.kind == Kind::Calm { 4 } else { 30 };
        if paired.is_empty() || self.random.chance(strays) {
            return self.sender();
        }
        self.random.pick(&paired)
    }

    fn ox_id(&mut self) -> u16 {
        match self.random.below(20) {
            0 => self.random.pick(&[0, 0xFFFF, 0x00FF, 0xFF00, 0x0100, 0x0001]),
            1 | 2 => self.random.u16(),
            _ => 0x0100 + self.random.below(48) as u16,
        }
    }

    /// An OX_ID to name: open at that login, or ended lately, or any.
    fn named_ox_id(&mut self, address: u32) -> u16 {
        let open: Vec<u16> = self.open().iter().filter(|e| e.0 == address).map(|e| e.1).collect();
        let recent: Vec<u16> = self.recent.iter().filter(|e| e.0 == address).map(|e| e.1).collect();
        match self.random.below(10) {
            0..=5 if !open.is_empty() => self.random.pick(&open),
            6 | 7 if !recent.is_empty() => self.random.pick(&recent),
            // open at another login, perhaps
            8 if !self.recent.is_empty() => {
                let i = self.random.below(self.recent.len());
                self.recent[i].1
            }
            _ => self.ox_id(),
        }
    }

    fn weighted<T: Copy>(&mut self, of: &[(T, usize)]) -> T {
        let mut at = self.random.below(of.iter().map(|w| w.1).sum());
        for &(value, weight) in of {
            if at < weight {
                return value;
            }
            at -= weight;
        }
        unreachable!()
    }

    /// Chooses what is next; some choices only lay plans.
    fn choose(&mut self) -> Option<Call> {
        if self.drive().is_none() {
            // before there is a drive: a few calls that need one
            return Some(match self.random.below(10) {
                0 => self.no_call(),
                1 => Call::new(b'E', vec![self.random.within(1, 3) as u8]),
                2 => {
                    let frame = self.any_frame();
                    let room = self.room();
                    self.deliver(room, &frame)
                }
                3 => self.some_next(),
                4 | 5 => self.bad_setup(),
                _ => Call::new(b'S', self.setup_body()),
            });
        }
        if self.kind == Kind::Long {
            return Some(self.some_next());
        }
        let full = self.logins().count() == 8;
        let (calm, restless, damage, setups) =
            (self.kind == Kind::Calm, self.kind == Kind::Restless, self.kind == Kind::Damage, self.kind == Kind::Setups);
        let pick = |a: usize, b: usize| if calm { a } else { b };
        let choice = self.weighted(&[
            (0, 360),
            (1, 250),
            (2, 150),
            (3, 25),
            (4, 12),
            (5, 30),
            (6, 20),
            (7, pick(24, 10)),
            (8, if full { 2 } else { pick(120, 30) }),
            (9, if damage { 160 } else { 40 }),
            (10, if restless { 8 } else { 4 }),
            (11, if restless { 6 } else { 2 }),
            (12, if setups { 120 } else { 4 }),
            (13, if setups { 4 } else { usize::from(!calm) }),
            (14, if setups { 60 } else { 6 }),
            (15, if damage { 12 } else { 1 }),
            (16, 6),
            (17, 6),
            (18, if setups { 2 } else { 0 }),
            (19, 1),
            (20, if restless { 12 } else { 6 }),
            (21, 60),
            (22, 2),
            (23, 12),
        ]);
        match choice {
            0 => Some(self.some_next()),
            1 => {
                let s_id = self.commander();
                let frame = self.command_frame(s_id);
                let room = self.room();
                Some(self.deliver(room, &frame))
            }
            2 | 3 | 4 | 5 => {
                let frame = match choice {
                    2 => self.link_frame(),
                    3 => self.abts_frame(),
                    4 => self.done_frame(),
                    _ => self.real_frame(),
                };
                let room = self.room();
                Some(self.deliver(room, &frame))
            }
            // one exchange to its end
            6 => {
                let open = self.open();
                if !open.is_empty() {
                    let (address, ox_id) = self.random.pick(&open);
                    let most = self.random.within(4, 40);
                    self.plans.push_back(Plan::Drain(address, ox_id, most));
                }
                None
            }
            // eight open and a ninth
            7 => {
                let s_id = self.commander();
                self.plan_burst(s_id);
                None
            }
            // all hosts log in and pair
            8 => {
                for host in self.hosts.clone() {
                    if self.login(host.address).is_none() {
                        self.plans.push_back(Plan::Login(host.address));
                        if !self.random.chance(100) {
                            self.plans.push_back(Plan::Pair(host.address));
                        }
                    }
                }
                None
            }
            9 => {
                let mut frame = self.any_frame();
                for _ in 0..self.random.pick(&[1, 1, 1, 1, 2, 2, 3]) {
                    self.damage(&mut frame);
                }
                let room = self.room();
                Some(self.deliver(room, &frame))
            }
            10 => {
                self.plan_loop_reset();
                None
            }
            11 => {
                let event = self.weighted(&[(1, 2), (2, 4), (3, 2)]);
                Some(Call::new(b'E', vec![event]))
            }
            12 => Some(self.bad_setup()),
            13 => Some(Call::new(b'S', self.setup_body())),
            14 => Some(self.no_call()),
            15 => {
                self.plan_sweep();
                None
            }
            16 => {
                self.plan_task();
                None
            }
            17 => {
                self.plan_sense();
                None
            }
            18 => {
                self.plan_address_sweep();
                None
            }
            19 => {
                self.plan_many_frames();
                None
            }
            20 => {
                self.plan_move();
                None
            }
            21 => Some(self.some_data()),
            22 => {
                self.plan_bursts();
                None
            }
            _ => {
                self.plan_write();
                None
            }
        }
    }
}

#[cfg(test)]
mod tests {
    use super::{History, Kind};
    use crate::call::Call;

    /// The same seed gives the same history, and each call is read back from its line.
    #[test]
    fn replay() {
        for kind in [Kind::Calm, Kind::Restless, Kind::Damage, Kind::Setups, Kind::Long] {
            let (mut one, mut other) = (History::new(7, kind), History::new(7, kind));
            for _ in 0..3_000 {
                let (call, body, answer) = one.step();
                assert_eq!(other.step(), (call.clone(), body, answer));
                assert_eq!(Call::parse(&call.line()), Some(call));
            }
        }
    }
}
