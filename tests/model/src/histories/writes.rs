//! Writing from the host (02, request 2): data frames right and wrong, the windows lent with them, and writes of one burst and of several.

use super::{History, Kind, Plan};
use crate::call::Call;
use model::drive::Source;
use model::frame::Header;
use model::write::BURST;

/// What a data frame of an open write is about.
#[derive(Clone, Copy)]
struct Due {
    /// the next byte of the unit
    position: u64,
    /// the next offset
    offset: u32,
    /// bytes left of the burst last asked for
    burst: u32,
}

/// A change to a data frame that was right.
#[derive(Clone, Copy)]
pub(super) enum Change {
    Byte(usize, u8),
    Length(usize),
}

impl History {
    pub(super) fn writable(&self) -> bool {
        self.drive().is_some_and(|d| d.setup.allows_writing())
    }

    fn due(&self, address: u32, ox_id: u16) -> Option<Due> {
        let (_, e) = self.exchange(address, ox_id)?;
        let Source::Host(start) = e.source else { return None };
        Some(Due { position: start * 512 + u64::from(e.sent), offset: e.sent, burst: e.asked - e.sent })
    }

    pub(super) fn awaited(&self, address: u32, ox_id: u16) -> bool {
        self.exchange(address, ox_id).is_some_and(|(_, e)| e.awaited())
    }

    /// A data frame of `n` bytes, its fill bytes any.
    fn data_frame(&mut self, s_id: u32, ox_id: u16, offset: u32, n: usize) -> Vec<u8> {
        let fill = (4 - n % 4) % 4;
        let mut h = self.header(0x01, 0x08, s_id, ox_id);
        h.f_ctl = h.f_ctl & 0xFF_FFFC | fill as u32;
        h.offset = offset;
        h.seq_cnt = match self.random.below(4) {
            0 => 0,
            1 => self.random.u16(),
            _ => (offset / 2_048) as u16,
        };
        let mut frame = h.bytes();
        frame.extend(self.random.bytes(n + fill));
        frame
    }

    /// How many bytes a data frame carries: mostly few, at times as many as fit, at times more than the burst has left.
    fn data_size(&mut self, burst: u32) -> usize {
        let n = match self.random.below(100) {
            0..=4 => 0,
            5..=19 => self.random.within(1, 16),
            20..=39 => self.random.within(1, 520),
            40..=54 => 512,
            55..=62 => self.random.within(1, 2_112),
            63..=68 => self.random.pick(&[2_048, 2_112, 2_111, 2_109, 2_052, 1_024]),
            69..=96 => burst as usize,
            _ => return self.random.within(1, 4) + burst as usize,
        };
        n.min(burst as usize)
    }

    /// Another offset than the next.
    fn wrong_offset(&mut self, due: Due, n: usize) -> u32 {
        let offset = due.offset;
        let other = match self.random.below(12) {
            0 => offset.wrapping_add(1),
            1 => offset.wrapping_sub(1),
            2 => offset.wrapping_add(4),
            3 => offset.wrapping_sub(4),
            4 => offset.wrapping_add(n as u32),
            5 => offset.wrapping_sub(n as u32),
            6 => offset + due.burst,
            7 => offset ^ 1 << self.random.below(32),
            8 => due.position as u32,
            9 => offset + BURST,
            10 => self.random.u32(),
            _ => 0,
        };
        if other == offset {
            offset ^ 4
        } else {
            other
        }
    }

    /// A data frame of that write, mostly one that is taken.
    pub(super) fn some_data_frame(&mut self, s_id: u32, ox_id: u16) -> Vec<u8> {
        let Some(due) = self.due(s_id, ox_id) else {
            let offset = if self.random.chance(700) { 0 } else { self.random.u32() };
            let n = self.random.pick(&[0, 1, 4, 509, 512, 512]);
            return self.data_frame(s_id, ox_id, offset, n);
        };
        let mut n = self.data_size(due.burst).min(2_112);
        if due.burst == 0 {
            n = self.random.pick(&[0, 0, 1, 4, 512]);
        }
        let offset = if self.random.chance(40) { self.wrong_offset(due, n) } else { due.offset };
        let mut frame = self.data_frame(s_id, ox_id, offset, n);
        match self.random.below(400) {
            0 => frame[13] = 1 << self.random.below(8),
            1..=40 if n == 0 => frame[11] |= self.random.within(1, 3) as u8,
            _ => {}
        }
        frame
    }

    pub(super) fn data_record(&mut self, room: u16, start: u64, frame: &[u8], length: usize) -> Call {
        let mut body = room.to_be_bytes().to_vec();
        body.extend(start.to_be_bytes());
        body.extend((frame.len() as u16).to_be_bytes());
        body.extend(frame);
        let seed = self.random.u32();
        Call { letter: b'D', body, tail: length, seed: if length > 0 { seed } else { 0 } }
    }

    /// A window for a frame: for the bytes of a data frame mostly one that covers; else any.
    fn window_for(&mut self, frame: &[u8]) -> (u64, usize) {
        if frame.len() >= 24 && frame[0] == 0x01 {
            let h = Header::read(frame);
            if let Some(due) = self.due(h.s_id, h.ox_id) {
                return self.fit(due.position, frame.len() - 24 - h.fill().min(frame.len() - 24), 200);
            }
        }
        self.any_window()
    }

    /// A frame by `F`, or by `D` with a window: a data frame nearly always, another frame seldom.
    pub(super) fn deliver(&mut self, room: u16, frame: &[u8]) -> Call {
        let data = frame.len() >= 24 && frame[0] == 0x01;
        if frame.len() > 65_535 || !self.random.chance(if data { 950 } else { 25 }) {
            return self.send(room, frame);
        }
        let (start, length) = self.window_for(frame);
        self.data_record(room, start, frame, length)
    }

    pub(super) fn data_call(&mut self, address: u32, ox_id: u16) -> Call {
        let frame = self.some_data_frame(address, ox_id);
        let room = self.room();
        self.deliver(room, &frame)
    }

    /// A data frame for some exchange: mostly for a write whose data is awaited.
    pub(super) fn some_data(&mut self) -> Call {
        let open = self.open();
        let (writes, others): (Vec<_>, Vec<_>) = open.iter().partition(|(a, o)| self.due(*a, *o).is_some());
        let (awaited, idle): (Vec<_>, Vec<_>) = writes.iter().partition(|(a, o)| self.awaited(*a, *o));
        let (mut address, mut ox_id) = match self.random.below(100) {
            0..=69 if !awaited.is_empty() => self.random.pick(&awaited),
            70..=79 if !idle.is_empty() => self.random.pick(&idle),
            80..=85 if !others.is_empty() => self.random.pick(&others),
            86..=90 if !self.recent.is_empty() => {
                let i = self.random.below(self.recent.len());
                self.recent[i]
            }
            91..=94 if !open.is_empty() => {
                let ox_id = self.random.pick(&open).1;
                (self.sender(), ox_id)
            }
            _ => {
                let s_id = self.sender();
                (s_id, self.named_ox_id(s_id))
            }
        };
        match self.random.below(150) {
            0 => address = self.random.pick(&self.hosts).address,
            1 => ox_id ^= 1 << self.random.below(16),
            2 => ox_id = ox_id.swap_bytes(),
            _ => {}
        }
        self.data_call(address, ox_id)
    }

    /// The next step of a write: its next frame, or a data frame that fits, of `most` bytes at most; seldom something else.
    pub(super) fn write_step(&mut self, address: u32, ox_id: u16, most: usize) -> Call {
        let due = self.due(address, ox_id).unwrap();
        let strays = self.kind != Kind::Long;
        if due.burst == 0 {
            // between two bursts, or before the first, or after the last
            if strays && self.random.chance(if due.offset > 0 { 250 } else { 60 }) {
                return self.data_call(address, ox_id);
            }
            return self.next_record(address, ox_id, 2136, 0, 0);
        }
        if due.offset % BURST == 0 && self.random.chance(300) || strays && self.random.chance(8) {
            return self.next_call(address, ox_id);
        }
        if strays && self.random.chance(4) {
            return self.data_call(address, ox_id);
        }
        let n = most.min(due.burst as usize);
        let frame = self.data_frame(address, ox_id, due.offset, n);
        self.data_record(2136, due.position / 512, &frame, (due.position % 512) as usize + n)
    }

    /// A WRITE of so many blocks from that one on, of which FCP_DL bytes are to come.
    pub(super) fn write_frame(&mut self, s_id: u32, ox_id: u16, address: u32, count: u16, fcp_dl: u32) -> Vec<u8> {
        let mut cdb = vec![0x2A, 0];
        cdb.extend(address.to_be_bytes());
        cdb.push(0);
        cdb.extend(count.to_be_bytes());
        let payload = self.cmnd([0; 8], 0, 1, &cdb, fcp_dl);
        self.frame(0x06, 0x08, s_id, ox_id, &payload)
    }

    /// A WRITE of a few blocks, part of its data or all, then something that ends it; and whether it is gone.
    pub(super) fn plan_write(&mut self) {
        let s_id = self.commander();
        if !self.writable() {
            return;
        }
        let frame = self.clean_command(s_id, 0x2A);
        let ox_id = Header::read(&frame).ox_id;
        let steps = self.random.within(1, 12);
        let most = self.random.pick(&[3, 64, 300, 511, 512, 512, 513, 1_024, 2_048, 2_112]);
        self.plans.extend([Plan::Ready(s_id, 6), Plan::Frame(frame), Plan::Write(s_id, ox_id, steps, most)]);
        let end = match self.random.below(12) {
            0 | 1 => Plan::Frame(self.frame(0x81, 0x00, s_id, ox_id, &[])),
            2 | 3 => {
                let code = self.random.pick(&[0x2A, 0x28, 0x12, 0x00]);
                let mut frame = self.clean_command(s_id, code);
                frame[16..18].copy_from_slice(&ox_id.to_be_bytes());
                Plan::Frame(frame)
            }
            4 => Plan::Task(s_id, self.random.pick(&[0x02, 0x02, 0x04])),
            5 => {
                let payload = self.link_payload(0x21, s_id);
                Plan::Frame(self.frame(0x22, 0x01, s_id, 1, &payload))
            }
            6 => Plan::Write(s_id, ox_id, 20, 2_048),
            _ => Plan::Data(s_id, ox_id),
        };
        self.plans.push_back(end);
        if self.random.chance(700) {
            self.plans.extend([Plan::Data(s_id, ox_id), Plan::Next(s_id, ox_id)]);
        }
    }

    /// A WRITE of one to three bursts, often at a burst's very end.
    pub(super) fn plan_bursts(&mut self) {
        let s_id = self.commander();
        if self.capacity() < 300 || !self.writable() {
            return;
        }
        let count = self.random.pick(&[127, 128, 129, 200, 256, 257]);
        let address = match self.random.below(3) {
            0 => self.capacity() - u64::from(count),
            1 if self.capacity() > 8_388_608 + 300 => 8_388_608 - self.random.below(count.into()) as u64,
            _ => self.random.u64() % (self.capacity() - u64::from(count) + 1),
        };
        let wanted = u32::from(count) * 512;
        let fcp_dl = match self.random.below(8) {
            0 => 65_535,
            1 => 65_536,
            2 => 65_537,
            3 => wanted + 1_024,
            4 => wanted - self.random.within(1, 600) as u32,
            _ => wanted,
        };
        let ox_id = self.random.u16();
        let frame = self.write_frame(s_id, ox_id, address as u32, count, fcp_dl);
        let most = self.random.pick(&[2_112, 2_112, 2_048, 2_048, 2_047, 1_500]);
        self.plans.extend([Plan::Ready(s_id, 6), Plan::Frame(frame), Plan::Write(s_id, ox_id, 200, most)]);
    }

    /// A data frame tried with each byte, bit or length changed; before each a write awaits it.
    pub(super) fn plan_data_sweep(&mut self) {
        let s_id = self.commander();
        if self.capacity() < 60 || !self.writable() {
            return;
        }
        let ox_id = self.ox_id();
        let changes: Vec<Change> = match self.random.below(3) {
            0 => (0..24 + 12).map(|i| Change::Byte(i, self.random.some_u8())).collect(),
            1 => (0..8 * 24).map(|i| Change::Byte(i / 8, 0x80 >> (i % 8))).collect(),
            _ => (0..48).chain(2_130..2_142).map(Change::Length).collect(),
        };
        for change in changes {
            self.plans.extend([Plan::Awaited(s_id, ox_id, 10), Plan::Changed(s_id, ox_id, change)]);
        }
    }

    /// What is missing for a write under that OX_ID to await data.
    pub(super) fn missing_for_data(&mut self, address: u32, ox_id: u16) -> Option<Vec<Plan>> {
        Some(match self.exchange(address, ox_id) {
            Some((_, e)) if e.awaited() => return None,
            Some((_, e)) if e.writes() => vec![Plan::Next(address, ox_id)],
            Some(_) => vec![Plan::Task(address, 0x02)],
            None => {
                let at = self.random.u64() % (self.capacity().max(60) - 59);
                let frame = self.write_frame(address, ox_id, at as u32, 60, 30_720);
                vec![Plan::Ready(address, 6), Plan::Frame(frame)]
            }
        })
    }

    /// A data frame of 9 bytes that would be taken, but for the change.
    pub(super) fn changed_data(&mut self, address: u32, ox_id: u16, change: Change) -> Option<Call> {
        let due = self.due(address, ox_id)?;
        let mut frame = self.data_frame(address, ox_id, due.offset, 9);
        match change {
            Change::Byte(i, xor) => frame[i] ^= xor,
            Change::Length(n) => frame.resize(n, 0x77),
        }
        let length = (due.position % 512) as usize + if frame.len() > 100 { 2_200 } else { 40 };
        Some(self.data_record(2136, due.position / 512, &frame, length))
    }

    /// A WRITE of 257 blocks across byte 4,294,967,296: bursts of 65,536, 65,536 and 512 bytes.
    pub(super) fn plan_long_write(&mut self, host: u32, ox_id: u16) {
        let frame = self.write_frame(host, ox_id, 8_388_500, 257, 131_584);
        self.plans.extend([Plan::Frame(frame), Plan::Write(host, ox_id, 200, 2_048)]);
    }
}
