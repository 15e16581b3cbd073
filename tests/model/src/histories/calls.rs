//! Records: frames with room, next frames with windows, setups, and what is no call. Those of writes are in `writes.rs`.

use super::{History, Kind, SIZES_GOOD};
use crate::call::{record, Call};
use model::drive::{Source, WINDOW};
use model::setup::LOOP_ADDRESSES;

impl History {
    /// Room for a reply: mostly enough.
    pub(super) fn room(&mut self) -> u16 {
        match self.random.below(200) {
            0 => self.random.below(2136) as u16,
            1 => 2135,
            2 => 0,
            3 => 4097,
            4 => self.random.within(4097, 65_535) as u16,
            5 => 4096,
            6..=20 => self.random.within(2136, 4096) as u16,
            _ => 2136,
        }
    }

    pub(super) fn send(&mut self, room: u16, frame: &[u8]) -> Call {
        let mut body = room.to_be_bytes().to_vec();
        body.extend(frame);
        Call::new(b'F', body)
    }

    pub(super) fn next_record(&mut self, address: u32, ox_id: u16, room: u16, start: u64, length: usize) -> Call {
        let mut body = address.to_be_bytes().to_vec();
        body.extend(ox_id.to_be_bytes());
        body.extend(room.to_be_bytes());
        body.extend(start.to_be_bytes());
        let seed = self.random.u32();
        Call { letter: b'N', body, tail: length, seed: if length > 0 { seed } else { 0 } }
    }

    /// The position and number of bytes of the next frame, where it carries READ data.
    pub(super) fn wants(&self, address: u32, ox_id: u16) -> Option<(u64, usize)> {
        let (login, e) = self.exchange(address, ox_id)?;
        let Source::Unit(start) = e.source else { return None };
        if e.sent == e.total() {
            return None;
        }
        let n = login.parameters.size.min(2048).min(e.total() - e.sent);
        Some((start * 512 + u64::from(e.sent), n as usize))
    }

    /// A start and length that fit exactly.
    pub(super) fn exact_window(&self, address: u32, ox_id: u16) -> (u64, usize) {
        self.wants(address, ox_id).map_or((0, 0), |(position, n)| (position / 512, (position % 512) as usize + n))
    }

    /// A window that need not cover: for made data, FCP_RSP, and refusals.
    pub(super) fn any_window(&mut self) -> (u64, usize) {
        let start = match self.random.below(6) {
            0 => u64::MAX,
            1 => 1 << 55,
            2 => self.random.u64(),
            3 => self.capacity(),
            _ => 0,
        };
        let length = match self.random.below(180) {
            0 => WINDOW,
            1 => WINDOW + 1,
            2 => self.random.within(WINDOW + 1, 69_984),
            3..=60 => self.random.below(600),
            _ => 0,
        };
        (start, length)
    }

    /// A window for the next frame: mostly one that covers, at times just not.
    pub(super) fn window(&mut self, address: u32, ox_id: u16) -> (u64, usize) {
        match self.wants(address, ox_id) {
            Some((position, n)) => self.fit(position, n, 330),
            None => self.any_window(),
        }
    }

    /// A window for the `n` bytes at `position`: mostly one that covers, at times just not. Long ones in `long` of 25,000.
    pub(super) fn fit(&mut self, position: u64, n: usize, long: usize) -> (u64, usize) {
        let (start, inside) = (position / 512, (position % 512) as usize);
        let exact = inside + n;
        match self.random.below(100) {
            // long windows seldom
            72 | 73 | 90 | 91 if !self.random.chance(long) => (start, exact),
            0..=44 => (start, exact),
            45..=59 => (start, exact + self.random.below(64)),
            60..=71 => {
                let back = (self.random.within(1, 3) as u64).min(start);
                (start - back, exact + 512 * back as usize)
            }
            72 => {
                // as far back as a window can reach
                let back = (((WINDOW - exact) / 512) as u64).min(start);
                (start - back, WINDOW)
            }
            73 => (start, WINDOW),
            74..=80 => (start, exact.saturating_sub(1)),
            81 | 82 => (start, inside),
            83..=86 => (start + 1, exact + 512),
            87 => (start + 1, exact.saturating_sub(512)),
            88 => {
                let back = (self.random.within(1, 3) as u64).min(start);
                (start - back, (exact + 512 * back as usize).saturating_sub(1))
            }
            89 => (start, self.random.below(exact.max(1))),
            90 => (start, WINDOW + 1),
            91 => {
                let back = 128.min(start);
                (start - back, self.random.within(WINDOW + 1, 69_984))
            }
            // start·512 goes round 64 bits to the right byte
            92..=94 => (start + ((self.random.within(1, 511) as u64) << 55), exact),
            // start·512 goes round 32 bits to the right byte, or start itself does
            95 => (start ^ 8_388_608, exact),
            96 => (start + (1 << 32), exact),
            97 => (start << 9, exact + n),
            _ => self.any_window(),
        }
    }

    pub(super) fn next_call(&mut self, address: u32, ox_id: u16) -> Call {
        let (start, length) = self.window(address, ox_id);
        let room = self.room();
        self.next_record(address, ox_id, room, start, length)
    }

    /// A next frame of some exchange, open or ended or never there.
    pub(super) fn some_next(&mut self) -> Call {
        let open = self.open();
        let (mut address, mut ox_id) = match self.random.below(100) {
            0..=89 if !open.is_empty() => self.random.pick(&open),
            90..=95 if !self.recent.is_empty() => {
                let i = self.random.below(self.recent.len());
                self.recent[i]
            }
            _ => (self.sender(), self.ox_id()),
        };
        // a write that awaits data mostly gets some
        if self.awaited(address, ox_id) && self.random.chance(850) {
            return self.data_call(address, ox_id);
        }
        match self.random.below(150) {
            0 => address |= 1 << self.random.within(8, 31),
            1 => address = self.own(),
            2 => address = self.random.u32(),
            3 => ox_id ^= 1 << self.random.below(16),
            4 => ox_id = ox_id.swap_bytes(),
            5 => address = self.sender(),
            _ => {}
        }
        self.next_call(address, ox_id)
    }

    pub(super) fn setup_body(&mut self) -> Vec<u8> {
        let capacity: u64 = match self.random.below(10) {
            0 => 1,
            1 => 100,
            2 => self.random.pick(&[2, 65_535, 65_536, 70_000]),
            3..=5 => 8_388_608 + self.random.below(70_000) as u64,
            6 | 7 => 4_294_967_295,
            8 => 1 + u64::from(self.random.u32() >> self.random.below(32)),
            _ => 1 + self.random.below(4_000) as u64,
        };
        let capacity = capacity.min(4_294_967_295);
        let own = u32::from(if self.random.chance(300) { 0xE8 } else { self.random.pick(&LOOP_ADDRESSES) });
        let (port_name, node_name) = (self.name(), self.name());
        let size = self.random.pick(&SIZES_GOOD);
        let mut words = self.words(port_name, node_name, size);
        words[77] = 1;
        let mut body = capacity.to_be_bytes().to_vec();
        body.extend(own.to_be_bytes());
        body.extend(self.random.bytes(28));
        body.extend(words);
        body.push(u8::from(self.random.chance(850)));
        body
    }

    /// A setup that breaks a rule, or two.
    pub(super) fn bad_setup(&mut self) -> Call {
        let mut body = self.setup_body();
        for _ in 0..self.random.pick(&[1, 1, 2]) {
            match self.random.below(9) {
                0 | 6 => {
                    let capacity = self.random.pick(&[0, 1 << 32, (1 << 32) + 1, u64::MAX, 1 << 63, 0x0000_0001_0000_0064]);
                    body[0..8].copy_from_slice(&capacity.to_be_bytes());
                }
                1 => body[11] = self.random.u8(),
                2 => body[self.random.within(8, 10)] = 1 << self.random.below(8),
                3 => body[117] = self.random.pick(&[0, 2, 3, 0x81, 0xFF]),
                4 => body[152] = self.random.pick(&[2, 2, 3, 0x10, 0x80, 0x81, 0xFF]),
                _ => self.break_words(&mut body[40..152]),
            }
        }
        Call::new(b'S', body)
    }

    /// What is no call, or only just one.
    pub(super) fn no_call(&mut self) -> Call {
        match self.random.below(14) {
            0 => {
                let letter = self.random.u8();
                let n = self.random.below(20);
                Call::new(letter, self.random.bytes(n))
            }
            1 => Call::new(self.random.pick(b"sfnedTRMO\0"), self.setup_body()),
            2 => Call::new(b'E', vec![self.random.pick(&[0, 4, 5, 0x80, 0xFF])]),
            3 => Call::new(b'E', vec![]),
            4 => {
                let n = self.random.pick(&[0, 1]);
                Call::new(b'F', self.random.bytes(n))
            }
            5 => {
                let n = self.random.pick(&[0, 1, 8, 14, 15]);
                Call::new(b'N', self.random.bytes(n))
            }
            6 => {
                let mut body = self.setup_body();
                body.truncate(self.random.pick(&[0, 1, 12, 40, 100, 151, 152, 152]));
                Call::new(b'S', body)
            }
            7 if self.random.chance(600) => {
                let letter = self.random.pick(b"SFNEDX");
                let mut body = if letter == b'S' { self.setup_body() } else { self.room().to_be_bytes().to_vec() };
                if letter == b'E' {
                    body = vec![1];
                }
                let tail = self.random.pick(&[70_000, 70_001, 70_300]) - body.len();
                Call { letter, body, tail, seed: 1 }
            }
            8 => {
                // a frame of no bytes, or only room
                let room = self.room();
                self.send(room, &[])
            }
            9 => {
                let frame = self.any_frame();
                let room = self.random.pick(&[4_097, 0xFFFF, 0x8858, 2_135, 0]);
                self.send(room, &frame)
            }
            10 if self.kind == Kind::Setups => {
                // longer than its call
                let mut body = self.setup_body();
                let more = self.random.within(1, 9);
                body.extend(self.random.bytes(more));
                Call::new(b'S', body)
            }
            11 if self.random.chance(300) => Call::new(b'E', vec![1, 3]),
            12 | 13 => self.no_data_call(),
            _ => Call::new(self.random.pick(b"XYZ"), vec![]),
        }
    }

    /// A `D` that is no call, or only just one: cut, with a frame length past its body or up to its end, or with too much room.
    fn no_data_call(&mut self) -> Call {
        let frame = self.any_frame();
        let room = self.random.pick(&[2_136, 2_136, 2_136, 4_096, 4_097, 0, 2_135]);
        let length = self.random.pick(&[0, 0, 1, 40]);
        let mut call = self.data_record(room, 0, &frame, length);
        match self.random.below(6) {
            0 => {
                call = Call::new(b'D', call.body);
                let n = self.random.pick(&[0, 1, 2, 9, 10, 11]);
                call.body.truncate(n);
            }
            1 | 2 => {
                // the frame length one more than there is, or much more
                let more = self.random.pick(&[1, 1, 4, 30_000]);
                let past = (frame.len() + length + more) as u16;
                call.body[10..12].copy_from_slice(&past.to_be_bytes());
            }
            3 => call.body[10..12].fill(0),
            4 => {
                // the window is the frame's end
                let whole = (frame.len() + length) as u16;
                call.body[10..12].copy_from_slice(&whole.to_be_bytes());
            }
            _ => {}
        }
        call
    }

    /// The front part of a record, which ends the recorder.
    pub fn cut_record(&mut self) -> Vec<u8> {
        let frame = self.any_frame();
        let call = self.send(2136, &frame);
        let mut bytes = record(call.letter, &call.full_body());
        let n = self.random.below(bytes.len());
        bytes.truncate(n);
        bytes
    }
}
