//! Frames that hosts send, right and wrong.

use super::{History, Kind, SIZES_BAD, SIZES_GOOD};
use model::frame::Header;
use model::link::SIZES;

impl History {
    pub(super) fn header(&mut self, r_ctl: u8, kind: u8, s_id: u32, ox_id: u16) -> Header {
        let noise = self.random.chance(300);
        Header {
            r_ctl,
            d_id: self.own(),
            reserved: if noise { self.random.u8() } else { 0 },
            s_id,
            kind,
            f_ctl: if noise { self.random.u32() & 0xFF_FFFC } else { 0x290000 },
            seq_id: if noise { self.random.u8() } else { 0 },
            df_ctl: 0,
            seq_cnt: 0,
            ox_id,
            rx_id: if noise { self.random.u16() } else { 0xFFFF },
            offset: if noise { self.random.u32() } else { 0 },
        }
    }

    pub(super) fn frame(&mut self, r_ctl: u8, kind: u8, s_id: u32, ox_id: u16, payload: &[u8]) -> Vec<u8> {
        let mut frame = self.header(r_ctl, kind, s_id, ox_id).bytes();
        frame.extend(payload);
        frame
    }

    /// Bytes that 01 does not name: zeros, or any.
    pub(super) fn noise(&mut self, n: usize) -> Vec<u8> {
        if self.random.chance(500) {
            vec![0; n]
        } else {
            self.random.bytes(n)
        }
    }

    /// Words 1 to 28 that pass the PLOGI rules.
    pub(super) fn words(&mut self, port_name: [u8; 8], node_name: [u8; 8], size: u32) -> Vec<u8> {
        let mut w = self.noise(112);
        let common = if self.random.chance(500) { size } else { self.random.pick(&SIZES_GOOD) };
        self.put_size(&mut w, 2, common);
        w[16..24].copy_from_slice(&port_name);
        w[24..32].copy_from_slice(&node_name);
        w[64] |= 0x80;
        self.put_size(&mut w, 18, size);
        w[73] = if self.random.chance(500) { 1 } else { self.random.some_u8() };
        w[77] = if self.random.chance(500) { 1 } else { self.random.some_u8() };
        w
    }

    /// The low 12 bits of bytes 2 and 3 of a word; the upper 4 are any.
    pub(super) fn put_size(&mut self, words: &mut [u8], word: usize, size: u32) {
        let upper = if self.random.chance(500) { self.random.u16() & 0xF000 } else { 0 };
        words[4 * (word - 1) + 2..4 * word].copy_from_slice(&(size as u16 | upper).to_be_bytes());
    }

    /// Breaks one of the seven PLOGI rules.
    pub(super) fn break_words(&mut self, words: &mut [u8]) {
        let bad = if self.random.chance(800) { self.random.pick(&SIZES_BAD) } else { self.random.u32() & 0xFFF };
        match self.random.below(7) {
            0 => self.put_size(words, 2, bad),
            1 => words[16..24].fill(0),
            2 => words[24..32].fill(0),
            3 => words[64] &= 0x7F,
            4 => self.put_size(words, 18, bad),
            5 => words[73] = 0,
            _ => words[77] = 0,
        }
    }

    pub(super) fn payload(&mut self, code: u8, words: &[u8]) -> Vec<u8> {
        let mut payload = vec![code];
        payload.extend(self.noise(3));
        payload.extend(words);
        payload
    }

    /// An address as three bytes, after a byte that 01 does not name.
    pub(super) fn address_word(&mut self, address: u32) -> Vec<u8> {
        let mut word = address.to_be_bytes().to_vec();
        word[0] = if self.random.chance(500) { self.random.u8() } else { 0 };
        word
    }

    /// The payload of a link request with nothing wrong.
    pub(super) fn link_payload(&mut self, code: u8, s_id: u32) -> Vec<u8> {
        let mut payload = match code {
            0x03 => {
                let host = self.host(s_id);
                let size = if self.random.chance(850) { host.size } else { self.random.pick(&SIZES_GOOD) };
                self.words(host.port_name, host.node_name, size)
            }
            0x50 => {
                let (port_name, node_name) = self.names(s_id);
                let size = self.random.pick(&SIZES_GOOD);
                self.words(port_name, node_name, size)
            }
            0x52 => {
                let (port_name, node_name) = self.names(s_id);
                [self.noise(4), port_name.to_vec(), node_name.to_vec(), self.address_word(s_id)].concat()
            }
            0x05 => [self.address_word(s_id), self.noise(8)].concat(),
            0x20 | 0x21 => {
                let mut w = self.noise(16);
                w[0] = 0x08;
                w[2] |= 0x20;
                w[15] |= 0x22;
                w
            }
            0x12 => {
                let ox_id = self.named_ox_id(s_id).to_be_bytes();
                [self.address_word(s_id), ox_id.to_vec(), self.noise(34)].concat()
            }
            _ => self.noise(4),
        };
        payload = self.payload(code, &payload);
        if matches!(code, 0x20 | 0x21) {
            payload[1..4].copy_from_slice(&[0x10, 0x00, 0x14]);
        }
        payload
    }

    /// Makes one thing wrong in the payload of a link request.
    pub(super) fn break_link(&mut self, payload: &mut Vec<u8>) {
        let n = payload.len();
        let bit = 1 << self.random.below(8);
        if self.random.chance(120) {
            let length = match self.random.below(5) {
                0 => n + 4,
                1 => n.saturating_sub(4),
                2 => 0,
                3 => self.random.pick(&SIZES).1,
                _ => 4 * self.random.below(40),
            };
            payload.resize(length, 0);
            return;
        }
        match payload[0] {
            _ if !SIZES.contains(&(payload[0], n)) => payload[self.random.below(n)] ^= bit,
            0x03 => self.break_words(&mut payload[4..]),
            0x50 if self.random.chance(700) => self.break_words(&mut payload[4..]),
            0x50 => payload[self.random.within(20, 35)] ^= bit,
            0x52 => payload[self.random.within(8, 27)] ^= bit,
            0x05 => payload[self.random.within(4, 7)] ^= bit,
            0x20 | 0x21 => match self.random.below(4) {
                0 => payload[self.random.within(1, 3)] ^= bit,
                1 => payload[4] ^= bit,
                2 => payload[6] ^= 0x20,
                _ => payload[19] ^= self.random.pick(&[0x20, 0x02, 0x22]),
            },
            0x12 => payload[self.random.within(4, 9)] ^= bit,
            _ => payload[self.random.below(n)] ^= bit,
        }
    }

    /// A link request, sometimes with one to three things wrong.
    pub(super) fn link_frame(&mut self) -> Vec<u8> {
        let s_id = self.sender();
        let ending = if self.kind == Kind::Calm { 3 } else { 10 };
        let missing = self.login(s_id).is_none();
        let weights = [
            (0x03, if missing { 50 } else { ending }),
            (0x50, 14),
            (0x52, 14),
            (0x05, ending / 3),
            (0x20, 14),
            (0x21, ending),
            (0x12, 12),
            (0x00, 5),
        ];
        let code = match self.weighted(&weights) {
            0x00 => self.random.pick(&[0x00, 0x01, 0x02, 0x04, 0x06, 0x0E, 0x0F, 0x13, 0x22, 0x23, 0x24, 0x51, 0x53, 0x60, 0xFF]),
            code => code,
        };
        let mut payload = self.link_payload(code, s_id);
        if self.random.chance(if self.kind == Kind::Calm { 50 } else { 100 }) {
            self.name_elsewhere(s_id, &mut payload);
        }
        // in a calm history what ends a login is asked for less often
        let faults = if self.kind == Kind::Calm && matches!(code, 0x50 | 0x52) { 200 } else { 350 };
        if self.random.chance(faults) {
            for _ in 0..self.random.pick(&[1, 1, 1, 2, 2, 3, 4]) {
                if !payload.is_empty() {
                    self.break_link(&mut payload);
                }
            }
        }
        let ox_id = self.ox_id();
        self.frame(0x22, 0x01, s_id, ox_id, &payload)
    }

    pub(super) fn abts_frame(&mut self) -> Vec<u8> {
        let s_id = self.sender();
        let ox_id = self.named_ox_id(s_id);
        let mut h = self.header(0x81, 0x00, s_id, ox_id);
        h.rx_id = if self.random.chance(800) { 0xFFFF } else { self.random.pick(&[0, 1, 0xFFFE, 0x7FFF, 0xFF00, 0x00FF]) };
        h.seq_id = self.random.u8();
        let mut frame = h.bytes();
        if self.random.chance(150) {
            let n = 4 * self.random.below(6);
            frame.extend(self.random.bytes(n));
        }
        frame
    }

    pub(super) fn done_frame(&mut self) -> Vec<u8> {
        let s_id = self.sender();
        let n = 4 * self.random.below(8);
        let payload = self.random.bytes(n);
        let ox_id = self.ox_id();
        self.frame(0x23, 0x01, s_id, ox_id, &payload)
    }

    /// FCP_CMND's 32 bytes.
    pub(super) fn cmnd(&mut self, lun: [u8; 8], flags: u8, bits: u8, cdb: &[u8], fcp_dl: u32) -> Vec<u8> {
        let mut payload = lun.to_vec();
        payload.extend(self.noise(2));
        payload.push(flags);
        payload.push(bits);
        payload.extend(cdb);
        payload.resize(28, 0);
        payload.extend(fcp_dl.to_be_bytes());
        payload
    }

    /// READ(10)'s address and count: mostly within the capacity, often at its end or at the 4 GiB line.
    pub(super) fn range(&mut self) -> (u32, u16) {
        let capacity = self.capacity();
        let count = match self.random.below(100) {
            0..=4 => 0,
            5..=69 => self.random.within(1, 4) as u64,
            70..=89 => self.random.within(1, 24) as u64,
            90..=93 => 65_535,
            94 => 65_536 / 2,
            _ => self.random.u16().into(),
        };
        let address = match self.random.below(100) {
            0..=29 => self.random.u64() % capacity,
            30..=49 => capacity.saturating_sub(count),
            50..=57 => capacity.saturating_sub(count) + 1,
            58..=61 => capacity.saturating_sub(1),
            62..=64 => capacity,
            65 => capacity + 1,
            66 => self.random.u32().into(),
            67 => u32::MAX.into(),
            68..=84 => 8_388_608u64.saturating_sub(2) + self.random.below(4) as u64,
            _ => self.random.below(8) as u64,
        };
        // an address that is out of reach is asked for less often
        let address = if address > capacity && self.random.chance(800) { address % capacity } else { address };
        (address.min(u32::MAX.into()) as u32, count as u16)
    }

    /// A command and how many bytes it wants, with nothing wrong in itself.
    pub(super) fn cdb(&mut self, code: u8) -> (Vec<u8>, u32) {
        let mut cdb = self.noise(16);
        cdb[0] = code;
        cdb[1] &= 0xFE;
        let length = match self.random.below(10) {
            0 => 0,
            1 => self.random.u8(),
            2 => self.random.within(1, 40) as u8,
            3 => self.random.pick(&[17, 18, 19, 35, 36, 37]),
            4 => 255,
            _ if code == 0x03 => 18,
            _ => 36,
        };
        let wanted = match code {
            0x03 => {
                cdb[4] = length;
                u32::from(length.min(18))
            }
            0x12 => {
                cdb[2] = 0;
                cdb[4] = length;
                u32::from(length.min(36))
            }
            0x25 => {
                cdb[2..6].fill(0);
                cdb[8] &= 0xFE;
                8
            }
            0x28 | 0x2A => {
                let (address, count) = self.range();
                cdb[2..6].copy_from_slice(&address.to_be_bytes());
                cdb[7..9].copy_from_slice(&count.to_be_bytes());
                u32::from(count) * 512
            }
            _ => 0,
        };
        (cdb, wanted)
    }

    pub(super) fn fcp_dl(&mut self, wanted: u32) -> u32 {
        match self.random.below(40) {
            0 => 0,
            1 => wanted + 1,
            2 => wanted.saturating_sub(1),
            3 => u32::MAX,
            4 => self.random.u32(),
            5 => 1_001,
            6 | 7 => self.random.below(4_200) as u32,
            8 => wanted + 1_024,
            9 => wanted / 2,
            10 => 1,
            // so much of a long read or write as ends soon
            11..=18 if wanted > 8_192 => self.random.within(1, 8_192) as u32,
            _ => wanted,
        }
    }

    /// A command frame, sometimes with one to three things wrong.
    pub(super) fn command_frame(&mut self, s_id: u32) -> Vec<u8> {
        let write = if self.writable() { 36 } else { 8 };
        let code = self.weighted(&[(0x28, 46), (0x12, 14), (0x03, 12), (0x25, 10), (0x00, 6), (0x2A, write), (0xFF, 2)]);
        let code = if code == 0xFF { self.random.u8() } else { code };
        let (mut cdb, wanted) = self.cdb(code);
        let fcp_dl = self.fcp_dl(wanted);
        let mut lun = [0; 8];
        let (mut flags, mut bits) = (0, if code == 0x2A { 1 } else { 2 });
        if self.random.chance(300) {
            bits |= self.random.u8() & 0xFC;
        }
        // on a read-only unit test 5 comes before 6
        if code == 0x2A && !self.writable() && self.random.chance(200) {
            cdb[1] |= 1;
        }
        let mut size = 32;
        let mut ox_id = self.ox_id();
        if self.random.chance(350) {
            for _ in 0..self.random.pick(&[1, 1, 1, 2, 2, 3]) {
                match self.random.below(17) {
                    0..=2 => lun[self.random.below(8)] = 1 << self.random.below(8),
                    3 | 4 => flags = self.task_flags(),
                    5 => bits |= 3,
                    6 => bits &= self.random.pick(&[0xFD, 0xFD, 0xFC, 0xFE]),
                    7 => size = self.random.pick(&[0, 28, 36, 4, 64, 12]),
                    8 | 9 => ox_id = self.named_ox_id(s_id),
                    10 => cdb[1] ^= 1,
                    11 => cdb[1] ^= 1 << self.random.below(8),
                    12 => cdb[self.random.within(2, 5)] ^= 1 << self.random.below(8),
                    13 => cdb[8] ^= 1,
                    14 => bits ^= 3,
                    15 => cdb[self.random.within(1, 15)] ^= 1 << self.random.below(8),
                    _ => cdb[0] = self.random.u8(),
                }
            }
        }
        let mut payload = self.cmnd(lun, flags, bits, &cdb, fcp_dl);
        payload.resize(size, 0);
        self.frame(0x06, 0x08, s_id, ox_id, &payload)
    }

    /// Task flags: target reset and clear task set seldom in a calm history.
    pub(super) fn task_flags(&mut self) -> u8 {
        let (reset, clear) = if self.kind == Kind::Calm { (1, 3) } else { (4, 8) };
        let any = self.random.u8();
        self.weighted(&[
            (0x80, 3),
            (0x40, 3),
            (0x20, reset),
            (0x10, 3),
            (0x08, 3),
            (0x04, clear),
            (0x02, 5),
            (0x01, 3),
            (0x60, 2),
            (0x06, 2),
            (any, 4),
        ])
    }

    /// A command with nothing wrong.
    pub(super) fn clean_command(&mut self, s_id: u32, code: u8) -> Vec<u8> {
        let mut cdb = vec![code, 0, 0, 0, 0, 0];
        let mut fcp_dl = 0;
        match code {
            0x03 | 0x12 => {
                cdb[4] = if code == 0x03 { 18 } else { 36 };
                fcp_dl = cdb[4].into();
            }
            0x28 | 0x2A => {
                let capacity = self.capacity();
                let count = self.random.within(1, 6).min(capacity as usize) as u64;
                let address = match self.random.below(3) {
                    0 => capacity - count,
                    1 if capacity > 8_388_620 => 8_388_606 + self.random.below(4) as u64,
                    _ => self.random.u64() % (capacity - count + 1),
                };
                cdb = vec![code, 0];
                cdb.extend((address as u32).to_be_bytes());
                cdb.push(0);
                cdb.extend((count as u16).to_be_bytes());
                fcp_dl = count as u32 * 512;
            }
            _ => {}
        }
        let payload = self.cmnd([0; 8], 0, if code == 0x2A { 1 } else { 2 }, &cdb, fcp_dl);
        let mut ox_id = self.ox_id();
        while self.exchange(s_id, ox_id).is_some() {
            ox_id = self.random.u16();
        }
        self.frame(0x06, 0x08, s_id, ox_id, &payload)
    }

    /// Any frame that a host sends.
    pub(super) fn any_frame(&mut self) -> Vec<u8> {
        match self.random.below(13) {
            0..=5 => self.link_frame(),
            6 => self.abts_frame(),
            7 => self.done_frame(),
            8 => self.real_frame(),
            9 => self.stray_data(),
            _ => {
                let s_id = self.commander();
                self.command_frame(s_id)
            }
        }
    }

    /// A data frame for some open exchange, or for none.
    fn stray_data(&mut self) -> Vec<u8> {
        let open = self.open();
        let (s_id, ox_id) =
            if open.is_empty() || self.random.chance(100) { (self.sender(), self.ox_id()) } else { self.random.pick(&open) };
        self.some_data_frame(s_id, ox_id)
    }

    /// One of libfc's frames, to us.
    pub(super) fn real_frame(&mut self) -> Vec<u8> {
        let i = self.random.below(self.real.len());
        let mut frame = self.real[i].clone();
        frame[1..4].copy_from_slice(&self.own().to_be_bytes()[1..]);
        frame
    }

    /// Damages one field, byte, bit or the length of a frame.
    pub(super) fn damage(&mut self, frame: &mut Vec<u8>) {
        let own = self.own();
        let three = |a: u32| a.to_be_bytes()[1..].to_vec();
        if frame.len() < 24 {
            let n = self.random.below(40);
            frame.resize(n, 0);
            return;
        }
        let any = self.random.below(frame.len());
        match self.random.below(24) {
            0..=3 => frame[any] ^= 1 << self.random.below(8),
            4 => frame[any] = self.random.u8(),
            5 => frame[0] = self.random.pick(&[0x22, 0x23, 0x81, 0x06, 0x01, 0x07, 0x84, 0x85, 0x00, 0x02, 0x20, 0x80]),
            6 => frame[8] = self.random.pick(&[0x00, 0x01, 0x08, 0x09, 0x20]),
            7 => frame[self.random.within(1, 3)] ^= 1 << self.random.below(8),
            8 => {
                let address = self.sender();
                frame.splice(1..4, three(address));
            }
            9 => drop(frame.splice(5..8, three(own))),
            10 => frame[7] = self.random.u8(),
            11 => frame[self.random.within(5, 6)] = self.random.some_u8(),
            12 => drop(frame.splice(5..8, three(0))),
            13 => frame[11] |= self.random.pick(&[1, 2, 3]),
            14 => frame[13] = 1 << self.random.below(8),
            15 => frame[14] = 1 << self.random.below(8),
            16 => frame[15] = 1 << self.random.below(8),
            17 => frame[self.random.within(9, 23)] = self.random.u8(),
            18 => frame.truncate(any),
            19 => frame.truncate(24),
            20 => {
                let more = self.random.within(1, 12);
                frame.extend(self.random.bytes(more));
            }
            21 => {
                let n = self.random.pick(&[0, 4, 20, 22, 23, 24, 25, 26, 27, 28, 32]);
                frame.resize(n, 0);
            }
            22 => {
                let n = self.random.pick(&[2048, 2132, 2135, 2136, 2137, 2138, 2140, 2144, 4096]);
                frame.resize(n, 0);
            }
            _ => {
                let s_id = self.sender();
                frame.splice(5..8, three(s_id));
            }
        }
    }
}
