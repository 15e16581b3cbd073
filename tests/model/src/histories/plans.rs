//! Plans: runs of calls that lead to deep states, and what each becomes when its turn comes.

use super::{History, Host, Kind, Plan};
use crate::call::Call;
use model::drive::Attention;
use model::frame::Header;
use model::link::SIZES;
use model::setup::valid_address;
use std::collections::VecDeque;

impl History {
    /// Eight open at a login, then more.
    pub(super) fn plan_burst(&mut self, s_id: u32) {
        let inquiries = self.random.chance(300);
        let writes = self.random.chance(250);
        if self.random.chance(500) {
            self.plans.push_back(Plan::Ready(s_id, 6));
        } else {
            self.plans.push_back(Plan::Paired(s_id, 4));
        }
        for _ in 0..self.random.within(7, 11) {
            self.plans.push_back(if writes {
                Plan::WriteOut(s_id)
            } else if inquiries || self.random.chance(100) {
                Plan::Inquiry(s_id)
            } else {
                Plan::Read(s_id)
            });
        }
        if self.random.chance(400) {
            self.plans.push_back(Plan::Sense(s_id));
        }
        for _ in 0..self.random.below(4) {
            let mut frame = self.command_frame(s_id);
            // bytes wanted, none to send
            if self.random.chance(300) && frame.len() == 56 {
                frame[52..].fill(0);
            }
            self.plans.push_back(Plan::Frame(frame));
        }
    }

    /// A READ of more than 65,536 bytes, and of more than 256 frames where they are small.
    pub(super) fn plan_many_frames(&mut self) {
        let s_id = self.commander();
        if self.capacity() < 200 {
            return;
        }
        let address = self.random.u64() % (self.capacity() - 199);
        let mut cdb = vec![0x28, 0];
        cdb.extend((address as u32).to_be_bytes());
        cdb.extend([0, 0, 200]);
        let payload = self.cmnd([0; 8], 0, 2, &cdb, 102_400);
        let ox_id = self.random.u16();
        let frame = self.frame(0x06, 0x08, s_id, ox_id, &payload);
        self.plans.extend([Plan::Ready(s_id, 6), Plan::Frame(frame), Plan::Exact(s_id, ox_id, 300)]);
    }

    /// A loop reset; then calls while logins are unproven, some proven again, and perhaps the time over.
    pub(super) fn plan_loop_reset(&mut self) {
        self.plans.push_back(Plan::Event(1));
        for (address, ox_id) in self.open() {
            if self.random.chance(300) {
                self.plans.push_back(Plan::Next(address, ox_id));
            } else if self.random.chance(300) {
                self.plans.push_back(Plan::Data(address, ox_id));
            }
        }
        for a in self.addresses(|_| true) {
            for _ in 0..self.random.below(4) {
                let plan = match self.random.below(8) {
                    0 => Plan::Read(a),
                    1 => Plan::Pair(a),
                    2 | 3 => {
                        let mut frame = self.any_frame();
                        frame[5..8].copy_from_slice(&a.to_be_bytes()[1..]);
                        Plan::Frame(frame)
                    }
                    4 => {
                        let frame = self.frame(0x23, 0x01, a, 1, &[]);
                        Plan::Frame(frame)
                    }
                    5 => {
                        let frame = self.frame(0x81, 0x00, a, 1, &[]);
                        Plan::Frame(frame)
                    }
                    6 => {
                        let code = self.random.pick(&[0x03, 0x05, 0x50, 0x52]);
                        let n = 4 * self.random.below(4);
                        let words = self.random.bytes(n);
                        let payload = self.payload(code, &words);
                        let frame = self.frame(0x22, 0x01, a, 1, &payload);
                        Plan::Frame(frame)
                    }
                    _ => Plan::Clear(a),
                };
                self.plans.push_back(plan);
            }
            if self.random.chance(100) {
                self.plan_return(a);
            } else if self.random.chance(if self.kind == Kind::Calm { 850 } else { 600 }) {
                self.plans.push_back(Plan::Prove(a));
            }
        }
        // a task's effect on logins that are unproven
        let logins = self.addresses(|l| l.paired);
        if self.random.chance(250) && logins.len() > 1 {
            let (one, other) = (logins[0], logins[1]);
            let flag = self.random.pick(&[0x20, 0x04]);
            self.plans.extend([
                Plan::Prove(one),
                Plan::Task(one, flag),
                Plan::Prove(other),
                Plan::Sense(other),
                Plan::Clear(other),
            ]);
        }
        if self.random.chance(600) {
            self.plans.push_back(Plan::Event(2));
        }
    }

    /// Clear task set or target reset with exchanges open elsewhere, then what the others get.
    pub(super) fn plan_task(&mut self) {
        let paired = self.addresses(|l| l.paired && l.proven);
        if paired.is_empty() {
            return;
        }
        for &a in &paired {
            match self.random.below(5) {
                0 => {}
                1 => self.plans.push_back(Plan::Inquiry(a)),
                _ => self.plans.extend([Plan::Clear(a), Plan::Read(a)]),
            }
        }
        let sender = self.random.pick(&paired);
        let flag = self.random.pick(&[0x04, 0x04, 0x04, 0x04, 0x20, 0x02]);
        self.plans.push_back(Plan::Task(sender, flag));
        if self.random.chance(200) {
            self.plans.push_back(Plan::Inquiry(paired[0]));
            self.plans.push_back(Plan::Task(sender, 0x04));
        }
        for &a in &paired {
            if self.random.chance(700) {
                self.plans.push_back(if self.random.chance(500) { Plan::Sense(a) } else { Plan::Clear(a) });
            }
        }
    }

    /// A new login's INQUIRYs and REQUEST SENSEs while the attention stands.
    pub(super) fn plan_sense(&mut self) {
        let s_id = self.commander();
        if self.login(s_id).is_none() {
            return;
        }
        if self.kind != Kind::Calm || self.random.chance(200) {
            self.plans.extend([Plan::Login(s_id), Plan::Pair(s_id)]);
        }
        for _ in 0..self.random.below(10) {
            self.plans.push_back(Plan::Inquiry(s_id));
        }
        if self.random.chance(250) {
            self.plans.push_back(Plan::Again(s_id));
        }
        for _ in 0..self.random.within(1, 3) {
            let (cdb, wanted) = self.cdb(0x03);
            let fcp_dl = self.fcp_dl(wanted);
            let mut lun = [0; 8];
            if self.random.chance(250) {
                lun[self.random.below(8)] = 1 << self.random.below(8);
            }
            let bits = self.random.pick(&[2, 2, 2, 2, 0, 1]);
            let payload = self.cmnd(lun, 0, bits, &cdb, fcp_dl);
            let ox_id = self.random.u16();
            let frame = self.frame(0x06, 0x08, s_id, ox_id, &payload);
            self.plans.push_back(Plan::Frame(frame));
            self.plans.push_back(Plan::Drain(s_id, ox_id, 4));
        }
        self.plans.push_back(Plan::Clear(s_id));
    }

    /// A frame tried with each byte, bit or length changed, or a field tried with each value.
    pub(super) fn plan_sweep(&mut self) {
        if self.random.chance(60) {
            return self.plan_move_sweep();
        }
        if self.random.chance(150) {
            return self.plan_data_sweep();
        }
        let s_id = self.commander();
        let code = self.random.pick(&[0x03, 0x05, 0x12, 0x20, 0x20, 0x21, 0x50, 0x52]);
        let ox_id = self.ox_id();
        let frame = match self.random.below(4) {
            0 => {
                let code = self.random.pick(&[0x28, 0x12, 0x03, 0x25, 0x00, 0x2A]);
                self.clean_command(s_id, code)
            }
            1 if self.random.chance(300) => self.frame(0x81, 0x00, s_id, ox_id, &[]),
            _ => {
                let payload = self.link_payload(code, s_id);
                self.frame(0x22, 0x01, s_id, ox_id, &payload)
            }
        };
        let command = frame[0] == 0x06;
        let before = |plans: &mut VecDeque<Plan>| {
            plans.push_back(if command { Plan::Ready(s_id, 6) } else { Plan::Paired(s_id, 4) });
        };
        match self.random.below(8) {
            // each byte
            0 | 1 => {
                for i in 0..frame.len() {
                    before(&mut self.plans);
                    let mut f = frame.clone();
                    f[i] ^= self.random.some_u8();
                    self.plans.push_back(Plan::Frame(f));
                }
            }
            // each bit
            2 | 3 if frame.len() <= 60 => {
                for i in 0..8 * frame.len() {
                    before(&mut self.plans);
                    let mut f = frame.clone();
                    f[i / 8] ^= 0x80 >> (i % 8);
                    self.plans.push_back(Plan::Frame(f));
                }
            }
            // each length, and those around the longest
            2..=4 => {
                for n in (0..frame.len() + 9).chain(2130..2142) {
                    if n % 4 == 0 {
                        before(&mut self.plans);
                    }
                    let mut f = frame.clone();
                    f.resize(n, 0);
                    self.plans.push_back(Plan::Frame(f));
                }
            }
            // each task flag byte and each command code
            5 => {
                let tasks = self.random.chance(500);
                for v in 0..=255 {
                    self.plans.push_back(Plan::Ready(s_id, 6));
                    let cdb = if tasks { [0; 6] } else { [v, 0, 0, 0, 18, 0] };
                    let lun = if self.random.chance(250) { [0, 1, 0, 0, 0, 0, 0, 0] } else { [0; 8] };
                    let payload = self.cmnd(lun, if tasks { v } else { 0 }, 2, &cdb, 18);
                    let frame = self.frame(0x06, 0x08, s_id, ox_id.wrapping_add(v.into()), &payload);
                    self.plans.push_back(Plan::Frame(frame));
                }
            }
            // each source
            6 => {
                for v in 0..=255 {
                    let frame = self.frame(0x23, 0x01, v, ox_id, &[]);
                    self.plans.push_back(Plan::Frame(frame));
                }
            }
            // each link code; and sizes of W2 and W18 around a limit
            _ if self.random.chance(500) => {
                for v in 0..=255 {
                    let n = self.random.pick(&SIZES).1;
                    let mut payload = self.noise(n);
                    payload[0] = v;
                    let frame = self.frame(0x22, 0x01, s_id, ox_id, &payload);
                    self.plans.push_back(Plan::Frame(frame));
                }
            }
            _ => {
                let first = self.random.pick(&[248, 2_096, 4_060, 0, 1_000]);
                for size in first..first + 32 {
                    let host = self.host(s_id);
                    let mut words = self.words(host.port_name, host.node_name, 1024);
                    let word = self.random.pick(&[2, 18]);
                    self.put_size(&mut words, word, size);
                    let code = self.random.pick(&[0x03, 0x50]);
                    let payload = self.payload(code, &words);
                    let frame = self.frame(0x22, 0x01, s_id, ox_id, &payload);
                    self.plans.push_back(Plan::Frame(frame));
                }
            }
        }
    }

    /// A setup with each own address.
    pub(super) fn plan_address_sweep(&mut self) {
        for v in 0..=255 {
            let mut body = self.setup_body();
            body[11] = v;
            self.plans.push_back(Plan::Call(Call::new(b'S', body)));
            if v % 16 == 0 {
                let frame = self.frame(0x23, 0x01, 1, 1, &[]);
                self.plans.push_back(Plan::Frame(frame));
            }
        }
        self.plans.push_back(Plan::Setup);
    }

    /// A READ of 65,540 full frames and a last one of 1 byte, past byte 4,294,967,296; 256 bytes a frame. Before it, a long WRITE.
    pub(super) fn plan_long_read(&mut self) {
        let mut body = self.setup_body();
        body[0..8].copy_from_slice(&4_294_967_295u64.to_be_bytes());
        body[11] = 0xE8;
        body[152] = 1;
        self.plans.push_back(Plan::Call(Call::new(b'S', body)));
        let (host, ox_id) = (0x01, 0x1234);
        self.hosts = vec![Host { address: host, port_name: [1; 8], node_name: [2; 8], size: 256 }];
        let words = self.words([1; 8], [2; 8], 256);
        let payload = self.payload(0x03, &words);
        let header =
            |r_ctl, kind| Header { r_ctl, d_id: 0xE8, s_id: host, kind, ox_id, rx_id: 0xFFFF, ..Header::default() }.bytes();
        self.plans.push_back(Plan::Frame([header(0x22, 0x01), payload].concat()));
        self.plans.extend([Plan::Pair(host), Plan::Clear(host)]);
        self.plan_long_write(host, ox_id);
        let mut cdb = vec![0x28, 0];
        cdb.extend(8_388_600u32.to_be_bytes());
        cdb.extend([0, 0xFF, 0xFF]);
        let payload = self.cmnd([0; 8], 0, 2, &cdb, 65_540 * 256 + 1);
        self.plans.push_back(Plan::Frame([header(0x06, 0x08), payload].concat()));
        self.plans.push_back(Plan::Exact(host, ox_id, 66_000));
    }

    pub(super) fn carry_out(&mut self, plan: Plan) -> Option<Call> {
        match plan {
            Plan::Call(call) => Some(call),
            Plan::Frame(mut frame) => {
                // the drive's address may have changed since the plan was laid
                if self.random.chance(500)
                    && frame.len() >= 24
                    && valid_address(u32::from_be_bytes([0, frame[1], frame[2], frame[3]]))
                {
                    frame[3] = self.own() as u8;
                }
                Some(self.deliver(2136, &frame))
            }
            Plan::Setup => Some(Call::new(b'S', self.setup_body())),
            Plan::Login(a) => {
                let payload = self.link_payload(0x03, a);
                self.link(a, &payload)
            }
            Plan::Pair(a) => {
                let payload = self.link_payload(0x20, a);
                self.link(a, &payload)
            }
            Plan::Prove(a) => {
                let code = self.random.pick(&[0x50, 0x52]);
                let mut payload = self.link_payload(code, a);
                if self.random.chance(60) {
                    self.break_link(&mut payload);
                }
                self.link(a, &payload)
            }
            Plan::Paired(_, 0) | Plan::Ready(_, 0) => None,
            Plan::Paired(a, steps) => {
                let missing = match self.login(a) {
                    None => Plan::Login(a),
                    Some(l) if !l.proven => Plan::Prove(a),
                    Some(l) if !l.paired => Plan::Pair(a),
                    Some(_) => return None,
                };
                self.plans.push_front(Plan::Paired(a, steps - 1));
                self.carry_out(missing)
            }
            Plan::Ready(a, steps) => {
                let missing = match self.login(a) {
                    None => Plan::Login(a),
                    Some(l) if !l.proven => Plan::Prove(a),
                    Some(l) if !l.paired => Plan::Pair(a),
                    Some(l) if l.free_place().is_none() => Plan::Task(a, 0x02),
                    Some(l) if l.attention != Attention::None => Plan::Clear(a),
                    Some(_) => return None,
                };
                self.plans.push_front(Plan::Ready(a, steps - 1));
                self.carry_out(missing)
            }
            Plan::Clear(a) => self.clean(a, 0x00),
            Plan::Read(a) => {
                let write = self.writable() && self.random.chance(350);
                self.clean(a, if write { 0x2A } else { 0x28 })
            }
            Plan::WriteOut(a) => self.clean(a, 0x2A),
            Plan::Inquiry(a) => self.clean(a, 0x12),
            Plan::Sense(a) => self.clean(a, 0x03),
            Plan::Task(a, flag) => {
                let payload = self.cmnd([0; 8], flag, 0, &[], 0);
                let ox_id = self.ox_id();
                let frame = self.frame(0x06, 0x08, a, ox_id, &payload);
                Some(self.send(2136, &frame))
            }
            Plan::Again(a) => {
                let ox_id = self.open().iter().find(|e| e.0 == a)?.1;
                let code = self.random.pick(&[0x28, 0x12, 0x03, 0x25, 0x00, 0x2A]);
                let mut frame = self.clean_command(a, code);
                frame[16..18].copy_from_slice(&ox_id.to_be_bytes());
                Some(self.send(2136, &frame))
            }
            Plan::Event(event) => Some(Call::new(b'E', vec![event])),
            Plan::Move(from, to) => self.come_back(from, to),
            Plan::Next(a, ox_id) => Some(self.next_call(a, ox_id)),
            Plan::Drain(_, _, 0) | Plan::Exact(_, _, 0) | Plan::Write(_, _, 0, _) | Plan::Awaited(_, _, 0) => None,
            Plan::Drain(a, ox_id, left) => {
                self.exchange(a, ox_id)?;
                self.plans.push_front(Plan::Drain(a, ox_id, left - 1));
                if self.awaited(a, ox_id) && self.random.chance(850) {
                    return Some(self.data_call(a, ox_id));
                }
                Some(self.next_call(a, ox_id))
            }
            Plan::Exact(a, ox_id, left) => {
                self.exchange(a, ox_id)?;
                self.plans.push_front(Plan::Exact(a, ox_id, left - 1));
                if self.random.chance(2) {
                    return Some(self.next_call(a, ox_id));
                }
                let (start, length) = self.exact_window(a, ox_id);
                Some(self.next_record(a, ox_id, 2136, start, length))
            }
            Plan::Data(a, ox_id) => Some(self.data_call(a, ox_id)),
            Plan::Write(a, ox_id, left, most) => {
                self.exchange(a, ox_id).filter(|(_, e)| e.writes())?;
                self.plans.push_front(Plan::Write(a, ox_id, left - 1, most));
                Some(self.write_step(a, ox_id, most))
            }
            Plan::Awaited(a, ox_id, steps) => {
                let missing = self.missing_for_data(a, ox_id)?;
                self.plans.push_front(Plan::Awaited(a, ox_id, steps - 1));
                for plan in missing.into_iter().rev() {
                    self.plans.push_front(plan);
                }
                None
            }
            Plan::Changed(a, ox_id, change) => self.changed_data(a, ox_id, change),
        }
    }

    pub(super) fn link(&mut self, s_id: u32, payload: &[u8]) -> Option<Call> {
        let ox_id = self.ox_id();
        let frame = self.frame(0x22, 0x01, s_id, ox_id, payload);
        Some(self.send(2136, &frame))
    }

    pub(super) fn clean(&mut self, s_id: u32, code: u8) -> Option<Call> {
        let frame = self.clean_command(s_id, code);
        Some(self.send(2136, &frame))
    }
}
