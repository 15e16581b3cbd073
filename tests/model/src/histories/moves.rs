//! Hosts that come back at another address (02, request 1): the login they leave, their PLOGI, and what both addresses draw then.

use super::{History, Host, Kind, Plan, SIZES_GOOD};
use crate::call::Call;
use model::setup::LOOP_ADDRESSES;

impl History {
    /// Names like another host's: one of them the same, crosswise, or a port name that differs in a word or a bit. In a calm history,
    /// which is to fill the table, no two hosts have one port name.
    pub(super) fn name_alike(&mut self, host: &mut Host, other: Host) {
        let own = host.port_name;
        let half = 4 * self.random.below(2);
        match self.random.below(8) {
            0 | 1 => host.node_name = other.node_name,
            2 => host.port_name = other.node_name,
            3 => host.node_name = other.port_name,
            4 => host.port_name[half..half + 4].copy_from_slice(&other.port_name[half..half + 4]),
            5 => {
                host.port_name = other.port_name;
                host.port_name[self.random.below(8)] ^= 1 << self.random.below(8);
            }
            6 => host.port_name = self.drive().map_or(own, |d| d.setup.port_name()),
            _ => (host.port_name, host.node_name) = (other.port_name, other.node_name),
        }
        let twin = self.hosts.iter().any(|h| h.port_name == host.port_name);
        if host.port_name == [0; 8] || twin && self.kind == Kind::Calm {
            host.port_name = own;
        }
    }

    /// Puts the port name of another login, or half of it, into a PLOGI, PDISC or ADISC.
    pub(super) fn name_elsewhere(&mut self, s_id: u32, payload: &mut [u8]) {
        let at = match payload[0] {
            0x03 | 0x50 => 20,
            0x52 => 8,
            _ => return,
        };
        let names: Vec<[u8; 8]> = self.logins().filter(|l| l.address != s_id).map(|l| l.parameters.port_name).collect();
        if names.is_empty() {
            return;
        }
        let name = self.random.pick(&names);
        let (from, to) = self.random.pick(&[(0, 8), (0, 8), (0, 8), (0, 8), (0, 4), (4, 8), (0, 7), (1, 8)]);
        payload[at + from..at + to].copy_from_slice(&name[from..to]);
    }

    /// Where a host comes back: an address without login, or one that another host is logged in at.
    pub(super) fn landing(&mut self, from: u32) -> u32 {
        let others = self.addresses(|l| l.address != from);
        if self.random.chance(350) && !others.is_empty() {
            return self.random.pick(&others);
        }
        loop {
            let any = u32::from(self.random.pick(&LOOP_ADDRESSES));
            let address = if self.random.chance(500) { self.random.pick(&self.hosts).address } else { any };
            if address != self.own() && address != from && self.login(address).is_none() {
                return address;
            }
        }
    }

    /// "After a loop reset a host came back at another address"
    pub(super) fn plan_return(&mut self, from: u32) {
        let to = self.landing(from);
        self.plans.push_back(Plan::Move(from, to));
    }

    /// A host comes back at another address: its old login is left as it is, or anew, unpaired, or with open exchanges.
    pub(super) fn plan_move(&mut self) {
        let logins = self.addresses(|_| true);
        if logins.is_empty() {
            return;
        }
        let from = self.random.pick(&logins);
        let to = self.landing(from);
        match self.random.below(8) {
            0 => self.plans.push_back(Plan::Login(from)),
            1 => {
                let payload = self.link_payload(0x21, from);
                let frame = self.frame(0x22, 0x01, from, 1, &payload);
                self.plans.push_back(Plan::Frame(frame));
            }
            2 | 3 => {}
            _ => {
                self.plans.push_back(Plan::Ready(from, 6));
                for _ in 0..self.random.within(1, 8) {
                    self.plans.push_back(if self.random.chance(300) { Plan::Inquiry(from) } else { Plan::Read(from) });
                }
            }
        }
        if self.login(to).is_some() && self.random.chance(400) {
            self.plans.extend([Plan::Ready(to, 6), Plan::Read(to)]);
        }
        self.plans.push_back(Plan::Move(from, to));
    }

    /// The PLOGI of the host of one address from another, at times with something wrong in it; what both addresses say next is planned.
    pub(super) fn come_back(&mut self, from: u32, to: u32) -> Option<Call> {
        let (port_name, mut node_name) = self.names(from);
        if self.random.chance(150) {
            node_name = self.name();
        }
        let size = self.random.pick(&SIZES_GOOD);
        let words = self.words(port_name, node_name, size);
        let mut payload = self.payload(0x03, &words);
        if self.random.chance(350) {
            for _ in 0..self.random.pick(&[1, 1, 1, 2]) {
                if !payload.is_empty() {
                    self.break_link(&mut payload);
                }
            }
        } else {
            self.rehouse(from, to);
        }
        self.plan_left(from, to);
        self.link(to, &payload)
    }

    /// The host lives there from now on; who lived there goes where it came from.
    fn rehouse(&mut self, from: u32, to: u32) {
        for host in &mut self.hosts {
            if host.address == from {
                host.address = to;
            } else if host.address == to {
                host.address = from;
            }
        }
    }

    /// After a host came back: next frames of the exchanges that were open, frames from both addresses, and who comes then.
    fn plan_left(&mut self, from: u32, to: u32) {
        let open: Vec<u16> = self.open().iter().filter(|e| e.0 == from || e.0 == to).map(|e| e.1).collect();
        let ox_id = open.first().copied().unwrap_or(0x0100);
        let mut plans = vec![];
        for ox_id in open {
            let address = self.random.pick(&[from, from, to]);
            if self.random.chance(700) {
                plans.push(if self.random.chance(300) { Plan::Data(address, ox_id) } else { Plan::Next(address, ox_id) });
            }
        }
        for _ in 0..self.random.within(1, 3) {
            plans.push(self.word_from(from, ox_id));
        }
        if self.random.chance(700) {
            plans.push(Plan::Pair(to));
        }
        for _ in 0..self.random.below(4) {
            plans.push(self.word_from(to, ox_id));
        }
        match self.random.below(8) {
            // back again, or another host where it was, or a name that is new
            0 => plans.push(Plan::Move(to, from)),
            1 => plans.push(Plan::Login(from)),
            2 => plans.push(self.new_name()),
            3 => plans.extend([Plan::Paired(from, 4), Plan::Read(from)]),
            _ => {}
        }
        plans.into_iter().rev().for_each(|plan| self.plans.push_front(plan));
    }

    /// A frame from that address; most answers tell whether it is logged in.
    fn word_from(&mut self, address: u32, ox_id: u16) -> Plan {
        let (r_ctl, kind, payload) = match self.random.below(8) {
            0 | 1 => return Plan::Clear(address),
            2 => return Plan::Read(address),
            3 => return Plan::Prove(address),
            4 => return Plan::Pair(address),
            5 => {
                let mut payload = self.link_payload(0x12, address);
                payload[8..10].copy_from_slice(&ox_id.to_be_bytes());
                (0x22, 0x01, payload)
            }
            6 => (0x23, 0x01, vec![]),
            _ => (0x81, 0x00, vec![]),
        };
        Plan::Frame(self.frame(r_ctl, kind, address, ox_id, &payload))
    }

    /// A PLOGI under names that no host has, from an address without login.
    fn new_name(&mut self) -> Plan {
        let address = loop {
            let address = u32::from(self.random.pick(&LOOP_ADDRESSES));
            if address != self.own() && self.login(address).is_none() {
                break address;
            }
        };
        let (port_name, node_name) = (self.name(), self.name());
        let words = self.words(port_name, node_name, 2048);
        let payload = self.payload(0x03, &words);
        Plan::Frame(self.frame(0x22, 0x01, address, 1, &payload))
    }

    /// A moved host's PLOGI with each byte changed, or each bit of its names. Before each the host is logged in where it was; after
    /// each an ABTS tells whether it still is.
    pub(super) fn plan_move_sweep(&mut self) {
        let named = |h: &Host| self.login(h.address).is_some_and(|l| l.parameters.port_name == h.port_name);
        let known: Vec<Host> = self.hosts.iter().copied().filter(named).collect();
        if known.is_empty() {
            return;
        }
        let host = self.random.pick(&known);
        let to = self.landing(host.address);
        let words = self.words(host.port_name, host.node_name, host.size);
        let payload = self.payload(0x03, &words);
        let frame = self.frame(0x22, 0x01, to, 1, &payload);
        let bits = self.random.chance(500);
        for i in 0..if bits { 8 * 16 } else { frame.len() } {
            let mut f = frame.clone();
            if bits {
                f[24 + 20 + i / 8] ^= 0x80 >> (i % 8);
            } else {
                f[i] ^= self.random.some_u8();
            }
            let abts = self.frame(0x81, 0x00, host.address, 1, &[]);
            self.plans.extend([Plan::Paired(host.address, 4), Plan::Frame(f), Plan::Frame(abts)]);
        }
    }
}
