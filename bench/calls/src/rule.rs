//! The same tests as the crate `formed`, as one would write them in Rust: over references, with iterators.

#[repr(C)]
#[derive(Clone, Copy)]
pub struct Exchange {
    pub start: u64,
    pub blocks: u32,
    pub wanted: u32,
    pub expected: u32,
    pub sent: u32,
    pub ox_id: u16,
    pub count: u16,
    pub direction: u8,
    pub awaited: u8,
    pub kind: u16,
}

#[repr(C)]
#[derive(Clone, Copy)]
pub struct Login {
    pub used: u8,
    pub proven: u8,
    pub paired: u8,
    pub attention: u8,
    pub concurrent: u8,
    pub sequences: u8,
    pub size: u16,
    pub address: u32,
    pub port_name: [u8; 8],
    pub node_name: [u8; 8],
    pub places: [Exchange; 8],
}

#[repr(C)]
#[derive(Clone, Copy)]
pub struct Port {
    pub address: u32,
    pub accept: [u8; 112],
    pub logins: [Login; 8],
}

#[repr(C)]
#[derive(Clone, Copy)]
pub struct Unit {
    pub capacity: u64,
    pub identity: [u8; 28],
    pub writable: u8,
}

/// The loop addresses without 00h: bit k of word j stands for 64 j + k.
const MAP: [u64; 4] = [0x167e7ee8e9818116, 0x167e7ee8167e7ee8, 0x167e7ee8e9818117, 0x00008117167e7ee8];

fn valid_address(n: u32) -> bool {
    n < 256 && MAP[n as usize / 64] >> (n % 64) & 1 == 1
}

fn size_fits(n: u16) -> bool {
    (256..=2112).contains(&n) && n % 4 == 0
}

fn named(name: &[u8; 8]) -> bool {
    name.iter().any(|&b| b != 0)
}

fn be16(accept: &[u8; 112], at: usize) -> u16 {
    u16::from_be_bytes([accept[at], accept[at + 1]])
}

/// The words of the login accept keep the login rules, and W20/B1 is 01h.
fn accept_fits(accept: &[u8; 112]) -> bool {
    size_fits(be16(accept, 6) & 0xfff)
        && accept[16..24].iter().any(|&b| b != 0)
        && accept[24..32].iter().any(|&b| b != 0)
        && accept[64] & 0x80 != 0
        && size_fits(be16(accept, 70) & 0xfff)
        && accept[73] != 0
        && accept[77] == 1
}

impl Exchange {
    fn is_open(&self) -> bool {
        self.kind != 0
    }

    fn no_blocks(&self) -> bool {
        self.start == 0 && self.blocks == 0
    }

    fn wanted_fits(&self, capacity: u64) -> bool {
        match self.kind {
            1 => {
                let blocks = u64::from(self.blocks);
                (1..=65535).contains(&blocks)
                    && self.wanted == 512 * self.blocks
                    && self.start < capacity
                    && blocks <= capacity - self.start
            }
            2 | 3 => self.no_blocks() && (1..=36).contains(&self.wanted),
            4 => self.no_blocks() && self.wanted == 8,
            5..=8 => self.no_blocks() && (1..=18).contains(&self.wanted),
            _ => false,
        }
    }

    fn sent_fits(&self, total: u32, full: u32) -> bool {
        self.awaited == 0
            && self.sent <= total
            && (self.sent == total || self.sent % full == 0)
            && self.count == self.sent.div_ceil(full) as u16
    }

    /// A WRITE (02, request 2): what came, by bursts.
    fn taken_fits(&self, total: u32) -> bool {
        let between = self.sent == total || self.sent % 65_536 == 0;
        let burst = if self.awaited == 1 { self.sent < total } else { self.awaited == 0 && between };
        self.sent <= total && burst && self.count == 0
    }

    fn moved_fits(&self, u: &Unit, full: u32) -> bool {
        let total = self.wanted.min(self.expected);
        match self.direction {
            0 => self.sent_fits(total, full),
            1 => self.kind == 1 && u.writable == 1 && self.taken_fits(total),
            _ => false,
        }
    }

    fn fine(&self, u: &Unit, full: u32, paired: bool) -> bool {
        !self.is_open() || paired && self.expected != 0 && self.wanted_fits(u.capacity) && self.moved_fits(u, full)
    }
}

impl Login {
    fn is_used(&self) -> bool {
        self.used == 1
    }

    fn used_fine(&self, u: &Unit, own: u32) -> bool {
        let full = u32::from(self.size.min(2048));
        self.proven <= 1
            && self.paired <= 1
            && matches!(self.attention, 0 | 0x29 | 0x2f)
            && valid_address(self.address)
            && self.address != own
            && named(&self.port_name)
            && named(&self.node_name)
            && size_fits(self.size)
            && self.concurrent != 0
            && self.sequences != 0
            && self.places.iter().all(|e| e.fine(u, full, self.paired == 1))
            && self.ids_apart()
    }

    fn ids_apart(&self) -> bool {
        self.places
            .iter()
            .enumerate()
            .all(|(i, e)| !e.is_open() || self.places[i + 1..].iter().all(|f| !f.is_open() || e.ox_id != f.ox_id))
    }

    /// Of two that are used: not one address, and not one port name (02, request 1).
    fn apart(&self, other: &Login) -> bool {
        self.address != other.address && self.port_name != other.port_name
    }

    fn fine(&self, u: &Unit, own: u32) -> bool {
        match self.used {
            0 => self.places.iter().all(|e| !e.is_open()),
            1 => self.used_fine(u, own),
            _ => false,
        }
    }
}

fn logins_apart(logins: &[Login; 8]) -> bool {
    logins.iter().enumerate().all(|(i, l)| !l.is_used() || logins[i + 1..].iter().all(|m| !m.is_used() || l.apart(m)))
}

/// Whether the unit and a port are well formed.
#[inline(never)]
pub fn well_formed(u: &Unit, p: &Port) -> bool {
    (1..=4294967295).contains(&u.capacity)
        && u.writable <= 1
        && valid_address(p.address)
        && accept_fits(&p.accept)
        && p.logins.iter().all(|l| l.fine(u, p.address))
        && logins_apart(&p.logins)
}
