//! 01, Well formed, with the rules of 02, requests 1 and 2. No made drive can be otherwise; the histories test it after each call.

use crate::drive::{Attention, Drive, Exchange, Login, Source};
use crate::setup::valid_address;
use crate::write::BURST;

impl Drive {
    /// The first rule of "Well formed" that does not hold.
    pub fn ill_formed(&self) -> Option<&'static str> {
        // "setup rules hold": the rest was tested by `new`, and nothing stores to the setup
        if self.setup.writable > 1 {
            return Some("writable neither 0 nor 1");
        }
        let logins: Vec<&Login> = self.logins.iter().flatten().collect();
        for (i, login) in logins.iter().enumerate() {
            // "login addresses valid, distinct, not ours"
            if !valid_address(login.address) || login.address == self.setup.address {
                return Some("login address not valid, or ours");
            }
            if logins[..i].iter().any(|l| l.address == login.address) {
                return Some("two logins of one address");
            }
            // 02, 1: "Login port names are then distinct, and the well-formed rule says so." That is among places in use; node
            // names may be alike.
            if logins[..i].iter().any(|l| l.parameters.port_name == login.parameters.port_name) {
                return Some("two logins of one port name");
            }
            // "stored parameters pass the PLOGI rules"
            let p = &login.parameters;
            let size = (256..=2112).contains(&p.size) && p.size % 4 == 0;
            if !size || p.port_name == [0; 8] || p.node_name == [0; 8] || p.concurrent == 0 || p.open_sequences == 0 {
                return Some("stored parameters break the PLOGI rules");
            }
            if let Some(fault) = self.exchanges_ill_formed(login) {
                return Some(fault);
            }
        }
        None
    }

    /// The first rule that a login's exchanges break.
    fn exchanges_ill_formed(&self, login: &Login) -> Option<&'static str> {
        let open: Vec<&Exchange> = login.exchanges.iter().flatten().collect();
        // "exchanges only at paired logins, OX_IDs distinct within a login"
        if !login.paired && !open.is_empty() {
            return Some("an exchange at an unpaired login");
        }
        for (j, e) in open.iter().enumerate() {
            if open[..j].iter().any(|o| o.ox_id == e.ox_id) {
                return Some("two exchanges of one OX_ID");
            }
            if !self.could_open(e) {
                return Some("an exchange no command opens");
            }
            // "with bytes sent at most its total and, short of it, a whole number of full frames"; 02, 2: "the full-frame rule binds
            // reads only"
            if e.sent > e.total() || !e.writes() && e.sent < e.total() && e.sent % login.parameters.size.min(2048) != 0 {
                return Some("bytes sent");
            }
            if !asked_for(e) {
                return Some("bytes asked for");
            }
        }
        None
    }

    /// "each exchange is one an accepted command could open". Only READ(10) and WRITE(10) have an address and a
    /// count: of made data `Source` holds neither.
    fn could_open(&self, e: &Exchange) -> bool {
        let sense = |attention| match attention {
            Attention::None => [0, 0],
            Attention::Reset => [6, 0x29],
            Attention::Cleared => [6, 0x2F],
        };
        e.fcp_dl >= 1
            && match &e.source {
                Source::Unit(start) => self.on_unit(*start, e.wanted),
                // a command on a unit whose setup allows it
                Source::Host(start) => self.setup.allows_writing() && self.on_unit(*start, e.wanted),
                Source::Made(b) if b.len() == 8 => e.wanted == 8,
                Source::Made(b) if b.len() == 36 => (1..=36).contains(&e.wanted),
                Source::Made(b) if b.len() == 18 => {
                    let found = [b[2], b[12]];
                    let attentions = [Attention::None, Attention::Reset, Attention::Cleared];
                    (1..=18).contains(&e.wanted) && (found == [5, 0x25] || attentions.map(sense).contains(&found))
                }
                Source::Made(_) => false,
            }
    }

    /// A range that test 7 lets pass, of one block or more.
    fn on_unit(&self, start: u64, wanted: u32) -> bool {
        let count = u64::from(wanted / 512);
        wanted % 512 == 0 && (1..=65_535).contains(&count) && start + count <= self.setup.capacity
    }
}

/// The end of the burst last asked for is one that next frames lead to: while data is awaited the burst that the next byte stands in, at
/// most the total; else all that was asked for is received, whole bursts or the total. Only a write asks.
fn asked_for(e: &Exchange) -> bool {
    if !e.writes() {
        return e.asked == 0;
    }
    if e.sent == e.asked {
        return e.sent == e.total() || e.sent % BURST == 0;
    }
    e.sent < e.asked && e.asked == e.total().min((e.sent / BURST + 1) * BURST)
}
