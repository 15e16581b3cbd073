//! 01, Link services: PLOGI to RRQ, ABTS, and the LOGO by the drive; 02, request 1: the host that moved.

use crate::drive::{Attention, Drive, Login, LOGINS};
use crate::frame::{reply, three, Header, Row};
use crate::rules::{hit, when, Rule};
use crate::setup::{judge, Caller, Fault, Parameters};

const PLOGI: u8 = 0x03;
const LOGO: u8 = 0x05;
const RRQ: u8 = 0x12;
const PRLI: u8 = 0x20;
const PRLO: u8 = 0x21;
const PDISC: u8 = 0x50;
const ADISC: u8 = 0x52;

/// "Codes and payload sizes: PLOGI 03h 116, LOGO 05h 16, RRQ 12h 44, PRLI 20h 20, PRLO 21h 20, PDISC 50h 116, ADISC 52h 28."
pub const SIZES: [(u8, usize); 7] = [(PLOGI, 116), (LOGO, 16), (RRQ, 44), (PRLI, 20), (PRLO, 20), (PDISC, 116), (ADISC, 28)];

/// "ACC of 4 bytes"
const ACC: [u8; 4] = [0x02, 0x00, 0x00, 0x00];

impl Drive {
    /// A link request. "Order: other code 0B,00; wrong size 03,00; no login (PLOGI and LOGO excepted) a drive LOGO; then:"
    pub(crate) fn link_service(&mut self, h: &Header, payload: &[u8]) -> Vec<u8> {
        let code = payload[0];
        let Some(&(_, size)) = SIZES.iter().find(|s| s.0 == code) else {
            hit(Rule::OtherCode);
            return self.reject(h, 0x0B, 0x00);
        };
        if when(payload.len() != size, Rule::WrongSize) {
            when(code == PLOGI && payload.len() >= 28 && self.elsewhere(&payload[20..28], h.s_id).is_some(), Rule::StaysSize);
            return self.reject(h, 0x03, 0x00);
        }
        if code == PLOGI {
            return self.plogi(h, payload);
        }
        if code == LOGO {
            return self.logo(h, payload);
        }
        let Some(i) = self.place_of(h.s_id) else {
            hit(Rule::NoLogin);
            return self.drive_logo(h.s_id);
        };
        match code {
            PDISC => self.pdisc(h, payload, i),
            ADISC => self.adisc(h, payload, i),
            PRLI => self.prli(h, payload, i),
            PRLO => self.prlo(h, payload, i),
            _ => self.rrq(h, payload, i),
        }
    }

    /// PLOGI.
    fn plogi(&mut self, h: &Header, payload: &[u8]) -> Vec<u8> {
        // "Of right size, it ends the sender's login and exchanges first, accepted or not (house)."
        when(self.place_of(h.s_id).is_some(), Rule::PlogiEnds);
        when(self.login(h.s_id).is_some_and(|l| l.open() > 0), Rule::PlogiEndsExchanges);
        when(self.login(h.s_id).is_some_and(Login::writes), Rule::PlogiWrite);
        when(self.logins.iter().flatten().count() == LOGINS && self.place_of(h.s_id).is_some(), Rule::PlogiMemberOfFull);
        let before = self.place_of(h.s_id);
        self.end_login(h.s_id);
        // "Tests in word order"
        let parameters = match judge(&payload[4..]) {
            Ok(parameters) => parameters,
            Err(fault) => {
                self.count_stays(h, payload, fault, before);
                let (reason, explanation) = fault.reject();
                return self.reject(h, reason, explanation);
            }
        };
        let left = self.end_moved(h.s_id, &parameters, before);
        // "a free place, else 09,29"
        let Some(free) = self.logins.iter().position(Option::is_none) else {
            hit(Rule::PlogiNoRoom);
            return self.reject(h, 0x09, 0x29);
        };
        // "Accepted: the lowest free place keeps address, names, W18 size, W19/B1, W20/B1, proven, unpaired, attention 29h."
        hit(Rule::PlogiAcc);
        when(before.is_some_and(|i| free < i), Rule::PlogiLowerPlace);
        when(left == Some(free) && before.is_some_and(|i| free < i), Rule::MovedLowerPlace);
        self.logins[free] = Some(Login {
            address: h.s_id,
            parameters,
            proven: true,
            paired: false,
            attention: Attention::Reset,
            exchanges: Default::default(),
        });
        self.login_acc(h)
    }

    /// 02, 1: "A PLOGI whose parameters pass, with a port name logged in at another address, ends that login and its exchanges before
    /// the room test." Answers the place that is left.
    fn end_moved(&mut self, s_id: u32, new: &Parameters, sender: Option<usize>) -> Option<usize> {
        let Some(i) = self.elsewhere(&new.port_name, s_id) else {
            self.count_apart(new);
            return None;
        };
        self.count_moved(i, new, sender);
        self.logins[i] = None;
        Some(i)
    }

    /// The place of the login of that port name, W5-6 alone, at another address.
    fn elsewhere(&self, port_name: &[u8], s_id: u32) -> Option<usize> {
        self.logins.iter().position(|l| l.as_ref().is_some_and(|l| l.address != s_id && l.parameters.port_name == port_name))
    }

    /// Counts what the login that a host left was like, and from where it comes back.
    fn count_moved(&self, i: usize, new: &Parameters, sender: Option<usize>) {
        let (left, used) = (self.at(i), self.logins.iter().flatten().count());
        hit(if sender.is_none() { Rule::Moved } else { Rule::MovedOnto });
        when(left.open() > 0, Rule::MovedExchanges);
        when(left.writes(), Rule::MovedWrite);
        when(!left.proven, Rule::MovedUnproven);
        when(!left.paired, Rule::MovedUnpaired);
        when(left.parameters.node_name != new.node_name, Rule::MovedNode);
        when(used == LOGINS, Rule::MovedFull);
        when(used + 1 == LOGINS && sender.is_some(), Rule::MovedOntoFull);
    }

    /// Counts a new port name that is like another login's names and yet another: that login stays.
    fn count_apart(&self, new: &Parameters) {
        let like = |like: fn(&Parameters, &Parameters) -> bool| self.logins.iter().flatten().any(|l| like(&l.parameters, new));
        when(like(|l, new| l.node_name == new.node_name), Rule::ApartNode);
        when(like(|l, new| l.node_name == new.port_name), Rule::ApartPortNode);
        when(like(|l, new| l.port_name[..4] == new.port_name[..4]), Rule::ApartW5);
        when(like(|l, new| l.port_name[4..] == new.port_name[4..]), Rule::ApartW6);
    }

    /// Counts the word test that failed, and whether the port name is logged in elsewhere: that login stays.
    fn count_stays(&self, h: &Header, payload: &[u8], fault: Fault, sender: Option<usize>) {
        hit(fault.rule(Caller::Plogi));
        if self.elsewhere(&payload[20..28], h.s_id).is_some() {
            hit(fault.rule(Caller::Elsewhere));
            when(sender.is_some(), Rule::StaysSenderEnds);
        }
    }

    /// "ACC is 02 00 00 00 and the setup words."
    fn login_acc(&self, h: &Header) -> Vec<u8> {
        let mut payload = ACC.to_vec();
        payload.extend(self.setup.accept);
        self.accept(h, &payload)
    }

    /// PDISC. 02, request 1 is of PLOGI alone: the names are compared with the sender's login, not with others.
    fn pdisc(&mut self, h: &Header, payload: &[u8], i: usize) -> Vec<u8> {
        // "Names differ from the login's ..: drive LOGO, login ended."
        if !same_names(&self.at(i).parameters, &payload[20..28], &payload[28..36], Rule::PdiscPort, Rule::PdiscNode) {
            when(self.elsewhere(&payload[20..28], h.s_id).is_some(), Rule::PdiscElsewhere);
            when(self.at(i).writes(), Rule::PdiscWrite);
            self.end_login(h.s_id);
            return self.drive_logo(h.s_id);
        }
        // "PDISC then tests as PLOGI, without the room test, changing nothing on reject."
        if let Err(fault) = judge(&payload[4..]) {
            hit(fault.rule(Caller::Pdisc));
            let (reason, explanation) = fault.reject();
            return self.reject(h, reason, explanation);
        }
        // "ACC marks the login proven and changes nothing else; PDISC's is PLOGI's."
        hit(if self.at(i).proven { Rule::PdiscAcc } else { Rule::PdiscProves });
        self.at_mut(i).proven = true;
        self.login_acc(h)
    }

    /// ADISC: port name W2-3, node name W4-5.
    fn adisc(&mut self, h: &Header, payload: &[u8], i: usize) -> Vec<u8> {
        // "Names differ from the login's, or ADISC W6/B1-3 from S_ID: drive LOGO, login ended."
        let same = same_names(&self.at(i).parameters, &payload[8..16], &payload[16..24], Rule::AdiscPort, Rule::AdiscNode);
        if !same || when(three(&payload[25..28]) != h.s_id, Rule::AdiscAddress) {
            when(self.elsewhere(&payload[8..16], h.s_id).is_some(), Rule::AdiscElsewhere);
            when(self.at(i).writes(), Rule::AdiscWrite);
            self.end_login(h.s_id);
            return self.drive_logo(h.s_id);
        }
        // "ACC marks the login proven and changes nothing else"
        hit(if self.at(i).proven { Rule::AdiscAcc } else { Rule::AdiscProves });
        self.at_mut(i).proven = true;
        // "ADISC ACC: 02 00 00 00, own address, own names, own address."
        let mut acc = ACC.to_vec();
        acc.extend(self.setup.address.to_be_bytes());
        acc.extend(self.setup.port_name());
        acc.extend(self.setup.node_name());
        acc.extend(self.setup.address.to_be_bytes());
        self.accept(h, &acc)
    }

    /// LOGO.
    fn logo(&mut self, h: &Header, payload: &[u8]) -> Vec<u8> {
        // "W1/B1-3 must equal S_ID, else 03,1F."
        if when(three(&payload[5..8]) != h.s_id, Rule::LogoAddress) {
            return self.reject(h, 0x03, 0x1F);
        }
        // "Ends the login if any; ACC of 4 bytes."
        hit(if self.place_of(h.s_id).is_some() { Rule::LogoEnds } else { Rule::LogoNoLogin });
        when(self.login(h.s_id).is_some_and(Login::writes), Rule::LogoWrite);
        self.end_login(h.s_id);
        self.accept(h, &ACC)
    }

    /// PRLI.
    fn prli(&mut self, h: &Header, payload: &[u8], i: usize) -> Vec<u8> {
        // "PRLI also needs W1/B2 bit 5 and, in W4, bits 5 and 1, else 09,00"
        if !page(payload, Rule::PrliPage, Rule::PrliType)
            || when(payload[6] & 0x20 == 0, Rule::PrliImage)
            || when(payload[19] & 0x20 == 0, Rule::PrliInitiator)
            || when(payload[19] & 0x02 == 0, Rule::PrliReadReady)
        {
            return self.reject(h, 0x09, 0x00);
        }
        // "it marks the login paired and ends nothing; ACC 02 10 00 14, 08 00 21 00, two zero words, 00 00 00 12"
        hit(if self.at(i).paired { Rule::PrliAgain } else { Rule::PrliAcc });
        when(self.at(i).open() > 0, Rule::PrliEndsNothing);
        when(self.at(i).writes(), Rule::PrliWrite);
        self.at_mut(i).paired = true;
        self.accept(h, &[2, 0x10, 0, 0x14, 8, 0, 0x21, 0, 0, 0, 0, 0, 0, 0, 0, 0, 0, 0, 0, 0x12])
    }

    /// PRLO.
    fn prlo(&mut self, h: &Header, payload: &[u8], i: usize) -> Vec<u8> {
        if !page(payload, Rule::PrloPage, Rule::PrloType) {
            return self.reject(h, 0x09, 0x00);
        }
        // "PRLO ends the pairing and its exchanges; ACC 02 10 00 14, 08 00 01 00, three zero words."
        hit(if self.at(i).paired { Rule::PrloAcc } else { Rule::PrloUnpaired });
        when(self.at(i).open() > 0, Rule::PrloEndsExchanges);
        when(self.at(i).writes(), Rule::PrloWrite);
        self.at_mut(i).paired = false;
        self.at_mut(i).end_exchanges();
        self.accept(h, &[2, 0x10, 0, 0x14, 8, 0, 1, 0, 0, 0, 0, 0, 0, 0, 0, 0, 0, 0, 0, 0])
    }

    /// RRQ.
    fn rrq(&mut self, h: &Header, payload: &[u8], i: usize) -> Vec<u8> {
        // "W1/B1-3 not S_ID 03,15"
        if when(three(&payload[5..8]) != h.s_id, Rule::RrqAddress) {
            return self.reject(h, 0x03, 0x15);
        }
        // "that OX_ID open 03,17"
        let ox_id = u16::from_be_bytes([payload[8], payload[9]]);
        if when(self.at(i).place_of(ox_id).is_some(), Rule::RrqOpen) {
            when(self.at(i).exchanges.iter().flatten().any(|e| e.writes() && e.ox_id == ox_id), Rule::RrqWrite);
            return self.reject(h, 0x03, 0x17);
        }
        // "else ACC of 4 bytes"
        hit(Rule::RrqAcc);
        self.accept(h, &ACC)
    }

    /// ABTS.
    pub(crate) fn abts(&mut self, h: &Header) -> Vec<u8> {
        // "ABTS: no login, drive LOGO."
        let Some(i) = self.place_of(h.s_id) else {
            hit(Rule::AbtsNoLogin);
            return self.drive_logo(h.s_id);
        };
        // "RX_ID not FFFFh, BA_RJT 00 03 03 00."
        if when(h.rx_id != 0xFFFF, Rule::AbtsRxId) {
            return reply(Row::BaRjt(h.seq_id), h.s_id, self.setup.address, h.ox_id, &[0x00, 0x03, 0x03, 0x00]);
        }
        // "Else the sender's exchange of that OX_ID, if any, ends"
        if let Some(place) = self.at(i).place_of(h.ox_id) {
            hit(Rule::AbtsEnds);
            let e = self.at(i).exchanges[place].as_ref().unwrap();
            when(e.writes(), Rule::AbtsWrite);
            when(e.writes() && e.awaited(), Rule::AbtsAwaited);
            self.at_mut(i).exchanges[place] = None;
        } else {
            hit(Rule::AbtsNone);
        }
        // "BA_ACC 00000000, OX_ID, FFFF, 0000, FFFF."
        let mut acc = vec![0; 4];
        acc.extend(h.ox_id.to_be_bytes());
        acc.extend([0xFF, 0xFF, 0x00, 0x00, 0xFF, 0xFF]);
        reply(Row::BaAcc(h.seq_id), h.s_id, self.setup.address, h.ox_id, &acc)
    }

    /// "A drive LOGO is 05 00 00 00, own address, own port name." In the table: "OX_ID = destination address", its low 16 bits.
    pub(crate) fn drive_logo(&self, to: u32) -> Vec<u8> {
        let mut payload = vec![0x05, 0x00, 0x00, 0x00];
        payload.extend(self.setup.address.to_be_bytes());
        payload.extend(self.setup.port_name());
        reply(Row::DriveLogo, to, self.setup.address, to as u16, &payload)
    }

    fn accept(&self, h: &Header, payload: &[u8]) -> Vec<u8> {
        reply(Row::LinkReply, h.s_id, self.setup.address, h.ox_id, payload)
    }

    /// "LS_RJT is 01 00 00 00, then 00, reason, explanation, 00."
    fn reject(&self, h: &Header, reason: u8, explanation: u8) -> Vec<u8> {
        let payload = [0x01, 0x00, 0x00, 0x00, 0x00, reason, explanation, 0x00];
        reply(Row::LinkReply, h.s_id, self.setup.address, h.ox_id, &payload)
    }
}

/// Both names are the login's.
fn same_names(login: &Parameters, port_name: &[u8], node_name: &[u8], port: Rule, node: Rule) -> bool {
    !when(login.port_name != port_name, port) && !when(login.node_name != node_name, node)
}

/// "B1-3 = 10 00 14 and W1/B0 = 08h, else 09,00."
fn page(payload: &[u8], page: Rule, kind: Rule) -> bool {
    !when(payload[1..4] != [0x10, 0x00, 0x14], page) && !when(payload[4] != 0x08, kind)
}
