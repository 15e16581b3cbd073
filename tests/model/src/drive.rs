//! 01, What the drive side does, and Numbers returned for refused calls: the state, and the calls with their refusals in order.

use crate::frame::Header;
use crate::rules::{hit, when, Rule};
use crate::setup::{valid_address, Parameters, Setup};

/// "8 logins at most, each with 8 places for open exchanges of its own."
pub const LOGINS: usize = 8;
pub const PLACES: usize = 8;
/// "reply buffer under 2,136 bytes"; also the longest frame
pub const ROOM: usize = 2136;
/// "at most 65,536 bytes"
pub const WINDOW: usize = 65_536;
pub const BLOCK: u64 = 512;

#[derive(Clone, Debug, PartialEq)]
pub struct Drive {
    pub setup: Setup,
    pub logins: [Option<Login>; LOGINS],
}

#[derive(Clone, Debug, PartialEq)]
pub struct Login {
    pub address: u32,
    pub parameters: Parameters,
    pub proven: bool,
    pub paired: bool,
    pub attention: Attention,
    pub exchanges: [Option<Exchange>; PLACES],
}

#[derive(Clone, Copy, Debug, PartialEq)]
pub enum Attention {
    None,
    /// 29h
    Reset,
    /// 2Fh
    Cleared,
}

/// An open exchange: what it sends or takes, how much, and how far it is.
#[derive(Clone, Debug, PartialEq)]
pub struct Exchange {
    pub ox_id: u16,
    pub source: Source,
    pub wanted: u32,
    pub fcp_dl: u32,
    /// bytes sent; of a write, bytes received
    pub sent: u32,
    /// of a write, the end of the burst last asked for, 0 before the first; data is awaited while less is received
    pub asked: u32,
}

/// Where an exchange's bytes come from: 02, 2: "The exchange record gains a direction".
#[derive(Clone, Debug, PartialEq)]
pub enum Source {
    /// READ(10): the unit's bytes from this block on, out of the lent window
    Unit(u64),
    /// INQUIRY, READ CAPACITY, REQUEST SENSE: made data, fixed as the exchange opens
    Made(Vec<u8>),
    /// WRITE(10): the host's data frames, for the unit's bytes from this block on, into the lent window
    Host(u64),
}

impl Exchange {
    /// "To send: the smaller of wanted and FCP_DL."
    pub fn total(&self) -> u32 {
        self.wanted.min(self.fcp_dl)
    }

    pub fn writes(&self) -> bool {
        matches!(self.source, Source::Host(_))
    }

    /// Data of a write is awaited.
    pub fn awaited(&self) -> bool {
        self.sent < self.asked
    }
}

impl Login {
    /// The place of the open exchange of that OX_ID.
    pub fn place_of(&self, ox_id: u16) -> Option<usize> {
        self.exchanges.iter().position(|e| e.as_ref().is_some_and(|e| e.ox_id == ox_id))
    }

    pub fn free_place(&self) -> Option<usize> {
        self.exchanges.iter().position(Option::is_none)
    }

    pub fn open(&self) -> usize {
        self.exchanges.iter().flatten().count()
    }

    pub fn writes(&self) -> bool {
        self.exchanges.iter().flatten().any(Exchange::writes)
    }

    pub fn end_exchanges(&mut self) {
        self.exchanges = Default::default();
    }
}

/// What the chip reports.
#[derive(Clone, Copy, Debug, PartialEq)]
pub enum Event {
    LoopReset,
    TimeOver,
    PowerOn,
}

/// The window lent for a next frame: "a starting block and at most 65,536 bytes".
#[derive(Clone, Copy, Debug)]
pub struct Window<'a> {
    pub start: u64,
    pub bytes: &'a [u8],
}

/// 02, 2: "FCP_DATA frames go in order into a lent window": the window lent with a frame.
#[derive(Debug)]
pub struct Lent<'a> {
    pub start: u64,
    pub bytes: &'a mut [u8],
}

impl Drive {
    /// "Making a drive: 8."
    pub fn new(setup: Setup) -> Result<Drive, u8> {
        // "8: setup breaks a rule above"
        if !setup.holds() {
            return Err(8);
        }
        hit(Rule::Made);
        Ok(Drive { setup, logins: Default::default() })
    }

    /// Frame in: the reply's length, 0 for nothing to send, or the refusal. "Frame in: 1 to 7 in order." 02, 2: "Refusals: 11, data frame
    /// for no open write, after 7; then 10 for its window". The window is a data frame's; with another frame it is not looked at.
    pub fn frame_in(&mut self, frame: &[u8], window: Lent, reply: &mut [u8]) -> Result<usize, u8> {
        // "1: reply buffer under 2,136 bytes"
        if when(reply.len() < ROOM, Rule::InRoom) {
            return Err(1);
        }
        // "2: state not well formed" cannot be: every state here came from `new`
        // "3: frame not 24 to 2,136 bytes, or not a multiple of 4"
        if when(frame.len() < 24, Rule::InShort)
            || when(frame.len() > ROOM, Rule::InLong)
            || when(frame.len() % 4 != 0, Rule::InNotFour)
        {
            return Err(3);
        }
        let h = Header::read(frame);
        let payload = &frame[24..];
        // "4: D_ID is not ours"
        if when(h.d_id != self.setup.address, Rule::InDestination) {
            return Err(4);
        }
        // "5: S_ID not a valid address, or ours"
        if when(!valid_address(h.s_id), Rule::InSource) || when(h.s_id == self.setup.address, Rule::InSourceOurs) {
            return Err(5);
        }
        // "6: form unknown"
        if form_unknown(&h, payload) {
            return Err(6);
        }
        // "7: login unproven"
        if self.login(h.s_id).is_some_and(|l| !l.proven) && !spared(&h, payload) {
            return Err(7);
        }
        let answer = match h.r_ctl {
            0x22 => Some(self.link_service(&h, payload)),
            0x81 => Some(self.abts(&h)),
            0x06 => self.command(&h, payload),
            0x01 => self.data_in(&h, payload, window)?,
            // "A 23h frame that passes is answered with nothing and changes nothing."
            _ => {
                hit(Rule::InDone);
                None
            }
        };
        Ok(stand(answer, reply))
    }

    /// Next frame out. "Next frame out: 1, 2, 9, 7, 10."
    pub fn next_frame(&mut self, address: u32, ox_id: u16, window: Window, reply: &mut [u8]) -> Result<usize, u8> {
        // "1: reply buffer under 2,136 bytes"
        if when(reply.len() < ROOM, Rule::NextRoom) {
            return Err(1);
        }
        // "9: no such open exchange"
        let Some(login) = self.place_of(address) else {
            hit(Rule::NextNoLogin);
            return Err(9);
        };
        let Some(place) = self.at(login).place_of(ox_id) else {
            hit(Rule::NextNoExchange);
            return Err(9);
        };
        // "7: login unproven"
        if when(!self.at(login).proven, Rule::NextUnproven) {
            return Err(7);
        }
        // "10: window too long or not covering"
        if when(window.bytes.len() > WINDOW, Rule::NextLong) {
            self.count_long(login, place);
            return Err(10);
        }
        let answer = self.next(login, place, window)?;
        Ok(stand(answer, reply))
    }

    /// "Events: loop reset marks every login unproven; verification time over ends the unproven ones; power on ends all."
    pub fn event(&mut self, event: Event) {
        match event {
            Event::LoopReset => {
                hit(Rule::LoopReset);
                for login in self.logins.iter_mut().flatten() {
                    login.proven = false;
                }
            }
            Event::TimeOver => {
                hit(Rule::TimeOver);
                for place in &mut self.logins {
                    if let Some(login) = place {
                        if when(!login.proven, Rule::TimeOverEnds) {
                            when(login.writes(), Rule::TimeOverWrite);
                            *place = None;
                        } else {
                            hit(Rule::TimeOverLeaves);
                        }
                    }
                }
            }
            Event::PowerOn => {
                when(self.logins.iter().flatten().any(Login::writes), Rule::PowerOnWrite);
                hit(Rule::PowerOn);
                self.logins = Default::default();
            }
        }
    }

    /// The place of the login of that address.
    pub fn place_of(&self, address: u32) -> Option<usize> {
        self.logins.iter().position(|l| l.as_ref().is_some_and(|l| l.address == address))
    }

    pub fn login(&self, address: u32) -> Option<&Login> {
        self.place_of(address).map(|i| self.at(i))
    }

    pub(crate) fn at(&self, i: usize) -> &Login {
        self.logins[i].as_ref().unwrap()
    }

    pub(crate) fn at_mut(&mut self, i: usize) -> &mut Login {
        self.logins[i].as_mut().unwrap()
    }

    /// Ends the login of that address, if any, and with it its exchanges.
    pub(crate) fn end_login(&mut self, address: u32) {
        if let Some(i) = self.place_of(address) {
            self.logins[i] = None;
        }
    }
}

/// "Form unknown: R_CTL, TYPE not one of (22h, 01h), (23h, 01h), (81h, 00h), (06h, 08h); or DF_CTL, SEQ_CNT or the low two
/// bits of F_CTL not 0; or a 22h frame without payload." 02, 2: "The form rule admits (01h, 08h), with any SEQ_CNT and a fill count
/// within its payload."
fn form_unknown(h: &Header, payload: &[u8]) -> bool {
    let known = [(0x22, 0x01), (0x23, 0x01), (0x81, 0x00), (0x06, 0x08), (0x01, 0x08)];
    if when(!known.contains(&(h.r_ctl, h.kind)), Rule::FormPair) {
        return true;
    }
    if h.r_ctl == 0x01 {
        return when(h.df_ctl != 0, Rule::FormDataDfCtl) || when(h.fill() > payload.len(), Rule::FormDataFill);
    }
    when(h.df_ctl != 0, Rule::FormDfCtl)
        || when(h.seq_cnt != 0, Rule::FormSeqCnt)
        || when(h.f_ctl & 3 != 0, Rule::FormFCtl)
        || when(h.r_ctl == 0x22 && payload.is_empty(), Rule::FormNoPayload)
}

/// "Refusal 7 spares only PLOGI, PDISC, ADISC, LOGO", told by the code alone.
fn spared(h: &Header, payload: &[u8]) -> bool {
    let rule = match h.r_ctl {
        0x22 if [0x03, 0x50, 0x52, 0x05].contains(&payload[0]) => Rule::UnprovenSpared,
        0x22 => Rule::UnprovenLink,
        0x23 => Rule::UnprovenDone,
        0x81 => Rule::UnprovenAbts,
        0x01 => Rule::UnprovenData,
        _ => Rule::UnprovenCommand,
    };
    hit(rule);
    rule == Rule::UnprovenSpared
}

/// "Otherwise the reply stands at the front of the buffer, its length (0 for nothing to send) in the answer, later bytes unchanged."
fn stand(answer: Option<Vec<u8>>, reply: &mut [u8]) -> usize {
    let bytes = answer.unwrap_or_default();
    reply[..bytes.len()].copy_from_slice(&bytes);
    bytes.len()
}
