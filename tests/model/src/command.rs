//! 01, Commands: FCP_CMND, task flags, the nine tests, what is wanted, and FCP_RSP; 02, request 2: WRITE(10).

use crate::drive::{Attention, Drive, Exchange, Login, Source};
use crate::frame::{reply, Header, Row};
use crate::rules::{hit, when, Rule};

const TEST_UNIT_READY: u8 = 0x00;
const REQUEST_SENSE: u8 = 0x03;
const INQUIRY: u8 = 0x12;
const READ_CAPACITY: u8 = 0x25;
const READ_10: u8 = 0x28;
const WRITE_10: u8 = 0x2A;

pub const GOOD: u8 = 0x00;
const CHECK_CONDITION: u8 = 0x02;
const TASK_SET_FULL: u8 = 0x28;

/// Key, code and qualifier.
type Sense = (u8, u8, u8);

/// "FCP_CMND: LUN 8, byte 9 attribute (ignored), 10 task flags, 11 bit 1 read and bit 0 write, CDB 16, FCP_DL 4."
struct Command {
    lun: [u8; 8],
    flags: u8,
    read: bool,
    write: bool,
    cdb: [u8; 16],
    fcp_dl: u32,
}

impl Command {
    fn from(payload: &[u8; 32]) -> Command {
        Command {
            lun: payload[0..8].try_into().unwrap(),
            flags: payload[10],
            read: payload[11] & 2 != 0,
            write: payload[11] & 1 != 0,
            cdb: payload[12..28].try_into().unwrap(),
            fcp_dl: u32::from_be_bytes(payload[28..32].try_into().unwrap()),
        }
    }

    fn other_lun(&self) -> bool {
        self.lun != [0; 8]
    }

    /// READ(10), WRITE(10): CDB bytes 2-5.
    fn address(&self) -> u64 {
        u32::from_be_bytes(self.cdb[2..6].try_into().unwrap()).into()
    }

    /// READ(10), WRITE(10): CDB bytes 7-8.
    fn count(&self) -> u64 {
        u16::from_be_bytes(self.cdb[7..9].try_into().unwrap()).into()
    }
}

/// How a command that is no task ends.
enum Outcome {
    RspCode(u8),
    Check(Sense),
    Full,
    /// nothing to send, with what was wanted
    Done(u32),
    Opens(Exchange),
}

impl Drive {
    /// A 06h frame: its reply, or nothing as an exchange opens.
    pub(crate) fn command(&mut self, h: &Header, payload: &[u8]) -> Option<Vec<u8>> {
        // "No paired login: drive LOGO, login ended (house)."
        let Some(i) = self.place_of(h.s_id) else {
            hit(Rule::CommandNoLogin);
            return Some(self.drive_logo(h.s_id));
        };
        if when(!self.at(i).paired, Rule::CommandUnpaired) {
            self.end_login(h.s_id);
            return Some(self.drive_logo(h.s_id));
        }
        // "RSP_CODE 02 for a size other than 32, both data bits, a task flag of 01h, 08h, 10h, or two flags."
        let Ok(payload) = <&[u8; 32]>::try_from(payload) else {
            hit(Rule::CommandSize);
            return Some(self.response(h, &rsp_code(0x02)));
        };
        let c = Command::from(payload);
        if when(c.read && c.write, Rule::CommandBothBits)
            || when(c.flags & 0x19 != 0, Rule::CommandFlagUnknown)
            || when(c.flags.count_ones() >= 2, Rule::CommandTwoFlags)
        {
            return Some(self.response(h, &rsp_code(0x02)));
        }
        if c.flags != 0 {
            let code = self.task(&c, i);
            return Some(self.response(h, &rsp_code(code)));
        }
        let payload = match self.outcome(h.ox_id, &c, i) {
            Outcome::RspCode(code) => rsp_code(code),
            // "0 when refused, with 28h too"
            Outcome::Check(sense) => {
                let mut payload = fcp_rsp(CHECK_CONDITION, 0, c.fcp_dl);
                // "or 18 sense bytes (flag 02h, status 02h)"
                payload[10] |= 0x02;
                payload[16..20].copy_from_slice(&18u32.to_be_bytes());
                payload.extend(sense_bytes(sense));
                payload
            }
            Outcome::Full => fcp_rsp(TASK_SET_FULL, 0, c.fcp_dl),
            // "Nothing to send: FCP_RSP at once."
            Outcome::Done(wanted) => fcp_rsp(GOOD, wanted, c.fcp_dl),
            // "Else the exchange opens silently."
            Outcome::Opens(exchange) => {
                let login = self.at_mut(i);
                let free = login.free_place().unwrap();
                when(free == 7, Rule::OpensEighth);
                login.exchanges[free] = Some(exchange);
                return None;
            }
        };
        Some(self.response(h, &payload))
    }

    /// One task flag: what it does, and its RSP_CODE.
    fn task(&mut self, c: &Command, sender: usize) -> u8 {
        match c.flags {
            // "80h, 40h: 04."
            0x80 | 0x40 => {
                hit(if c.flags == 0x80 { Rule::Task80 } else { Rule::Task40 });
                0x04
            }
            // "20h target reset ends all exchanges and gives every login attention 29h."
            0x20 => {
                hit(Rule::TargetReset);
                when(c.other_lun(), Rule::TargetResetOtherLun);
                when(self.logins.iter().flatten().any(Login::writes), Rule::TargetResetWrite);
                for login in self.logins.iter_mut().flatten() {
                    login.end_exchanges();
                    login.attention = Attention::Reset;
                }
                0x00
            }
            // "04h clear task set ends all, 02h abort task set the sender's; with a nonzero LUN 05"
            _ if when(c.other_lun(), Rule::TaskOtherLun) => 0x05,
            0x04 => {
                hit(Rule::ClearTaskSet);
                when(self.logins.iter().flatten().any(Login::writes), Rule::ClearWrite);
                for (i, login) in self.logins.iter_mut().enumerate() {
                    let Some(login) = login else { continue };
                    // "after 04h each other login that lost one gets 2Fh unless 29h stands"
                    if i == sender {
                        when(login.open() > 0, Rule::ClearSenderLost);
                    } else if login.open() == 0 {
                        hit(Rule::ClearOtherLostNone);
                    } else if login.attention == Attention::Reset {
                        hit(Rule::ClearResetStands);
                    } else {
                        hit(Rule::ClearOtherLost);
                        login.attention = Attention::Cleared;
                    }
                    login.end_exchanges();
                }
                0x00
            }
            _ => {
                hit(Rule::AbortTaskSet);
                when(self.at(sender).open() > 0, Rule::AbortTaskSetEnds);
                when(self.at(sender).writes(), Rule::AbortTaskSetWrite);
                self.at_mut(sender).end_exchanges();
                // "Done: 00."
                0x00
            }
        }
    }

    /// "Tests for the rest", in order, then the exchange to open or the answer at once.
    fn outcome(&mut self, ox_id: u16, c: &Command, i: usize) -> Outcome {
        let code = c.cdb[0];
        // "(1) OX_ID open at this login: that exchange ends, 0B/4E/00"
        if let Some(place) = self.at(i).place_of(ox_id) {
            hit(Rule::Test1);
            when(self.at(i).free_place().is_none(), Rule::Test1Eight);
            when(self.at(i).attention != Attention::None, Rule::Test1Attention);
            self.count_test_1(i, place, code);
            self.at_mut(i).exchanges[place] = None;
            return Outcome::Check((0x0B, 0x4E, 0x00));
        }
        // "INQUIRY and REQUEST SENSE skip 2 and 3."
        if code != INQUIRY && code != REQUEST_SENSE {
            // "(2) LUN not 0, 05/25/00"
            if when(c.other_lun(), Rule::Test2) {
                return Outcome::Check((0x05, 0x25, 0x00));
            }
            // "(3) attention, 06/29/00 or 06/2F/00, and cleared"
            if self.at(i).attention != Attention::None {
                let sense = attention_sense(self.at(i).attention);
                hit(if sense.1 == 0x29 { Rule::Test3Reset } else { Rule::Test3Cleared });
                self.at_mut(i).attention = Attention::None;
                return Outcome::Check(sense);
            }
        }
        // "(4) code not 00h, 03h, 12h, 25h, 28h, 2Ah, 05/20/00"
        if when(![0x00, 0x03, 0x12, 0x25, 0x28, 0x2A].contains(&code), Rule::Test4) {
            return Outcome::Check((0x05, 0x20, 0x00));
        }
        // "(5) 2Ah, 07/27/00"; 02, 2: "read-only units still give 07/27/00 at test 5"
        if when(code == WRITE_10 && !self.setup.allows_writing(), Rule::Test5) {
            return Outcome::Check((0x07, 0x27, 0x00));
        }
        // 02, 2: "tests 6 and 7 treat WRITE(10) as READ(10)"
        // "(6) INQUIRY byte 1 bit 0 or byte 2, READ CAPACITY bytes 2-5 or byte 8 bit 0, READ(10) byte 1 bit 0 set, 05/24/00"
        let cdb = &c.cdb;
        let field = match code {
            INQUIRY => when(cdb[1] & 1 != 0, Rule::Test6InquiryBit) || when(cdb[2] != 0, Rule::Test6InquiryPage),
            READ_CAPACITY => {
                when(cdb[2..6] != [0; 4], Rule::Test6CapacityAddress) || when(cdb[8] & 1 != 0, Rule::Test6CapacityBit)
            }
            READ_10 => when(cdb[1] & 1 != 0, Rule::Test6ReadBit),
            WRITE_10 => when(cdb[1] & 1 != 0, Rule::Test6WriteBit),
            _ => false,
        };
        if field {
            return Outcome::Check((0x05, 0x24, 0x00));
        }
        // "(7) READ(10) address not below capacity, or address plus count above it, 05/21/00"
        let capacity = self.setup.capacity;
        if (code == READ_10 || code == WRITE_10)
            && (when(c.address() >= capacity, Rule::Test7Address) || when(c.address() + c.count() > capacity, Rule::Test7Count))
        {
            when(code == WRITE_10, Rule::Test7Write);
            return Outcome::Check((0x05, 0x21, 0x00));
        }
        // "Wanted: 0; 18 or byte 4 if smaller ..; 36 or byte 4 if smaller ..; 8 ..; count × 512"
        let wanted = match code {
            TEST_UNIT_READY => 0,
            REQUEST_SENSE => u32::from(cdb[4]).min(18),
            INQUIRY => u32::from(cdb[4]).min(36),
            READ_CAPACITY => 8,
            _ => c.count() as u32 * 512,
        };
        // "To send: the smaller of wanted and FCP_DL."
        let total = wanted.min(c.fcp_dl);
        if total == 0 {
            hit(match code {
                TEST_UNIT_READY => Rule::DoneTestUnitReady,
                REQUEST_SENSE => Rule::DoneRequestSense,
                INQUIRY => Rule::DoneInquiry,
                READ_CAPACITY => Rule::DoneReadCapacity,
                WRITE_10 if wanted == 0 => Rule::DoneWriteNone,
                WRITE_10 => Rule::DoneWrite,
                _ if wanted == 0 => Rule::DoneReadNone,
                _ => Rule::DoneRead,
            });
            return Outcome::Done(wanted);
        }
        // "(8) bytes to send without the read bit, RSP_CODE 02"; 02, 2: "test 8 asks the write bit for a write"
        let lacks_bit = match code {
            WRITE_10 => when(!c.write, Rule::Test8Write),
            _ => when(!c.read, Rule::Test8),
        };
        if lacks_bit {
            when(code == WRITE_10 && c.read, Rule::Test8WriteRead);
            return Outcome::RspCode(0x02);
        }
        // "(9) bytes to send, eight open, status 28h", or bytes to take
        if when(self.at(i).free_place().is_none(), Rule::Test9) {
            when(code == WRITE_10, Rule::Test9Write);
            when(code == REQUEST_SENSE && self.at(i).attention != Attention::None, Rule::Test9Attention);
            return Outcome::Full;
        }
        let source = match code {
            REQUEST_SENSE => Source::Made(self.requested_sense(c, i).to_vec()),
            INQUIRY => Source::Made(self.inquiry(c)),
            READ_CAPACITY => {
                // "8 (last address, 512)"
                hit(Rule::OpensReadCapacity);
                let last = (capacity - 1) as u32;
                Source::Made([last.to_be_bytes(), 512u32.to_be_bytes()].concat())
            }
            WRITE_10 => {
                self.count_write(c, i);
                Source::Host(c.address())
            }
            _ => {
                hit(Rule::OpensRead);
                when(c.address() + c.count() == capacity, Rule::OpensReadToEnd);
                when(c.address() >= 8_388_608, Rule::OpensReadPast);
                Source::Unit(c.address())
            }
        };
        Outcome::Opens(Exchange { ox_id, source, wanted, fcp_dl: c.fcp_dl, sent: 0, asked: 0 })
    }

    /// Counts a WRITE(10) that opens.
    fn count_write(&self, c: &Command, i: usize) {
        let (from, to) = (c.address(), c.address() + c.count());
        hit(Rule::OpensWrite);
        when(to == self.setup.capacity, Rule::OpensWriteToEnd);
        when(from >= 8_388_608, Rule::OpensWritePast);
        when(c.count() > 128, Rule::OpensWriteBursts);
        when(c.fcp_dl % 512 != 0 && c.fcp_dl < c.count() as u32 * 512, Rule::OpensWriteHalf);
        let overlaps = |e: &Exchange| match e.source {
            Source::Host(start) => start < to && from < start + u64::from(e.wanted) / 512,
            _ => false,
        };
        let overlap = |login: &Login| login.exchanges.iter().flatten().any(overlaps);
        when(overlap(self.at(i)), Rule::OpensWriteOverlap);
        when(self.logins.iter().flatten().any(|l| l.address != self.at(i).address && overlap(l)), Rule::OpensWriteOverlapOther);
        let open = self.at(i).exchanges.iter().flatten();
        when(open.clone().any(Exchange::writes) && open.clone().any(|e| !e.writes()), Rule::OpensWriteMixed);
        when(open.filter(|e| e.writes()).count() == 7, Rule::OpensWriteEighth);
    }

    /// Counts what test 1 ends, where it is a write, and a WRITE(10) under an open OX_ID.
    fn count_test_1(&self, i: usize, place: usize, code: u8) {
        let e = self.at(i).exchanges[place].as_ref().unwrap();
        if e.writes() {
            hit(if e.sent == e.total() {
                Rule::Test1Written
            } else if e.sent > 0 {
                Rule::Test1HalfWritten
            } else {
                Rule::Test1Write
            });
        }
        when(code == WRITE_10, Rule::Test1ByWrite);
    }

    /// "00/00/00, the attention, cleared as its exchange opens, or 05/25/00 for another LUN"
    fn requested_sense(&mut self, c: &Command, i: usize) -> [u8; 18] {
        if when(c.other_lun(), Rule::SenseOtherLun) {
            return sense_bytes((0x05, 0x25, 0x00));
        }
        let attention = self.at(i).attention;
        hit(match attention {
            Attention::None => Rule::SenseNone,
            Attention::Reset => Rule::SenseReset,
            Attention::Cleared => Rule::SenseCleared,
        });
        self.at_mut(i).attention = Attention::None;
        sense_bytes(attention_sense(attention))
    }

    /// "00 00 02 02 1F 00 00 02 and identity, 7Fh first for another LUN"
    fn inquiry(&self, c: &Command) -> Vec<u8> {
        hit(if c.other_lun() { Rule::InquiryOtherLun } else { Rule::InquiryOpens });
        let first = if c.other_lun() { 0x7F } else { 0x00 };
        let mut bytes = vec![first, 0x00, 0x02, 0x02, 0x1F, 0x00, 0x00, 0x02];
        bytes.extend(self.setup.identity);
        bytes
    }

    fn response(&self, h: &Header, payload: &[u8]) -> Vec<u8> {
        reply(Row::Rsp, h.s_id, self.setup.address, h.ox_id, payload)
    }
}

fn attention_sense(attention: Attention) -> Sense {
    match attention {
        Attention::None => (0x00, 0x00, 0x00),
        Attention::Reset => (0x06, 0x29, 0x00),
        Attention::Cleared => (0x06, 0x2F, 0x00),
    }
}

/// "70, 00, key, 4 zeros, 0A, code and qualifier at 12, 13", of 18 bytes.
fn sense_bytes((key, code, qualifier): Sense) -> [u8; 18] {
    let mut bytes = [0; 18];
    bytes[0] = 0x70;
    bytes[2] = key;
    bytes[7] = 0x0A;
    bytes[12] = code;
    bytes[13] = qualifier;
    bytes
}

/// "FCP_RSP: bytes 10 flags, 11 status, 12 FCP_RESID, 16 sense length, 20 response length", without sense and response.
/// "The signed difference of wanted and FCP_DL above 0 sets flag 04h, below 0 flag 08h, FCP_RESID its size"
pub(crate) fn fcp_rsp(status: u8, wanted: u32, fcp_dl: u32) -> Vec<u8> {
    let mut payload = vec![0; 24];
    let difference = i64::from(wanted) - i64::from(fcp_dl);
    if when(difference > 0, Rule::ResidualOver) {
        payload[10] = 0x04;
    } else if when(difference < 0, Rule::ResidualUnder) {
        payload[10] = 0x08;
    } else {
        hit(Rule::ResidualNone);
    }
    payload[11] = status;
    payload[12..16].copy_from_slice(&(difference.unsigned_abs() as u32).to_be_bytes());
    payload
}

/// "then 8 bytes with the code at 3 (flag 01h)"; "RSP_CODE and task answers give 0" as FCP_RESID.
pub(crate) fn rsp_code(code: u8) -> Vec<u8> {
    let mut payload = vec![0; 32];
    payload[10] = 0x01;
    payload[20..24].copy_from_slice(&8u32.to_be_bytes());
    payload[27] = code;
    payload
}
