//! 02, request 2, Writing from the host: FCP_XFER_RDY, and the data frames that the host sends.

use crate::command::rsp_code;
use crate::drive::{Drive, Exchange, Lent, Login, Source, BLOCK, WINDOW};
use crate::frame::{reply, Header, Row};
use crate::rules::{hit, when, Rule};

/// "for the bytes left, 65,536 at most"
pub const BURST: u32 = 65_536;

impl Exchange {
    /// The next frame of a write that is short of its total: "FCP_XFER_RDY (.. 12 bytes: offset, burst, zero) for the bytes left, 65,536
    /// at most, nothing while data is awaited".
    pub(crate) fn ready(&mut self, to: u32, from: u32) -> Option<Vec<u8>> {
        if when(self.awaited(), Rule::NextAwaited) {
            return None;
        }
        let left = self.total() - self.sent;
        let burst = left.min(BURST);
        hit(if self.sent == 0 { Rule::ReadyFirst } else { Rule::ReadyNext });
        hit(match left {
            0..BURST => Rule::ReadyShort,
            BURST => Rule::ReadyExact,
            _ => Rule::ReadyFull,
        });
        self.asked = self.sent + burst;
        let payload = [self.sent.to_be_bytes(), burst.to_be_bytes(), [0; 4]].concat();
        Some(reply(Row::Ready, to, from, self.ox_id, &payload))
    }
}

impl Drive {
    /// A data frame: taken in silence, answered with the RSP_CODE of a fault, or refused.
    pub(crate) fn data_in(&mut self, h: &Header, payload: &[u8], window: Lent) -> Result<Option<Vec<u8>>, u8> {
        // "11, data frame for no open write"
        let Some((i, place, start)) = self.open_write(h) else {
            return Err(11);
        };
        let own = self.setup.address;
        let login = self.at_mut(i);
        let e = login.exchanges[place].as_mut().unwrap();
        let position = start * BLOCK + u64::from(e.sent);
        // "a fill count within its payload"
        let n = payload.len() - h.fill();
        // whether the window would do, for the counting of faults alone
        let fits = reaches(&window, position, n).is_ok();
        // "A data frame at another offset than the next is answered at once with RSP_CODE 03, .. and ends the exchange."
        if h.offset != e.sent {
            count_offset(h, e, n, fits);
            login.exchanges[place] = None;
            return Ok(Some(reply(Row::Rsp, h.s_id, own, h.ox_id, &rsp_code(0x03))));
        }
        // "else past the burst with 01", and ends the exchange
        if u64::from(e.sent) + n as u64 > u64::from(e.asked) {
            count_past(e, n, fits);
            login.exchanges[place] = None;
            return Ok(Some(reply(Row::Rsp, h.s_id, own, h.ox_id, &rsp_code(0x01))));
        }
        // "then 10 for its window, unless a fault ends the exchange"
        let at = covered(&window, position, n)?;
        count_taken(h, e, payload, position, &window, at);
        // "FCP_DATA frames go in order into a lent window"
        window.bytes[at..at + n].copy_from_slice(&payload[..n]);
        e.sent += n as u32;
        Ok(None)
    }

    /// The write that a data frame is for: its places and its first block.
    fn open_write(&self, h: &Header) -> Option<(usize, usize, u64)> {
        when(!self.setup.allows_writing(), Rule::DataReadOnly);
        let Some(i) = self.place_of(h.s_id) else {
            hit(Rule::DataNoLogin);
            return None;
        };
        let Some(place) = self.at(i).place_of(h.ox_id) else {
            hit(if self.at(i).paired { Rule::DataNoExchange } else { Rule::DataUnpaired });
            let elsewhere = |l: &Login| l.exchanges.iter().flatten().any(|e| e.writes() && e.ox_id == h.ox_id);
            when(self.logins.iter().flatten().any(elsewhere), Rule::DataElsewhere);
            return None;
        };
        match self.at(i).exchanges[place].as_ref().unwrap().source {
            Source::Host(start) => Some((i, place, start)),
            Source::Unit(_) => {
                hit(Rule::DataRead);
                None
            }
            Source::Made(_) => {
                hit(Rule::DataMade);
                None
            }
        }
    }

    /// Counts a next frame that is refused for its long window, where it is a write's.
    pub(crate) fn count_long(&self, i: usize, place: usize) {
        let e = self.at(i).exchanges[place].as_ref().unwrap();
        if e.writes() {
            hit(if e.awaited() {
                Rule::NextLongAwaited
            } else if e.sent == e.total() {
                Rule::NextLongWritten
            } else {
                Rule::NextLongReady
            });
        }
    }
}

/// How a window does not do.
enum Short {
    Long,
    After,
    Before,
}

/// Where in the window the `n` bytes at `position` of the unit stand.
fn reaches(window: &Lent, position: u64, n: usize) -> Result<usize, Short> {
    let from = u128::from(window.start) * u128::from(BLOCK);
    let position = u128::from(position);
    if window.bytes.len() > WINDOW {
        return Err(Short::Long);
    }
    if position < from {
        return Err(Short::After);
    }
    if position + n as u128 > from + window.bytes.len() as u128 {
        return Err(Short::Before);
    }
    Ok((position - from) as usize)
}

/// "10: window too long or not covering", of a data frame
fn covered(window: &Lent, position: u64, n: usize) -> Result<usize, u8> {
    reaches(window, position, n).map_err(|short| {
        hit(match short {
            Short::Long => Rule::DataLong,
            Short::After => Rule::DataAfter,
            Short::Before => Rule::DataBefore,
        });
        when(n == 0, Rule::DataNoneNotCovered);
        10
    })
}

/// Counts a fault of the offset: where it points, and what else is wrong.
fn count_offset(h: &Header, e: &Exchange, n: usize, fits: bool) {
    hit(if h.offset < e.sent { Rule::DataOffsetBack } else { Rule::DataOffsetAhead });
    when(n == 0, Rule::DataOffsetNone);
    when(!e.awaited(), Rule::DataOffsetIdle);
    when(u64::from(h.offset) + n as u64 > u64::from(e.asked), Rule::DataOffsetPast);
    when(!fits, Rule::DataOffsetWindow);
}

/// Counts a frame past the burst: where the write stands, by how much, and what its window is like.
fn count_past(e: &Exchange, n: usize, fits: bool) {
    hit(if e.awaited() {
        Rule::DataPast
    } else if e.asked == 0 {
        Rule::DataPastFirst
    } else if e.sent < e.total() {
        Rule::DataPastBetween
    } else {
        Rule::DataPastAll
    });
    let by = e.sent + n as u32 - e.asked;
    when(by == 1 && e.awaited(), Rule::DataPastByOne);
    when(!fits, Rule::DataPastWindow);
}

/// Counts a frame that is taken, as it stands before it is.
fn count_taken(h: &Header, e: &Exchange, payload: &[u8], position: u64, window: &Lent, at: usize) {
    let n = payload.len() - h.fill();
    let end = e.sent + n as u32;
    if n == 0 {
        hit(if e.awaited() { Rule::DataNone } else { Rule::DataNoneIdle });
        when(window.bytes.is_empty(), Rule::DataNoWindow);
        return;
    }
    hit(if end < e.asked {
        Rule::DataTaken
    } else if end < e.total() {
        Rule::DataBurstEnds
    } else {
        Rule::DataAllReceived
    });
    when(h.fill() > 0 && end < e.asked, Rule::DataFillWithin);
    when(h.fill() > 0 && e.sent + payload.len() as u32 > e.asked, Rule::DataFillPast);
    when(h.seq_cnt != 0, Rule::DataSeqCnt);
    when(payload.len() > 2_048, Rule::DataOver2048);
    when(at > 0, Rule::DataInside);
    when(at + n == window.bytes.len(), Rule::DataExactEnd);
    when(at + n < window.bytes.len(), Rule::DataLeavesEnd);
    when(window.bytes.len() == WINDOW, Rule::DataLongest);
    when(position >= 4_294_967_296, Rule::DataPastFourGiB);
    when(position < 4_294_967_296 && position + n as u64 > 4_294_967_296, Rule::DataAcrossFourGiB);
    when(end == e.total() && end % 512 != 0, Rule::DataHalfBlock);
}
