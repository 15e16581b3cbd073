//! 01, Commands, last part: the next frame of an open exchange; of a write (02, request 2) the FCP_XFER_RDY is in `write.rs`.

use crate::command::{fcp_rsp, GOOD};
use crate::drive::{Drive, Source, Window, BLOCK};
use crate::frame::{data, reply, Row};
use crate::rules::{hit, when, Rule};
use std::cmp::Ordering::{Equal, Greater, Less};

impl Drive {
    /// The next frame of the exchange at `place` of the login at `i`: FCP_DATA, or FCP_RSP where all is sent. 02, 2: of a write
    /// "next frames are FCP_XFER_RDY .., nothing while data is awaited, then FCP_RSP with the residual by 01's rule".
    pub(crate) fn next(&mut self, i: usize, place: usize, window: Window) -> Result<Option<Vec<u8>>, u8> {
        let own = self.setup.address;
        let login = self.at_mut(i);
        let address = login.address;
        // "A frame carries the login's W18 size, 2,048 at most, or what is left."
        when(login.parameters.size > 2048, Rule::NextSizeCut);
        let full = login.parameters.size.min(2048);
        let exchange = login.exchanges[place].as_mut().unwrap();
        let total = exchange.total();
        // "FCP_RSP follows and frees the place."
        if exchange.sent == total {
            hit(match (exchange.wanted.cmp(&exchange.fcp_dl), exchange.writes()) {
                (Equal, false) => Rule::NextRspExact,
                (Greater, false) => Rule::NextRspOver,
                (Less, false) => Rule::NextRspUnder,
                (Equal, true) => Rule::NextRspWriteExact,
                (Greater, true) => Rule::NextRspWriteOver,
                (Less, true) => Rule::NextRspWriteUnder,
            });
            let payload = fcp_rsp(GOOD, exchange.wanted, exchange.fcp_dl);
            let ox_id = exchange.ox_id;
            login.exchanges[place] = None;
            return Ok(Some(reply(Row::Rsp, address, own, ox_id, &payload)));
        }
        let left = total - exchange.sent;
        let n = full.min(left) as usize;
        let bytes = match &exchange.source {
            Source::Unit(start) => {
                // "lends a window .. holding that frame's bytes"
                let position = start * BLOCK + u64::from(exchange.sent);
                covered(window, position, n)?
            }
            // "made data and FCP_RSP need no cover"
            Source::Made(bytes) => {
                hit(Rule::NextMade);
                &bytes[exchange.sent as usize..][..n]
            }
            Source::Host(_) => return Ok(exchange.ready(address, own)),
        };
        // "SEQ_CNT the frame's number from 0, going round at 65,536"
        let number = exchange.sent / full;
        when(number >= 65_536, Rule::NextRound);
        let seq_cnt = (number % 65_536) as u16;
        // "OFFSET is the byte offset"
        let offset = exchange.sent;
        let last = left <= full;
        when(n % 4 != 0, Rule::NextFill);
        hit(if last { Rule::NextLast } else { Rule::NextNotLast });
        let row = if last { Row::LastData } else { Row::Data };
        let frame = data(row, address, own, exchange.ox_id, seq_cnt, offset, bytes);
        exchange.sent += n as u32;
        Ok(Some(frame))
    }
}

/// The `n` bytes at `position` of the unit, out of the window. "10: window too long or not covering"
fn covered(window: Window<'_>, position: u64, n: usize) -> Result<&[u8], u8> {
    let from = u128::from(window.start) * u128::from(BLOCK);
    let position = u128::from(position);
    let to = from + window.bytes.len() as u128;
    if when(position < from, Rule::NextAfter) || when(position + n as u128 > to, Rule::NextBefore) {
        return Err(10);
    }
    hit(Rule::NextCovered);
    when(position >= 4_294_967_296, Rule::NextPastFourGiB);
    when(position + n as u128 == to, Rule::NextExactEnd);
    Ok(&window.bytes[(position - from) as usize..][..n])
}
