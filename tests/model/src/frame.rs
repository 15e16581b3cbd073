//! 01, Header and reply headers, with the FCP_XFER_RDY of 02, request 2.

/// "24 bytes: R_CTL, D_ID(3), reserved, S_ID(3), TYPE, F_CTL(3), SEQ_ID, DF_CTL, SEQ_CNT(2), OX_ID(2), RX_ID(2), OFFSET(4)."
#[derive(Clone, Debug, Default, PartialEq)]
pub struct Header {
    pub r_ctl: u8,
    pub d_id: u32,
    pub reserved: u8,
    pub s_id: u32,
    pub kind: u8,
    pub f_ctl: u32,
    pub seq_id: u8,
    pub df_ctl: u8,
    pub seq_cnt: u16,
    pub ox_id: u16,
    pub rx_id: u16,
    pub offset: u32,
}

/// Three bytes as a number.
pub fn three(b: &[u8]) -> u32 {
    u32::from_be_bytes([0, b[0], b[1], b[2]])
}

impl Header {
    /// The header of a frame of 24 bytes or more. "The reserved byte is kept on reading."
    pub fn read(f: &[u8]) -> Header {
        Header {
            r_ctl: f[0],
            d_id: three(&f[1..4]),
            reserved: f[4],
            s_id: three(&f[5..8]),
            kind: f[8],
            f_ctl: three(&f[9..12]),
            seq_id: f[12],
            df_ctl: f[13],
            seq_cnt: u16::from_be_bytes([f[14], f[15]]),
            ox_id: u16::from_be_bytes([f[16], f[17]]),
            rx_id: u16::from_be_bytes([f[18], f[19]]),
            offset: u32::from_be_bytes([f[20], f[21], f[22], f[23]]),
        }
    }

    /// The fill count: "the low two bits of F_CTL".
    pub fn fill(&self) -> usize {
        (self.f_ctl & 3) as usize
    }

    pub fn bytes(&self) -> Vec<u8> {
        let mut f = vec![self.r_ctl];
        f.extend(&self.d_id.to_be_bytes()[1..]);
        f.push(self.reserved);
        f.extend(&self.s_id.to_be_bytes()[1..]);
        f.push(self.kind);
        f.extend(&self.f_ctl.to_be_bytes()[1..]);
        f.push(self.seq_id);
        f.push(self.df_ctl);
        f.extend(self.seq_cnt.to_be_bytes());
        f.extend(self.ox_id.to_be_bytes());
        f.extend(self.rx_id.to_be_bytes());
        f.extend(self.offset.to_be_bytes());
        f
    }
}

/// The rows of the table of replies.
#[derive(Clone, Copy, Debug, PartialEq)]
pub enum Row {
    /// ACC, LS_RJT
    LinkReply,
    /// LOGO by the drive
    DriveLogo,
    /// BA_ACC, with the ABTS's SEQ_ID
    BaAcc(u8),
    /// BA_RJT, with the ABTS's SEQ_ID
    BaRjt(u8),
    /// FCP_DATA, the last
    LastData,
    /// FCP_DATA, not the last
    Data,
    /// FCP_RSP
    Rsp,
    /// 02, 2: "FCP_XFER_RDY (R_CTL 05h, F_CTL 890000, ..)"
    Ready,
}

impl Row {
    /// R_CTL, TYPE, F_CTL and SEQ_ID of the row.
    fn columns(self) -> (u8, u8, u32, u8) {
        match self {
            Row::LinkReply => (0x23, 0x01, 0x990000, 0xFF),
            Row::DriveLogo => (0x22, 0x01, 0x290000, 0x00),
            Row::BaAcc(seq_id) => (0x84, 0x00, 0x990000, seq_id),
            Row::BaRjt(seq_id) => (0x85, 0x00, 0x990000, seq_id),
            Row::LastData => (0x01, 0x08, 0x880008, 0x01),
            Row::Data => (0x01, 0x08, 0x800008, 0x01),
            Row::Rsp => (0x07, 0x08, 0x990000, 0x00),
            Row::Ready => (0x05, 0x08, 0x890000, 0x00),
        }
    }
}

/// A reply frame to `to`, sent by `from`: "addresses swapped, OX_ID echoed, RX_ID FFFFh, the rest 0 but for" the table.
pub fn reply(row: Row, to: u32, from: u32, ox_id: u16, payload: &[u8]) -> Vec<u8> {
    data(row, to, from, ox_id, 0, 0, payload)
}

/// The same with SEQ_CNT and OFFSET, which only FCP_DATA has.
pub fn data(row: Row, to: u32, from: u32, ox_id: u16, seq_cnt: u16, offset: u32, payload: &[u8]) -> Vec<u8> {
    let (r_ctl, kind, f_ctl, seq_id) = row.columns();
    // "Payloads are filled with zeros to a multiple of 4; FCP frames add the fill count to F_CTL."
    let fill = (4 - payload.len() % 4) % 4;
    let f_ctl = if kind == 0x08 { f_ctl + fill as u32 } else { f_ctl };
    let header =
        Header { r_ctl, d_id: to, s_id: from, kind, f_ctl, seq_id, seq_cnt, ox_id, rx_id: 0xFFFF, offset, ..Header::default() };
    let mut frame = header.bytes();
    frame.extend(payload);
    frame.extend(&[0; 3][..fill]);
    frame
}
