//! 01, Setup: the limits of a drive, the valid addresses, and the PLOGI rules which setup shares with PLOGI and PDISC; 02, request 2:
//! whether the unit may be written.

use crate::rules::{hit, when, Rule};

/// FC-AL's loop addresses without 00h: the neutral characters 01h to EFh.
pub const LOOP_ADDRESSES: [u8; 126] = [
    0x01, 0x02, 0x04, 0x08, 0x0F, 0x10, 0x17, 0x18, 0x1B, 0x1D, 0x1E, 0x1F, 0x23, 0x25, 0x26, 0x27, 0x29, 0x2A, //
    0x2B, 0x2C, 0x2D, 0x2E, 0x31, 0x32, 0x33, 0x34, 0x35, 0x36, 0x39, 0x3A, 0x3C, 0x43, 0x45, 0x46, 0x47, 0x49, //
    0x4A, 0x4B, 0x4C, 0x4D, 0x4E, 0x51, 0x52, 0x53, 0x54, 0x55, 0x56, 0x59, 0x5A, 0x5C, 0x63, 0x65, 0x66, 0x67, //
    0x69, 0x6A, 0x6B, 0x6C, 0x6D, 0x6E, 0x71, 0x72, 0x73, 0x74, 0x75, 0x76, 0x79, 0x7A, 0x7C, 0x80, 0x81, 0x82, //
    0x84, 0x88, 0x8F, 0x90, 0x97, 0x98, 0x9B, 0x9D, 0x9E, 0x9F, 0xA3, 0xA5, 0xA6, 0xA7, 0xA9, 0xAA, 0xAB, 0xAC, //
    0xAD, 0xAE, 0xB1, 0xB2, 0xB3, 0xB4, 0xB5, 0xB6, 0xB9, 0xBA, 0xBC, 0xC3, 0xC5, 0xC6, 0xC7, 0xC9, 0xCA, 0xCB, //
    0xCC, 0xCD, 0xCE, 0xD1, 0xD2, 0xD3, 0xD4, 0xD5, 0xD6, 0xD9, 0xDA, 0xDC, 0xE0, 0xE1, 0xE2, 0xE4, 0xE8, 0xEF,
];

/// "A valid address has upper bytes 0000h and a low byte among FC-AL's 127 loop addresses, 00h excepted."
pub fn valid_address(address: u32) -> bool {
    address <= 0xFF && LOOP_ADDRESSES.contains(&(address as u8))
}

/// What a drive is made of. `accept` holds words 1 to 28 of the login accept.
#[derive(Clone, Debug, PartialEq)]
pub struct Setup {
    pub capacity: u64,
    pub address: u32,
    pub identity: [u8; 28],
    pub accept: [u8; 112],
    /// 1 for a unit that may be written, 0 for one that is read only
    pub writable: u8,
}

impl Setup {
    /// The setup rules: `true` where none is broken.
    pub fn holds(&self) -> bool {
        // "Capacity 1 to 4,294,967,295 blocks of 512 bytes"
        if when(self.capacity < 1, Rule::SetupCapacityZero) {
            return false;
        }
        if when(self.capacity > 4_294_967_295, Rule::SetupCapacityAbove) {
            return false;
        }
        // "own address", a valid one
        if when(!valid_address(self.address), Rule::SetupAddress) {
            return false;
        }
        // 02, 2: "units whose setup allows it": one flag, 0 or 1
        if when(self.writable > 1, Rule::SetupWritable) {
            return false;
        }
        // "words 1 to 28 of the login accept, which must pass the PLOGI rules below with W20/B1 = 01h"
        match judge(&self.accept) {
            Err(fault) => {
                hit(fault.rule(Caller::Setup));
                false
            }
            Ok(parameters) => !when(parameters.open_sequences != 1, Rule::SetupOpenSequencesNotOne),
        }
    }

    pub fn allows_writing(&self) -> bool {
        self.writable == 1
    }

    pub fn port_name(&self) -> [u8; 8] {
        self.accept[16..24].try_into().unwrap()
    }

    pub fn node_name(&self) -> [u8; 8] {
        self.accept[24..32].try_into().unwrap()
    }
}

/// What a login keeps of PLOGI's words.
#[derive(Clone, Debug, PartialEq)]
pub struct Parameters {
    pub port_name: [u8; 8],
    pub node_name: [u8; 8],
    pub size: u32,
    pub concurrent: u8,
    pub open_sequences: u8,
}

/// The first PLOGI test that fails.
#[derive(Clone, Copy, Debug, PartialEq)]
pub enum Fault {
    CommonSize,
    PortName,
    NodeName,
    Class3,
    Class3Size,
    Concurrent,
    OpenSequences,
}

/// Who asks for the PLOGI tests: only the counting of branches needs it.
#[derive(Clone, Copy)]
pub enum Caller {
    Setup,
    Plogi,
    Pdisc,
    /// PLOGI, its port name logged in at another address
    Elsewhere,
}

impl Fault {
    /// LS_RJT's reason and explanation.
    pub fn reject(self) -> (u8, u8) {
        match self {
            Fault::CommonSize => (0x03, 0x0F),
            Fault::PortName => (0x03, 0x0D),
            Fault::NodeName => (0x03, 0x0E),
            Fault::Class3 => (0x03, 0x01),
            Fault::Class3Size => (0x03, 0x07),
            Fault::Concurrent => (0x03, 0x09),
            Fault::OpenSequences => (0x03, 0x01),
        }
    }

    pub fn rule(self, caller: Caller) -> Rule {
        match (caller, self) {
            (Caller::Setup, Fault::CommonSize) => Rule::SetupCommonSize,
            (Caller::Setup, Fault::PortName) => Rule::SetupPortName,
            (Caller::Setup, Fault::NodeName) => Rule::SetupNodeName,
            (Caller::Setup, Fault::Class3) => Rule::SetupClass3,
            (Caller::Setup, Fault::Class3Size) => Rule::SetupClass3Size,
            (Caller::Setup, Fault::Concurrent) => Rule::SetupConcurrent,
            (Caller::Setup, Fault::OpenSequences) => Rule::SetupOpenSequences,
            (Caller::Plogi, Fault::CommonSize) => Rule::PlogiCommonSize,
            (Caller::Plogi, Fault::PortName) => Rule::PlogiPortName,
            (Caller::Plogi, Fault::NodeName) => Rule::PlogiNodeName,
            (Caller::Plogi, Fault::Class3) => Rule::PlogiClass3,
            (Caller::Plogi, Fault::Class3Size) => Rule::PlogiClass3Size,
            (Caller::Plogi, Fault::Concurrent) => Rule::PlogiConcurrent,
            (Caller::Plogi, Fault::OpenSequences) => Rule::PlogiOpenSequences,
            (Caller::Pdisc, Fault::CommonSize) => Rule::PdiscCommonSize,
            (Caller::Pdisc, Fault::PortName) => Rule::PdiscPortName,
            (Caller::Pdisc, Fault::NodeName) => Rule::PdiscNodeName,
            (Caller::Pdisc, Fault::Class3) => Rule::PdiscClass3,
            (Caller::Pdisc, Fault::Class3Size) => Rule::PdiscClass3Size,
            (Caller::Pdisc, Fault::Concurrent) => Rule::PdiscConcurrent,
            (Caller::Pdisc, Fault::OpenSequences) => Rule::PdiscOpenSequences,
            (Caller::Elsewhere, Fault::CommonSize) => Rule::StaysCommonSize,
            (Caller::Elsewhere, Fault::PortName) => Rule::StaysPortName,
            (Caller::Elsewhere, Fault::NodeName) => Rule::StaysNodeName,
            (Caller::Elsewhere, Fault::Class3) => Rule::StaysClass3,
            (Caller::Elsewhere, Fault::Class3Size) => Rule::StaysClass3Size,
            (Caller::Elsewhere, Fault::Concurrent) => Rule::StaysConcurrent,
            (Caller::Elsewhere, Fault::OpenSequences) => Rule::StaysOpenSequences,
        }
    }
}

/// "low 12 bits from 256 to 2,112 and a multiple of 4", of bytes 2 and 3 of a word
fn size(word: &[u8]) -> Option<u32> {
    let n = u32::from_be_bytes([0, 0, word[2], word[3]]) & 0xFFF;
    if when(n < 256, Rule::SizeUnder) || when(n > 2112, Rule::SizeOver) || when(n % 4 != 0, Rule::SizeOdd) {
        return None;
    }
    Some(n)
}

/// PLOGI's tests in word order, over words 1 to 28; the room test is the caller's.
pub fn judge(words: &[u8]) -> Result<Parameters, Fault> {
    let word = |w: usize| &words[4 * (w - 1)..4 * w];
    let name = |w: usize| -> [u8; 8] { words[4 * (w - 1)..4 * (w + 1)].try_into().unwrap() };
    // "W2/B2-3 low 12 bits from 256 to 2,112 and a multiple of 4, else 03,0F"
    if size(word(2)).is_none() {
        return Err(Fault::CommonSize);
    }
    // "port name W5-6 not zero, else 03,0D"
    let port_name = name(5);
    if port_name == [0; 8] {
        return Err(Fault::PortName);
    }
    // "node name W7-8 not zero, else 03,0E"
    let node_name = name(7);
    if node_name == [0; 8] {
        return Err(Fault::NodeName);
    }
    // "W17 bit 31 set, else 03,01"
    if word(17)[0] & 0x80 == 0 {
        return Err(Fault::Class3);
    }
    // "W18/B2-3 low 12 bits as W2, else 03,07"
    let Some(size) = size(word(18)) else {
        return Err(Fault::Class3Size);
    };
    // "W19/B1 not 0, else 03,09"
    let concurrent = word(19)[1];
    if concurrent == 0 {
        return Err(Fault::Concurrent);
    }
    // "W20/B1 not 0, else 03,01"
    let open_sequences = word(20)[1];
    if open_sequences == 0 {
        return Err(Fault::OpenSequences);
    }
    Ok(Parameters { port_name, node_name, size, concurrent, open_sequences })
}
