//! 01, Known numbers and slips, libfc's frames, and 02, requests 1 and 2: the host that moved, writing from the host; on the model.

use model::drive::{Drive, Event, Exchange, Lent, Source, Window};
use model::record::Recorder;
use model::setup::{valid_address, Setup};

const OWN: u8 = 0xE8;
/// Hosts that fill the table, in the order of its places.
const HOSTS: [u8; 8] = [0x01, 0x02, 0x04, 0x08, 0x0F, 0x10, 0x17, 0x18];

/// Words 1 to 28 that pass the PLOGI rules, with that W18 size.
fn words(size: u16) -> [u8; 112] {
    let mut w = [0; 112];
    w[6..8].copy_from_slice(&2112u16.to_be_bytes());
    w[16..24].copy_from_slice(b"portname");
    w[24..32].copy_from_slice(b"nodename");
    w[64] = 0x80;
    w[70..72].copy_from_slice(&size.to_be_bytes());
    w[73] = 1;
    w[77] = 1;
    w
}

/// A host's words: its port name is its own, the node name is one for all.
fn host_words(name: u8, size: u16) -> [u8; 112] {
    let mut w = words(size);
    w[16..24].copy_from_slice(&[b'h', b'o', b's', b't', 0, 0, 0, name]);
    w
}

fn drive(capacity: u64) -> Drive {
    Drive::new(setup(capacity, 0)).unwrap()
}

fn setup(capacity: u64, writable: u8) -> Setup {
    let identity = std::array::from_fn(|i| i as u8);
    Setup { capacity, address: OWN.into(), identity, accept: words(2048), writable }
}

fn frame(r_ctl: u8, kind: u8, from: u8, ox_id: u8, payload: &[u8]) -> Vec<u8> {
    let mut f = vec![r_ctl, 0, 0, OWN, 0, 0, 0, from, kind, 0x29, 0, 0, 0, 0, 0, 0, 0, ox_id, 0xFF, 0xFF, 0, 0, 0, 0];
    f.extend(payload);
    f
}

fn send(d: &mut Drive, frame: &[u8]) -> Result<Vec<u8>, u8> {
    lend(d, frame, 0, &mut [])
}

/// A frame with a window.
fn lend(d: &mut Drive, frame: &[u8], start: u64, bytes: &mut [u8]) -> Result<Vec<u8>, u8> {
    let mut reply = [0x5A; 2136];
    let n = d.frame_in(frame, Lent { start, bytes }, &mut reply)?;
    Ok(reply[..n].to_vec())
}

fn next(d: &mut Drive, ox_id: u16, start: u64, bytes: &[u8]) -> Result<Vec<u8>, u8> {
    next_at(d, 1, ox_id, start, bytes)
}

fn next_at(d: &mut Drive, address: u8, ox_id: u16, start: u64, bytes: &[u8]) -> Result<Vec<u8>, u8> {
    let mut reply = [0x5A; 2136];
    let n = d.next_frame(address.into(), ox_id, Window { start, bytes }, &mut reply)?;
    Ok(reply[..n].to_vec())
}

fn plogi(d: &mut Drive, from: u8, size: u16) -> Vec<u8> {
    plogi_with(d, from, &host_words(from, size))
}

/// The payload of the answer to a PLOGI with those words.
fn plogi_with(d: &mut Drive, from: u8, words: &[u8; 112]) -> Vec<u8> {
    let payload = [&[3, 0, 0, 0], &words[..]].concat();
    send(d, &frame(0x22, 1, from, 1, &payload)).unwrap()[24..].to_vec()
}

/// A drive with host 01h logged in, paired and its attention cleared.
fn ready(capacity: u64, size: u16) -> Drive {
    let mut d = drive(capacity);
    log_in(&mut d, 1, size);
    d
}

/// PLOGI, PRLI, and TEST UNIT READY for the attention.
fn log_in(d: &mut Drive, from: u8, size: u16) {
    assert_eq!(plogi(d, from, size)[0], 2);
    let prli = [0x20, 0x10, 0, 0x14, 8, 0, 0x20, 0, 0, 0, 0, 0, 0, 0, 0, 0, 0, 0, 0, 0x22];
    let acc = [2, 0x10, 0, 0x14, 8, 0, 0x21, 0, 0, 0, 0, 0, 0, 0, 0, 0, 0, 0, 0, 0x12];
    assert_eq!(send(d, &frame(0x22, 1, from, 1, &prli)).unwrap()[24..], acc);
    let sense = command_from(d, from, 1, &[0], 0);
    assert_eq!((sense.len(), sense[11], sense[24 + 11], sense[24 + 24 + 12]), (68, 2, 2, 0x29));
}

fn command(d: &mut Drive, ox_id: u8, cdb: &[u8], fcp_dl: u32) -> Vec<u8> {
    command_from(d, 1, ox_id, cdb, fcp_dl)
}

fn command_from(d: &mut Drive, from: u8, ox_id: u8, cdb: &[u8], fcp_dl: u32) -> Vec<u8> {
    let bits = if cdb[0] == 0x2A { 1 } else { 2 };
    command_with(d, from, ox_id, bits, cdb, fcp_dl)
}

fn command_with(d: &mut Drive, from: u8, ox_id: u8, bits: u8, cdb: &[u8], fcp_dl: u32) -> Vec<u8> {
    let mut payload = vec![0; 32];
    payload[11] = bits;
    payload[12..12 + cdb.len()].copy_from_slice(cdb);
    payload[28..].copy_from_slice(&fcp_dl.to_be_bytes());
    send(d, &frame(6, 8, from, ox_id, &payload)).unwrap()
}

fn read(d: &mut Drive, ox_id: u8, address: u32, count: u16, fcp_dl: u32) -> Vec<u8> {
    command(d, ox_id, &ten(0x28, address, count), fcp_dl)
}

/// READ(10) or WRITE(10).
fn ten(code: u8, address: u32, count: u16) -> [u8; 9] {
    let (a, c) = (address.to_be_bytes(), count.to_be_bytes());
    [code, 0, a[0], a[1], a[2], a[3], 0, c[0], c[1]]
}

/// FC-AL's addresses are the characters up to EFh whose ten bits of the 8B/10B code have five ones: both parts of the
/// character change the running disparity, or neither does.
#[test]
fn loop_addresses() {
    let five = [0, 1, 2, 4, 8, 15, 16, 23, 24, 27, 29, 30, 31];
    let three = [0, 4, 7];
    let neutral = |b: u32| five.contains(&(b & 31)) == three.contains(&(b >> 5));
    for a in 0..0x400 {
        assert_eq!(valid_address(a), (1..0xF0).contains(&a) && neutral(a), "{a:02X}");
    }
    assert_eq!((0..256).filter(|&a| valid_address(a)).count(), 126);
}

#[test]
fn frame_sizes() {
    let answers = [20, 24, 2136, 2140].map(|n| {
        let mut f = frame(0x23, 1, 1, 1, &[0; 2116]);
        f.resize(n, 0);
        send(&mut drive(1), &f)
    });
    assert_eq!(answers, [Err(3), Ok(vec![]), Ok(vec![]), Err(3)]);
}

#[test]
fn login_sizes() {
    let codes = [252, 256, 258, 2112, 2116].map(|size| plogi(&mut drive(1), 1, size)[0]);
    assert_eq!(codes, [1, 2, 1, 2, 1]);
    assert_eq!(plogi(&mut drive(1), 1, 252), [1, 0, 0, 0, 0, 3, 7, 0]);
}

#[test]
fn ninth_login() {
    let mut d = drive(1);
    for from in HOSTS {
        assert_eq!(plogi(&mut d, from, 256)[0], 2);
    }
    // a ninth name: nothing changes
    let before = d.clone();
    assert_eq!(plogi(&mut d, 0x1B, 256), [1, 0, 0, 0, 0, 9, 0x29, 0]);
    assert_eq!(d, before);
    // slips: a full table refusing its own member's new login; keeping the old login after a rejected PLOGI
    assert_eq!(plogi(&mut d, 0x18, 256)[0], 2);
    assert_eq!(plogi(&mut d, 0x18, 252)[0], 1);
    assert_eq!(plogi(&mut d, 0x1B, 256)[0], 2);
}

#[test]
fn capacity_of_100() {
    assert_eq!(read(&mut ready(100, 2048), 2, 99, 1, 512), []);
    for (address, count) in [(99, 2), (100, 0), (u32::MAX, 1)] {
        let rsp = read(&mut ready(100, 2048), 2, address, count, 512);
        // slip: leaving the two fill bytes of 18 sense bytes out of F_CTL
        assert_eq!(rsp[9..12], [0x99, 0, 2]);
        assert_eq!((rsp[24 + 10], rsp[24 + 24 + 2], rsp[24 + 24 + 12], rsp.len()), (0x0A, 5, 0x21, 68));
    }
}

#[test]
fn residuals() {
    for (fcp_dl, flag, residual) in [(1_000, 0x04, 24), (2_048, 0x08, 1_024), (1_024, 0, 0)] {
        let mut d = ready(100, 2048);
        assert_eq!(read(&mut d, 2, 0, 2, fcp_dl), []);
        assert!(next(&mut d, 2, 0, &[7; 1024]).is_ok());
        let rsp = next(&mut d, 2, 0, &[]).unwrap();
        assert_eq!((rsp[24 + 10], rsp[24 + 15] as u32 + 256 * rsp[24 + 14] as u32, rsp.len()), (flag, residual, 48));
        assert_eq!(next(&mut d, 2, 0, &[]), Err(9));
    }
}

#[test]
fn past_four_gibibytes() {
    let mut d = ready(8_388_609, 512);
    assert_eq!(read(&mut d, 2, 8_388_608, 1, 512), []);
    assert_eq!(next(&mut d, 2, 0, &[7; 512]), Err(10));
    assert_eq!(next(&mut d, 2, 8_388_608 + (1 << 55), &[7; 512]), Err(10));
    assert_eq!(next(&mut d, 2, 8_388_608, &[7; 511]), Err(10));
    assert_eq!(next(&mut d, 2, 8_388_607, &[7; 1024]).unwrap()[24..], [7; 512]);
}

#[test]
fn frame_65_537() {
    let mut d = ready(65_535, 256);
    assert_eq!(read(&mut d, 2, 0, 65_535, u32::MAX), []);
    for number in 0..65_537u64 {
        let data = next(&mut d, 2, number / 2, &[7; 512]).unwrap();
        assert_eq!(data[14..16], (number as u16).to_be_bytes());
        assert_eq!(data[20..24], (256 * number as u32).to_be_bytes());
    }
}

#[test]
fn fill_of_1_001() {
    let mut d = ready(100, 2048);
    assert_eq!(read(&mut d, 2, 0, 2, 1_001), []);
    let data = next(&mut d, 2, 0, &[7; 1_001]).unwrap();
    assert_eq!((data.len(), &data[9..12], &data[24 + 1_000..]), (24 + 1_004, &[0x88, 0, 0x0B][..], &[7, 0, 0, 0][..]));
}

#[test]
fn loop_reset_and_after() {
    let mut d = ready(100, 2048);
    d.event(Event::LoopReset);
    assert_eq!(send(&mut d, &frame(0x23, 1, 1, 1, &[])), Err(7));
    d.event(Event::TimeOver);
    let logo = send(&mut d, &frame(0x81, 0, 1, 1, &[])).unwrap();
    assert_eq!(logo[..24], [0x22, 0, 0, 1, 0, 0, 0, OWN, 1, 0x29, 0, 0, 0, 0, 0, 0, 0, 1, 0xFF, 0xFF, 0, 0, 0, 0]);
    assert_eq!(logo[24..], [&[5, 0, 0, 0, 0, 0, 0, OWN], &b"portname"[..]].concat());
}

/// A full table of paired logins; each has an open READ of OX_ID 0002h.
fn full() -> Drive {
    let mut d = drive(100);
    for from in HOSTS {
        log_in(&mut d, from, 512);
        assert_eq!(command_from(&mut d, from, 2, &[0x28, 0, 0, 0, 0, 9, 0, 0, 1], 512), []);
    }
    d
}

/// The addresses of the table's places, 0 for a free one.
fn places(d: &Drive) -> [u32; 8] {
    assert_eq!(d.ill_formed(), None);
    [0, 1, 2, 3, 4, 5, 6, 7].map(|i| d.logins[i].as_ref().map_or(0, |l| l.address))
}

/// That address has no login: TEST UNIT READY draws a LOGO, and the open READ of OX_ID 0002h is gone.
fn assert_gone(d: &mut Drive, from: u8) {
    assert_eq!(next_at(d, from, 2, 9, &[7; 512]), Err(9));
    let logo = command_from(d, from, 3, &[0], 0);
    assert_eq!((logo[0], logo[3], logo[24]), (0x22, from, 5));
}

#[test]
fn moved_out_of_a_full_table() {
    let mut d = full();
    assert_eq!(plogi_with(&mut d, 0x1B, &host_words(0x08, 1024))[..4], [2, 0, 0, 0]);
    assert_eq!(places(&d), [0x01, 0x02, 0x04, 0x1B, 0x0F, 0x10, 0x17, 0x18]);
    // a login as any new one, without exchanges; the others keep theirs
    let new = d.login(0x1B).unwrap();
    assert_eq!((new.proven, new.paired, new.open(), new.parameters.size), (true, false, 0, 1024));
    assert_gone(&mut d, 0x08);
    assert_eq!(next_at(&mut d, 0x1B, 2, 9, &[7; 512]), Err(9));
    for from in HOSTS.into_iter().filter(|&h| h != 0x08) {
        assert_eq!(next_at(&mut d, from, 2, 9, &[7; 512]).unwrap()[24..], [7; 512]);
    }
}

/// Each word test that fails: its LS_RJT, and the login of that port name stays as it was.
#[test]
fn moved_and_rejected() {
    let faults: [(usize, &[u8], u8); 6] =
        [(6, &[0, 252], 0x0F), (24, &[0; 8], 0x0E), (64, &[0], 0x01), (70, &[0, 252], 0x07), (73, &[0], 0x09), (77, &[0], 0x01)];
    for (at, bytes, explanation) in faults {
        let mut words = host_words(0x08, 512);
        words[at..at + bytes.len()].copy_from_slice(bytes);
        let mut d = full();
        let before = d.clone();
        assert_eq!(plogi_with(&mut d, 0x1B, &words), [1, 0, 0, 0, 0, 3, explanation, 0]);
        assert_eq!(d, before);
        // from a member of the table: its own login ends, and no other
        assert_eq!(plogi_with(&mut d, 0x10, &words), [1, 0, 0, 0, 0, 3, explanation, 0]);
        assert_eq!(places(&d), [0x01, 0x02, 0x04, 0x08, 0x0F, 0, 0x17, 0x18]);
        assert_eq!(next_at(&mut d, 0x08, 2, 9, &[7; 512]).unwrap()[24..], [7; 512]);
        assert_gone(&mut d, 0x10);
    }
}

#[test]
fn moved_onto_a_login() {
    // the sender at place 5, the name at place 2
    let mut d = full();
    assert_eq!(plogi_with(&mut d, 0x10, &host_words(0x04, 512))[0], 2);
    assert_eq!(places(&d), [0x01, 0x02, 0x10, 0x08, 0x0F, 0, 0x17, 0x18]);
    assert_gone(&mut d, 0x04);
    // and the other way round
    let mut d = full();
    assert_eq!(plogi_with(&mut d, 0x04, &host_words(0x10, 512))[0], 2);
    assert_eq!(places(&d), [0x01, 0x02, 0x04, 0x08, 0x0F, 0, 0x17, 0x18]);
    assert_gone(&mut d, 0x10);
    // a free place below both is lower still
    let mut d = full();
    d.logins[0] = None;
    assert_eq!(plogi_with(&mut d, 0x10, &host_words(0x04, 512))[0], 2);
    assert_eq!(places(&d), [0x10, 0x02, 0, 0x08, 0x0F, 0, 0x17, 0x18]);
}

/// An unproven and an unpaired login end like any other; PDISC and ADISC end none but the sender's.
#[test]
fn moved_unproven_unpaired() {
    let mut d = full();
    d.event(Event::LoopReset);
    assert_eq!(plogi_with(&mut d, 0x1B, &host_words(0x08, 512))[0], 2);
    assert_gone(&mut d, 0x08);
    // 1Bh is unpaired
    assert_eq!(plogi_with(&mut d, 0x1D, &host_words(0x08, 512))[0], 2);
    assert_eq!(places(&d), [0x01, 0x02, 0x04, 0x1D, 0x0F, 0x10, 0x17, 0x18]);
    assert_gone(&mut d, 0x1B);
    let pdisc = [&[0x50, 0, 0, 0], &host_words(0x08, 512)[..]].concat();
    assert_eq!(send(&mut d, &frame(0x22, 1, 0x18, 1, &pdisc)).unwrap()[24], 5);
    let adisc = [&[0x52, 0, 0, 0, 0, 0, 0, 0], &host_words(0x08, 512)[16..32], &[0, 0, 0, 0x17]].concat();
    assert_eq!(send(&mut d, &frame(0x22, 1, 0x17, 1, &adisc)).unwrap()[24], 5);
    assert_eq!(places(&d), [0x01, 0x02, 0x04, 0x1D, 0x0F, 0x10, 0, 0]);
}

/// Port names in places in use are distinct; node names need not be, nor a port name and another's node name.
#[test]
fn names_of_logins() {
    let mut d = drive(100);
    let mut words = host_words(0x01, 512);
    assert_eq!(plogi_with(&mut d, 0x01, &words)[0], 2);
    words[16..24].copy_from_slice(b"nodename");
    assert_eq!(plogi_with(&mut d, 0x02, &words)[0], 2);
    words[24..32].copy_from_slice(&host_words(0x01, 512)[16..24]);
    words[23] ^= 1;
    assert_eq!(plogi_with(&mut d, 0x04, &words)[0], 2);
    assert_eq!(places(&d), [0x01, 0x02, 0x04, 0, 0, 0, 0, 0]);
    let node_names = [0, 1].map(|i| d.logins[i].as_ref().unwrap().parameters.node_name);
    assert_eq!(node_names, [*b"nodename"; 2]);
    let name = d.login(0x01).unwrap().parameters.port_name;
    d.logins[2].as_mut().unwrap().parameters.port_name = name;
    assert_eq!(d.ill_formed(), Some("two logins of one port name"));
    d.logins[0] = None;
    assert_eq!(d.ill_formed(), None);
}

/// A unit that may be written, with host 01h logged in, paired and its attention cleared.
fn writable(capacity: u64) -> Drive {
    let mut d = Drive::new(setup(capacity, 1)).unwrap();
    log_in(&mut d, 1, 2048);
    d
}

fn write(d: &mut Drive, ox_id: u8, address: u32, count: u16, fcp_dl: u32) -> Vec<u8> {
    command(d, ox_id, &ten(0x2A, address, count), fcp_dl)
}

/// A unit with a WRITE of OX_ID 0002h whose first FCP_XFER_RDY was sent.
fn awaiting(address: u32, count: u16, fcp_dl: u32) -> Drive {
    let mut d = writable(100);
    assert_eq!(write(&mut d, 2, address, count, fcp_dl), []);
    assert_eq!(next(&mut d, 2, 0, &[]).unwrap()[0], 5);
    d
}

/// A data frame from host 01h; its fill bytes are EEh.
fn data(ox_id: u8, offset: u32, bytes: &[u8]) -> Vec<u8> {
    let fill = (4 - bytes.len() % 4) % 4;
    let mut f = frame(1, 8, 1, ox_id, bytes);
    f[11] = fill as u8;
    f[20..24].copy_from_slice(&offset.to_be_bytes());
    f.extend(&[0xEE; 3][..fill]);
    f
}

/// A data frame that is answered with an RSP_CODE: the code. The exchange ends, no byte of the window changes.
fn fault(d: &mut Drive, frame: &[u8], start: u64, window: &mut [u8]) -> u8 {
    let before = window.to_vec();
    let rsp = lend(d, frame, start, window).unwrap();
    assert_eq!(window, before);
    assert_eq!(next(d, frame[17].into(), 0, &[]), Err(9));
    assert_eq!(rsp[..24], [7, 0, 0, 1, 0, 0, 0, OWN, 8, 0x99, 0, 0, 0, 0, 0, 0, 0, frame[17], 0xFF, 0xFF, 0, 0, 0, 0]);
    let mut payload = [0; 32];
    (payload[10], payload[23], payload[27]) = (1, 8, rsp[24 + 27]);
    assert_eq!(rsp[24..], payload);
    rsp[24 + 27]
}

/// A data frame that is refused: the number. Neither the drive nor a byte of the window changes.
fn refused(d: &mut Drive, frame: &[u8], start: u64, window: &mut [u8]) -> u8 {
    let (before, bytes) = (d.clone(), window.to_vec());
    let number = lend(d, frame, start, window).unwrap_err();
    assert_eq!((&*d, &*window), (&before, &bytes[..]));
    number
}

/// The next frame is FCP_XFER_RDY: its offset and burst.
fn ready_for(d: &mut Drive, ox_id: u8) -> (u32, u32) {
    let f = next(d, ox_id.into(), 0, &[]).unwrap();
    assert_eq!(f[..24], [5, 0, 0, 1, 0, 0, 0, OWN, 8, 0x89, 0, 0, 0, 0, 0, 0, 0, ox_id, 0xFF, 0xFF, 0, 0, 0, 0]);
    assert_eq!((f.len(), &f[32..]), (36, &[0; 4][..]));
    let word = |at: usize| u32::from_be_bytes(f[at..at + 4].try_into().unwrap());
    (word(24), word(28))
}

/// The next frame is FCP_RSP, GOOD: its flags and FCP_RESID; the place is freed.
fn written(d: &mut Drive, ox_id: u8) -> (u8, u32) {
    let f = next(d, ox_id.into(), 0, &[]).unwrap();
    assert_eq!((f[0], f.len(), f[24 + 11], d.login(1).unwrap().place_of(ox_id.into())), (7, 48, 0, None));
    (f[24 + 10], u32::from_be_bytes(f[36..40].try_into().unwrap()))
}

#[test]
fn writable_or_not() {
    assert!([0, 1].iter().all(|&flag| Drive::new(setup(1, flag)).is_ok()));
    assert!([2, 3, 0x80, 0xFF].iter().all(|&flag| Drive::new(setup(1, flag)) == Err(8)));
}

/// 257 blocks: bursts of 65,536, 65,536 and 512 bytes. The unit is one list of bytes, each window cut from it and put back.
#[test]
fn write_of_257_blocks() {
    let mut unit: Vec<u8> = (0..300 * 512).map(|i| (i / 7) as u8).collect();
    let before = unit.clone();
    let sent: Vec<u8> = (0..257 * 512).map(|i| (i / 512 * 3 + i + 1) as u8).collect();
    let mut d = writable(300);
    assert_eq!(write(&mut d, 2, 20, 257, 131_584), []);
    let mut bursts = vec![];
    let mut received = 0;
    while received < sent.len() {
        let (offset, burst) = ready_for(&mut d, 2);
        assert_eq!(offset as usize, received);
        bursts.push(burst);
        let end = received + burst as usize;
        while received < end {
            // "nothing while data is awaited"
            let waiting = d.clone();
            assert_eq!(next(&mut d, 2, 0, &[]), Ok(vec![]));
            assert_eq!(d, waiting);
            // 2,000 and 72 and .. bytes: within a block and across blocks
            let n = (if received % 5 == 0 { 2_000 } else { 73 }).min(end - received);
            let start = 20 + received / 512;
            let window = start * 512..(start + 6).min(300) * 512;
            let f = data(2, received as u32, &sent[received..received + n]);
            assert_eq!(lend(&mut d, &f, start as u64, &mut unit[window]), Ok(vec![]));
            received += n;
            assert_eq!(d.ill_formed(), None);
        }
    }
    assert_eq!(bursts, [65_536, 65_536, 512]);
    assert_eq!(written(&mut d, 2), (0, 0));
    assert!(unit[..20 * 512] == before[..20 * 512] && unit[277 * 512..] == before[277 * 512..]);
    assert!(unit[20 * 512..277 * 512] == sent);
}

#[test]
fn writes_with_residuals() {
    // 1,000 bytes for two blocks: the last 24 bytes stay
    let mut d = writable(100);
    assert_eq!(write(&mut d, 2, 7, 2, 1_000), []);
    assert_eq!(ready_for(&mut d, 2), (0, 1_000));
    let mut window = [7; 1_536];
    assert_eq!(lend(&mut d, &data(2, 0, &[9; 1_000]), 7, &mut window), Ok(vec![]));
    assert!(window[..1_000] == [9; 1_000] && window[1_000..] == [7; 536]);
    assert_eq!(written(&mut d, 2), (4, 24));
    // 2,048 bytes for two blocks: 1,024 are asked for
    assert_eq!(write(&mut d, 2, 7, 2, 2_048), []);
    assert_eq!(ready_for(&mut d, 2), (0, 1_024));
    assert_eq!(lend(&mut d, &data(2, 0, &[9; 1_024]), 7, &mut window), Ok(vec![]));
    assert_eq!(written(&mut d, 2), (8, 1_024));
}

#[test]
fn writes_that_open_nothing() {
    let mut d = writable(100);
    // 0 blocks, and FCP_DL 0: FCP_RSP, GOOD, at once
    for (address, count, fcp_dl, flag, residual) in [(99, 0, 512, 8, 512u32), (99, 0, 0, 0, 0), (98, 2, 0, 4, 1_024)] {
        let rsp = write(&mut d, 2, address, count, fcp_dl);
        assert_eq!((rsp.len(), rsp[24 + 10], rsp[24 + 11], &rsp[36..40]), (48, flag, 0, &residual.to_be_bytes()[..]));
    }
    // FCP_DL 0 needs no bit
    assert_eq!(command_with(&mut d, 1, 2, 0, &ten(0x2A, 98, 2), 0)[24 + 10..24 + 12], [4, 0]);
    // the read bit does not help, no bit is none, and both are refused before
    for bits in [2, 0, 3] {
        let rsp = command_with(&mut d, 1, 2, bits, &ten(0x2A, 0, 1), 512);
        assert_eq!((rsp.len(), rsp[24 + 10], rsp[24 + 27]), (56, 1, 2));
    }
    // tests 6 and 7 as READ(10)
    let mut relative = ten(0x2A, 0, 1);
    relative[1] = 1;
    for (cdb, code) in [(relative, 0x24), (ten(0x2A, 100, 0), 0x21), (ten(0x2A, 99, 2), 0x21), (ten(0x2A, u32::MAX, 1), 0x21)] {
        let rsp = command(&mut d, 2, &cdb, 512);
        assert_eq!((rsp[24 + 10], rsp[24 + 24 + 2], rsp[24 + 24 + 12], rsp.len()), (0x0A, 5, code, 68));
    }
    assert_eq!(d.login(1).unwrap().open(), 0);
    // a ninth
    for ox_id in 10..18 {
        assert_eq!(write(&mut d, ox_id, 0, 1, 512), []);
    }
    let rsp = write(&mut d, 18, 0, 1, 512);
    assert_eq!((rsp.len(), &rsp[24 + 10..24 + 16]), (48, &[8, 0x28, 0, 0, 2, 0][..]));
    assert_eq!(write(&mut d, 18, 0, 1, 0)[24 + 10..24 + 12], [4, 0]);
}

#[test]
fn past_the_burst() {
    // one byte past, with 3 fill bytes; up to its end with 2 fill bytes past
    assert_eq!(fault(&mut awaiting(7, 1, 508), &data(2, 0, &[9; 509]), 7, &mut [7; 1024]), 1);
    let mut window = [7; 1_024];
    assert_eq!(lend(&mut awaiting(7, 1, 510), &data(2, 0, &[9; 510]), 7, &mut window), Ok(vec![]));
    assert!(window[..510] == [9; 510] && window[510..] == [7; 514]);
    // a window that does not do, or is none: 01 all the same
    assert_eq!(fault(&mut awaiting(7, 1, 508), &data(2, 0, &[9; 509]), 7, &mut [7; 65_537]), 1);
    assert_eq!(fault(&mut awaiting(7, 1, 508), &data(2, 0, &[9; 509]), 9, &mut []), 1);
    // before the first FCP_XFER_RDY, and after all is received
    let mut d = writable(100);
    assert_eq!(write(&mut d, 2, 7, 1, 512), []);
    assert_eq!(fault(&mut d, &data(2, 0, &[9; 4]), 7, &mut [7; 512]), 1);
    let mut d = awaiting(7, 1, 512);
    assert_eq!(lend(&mut d, &data(2, 0, &[9; 512]), 7, &mut [7; 512]), Ok(vec![]));
    assert_eq!(fault(&mut d, &data(2, 512, &[9; 4]), 8, &mut [7; 512]), 1);
    // between two bursts
    let mut d = writable(300);
    assert_eq!(write(&mut d, 2, 0, 200, 102_400), []);
    assert_eq!(ready_for(&mut d, 2), (0, 65_536));
    for offset in (0..65_536).step_by(2_048) {
        assert_eq!(lend(&mut d, &data(2, offset, &[9; 2_048]), offset as u64 / 512, &mut [7; 2_048]), Ok(vec![]));
    }
    assert_eq!(fault(&mut d.clone(), &data(2, 65_536, &[9; 1]), 128, &mut [7; 512]), 1);
    assert_eq!(fault(&mut d.clone(), &data(2, 63_488, &[9; 1]), 128, &mut [7; 512]), 3);
    assert_eq!(ready_for(&mut d, 2), (65_536, 36_864));
}

#[test]
fn another_offset() {
    for offset in [1, 4, 512, 513, u32::MAX] {
        assert_eq!(fault(&mut awaiting(7, 1, 512), &data(2, offset, &[9; 4]), 7, &mut [7; 512]), 3);
    }
    // with a window of 65,537 bytes, and past the burst too
    assert_eq!(fault(&mut awaiting(7, 1, 512), &data(2, 4, &[9; 600]), 7, &mut vec![7; 65_537]), 3);
    // before the first FCP_XFER_RDY; of 0 bytes
    let mut d = writable(100);
    assert_eq!(write(&mut d, 2, 7, 1, 512), []);
    assert_eq!(fault(&mut d.clone(), &data(2, 4, &[9; 4]), 7, &mut [7; 512]), 3);
    assert_eq!(fault(&mut d, &data(2, 4, &[]), 7, &mut [7; 512]), 3);
    // what was taken stands: an offset behind
    let mut d = awaiting(7, 1, 512);
    assert_eq!(lend(&mut d, &data(2, 0, &[9; 8]), 7, &mut [7; 512]), Ok(vec![]));
    assert_eq!(fault(&mut d, &data(2, 0, &[9; 8]), 7, &mut [7; 512]), 3);
}

#[test]
fn data_of_no_bytes() {
    // awaited or not, it is taken, and its window must cover
    let mut d = writable(100);
    assert_eq!(write(&mut d, 2, 7, 1, 512), []);
    for _ in 0..2 {
        let before = d.clone();
        assert_eq!(lend(&mut d, &data(2, 0, &[]), 7, &mut []), Ok(vec![]));
        assert_eq!(lend(&mut d, &data(2, 0, &[]), 6, &mut [7; 512]), Ok(vec![]));
        assert_eq!(refused(&mut d, &data(2, 0, &[]), 6, &mut [7; 511]), 10);
        assert_eq!(refused(&mut d, &data(2, 0, &[]), 8, &mut [7; 512]), 10);
        assert_eq!(refused(&mut d, &data(2, 0, &[]), 7, &mut vec![7; 65_537]), 10);
        assert_eq!(d, before);
        if !d.login(1).unwrap().exchanges[0].as_ref().unwrap().awaited() {
            assert_eq!(ready_for(&mut d, 2), (0, 512));
        }
    }
    // a fill count above an empty payload
    for fill in 1..4 {
        let mut f = data(2, 0, &[]);
        f[11] = fill;
        assert_eq!(refused(&mut d, &f, 7, &mut [7; 512]), 6);
    }
}

#[test]
fn windows_of_data() {
    let f = data(2, 0, &[9; 509]);
    for (start, length) in [(8, 1_024), (7, 508), (6, 512 + 508), (7 + (1 << 55), 512), (7, 65_537), (u64::MAX, 512), (0, 0)] {
        assert_eq!(refused(&mut awaiting(7, 1, 512), &f, start, &mut vec![7; length]), 10, "{start} {length}");
    }
    for (start, length) in [(7, 509), (7, 65_536), (6, 512 + 509), (0, 7 * 512 + 509)] {
        let mut window = vec![7; length];
        assert_eq!(lend(&mut awaiting(7, 1, 512), &f, start, &mut window), Ok(vec![]));
        let at = (7 - start as usize) * 512;
        assert!(window[at..at + 509] == [9; 509] && window[..at].iter().chain(&window[at + 509..]).all(|&b| b == 7));
    }
    // with another frame the window is not looked at
    let mut d = awaiting(7, 1, 512);
    let mut window = vec![7; 65_537];
    assert_eq!(lend(&mut d, &frame(0x23, 1, 1, 2, &[9; 8]), 7, &mut window), Ok(vec![]));
    assert!(lend(&mut d, &frame(0x81, 0, 1, 2, &[]), 7, &mut window).is_ok_and(|r| r[0] == 0x84));
    assert!(window.iter().all(|&b| b == 7));
    // a next frame needs no cover, but a window of 65,537 bytes is too long
    let mut d = awaiting(7, 1, 512);
    assert_eq!(next(&mut d, 2, u64::MAX, &[7; 65_536]), Ok(vec![]));
    assert_eq!(next(&mut d, 2, 0, &[7; 65_537]), Err(10));
}

/// Block 8,388,608 is written at byte 4,294,967,296.
#[test]
fn writes_past_four_gibibytes() {
    let mut d = writable(8_388_610);
    assert_eq!(write(&mut d, 2, 8_388_607, 3, 1_536), []);
    assert_eq!(ready_for(&mut d, 2), (0, 1_536));
    assert_eq!(lend(&mut d, &data(2, 0, &[1; 512]), 8_388_607, &mut [7; 512]), Ok(vec![]));
    for start in [0, 8_388_608 + (1 << 55), 8_388_609] {
        assert_eq!(refused(&mut d, &data(2, 512, &[2; 512]), start, &mut [7; 1_024]), 10);
    }
    let mut window = [7; 2_048];
    assert_eq!(lend(&mut d, &data(2, 512, &[2; 512]), 4_294_967_296 / 512 - 1, &mut window), Ok(vec![]));
    assert!(window[..512] == [7; 512] && window[512..1_024] == [2; 512] && window[1_024..] == [7; 1_024]);
}

#[test]
fn data_for_no_open_write() {
    let f = data(2, 0, &[9; 4]);
    let window = &mut [7; 512];
    // no login, and one that is unpaired: no drive LOGO, no login ends
    let mut d = Drive::new(setup(100, 1)).unwrap();
    assert_eq!(refused(&mut d, &f, 0, window), 11);
    assert_eq!(plogi(&mut d, 1, 512)[0], 2);
    assert_eq!(refused(&mut d, &f, 0, window), 11);
    // a READ's OX_ID, made data's, none, and another login's write
    let mut d = writable(100);
    assert_eq!(read(&mut d, 2, 0, 1, 512), []);
    assert_eq!(command(&mut d, 3, &[0x12, 0, 0, 0, 36], 36), []);
    log_in(&mut d, 2, 512);
    assert_eq!(command_from(&mut d, 2, 4, &ten(0x2A, 0, 1), 512), []);
    for ox_id in [2, 3, 4, 5] {
        assert_eq!(refused(&mut d, &data(ox_id, 0, &[9; 4]), 0, window), 11);
    }
    // 11 before 10, and 7 before 11
    assert_eq!(refused(&mut d, &f, 9, &mut vec![7; 65_537]), 11);
    d.event(Event::LoopReset);
    assert_eq!(refused(&mut d, &f, 0, window), 7);
    let mut d = awaiting(0, 1, 512);
    d.event(Event::LoopReset);
    assert_eq!(refused(&mut d, &f, 0, window), 7);
    assert_eq!(refused(&mut d, &data(2, 8, &[9; 4]), 0, window), 7);
    // proven again, the write goes on
    let pdisc = [&[0x50, 0, 0, 0], &host_words(1, 2048)[..]].concat();
    assert_eq!(send(&mut d, &frame(0x22, 1, 1, 1, &pdisc)).unwrap()[24], 2);
    assert_eq!(lend(&mut d, &f, 0, window), Ok(vec![]));
    // a read-only unit
    let mut d = ready(100, 2048);
    let rsp = write(&mut d, 2, 200, 0, 512);
    assert_eq!((rsp[24 + 24 + 2], rsp[24 + 24 + 12], rsp.len()), (7, 0x27, 68));
    assert_eq!(refused(&mut d, &f, 0, window), 11);
}

/// What ends an exchange ends a write; what was taken is not looked at again.
#[test]
fn writes_that_end_early() {
    let half = || {
        let mut d = awaiting(7, 2, 1_024);
        assert_eq!(lend(&mut d, &data(2, 0, &[9; 512]), 7, &mut [7; 512]), Ok(vec![]));
        d
    };
    let mut ends: Vec<Drive> = vec![];
    let mut d = half();
    assert_eq!(send(&mut d, &frame(0x81, 0, 1, 2, &[])).unwrap()[0], 0x84);
    ends.push(d);
    let mut d = half();
    let again = write(&mut d, 2, 7, 2, 1_024);
    assert_eq!((again[24 + 24 + 2], again[24 + 24 + 12]), (0x0B, 0x4E));
    ends.push(d);
    let mut d = half();
    let prlo = [0x21, 0x10, 0, 0x14, 8, 0, 0, 0, 0, 0, 0, 0, 0, 0, 0, 0, 0, 0, 0, 0];
    assert_eq!(send(&mut d, &frame(0x22, 1, 1, 1, &prlo)).unwrap()[24], 2);
    ends.push(d);
    let mut d = half();
    assert_eq!(plogi(&mut d, 1, 2048)[0], 2);
    ends.push(d);
    for flag in [0x20, 0x04, 0x02] {
        let mut d = half();
        let mut payload = [0; 32];
        payload[10] = flag;
        assert_eq!(send(&mut d, &frame(6, 8, 1, 9, &payload)).unwrap()[24 + 27], 0);
        ends.push(d);
    }
    let mut d = half();
    d.event(Event::PowerOn);
    ends.push(d);
    assert_eq!(ends.len(), 8);
    for mut d in ends {
        assert_eq!(next(&mut d, 2, 8, &[7; 512]), Err(9));
        assert_eq!(refused(&mut d, &data(2, 512, &[9; 512]), 8, &mut [7; 512]), 11);
    }
}

/// "Well formed", of a write.
#[test]
fn writes_well_formed() {
    let formed = |writable: u8, wanted: u32, fcp_dl: u32, sent: u32, asked: u32| {
        let mut d = self::writable(70_000);
        d.setup.writable = writable;
        let e = Exchange { ox_id: 2, source: Source::Host(10), wanted, fcp_dl, sent, asked };
        d.logins[0].as_mut().unwrap().exchanges[0] = Some(e);
        d.ill_formed()
    };
    let whole = 131_584;
    for (sent, asked) in [(0, 0), (0, 65_536), (1, 65_536), (65_535, 65_536), (65_536, 65_536), (65_537, 131_072)] {
        assert_eq!(formed(1, whole, whole, sent, asked), None, "{sent} {asked}");
    }
    assert_eq!(formed(1, whole, whole, 131_072, whole), None);
    assert_eq!(formed(1, whole, whole, whole, whole), None);
    assert_eq!(formed(1, 65_535 * 512, u32::MAX, 0, 0), None);
    assert_eq!(formed(1, 1_024, 1_000, 999, 1_000), None);
    for (sent, asked) in [(1, 1), (65_537, 65_537), (0, 65_535), (0, 131_072), (65_536, 65_537), (5, 4), (131_072, 131_073)] {
        assert_eq!(formed(1, whole, whole, sent, asked), Some("bytes asked for"), "{sent} {asked}");
    }
    assert_eq!(formed(1, 1_024, 1_000, 1_001, 1_001), Some("bytes sent"));
    for (wanted, fcp_dl) in [(0, 512), (513, 512), (65_536 * 512, 512), (512, 0)] {
        assert_eq!(formed(1, wanted, fcp_dl, 0, 0), Some("an exchange no command opens"));
    }
    assert_eq!(formed(0, 512, 512, 0, 0), Some("an exchange no command opens"));
    assert_eq!(formed(2, 512, 512, 0, 0), Some("writable neither 0 nor 1"));
}

/// The records `S` and `D`: what is no call, and the window after the answer.
#[test]
fn records_of_writes() {
    let mut r = Recorder::default();
    let mut body = [&100u64.to_be_bytes()[..], &u32::from(OWN).to_be_bytes(), &[0x20; 28], &words(2048)].concat();
    assert_eq!(body.len(), 152);
    let none = [255, 0, 0, 1];
    assert_eq!(r.call(b'S', &body).bytes(), none);
    let d_record = |room: u16, start: u64, length: usize, frame: &[u8], window: &[u8]| {
        [&room.to_be_bytes()[..], &start.to_be_bytes(), &(length as u16).to_be_bytes(), frame, window].concat()
    };
    let f = data(2, 0, &[9; 5]);
    let call = d_record(2136, 7, f.len(), &f, &[7; 6]);
    // no drive yet
    assert_eq!(r.call(b'D', &call).bytes(), none);
    body.push(2);
    assert_eq!(r.call(b'S', &body).bytes(), [8, 0, 0, 1]);
    body[152] = 1;
    assert_eq!(r.call(b'S', &body).bytes(), [0, 0, 0, 1]);
    let d = r.drive.as_mut().unwrap();
    log_in(d, 1, 2048);
    assert_eq!(write(d, 2, 7, 1, 5), []);
    assert_eq!(ready_for(d, 2), (0, 5));
    // refused: the window as it was
    assert_eq!(r.call(b'D', &d_record(2135, 7, f.len(), &f, &[7; 6])).bytes(), [1, 0, 0, 1, 7, 7, 7, 7, 7, 7]);
    assert_eq!(r.call(b'D', &d_record(2136, 8, f.len(), &f, &[7; 6])).bytes(), [10, 0, 0, 1, 7, 7, 7, 7, 7, 7]);
    // `F` lends an empty window at block 0
    assert_eq!(r.call(b'F', &[&[8, 0x58], &f[..]].concat()).bytes(), [10, 0, 0, 1]);
    // no call: too short, a frame length past the body, too much room
    for n in [0, 2, 11] {
        assert_eq!(r.call(b'D', &call[..n]).bytes(), none);
    }
    assert_eq!(r.call(b'D', &d_record(2136, 7, f.len() + 7, &f, &[7; 6])).bytes(), none);
    assert_eq!(r.call(b'D', &d_record(4097, 7, f.len(), &f, &[7; 6])).bytes(), none);
    // the frame may be the whole body: 3, for it is no multiple of 4
    assert_eq!(r.call(b'D', &d_record(2136, 7, f.len() + 6, &f, &[7; 6])).bytes(), [3, 0, 0, 1]);
    // taken: the window with the bytes; then a fault: FCP_RSP and the window
    assert_eq!(r.call(b'D', &call).bytes(), [0, 0, 0, 1, 9, 9, 9, 9, 9, 7]);
    let fault = r.call(b'D', &call).bytes();
    assert_eq!((fault.len(), &fault[..4], &fault[3 + 56..]), (3 + 56 + 1 + 6, &[0, 0, 56, 7][..], &[1, 7, 7, 7, 7, 7, 7][..]));
}

/// What libfc's own frames are answered with, in their order: R_CTL, or 0 for nothing, and the byte that tells most.
#[test]
fn libfc_frames() {
    let mut d = drive(4096);
    let next_of = |d: &mut Drive, ox_id: u16| while next(d, ox_id, 0, &[7; 4096]).is_ok_and(|f| f[0] == 1) {};
    let expected = [
        ("plogi", 0x23, 0, 2),
        ("prli", 0x23, 6, 0x21),
        ("rtv", 0x23, 5, 0x0B),
        ("inquiry", 0, 0, 0),
        ("tur_attention", 0x07, 36, 0x29),
        ("inquiry_lun1", 0, 0, 0),
        ("tur", 0x07, 11, 0),
        ("read_capacity10", 0, 0, 0),
        ("mode_sense6_3f", 0x07, 36, 0x20),
        ("read10_8blocks", 0, 0, 0),
        ("report_luns", 0x07, 36, 0x20),
        ("read_capacity16", 0x07, 36, 0x20),
        ("adisc", 0x23, 0, 2),
        ("read10_to_abort", 0, 0, 0),
        ("rec", 0x23, 5, 0x0B),
        ("abts", 0x84, 11, 0xFF),
        ("rrq_libfc_12_bytes", 0x23, 5, 3),
        ("rrq_fcph_44_bytes", 0x23, 0, 2),
        ("tm_lun_reset", 0x07, 27, 2),
        ("tm_target_reset", 0x07, 27, 0),
        ("tm_abort_task_set", 0x07, 27, 0),
        ("tm_clear_task_set", 0x07, 27, 0),
        ("tm_clear_aca", 0x07, 27, 4),
        ("logo", 0x23, 0, 2),
    ];
    let mut lines = include_str!("../libfc.frames").lines();
    for (name, r_ctl, at, byte) in expected {
        let (found, hex) = lines.next().unwrap().split_once(' ').unwrap();
        let f: Vec<u8> = (0..hex.len()).step_by(2).map(|i| u8::from_str_radix(&hex[i..i + 2], 16).unwrap()).collect();
        assert_eq!(found, name);
        let reply = send(&mut d, &f).unwrap();
        match reply.get(24 + at) {
            None => {
                assert_eq!(r_ctl, 0, "{name}");
                if name != "read10_to_abort" {
                    next_of(&mut d, u16::from_be_bytes([f[16], f[17]]));
                }
            }
            Some(&b) => assert_eq!((reply[0], b), (r_ctl, byte), "{name}"),
        }
    }
    assert_eq!(lines.next(), None);
    assert!(d.logins.iter().all(Option::is_none));
}
