"""The judge judged: replies with a flipped bit, too short, or with a wrong CRC must be told by tshark's fields."""
import pcap
from tshark import WHOLE, as_frames, as_iscsi, decoded

# The payload bytes that tshark looks at in each kind of reply, and the bits of those that it looks at in part. The others are left to vectors.
SEEN = {
    "ACC of 4 bytes": "0", "ACC of 20 bytes": "0-6 8-15 18-19", "ACC of 28 bytes": "0 5-23 25-27", "ACC of 116 bytes": "0 6-37 52-53 68-81 84-85 100-115",
    "LS_RJT": "0 5-7", "LOGO": "0 5-15", "BA_ACC": "0-1 4-11", "BA_RJT": "1-3", "FCP_DATA": "", "XFER_RDY": "0-7", "FCP_RSP 00": "8-11", "FCP_RSP 04": "8-15",
    "FCP_RSP 08": "8-15", "FCP_RSP 01": "8-11 20-23 27", "FCP_RSP 02": "8-19 24 26-41", "FCP_RSP 0A": "8-19 24 26-41",
}
LENGTH_UNSEEN = ("FCP_DATA", "XFER_RDY", "FCP_RSP 00", "FCP_RSP 01", "FCP_RSP 04", "FCP_RSP 08")
PARTLY = {24: 0x7F, 26: 0x0F, 39: 0x7F}  # of sense: its first byte, the key, SKSV


def kind(f):
    if f[0] == 0x23:
        return "LS_RJT" if f[24] == 0x01 else "ACC of %d bytes" % (len(f) - 24)
    return "FCP_RSP %02X" % f[34] if f[0] == 0x07 else {0x22: "LOGO", 0x84: "BA_ACC", 0x85: "BA_RJT", 0x01: "FCP_DATA", 0x05: "XFER_RDY"}[f[0]]


def places(text):
    for part in text.split():
        first, _, last = part.partition("-")
        yield from range(int(first), int(last or first) + 1)


def flips(f, name):
    """The frame with each bit of its header, and each that tshark looks at in its payload, turned over."""
    bits = [(at, 0x80 >> n) for at in range(24) for n in range(8)]
    for at in places(SEEN[name]):
        seen = PARTLY.get(at, 0xFF) if name in ("FCP_RSP 02", "FCP_RSP 0A") else 0xFF
        bits += [(24 + at, 0x80 >> n) for n in range(8) if seen & (0x80 >> n)]
    return [f[:at] + bytes([f[at] ^ bit]) + f[at + 1:] for at, bit in bits]


def told(path, request, right, others):
    """Which of these frames are told apart from the right one, each behind its request."""
    frames = [f for one in others for f in (request, one)]
    _, faults = as_frames(path, [(n / 1000, f) for n, f in enumerate(frames)], [b"", right] * len(others))
    return [bool(one) for one in faults[1::2]]


def run(checks, path, frames, asked):
    """One reply of each kind: every flip told, the frame itself not, and one that is cut told where its length can be seen."""
    samples = {}
    for f, n in zip(frames, asked):
        if n is not None:
            samples.setdefault(kind(f), (frames[n], f))
    checks.check("there is a reply of each kind: %s" % sorted(samples), samples.keys() == SEEN.keys())
    for name, (request, f) in samples.items():
        *flipped, cut, itself = told(path, request, f, flips(f, name) + [f[:-4], f])
        checks.check("control: %s, flips that are told: %d of %d" % (name, sum(flipped), len(flipped)), all(flipped) and len(flipped) >= 192)
        checks.check("control: %s itself is not told" % name, not itself)
        checks.check("control: %s cut by four bytes is told" % name, cut or name in LENGTH_UNSEEN)
    pcap.write(path, pcap.FC_WITH_DELIMITERS, [(0.0, pcap.delimited(f, 0)) for _, f in samples.values()])
    checks.check("control: a wrong CRC is told", {got["fc.crc.status"] for got in decoded(path, ["fc.crc.status"], WHOLE)} == {"0"})
    made_data(checks, path, frames, asked)


def made_data(checks, path, frames, asked):
    """INQUIRY's and READ CAPACITY's data as iSCSI: every bit of them."""
    for name, code, size in (("INQUIRY", 0x12, 36), ("READ CAPACITY", 0x25, 8), ("REQUEST SENSE", 0x03, 18)):
        request, f = next((frames[n], f) for f, n in zip(frames, asked) if n is not None and f[0] == 0x01 and frames[n][36] == code
                          and len(f) - f[11] % 4 == 24 + size)
        bits = [(24 + at, 0x80 >> n) for at in ((2, 7, 12, 13) if code == 0x03 else range(size)) for n in range(4 if (code, at) == (0x03, 2) else 0, 8)]
        wrong = [f[:at] + bytes([f[at] ^ bit]) + f[at + 1:] for at, bit in bits]
        faults = as_iscsi(path, [g for one in wrong for g in (request, one)], [b"", f] * len(wrong))
        found = sum(bool(one) for one in faults.values())
        checks.check("control: data of %s, flips that are told: %d of %d" % (name, found, len(wrong)), found == len(wrong))
        checks.check("control: data of %s itself is not told" % name, as_iscsi(path, [request, f], [b"", f]) == {1: []})
