"""Frames as pcaps: with their delimiters as Wireshark knows them (link type 225), and their FCP part as iSCSI."""
import struct
import zlib

FC_WITH_DELIMITERS, RAW_IP = 225, 101
SOF_FIRST, SOF_NEXT, EOF_LAST, EOF_NEXT = 0xBCB55656, 0xBCB53636, 0xBC957575, 0xBC95D5D5  # SOFi3, SOFn3, EOFt, EOFn


def number(field):
    return int.from_bytes(field, "big")


def delimited(f, crc=None):
    """A frame between its delimiters; they say whether it is the first and the last of its sequence. The drive's SEQ_CNT goes round within one of data."""
    of_drive = f[0] == 0x01 and f[9] & 0x80
    first, last = f[14:16] == bytes(2) and (not of_drive or f[20:24] == bytes(4)), f[9] & 0x08
    return (struct.pack(">I", SOF_FIRST if first else SOF_NEXT) + f + struct.pack("<I", zlib.crc32(f) if crc is None else crc)
            + struct.pack(">I", EOF_LAST if last else EOF_NEXT))


def write(path, link, packets):
    """A pcap of packets, each with its time in seconds."""
    with open(path, "wb") as out:
        out.write(struct.pack("<IHHiIII", 0xA1B2C3D4, 2, 4, 0, 0, 262144, link))
        for when, p in packets:
            out.write(struct.pack("<IIII", int(when), int(when % 1 * 1000000), len(p), len(p)) + p)


def fibre_channel(path, frames):
    write(path, FC_WITH_DELIMITERS, [(when, delimited(f)) for when, f in frames])


# tshark 4.0 shows FCP data without the command that it belongs to, so nothing of INQUIRY's or READ CAPACITY's data is decoded. Its iSCSI keeps
# them together. The bytes of CDB, data and sense are copied; a task tag of its own stands for each exchange.


def sum_of(head):
    total = sum(struct.unpack(">%dH" % (len(head) // 2), head))
    while total >> 16:
        total = (total & 0xFFFF) + (total >> 16)
    return ~total & 0xFFFF


class Talk:
    """One TCP connection between host and drive."""

    def __init__(self):
        self.sent, self.packets = {True: 1, False: 1}, []

    def say(self, by_host, pdu):
        pdu += bytes(-len(pdu) % 4)
        ports = (40000, 3260) if by_host else (3260, 40000)
        ends = (b"\x0a\0\0\1", b"\x0a\0\0\2") if by_host else (b"\x0a\0\0\2", b"\x0a\0\0\1")
        tcp = struct.pack(">HHIIHHHH", *ports, self.sent[by_host], self.sent[not by_host], 0x5018, 65535, 0, 0)
        head = struct.pack(">BBHHHBBH", 0x45, 0, 40 + len(pdu), 0, 0, 64, 6, 0) + ends[0] + ends[1]
        head = head[:10] + sum_of(head).to_bytes(2, "big") + head[12:]
        self.sent[by_host] += len(pdu)
        self.packets.append((len(self.packets) / 1000, head + tcp + pdu))


def command(f, tag):
    flags = 0x80 | (0x40 if f[35] & 0x02 else 0) | (0x20 if f[35] & 0x01 else 0)
    return struct.pack(">BBHI8sIIII16s", 0x01, flags, 0, 0, f[24:32], tag, number(f[52:56]), tag, 1, f[36:52])


def data_in(f, tag, lun):
    content = f[24:len(f) - f[11] % 4]
    return struct.pack(">BBHI8sIIIIIIII", 0x25, 0x80 if f[9] & 0x08 else 0, 0, len(content), lun, tag, 0xFFFFFFFF, 0, tag + 1, tag + 64,
                       number(f[14:16]), number(f[20:24]), 0) + content


def response(f, tag):
    flags = 0x80 | (0x04 if f[34] & 0x04 else 0) | (0x02 if f[34] & 0x08 else 0)
    sense = f[48:48 + number(f[40:44])] if f[34] & 0x02 else b""
    segment = len(sense).to_bytes(2, "big") + sense if sense else b""
    return struct.pack(">BBBBI8sIIIIIIII", 0x21, flags, 0, f[35], len(segment), bytes(8), tag, 0, 1, tag + 1, tag + 64, 0, 0, number(f[36:40])) + segment


def iscsi(path, frames):
    """The commands, their made data and their responses; answers for each packet which frame it was. READ data and task answers are left out."""
    talk, going, which = Talk(), {}, []
    for n, f in enumerate(frames):
        host = f[5:8] if f[0] == 0x06 else f[1:4]
        key, pdu = (host, f[16:18]), None
        if f[0] == 0x06 and f[8] == 0x08 and len(f) == 56 and f[34] == 0:
            going[key] = n + 1, f
            pdu = command(f, n + 1)
        elif f[0] == 0x01 and key in going and going[key][1][36] != 0x28:
            pdu = data_in(f, going[key][0], going[key][1][24:32])
        elif f[0] == 0x07 and key in going:
            pdu = None if f[34] & 0x01 else response(f, going[key][0])  # RSP_CODE has no like in iSCSI
            del going[key]
        if pdu:
            talk.say(f[0] == 0x06, pdu)
            which.append(n)
    write(path, RAW_IP, talk.packets)
    return which
