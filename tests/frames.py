"""Frames to the drive, and the replies that document 01 ("01") or a request of document 02 ("02, 2") asks for, each put together by hand.

The sentence of 01 stands beside each; 003 has the header's layout, 000 and 004 those of the payloads.
"""
# the drive

CAPACITY = 100  # 01, Setup: "Capacity 1 to 4,294,967,295 blocks of 512 bytes"; 100 is that of its known numbers
OWN = bytes.fromhex("0000EF")  # 01, Setup: "own address"; upper bytes 0000h, EFh is a loop address
IDENTITY = b"JHARTUPAL" + bytes(range(0xC0, 0xC0 + 19))  # 01, Setup: "28 identity bytes"


def accept_words():
    """Words 1 to 28 of the login accept: each byte is its own place in the payload, so that no two can be swapped unseen."""
    w = bytearray(range(116))
    w[10:12] = bytes.fromhex("F840")  # W2/B2-3: low 12 bits 840h = 2,112
    w[68] = 0xC4  # W17 bit 31 set
    w[74:76] = bytes.fromhex("1800")  # W18/B2-3: low 12 bits 800h = 2,048
    w[81] = 0x01  # 01, Setup: "with W20/B1 = 01h (004)"; W19/B1 is byte 77, 4Dh
    return bytes(w[4:])


WORDS = accept_words()
OWN_PORT = bytes.fromhex("1415161718191A1B")  # W5-6 of these words
OWN_NODE = bytes.fromhex("1C1D1E1F20212223")  # W7-8

# the replies


def head(r_ctl, to, kind, f_ctl, seq_id, ox_id):
    """01: "24 bytes: R_CTL, D_ID(3), reserved, S_ID(3), TYPE, F_CTL(3), SEQ_ID, DF_CTL, SEQ_CNT(2), OX_ID(2), RX_ID(2), OFFSET(4)" (003)."""
    return b"".join((
        bytes.fromhex(r_ctl),
        bytes([0, 0, to]),  # "addresses swapped": D_ID is the sender
        bytes(1),  # reserved: "the rest 0"
        OWN,  # S_ID is the drive
        bytes.fromhex(kind),
        bytes.fromhex(f_ctl),
        bytes([seq_id]),
        bytes(1),  # DF_CTL: "the rest 0"
        bytes(2),  # SEQ_CNT: "the rest 0"
        ox_id.to_bytes(2, "big"),
        bytes.fromhex("FFFF"),  # "RX_ID FFFFh"
        bytes(4),  # OFFSET: "the rest 0"
    ))


def answer(f, payload):
    """01: "ACC, LS_RJT | 23 01 | 990000 | FF", "OX_ID echoed"."""
    return head("23", sender(f), "01", "990000", 0xFF, ox_of(f)) + payload


def acc(f):
    return answer(f, bytes.fromhex("02000000"))  # "ACC of 4 bytes"


def login_acc(f):
    return answer(f, bytes.fromhex("02000000") + WORDS)  # "ACC is 02 00 00 00 and the setup words"; "PDISC's is PLOGI's"


def adisc_acc(f):
    # "ADISC ACC: 02 00 00 00, own address, own names, own address"; W1 and W6 are a zero byte and the address (000)
    return answer(f, bytes.fromhex("02000000") + bytes(1) + OWN + OWN_PORT + OWN_NODE + bytes(1) + OWN)


def prli_acc(f):
    # "ACC 02 10 00 14, 08 00 21 00, two zero words, 00 00 00 12"
    return answer(f, bytes.fromhex("02100014" "08002100" "00000000" "00000000" "00000012"))


def prlo_acc(f):
    # "ACC 02 10 00 14, 08 00 01 00, three zero words"
    return answer(f, bytes.fromhex("02100014" "08000100" "00000000" "00000000" "00000000"))


def rjt(pair):
    """01: "LS_RJT is 01 00 00 00, then 00, reason, explanation, 00"."""
    return lambda f: answer(f, bytes.fromhex("01000000" "00") + bytes.fromhex(pair.replace(",", "")) + bytes(1))


def logout(f):
    """01: "LOGO by the drive, OX_ID = destination address | 22 01 | 290000 | 00"; "05 00 00 00, own address, own port name"."""
    return head("22", sender(f), "01", "290000", 0x00, sender(f)) + bytes.fromhex("05000000") + bytes(1) + OWN + OWN_PORT


def ba_acc(f):
    # "BA_ACC, BA_RJT | 84, 85 00 | 990000 | the ABTS's"; "BA_ACC 00000000, OX_ID, FFFF, 0000, FFFF"
    return (head("84", sender(f), "00", "990000", f[12], ox_of(f))
            + bytes.fromhex("00000000") + ox_of(f).to_bytes(2, "big") + bytes.fromhex("FFFF" "0000" "FFFF"))


def ba_rjt(f):
    return head("85", sender(f), "00", "990000", f[12], ox_of(f)) + bytes.fromhex("00030300")  # "BA_RJT 00 03 03 00"


def rsp(f, f_ctl, payload):
    """01: "FCP_RSP | 07 08 | 990000 | 00"; "FCP frames add the fill count to F_CTL"."""
    return head("07", sender(f), "08", f_ctl, 0x00, ox_of(f)) + bytes(10) + payload  # "bytes 10 flags, ..": ten zeros before them


def status(byte, flag, size):
    """01: "bytes 10 flags, 11 status, 12 FCP_RESID, 16 sense length, 20 response length": 24 bytes."""
    return lambda f: rsp(f, "990000", bytes.fromhex(flag + byte) + size.to_bytes(4, "big") + bytes.fromhex("00000000" "00000000"))


def good():
    return status("00", "00", 0)  # wanted and FCP_DL are the same


def over(size):
    return status("00", "04", size)  # "The signed difference of wanted and FCP_DL above 0 sets flag 04h, .. FCP_RESID its size"


def under(size):
    return status("00", "08", size)  # "below 0 flag 08h"


def eight_open(dl):
    return status("28", "08", dl)  # "status 28h"; wanted is "0 when refused, with 28h too", and FCP_DL is above 0 here


def code(number):
    """01: "then 8 bytes with the code at 3 (flag 01h)"; "RSP_CODE and task answers give 0"."""
    return lambda f: rsp(f, "990000", bytes.fromhex("01" "00" "00000000" "00000000" "00000008" "000000" + number + "00000000"))


def check(triple, dl=0):
    """01: "or 18 sense bytes (flag 02h, status 02h): 70, 00, key, 4 zeros, 0A, code and qualifier at 12, 13"; wanted is "0 when refused"."""
    key, first, second = triple.split("/")
    sense = bytes.fromhex("70" "00" + key + "00000000" "0A" "00000000" + first + second + "00000000")
    flags = "02" if dl == 0 else "0A"  # the difference is below 0 where FCP_DL is above it
    lengths = dl.to_bytes(4, "big") + bytes.fromhex("00000012" "00000000")
    return lambda f: rsp(f, "990002", bytes.fromhex(flags + "02") + lengths + sense + bytes(2))  # two fill bytes, counted in F_CTL


def nothing(f):
    return b""  # "Else the exchange opens silently"


def data(f, number, offset, payload, last):
    """01: "FCP_DATA, last or not | 01 08 | 880008, 800008 | 01"; "OFFSET is the byte offset; SEQ_CNT the frame's number from 0, going round at 65,536"."""
    fill = -len(payload) % 4  # "Payloads are filled with zeros to a multiple of 4; FCP frames add the fill count to F_CTL"
    h = bytearray(head("01", sender(f), "08", "88000%X" % (8 + fill) if last else "800008", 0x01, ox_of(f)))
    h[14:16] = (number % 65536).to_bytes(2, "big")
    h[20:24] = offset.to_bytes(4, "big")
    return bytes(h) + payload + bytes(fill)


def xfer_rdy(f, offset, burst):
    """02, 2: "FCP_XFER_RDY (R_CTL 05h, F_CTL 890000, 12 bytes: offset, burst, zero)"; TYPE is 08h, "the rest 0", and twelve bytes take no fill."""
    return head("05", sender(f), "08", "890000", 0x00, ox_of(f)) + offset.to_bytes(4, "big") + burst.to_bytes(4, "big") + bytes(4)


# the unit


def block(number):
    """A block of the unit: every eight bytes have its number and their own place, so that no other bytes can stand for them unseen."""
    front = number.to_bytes(6, "big")
    return b"".join(front + bytes((place, 0xA5 ^ place)) for place in range(64))


def unit(start, size):
    """Bytes of the unit from a block on."""
    return b"".join(block(start + n) for n in range(-(-size // 512)))[:size]


# what is sent


def inquiry_data(lun=0):
    # "00 00 02 02 1F 00 00 02 and identity, 7Fh first for another LUN"
    return bytes.fromhex("7F" if lun else "00") + bytes.fromhex("0002021F000002") + IDENTITY


def sense_data(triple):
    # "70, 00, key, 4 zeros, 0A, code and qualifier at 12, 13": 18 bytes
    key, first, second = triple.split("/")
    return bytes.fromhex("7000" + key + "00000000" "0A" "00000000" + first + second + "00000000")


def capacity_data(blocks=CAPACITY):
    return (blocks - 1).to_bytes(4, "big") + (512).to_bytes(4, "big")  # "8 (last address, 512)"


# which exchange a frame is about


def sender(f):
    return f[7]


def ox_of(f):
    return f[16] * 256 + f[17]


# the requests

# What the Linux initiator libfc sends (kernel 6.1) from address 01h, its D_ID set to this drive's.
LIBFC = {name: bytes.fromhex(text) for name, text in {
    "plogi": "220000EF0000000101290000000000000100FFFF00000000" "030000002020000A8000084000FF001F000007D0"
             "20005254001200011000525400120001" + "00" * 32 + "880000000000084000FF000000010000" + "00" * 32,
    "prli": "220000EF0000000101290000000000000101FFFF00000000" "20100014080020000000000000000000000001A2",
    "rtv": "220000EF0000000101290000000000000102FFFF00000000" "0E000000",
    "adisc": "220000EF000000010129000000000000010CFFFF00000000" "52000000000000002000525400120001100052540012000100000001",
    "rec": "220000EF000000010129000000000000010EFFFF00000000" "1300000000000001010DFFFF",
    "inquiry": "060000EF0000000108290000000000000103FFFF00000000" "000000000000000000000002" "12000000240000000000000000000000" "00000024",
    "tur-attention": "060000EF0000000108290000000000000104FFFF00000000" "000000000000000000000000" + "00" * 16 + "00000000",
    "inquiry-lun-1": "060000EF0000000108290000000000000105FFFF00000000" "000100000000000000000002" "12200000240000000000000000000000" "00000024",
    "tur": "060000EF0000000108290000000000000106FFFF00000000" "000000000000000000000000" + "00" * 16 + "00000000",
    "capacity": "060000EF0000000108290000000000000107FFFF00000000" "000000000000000000000002" "25000000000000000000000000000000" "00000008",
    "mode-sense": "060000EF0000000108290000000000000108FFFF00000000" "000000000000000000000002" "1A003F00040000000000000000000000" "00000004",
    "read": "060000EF0000000108290000000000000109FFFF00000000" "000000000000000000000002" "28000000000000000800000000000000" "00001000",
    "report-luns": "060000EF000000010829000000000000010AFFFF00000000" "000000000000000000000002" "A0000000000000001000000000000000" "00001000",
    "capacity-16": "060000EF000000010829000000000000010BFFFF00000000" "000000000000000000000002" "9E100000000000000000000000200000" "00000020",
    "read-aborted": "060000EF000000010829000000000000010DFFFF00000000" "000000000000000000000002" "28000000000000000800000000000000" "00001000",
    "lun-reset": "060000EF0000000108290000000000000111FFFF00000000" "000000000000000000001000" + "00" * 16 + "00000000",
    "target-reset": "060000EF0000000108290000000000000112FFFF00000000" "000000000000000000002000" + "00" * 16 + "00000000",
    "abort-task-set": "060000EF0000000108290000000000000113FFFF00000000" "000000000000000000000200" + "00" * 16 + "00000000",
    "clear-task-set": "060000EF0000000108290000000000000114FFFF00000000" "000000000000000000000400" + "00" * 16 + "00000000",
    "clear-aca": "060000EF0000000108290000000000000115FFFF00000000" "000000000000000000004000" + "00" * 16 + "00000000",
    "abts": "810000EF000000010009000001000000010DFFFF00000000",
    "rrq12": "220000EF000000010129000000000000010FFFFF00000000" "1200000000000001010DFFFF",
    "rrq": "220000EF0000000101290000000000000110FFFF00000000" "1200000000000001010DFFFF" + "00" * 32,
    "logo": "220000EF0000000101290000000000000116FFFF00000000" "05000000000000012000525400120001",
}.items()}

PORT, NODE = bytes.fromhex("2000525400120001"), bytes.fromhex("1000525400120001")  # libfc's names


def frame(host, ox_id, payload, r_ctl=0x22, kind=0x01, seq_id=0x00, rx_id=0xFFFF, reserved=0x00, offset=0):
    return (bytes([r_ctl]) + OWN + bytes([reserved, 0, 0, host, kind]) + bytes.fromhex("290000") + bytes([seq_id, 0, 0, 0])
            + ox_id.to_bytes(2, "big") + rx_id.to_bytes(2, "big") + offset.to_bytes(4, "big") + payload)


def names_of(host):
    """The names of the host at an address: libfc's with the address in the last byte."""
    return PORT[:7] + bytes([host]), NODE[:7] + bytes([host])


def login(host, code=0x03, ox_id=0x0200, **changes):
    """A PLOGI, or with code 50h a PDISC: libfc's payload with the host's names and these changes."""
    p = bytearray(LIBFC["plogi"][24:])
    p[0] = code
    p[20:28], p[28:36] = names_of(host)
    for field, value in changes.items():
        at = {"w2": 10, "port": 20, "node": 28, "w17": 68, "w18": 74, "w19": 77, "w20": 81}[field]
        p[at:at + len(value)] = value
    return frame(host, ox_id, bytes(p))


def login_as(host, other, **changes):
    """A PLOGI with the port name of the host at another address, and a node name of its own."""
    return login(host, **{"port": names_of(other)[0], **changes})


def pdisc(host, **changes):
    return login(host, 0x50, 0x0300, **changes)


def adisc(host, port=None, node=None, named=None):
    # W2-3 port name, W4-5 node name, W6/B1-3 address (000)
    port, node = port or names_of(host)[0], node or names_of(host)[1]
    return frame(host, 0x0400, bytes.fromhex("5200000000000000") + port + node + bytes([0, 0, 0, named or host]))


def logo(host, named=None):
    return frame(host, 0x0500, bytes.fromhex("0500000000") + bytes([0, 0, named or host]) + names_of(host)[0])


def rrq(host, ox_id, named=None):
    # W1/B1-3 address, W2/B0-1 OX_ID (000)
    return frame(host, 0x0600, bytes.fromhex("1200000000") + bytes([0, 0, named or host]) + ox_id.to_bytes(2, "big") + bytes(34))


def prli(host, payload="20100014080020000000000000000000000001A2"):
    return frame(host, 0x0700, bytes.fromhex(payload))


def prlo(host, payload="2110001408000000000000000000000000000000"):
    return frame(host, 0x0800, bytes.fromhex(payload))


def abts(host, ox_id, rx_id=0xFFFF, seq_id=0x00):
    return frame(host, ox_id, b"", r_ctl=0x81, kind=0x00, rx_id=rx_id, seq_id=seq_id)


# the commands

ZERO_UNIT = bytes(8)


def cmnd(host, ox_id, cdb, dl=0, bits=0x02, lun=ZERO_UNIT, task=0x00, byte_8=0x00, attribute=0x00, size=32, **header):
    """01: "FCP_CMND: LUN 8, byte 9 attribute (ignored), 10 task flags, 11 bit 1 read and bit 0 write, CDB 16, FCP_DL 4"."""
    payload = lun + bytes([byte_8, attribute, task, bits]) + bytes.fromhex(cdb).ljust(16, b"\x00") + dl.to_bytes(4, "big")
    return frame(host, ox_id, payload[:size].ljust(size, b"\x00"), r_ctl=0x06, kind=0x08, **header)


TEST_UNIT_READY, READ_CAPACITY = "000000000000", "25000000000000000000"


def request_sense(most=18):
    return "03000000%02X00" % most


def inquiry(most=36):
    return "12000000%02X00" % most


def read(address, count):
    return "2800%08X00%04X00" % (address, count)


def write(address, count):
    return "2A00%08X00%04X00" % (address, count)


def test_unit(host, ox_id=0x0A00, **changes):
    return cmnd(host, ox_id, TEST_UNIT_READY, bits=0x00, **changes)


# the data of a WRITE


def news(offset, size):
    """What a host writes, from this byte of its command on: every four bytes have their own place, and D1h, which no block of a small number has there."""
    first = offset // 4
    whole = b"".join(b"\xD1" + (n % 2 ** 24).to_bytes(3, "big") for n in range(first, (offset + size) // 4 + 1))
    return whole[offset - 4 * first:][:size]


def sent(f, offset, content, last=True, fill=None, number=0):
    """An FCP_DATA of the host to the command f, from this byte of it on (02, 2): "(01h, 08h), with any SEQ_CNT and a fill count within its payload".

    Bytes of the fill are EEh, so that none can be taken for data unseen; F_CTL has relative offset present and, of the last frame of a
    sequence, its end and the initiative (FC-PH), which the drive does not look at.
    """
    fill = -len(content) % 4 if fill is None else fill
    h = bytearray(frame(sender(f), ox_of(f), b"", r_ctl=0x01, kind=0x08, seq_id=0x01, offset=offset))
    h[9:12] = bytes.fromhex("09000%X" % (8 + fill) if last else "00000%X" % (8 + fill))
    h[14:16] = number.to_bytes(2, "big")
    return bytes(h) + content + b"\xEE" * fill


def wcmnd(host, ox_id, address, count, dl=None, bits=0x01, **changes):
    """A WRITE(10), by default with the write bit (02, 2: "test 8 asks the write bit for a write") and FCP_DL as much as it wants."""
    return cmnd(host, ox_id, write(address, count), 512 * count if dl is None else dl, bits=bits, **changes)
