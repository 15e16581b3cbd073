#!/usr/bin/env python3
"""A session with the program recorder: its records, and the answer that document 01 ("01") asks for to each, or a request of document 02 ("02, 1").

Usage: tests/session.py stdin | stdout | sample | lost | moved | written

Nothing here comes from a run of the program: the replies are put together by hand (frames.py) from 01's sentences, the form of records and
answers stands at the head of crates/recorder/src/main.rt. Refusal 2 is never asked for: a drive is only made where its setup passes, and
every call leaves it well formed, so no record brings the program a state that is not.
"""
import sys

sys.dont_write_bytecode = True
from frames import *  # noqa: E402, F403

ROOM = 2136  # 01: "1 | reply buffer under 2,136 bytes"
OWN_ADDRESS = OWN[2]

# the records and their answers


class Call:
    """A record and its answer, of which the last bytes are what follows the usual one."""

    def __init__(self, name, record, answer, rest=0):
        self.name, self.record, self.answer, self.rest = name, record, answer, rest


calls = []


def record(letter, body):
    return letter.encode("latin-1") + len(body).to_bytes(4, "big") + body


def call(name, letter, body, number, reply=b"", rest=b""):
    """A record, and its answer: the refusal's number, the reply's length, the reply, that no other byte was touched, and what follows."""
    calls.append(Call(name, record(letter, body), bytes([number]) + len(reply).to_bytes(2, "big") + reply + b"\x01" + rest, len(rest)))


def no_call(name, letter, body):
    call(name, letter, body, 255)


def setup(capacity=CAPACITY, address=OWN_ADDRESS, words=WORDS, writable=0):
    """A setup; 02, 2: "units whose setup allows it" are those with 1 in the last byte."""
    return capacity.to_bytes(8, "big") + address.to_bytes(4, "big") + IDENTITY + words + bytes([writable])


def fresh(hosts="", paired="", name="setup", capacity=CAPACITY, writable=0, **changes):
    """A drive, logins of these hosts, and pairings of some; each paired host has its attention taken."""
    call(name, "S", setup(capacity, writable=writable), 0)
    for host in bytes.fromhex(hosts):
        sends("plogi", login(host, **changes), login_acc)
    for host in bytes.fromhex(paired):
        sends("prli", prli(host), prli_acc)
        sends("attention", test_unit(host), check("06/29/00"))


def sends(name, f, reply, room=ROOM):
    """A frame, and the reply to it."""
    call(name, "F", room.to_bytes(2, "big") + f, 0, reply(f))


def refused(name, number, f, room=ROOM):
    call("%d-%s" % (number, name), "F", room.to_bytes(2, "big") + f, number)


def asking(address, ox_id, start=0, window=b"", room=ROOM):
    return address.to_bytes(4, "big") + ox_id.to_bytes(2, "big") + room.to_bytes(2, "big") + start.to_bytes(8, "big") + window


def asks(name, f, reply, start=0, window=b"", room=ROOM):
    """The next frame of the exchange that the command f opened."""
    call(name, "N", asking(sender(f), ox_of(f), start, window, room), 0, reply)


def asks_in_vain(name, number, address, ox_id, start=0, window=b"", room=ROOM):
    call("%d-%s" % (number, name), "N", asking(address, ox_id, start, window, room), number)


def lending(f, start=0, window=b"", room=ROOM):
    return room.to_bytes(2, "big") + start.to_bytes(8, "big") + len(f).to_bytes(2, "big") + f + window


def hands(name, f, start, window, after=None, reply=nothing, room=ROOM):
    """A frame with a window: the reply to it, and every byte of the window after it, as it was unless that is given."""
    call(name, "D", lending(f, start, window, room), 0, reply(f), window if after is None else after)


def hands_in_vain(name, number, f, start=0, window=b"", room=ROOM):
    """It is refused, and "changes no lent byte"."""
    call("%d-%s" % (number, name), "D", lending(f, start, window, room), number, b"", window)


def event(name, number):
    call(name, "E", bytes([number]), 0)


LOOP_RESET, TIME_OVER, POWER_ON = 1, 2, 3


def lost_on_the_way(name, f):
    """A frame that never comes to the drive: samples/show marks it, and to the program it is no call."""
    no_call(name, "L", f)


def reply_lost(name):
    """The reply to the call before never comes to the host."""
    no_call(name, "L", b"")

# the frames of a command


def served(name, f, content, size=2048):
    """Every frame of made data, from no window."""
    for number in range(-(-len(content) // size)):
        part = content[number * size:(number + 1) * size]
        asks(name, f, data(f, number, number * size, part, (number + 1) * size >= len(content)))


def reads(name, host, ox_id, address, count, dl, response, size=2048, window=None, room=ROOM):
    """A READ of blocks with every data frame, each from a window over its own blocks or of this size from the READ's first block, and its FCP_RSP."""
    f = cmnd(host, ox_id, read(address, count), dl)
    sends(name, f, nothing, room)
    total = min(count * 512, dl)  # 01: "To send: the smaller of wanted and FCP_DL"
    for number in range(-(-total // size)):
        offset = number * size
        part = min(size, total - offset)
        start, before = (address, offset) if window else (address + offset // 512, offset % 512)
        lent = unit(start, window or before + part)
        asks("%s-%d" % (name, number), f, data(f, number, offset, lent[before:before + part], offset + part == total), start, lent, room)
    asks(name + "-rsp", f, response(f), room=room)
    asks_in_vain(name + "-freed", 9, host, ox_id)  # 01: "FCP_RSP follows and frees the place"


def takes(name, f, offset, size, window=None, **changes):
    """A data frame to the WRITE f is taken, in a window over its own blocks or of this size from the WRITE's first block: only its own bytes change."""
    address = int.from_bytes(f[38:42], "big")
    start, before = (address, offset) if window else (address + offset // 512, offset % 512)
    lent = unit(start, window or before + size)
    hands(name, sent(f, offset, news(offset, size), **changes), start, lent, lent[:before] + news(offset, size) + lent[before + size:])


def awaits(name, f):
    """02, 2: "nothing while data is awaited"."""
    asks(name, f, b"")


def writes(name, f, response, sizes, burst=None):
    """A WRITE of at most a burst through to its FCP_RSP, with data frames of these sizes."""
    sends(name, f, nothing)
    asks(name + "-ready", f, xfer_rdy(f, 0, sum(sizes) if burst is None else burst))
    offset = 0
    for number, size in enumerate(sizes):
        awaits("%s-%d-awaited" % (name, number), f)
        takes("%s-%d" % (name, number), f, offset, size, number=number)
        offset += size
    asks(name + "-rsp", f, response(f))
    asks_in_vain(name + "-freed", 9, sender(f), ox_of(f))
    hands_in_vain(name + "-freed", 11, sent(f, offset, b""), 0, unit(0, 8))


def fetched(name, f, content, response):
    """A command whose data are made, its frames and its FCP_RSP."""
    sends(name, f, nothing)
    served(name + "-data", f, content)
    asks(name + "-rsp", f, response(f))
    asks_in_vain(name + "-freed", 9, sender(f), ox_of(f))


# the sections of the session


def no_drive_yet():
    for letter, body in (("F", ROOM.to_bytes(2, "big") + login(0x01)), ("D", lending(login(0x01), 0, unit(0, 512))), ("N", asking(0x01, 0x0101)), ("E", b"\x01"), ("E", b"\x04"),
                         ("X", b"")):
        no_call("no-drive-" + letter, letter, body)
    call("8-no-drive", "S", setup(0), 8)
    no_call("no-drive-after-8", "F", ROOM.to_bytes(2, "big") + login(0x01))
    no_call("no-drive-after-8-window", "D", lending(login(0x01), 0, unit(0, 512)))
    fresh("01")


def words_with(at, value):
    w = bytearray(4) + bytearray(WORDS)
    w[at:at + len(value)] = value
    return bytes(w[4:])


def setups():
    """01, Setup: "Capacity 1 to 4,294,967,295"; "A valid address .."; "words 1 to 28 .. must pass the PLOGI rules below with W20/B1 = 01h"; 02, 2: a flag, 0 or 1."""
    fresh("01", "01")
    f = cmnd(0x01, 0x0101, read(98, 2), 1024)
    sends("setup-open", f, nothing)
    broken = [("capacity-0", setup(0)), ("capacity-33-bits", setup(1 << 32)), ("capacity-64-bits", setup((1 << 64) - 1))]
    broken += [("address-%X" % a, setup(address=a)) for a in (0x00, 0x03, 0xF0, 0xFF, 0x01EF, 0x0100EF, 0x010000EF)]
    broken += [("words-" + name, setup(words=words_with(at, bytes.fromhex(value)))) for name, at, value in (
        ("w2", 10, "00FC"), ("port", 20, "00" * 8), ("node", 28, "00" * 8), ("w17", 68, "7F"), ("w18", 74, "0102"),
        ("w19", 77, "00"), ("w20-0", 81, "00"), ("w20-2", 81, "02"))]
    broken += [("writable-%02X" % flag, setup(writable=flag)) for flag in (0x02, 0x80, 0xFF)]
    for name, body in broken:
        call("8-" + name, "S", body, 8)
    asks("setup-kept", f, data(f, 0, 0, unit(98, 1024), True), 98, unit(98, 1024))  # the drive of before, with its login and its exchange
    asks("setup-kept-rsp", f, good()(f))
    for size in (0, 12, 151, 152):
        no_call("setup-of-%d" % size, "S", setup()[:size])
    sends("setup-kept-again", test_unit(0x01), good())
    for name, capacity, address in (("least", 1, 0x01), ("most", 0xFFFFFFFF, 0xE8)):
        call("setup-" + name, "S", setup(capacity, address), 0)
    call("setup-of-154", "S", setup() + b"\x02", 0)  # what follows a call's bytes is not looked at
    fresh("01")  # a new drive has no logins
    sends("setup-new", test_unit(0x02), logout)


def no_calls():
    """Unknown letters and events, bodies that are too short, rooms over 4,096; the drive is as it was after each."""
    fresh("01", "01")
    for letter in "\x00sXfd\xFF":
        no_call("letter-%02X" % ord(letter), letter, b"")
        no_call("letter-%02X-body" % ord(letter), letter, setup())
    for body in (b"", b"\x00", b"\x04", b"\xFF"):
        no_call("event-" + body.hex(), "E", body)
    for body in (b"", b"\x08"):
        no_call("frame-of-%d" % len(body), "F", body)
    for size in (0, 8, 15):
        no_call("next-of-%d" % size, "N", asking(0x01, 0x0101)[:size])
    for size in (0, 2, 11, 12, 67):  # "A frame length past the body is no call"
        no_call("window-of-%d" % size, "D", lending(test_unit(0x01))[:size])
    no_call("window-length-most", "D", ROOM.to_bytes(2, "big") + bytes(8) + b"\xFF\xFF" + test_unit(0x01))
    for room in (4097, 0xFFFF):
        no_call("frame-room-%d" % room, "F", room.to_bytes(2, "big") + test_unit(0x01))
        no_call("window-room-%d" % room, "D", lending(test_unit(0x01), room=room))
        no_call("next-room-%d" % room, "N", asking(0x01, 0x0101, room=room))
    sends("no-calls-kept", test_unit(0x01), good(), room=4096)
    call("event-and-more", "E", b"\x03\xFF", 0)  # what follows a call's bytes is not looked at
    sends("event-and-more-done", test_unit(0x01), logout)


def changed(f, *changes):
    """A frame with other bytes at some places of its header."""
    g = bytearray(f)
    for at, value in changes:
        g[at] = value
    return bytes(g)


def frame_refusals():
    """"Frame in: 1 to 7 in order": each frame here breaks what its number says and, for the order, everything that comes later."""
    fresh("01", "01")
    event("reset", LOOP_RESET)
    worst = changed(cmnd(0x01, 0x0101, TEST_UNIT_READY), (3, 0xEE), (7, 0x03), (8, 0x01))
    for room in (0, 1, 24, 2135):
        refused("room-%d" % room, 1, worst[:20], room)
    for size in (0, 1, 20, 23, 25, 26, 27, 2137, 2138, 2140, 4096):
        refused("size-%d" % size, 3, worst.ljust(size, b"\x00")[:size])
    refused("size-room", 3, worst[:20], 4096)
    for at, value in ((1, 0x01), (2, 0x01), (3, 0xEE), (3, 0x00)):
        refused("to-%d-%02X" % (at, value), 4, changed(worst, (3, 0xEF), (at, value)))
    refused("to-24", 4, worst[:24])  # "24 .. read"
    refused("to-2136", 4, worst.ljust(2136, b"\x00"))  # "2,136 .. read"
    bad = changed(worst, (3, 0xEF))
    for name, changes in (("03", ()), ("00", ((7, 0x00),)), ("ours", ((7, 0xEF),)), ("FF", ((7, 0xFF),)), ("upper", ((5, 0x01), (7, 0x01))),
                          ("middle", ((6, 0x01), (7, 0x01)))):
        refused("from-" + name, 5, changed(bad, *changes))
    good_frame = cmnd(0x01, 0x0101, TEST_UNIT_READY)
    for r_ctl, kind in ((0x22, 0x00), (0x22, 0x08), (0x23, 0x00), (0x81, 0x01), (0x06, 0x01), (0x06, 0x00), (0x07, 0x08), (0x05, 0x08), (0x01, 0x00), (0x01, 0x01),
                        (0x00, 0x00), (0x84, 0x00), (0xFF, 0xFF)):
        refused("pair-%02X-%02X" % (r_ctl, kind), 6, changed(good_frame, (0, r_ctl), (8, kind)))
    for name, at, value in (("df-ctl", 13, 0x01), ("seq-cnt-high", 14, 0x01), ("seq-cnt", 15, 0x01), ("f-ctl-1", 11, 0x01), ("f-ctl-2", 11, 0x02), ("f-ctl-3", 11, 0x03)):
        refused(name, 6, changed(good_frame, (at, value)))
    refused("no-payload", 6, frame(0x01, 0x0101, b""))
    for name, f in (("command", good_frame), ("command-24", good_frame[:24]), ("abts", abts(0x01, 0x0101)), ("answer", frame(0x01, 0x0101, b"", r_ctl=0x23)),
                    ("prli", prli(0x01)), ("prlo", prlo(0x01)), ("rrq", rrq(0x01, 0x0101)), ("code-00", frame(0x01, 0x0101, bytes(4))),
                    ("data", changed(good_frame, (0, 0x01))), ("f-ctl-4", changed(good_frame, (9, 0xFF), (10, 0xFF), (11, 0xFC)))):
        refused(name, 7, f)  # "Refusal 7 spares only PLOGI, PDISC, ADISC, LOGO"
    for code in (0x03, 0x05, 0x50, 0x52):
        sends("spared-%02X" % code, frame(0x01, 0x0101, bytes([code, 0, 0, 0])), rjt("03,00"))
    sends("spared-logo", logo(0x01, named=0x02), rjt("03,1F"))
    sends("spared-adisc", adisc(0x01), adisc_acc)
    sends("proven", test_unit(0x01), good())
    sends("answer", frame(0x01, 0x0101, b"", r_ctl=0x23), nothing)  # "A 23h frame that passes is answered with nothing"
    sends("answer-no-login", frame(0x02, 0x0101, bytes(8), r_ctl=0x23), nothing)


BIG = 0xFFFFFFFFFFFFFFFF


def next_refusals():
    """"Next frame out: 1, 2, 9, 7, 10"; each leaves the exchange where it is."""
    fresh("01" "02", "01" "02")
    f = cmnd(0x01, 0x0101, read(10, 6), 3000)
    g = cmnd(0x01, 0x0102, inquiry(), 36)
    sends("refusals-read", f, nothing)
    sends("refusals-inquiry", g, nothing)
    lent = unit(10, 3072)
    for room in (0, 24, 2135):
        asks_in_vain("room-%d" % room, 1, 0x01, 0x0101, 10, lent, room)
        asks_in_vain("room-%d-no-exchange" % room, 1, 0xFF, 0x0999, 0, b"", room)
    for name, address, ox_id in (("ox-id", 0x01, 0x0103), ("ox-id-high", 0x01, 0x0001), ("other-login", 0x02, 0x0101), ("no-login", 0x04, 0x0101), ("ours", 0xEF, 0x0101),
                                 ("no-address", 0x03, 0x0101), ("zero", 0x00, 0x0101), ("upper", 0x01000001, 0x0101), ("middle", 0x0101, 0x0101)):
        asks_in_vain(name, 9, address, ox_id, 10, lent[:2048])
    for name, start, window in (("before", 9, 512 + 2047), ("after", 11, 3072), ("short", 10, 2047), ("none", 10, 0), ("far", 1000000, 4096),
                                ("wrapped", (1 << 55) + 10, 4096), ("most", BIG, 4096), ("zero", 0, 2048)):
        asks_in_vain("window-" + name, 10, 0x01, 0x0101, start, bytes(window))
    asks("covered", f, data(f, 0, 0, lent[:2048], False), 10, lent[:2048])  # just covered
    asks_in_vain("window-second-short", 10, 0x01, 0x0101, 14, unit(14, 951))
    asks_in_vain("window-second-after", 10, 0x01, 0x0101, 15, unit(15, 1024))
    event("reset", LOOP_RESET)
    asks_in_vain("unproven", 7, 0x01, 0x0101, 14, unit(14, 952))
    asks_in_vain("unproven-window", 7, 0x01, 0x0101, 0, b"")
    asks_in_vain("unproven-inquiry", 7, 0x01, 0x0102)
    asks_in_vain("unproven-ox-id", 9, 0x01, 0x0103)
    asks_in_vain("unproven-other", 9, 0x02, 0x0101)
    sends("reset-pdisc", pdisc(0x01), login_acc)
    asks("covered-last", f, data(f, 1, 2048, lent[2048:3000], True), 14, unit(14, 952))
    asks("covered-rsp", f, over(72)(f), BIG, b"\x00" * 3)  # "FCP_RSP need no cover"
    asks("covered-made", g, data(g, 0, 0, inquiry_data(), True), BIG, b"\x00" * 3)  # "made data .. need no cover"
    asks_in_vain("rsp-freed", 9, 0x01, 0x0101)
    asks("made-rsp", g, good()(g))


def windows_too_long():
    """"10 | window too long": over 65,536 bytes, for READ data, made data and FCP_RSP; and bodies of up to 70,000 bytes."""
    fresh("01", "01", capacity=1000)
    f = cmnd(0x01, 0x0101, read(10, 1), 512)
    g = cmnd(0x01, 0x0102, inquiry(), 36)
    sends("long-read", f, nothing)
    sends("long-inquiry", g, nothing)
    for name, h in (("read", f), ("made", g)):
        asks_in_vain("window-65537-" + name, 10, 0x01, ox_of(h), 0, unit(0, 65537))
    asks_in_vain("window-of-70000", 10, 0x01, 0x0101, 0, bytes(70000 - 16))  # the longest body
    no_call("next-of-70001", "N", asking(0x01, 0x0101, 0, bytes(70001 - 16)))
    asks("window-65536", f, data(f, 0, 0, unit(10, 512), True), 0, unit(0, 65536))
    asks_in_vain("window-65537-rsp", 10, 0x01, 0x0101, 0, bytes(65537))
    asks("window-65536-rsp", f, good()(f), 0, bytes(65536))
    asks("window-65536-made", g, data(g, 0, 0, inquiry_data(), True), 0, bytes(65536))
    refused("frame-of-70000", 3, bytes(70000 - 2))
    for letter in "SFNEX":
        no_call("%s-of-70001" % letter, letter, bytes(70001))
    no_call("body-of-a-million", "F", ROOM.to_bytes(2, "big") + bytes(1000000))
    asks("long-kept", g, good()(g))


def a_host():
    """Login, pairing, and every command that sends made data."""
    fresh()
    sends("libfc-plogi", LIBFC["plogi"], login_acc)
    sends("libfc-prli", LIBFC["prli"], prli_acc)
    fetched("libfc-inquiry", LIBFC["inquiry"], inquiry_data(), good())
    fetched("sense-attention", cmnd(0x01, 0x0201, request_sense(), 18), sense_data("06/29/00"), good())
    sends("libfc-tur", LIBFC["tur"], good())  # the attention was cleared as that exchange opened
    fetched("libfc-capacity", LIBFC["capacity"], capacity_data(), good())
    fetched("libfc-inquiry-lun-1", LIBFC["inquiry-lun-1"], inquiry_data(1), good())
    fetched("sense-none", cmnd(0x01, 0x0202, request_sense(), 18), sense_data("00/00/00"), good())
    fetched("sense-other-lun", cmnd(0x01, 0x0203, request_sense(), 18, lun=bytes.fromhex("0001000000000000")), sense_data("05/25/00"), good())
    fetched("sense-252", cmnd(0x01, 0x0204, request_sense(252), 252), sense_data("00/00/00"), under(234))  # wanted: 18
    fetched("inquiry-5", cmnd(0x01, 0x0205, inquiry(5), 5), inquiry_data()[:5], good())  # "36 or byte 4 if smaller"; 3 fill bytes
    fetched("inquiry-255", cmnd(0x01, 0x0206, inquiry(255), 255), inquiry_data(), under(219))
    fetched("inquiry-dl-7", cmnd(0x01, 0x0207, inquiry(), 7), inquiry_data()[:7], over(29))
    fetched("capacity-dl-6", cmnd(0x01, 0x0208, READ_CAPACITY, 6), capacity_data()[:6], over(2))
    sends("libfc-mode-sense", LIBFC["mode-sense"], check("05/20/00", 4))
    sends("write", cmnd(0x01, 0x0209, write(0, 1), 512, bits=0x01), check("07/27/00", 512))
    sends("libfc-logo", LIBFC["logo"], acc)


def reading():
    """READs with their data frames and FCP_RSP: 01's known numbers, sizes that are no multiple of 4, more than one frame."""
    fresh("01", "01")
    reads("read-8", 0x01, 0x0301, 0, 8, 4096, good())
    reads("dl-1001", 0x01, 0x0302, 4, 2, 1001, over(23))  # "FCP_DL 1,001: 3 fill bytes, F_CTL 88000B"
    reads("dl-1000", 0x01, 0x0303, 98, 2, 1000, over(24))  # "wanted 1,024 with FCP_DL 1,000 .. flag 04h by 24"
    reads("dl-2048", 0x01, 0x0304, 98, 2, 2048, under(1024))  # "2,048: .. 08h by 1,024"
    reads("dl-2049", 0x01, 0x0305, 20, 5, 2049, over(511))
    reads("dl-2050", 0x01, 0x0306, 20, 5, 2050, over(510), room=4096)
    reads("last-block", 0x01, 0x0307, 99, 1, 512, good())  # "capacity 100, address 99 count 1 read"
    reads("one-window", 0x01, 0x0308, 40, 10, 5120, good(), window=5120)
    sends("past-end", cmnd(0x01, 0x0309, read(99, 2), 1024), check("05/21/00", 1024))  # "99 count 2, 100 count 0 refused"
    sends("at-end", cmnd(0x01, 0x030A, read(100, 0)), check("05/21/00"))
    sends("count-0", cmnd(0x01, 0x030B, read(99, 0)), good())
    sends("no-read-bit", cmnd(0x01, 0x030C, read(0, 1), 512, bits=0x00), code("02"))
    fresh("01", "01", name="setup-256", w18=bytes.fromhex("0100"))
    reads("size-256", 0x01, 0x0401, 7, 3, 1500, over(36), size=256)
    reads("size-256-window", 0x01, 0x0402, 7, 3, 1536, good(), size=256, window=1536)
    fresh("01", "01", name="setup-516", w18=bytes.fromhex("0204"))
    reads("size-516", 0x01, 0x0403, 7, 4, 2048, good(), size=516)
    fresh("01", "01", name="setup-2112", w18=bytes.fromhex("0840"))
    reads("size-2112", 0x01, 0x0404, 7, 5, 2560, good())  # "2,048 at most"


def far():
    """"block 8,388,608 is byte 4,294,967,296": READs at and across it, and at the last block."""
    fresh("01", "01", capacity=0xFFFFFFFF)
    reads("far", 0x01, 0x0501, 8388608, 2, 1024, good())
    reads("far-after", 0x01, 0x0502, 8388613, 1, 512, good())
    f = cmnd(0x01, 0x0503, read(8388606, 4), 2048)
    sends("far-across", f, nothing)
    for name, start in (("zero", 0), ("wrapped", 8388606 + 8388608), ("after", 8388607)):
        asks_in_vain("far-" + name, 10, 0x01, 0x0503, start, bytes(4096))
    asks("far-across", f, data(f, 0, 0, unit(8388606, 2048), True), 8388600, unit(8388600, 8192))
    asks("far-across-rsp", f, good()(f))
    reads("far-last", 0x01, 0x0504, 0xFFFFFFFE, 1, 512, good())
    sends("far-past", cmnd(0x01, 0x0505, read(0xFFFFFFFE, 2), 1024), check("05/21/00", 1024))
    sends("far-32-bits", cmnd(0x01, 0x0506, read(0xFFFFFFFF, 1), 512), check("05/21/00", 512))
    fetched("far-capacity", cmnd(0x01, 0x0507, READ_CAPACITY, 8), capacity_data(0xFFFFFFFF), good())


def many_at_once():
    """Two hosts, exchanges of one OX_ID at both, eight open, and what ends them."""
    fresh("01" "02", "01" "02")
    f, g = (cmnd(host, 0x0601, read(20 + host, 8), 4096) for host in (0x01, 0x02))
    sends("both-1", f, nothing)
    sends("both-2", g, nothing)
    for number in (0, 1):  # in turn
        for name, h in (("both-1", f), ("both-2", g)):
            start = 20 + sender(h)
            asks("%s-%d" % (name, number), h, data(h, number, number * 2048, unit(start, 4096)[number * 2048:][:2048], number == 1), start, unit(start, 4096))
    asks("both-2-rsp", g, good()(g))
    asks("both-1-rsp", f, good()(f))
    open_ones = [cmnd(0x01, 0x0700 + n, read(n, 1), 512) for n in range(8)]
    for h in open_ones:
        sends("eight", h, nothing)
    sends("ninth", cmnd(0x01, 0x0708, read(8, 1), 512), eight_open(512))
    sends("ninth-other-host", cmnd(0x02, 0x0708, read(8, 1), 512), nothing)
    sends("again", open_ones[3], check("0B/4E/00", 512))  # "that exchange ends, 0B/4E/00"
    asks_in_vain("again", 9, 0x01, 0x0703, 3, unit(3, 512))
    sends("abts", abts(0x01, 0x0704, seq_id=0x07), ba_acc)
    asks_in_vain("aborted", 9, 0x01, 0x0704, 4, unit(4, 512))
    sends("rrq", rrq(0x01, 0x0704), acc)
    sends("abts-rx-id", abts(0x01, 0x0705, rx_id=0x0001), ba_rjt)
    asks("abts-rx-id-kept", open_ones[5], data(open_ones[5], 0, 0, unit(5, 512), True), 5, unit(5, 512))
    sends("prlo", prlo(0x01), prlo_acc)
    asks_in_vain("prlo", 9, 0x01, 0x0705)
    sends("unpaired", test_unit(0x01), logout)  # "No paired login: drive LOGO, login ended"
    h = cmnd(0x02, 0x0708, read(8, 1), 512)
    asks("other-host-kept", h, data(h, 0, 0, unit(8, 512), True), 8, unit(8, 512))
    sends("logo", logo(0x02), acc)
    asks_in_vain("logo", 9, 0x02, 0x0708)


def events():
    """"loop reset marks every login unproven; verification time over ends the unproven ones; power on ends all"."""
    fresh("01" "02", "01" "02")
    f, g = (cmnd(host, 0x0801, read(30, 1), 512) for host in (0x01, 0x02))
    sends("open-1", f, nothing)
    sends("open-2", g, nothing)
    event("time-over", TIME_OVER)
    sends("all-proven", test_unit(0x01), good())
    event("reset", LOOP_RESET)
    refused("reset", 7, test_unit(0x01))
    sends("reset-adisc", adisc(0x01), adisc_acc)
    event("time-over", TIME_OVER)
    asks_in_vain("time-over", 9, 0x02, 0x0801, 30, unit(30, 512))
    sends("time-over-2", adisc(0x02), logout)
    asks("time-over-1", f, data(f, 0, 0, unit(30, 512), True), 30, unit(30, 512))
    event("power-on", POWER_ON)
    asks_in_vain("power-on", 9, 0x01, 0x0801)
    sends("power-on", test_unit(0x01), logout)
    fresh("01" "02" "04" "08" "0F" "10" "17" "18")
    sends("ninth-login", login(0x1B), rjt("09,29"))  # "P: ninth login 09,29"


EIGHT = "01" "02" "04" "08" "0F" "10" "17" "18"


def stands(name, *hosts):
    """The logins of these hosts stand, with their own names; ADISC changes nothing of a proven one."""
    for host in hosts:
        sends("%s-%02X-stands" % (name, host), adisc(host), adisc_acc)


# a PLOGI that fails each word test by itself
FAULTS = (("03,0F", {"w2": b"\x00\xFC"}), ("03,0E", {"node": bytes(8)}), ("03,01", {"w17": b"\x7F"}), ("03,07", {"w18": b"\x08\x44"}), ("03,09", {"w19": b"\x00"}),
          ("03,01", {"w20": b"\x00"}))


def moved_when_full():
    """02, 1: "A PLOGI whose parameters pass, with a port name logged in at another address, ends that login and its exchanges before the room test"."""
    fresh(EIGHT, "01" "08")
    f, g = (cmnd(host, 0x0901, read(40, 12), 6144) for host in (0x08, 0x01))
    sends("moved-read", f, nothing)
    sends("moved-other-read", g, nothing)
    asks("moved-read-0", f, data(f, 0, 0, unit(40, 2048), False), 40, unit(40, 2048))
    for name, new in (("name", login(0x1B)), ("node-name", login(0x1B, node=names_of(0x08)[1]))):
        sends("moved-new-" + name, new, rjt("09,29"))  # nobody has this port name, and there is no room
    for pair, changes in FAULTS:  # all word tests come first, so 08 stays
        sends("moved-" + "".join(changes), login_as(0x1B, 0x08, **changes), rjt(pair))
        stands("moved-" + "".join(changes), 0x08)
    sends("moved-size", login_as(0x1B, 0x08)[:-4], rjt("03,00"))
    asks("moved-read-1", f, data(f, 1, 2048, unit(44, 2048), False), 44, unit(44, 2048))  # with its exchange
    stands("moved-not-yet", *bytes.fromhex(EIGHT))
    sends("moved", login_as(0x1B, 0x08, w18=b"\x04\x00"), login_acc)
    for host in (0x08, 0x1B):  # it has ended, and is none of the new login's
        asks_in_vain("moved-read-%02X" % host, 9, host, 0x0901, 48, unit(48, 2048))
    sends("moved-old", test_unit(0x08), logout)  # "no login": the host was not told, and its next frame draws the drive LOGO
    sends("moved-no-room", login(0x1D), rjt("09,29"))
    sends("moved-names", adisc(0x1B, port=names_of(0x08)[0]), adisc_acc)  # the node name is its own
    sends("moved-prli", prli(0x1B), prli_acc)
    sends("moved-attention", test_unit(0x1B), check("06/29/00"))
    reads("moved-reads", 0x1B, 0x0901, 40, 8, 4096, good(), size=1024)
    asks("moved-other-0", g, data(g, 0, 0, unit(40, 2048), False), 40, unit(40, 2048))
    sends("moved-other", test_unit(0x01), good())
    stands("moved", 0x01, 0x02, 0x04, 0x0F, 0x10, 0x17, 0x18)


def moved_both_end():
    """The sender's login and that of its port name end both; a PLOGI that fails a word test ends the sender's alone."""
    fresh(EIGHT, "18")
    for host in (0x01, 0x18):  # at the first place and at the last
        sends("there-%02X" % host, login_as(0x1B, host), login_acc)
        sends("there-%02X-old" % host, adisc(host), logout)
        sends("and-back-%02X" % host, login(host), login_acc)
    sends("and-back-unpaired", test_unit(0x18), logout)  # the pairing ended with the login; so does the login now
    sends("and-back-again", login(0x18), login_acc)
    sends("both-end", login_as(0x10, 0x04), login_acc)
    sends("both-end-old", adisc(0x04), logout)
    sends("both-end-room", login(0x1D), login_acc)  # one place is free then, and not two
    sends("both-end-no-room", login(0x1E), rjt("09,29"))
    stands("both-end", 0x01, 0x02, 0x08, 0x0F, 0x17, 0x18, 0x1D)
    sends("own-ends", login_as(0x02, 0x01, w20=b"\x00"), rjt("03,01"))
    sends("own-ends-own", adisc(0x02), logout)
    stands("own-ends", 0x01)
    event("reset", LOOP_RESET)
    sends("moved-unproven", login_as(0x02, 0x08), login_acc)  # an unproven login ends like any other
    sends("moved-unproven-old", adisc(0x08), logout)
    sends("moved-proven", prli(0x02), prli_acc)


def names_apart():
    """"port name" is W5-6 alone, all eight bytes, compared with logins and by PLOGI alone."""
    fresh("01")
    port, node = names_of(0x01)
    others = [("bit-in-%d" % at, {"port": port[:at] + bytes([port[at] ^ 0x80 >> at]) + port[at + 1:]}) for at in range(8)]
    for name, changes in others + [("one-node", {"node": node}), ("node-as-port", {"port": node}), ("drive's", {"port": OWN_PORT})]:
        sends("name-" + name, login(0x02, **changes), login_acc)
        stands("name-" + name, 0x01)
        sends("name-%s-too" % name, adisc(0x02, **changes), adisc_acc)
    for name, f in (("pdisc", pdisc(0x02, port=port)), ("adisc", adisc(0x02, port=port))):
        sends("own-login", login(0x02), login_acc)
        sends("another's-name-" + name, f, logout)  # it differs from the sender's own login
        stands("another's-name-" + name, 0x01)


# writing: 02, 2


def writing():
    """WRITEs through to FCP_RSP: 01's known numbers, frames that are no whole blocks, and fill bytes, of which none is written."""
    fresh("01", "01", writable=1)
    writes("write", wcmnd(0x01, 0x0101, 40, 1), good(), (512,))
    writes("write-frames", wcmnd(0x01, 0x0102, 40, 5), good(), (2048, 512))
    writes("write-odd", wcmnd(0x01, 0x0103, 3, 2), good(), (1, 510, 3, 0, 509, 1))  # "a fill count within its payload", in any frame
    writes("write-2112", wcmnd(0x01, 0x0104, 60, 5), good(), (2112, 448))  # the largest frame; no other test of a size
    writes("write-last", wcmnd(0x01, 0x0105, 99, 1), good(), (512,))
    writes("write-dl-1001", wcmnd(0x01, 0x0106, 98, 2, 1001), over(23), (1001,))
    f = wcmnd(0x01, 0x0107, 98, 2, 1000)  # "wanted 1,024 with FCP_DL 1,000 .. flag 04h by 24"
    sends("write-dl-1000", f, nothing)
    asks("write-dl-1000-ready", f, xfer_rdy(f, 0, 1000))
    takes("write-dl-1000-data", f, 0, 1000, window=1024)  # the last 24 bytes of the second block stay
    asks("write-dl-1000-rsp", f, over(24)(f))
    asks_in_vain("write-dl-1000-freed", 9, 0x01, 0x0107)
    writes("write-dl-2048", wcmnd(0x01, 0x0108, 98, 2, 2048), under(1024), (1024,))  # "2,048: .. 08h by 1,024"
    f = wcmnd(0x01, 0x0109, 40, 4)
    sends("write-short", f, nothing)
    asks("write-short-ready", f, xfer_rdy(f, 0, 2048), room=4096)
    takes("write-short-0", f, 0, 512, window=2048, last=True)  # a sequence that ends short of the burst is no fault
    for n in range(3):
        awaits("write-short-awaited", f)
    takes("write-short-1", f, 512, 1536, window=2048, last=False, number=0xFFFF)  # "any SEQ_CNT"
    asks("write-short-rsp", f, good()(f), BIG, b"\x00" * 3)  # FCP_RSP needs no cover
    f, written_now = cmnd(0x01, 0x010A, read(40, 4), 2048), news(0, 2048)
    sends("write-read-back", f, nothing)
    asks("write-read-back-0", f, data(f, 0, 0, written_now, True), 40, written_now)
    asks("write-read-back-rsp", f, good()(f))


def write_commands():
    """"read-only units still give 07/27/00 at test 5, tests 6 and 7 treat WRITE(10) as READ(10), and test 8 asks the write bit for a write"."""
    fresh("01", "01")
    for bits in (0x00, 0x01, 0x02):
        sends("read-only", wcmnd(0x01, 0x0111, 0, 1, bits=bits), check("07/27/00", 512))
    sends("read-only-outside", wcmnd(0x01, 0x0111, 100, 1), check("07/27/00", 512))  # before tests 6 and 7
    sends("read-only-field", cmnd(0x01, 0x0111, "2A010000006400000100", 512, bits=0x01), check("07/27/00", 512))
    hands_in_vain("read-only", 11, sent(wcmnd(0x01, 0x0111, 0, 1), 0, news(0, 512)), 0, unit(0, 512))
    fresh("01", "01", writable=1)
    f = wcmnd(0x01, 0x0112, 0, 1)
    for name, g, reply in (("field", cmnd(0x01, 0x0112, "2A010000000000000100", 512, bits=0x01), check("05/24/00", 512)),
                           ("field-outside", cmnd(0x01, 0x0112, "2A010000006400000100", 512, bits=0x01), check("05/24/00", 512)),
                           ("past-end", wcmnd(0x01, 0x0112, 99, 2), check("05/21/00", 1024)),
                           ("at-end", wcmnd(0x01, 0x0112, 100, 1), check("05/21/00", 512)),
                           ("at-end-none", wcmnd(0x01, 0x0112, 100, 0), check("05/21/00")),
                           ("past-end-no-bit", wcmnd(0x01, 0x0112, 99, 2, bits=0x00), check("05/21/00", 1024)),  # before test 8
                           ("none", wcmnd(0x01, 0x0112, 99, 0), good()),  # a WRITE of 0 blocks: FCP_RSP at once
                           ("none-dl-512", wcmnd(0x01, 0x0112, 99, 0, 512), under(512)),
                           ("none-no-bit", wcmnd(0x01, 0x0112, 99, 0, 512, bits=0x00), under(512)),
                           ("dl-0", wcmnd(0x01, 0x0112, 98, 2, 0), over(1024)),  # nothing is asked for, and nothing written
                           ("dl-0-no-bit", wcmnd(0x01, 0x0112, 98, 2, 0, bits=0x00), over(1024)),
                           ("no-bit", wcmnd(0x01, 0x0112, 0, 1, bits=0x00), code("02")),
                           ("read-bit", wcmnd(0x01, 0x0112, 0, 1, bits=0x02), code("02")),  # the read bit does not help
                           ("both-bits", wcmnd(0x01, 0x0112, 0, 1, bits=0x03), code("02")),
                           ("read-with-write-bit", cmnd(0x01, 0x0112, read(0, 1), 512, bits=0x01), code("02"))):
        sends("write-" + name, g, reply)
        asks_in_vain("write-%s-none" % name, 9, 0x01, 0x0112)  # no exchange opens
        hands_in_vain("write-%s-none" % name, 11, sent(f, 0, news(0, 512)), 0, unit(0, 512))


def write_refusals():
    """"11, data frame for no open write, after 7; then 10 for its window": each leaves the exchange where it is and changes no byte of the window."""
    fresh("01" "02" "08", "01" "02", writable=1)
    f, lent = wcmnd(0x01, 0x0121, 10, 1), unit(10, 512)
    g = cmnd(0x01, 0x0122, read(10, 1), 512)
    sends("write-open", f, nothing)
    sends("write-read-open", g, nothing)
    asks("write-open-ready", f, xfer_rdy(f, 0, 512))
    first, second = sent(f, 0, news(0, 256), last=False), sent(f, 256, news(256, 256))
    for room in (0, 24, 2135):
        hands_in_vain("write-room-%d" % room, 1, first[:22], 10, lent, room)
    for size in (0, 20, 23, 279, 2137, 2140):
        hands_in_vain("write-size-%d" % size, 3, first.ljust(size, b"\x00")[:size], 10, lent)
    hands_in_vain("write-to-another", 4, changed(first, (3, 0xEE), (7, 0x03)), 10, lent)
    hands_in_vain("write-from-nowhere", 5, changed(first, (7, 0x03), (8, 0x01)), 10, lent)
    for name, at, value in (("type", 8, 0x01), ("df-ctl", 13, 0x01)):
        hands_in_vain("write-" + name, 6, changed(first, (at, value)), 10, lent)
    for fill in (1, 2, 3):  # more fill than payload
        hands_in_vain("write-fill-%d" % fill, 6, changed(sent(f, 0, b""), (11, 0x08 + fill)), 10, lent)
    for name, h in (("read", g), ("ox-id", wcmnd(0x01, 0x0123, 10, 1)), ("other-login", wcmnd(0x02, 0x0121, 10, 1)), ("unpaired", wcmnd(0x08, 0x0121, 10, 1)),
                    ("no-login", wcmnd(0x04, 0x0121, 10, 1))):  # a data frame draws no drive LOGO
        hands_in_vain("write-" + name, 11, sent(h, 0, news(0, 256)), 10, lent)
        hands_in_vain("write-%s-window" % name, 11, sent(h, 4, news(0, 256)))  # before its offset and its window
        refused("write-%s-frame" % name, 11, sent(h, 0, news(0, 256)))
    for name, start, window in (("before", 9, 512 + 255), ("after", 11, 512), ("short", 10, 255), ("none", 10, 0), ("far", 1000000, 512),
                                ("wrapped", (1 << 55) + 10, 512), ("most", BIG, 512), ("zero", 0, 512)):
        hands_in_vain("write-window-" + name, 10, first, start, unit(10, window))
    refused("write-no-window", 10, first)  # F lends an empty window at block 0
    asks("write-read-on", g, data(g, 0, 0, lent, True), 10, lent)
    hands("write-covered", first, 10, lent[:256], news(0, 256))  # just covered
    hands_in_vain("write-window-second-short", 10, second, 10, lent[:511])
    event("reset", LOOP_RESET)
    hands_in_vain("write-unproven", 7, second, 10, lent)
    hands_in_vain("write-unproven-ox-id", 7, sent(g, 256, news(256, 256)), 10, lent)  # before 11
    hands_in_vain("write-unproven-offset", 7, first)  # and before any fault
    asks_in_vain("write-unproven", 7, 0x01, 0x0121)
    sends("write-pdisc", pdisc(0x01), login_acc)
    awaits("write-proven-awaited", f)
    takes("write-proven", f, 256, 256)
    for room in (0, 2135):
        asks_in_vain("write-rsp-room-%d" % room, 1, 0x01, 0x0121, room=room)
    asks("write-proven-rsp", f, good()(f))


def write_faults():
    """"A data frame at another offset than the next is answered at once with RSP_CODE 03, else past the burst with 01, and ends the exchange"."""
    fresh("01", "01", writable=1)
    lent = unit(20, 512)

    def faulty(name, f, offset, size, number, start=20, window=lent, **changes):
        hands("fault-" + name, sent(f, offset, news(offset, size), **changes), start, window, reply=code(number))  # a fault changes no byte
        asks_in_vain("fault-%s-freed" % name, 9, 0x01, ox_of(f))
        hands_in_vain("fault-%s-freed" % name, 11, sent(f, 0, news(0, 4)), 20, lent[:4])

    f = wcmnd(0x01, 0x0131, 20, 1)
    for name, offset, size, number in (("early", 0, 4, "01"), ("early-one", 0, 1, "01"), ("early-offset", 4, 4, "03"), ("early-offset-empty", 4, 0, "03")):
        sends("fault-open", f, nothing)  # no data are awaited before the first FCP_XFER_RDY
        faulty(name, f, offset, size, number)
    for name, offset, size, number, start, window in (
            ("past-by-1", 0, 513, "01", 20, lent), ("past-by-4", 0, 516, "01", 20, lent), ("past-most", 0, 2112, "01", 20, lent),  # 513 has three fill bytes
            ("past-no-window", 0, 513, "01", 0, b""), ("past-window-after", 0, 516, "01", 21, lent),  # it looks at no window
            ("offset-4", 4, 4, "03", 20, lent), ("offset-past", 512, 4, "03", 20, lent), ("offset-most", 0xFFFFFFFF, 1, "03", 20, lent), ("offset-empty", 4, 0, "03", 20, lent),
            ("offset-and-past", 4, 512, "03", 20, lent), ("offset-no-window", 4, 4, "03", 0, b"")):
        sends("fault-open", f, nothing)
        asks("fault-ready", f, xfer_rdy(f, 0, 512))
        faulty(name, f, offset, size, number, start, window)
    for name, offset, size, number in (("again", 0, 256, "03"), ("behind", 252, 4, "03"), ("ahead", 260, 4, "03"), ("past-end", 256, 257, "01")):
        sends("fault-open", f, nothing)
        asks("fault-ready", f, xfer_rdy(f, 0, 512))
        takes("fault-first", f, 0, 256, last=False)
        faulty("second-" + name, f, offset, size, number)
    for name, offset, size, number in (("more", 512, 1, "01"), ("again", 0, 512, "03"), ("far", 516, 0, "03")):
        sends("fault-open", f, nothing)  # all have come, and none are awaited
        asks("fault-ready", f, xfer_rdy(f, 0, 512))
        takes("fault-all", f, 0, 512)
        faulty("after-" + name, f, offset, size, number)
    sends("fault-none-left", f, nothing)


def empty_data():
    """A data frame of 0 bytes at the right offset is taken silently, also while none is awaited; its window is held to the same rule."""
    fresh("01", "01", writable=1)
    f, lent = wcmnd(0x01, 0x0141, 20, 2), unit(20, 1024)
    sends("empty-open", f, nothing)
    none = sent(f, 0, b"")
    hands("empty-early", none, 20, lent)
    hands("empty-early-just", none, 20, b"")  # the block at which it begins
    hands("empty-early-end", none, 19, unit(19, 512))
    hands_in_vain("empty-early-zero", 10, none, 0, lent)
    hands_in_vain("empty-early-after", 10, none, 21, lent)
    hands_in_vain("empty-early-short", 10, none, 19, unit(19, 511))
    refused("empty-early-no-window", 10, none)
    asks("empty-ready", f, xfer_rdy(f, 0, 1024))  # it is not asked for by an empty frame
    hands("empty-awaited", none, 20, lent)
    awaits("empty-still-awaited", f)
    takes("empty-first", f, 0, 1000, window=1024, last=False)
    hands("empty-second", sent(f, 1000, b""), 21, unit(21, 488))
    takes("empty-rest", f, 1000, 24, window=1024)
    hands("empty-late", sent(f, 1024, b""), 20, lent)
    hands_in_vain("empty-late-short", 10, sent(f, 1024, b""), 20, lent[:1023])
    asks("empty-rsp", f, good()(f))
    f = wcmnd(0x01, 0x0142, 0, 1)
    sends("empty-at-0", f, nothing)
    sends("empty-at-0-no-window", sent(f, 0, b""), nothing)  # F lends the window that covers no byte of block 0
    asks("empty-at-0-ready", f, xfer_rdy(f, 0, 512))


def write_far():
    """"block 8,388,608 is byte 4,294,967,296"."""
    fresh("01", "01", capacity=0xFFFFFFFF, writable=1)
    f = wcmnd(0x01, 0x0151, 8388608, 1)
    sends("write-far", f, nothing)
    asks("write-far-ready", f, xfer_rdy(f, 0, 512))
    for name, start in (("zero", 0), ("before", 8388607), ("after", 8388609), ("doubled", 16777216), ("wrapped", (1 << 55) + 8388608)):
        hands_in_vain("write-far-" + name, 10, sent(f, 0, news(0, 512)), start, bytes(512))
    takes("write-far-data", f, 0, 512)
    asks("write-far-rsp", f, good()(f))
    f = wcmnd(0x01, 0x0152, 8388606, 4)
    sends("write-far-across", f, nothing)
    asks("write-far-across-ready", f, xfer_rdy(f, 0, 2048))
    hands("write-far-across-0", sent(f, 0, news(0, 1200)), 8388600, unit(8388600, 8192),
          unit(8388600, 3072) + news(0, 1200) + unit(8388600, 8192)[4272:])
    takes("write-far-across-1", f, 1200, 848)
    asks("write-far-across-rsp", f, good()(f))
    writes("write-far-last", wcmnd(0x01, 0x0153, 0xFFFFFFFE, 1), good(), (512,))
    sends("write-far-past", wcmnd(0x01, 0x0154, 0xFFFFFFFE, 2), check("05/21/00", 1024))
    sends("write-far-32-bits", wcmnd(0x01, 0x0155, 0xFFFFFFFF, 1), check("05/21/00", 512))


def many_writes():
    """Two hosts with one OX_ID, WRITEs over the same blocks, eight open, and what ends a WRITE: what was taken stays."""
    fresh("01" "02", "01" "02", writable=1)
    f, g = (wcmnd(host, 0x0161, 30, 2) for host in (0x01, 0x02))
    for name, h in (("both-1", f), ("both-2", g)):
        sends("write-" + name, h, nothing)
    asks("write-both-1-ready", f, xfer_rdy(f, 0, 1024))
    asks("write-both-2-ready", g, xfer_rdy(g, 0, 1024))
    takes("write-both-2-0", g, 0, 512, last=False)
    takes("write-both-1-0", f, 0, 1024)
    asks("write-both-1-rsp", f, good()(f))
    awaits("write-both-2-awaited", g)
    takes("write-both-2-1", g, 512, 512)
    asks("write-both-2-rsp", g, good()(g))
    open_ones = [wcmnd(0x01, 0x0170 + n, n, 1) for n in range(8)]
    for h in open_ones:
        sends("write-eight", h, nothing)
    sends("write-ninth", wcmnd(0x01, 0x0178, 8, 1), eight_open(512))
    sends("write-ninth-dl-0", wcmnd(0x01, 0x0178, 8, 1, 0), over(512))  # nothing to take
    sends("write-ninth-read", cmnd(0x01, 0x0178, read(8, 1), 512), eight_open(512))
    sends("write-rrq-open", rrq(0x01, 0x0173), rjt("03,17"))
    asks("write-again-ready", open_ones[3], xfer_rdy(open_ones[3], 0, 512))
    takes("write-again-0", open_ones[3], 0, 256, last=False)
    sends("write-again", open_ones[3], check("0B/4E/00", 512))  # "that exchange ends, 0B/4E/00"
    hands_in_vain("write-again", 11, sent(open_ones[3], 256, news(256, 256)), 3, unit(3, 512))
    asks("write-aborted-ready", open_ones[4], xfer_rdy(open_ones[4], 0, 512))
    sends("write-abts", abts(0x01, 0x0174), ba_acc)
    hands_in_vain("write-aborted", 11, sent(open_ones[4], 0, news(0, 512)), 4, unit(4, 512))
    for name, h, end, reply in (("abort-task-set", open_ones[5], cmnd(0x01, 0x0B02, "", bits=0x00, task=0x02), code("00")),
                                ("clear-task-set", open_ones[5], cmnd(0x01, 0x0B04, "", bits=0x00, task=0x04), code("00")),
                                ("target-reset", open_ones[5], cmnd(0x01, 0x0B20, "", bits=0x00, task=0x20), code("00"))):
        sends("write-" + name, end, reply)
        hands_in_vain("write-" + name, 11, sent(h, 0, news(0, 512)), 5, unit(5, 512))
        sends("write-%s-anew" % name, h, check("06/29/00", 512) if name == "target-reset" else nothing)
    for host, end, reply in ((0x01, prlo(0x01), prlo_acc), (0x02, logo(0x02), acc)):
        h = wcmnd(host, 0x0179, 5, 1)
        if host == 0x02:
            sends("write-attention", test_unit(0x02), check("06/29/00"))
        sends("write-open", h, nothing)
        asks("write-ready", h, xfer_rdy(h, 0, 512))
        sends("write-ends", end, reply)
        hands_in_vain("write-ended", 11, sent(h, 0, news(0, 512)), 5, unit(5, 512))


def write_events():
    """"loop reset marks every login unproven; verification time over ends the unproven ones; power on ends all", with their WRITEs."""
    for name, number in (("time-over", TIME_OVER), ("power-on", POWER_ON)):
        fresh("01", "01", writable=1)
        f = wcmnd(0x01, 0x0181, 30, 1)
        sends("write-open", f, nothing)
        asks("write-ready", f, xfer_rdy(f, 0, 512))
        event("reset", LOOP_RESET)
        hands_in_vain("write-reset", 7, sent(f, 0, news(0, 512)), 30, unit(30, 512))
        event(name, number)
        hands_in_vain("write-" + name, 11, sent(f, 0, news(0, 512)), 30, unit(30, 512))
        sends("write-%s-login" % name, login(0x01), login_acc)
        hands_in_vain("write-%s-login" % name, 11, sent(f, 0, news(0, 512)), 30, unit(30, 512))


def other_frames():
    """With another frame than data the window "is not looked at": the usual answers, and every byte of it as it was."""
    fresh(writable=1)
    lent = unit(7, 1500)
    for name, f, reply in (("plogi", login(0x01), login_acc), ("prli", prli(0x01), prli_acc), ("attention", test_unit(0x01), check("06/29/00")),
                           ("adisc", adisc(0x01), adisc_acc), ("read", cmnd(0x01, 0x0191, read(7, 2), 1024), nothing), ("write", wcmnd(0x01, 0x0192, 7, 2), nothing),
                           ("rrq", rrq(0x01, 0x0191), rjt("03,17")), ("abts", abts(0x01, 0x0191), ba_acc), ("answer", frame(0x01, 0x0191, b"", r_ctl=0x23), nothing),
                           ("logo", logo(0x01), acc), ("no-login", test_unit(0x01), logout)):
        hands("window-" + name, f, 7, lent, reply=reply)
    hands("window-4096", login(0x01), BIG, lent, reply=login_acc, room=4096)
    hands_in_vain("window-room", 1, login(0x01), 7, lent, 2135)
    hands_in_vain("window-no-frame", 3, b"", 7, lent)
    hands_in_vain("window-no-frame-no-bytes", 3, b"")
    hands_in_vain("window-to-another", 4, changed(login(0x01), (3, 0xEE)), 7, lent)


def a_long_write():
    """257 blocks: "for the bytes left, 65,536 at most", bursts of 65,536, 65,536 and 512; and windows of 65,536 bytes and of more."""
    fresh("01", "01", capacity=1000, writable=1)
    f = wcmnd(0x01, 0x01A1, 10, 257)  # 131,584 bytes
    sends("long-write", f, nothing)
    for burst, offset, size in ((0, 0, 65536), (1, 65536, 65536), (2, 131072, 512)):
        asks("long-write-ready-%d" % burst, f, xfer_rdy(f, offset, size))
        for at in range(offset, offset + size, 2048):
            awaits("long-write-awaited-%d" % at, f)
            takes("long-write-%d" % at, f, at, min(2048, offset + size - at), last=at + 2048 >= offset + size, number=(at - offset) // 2048)
    asks("long-write-rsp", f, good()(f))
    asks_in_vain("long-write-freed", 9, 0x01, 0x01A1)
    f = wcmnd(0x01, 0x01A2, 10, 129)  # 66,048 bytes
    lent = unit(10, 65537)
    for name, offset, size, number, window in (("offset", 2052, 4, "03", lent), ("past", 2048, 2112, None, lent)):
        sends("long-fault", f, nothing)
        asks("long-fault-ready", f, xfer_rdy(f, 0, 65536))
        takes("long-fault-first", f, 0, 2048, window=65536, last=False)  # "at most 65,536 bytes"
        first = sent(f, offset, news(offset, size), last=False)
        if number:
            hands("long-fault-" + name, first, 10, window, reply=code(number))  # a wrong offset, and no byte of a window that is too long
        else:
            hands_in_vain("long-window", 10, first, 10, window)
            sends("long-again", f, check("0B/4E/00", 66048))
    for size, number in ((2048, None), (2049, "01")):  # the end of the burst; one byte past it, with three fill bytes, and the command goes on
        sends("long-burst", f, nothing)
        asks("long-burst-ready", f, xfer_rdy(f, 0, 65536))
        for at in range(0, 63488, 2048):
            takes("long-burst-%d" % at, f, at, 2048, last=False)
        hands("long-burst-end", sent(f, 63488, news(63488, size)), 134, unit(134, 2560), None if number else news(63488, size) + unit(134, 2560)[size:],
              reply=code(number) if number else nothing)
        if number:
            asks_in_vain("long-burst-gone", 9, 0x01, 0x01A2)
        else:
            hands("long-burst-early", sent(f, 65536, b""), 138, unit(138, 512))  # nothing more was asked for
            asks("long-burst-next", f, xfer_rdy(f, 65536, 512))
            takes("long-burst-rest", f, 65536, 512)
            hands("long-burst-late", sent(f, 66048, news(66048, 4)), 139, unit(139, 512), reply=code("01"))
    f = wcmnd(0x01, 0x01A3, 0, 1)
    sends("long-open", f, nothing)
    asks_in_vain("long-next-window", 10, 0x01, 0x01A3, 0, bytes(65537))  # it needs no cover, and yet no window is longer
    asks("long-next", f, xfer_rdy(f, 0, 512), BIG, bytes(65536))
    asks_in_vain("long-awaited-window", 10, 0x01, 0x01A3, 0, bytes(65537))
    hands("long-other-frame", test_unit(0x01), 0, unit(0, 65537), reply=good())  # not looked at, not even where it is too long
    hands_in_vain("long-70000", 10, sent(f, 0, news(0, 512)), 0, bytes(70000 - 12 - 536))  # the longest body
    no_call("D-of-70001", "D", lending(sent(f, 0, news(0, 512)), 0, bytes(70001 - 12 - 536)))
    hands_in_vain("long-frame-65535", 3, bytes(65535), 0, bytes(4))  # the longest frame length
    takes("long-kept", f, 0, 512, window=65536)
    asks("long-kept-rsp", f, good()(f))


STORED = (no_drive_yet, setups, no_calls, frame_refusals, next_refusals, a_host, reading, far, many_at_once, events, moved_when_full, moved_both_end, names_apart,
          writing, write_commands, write_refusals, write_faults, empty_data, write_far, many_writes, write_events, other_frames)
LONG = (windows_too_long, a_long_write)  # not in the stored run: a megabyte of windows and bodies


def session(sections):
    """The calls of some sections, in their order."""
    calls.clear()
    for section in sections:
        section()
    return list(calls)


def sample():
    """What a newcomer is shown: a Linux host logs in, pairs, looks at the unit and reads from it."""
    fresh()
    sends("plogi", LIBFC["plogi"], login_acc)
    sends("prli", LIBFC["prli"], prli_acc)
    fetched("inquiry", LIBFC["inquiry"], inquiry_data(), good())
    sends("attention", LIBFC["tur-attention"], check("06/29/00"))
    fetched("capacity", LIBFC["capacity"], capacity_data(), good())
    reads("read", 0x01, 0x0109, 0, 8, 4096, good())
    reads("residual", 0x01, 0x010A, 4, 2, 1001, over(23))
    sends("past-end", cmnd(0x01, 0x010B, read(99, 2), 1024), check("05/21/00", 1024))
    event("reset", LOOP_RESET)
    refused("unproven", 7, test_unit(0x01))
    sends("pdisc", pdisc(0x01), login_acc)
    sends("logo", LIBFC["logo"], acc)
    sends("no-login", test_unit(0x01), logout)
    calls[:] = [one for one in calls if not one.name.endswith("-freed")]  # a refused call changes nothing


def lost():
    """A host keeps to its rules while the loop loses an accept and a LOGO, and is reset in the midst of a READ."""
    fresh()
    sends("plogi", login(0x01), login_acc)
    reply_lost("plogi-acc-lost")
    sends("plogi-again", login(0x01, ox_id=0x0201), login_acc)
    sends("prli", prli(0x01), prli_acc)
    sends("attention", test_unit(0x01), check("06/29/00"))
    f, first, second = cmnd(0x01, 0x0A01, read(40, 8), 4096), unit(40, 2048), unit(44, 2048)
    sends("read", f, nothing)
    asks("read-0", f, data(f, 0, 0, first, False), 40, first)
    event("reset", LOOP_RESET)
    asks_in_vain("unproven", 7, 0x01, 0x0A01, 44, second)
    sends("pdisc", pdisc(0x01), login_acc)
    asks("read-1", f, data(f, 1, 2048, second, True), 44, second)
    asks("read-rsp", f, good()(f))
    lost_on_the_way("logo-lost", logo(0x01))
    sends("logo-again", changed(logo(0x01), (17, 0x01)), acc)


def moved():
    """After a loop reset in the midst of a READ a host comes back at another address; another host stays where it is."""
    fresh("01" "08", "01" "08")
    f = cmnd(0x08, 0x0A01, read(40, 8), 4096)
    sends("read", f, nothing)
    asks("read-0", f, data(f, 0, 0, unit(40, 2048), False), 40, unit(40, 2048))
    event("reset", LOOP_RESET)
    sends("pdisc", pdisc(0x01), login_acc)
    port, node = names_of(0x08)
    sends("plogi-moved", login(0x1B, port=port, node=node), login_acc)
    asks_in_vain("read-ended", 9, 0x08, 0x0A01, 44, unit(44, 2048))
    sends("prli", prli(0x1B), prli_acc)
    sends("attention", test_unit(0x1B), check("06/29/00"))
    reads("read-again", 0x1B, 0x0A01, 40, 8, 4096, good())
    sends("old-address", adisc(0x08), logout)
    sends("other-host", test_unit(0x01), good())
    calls[:] = [one for one in calls if not one.name.endswith("-freed")]  # a refused call changes nothing


def written():
    """A host writes its schedule in two bursts' frames, reads it back, and loses its place in a second WRITE."""
    fresh("01", "01", writable=1)
    f = wcmnd(0x01, 0x0A01, 40, 5, 2500)
    sends("write", f, nothing)
    asks("write-ready", f, xfer_rdy(f, 0, 2500))
    takes("write-0", f, 0, 2048, last=False)
    awaits("write-awaited", f)
    takes("write-1", f, 2048, 452, number=1)
    asks("write-rsp", f, over(60)(f))
    g = cmnd(0x01, 0x0A02, read(40, 1), 512)
    sends("read", g, nothing)
    asks("read-0", g, data(g, 0, 0, news(0, 512), True), 40, news(0, 512))
    asks("read-rsp", g, good()(g))
    h = wcmnd(0x01, 0x0A03, 60, 2)
    sends("write-again", h, nothing)
    asks("write-again-ready", h, xfer_rdy(h, 0, 1024))
    hands("write-again-offset", sent(h, 512, news(512, 512)), 60, unit(60, 1024), reply=code("03"))
    hands_in_vain("write-again-gone", 11, sent(h, 0, news(0, 512)), 60, unit(60, 1024))


SHOWN = {"sample": sample, "lost": lost, "moved": moved, "written": written}  # the sessions of samples/

if __name__ == "__main__":
    part = sys.argv[1] if len(sys.argv) == 2 else ""
    if part not in ("stdin", "stdout", *SHOWN):
        sys.exit(__doc__)
    for one in session((SHOWN[part],) if part in SHOWN else STORED):
        sys.stdout.buffer.write(one.answer if part == "stdout" else one.record)
