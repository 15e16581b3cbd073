"""What is judged of a run with a Linux host: what the guest said, and the frames."""
import hashlib

from house import NODE_NAME, OWN, PORT_NAME
from frames import inquiry_data, login, ox_of, prli, sender, sent, test_unit, unit, wcmnd
from plans import BOUNDARY, BURST, text
from port import Port, Recorder, Unit, blocks, is_read, is_write, number

PLOGI, PRLI, LOGO, REC, RRQ = 0x03, 0x20, 0x05, 0x13, 0x12
ACC, REJECTED = bytes.fromhex("02000000"), "0100000000%s00"


def md5(data):
    return hashlib.md5(data).hexdigest()


class Seen:
    """A run's lines in their order, each a kind and a frame's bytes or words, the guest's words by name, and the unit at the end."""

    def __init__(self, said, log, unit):
        self.said, self.unit = said, unit
        self.lines = [(words[0], bytes.fromhex(words[1]) if words[0] in ("host", "drive") else words[1:]) for _, words in log]

    def places(self, test):
        """Where the frames are that pass a test."""
        return [n for n, (kind, f) in enumerate(self.lines) if kind in ("host", "drive") and test(kind, f)]

    def services(self, code):
        return self.places(lambda kind, f: kind == "host" and f[0] == 0x22 and f[24] == code)

    def reads(self, block):
        """The READs from this block on."""
        return self.places(lambda kind, f: kind == "host" and is_read(f) and blocks(f)[0] == block)

    def writes(self, block=None):
        """The WRITEs, or those from this block on."""
        return self.places(lambda kind, f: kind == "host" and is_write(f) and block in (None, blocks(f)[0]))

    def bursts(self, place):
        """Offset and length in each XFER_RDY of a WRITE."""
        ox_id, found = self.lines[place][1][16:18], []
        for kind, f in self.lines[place + 1:]:
            if kind in ("host", "drive") and f[16:18] == ox_id:
                if f[0] in (0x06, 0x07, 0x81):
                    break
                found += [(number(f[24:28]), number(f[28:32]))] if f[0] == 0x05 else []
        return found

    def events(self):
        return [n for n, (kind, _) in enumerate(self.lines) if kind == "event"]

    def reply(self, place):
        """What the drive answers at once: nothing where it does not."""
        kind, f = self.lines[place + 1] if place + 1 < len(self.lines) else ("", b"")
        return f if kind == "drive" else b""

    def response(self, place):
        """Flags and status of a command's FCP_RSP; nothing where the OX_ID is used again before it."""
        ox_id = self.lines[place][1][16:18]
        for kind, f in self.lines[place + 1:]:
            if kind in ("host", "drive") and f[16:18] == ox_id and f[0] in (0x06, 0x07):
                return f[34:36] if f[0] == 0x07 else b""
        return b""


def brought(checks, seen, name, wanted):
    """A copy ended without an error, and every byte of it is right."""
    said = seen.said.get(name, "")
    checks.check("%s: dd ends with 0 and md5 %s, and not %s" % (name, md5(wanted), said), said == "0 " + md5(wanted))


def says(checks, seen, name, *parts):
    """The guest's words of this name have each of these parts."""
    said = " ".join(seen.said.get(name, "").split())
    for part in parts:
        checks.check("%s: %r in %r" % (name, part, said), part in said)


def common(checks, seen, plan):
    """The host logged in, paired, scanned and found the unit, and in the end logged out."""
    for name, wanted in (("rport.port_id", "0x" + OWN.hex()), ("rport.port_name", "0x" + PORT_NAME.hex()), ("rport.node_name", "0x" + NODE_NAME.hex()),
                         ("rport.port_state", "Online"), ("rport.roles", "FCP Target"), ("rport.maxframe_size", "2112 bytes"),
                         ("rport.supported_classes", "Class 3"), ("unit.vendor", "HOUSE"), ("unit.model", "SHOT RECORDER"), ("unit.rev", "0001"),
                         ("unit.scsi_level", "3"), ("unit.type", "0"), ("units", "1"), ("size", str(plan.capacity))):
        checks.check("%s is %s, and not %s" % (name, wanted, seen.said.get(name)), seen.said.get(name) == wanted)
    checks.check("every module loads, and the guest comes to its end", "failed" not in seen.said and "done" in seen.said)
    first = [seen.lines[n][1][24] for n in seen.places(lambda kind, f: kind == "host" and f[0] == 0x22)[:2]]
    checks.check("the first requests are PLOGI and PRLI, and not %s" % first, first == [PLOGI, PRLI])
    for place in seen.services(PLOGI) + seen.services(PRLI):
        checks.check("line %d, PLOGI or PRLI: ACC" % place, seen.reply(place)[24:25] == b"\x02")
    ends = seen.services(LOGO)[-1:]
    checks.check("the last request is a LOGO, and its ACC the last frame", ends == [len(seen.lines) - 2] and seen.reply(ends[0])[24:] == ACC)


def refusals(checks, seen, planned, data=0):
    """Every refusal is shown with its number: 01 has none for a frame of these hosts but 11 for data after a fault (02, 2), and 9 for a next frame of
    an exchange that was ended."""
    nexts, frames = [], []
    for kind, words in seen.lines:
        if kind == "refused":
            frames.append(words[0] + " " + words[1][:2])
            if frames[-1] != "11 01" or len(frames) > data:
                print("refused %s: %s" % (words[0], words[1][:160]))
        elif kind == "no-next":
            nexts.append(words[0])
            print("refused %s%s: the next frame of %s, OX_ID %s" % (words[0], ", as planned" if words[0] == "9" else "", words[1], words[2]))
    checks.check("data frames refused with 11: %d, no other frame is refused, and not %s" % (data, frames), frames == ["11 01"] * data)
    checks.check("next frames refused with 9: %d, and not %s" % (planned, nexts), nexts == ["9"] * planned)


def plain(checks, seen, plan):
    brought(checks, seen, "whole", unit(0, 512 * plan.capacity))
    brought(checks, seen, "last", unit(4088, 4096))
    brought(checks, seen, "again", unit(0, 65536))
    says(checks, seen, "inquiry", "PQual=0 PDT=0 RMB=0", "version=0x02 [SCSI-2]", "Resp_data_format=2", "CmdQue=1", "length=36 (0x24)", "device type: disk",
         "Vendor identification: HOUSE", "Product identification: SHOT RECORDER", "Product revision level: 0001")
    says(checks, seen, "capacity", "Last LBA=4095 (0xfff), Number of logical blocks=4096", "Logical block length=512 bytes")
    checks.check("TEST UNIT READY is good", seen.said.get("ready") == "0")
    says(checks, seen, "sense", "Sense key: No Sense Additional sense: No additional sense information")
    says(checks, seen, "luns", "Illegal request, Invalid opcode")
    for name, key, words in (("past-end", "Illegal Request", "Logical block address out of range"), ("inquiry-page", "Illegal Request", "Invalid field in cdb"),
                             ("write-sense", "Data Protect", "Write protected")):
        says(checks, seen, name, "SCSI Status: Check Condition", "Sense key: %s Additional sense: %s" % (key, words))
    for name, wanted in (("at-end", unit(4095, 512)), ("long-dl", unit(0, 1024) + bytes(1024)), ("inquiry-35", inquiry_data()[:35])):
        says(checks, seen, name, "SCSI Status: Good", md5(wanted))
    checks.check("a write through the cache fails", seen.said.get("write") == "1" and int(seen.said.get("errors", "0")) > 0)
    checks.check("the LUN reset, which the drive does not do, makes the host log in once more", len(seen.services(PLOGI)) == 2)
    said = seen.said.get("control")
    checks.check("control: windows of a block too far give another md5", said == "0 " + md5(unit(plan.wrong + 1, 4096)) != "0 " + md5(unit(plan.wrong, 4096)))
    refusals(checks, seen, 0)


def many(checks, seen, plan):
    for reader in range(plan.readers):
        brought(checks, seen, "reader-%d" % reader, unit(plan.first(reader), 4 * 32768))
    brought(checks, seen, "end", unit(plan.capacity - 8, 4096))
    checks.check("a READ goes across block 8,388,608", seen.places(lambda kind, f: kind == "host" and is_read(f) and blocks(f)[0] < BOUNDARY < sum(blocks(f))) != [])
    going, most, turns, last = set(), 0, 0, b""
    for _, f in (seen.lines[n] for n in seen.places(lambda kind, f: f[0] in (0x06, 0x01, 0x07))):
        if f[0] == 0x01:
            going.add(f[16:18])
            turns, last = turns + (last not in (b"", f[16:18])), f[16:18]
        elif f[0] == 0x07:
            going.discard(f[16:18])
        most = max(most, len(going))
    checks.check("eight exchanges in the middle of their data at once, and not %d" % most, most == 8)
    checks.check("their frames come in turn: another exchange's %d times" % turns, turns > 500)
    checks.check("a ninth is told TASK SET FULL", seen.places(lambda kind, f: f[0] == 0x07 and f[35] == 0x28) != [])
    checks.check("no error, and one login", seen.said.get("errors") == "0" and len(seen.services(PLOGI)) == 1)
    refusals(checks, seen, 0)


def abort(checks, seen, plan):
    brought(checks, seen, "aborted", unit(plan.block, 4096))
    brought(checks, seen, "after", unit(0, 65536))
    reads, ends = seen.reads(plan.block), seen.places(lambda kind, f: f[0] == 0x81)
    checks.check("the READ is sent twice, and between them one ABTS", len(reads) == 2 and len(ends) == 1 and reads[0] < ends[0] < reads[1])
    if len(reads) == 2 and len(ends) == 1:
        aborted, reply = seen.lines[reads[0]][1], seen.reply(ends[0])
        checks.check("one data frame of it was sent", seen.reply(reads[0])[:1] == b"\x01")
        checks.check("the ABTS is of its OX_ID", seen.lines[ends[0]][1][16:18] == aborted[16:18])
        checks.check("it is answered BA_ACC", reply[:1] == b"\x84" and reply[24:] == bytes(4) + aborted[16:18] + bytes.fromhex("FFFF0000FFFF"))
        checks.check("the aborted READ has no FCP_RSP, its repetition status 00h", [seen.response(n) for n in reads] == [b"", bytes(2)])
    for name, code, pair in (("REC", REC, "0B00"), ("RRQ of 12 bytes", RRQ, "0300")):
        answers = [seen.reply(n)[24:] for n in seen.services(code)]
        checks.check("%s is answered LS_RJT %s: %s" % (name, pair, answers), answers == [bytes.fromhex(REJECTED % pair)])
    checks.check("no error, and one login", seen.said.get("errors") == "0" and len(seen.services(PLOGI)) == 1)
    refusals(checks, seen, 1)


def power(checks, seen, plan):
    brought(checks, seen, "whole", unit(0, 512 * plan.capacity))
    brought(checks, seen, "again", unit(0, 65536))
    checks.check("no error is seen by the reader", seen.said.get("errors") == "0" and seen.said.get("rport.state") == "Online")
    checks.check("power on twice", len(seen.events()) == 2)
    for place, asked in zip(seen.events(), (lambda f: is_read(f) and blocks(f)[0] == plan.before, lambda f: f[0] == 0x81)):
        logouts = [n for n in seen.places(lambda kind, f: kind == "drive" and f[0] == 0x22 and f[24] == LOGO) if n > place]
        logins = [n for n in seen.services(PLOGI) if n > place]
        checks.check("the drive logs the host out, as the answer to the READ or the ABTS after it", logouts != [] and asked(seen.lines[logouts[0] - 1][1]))
        checks.check("and the host logs in again", logouts != [] and logins != [] and logouts[0] < logins[0])
    for block in (plan.before, plan.between):
        checks.check("the READ from block %d is sent again, and the last time good" % block,
                     len(seen.reads(block)) > 1 and seen.response(seen.reads(block)[-1]) == bytes(2))
    refusals(checks, seen, 1)


def wrote(checks, seen, name, content):
    """A text was put without an error, and it is this one."""
    said = seen.said.get(name + ".put", "")
    checks.check("%s: dd ends with 0 and md5 %s is written, and not %s" % (name, md5(content), said), said == "0 " + md5(content))


def stored(checks, seen, wanted):
    """The port has the wanted bytes: each written block, and no other is changed."""
    changed = wanted.changed()
    checks.check("the blocks that changed are those that were written", seen.unit.changed() == changed != set())
    checks.check("each of them holds what was written", all(seen.unit.read(n, 512) == wanted.read(n, 512) for n in changed))


def in_bursts(checks, seen, planned=()):
    """Every WRITE with data, but those that the plan breaks off, is asked for its bytes in bursts of 65,536 at most, and ends with status 00h."""
    longest = 0
    for place in seen.writes():
        f = seen.lines[place][1]
        size = min(512 * blocks(f)[1], number(f[52:56]))
        if place in planned or seen.response(place)[1:] in (b"\x02", b"\x28") or size == 0:
            continue
        wanted = [(offset, min(size - offset, BURST)) for offset in range(0, size, BURST)]
        longest = max(longest, len(wanted))
        checks.check("line %d, WRITE: XFER_RDY %s, and not %s" % (place, wanted, seen.bursts(place)), seen.bursts(place) == wanted)
        checks.check("line %d, WRITE: status 00h" % place, seen.response(place)[1:] == bytes(1))
    checks.check("there is a WRITE of more than one burst", longest > 1)


def read_back(checks, seen, wanted):
    """Each written block is read from the drive after it was last written."""
    writes, reads = {}, {}
    taken = [n for n in seen.writes() if seen.bursts(n)]  # and not refused
    for found, places in ((writes, taken), (reads, seen.places(lambda kind, f: kind == "host" and is_read(f)))):
        for place in places:
            first, count = blocks(seen.lines[place][1])
            found.update(dict.fromkeys(range(first, first + count), place))
    checks.check("each written block is read after it was last written", all(writes.get(n, 0) < reads.get(n, 0) for n in wanted.changed()))


class OneByteOn(Recorder):
    """A drive that stores data one byte on."""

    def data(self, f, start, window):
        refusal, reply, after = super().data(f, start, window)
        return refusal, reply, window[:1] + after[:-1]


class OneByteMore(Recorder):
    """A drive that changes the byte after the data."""

    def data(self, f, start, window):
        refusal, reply, after = super().data(f, start, window)
        at = len(f) - 24
        return refusal, reply, after[:at] + bytes([after[at] ^ 1]) + after[at + 1:]


def takes(drive):
    """Whether the port is content with what a drive does to a window."""
    port, f = Port(100, 1, drive=drive), wcmnd(0x01, 0x0101, 5, 1)
    for request in (login(0x01), prli(0x01), test_unit(0x01), f):
        port.arrives(request)
    port.next((sender(f), ox_of(f)))
    try:
        port.arrives(sent(f, 0, text(1000000, 512)))
    except RuntimeError:
        return False
    finally:
        port.drive.close()
    return port.unit.read(5, 512) == text(1000000, 512)


def write(checks, seen, plan):
    wanted = Unit(plan.capacity)
    for name, (first, front, size) in plan.puts.items():
        wrote(checks, seen, name, text(front, size))
        wanted.put(512 * first, text(front, size))
        brought(checks, seen, name, wanted.read(4088, 4096) if name == "end" else text(front, size))
    for first, front, size in plan.raws.values():
        wanted.put(512 * first, text(front, size))
    for name, flag in (("short-dl", b"\x04"), ("long-dl", b"\x08")):
        says(checks, seen, name + ".put", "SCSI Status: Good")
        places = seen.writes(plan.raws[name][0])
        checks.check("%s: flag %sh in its FCP_RSP" % (name, flag.hex()), len(places) == 1 and seen.response(places[0]) == flag + bytes(1))
    says(checks, seen, "past-end.put", "SCSI Status: Check Condition", "Sense key: Illegal Request Additional sense: Logical block address out of range")
    says(checks, seen, "no-blocks.put", "SCSI Status: Good")
    brought(checks, seen, "raws", wanted.read(16, 8192))
    in_bursts(checks, seen)
    read_back(checks, seen, wanted)
    content = text(*plan.control)
    wrote(checks, seen, "control", content)
    wanted.put(512 * plan.wrong + 1, content)
    said = seen.said.get("control")
    checks.check("control: a WRITE stored one byte on gives another md5", said == "0 " + md5(wanted.read(plan.wrong, 4096)) != "0 " + md5(content))
    stored(checks, seen, wanted)
    said = seen.said.get("whole.put")
    checks.check("the unit's bytes in the port have the md5 of what was written, %s" % said, said == "0 " + md5(plan.whole))
    checks.check("control: the port tells data that is stored one byte on, and a byte after the data that is changed",
                 takes(Recorder) and not takes(OneByteOn) and not takes(OneByteMore))
    checks.check("no error, and one login", seen.said.get("errors") == "0" and len(seen.services(PLOGI)) == 1)
    refusals(checks, seen, 0)


def writers(checks, seen, plan):
    wanted = Unit(plan.capacity)
    for writer in range(plan.writers):
        content = text(plan.number(writer), plan.size)
        wrote(checks, seen, "writer-%d" % writer, content)
        brought(checks, seen, "writer-%d" % writer, content)
        wanted.put(512 * plan.first(writer), content)
    for reader in range(plan.readers):
        brought(checks, seen, "reader-%d" % reader, unit(plan.read_from(reader), 4 * 32768))
    stored(checks, seen, wanted)
    in_bursts(checks, seen)
    read_back(checks, seen, wanted)
    checks.check("a WRITE goes across block 8,388,608", any(blocks(seen.lines[n][1])[0] < BOUNDARY < sum(blocks(seen.lines[n][1])) for n in seen.writes()))
    writing, going, most, mixed, turns, last = set(), set(), 0, 0, 0, b""
    for kind, f in (seen.lines[n] for n in seen.places(lambda kind, f: f[0] in (0x01, 0x05, 0x07))):
        if f[0] == 0x07:
            going.discard(f[16:18])
            writing.discard(f[16:18])
        else:
            going.add(f[16:18])
            if f[0] == 0x05:
                writing.add(f[16:18])
                turns, last = turns + (last not in (b"", f[16:18])), f[16:18]
        most, mixed = max(most, len(going)), max(mixed, len(writing) * (len(going) > len(writing)))
    checks.check("eight exchanges in the middle of their data at once, and not %d" % most, most == 8)
    checks.check("WRITEs beside a READ in the middle of its data: two and more at once, and not %d" % mixed, mixed > 1)
    checks.check("their bursts come in turn: another WRITE's %d times" % turns, turns > 32)
    checks.check("a ninth is told TASK SET FULL", seen.places(lambda kind, f: f[0] == 0x07 and f[35] == 0x28) != [])
    checks.check("no error, and one login", seen.said.get("errors") == "0" and len(seen.services(PLOGI)) == 1)
    refusals(checks, seen, 0)


def write_abort(checks, seen, plan):
    wanted = Unit(plan.capacity)
    ends = seen.places(lambda kind, f: f[0] == 0x81)
    firsts = []
    for name, (first, front, reached) in plan.writes.items():
        content, before = text(front, plan.size), unit(first, plan.size)
        wrote(checks, seen, name, content)
        half = content[:reached] + before[reached:]
        checks.check("%s: when it ends, %d bytes are stored, and the others are as before" % (name, reached), plan.half.get(name) == half != before)
        places = seen.writes(first)
        firsts += places[:1]
        again = len(places) == 2
        wanted.put(512 * first, content if again else half)
        brought(checks, seen, name, content if again else half)
        if name == "hole":
            told = places != [] and fault_of(seen, places[0])
            checks.check("hole: the next data frame after it is answered with RSP_CODE 03", told == "03")
            if not again:
                print("Linux takes a WRITE that was answered with RSP_CODE 03 for written: dd's status is %s" % seen.said.get("hole.put", "")[:1])
            continue
        between = [n for n in ends if again and places[0] < n < places[1]]
        checks.check("%s: the WRITE is sent twice, and between them one ABTS" % name, again and len(between) == 1)
        if again and len(between) == 1:
            aborted, reply = seen.lines[places[0]][1], seen.reply(between[0])
            checks.check("%s: one XFER_RDY before it" % name, seen.bursts(places[0]) == [(0, BURST)])
            checks.check("%s: the ABTS is of its OX_ID, and answered BA_ACC" % name, seen.lines[between[0]][1][16:18] == aborted[16:18]
                         and reply[:1] == b"\x84" and reply[24:] == bytes(4) + aborted[16:18] + bytes.fromhex("FFFF0000FFFF"))
            checks.check("%s: it has no FCP_RSP, its repetition status 00h" % name, [seen.response(n) for n in places] == [b"", bytes(2)])
    checks.check("two data frames are lost", [words[0][:2] for kind, words in seen.lines if kind == "lost"] == ["01"] * 2)
    in_bursts(checks, seen, firsts)
    stored(checks, seen, wanted)
    brought(checks, seen, "after", unit(0, 65536))
    answers = [seen.reply(n)[24:] for n in seen.services(RRQ)]
    checks.check("each RRQ of 12 bytes is answered LS_RJT 0300: %s" % answers, answers == [bytes.fromhex(REJECTED % "0300")] * 2)
    checks.check("no error, and one login", seen.said.get("errors") == "0" and len(seen.services(PLOGI)) == 1)
    refusals(checks, seen, 2, (plan.size - plan.writes["hole"][2]) // 2048 - 2)  # but the one that is lost and the one that tells it


def fault_of(seen, place):
    """The RSP_CODE in a command's FCP_RSP."""
    ox_id = seen.lines[place][1][16:18]
    found = [f for kind, f in seen.lines[place + 1:] if kind == "drive" and f[0] == 0x07 and f[16:18] == ox_id]
    return found[0][51:52].hex() if found and found[0][34] == 0x01 else ""


def read_only(checks, seen, plan):
    for name in ("cached", "direct"):
        checks.check("%s: a write fails" % name, seen.said.get(name + ".put", "").startswith("1 "))
    for name in ("raw.put", "raw-none.put"):
        says(checks, seen, name, "SCSI Status: Check Condition", "Sense key: Data Protect Additional sense: Write protected")
    checks.check("the kernel tells both writes as write protected, and not %s" % seen.said.get("protected"), seen.said.get("protected") == "2")
    brought(checks, seen, "whole", unit(0, 512 * plan.capacity))
    answers = [(seen.reply(n)[35:36], seen.reply(n)[50:51], seen.reply(n)[60:62]) for n in seen.writes()]
    checks.check("every WRITE is answered 07/27/00: %s" % answers, len(answers) >= 4 and set(answers) == {(b"\x02", b"\x07", bytes.fromhex("2700"))})
    checks.check("no XFER_RDY is sent, and no data of the host comes", seen.places(lambda kind, f: f[0] == 0x05 or (kind == "host" and f[0] == 0x01)) == [])
    checks.check("nothing is stored", seen.unit.stored == {})
    checks.check("one login", len(seen.services(PLOGI)) == 1)
    refusals(checks, seen, 0)


RUNS = {"plain": plain, "many": many, "abort": abort, "power": power, "write": write, "writers": writers, "write-abort": write_abort, "read-only": read_only}


def judge(name, checks, seen, plan):
    common(checks, seen, plan)
    RUNS[name](checks, seen, plan)
