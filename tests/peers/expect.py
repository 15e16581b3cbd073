"""What document 01 ("01") and request 2 of document 02 ("02, 2") ask the drive to send to one host, frame by frame, from the host's frames alone.

Only the rules that a Linux host meets are here; what it never sends is told as a fault. The replies are put together by frames.py.
"""
from frames import (acc, ba_acc, ba_rjt, capacity_data, check, code, data, eight_open, good, inquiry_data, login_acc, logout, over, prli_acc, rjt,
                    sense_data, under, xfer_rdy)
from port import Unit, content_of, number

SIZES = {0x03: 116, 0x05: 16, 0x12: 44, 0x20: 20, 0x21: 20, 0x50: 116, 0x52: 28}  # 01: "Codes and payload sizes"
BURST = 65536  # 02, 2: "for the bytes left, 65,536 at most"
LARGEST = 2048  # 01: "A frame carries the login's W18 size, 2,048 at most"; Linux's size is 2,112


class Fault(Exception):
    """The host sent what no Linux host sends, or the drive what 01 does not allow."""


class Sending:
    """An open exchange with bytes for the host: how many, and a function that gives those from one place to another."""

    def __init__(self, f, size, content, response):
        self.f, self.size, self.content, self.response, self.sent, self.number = f, size, content, response, 0, 0

    def over(self):
        return self.sent == self.size

    def next(self):
        end = min(self.sent + LARGEST, self.size)
        reply = data(self.f, self.number, self.sent, self.content(self.sent, end), end == self.size)
        self.sent, self.number = end, self.number + 1
        return reply


class Taking:
    """An open WRITE: how many bytes were received of those it takes, and where the burst ends that was last asked for."""

    def __init__(self, f, size, unit, response):
        self.f, self.size, self.unit, self.response, self.received, self.asked = f, size, unit, response, 0, 0

    def over(self):
        return self.received == self.size

    def next(self):
        """02, 2: "next frames are FCP_XFER_RDY .. for the bytes left, 65,536 at most, nothing while data is awaited"."""
        if self.received < self.asked:
            return b""
        burst = min(self.size - self.received, BURST)
        self.asked = self.received + burst
        return xfer_rdy(self.f, self.received, burst)

    def takes(self, f):
        """02, 2: "A data frame at another offset than the next is answered at once with RSP_CODE 03, else past the burst with 01"; the code, or nothing."""
        offset, content = number(f[20:24]), content_of(f)
        if offset != self.received:
            return "03"
        if offset + len(content) > self.asked:
            return "01"
        self.unit.put(512 * number(self.f[38:42]) + offset, content)
        self.received += len(content)
        return ""


class Expected:
    """The drive's record for the one host: logged in, paired, its attention, its open exchanges."""

    def __init__(self, capacity, writable):
        self.capacity, self.writable, self.unit = capacity, writable, Unit(capacity)
        self.end()

    def end(self):
        self.logged_in, self.paired, self.attention, self.open = False, False, "", {}

    def arrives(self, f):
        """The reply to a frame; nothing where there is none."""
        reply = {0x22: self.service, 0x23: lambda f: None, 0x81: self.abts, 0x06: self.command, 0x01: self.data}[f[0]](f)
        return reply(f) if reply else b""

    def takes(self, f):
        """Whether a frame is data for an open write: 02, 2: "11, data frame for no open write"."""
        return isinstance(self.open.get(number(f[16:18])), Taking)

    def data(self, f):
        """02, 2: it goes "in order into a lent window", or a fault "ends the exchange"."""
        if not self.takes(f):
            raise Fault("data for no open write: " + f.hex())
        fault = self.open[number(f[16:18])].takes(f)
        if fault:
            del self.open[number(f[16:18])]
        return code(fault) if fault else None

    def service(self, f):
        """01: "Order: other code 0B,00; wrong size 03,00; no login (PLOGI and LOGO excepted) a drive LOGO; then"."""
        kind = f[24]
        if kind not in SIZES:
            return rjt("0B,00")
        if len(f) != 24 + SIZES[kind]:
            return rjt("03,00")
        if kind == 0x03:  # Linux's words pass every test
            self.end()
            self.logged_in, self.attention = True, "06/29/00"
            return login_acc
        if kind == 0x05:
            if f[29:32] != f[5:8]:
                return rjt("03,1F")
            self.end()
            return acc
        if not self.logged_in:
            return logout
        if kind == 0x20 and f[25:29] == bytes.fromhex("10001408") and f[30] & 0x20 and f[43] & 0x22 == 0x22:
            self.paired = True
            return prli_acc
        raise Fault("no Linux host sends this: " + f.hex())

    def abts(self, f):
        if not self.logged_in:
            return logout
        if f[18:20] != b"\xff\xff":
            return ba_rjt
        self.open.pop(number(f[16:18]), None)
        return ba_acc

    def command(self, f):
        if not self.paired:
            self.end()
            return logout
        if len(f) != 56 or f[35] & 0x03 == 0x03 or f[34] not in (0x00, 0x20):
            if f[34] in (0x02, 0x04, 0x40, 0x80):
                raise Fault("no Linux host sends this: " + f.hex())
            return code("02")
        if f[34] == 0x20:
            self.attention, self.open = "06/29/00", {}
            return code("00")
        return self.tests(f)

    def tests(self, f):
        """01: "Tests for the rest", in their order."""
        ox_id, dl, cdb, lun = number(f[16:18]), number(f[52:56]), f[36:52], any(f[24:32])
        if self.open.pop(ox_id, None):
            return check("0B/4E/00", dl)
        if cdb[0] not in (0x03, 0x12):
            if lun:
                return check("05/25/00", dl)
            if self.attention:
                told, self.attention = self.attention, ""
                return check(told, dl)
        refused = self.refused(cdb)
        if refused:
            return check(refused, dl)
        wanted, content = self.wanted(cdb, lun)
        response = over(wanted - dl) if wanted > dl else under(dl - wanted) if dl > wanted else good()
        size = min(wanted, dl)
        if size == 0:
            return response
        if not f[35] & (0x01 if cdb[0] == 0x2A else 0x02):  # 02, 2: "test 8 asks the write bit for a write"
            return code("02")
        if len(self.open) == 8:
            return eight_open(dl)
        if cdb[0] == 0x03 and not lun:
            self.attention = ""
        self.open[ox_id] = Taking(f, size, self.unit, response) if cdb[0] == 0x2A else Sending(f, size, content, response)
        return None

    def refused(self, cdb):
        """Tests 4 to 7: the sense of a refused command; 02, 2: "tests 6 and 7 treat WRITE(10) as READ(10)"."""
        if cdb[0] not in (0x00, 0x03, 0x12, 0x25, 0x28, 0x2A):
            return "05/20/00"
        if cdb[0] == 0x2A and not self.writable:
            return "07/27/00"
        if (cdb[0] in (0x12, 0x28, 0x2A) and cdb[1] & 0x01) or (cdb[0] == 0x12 and cdb[2]) or (cdb[0] == 0x25 and (any(cdb[2:6]) or cdb[8] & 0x01)):
            return "05/24/00"
        if cdb[0] in (0x28, 0x2A) and (number(cdb[2:6]) >= self.capacity or number(cdb[2:6]) + number(cdb[7:9]) > self.capacity):
            return "05/21/00"
        return ""

    def wanted(self, cdb, lun):
        """01: "Wanted": how many bytes a command asks for, and what gives them; those of the unit as they are when they are sent."""
        if cdb[0] in (0x28, 0x2A):
            return 512 * number(cdb[7:9]), lambda first, end: self.unit.piece(512 * number(cdb[2:6]) + first, end - first)
        made = {0x00: lambda: b"", 0x03: lambda: sense_data("05/25/00" if lun else self.attention or "00/00/00")[:cdb[4]],
                0x12: lambda: inquiry_data(lun)[:cdb[4]], 0x25: lambda: capacity_data(self.capacity)}[cdb[0]]()
        return len(made), lambda first, end: made[first:end]

    def next(self, ox_id):
        """The next frame of an open exchange; nothing while data is awaited."""
        if ox_id not in self.open:
            raise Fault("a frame of OX_ID %04X, which is not open" % ox_id)
        going = self.open[ox_id]
        if not going.over():
            return going.next()
        del self.open[ox_id]
        return going.response(going.f)


def replies(plan, lines):
    """For each line of a log, what the drive must have sent there: bytes for its own frames, nothing for the others; a Fault where the log cannot be."""
    drive, reply = Expected(plan.capacity, plan.writable), b""
    for kind, words in lines:
        if reply and kind != "drive":
            raise Fault("no reply, where 01 asks for " + reply.hex())
        if kind == "host":
            reply = drive.arrives(bytes.fromhex(words[0]))
            yield b""
        elif kind == "drive":
            right, reply = reply or drive.next(number(bytes.fromhex(words[0])[16:18])), b""
            if not right:
                raise Fault("a frame while data is awaited: " + words[0])
            yield right
        elif kind == "event":
            drive.end()  # power on
            yield b""
        elif kind == "lost":
            yield b""
        elif kind == "waits" and drive.next(int(words[1], 16)) == b"":
            yield b""
        elif kind == "no-next" and int(words[2], 16) not in drive.open and words[0] == "9":
            yield b""
        elif kind == "refused" and words[0] == "11" and words[1][:2] == "01" and not drive.takes(bytes.fromhex(words[1])):
            yield b""
        else:
            raise Fault("%s %s" % (kind, " ".join(words)))
