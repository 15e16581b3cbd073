"""The program recorder on a pipe, and the port chip's part towards it: it lends windows of the unit, knows what is open, and keeps a log of every frame."""
import os
import subprocess
import time

from house import IDENTITY, OWN, TOP, WORDS
from frames import block

ROOM = 2136  # 01: "1 | reply buffer under 2,136 bytes"
WINDOW = 2560  # five blocks hold 2,048 bytes from any byte of the first on
FOR_DATA = 3072  # and six the 2,112 that a frame of the host may have
POWER_ON = 3


class Recorder:
    """The drive itself: a record to its standard input, its answer from the standard output."""

    def __init__(self, capacity, writable):
        self.ran = subprocess.Popen([os.path.join(TOP, "bin", "recorder")], stdin=subprocess.PIPE, stdout=subprocess.PIPE)
        number, _ = self.ask(b"S", capacity.to_bytes(8, "big") + bytes(1) + OWN + IDENTITY + WORDS + bytes([writable]))
        if number:
            raise RuntimeError("the setup is refused with %d" % number)

    def take(self, size):
        got = self.ran.stdout.read(size)
        if len(got) < size:
            raise RuntimeError("the recorder has ended")
        return got

    def ask(self, letter, body):
        """The refusal's number, 0 for none, and the reply."""
        self.ran.stdin.write(letter + len(body).to_bytes(4, "big") + body)
        self.ran.stdin.flush()
        head = self.take(3)
        reply = self.take(int.from_bytes(head[1:], "big"))
        if self.take(1) != b"\x01":
            raise RuntimeError("a lent byte past the reply was changed")
        return head[0], reply

    def frame(self, f):
        return self.ask(b"F", ROOM.to_bytes(2, "big") + f)

    def data(self, f, start, window):
        """A frame with a window: after the usual answer the window as it is then."""
        answer = self.ask(b"D", ROOM.to_bytes(2, "big") + start.to_bytes(8, "big") + len(f).to_bytes(2, "big") + f + window)
        return answer + (self.take(len(window)),)

    def next(self, address, ox_id, start, window):
        return self.ask(b"N", address.to_bytes(4, "big") + ox_id.to_bytes(2, "big") + ROOM.to_bytes(2, "big") + start.to_bytes(8, "big") + window)

    def event(self, number):
        self.ask(b"E", bytes([number]))

    def close(self):
        self.ran.stdin.close()
        return self.ran.wait(20)


class Unit:
    """The bytes of the unit: what was stored, and elsewhere those of frames.py, so that a large unit takes no more room than its written blocks."""

    def __init__(self, capacity):
        self.capacity, self.stored = capacity, {}

    def read(self, start, size):
        """Bytes from a block on; past the last block any will do."""
        return b"".join(self.stored.get(n) or block(n) for n in range(start, start + -(-size // 512)))[:size]

    def write(self, start, content):
        """Whole blocks from this one on; past the last block nothing is stored."""
        for n in range(start, min(start + len(content) // 512, self.capacity)):
            self.stored[n] = content[512 * (n - start):512 * (n - start + 1)]

    def piece(self, place, size):
        """Bytes from a byte of the unit on."""
        start, at = divmod(place, 512)
        return self.read(start, at + size)[at:]

    def put(self, place, content):
        """Stores bytes from a byte of the unit on."""
        start, at = divmod(place, 512)
        window = self.read(start, -(-(at + len(content)) // 512) * 512)
        self.write(start, window[:at] + content + window[at + len(content):])

    def changed(self):
        """The blocks that are not as they were at first."""
        return {n for n, content in self.stored.items() if content != block(n)}


def number(field):
    return int.from_bytes(field, "big")


def is_read(f):
    """Whether a frame is a READ(10)."""
    return f[0] == 0x06 and len(f) == 56 and f[34] == 0 and f[36] == 0x28


def is_write(f):
    """Whether a frame is a WRITE(10)."""
    return f[0] == 0x06 and len(f) == 56 and f[34] == 0 and f[36] == 0x2A


def blocks(f):
    """The first block of a READ(10) or WRITE(10), and how many."""
    return number(f[38:42]), number(f[43:45])


def content_of(f):
    """The data of an FCP_DATA, without its fill."""
    return f[24:len(f) - f[11] % 4]


def with_data(window, f):
    """A window that begins with the block of a data frame's first byte, after the data is in it."""
    at, content = number(f[20:24]) % 512, content_of(f)
    return window[:at] + content + window[at + len(content):]


class Open:
    """What the port knows of an open exchange: the first block of a READ or WRITE, the bytes sent so far, and whether the drive waits for data."""

    def __init__(self, f):
        self.first = blocks(f)[0] if is_read(f) or is_write(f) else 0
        self.writes, self.sent, self.waits = is_write(f), 0, False


def lend(unit, first, start):
    """The window from block start on, for a READ from block first on."""
    return unit.read(start, WINDOW)


def keep(unit, first, start, window, f):
    """Puts a window back, from block start on, into which the data of the frame f went, of a WRITE from block first on."""
    unit.write(start, window)


class Port:
    """Hands frames to the drive and fetches its next ones. Each line of the log: the time, what it is, its words."""

    def __init__(self, capacity, writable=0, lend=lend, keep=keep, drive=Recorder):
        self.drive, self.unit, self.lend, self.keep = drive(capacity, writable), Unit(capacity), lend, keep
        self.open = {}  # by address and OX_ID
        self.log = []

    def note(self, *words):
        self.log.append((time.time(),) + words)

    def arrives(self, f):
        """A frame from the host, and the reply to it: nothing where there is none."""
        exchange = number(f[5:8]), number(f[16:18])
        going = self.open.get(exchange)
        if going:
            going.waits = False  # its data, or its end
        data_of_write = f[0] == 0x01 and going and going.writes
        refusal, reply = self.stores(f, going.first) if data_of_write else self.drive.frame(f)
        if refusal:
            self.note("refused", str(refusal), f.hex())
            return b""
        self.note("host", f.hex())
        if reply:
            self.note("drive", reply.hex())
            if data_of_write:
                del self.open[exchange]  # a fault ends it
        elif f[0] == 0x06:
            self.open[exchange] = Open(f)
        return reply

    def stores(self, f, first):
        """A data frame of a WRITE from this block on, with the window that its bytes go to, which is put back: no other byte of it may change."""
        start = first + number(f[20:24]) // 512
        lent = self.unit.read(start, FOR_DATA)
        refusal, reply, after = self.drive.data(f, start, lent)
        if after != (lent if refusal or reply else with_data(lent, f)):
            raise RuntimeError("the window is not as it was with the data in it")
        if not refusal and not reply:
            self.keep(self.unit, first, start, after, f)
        return refusal, reply

    def next(self, exchange):
        """The next frame of an open exchange; nothing where the drive has none, for then it waits for data or has ended."""
        going = self.open[exchange]
        start = going.first + going.sent // 512
        refusal, f = self.drive.next(*exchange, start, self.lend(self.unit, going.first, start))
        if refusal:
            self.note("no-next", str(refusal), "%06x" % exchange[0], "%04x" % exchange[1])
            del self.open[exchange]
            return b""
        if not f:
            self.note("waits", "%06x" % exchange[0], "%04x" % exchange[1])
            going.waits = True
            return b""
        self.note("drive", f.hex())
        if f[0] == 0x07:
            del self.open[exchange]
        elif f[0] == 0x01:
            going.sent = number(f[20:24]) + len(f) - 24
        return f

    def power_on(self):
        self.drive.event(POWER_ON)
        self.note("event", str(POWER_ON))

    def save(self, path):
        with open(path, "w", encoding="ascii") as out:
            for when, *words in self.log:
                out.write("%.6f %s\n" % (when, " ".join(words)))


def saved(path):
    """The lines of a log: the time, and the words after it."""
    with open(path, encoding="ascii") as lines:
        return [(float(line.split()[0]), line.split()[1:]) for line in lines]
