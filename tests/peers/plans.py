"""What happens to the drive in each run with a Linux host."""
import port as chip
from port import blocks, content_of, is_read, is_write, number

BOUNDARY = 8388608  # 01: "block 8,388,608 is byte 4,294,967,296"
BURST = 65536  # 02, 2: "for the bytes left, 65,536 at most"


def exchange_of(f):
    return number(f[5:8]), number(f[16:18])


def text(first, size):
    """What the guest writes: the numbers from this one on, of seven digits, each on a line, so that no eight bytes can stand for others unseen."""
    return b"".join(b"%d\n" % n for n in range(first, first + -(-size // 8)))[:size]


class Plan:
    """A run in which nothing special happens."""

    capacity, writable = 4096, 0
    patience = 0.0  # seconds without a frame of the host before the drive's data goes on

    def arriving(self, f, port):
        """Before a frame of the host goes to the drive."""

    def serving(self, exchange, port):
        """Before the next frame of an exchange is asked for."""

    def held(self, exchange):
        """Whether an exchange's next frame has to wait."""
        return False

    def lost(self, f):
        """Whether a frame of the host is lost on its way to the drive."""
        return False

    def lend(self, unit, first, start):
        return chip.lend(unit, first, start)

    def keep(self, unit, first, start, window, f):
        chip.keep(unit, first, start, window, f)


class Plain(Plan):
    """The whole unit, and what sg3-utils sees of it in the guest; at the end, as a control, a READ with windows of a block too far."""

    wrong = 3072

    def __init__(self):
        self.armed = False

    def arriving(self, f, port):
        self.armed = self.armed or (is_read(f) and blocks(f) == (self.wrong, 8))  # all other READs there are longer

    def lend(self, unit, first, start):
        return chip.lend(unit, first, start + 1 if self.armed and first == self.wrong else start)


class Many(Plan):
    """Readers at once on a unit that goes past block 8,388,608; the drive is slow, so that many exchanges are open and their frames come in turn."""

    capacity, patience, readers = BOUNDARY + 2048, 0.03, 16

    def first(self, reader):
        """The first of a reader's 256 blocks: half of them at the front, half round the boundary."""
        return reader * 256 if reader < 8 else BOUNDARY - 1056 + (reader - 8) * 256


class Abort(Plan):
    """A READ whose second frame is held back until its ABTS."""

    block = 2048

    def __init__(self):
        self.holding, self.begun = None, False

    def arriving(self, f, port):
        if self.holding is None and is_read(f) and blocks(f)[0] == self.block:
            self.holding = exchange_of(f)
        elif f[0] == 0x81 and exchange_of(f) == self.holding:
            self.holding = ()

    def serving(self, exchange, port):
        self.begun = self.begun or exchange == self.holding

    def held(self, exchange):
        return self.begun and exchange == self.holding


class Power(Plan):
    """Power on just before a READ, and later between two frames of another."""

    before, between = 1024, 2048

    def __init__(self):
        self.still, self.watched = {self.before, self.between}, None

    def arriving(self, f, port):
        first = blocks(f)[0] if is_read(f) else None
        if first in self.still:
            self.still.remove(first)
            if first == self.before:
                port.power_on()
            else:
                self.watched = exchange_of(f)

    def serving(self, exchange, port):
        if exchange == self.watched and port.open[exchange].sent > 0:
            self.watched = None
            port.power_on()


class Write(Plan):
    """The whole unit is written, then parts of it in other ways; at the end, as a control, a WRITE that is stored one byte on."""

    writable, wrong = 1, 3072
    # by name: the first block, the first number of the text, its bytes
    puts = {"whole": (0, 1000000, 2097152), "direct": (1024, 3000000, 1048576), "end": (4095, 4000000, 512)}
    raws = {"short-dl": (16, 5000000, 1001), "long-dl": (24, 6000000, 1024)}  # two blocks of which FCP_DL is 1,001, and two where it is 2,048
    control = 7000000, 4096  # no other text has a number that begins with 7

    def __init__(self):
        self.whole = b""  # the unit when the second text begins to come

    def arriving(self, f, port):
        if f[0] == 0x01 and content_of(f).startswith(text(self.puts["direct"][1], 8)):
            self.whole = port.unit.read(0, 512 * self.capacity)

    def keep(self, unit, first, start, window, f):
        if content_of(f).startswith(b"7"):
            unit.put(512 * first + number(f[20:24]) + 1, content_of(f))
        else:
            super().keep(unit, first, start, window, f)


class Writers(Plan):
    """Writers at once, each of 256 KiB at a place of its own, and readers between them, on a unit that goes past block 8,388,608; the drive is slow."""

    capacity, writable, patience, writers, readers, size = BOUNDARY + 2048, 1, 0.03, 16, 8, 262144

    def first(self, writer):
        """The first of a writer's 512 blocks: half of them at the front, half round the boundary."""
        return writer * 512 if writer < 8 else BOUNDARY - 2080 + (writer - 8) * 512

    def number(self, writer):
        return 1000000 + 100000 * writer

    def arriving(self, f, port):
        if is_read(f) and blocks(f)[1] == 128:
            self.patience = 0.0  # the readers between the writers ask for 64 blocks: these are what was written

    def read_from(self, reader):
        """The first of a reader's 256 blocks, which nobody writes."""
        return 8192 + reader * 256


class WriteAbort(Plan):
    """WRITEs of two bursts that come to half: the second XFER_RDY of one is held back until its ABTS; of another the last data frame of the first burst
    is lost, so that the drive waits, and Linux too; of a third one in the middle of the second, which the drive tells at once."""

    writable, size = 1, 131072
    # by name: first block, first number, and how many bytes are stored of the first attempt
    writes = {"held": (1024, 1000000, BURST), "cut": (2048, 2000000, BURST - 2048), "hole": (3072, 3000000, BURST + 8192)}

    def __init__(self):
        self.tried, self.halfway = {}, False  # by name the first attempt's exchange, and () once it is over
        self.half = {}  # by name the bytes of its range then

    def arriving(self, f, port):
        for name, (first, _, stored) in self.writes.items():
            if is_write(f) and blocks(f)[0] == first and name not in self.tried:
                self.tried[name] = exchange_of(f)
            elif f[0] == 0x81 and self.tried.get(name) == exchange_of(f):
                self.over(name, port)
            elif name == "held" and self.begins(f, name, stored - 2048):
                self.halfway = True
            elif name == "hole" and self.begins(f, name, self.size - 2048):
                self.over(name, port)

    def begins(self, f, name, offset):
        """Whether it is a data frame of a first attempt that begins here."""
        return f[0] == 0x01 and self.tried.get(name) == exchange_of(f) and number(f[20:24]) == offset

    def over(self, name, port):
        self.tried[name], self.half[name] = (), port.unit.read(self.writes[name][0], self.size)

    def held(self, exchange):
        return self.halfway and exchange == self.tried["held"]

    def lost(self, f):
        return any(self.begins(f, name, self.writes[name][2]) for name in ("cut", "hole"))


class ReadOnly(Plan):
    """A unit that hosts may not write."""


PLANS = {"plain": Plain, "many": Many, "abort": Abort, "power": Power, "write": Write, "writers": Writers, "write-abort": WriteAbort, "read-only": ReadOnly}
