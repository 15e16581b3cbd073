"""A session of samples/show drawn as a ladder: the host at the left, the drive at the right, time downwards."""
from itertools import groupby
from xml.sax.saxutils import escape

from sides import Sides, words

WIDTH, HOST, DRIVE = 860, 190, 670
MID = (HOST + DRIVE) // 2
STYLE = """text{font:13px system-ui,-apple-system,"Segoe UI",Helvetica,Arial,sans-serif;fill:#1f2328}
.note{font-size:12px;fill:#b3261e}.grey,.quiet{font-size:12px;fill:#59636e}.side{font-weight:600}
line,path{stroke:#1f2328;stroke-width:1.3;fill:none}.head{fill:#1f2328}.life{stroke:#8c959f;stroke-width:2}
.event{stroke:#0b57a4;stroke-width:1.6}.many{stroke-width:3}.bad,.refused{stroke:#b3261e}.refused{stroke-dasharray:6 4}.bad.head{fill:#b3261e}
.unsure{fill:#fff1cc}.wrong{fill:#fbd9d6}"""
LEGEND = ("Cross: lost on the loop. Dashed: refused by the drive. Shaded: the host is unsure (yellow), or sure and wrong (red).",
          "Beliefs are what the host's rules make of what reached it; records are what document 01 makes of the drive's answers.")


class Picture:
    """Marks from the top down; y is where the next goes."""

    def __init__(self, hosts):
        self.y, self.bands, self.marks, self.doubt, self.several = 44, [], [], ("", 0), len(hosts) > 1

    def of(self, address, said):
        """What is said of a host; where there are several, with its address."""
        return "%02X: %s" % (address, said) if self.several else said

    def text(self, x, y, said, kind="", anchor="middle"):
        self.marks.append('<text x="%d" y="%d" class="%s" text-anchor="%s">%s</text>' % (x, y, kind, anchor, escape(said)))

    def line(self, x, y, x2, y2, kind=""):
        self.marks.append('<line x1="%d" y1="%d" x2="%d" y2="%d" class="%s"/>' % (x, y, x2, y2, kind))

    def arrow(self, to_drive, name, note="", kind=""):
        """A frame on its way, whole, `refused`, `lost` midway, or `many`; answers the height of its end."""
        x, end, back, anchor = (HOST, DRIVE, -8, "start") if to_drive else (DRIVE, HOST, 8, "end")
        y = self.y + 17
        self.y += 27
        if kind == "lost":
            self.text(x - 4 * back, y - 4, name, "", anchor)
            self.line(x, y, MID, y + 3, "bad")
            self.marks.append('<path d="M%d %dl9 9m0 -9l-9 9" class="bad"/>' % (MID - 4, y - 1))
            self.text(MID - 2 * back, y + 7, note, "note", anchor)
        else:
            self.text(MID, y - 5, name)
            self.line(x, y, end, y + 6, kind)
            self.marks.append('<path d="M%d %dl%d -4v8z" class="head%s"/>' % (end, y + 6, back, " bad" if kind == "refused" else ""))
            self.remark(note)
        return y + 10

    def remark(self, note, x=MID, kind="note"):
        """A line of its own below what it is about."""
        if note:
            self.text(x, self.y + 9, note, kind)
            self.y += 14

    def event(self, name, both, note):
        """A line across, or from the middle to the drive where the host does not see the event."""
        x, y = HOST if both else MID, self.y + 18
        self.line(x, y, DRIVE, y, "event")
        self.text((x + DRIVE) // 2, y - 4, name)
        self.y = y + 6
        self.remark(note, (x + DRIVE) // 2)
        return y + 4

    def asked(self, name, note):
        """A next frame that the port asked for in vain: it is refused, or there is none yet."""
        self.line(DRIVE - 50, self.y + 12, DRIVE, self.y + 12, "refused" if note else "")
        self.text(DRIVE - 58, self.y + 10, name, "", "end")
        self.text(DRIVE - 58, self.y + 25, note or "nothing to send: data are awaited", "note" if note else "quiet", "end")
        self.y += 30
        return self.y - 14

    def side(self, x, y, anchor, texts):
        """What changed at a side, one below the other."""
        for n, said in enumerate(texts):
            self.text(x, y + 15 * n, said, "side", anchor)
        self.y = max(self.y, y + 15 * len(texts) - 10)

    def shade(self, doubt, y):
        """Ends the band that stands beside the host, and begins one where there is a doubt."""
        was, since = self.doubt
        if was:
            self.bands.append('<rect x="12" y="%d" width="%d" height="%d" class="%s"/>' % (since, HOST - 13, y - since, was))
        self.doubt = doubt, y

    def whole(self):
        """The file."""
        end = self.y + 14
        self.shade("", end)
        for n, said in enumerate(LEGEND):
            self.text(MID, end + 22 + 17 * n, said, "grey")
        lives = ['<line x1="%d" y1="38" x2="%d" y2="%d" class="life"/>' % (x, x, end) for x in (HOST, DRIVE)]
        head = '<svg xmlns="http://www.w3.org/2000/svg" viewBox="0 0 %d %d" width="%d" height="%d" role="img">' % (2 * (WIDTH, end + 54))
        body = ["<title>A session as a ladder of frames</title>", "<style>%s</style>" % STYLE, '<rect width="100%" height="100%" fill="#ffffff"/>']
        return "\n".join([head, *body, *self.bands, *lives, *self.marks, "</svg>", ""])


MANY = "M"  # the letter of many data frames in one step


def of_exchange(s):
    """The data frame that a step is, of either side, and its exchange; or none, where more is to be said of the step."""
    if s.letter == "N" and s.reply[:1] == b"\x01" and s.untouched and not s.lost:
        return s.reply, s.body[:6]
    if s.letter == "D" and s.frame[:1] == b"\x01" and s.untouched and not s.refused and not s.reply:
        return s.frame, s.frame[5:8] + s.frame[16:18]
    return b"", None


def folded(steps):
    """Of more than four data frames in a row of one exchange, the first and the last are drawn, and the rest as one arrow with their number."""
    for key, run in groupby(steps, lambda s: of_exchange(s)[1]):
        run = list(run)
        if key and len(run) > 4:
            frames = [of_exchange(s)[0] for s in run[1:-1]]
            size = sum(len(f) - 24 - f[11] % 4 for f in frames)
            run[1:-1] = [run[1]._replace(letter=MANY, reply=b"", stored="", name="%d more FCP_DATA, %d bytes" % (len(frames), size))]
        yield from run


def step(p, s, allowed, moved, meaning, refusal):
    """Draws a step; answers the heights at which the drive has taken it and the host has heard of it."""
    note = refusal(s.refused) if s.refused else ""
    p.y += 0 if s.letter == "N" and s.reply else 5
    if s.letter in "SE":
        y = p.event("setup: " + s.name if s.letter == "S" else s.name, s.name == "loop reset", note)
    elif s.letter == MANY:
        y = p.arrow(bool(s.frame), p.of(s.frame[7] if s.frame else s.body[3], s.name), "", "many")
    elif s.letter == "N" and not s.reply:
        y = p.asked("the port asks for " + s.name, note)
    elif s.letter in "FDL":
        notes = ["lost"] if s.letter == "L" else [note] if note else []
        notes += ([] if allowed else ["against the host's rules"]) + ([moved] if moved else [])
        name = p.of(s.frame[7], s.name) if len(s.frame) >= 24 else s.name
        y = p.arrow(True, name, "; ".join(notes), "lost" if s.letter == "L" else "refused" if note else "")
        p.remark(s.stored, kind="quiet")
    taken = y if s.letter != "N" else p.y
    if s.reply:
        y = p.arrow(False, p.of(s.reply[3], meaning(s.reply)), "lost" if s.lost else "", "lost" if s.lost else "")
    p.remark("" if s.untouched else "bytes behind the reply were changed")
    return taken, y


def header(p, hosts, drives):
    """The names at the top, and what holds before the first step."""
    p.text(HOST, 28, "%d hosts" % len(hosts) if p.several else "host " + "".join("%02X" % a for a in hosts), "side")
    p.text(DRIVE, 28, "drive %02X" % drives.pop() if len(drives) == 1 else "drive", "side")
    p.text(12, 28, "the host's belief", "grey", "start")
    p.text(WIDTH - 12, 28, "the drive's record", "grey", "end")
    p.side(HOST - 12, p.y + 12, "end", ["unsure"])
    p.shade("unsure", 39)


def draw(steps, meaning, refusal):
    """The session as SVG."""
    first = Sides()
    for s in steps:
        first.take(s, meaning)
    hosts = sorted(first.beliefs)
    p, sides = Picture(hosts), Sides(hosts)
    header(p, hosts, {s.body[11] for s in steps if s.letter == "S" and not s.refused})
    for s in folded(steps):
        beliefs, records = dict(sides.beliefs), {a: sides.record(a) for a in hosts}
        allowed = sides.take(s, meaning)
        taken, heard = step(p, s, allowed, sides.moved, meaning, refusal)
        new = [p.of(a, words(sides.record(a))) for a in hosts if sides.record(a) != records[a]]
        p.side(DRIVE + 12, taken, "start", ["out"] if s.letter == "S" and not s.refused else new)
        p.side(HOST - 12, heard, "end", [p.of(a, words(sides.beliefs[a])) for a in hosts if sides.beliefs[a] != beliefs[a]])
        if sides.doubt() != p.doubt[0]:
            p.shade(sides.doubt(), heard - 14)
    return p.whole()
