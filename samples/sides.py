"""What each host of a session believes, and the drive's record of it, step by step.

A belief is document 01's ("01") "The host's rules" over what the host sent and what came back to it. The record is not printed by recorder: it is what 01,
and requests 1 and 2 of document 02, make of the drive's own answers, of those that the loop lost too. tests/show holds it to the tables that the program
vectors prints.
"""
from collections import namedtuple

UNSURE, OUT = "unsure", "out"
Held = namedtuple("Held", "paired proven kept")  # in or paired, perhaps to verify, with names and parameters
SIZES = {"PLOGI": 116, "LOGO": 16, "RRQ": 44, "PRLI": 20, "PRLO": 20, "PDISC": 116, "ADISC": 28}
NAMED = {"PRLI": {"paired": True}, "PRLO": {"paired": False}, "PDISC": {"proven": True}, "ADISC": {"proven": True}}  # what an ACC changes
LOOP_RESET, TIME_OVER = 1, 2


def words(state):
    """A belief or a record in 01's words."""
    if not isinstance(state, Held):
        return state
    return ("paired" if state.paired else "in") + ("" if state.proven else ", to verify")


def kept(f):
    """The names and parameters of a PLOGI or PDISC that the drive stores."""
    return f[44:60], int.from_bytes(f[98:100], "big") % 4096, f[101:102], f[105:106]


def after(kind, f, answer, state):
    """What an answer makes of a belief or a record. 01: "PLOGI ACC: in; LS_RJT: out. LOGO answered, or received: out. .. ACC as named"."""
    if answer == "LOGO" or kind == "LOGO":
        return OUT
    if kind == "PLOGI":
        return Held(False, True, kept(f)) if answer == "ACC" else OUT
    return state._replace(**NAMED.get(kind, {})) if answer == "ACC" and isinstance(state, Held) else state


def believed(kind, f, heard, before):
    """01: "a lost request or answer means unsure, and a frame the drive refuses counts as lost"; after a command, its data or ABTS silence says nothing."""
    if not heard:
        return before if kind in ("command", "data", "ABTS") else UNSURE
    return after(kind, f, heard, before)


def recorded(kind, f, answer, before):
    """A request of wrong size (03,00) and a LOGO that is rejected change nothing."""
    if not answer or answer == "LS_RJT 03,00" or kind == "LOGO" and answer != "ACC":
        return before
    return after(kind, f, answer, before)


def allowed(kind, f, before):
    """01: "Unsure or out sends PLOGI, LOGO only; in adds PRLI, PDISC, ADISC; paired adds PRLO, commands, ABTS, RRQ but not PRLI"; 02, 2: "data frames"."""
    if len(f) - 24 != SIZES.get(kind, len(f) - 24) or kind == "LOGO" and f[29:32] != f[5:8]:
        return False  # "of right form, code and size, a LOGO with its own address"
    if kind in ("PLOGI", "LOGO") or not isinstance(before, Held):
        return kind in ("PLOGI", "LOGO")
    if kind in ("PDISC", "ADISC"):
        return kind == "ADISC" or kept(f) == before.kept  # "PDISC repeats the login's parameters"
    return before.proven and kind in (("PRLO", "RRQ", "command", "data", "ABTS") if before.paired else ("PRLI",))


def doubted(states):
    """After a loop reset."""
    return {a: held._replace(proven=False) if isinstance(held, Held) else held for a, held in states.items()}


def port_name(held):
    """That of a login; the names are kept one after the other."""
    return held.kept[0][:8] if isinstance(held, Held) else None


class Sides:
    """Beliefs and records by address: 01: "unsure at first", and a drive that is made has no logins. `moved` says in words whose login the last step ended."""

    def __init__(self, hosts=()):
        self.own, self.beliefs, self.records, self.moved = None, dict.fromkeys(hosts, UNSURE), {}, ""

    def host(self, s):
        """The address whose frame to this drive a step is, or None; refusal 5 says that it is no host's."""
        f = s.frame
        return f[7] if len(f) >= 24 and f[1:4] == self.own and f[5:7] == bytes(2) and s.refused != 5 else None

    def take(self, s, meaning):
        """Follows a step, and answers whether the host's rules allow it."""
        self.moved = ""
        if s.letter in "SE":
            self.event(s)
        host = self.host(s)
        kind = None if host is None else {0x22: s.name, 0x06: "command", 0x01: "data", 0x81: "ABTS"}.get(s.frame[0])
        if not kind:
            return True
        before, answer = self.beliefs.get(host, UNSURE), meaning(s.reply) if s.reply else ""
        self.records[host] = recorded(kind, s.frame, answer, self.records.get(host, OUT))
        if kind == "PLOGI" and answer == "ACC":
            self.move(host)
        self.beliefs[host] = believed(kind, s.frame, "" if s.lost else answer, before)
        return allowed(kind, s.frame, before)

    def move(self, host):
        """02, request 1: an accepted PLOGI "with a port name logged in at another address, ends that login"; who believes in it is not told."""
        name = port_name(self.records[host])
        for old in [a for a, held in self.records.items() if a != host and port_name(held) == name]:
            self.records[old] = OUT
            self.moved = "%02X has moved to %02X: its login at %02X ends" % (old, host, old)

    def event(self, s):
        """01: "loop reset marks every login unproven; verification time over ends the unproven ones; power on ends all"; a host sees the first alone."""
        if s.refused:
            return
        if s.letter == "S":
            self.own, self.records = s.body[9:12], {}
        elif s.body[0] == LOOP_RESET:
            self.beliefs, self.records = doubted(self.beliefs), doubted(self.records)
        else:
            self.records = {a: held for a, held in self.records.items() if s.body[0] == TIME_OVER and isinstance(held, Held) and held.proven}

    def record(self, host):
        return self.records.get(host, OUT)

    def doubt(self):
        """Whether a host is sure and wrong, or else unsure, or neither."""
        if any(held not in (UNSURE, self.record(a)) for a, held in self.beliefs.items()):
            return "wrong"
        return "unsure" if UNSURE in self.beliefs.values() else ""
