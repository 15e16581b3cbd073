#!/usr/bin/env python3
"""The vectors of the drive's entries: frames in and next frames out, and the answer, the window and the table of logins that document 01 asks for after each.

Usage: tests/vectors.py stdin | stdout

Nothing here comes from a run of the program. Each answer is put together by hand (frames.py) from the sentence of document 01 ("01")
that stands beside it, or of a request of document 02 ("02, 1"); the program `vectors` reads the records and must write these lines.
"""
import sys

sys.dont_write_bytecode = True
from frames import *  # noqa: E402, F403
from session import LOOP_RESET, POWER_ON, ROOM, TIME_OVER, asking, lending, record, setup  # noqa: E402

# the lines

given, records, lines = [], [], []  # all that is read; of it the records that have a line, and these lines


def line(name, letter, body, says):
    records.append(record(letter, body))
    given.extend((record("n", name.encode() + b" "), records[-1]))
    lines.append(name + " " + says)


def framed(f):
    """The body of a frame in."""
    return ROOM.to_bytes(2, "big") + f


def table(text):
    """The eight places: those that are not written are free."""
    places = text.split()
    return " ".join(places + ["."] * (8 - len(places)))


def answers(name, f, reply, after):
    """A frame, the reply to it, and the table after it."""
    line(name, "F", framed(f), (reply(f).hex().upper() or "-") + " " + table(after))


def refuses(name, number, letter, body, after):
    """A call that is refused with this number, and the table as it was: "returns its number and the state unchanged"."""
    line(name, letter, body, "refused %d %s" % (number, table(after)))


def fresh(after="", capacity=CAPACITY, writable=0, **changes):
    """A drive without logins; then each host named logs in."""
    line("setup", "S", setup(capacity, writable=writable), "- " + table(""))
    so_far = ""
    for host in bytes.fromhex(after):
        so_far += " %02Xp29" % host  # "proven, unpaired, attention 29h"
        answers("plogi", login(host, **changes), login_acc, so_far)


def event(name, number, after):
    line(name, "E", bytes([number]), "- " + table(after))


def opens(host, ox_id, after):
    """An INQUIRY opens an exchange silently, also while an attention stands."""
    answers("open", cmnd(host, ox_id, inquiry(), 36), nothing, after)


def keeps(name, place, says):
    line(name, "l", bytes([place]), says)


def shows(name, place, standing, exchanges):
    """What is open at a login's eight places: those that are not written are free."""
    line(name, "e", bytes([place]), standing + " " + table(exchanges))


def exchange(ox_id, sends, wanted, dl, start=0, count=0, bytes_sent=0, frames=0):
    """An exchange: OX_ID, what it sends, a READ's or WRITE's first block and count, wanted, FCP_DL, bytes sent, and frames sent modulo 65,536."""
    return "%04X=%s,%d,%d,%d,%d,%d,%d" % (ox_id, sends, start, count, wanted, dl, bytes_sent, frames)


def a_linux_host():
    """libfc's requests in the order of a session."""
    fresh()
    answers("libfc-plogi", LIBFC["plogi"], login_acc, "01p29")
    # "keeps address, names, W18 size, W19/B1, W20/B1, proven, unpaired, attention 29h"
    keeps("libfc-kept", 0, "01" "01" "00" "29" "FF" "01" "0840" "00000001 2000525400120001 1000525400120001")
    answers("libfc-prli", LIBFC["prli"], prli_acc, "01P29")
    answers("libfc-rtv", LIBFC["rtv"], rjt("0B,00"), "01P29")  # "other code 0B,00"
    answers("libfc-inquiry", LIBFC["inquiry"], nothing, "01P29:0103")  # "INQUIRY and REQUEST SENSE skip 2 and 3"
    answers("libfc-tur-attention", LIBFC["tur-attention"], check("06/29/00"), "01P:0103")  # "and cleared"
    answers("libfc-inquiry-lun-1", LIBFC["inquiry-lun-1"], nothing, "01P:0103:0105")  # only bit 0 of byte 1 is named
    answers("libfc-tur", LIBFC["tur"], good(), "01P:0103:0105")
    answers("libfc-capacity", LIBFC["capacity"], nothing, "01P:0103:0105:0107")
    answers("libfc-mode-sense", LIBFC["mode-sense"], check("05/20/00", 4), "01P:0103:0105:0107")
    answers("libfc-read", LIBFC["read"], nothing, "01P:0103:0105:0107:0109")
    answers("libfc-report-luns", LIBFC["report-luns"], check("05/20/00", 4096), "01P:0103:0105:0107:0109")
    answers("libfc-capacity-16", LIBFC["capacity-16"], check("05/20/00", 32), "01P:0103:0105:0107:0109")
    shows("libfc-open", 0, "01P", " ".join((exchange(0x0103, "INQUIRY", 36, 36), exchange(0x0105, "INQUIRY-7F", 36, 36),
                                           exchange(0x0107, "CAPACITY", 8, 8), exchange(0x0109, "READ", 4096, 4096, 0, 8))))
    answers("libfc-adisc", LIBFC["adisc"], adisc_acc, "01P:0103:0105:0107:0109")
    answers("libfc-read-aborted", LIBFC["read-aborted"], nothing, "01P:0103:0105:0107:0109:010D")
    answers("libfc-rec", LIBFC["rec"], rjt("0B,00"), "01P:0103:0105:0107:0109:010D")
    answers("libfc-rrq-of-12", LIBFC["rrq12"], rjt("03,00"), "01P:0103:0105:0107:0109:010D")  # "wrong size 03,00": RRQ 44
    answers("libfc-rrq-open", LIBFC["rrq"], rjt("03,17"), "01P:0103:0105:0107:0109:010D")  # "that OX_ID open 03,17"
    answers("libfc-abts", LIBFC["abts"], ba_acc, "01P:0103:0105:0107:0109")  # "the sender's exchange of that OX_ID, if any, ends"
    answers("libfc-rrq", LIBFC["rrq"], acc, "01P:0103:0105:0107:0109")  # "else ACC of 4 bytes"
    answers("libfc-lun-reset", LIBFC["lun-reset"], code("02"), "01P:0103:0105:0107:0109")  # "a task flag of 01h, 08h, 10h"
    answers("libfc-clear-aca", LIBFC["clear-aca"], code("04"), "01P:0103:0105:0107:0109")  # "80h, 40h: 04"
    answers("libfc-abort-task-set", LIBFC["abort-task-set"], code("00"), "01P")  # "02h abort task set the sender's"
    answers("libfc-clear-task-set", LIBFC["clear-task-set"], code("00"), "01P")
    answers("libfc-target-reset", LIBFC["target-reset"], code("00"), "01P29")  # "gives every login attention 29h"
    answers("libfc-logo", LIBFC["logo"], acc, "")  # "Ends the login if any; ACC of 4 bytes"


def other_codes_and_sizes():
    """"Order: other code 0B,00; wrong size 03,00; no login (PLOGI and LOGO excepted) a drive LOGO"."""
    fresh("01")
    for code in (0x00, 0x01, 0x02, 0x04, 0x06, 0x0F, 0x11, 0x13, 0x22, 0x24, 0x51, 0x53, 0xFF):
        for host, size in ((0x01, 116), (0x02, 4)):  # with a login and without, of any size
            answers("code-%02X" % code, frame(host, 0x0900 + code, bytes([code]) + bytes(size - 1)), rjt("0B,00"), "01p29")
    sizes = {0x03: 116, 0x05: 16, 0x12: 44, 0x20: 20, 0x21: 20, 0x50: 116, 0x52: 28}  # "Codes and payload sizes"
    for code, size in sizes.items():
        for wrong in (4, size - 4, size + 4):
            for host in (0x01, 0x02):  # size is looked at before the login; a PLOGI "of right size" only ends the login
                answers("size-%02X-%d" % (code, wrong), frame(host, 0x0A00 + code, bytes([code]) + bytes(wrong - 1)), rjt("03,00"), "01p29")


def no_login():
    """"no login (PLOGI and LOGO excepted) a drive LOGO"; "ABTS: no login, drive LOGO"."""
    fresh("02")
    for host in (0x01, 0xE8):
        answers("no-login-pdisc", pdisc(host), logout, "02p29")
        answers("no-login-adisc", adisc(host), logout, "02p29")
        answers("no-login-prli", prli(host), logout, "02p29")
        answers("no-login-prli-ill", prli(host, "20" + "00" * 19), logout, "02p29")  # before the service's own tests
        answers("no-login-prlo", prlo(host), logout, "02p29")
        answers("no-login-rrq", rrq(host, 0x0101), logout, "02p29")
        answers("no-login-abts", abts(host, 0x0101), logout, "02p29")
        answers("no-login-abts-rx-id", abts(host, 0x0101, rx_id=0x0000), logout, "02p29")
        answers("no-login-logo", logo(host), acc, "02p29")  # "Ends the login if any"


# "Tests in word order", each with its pair and, for the order, a second fault in the word after it
ZERO, LOW = bytes(8), bytes(1)
WORD_TESTS = (
    ("w2-0", "03,0F", {"w2": bytes.fromhex("0000")}),
    ("w2-252", "03,0F", {"w2": bytes.fromhex("00FC")}),
    ("w2-258", "03,0F", {"w2": bytes.fromhex("0102")}),
    ("w2-2116", "03,0F", {"w2": bytes.fromhex("0844")}),
    ("w2-port", "03,0F", {"w2": bytes.fromhex("F000"), "port": ZERO}),
    ("port", "03,0D", {"port": ZERO}),
    ("port-node", "03,0D", {"port": ZERO, "node": ZERO}),
    ("node", "03,0E", {"node": ZERO}),
    ("node-w17", "03,0E", {"node": ZERO, "w17": LOW}),
    ("w17", "03,01", {"w17": bytes.fromhex("7F")}),
    ("w17-w18", "03,01", {"w17": LOW, "w18": bytes(2)}),
    ("w18-252", "03,07", {"w18": bytes.fromhex("00FC")}),
    ("w18-258", "03,07", {"w18": bytes.fromhex("0102")}),
    ("w18-2116", "03,07", {"w18": bytes.fromhex("0844")}),
    ("w18-w19", "03,07", {"w18": bytes(2), "w19": LOW}),
    ("w19", "03,09", {"w19": LOW}),
    ("w19-w20", "03,09", {"w19": LOW, "w20": LOW}),
    ("w20", "03,01", {"w20": LOW}),
)


def plogi_tests():
    """"Of right size, it ends the sender's login and exchanges first, accepted or not"."""
    fresh("0102")
    answers("prli", prli(0x02), prli_acc, "01p29 02P29")
    opens(0x02, 0x0101, "01p29 02P29:0101")
    for name, pair, changes in WORD_TESTS:
        answers("plogi-" + name, login(0x01, **changes), rjt(pair), ". 02P29:0101")  # the old login is gone
        answers("plogi", login(0x01), login_acc, "01p29 02P29:0101")
    # "low 12 bits"; the size that is kept is W18's
    for name, w2, w18, kept in (("256", "0840", "0100", "0100"), ("2112", "0100", "0840", "0840"), ("4352", "F840", "1100", "0100")):
        sizes = {"w2": bytes.fromhex(w2), "w18": bytes.fromhex(w18)}
        answers("plogi-w18-" + name, login(0x01, **sizes, w17=b"\x80", w19=b"\x7E", w20=b"\x03"), login_acc, "01p29 02P29:0101")
        keeps("kept-w18-" + name, 0, "01" "01" "00" "29" "7E" "03" + kept + "00000001 2000525400120001 1000525400120001")
    answers("plogi-again", login(0x02), login_acc, "01p29 02p29")  # ends its exchanges and its pairing
    keeps("kept-again", 1, "01" "01" "00" "29" "FF" "01" "0840" "00000002 2000525400120002 1000525400120002")
    answers("plogi-names-low", login(0x01, port=bytes(7) + b"\x01", node=b"\x01" + bytes(7)), login_acc, "01p29 02p29")  # "not zero"
    keeps("kept-names-low", 0, "01" "01" "00" "29" "FF" "01" "0840" "00000001 0000000000000001 0100000000000000")


def places():
    """"8 logins at most"; "a free place, else 09,29"; "the lowest free place"; "A freed place is used again"."""
    fresh("01020408" "0F101718")
    eight = "01p29 02p29 04p29 08p29 0Fp29 10p29 17p29 18p29"
    answers("ninth", login(0x1B), rjt("09,29"), eight)
    answers("ninth-w20", login(0x1B, w20=LOW), rjt("03,01"), eight)  # the room test comes last
    answers("ninth-pdisc", pdisc(0x1B), logout, eight)
    answers("full-member", login(0x08), login_acc, eight)  # a full table takes its own member's new login
    answers("full-pdisc", pdisc(0x18), login_acc, eight)  # "without the room test"
    answers("full-logo", logo(0x0F), acc, "01p29 02p29 04p29 08p29 . 10p29 17p29 18p29")
    answers("freed-place", login(0x1B), login_acc, "01p29 02p29 04p29 08p29 1Bp29 10p29 17p29 18p29")
    answers("full-rejected", login(0x10, w19=LOW), rjt("03,09"), "01p29 02p29 04p29 08p29 1Bp29 . 17p29 18p29")
    answers("logo", logo(0x02), acc, "01p29 . 04p29 08p29 1Bp29 . 17p29 18p29")
    answers("lowest-free", login(0x1D), login_acc, "01p29 1Dp29 04p29 08p29 1Bp29 . 17p29 18p29")
    answers("logo", logo(0x01), acc, ". 1Dp29 04p29 08p29 1Bp29 . 17p29 18p29")
    answers("moves-down", login(0x18), login_acc, "18p29 1Dp29 04p29 08p29 1Bp29 . 17p29")  # its old place is free and is not the lowest
    fresh("01")
    answers("one-port-name", login(0x02, port=names_of(0x01)[0]), login_acc, "02p29")  # 02, 1: the login at the other address ends
    answers("one-name", login(0x04, port=names_of(0x01)[0], node=names_of(0x01)[1]), login_acc, "04p29")


def moved_when_full():
    """02, 1: "A PLOGI whose parameters pass, with a port name logged in at another address, ends that login and its exchanges before the room test"."""
    ready("01020408" "0F101718")
    eight = "01P 02P 04P %s 0FP 10P 17P 18P"
    answers("moved-read", cmnd(0x08, 0x0101, read(40, 8), 4096), nothing, eight % "08P:0101")
    for name, pair, changes in WORD_TESTS:  # all word tests come first: the sender has no login, and the other stays
        if "port" not in changes:
            answers("moved-" + name, login_as(0x1B, 0x08, **changes), rjt(pair), eight % "08P:0101")
    answers("moved-size", login_as(0x1B, 0x08)[:-4], rjt("03,00"), eight % "08P:0101")  # "Of right size"
    answers("moved-ninth", login(0x1B), rjt("09,29"), eight % "08P:0101")  # a new name: no room, and nothing is changed
    answers("moved-node-name", login(0x1B, node=names_of(0x08)[1]), rjt("09,29"), eight % "08P:0101")  # "port name" is W5-6 alone
    shows("moved-not-yet", 3, "08P", exchange(0x0101, "READ", 4096, 4096, 40, 8))
    others = {"w18": b"\x04\x00", "w19": b"\x7E", "w20": b"\x03"}
    answers("moved-full", login_as(0x1B, 0x08, **others), login_acc, eight % "1Bp29")
    keeps("moved-kept", 3, "01" "01" "00" "29" "7E" "03" "0400" "0000001B 2000525400120008 100052540012001B")  # nothing of the old login but its port name
    refuses("moved-next", 9, "N", asking(0x08, 0x0101), eight % "1Bp29")  # its exchange has ended
    refuses("moved-next-here", 9, "N", asking(0x1B, 0x0101), eight % "1Bp29")  # and is none of the new login's
    answers("moved-told", test_unit(0x08), logout, eight % "1Bp29")  # "no login": its next frame draws the drive LOGO
    answers("moved-ninth-again", login(0x08, port=names_of(0x1B)[0]), rjt("09,29"), eight % "1Bp29")
    answers("moved-back", login(0x08), login_acc, eight % "08p29")


def moved_to_a_place():
    """Both logins end, the sender's and that of its port name; "the lowest free place" is looked for after that."""
    eight = "01020408" "0F101718"
    fresh(eight)
    for n, host in enumerate(bytes.fromhex(eight)):
        places = ["%02Xp29" % h for h in bytes.fromhex(eight)]
        answers("moved-from-%d" % n, login_as(0x1B, host), login_acc, " ".join(places[:n] + ["1Bp29"] + places[n + 1:]))
        answers("moved-back-to-%d" % n, login(host), login_acc, " ".join(places))
    answers("moved-down", login_as(0x10, 0x04), login_acc, "01p29 02p29 10p29 08p29 0Fp29 . 17p29 18p29")  # from place 5 to 2
    fresh(eight)
    answers("moved-up", login_as(0x04, 0x10), login_acc, "01p29 02p29 04p29 08p29 0Fp29 . 17p29 18p29")  # the name at 5, the sender at 2
    fresh(eight)
    answers("logo", logo(0x02), acc, "01p29 . 04p29 08p29 0Fp29 10p29 17p29 18p29")
    answers("moved-lower", login_as(0x10, 0x08), login_acc, "01p29 10p29 04p29 . 0Fp29 . 17p29 18p29")  # place 1 was free before
    answers("moved-rejected", login_as(0x17, 0x18, w19=LOW), rjt("03,09"), "01p29 10p29 04p29 . 0Fp29 . . 18p29")  # the sender's own alone
    fresh("0102")
    answers("names-swapped", login_as(0x01, 0x02), login_acc, "01p29")
    answers("names-swapped-both", login_as(0x02, 0x01), login_acc, "01p29 02p29")  # nobody has that name now
    answers("names-swapped-back", login(0x01), login_acc, "01p29")
    answers("logo", logo(0x01), acc, "")
    answers("moved-after-logo", login_as(0x02, 0x01), login_acc, "02p29")


def moved_whatever_it_holds():
    """An unproven, unpaired or exchange-holding login at the other address ends like any other; no third login is touched."""
    ready("010204")
    opens(0x01, 0x0101, "01P:0101 02P 04P")
    opens(0x02, 0x0101, "01P:0101 02P:0101 04P")
    opens(0x04, 0x0101, "01P:0101 02P:0101 04P:0101")
    answers("moved-both-open", login_as(0x02, 0x01), login_acc, "02p29 . 04P:0101")
    event("reset", LOOP_RESET, "02u29 . 04U:0101")
    answers("moved-unproven", login_as(0x08, 0x04), login_acc, "02u29 08p29")
    answers("moved-unpaired", login_as(0x01, 0x01), login_acc, "01p29 08p29")  # 02 has the port name of 01
    event("verification-over", TIME_OVER, "01p29 08p29")


def names_apart():
    """"port name" is W5-6 alone, all eight bytes; other logins are compared by PLOGI alone."""
    fresh("01")
    port, node = names_of(0x01)
    for at in range(8):  # a bit in each byte, the first of the first to the last of the last
        other = port[:at] + bytes([port[at] ^ 0x80 >> at]) + port[at + 1:]
        answers("port-name-%d" % at, login(0x02, port=other), login_acc, "01p29 02p29")
    answers("one-node-name", login(0x02, node=node), login_acc, "01p29 02p29")
    answers("node-as-port", login(0x02, port=node, node=port), login_acc, "01p29 02p29")
    answers("port-of-the-drive", login(0x02, port=OWN_PORT), login_acc, "01p29 02p29")  # the drive is no login
    for name, f in (("pdisc", pdisc(0x02, port=port)), ("pdisc-both", pdisc(0x02, port=port, node=node)), ("adisc", adisc(0x02, port=port)),
                    ("adisc-both", adisc(0x02, port=port, node=node))):
        answers("plogi", login(0x02), login_acc, "01p29 02p29")
        answers("name-of-another-" + name, f, logout, "01p29")  # it differs from the login's own
        answers("name-of-another-%s-no-login" % name, f, logout, "01p29")
        answers("plogi-rejected", login_as(0x02, 0x01, w20=LOW), rjt("03,01"), "01p29")


def verified():
    """PDISC and ADISC after a loop reset: "marks every login unproven"; "ACC marks the login proven and changes nothing else"."""
    fresh("0102")
    answers("prli", prli(0x01), prli_acc, "01P29 02p29")
    opens(0x01, 0x0101, "01P29:0101 02p29")
    for name, f, reply in (("pdisc", pdisc(0x01), login_acc), ("adisc", adisc(0x01), adisc_acc),
                           ("pdisc-other-sizes", pdisc(0x01, w2=b"\x01\x00", w18=b"\x02\x00", w19=b"\x09", w20=b"\x08"), login_acc)):
        event("reset", LOOP_RESET, "01U29:0101 02u29")
        answers("reset-" + name, f, reply, "01P29:0101 02u29")
        keeps("kept-" + name, 0, "01" "01" "01" "29" "FF" "01" "0840" "00000001 2000525400120001 1000525400120001")
    event("reset", LOOP_RESET, "01U29:0101 02u29")
    for name, pair, changes in WORD_TESTS:  # "PDISC then tests as PLOGI, .. changing nothing on reject"
        if not changes.keys() & {"port", "node"}:
            answers("pdisc-" + name, pdisc(0x01, **changes), rjt(pair), "01U29:0101 02u29")
    keeps("kept-rejected", 0, "01" "00" "01" "29" "FF" "01" "0840" "00000001 2000525400120001 1000525400120001")
    answers("reset-logo", logo(0x02), acc, "01U29:0101")
    answers("reset-plogi", login(0x02), login_acc, "01U29:0101 02p29")
    event("verification-over", TIME_OVER, ". 02p29")
    event("power-on", POWER_ON, "")


def other_names():
    """"Names differ from the login's, or ADISC W6/B1-3 from S_ID: drive LOGO, login ended"."""
    fresh("0201")
    answers("prli", prli(0x01), prli_acc, "02p29 01P29")
    opens(0x01, 0x0101, "02p29 01P29:0101")
    port, node = names_of(0x01)
    first, last = b"\x21" + port[1:], node[:7] + b"\x02"
    for name, f in (("pdisc-port", pdisc(0x01, port=first)), ("pdisc-node", pdisc(0x01, node=last)),
                    ("pdisc-zero-port", pdisc(0x01, port=ZERO)), ("pdisc-zero-node", pdisc(0x01, node=ZERO)),
                    ("pdisc-swapped", pdisc(0x01, port=node, node=port)), ("pdisc-port-w2", pdisc(0x01, w2=bytes(2), port=first)),
                    ("adisc-port", adisc(0x01, port=first)), ("adisc-node", adisc(0x01, node=last)),
                    ("adisc-swapped", adisc(0x01, port=node, node=port)), ("adisc-address", adisc(0x01, named=0x02))):
        answers(name, f, logout, "02p29")
        answers("plogi", login(0x01), login_acc, "02p29 01p29")
        event("reset", LOOP_RESET, "02u29 01u29")
        answers(name + "-unproven", f, logout, "02u29")
        answers("plogi", login(0x01), login_acc, "02u29 01p29")
        answers("pdisc", pdisc(0x02), login_acc, "02p29 01p29")


def pairing():
    """"B1-3 = 10 00 14 and W1/B0 = 08h, else 09,00. PRLI also needs W1/B2 bit 5 and, in W4, bits 5 and 1"."""
    fresh("0102")
    faults = (("b1", "11001408002000" + "00" * 8), ("b2", "10011408002000" + "00" * 8), ("b3", "10001808002000" + "00" * 8),
              ("type", "10001409002000" + "00" * 8), ("type-0", "10001400002000" + "00" * 8))
    for name, middle in faults:
        answers("prli-" + name, prli(0x01, "20" + middle + "00000022"), rjt("09,00"), "01p29 02p29")
    for name, rest in (("pair-bit", "0800DF00" + "00" * 8 + "FFFFFFFF"), ("w4-bit-5", "08002000" + "00" * 8 + "FFFFFFDF"),
                       ("w4-bit-1", "08002000" + "00" * 8 + "FFFFFFFD"), ("w4-high", "08002000" + "00" * 8 + "22222200")):
        answers("prli-" + name, prli(0x01, "20100014" + rest), rjt("09,00"), "01p29 02p29")
    answers("prli-just", prli(0x01, "2010001408002000" + "00" * 8 + "00000022"), prli_acc, "01P29 02p29")
    answers("prli-all", prli(0x02, "2010001408FFFFFF" + "FF" * 12), prli_acc, "01P29 02P29")
    keeps("kept-paired", 0, "01" "01" "01" "29" "FF" "01" "0840" "00000001 2000525400120001 1000525400120001")
    opens(0x01, 0x0101, "01P29:0101 02P29")
    opens(0x01, 0x0102, "01P29:0101:0102 02P29")
    opens(0x02, 0x0101, "01P29:0101:0102 02P29:0101")
    answers("prli-again", prli(0x01), prli_acc, "01P29:0101:0102 02P29:0101")  # "ends nothing"
    answers("prli-rejected", prli(0x01, "20" + "00" * 19), rjt("09,00"), "01P29:0101:0102 02P29:0101")
    for name, middle in faults:
        answers("prlo-" + name, prlo(0x01, "21" + middle + "00000000"), rjt("09,00"), "01P29:0101:0102 02P29:0101")
    answers("prlo", prlo(0x01), prlo_acc, "01p29 02P29:0101")  # "ends the pairing and its exchanges"
    answers("prlo-again", prlo(0x01, "2110001408" + "FF" * 15), prlo_acc, "01p29 02P29:0101")
    answers("prli-after-prlo", prli(0x01), prli_acc, "01P29 02P29:0101")


def logo_and_rrq():
    """LOGO: "W1/B1-3 must equal S_ID, else 03,1F". RRQ: "W1/B1-3 not S_ID 03,15; that OX_ID open 03,17; else ACC of 4 bytes"."""
    fresh("0102")
    answers("prli", prli(0x01), prli_acc, "01P29 02p29")
    opens(0x01, 0x0101, "01P29:0101 02p29")
    opens(0x01, 0x8102, "01P29:0101:8102 02p29")
    answers("logo-other", logo(0x01, named=0x02), rjt("03,1F"), "01P29:0101:8102 02p29")
    answers("logo-other-no-login", logo(0x04, named=0x02), rjt("03,1F"), "01P29:0101:8102 02p29")
    answers("rrq-other", rrq(0x01, 0x0103, named=0x02), rjt("03,15"), "01P29:0101:8102 02p29")
    answers("rrq-other-open", rrq(0x01, 0x0101, named=0x02), rjt("03,15"), "01P29:0101:8102 02p29")
    answers("rrq-open", rrq(0x01, 0x8102), rjt("03,17"), "01P29:0101:8102 02p29")
    answers("rrq-closed", rrq(0x01, 0x0102), acc, "01P29:0101:8102 02p29")
    answers("rrq-unpaired", rrq(0x02, 0x0103), acc, "01P29:0101:8102 02p29")
    answers("logo-ends", logo(0x01), acc, ". 02p29")
    answers("logo-again", logo(0x01), acc, ". 02p29")


def aborts():
    """"ABTS: no login, drive LOGO. RX_ID not FFFFh, BA_RJT. Else the sender's exchange of that OX_ID, if any, ends; BA_ACC"."""
    fresh("0102")
    answers("abts-unpaired", abts(0x01, 0x0101), ba_acc, "01p29 02p29")
    answers("prli", prli(0x01), prli_acc, "01P29 02p29")
    answers("prli", prli(0x02), prli_acc, "01P29 02P29")
    opens(0x01, 0x0101, "01P29:0101 02P29")
    opens(0x01, 0x8102, "01P29:0101:8102 02P29")
    opens(0x02, 0x8102, "01P29:0101:8102 02P29:8102")
    for name, rx_id in (("0000", 0x0000), ("FFFE", 0xFFFE), ("00FF", 0x00FF), ("FF00", 0xFF00)):
        answers("abts-rx-id-%s-open" % name, abts(0x01, 0x8102, rx_id, seq_id=0x5A), ba_rjt, "01P29:0101:8102 02P29:8102")
        answers("abts-rx-id-%s" % name, abts(0x01, 0x8103, rx_id, seq_id=0xA5), ba_rjt, "01P29:0101:8102 02P29:8102")
    answers("abts-not-open", abts(0x01, 0x8103, seq_id=0x01), ba_acc, "01P29:0101:8102 02P29:8102")
    answers("abts-open", abts(0x01, 0x8102, seq_id=0xC3), ba_acc, "01P29:0101 02P29:8102")  # the other login's stays
    answers("abts-again", abts(0x01, 0x8102, seq_id=0xC4), ba_acc, "01P29:0101 02P29:8102")
    opens(0x01, 0x0103, "01P29:0101:0103 02P29:8102")
    answers("abts-first", abts(0x01, 0x0101), ba_acc, "01P29:0103 02P29:8102")
    opens(0x01, 0x0104, "01P29:0104:0103 02P29:8102")  # the freed place is the lowest


def headers():
    """Reply headers: "addresses swapped, OX_ID echoed, RX_ID FFFFh, the rest 0 but for" R_CTL, TYPE, F_CTL and SEQ_ID."""
    other = {"seq_id": 0xA7, "rx_id": 0x4567, "reserved": 0x5C, "offset": 0x89ABCDEF}  # none of these is in a reply
    fresh("01")
    for name, payload, reply, after in (
            ("rjt", "0E000000", rjt("0B,00"), "01p29"), ("plogi", login(0x01)[24:].hex(), login_acc, "01p29"),
            ("adisc", adisc(0x01)[24:].hex(), adisc_acc, "01p29"), ("prli", prli(0x01)[24:].hex(), prli_acc, "01P29"),
            ("prlo", prlo(0x01)[24:].hex(), prlo_acc, "01p29"), ("pdisc", pdisc(0x01)[24:].hex(), login_acc, "01p29"),
            ("logo", logo(0x01)[24:].hex(), acc, ""), ("logout", prli(0x01)[24:].hex(), logout, "")):
        answers("header-" + name, frame(0x01, 0x8123, bytes.fromhex(payload), **other), reply, after)
    answers("header-highest", frame(0xE8, 0xFFFF, bytes.fromhex("0E000000")), rjt("0B,00"), "")
    answers("header-lowest", frame(0x01, 0x0000, bytes.fromhex("0E000000")), rjt("0B,00"), "")


def unnamed():
    """Bytes of which 01 says nothing are not tested: all ones in them, and for PLOGI all zeros too."""
    fresh()
    ones, zeros = bytearray(b"\x03" + b"\xFF" * 115), bytearray(b"\x03" + bytes(115))
    for p, w2, w17, w19, w20 in ((ones, "F840", 0xFF, 0xFF, 0xFF), (zeros, "0100", 0x80, 0x01, 0x01)):
        p[10:12], p[20:28], p[28:36] = bytes.fromhex(w2), PORT, NODE
        p[68], p[74:76], p[77], p[81] = w17, bytes.fromhex(w2), w19, w20
    answers("unnamed-plogi-ones", frame(0x01, 0x0201, bytes(ones)), login_acc, "01p29")
    keeps("kept-ones", 0, "01" "01" "00" "29" "FF" "FF" "0840" "00000001 2000525400120001 1000525400120001")
    answers("unnamed-plogi-zeros", frame(0x01, 0x0202, bytes(zeros)), login_acc, "01p29")
    keeps("kept-zeros", 0, "01" "01" "00" "29" "01" "01" "0100" "00000001 2000525400120001 1000525400120001")
    ones[0] = 0x50
    answers("unnamed-pdisc", frame(0x01, 0x0301, bytes(ones)), login_acc, "01p29")
    answers("unnamed-adisc", frame(0x01, 0x0401, b"\x52" + b"\xFF" * 7 + PORT + NODE + bytes.fromhex("FF000001")), adisc_acc, "01p29")
    answers("unnamed-rrq", frame(0x01, 0x0601, bytes.fromhex("12FFFFFFFF0000010101") + b"\xFF" * 34), acc, "01p29")
    answers("unnamed-abts", frame(0x01, 0x0101, b"\xFF" * 8, r_ctl=0x81, kind=0x00), ba_acc, "01p29")
    answers("unnamed-logo", frame(0x01, 0x0501, bytes.fromhex("05FFFFFFFF000001") + b"\xFF" * 8), acc, "")


def paired(hosts, capacity=CAPACITY, **changes):
    """A drive to which each host logs in and pairs; "attention 29h" stands at each."""
    fresh(hosts, capacity, **changes)
    known = bytes.fromhex(hosts)
    for n in range(len(known)):
        answers("prli", prli(known[n]), prli_acc, " ".join("%02X%s29" % (host, "P" if i <= n else "p") for i, host in enumerate(known)))


def ready(hosts, capacity=CAPACITY, **changes):
    """The same, and the first command of each host, which is told of the attention: "06/29/00 .. and cleared"."""
    paired(hosts, capacity, **changes)
    known = bytes.fromhex(hosts)
    for n in range(len(known)):
        answers("first", test_unit(known[n]), check("06/29/00"),
                " ".join("%02XP%s" % (host, "" if i <= n else "29") for i, host in enumerate(known)))


def task(host, flag, **changes):
    return cmnd(host, 0x0B00 + flag, "", bits=0x00, task=flag, **changes)


OTHER_UNITS = tuple(bytes(i) + bit + bytes(7 - i) for i, bit in enumerate((b"\x01", b"\x80") * 4))  # a bit in each of the eight bytes
HIGHEST = 4294967295
# a command for each code that is known, and two that are not
EACH = (("test-unit-ready", TEST_UNIT_READY), ("request-sense", request_sense()), ("inquiry", inquiry()), ("read-capacity", READ_CAPACITY),
        ("read", read(0, 1)), ("write", write(0, 1)), ("code-1A", "1A0000000000"), ("code-FF", "FF0000000000"))
THE_REST = tuple((name, cdb) for name, cdb in EACH if name not in ("request-sense", "inquiry"))
# those that send something, and what they want
SENDING = (("request-sense", request_sense(), 18), ("inquiry", inquiry(), 36), ("read-capacity", READ_CAPACITY, 8), ("read", read(99, 1), 512))


def no_paired_login():
    """"No paired login: drive LOGO, login ended (house)"."""
    fresh("01020408")
    answers("prli", prli(0x08), prli_acc, "01p29 02p29 04p29 08P29")
    opens(0x08, 0x0101, "01p29 02p29 04p29 08P29:0101")
    answers("unpaired", test_unit(0x02), logout, "01p29 . 04p29 08P29:0101")
    answers("unpaired-again", test_unit(0x02), logout, "01p29 . 04p29 08P29:0101")  # now there is no login at all
    answers("never-logged-in", test_unit(0xE8), logout, "01p29 . 04p29 08P29:0101")
    answers("unpaired-size-28", cmnd(0x01, 0x0102, inquiry(), 36, size=28), logout, ". . 04p29 08P29:0101")  # before the size
    answers("unpaired-target-reset", task(0x04, 0x20), logout, ". . . 08P29:0101")  # before the task flags
    answers("plogi", login(0x01), login_acc, "01p29 . . 08P29:0101")
    answers("unpaired-inquiry", cmnd(0x01, 0x0102, inquiry(), 36), logout, ". . . 08P29:0101")
    answers("plogi", login(0x01), login_acc, "01p29 . . 08P29:0101")
    answers("prli", prli(0x01), prli_acc, "01P29 . . 08P29:0101")
    answers("paired", test_unit(0x01), check("06/29/00"), "01P . . 08P29:0101")
    answers("paired-again", test_unit(0x01), good(), "01P . . 08P29:0101")
    opens(0x01, 0x0101, "01P:0101 . . 08P29:0101")
    answers("prlo", prlo(0x01), prlo_acc, "01p . . 08P29:0101")
    answers("after-prlo", test_unit(0x01), logout, ". . . 08P29:0101")


def response_codes():
    """"RSP_CODE 02 for a size other than 32, both data bits, a task flag of 01h, 08h, 10h, or two flags. 80h, 40h: 04"."""
    paired("0102")
    opens(0x01, 0x0101, "01P29:0101 02P29")
    opens(0x02, 0x0102, "01P29:0101 02P29:0102")
    same = "01P29:0101 02P29:0102"  # none of these changes anything, and "RSP_CODE .. answers give 0" whatever FCP_DL is
    for size in (0, 4, 28, 36, 2112):
        for ox_id in (0x0101, 0x0103):  # open, and not: the tests are "for the rest"
            answers("cmnd-size-%d" % size, cmnd(0x01, ox_id, inquiry(), 36, size=size), code("02"), same)
        for flag in (0x20, 0x80, 0x04):
            answers("cmnd-size-%d-flag-%02X" % (size, flag), task(0x01, flag, dl=4096, size=size), code("02"), same)
    for bits in (0x03, 0xFF):
        for ox_id in (0x0101, 0x0103):
            answers("both-bits-%02X" % bits, cmnd(0x01, ox_id, inquiry(), 36, bits=bits), code("02"), same)
        for flag in (0x20, 0x80, 0x04):
            answers("both-bits-%02X-flag-%02X" % (bits, flag), cmnd(0x01, 0x0103, "", 4096, bits=bits, task=flag), code("02"), same)
    for ox_id in (0x0101, 0x0103):
        for lun in (ZERO_UNIT, OTHER_UNITS[1]):
            for flag in (0x01, 0x08, 0x10):
                answers("flag-%02X" % flag, cmnd(0x01, ox_id, "", 4096, lun=lun, task=flag), code("02"), same)
            for flag in (0x80, 0x40):
                answers("flag-%02X" % flag, cmnd(0x01, ox_id, "", 4096, lun=lun, task=flag), code("04"), same)
    flags = (0x80, 0x40, 0x20, 0x10, 0x08, 0x04, 0x02, 0x01)
    for n, one in enumerate(flags):
        for two in flags[n + 1:]:
            answers("flags-%02X-%02X" % (one, two), task(0x01, one + two, dl=4096), code("02"), same)
    answers("flags-all", task(0x01, 0xFF), code("02"), same)
    answers("flags-three", task(0x01, 0x26, lun=OTHER_UNITS[0]), code("02"), same)
    for flag in (0x04, 0x02):  # "with a nonzero LUN 05"
        for lun in OTHER_UNITS:
            answers("flag-%02X-lun" % flag, task(0x01, flag, dl=4096, lun=lun), code("05"), same)
        answers("flag-%02X-lun-open" % flag, cmnd(0x01, 0x0101, "", task=flag, lun=OTHER_UNITS[7]), code("05"), same)


def target_reset():
    """"20h target reset ends all exchanges and gives every login attention 29h"."""
    ready("01020408" "0F10")
    opens(0x01, 0x0101, "01P:0101 02P 04P 08P 0FP 10P")
    opens(0x02, 0x0101, "01P:0101 02P:0101 04P 08P 0FP 10P")
    opens(0x02, 0x0102, "01P:0101 02P:0101:0102 04P 08P 0FP 10P")
    opens(0x0F, 0x0103, "01P:0101 02P:0101:0102 04P 08P 0FP:0103 10P")
    answers("prlo", prlo(0x08), prlo_acc, "01P:0101 02P:0101:0102 04P 08p 0FP:0103 10P")
    event("reset", LOOP_RESET, "01U:0101 02U:0101:0102 04U 08u 0FU:0103 10U")
    answers("pdisc", pdisc(0x01), login_acc, "01P:0101 02U:0101:0102 04U 08u 0FU:0103 10U")
    answers("adisc", adisc(0x02), adisc_acc, "01P:0101 02P:0101:0102 04U 08u 0FU:0103 10U")
    answers("adisc", adisc(0x10), adisc_acc, "01P:0101 02P:0101:0102 04U 08u 0FU:0103 10P")
    # the sender, one that is not paired, and those that are not proven too
    answers("target-reset", task(0x01, 0x20), code("00"), "01P29 02P29 04U29 08u29 0FU29 10P29")
    keeps("kept-unproven-reset", 3, "01" "00" "00" "29" "FF" "01" "0840" "00000008 2000525400120008 1000525400120008")
    shows("open-after-reset", 1, "02P29", "")
    answers("target-reset-told", test_unit(0x01), check("06/29/00"), "01P 02P29 04U29 08u29 0FU29 10P29")
    answers("target-reset-told", test_unit(0x02), check("06/29/00"), "01P 02P 04U29 08u29 0FU29 10P29")
    opens(0x02, 0x0104, "01P 02P:0104 04U29 08u29 0FU29 10P29")
    # FCP_DL counts for nothing; a LUN makes a difference to 04h and 02h alone
    answers("target-reset-lun", task(0x02, 0x20, dl=4096, lun=OTHER_UNITS[0]), code("00"), "01P29 02P29 04U29 08u29 0FU29 10P29")
    answers("target-reset-again", task(0x10, 0x20), code("00"), "01P29 02P29 04U29 08u29 0FU29 10P29")
    opens(0x01, 0x0105, "01P29:0105 02P29 04U29 08u29 0FU29 10P29")
    answers("target-reset-open", cmnd(0x01, 0x0105, "", task=0x20), code("00"), "01P29 02P29 04U29 08u29 0FU29 10P29")


def clear_task_set():
    """"04h clear task set ends all .. after 04h each other login that lost one gets 2Fh unless 29h stands"."""
    ready("01020408" "0F10")
    opens(0x10, 0x0101, "01P 02P 04P 08P 0FP 10P:0101")
    answers("clear-one", task(0x01, 0x04), code("00"), "01P 02P 04P 08P 0FP 10P2F")
    answers("plogi", login(0x0F), login_acc, "01P 02P 04P 08P 0Fp29 10P2F")
    answers("prli", prli(0x0F), prli_acc, "01P 02P 04P 08P 0FP29 10P2F")
    opens(0x0F, 0x0101, "01P 02P 04P 08P 0FP29:0101 10P2F")
    opens(0x01, 0x0101, "01P:0101 02P 04P 08P 0FP29:0101 10P2F")
    opens(0x02, 0x0102, "01P:0101 02P:0102 04P 08P 0FP29:0101 10P2F")
    opens(0x02, 0x0103, "01P:0101 02P:0102:0103 04P 08P 0FP29:0101 10P2F")
    opens(0x08, 0x0104, "01P:0101 02P:0102:0103 04P 08P:0104 0FP29:0101 10P2F")
    event("reset", LOOP_RESET, "01U:0101 02U:0102:0103 04U 08U:0104 0FU29:0101 10U2F")
    answers("pdisc", pdisc(0x01), login_acc, "01P:0101 02U:0102:0103 04U 08U:0104 0FU29:0101 10U2F")
    answers("pdisc", pdisc(0x02), login_acc, "01P:0101 02P:0102:0103 04U 08U:0104 0FU29:0101 10U2F")
    answers("adisc", adisc(0x04), adisc_acc, "01P:0101 02P:0102:0103 04P 08U:0104 0FU29:0101 10U2F")
    answers("adisc", adisc(0x0F), adisc_acc, "01P:0101 02P:0102:0103 04P 08U:0104 0FP29:0101 10U2F")
    answers("adisc", adisc(0x10), adisc_acc, "01P:0101 02P:0102:0103 04P 08U:0104 0FP29:0101 10P2F")
    # 01 sent it, 02 and the unproven 08 lost one, 04 lost none, at 0F 29h stands, 10 lost none and keeps what it had
    answers("clear-task-set", task(0x01, 0x04), code("00"), "01P 02P2F 04P 08U2F 0FP29 10P2F")
    shows("open-after-clear", 1, "02P2F", "")
    opens(0x02, 0x0105, "01P 02P2F:0105 04P 08U2F 0FP29 10P2F")
    opens(0x04, 0x0105, "01P 02P2F:0105 04P:0105 08U2F 0FP29 10P2F")
    answers("clear-by-loser", task(0x02, 0x04), code("00"), "01P 02P2F 04P2F 08U2F 0FP29 10P2F")  # the sender's attention stands
    opens(0x02, 0x0106, "01P 02P2F:0106 04P2F 08U2F 0FP29 10P2F")
    answers("clear-once-more", task(0x01, 0x04, dl=4096), code("00"), "01P 02P2F 04P2F 08U2F 0FP29 10P2F")
    opens(0x0F, 0x0106, "01P 02P2F 04P2F 08U2F 0FP29:0106 10P2F")
    answers("clear-by-29", cmnd(0x0F, 0x0106, "", task=0x04), code("00"), "01P 02P2F 04P2F 08U2F 0FP29 10P2F")
    answers("clear-told", test_unit(0x02), check("06/2F/00"), "01P 02P 04P2F 08U2F 0FP29 10P2F")
    answers("clear-told-once", test_unit(0x02), good(), "01P 02P 04P2F 08U2F 0FP29 10P2F")
    answers("clear-told", test_unit(0x0F), check("06/29/00"), "01P 02P 04P2F 08U2F 0FP 10P2F")
    answers("reset-over-2F", task(0x01, 0x20), code("00"), "01P29 02P29 04P29 08U29 0FP29 10P29")


def abort_task_set():
    """"02h abort task set the sender's": no attention, and no other login's exchange."""
    ready("0102")
    opens(0x01, 0x0101, "01P:0101 02P")
    opens(0x01, 0x0102, "01P:0101:0102 02P")
    opens(0x02, 0x0101, "01P:0101:0102 02P:0101")
    answers("abort-task-set", task(0x01, 0x02), code("00"), "01P 02P:0101")
    answers("abort-none", task(0x01, 0x02, dl=4096), code("00"), "01P 02P:0101")
    opens(0x01, 0x0103, "01P:0103 02P:0101")
    answers("abort-open", cmnd(0x01, 0x0103, "", task=0x02), code("00"), "01P 02P:0101")
    answers("target-reset", task(0x01, 0x20), code("00"), "01P29 02P29")
    opens(0x02, 0x0101, "01P29 02P29:0101")
    answers("abort-with-29", task(0x02, 0x02), code("00"), "01P29 02P29")


def overlapped():
    """"(1) OX_ID open at this login: that exchange ends, 0B/4E/00"."""
    ready("0102")
    opens(0x02, 0x0101, "01P 02P:0101")  # the other login's stays
    for name, cdb in EACH + (("field", "120100002400"), ("outside", read(100, 1))):
        for how, changes in (("", {}), ("-lun", {"lun": OTHER_UNITS[1]}), ("-no-read-bit", {"bits": 0x00})):
            opens(0x01, 0x0101, "01P:0101 02P:0101")
            answers("overlap-" + name + how, cmnd(0x01, 0x0101, cdb, 512, **changes), check("0B/4E/00", 512), "01P 02P:0101")
    opens(0x01, 0x0101, "01P:0101 02P:0101")
    opens(0x01, 0x0102, "01P:0101:0102 02P:0101")
    opens(0x01, 0x0103, "01P:0101:0102:0103 02P:0101")
    answers("overlap-just-that", cmnd(0x01, 0x0102, read(0, 1)), check("0B/4E/00"), "01P:0101:0103 02P:0101")
    shows("overlap-freed", 0, "01P", exchange(0x0101, "INQUIRY", 36, 36) + " . " + exchange(0x0103, "INQUIRY", 36, 36))
    opens(0x01, 0x0102, "01P:0101:0102:0103 02P:0101")  # "A freed place is used again"
    answers("target-reset", task(0x02, 0x20), code("00"), "01P29 02P29")
    for name, cdb in EACH:
        opens(0x01, 0x0101, "01P29:0101 02P29")
        # before test 3: the attention is not cleared
        answers("overlap-attention-" + name, cmnd(0x01, 0x0101, cdb, 18), check("0B/4E/00", 18), "01P29 02P29")


def other_units():
    """"(2) LUN not 0, 05/25/00"; "INQUIRY and REQUEST SENSE skip 2 and 3"."""
    paired("01")
    for lun in OTHER_UNITS:
        answers("lun-test-unit-ready", test_unit(0x01, lun=lun), check("05/25/00"), "01P29")  # before test 3: the attention stands
        answers("lun-inquiry", cmnd(0x01, 0x0101, inquiry(), 36, lun=lun), nothing, "01P29:0101")
        answers("lun-request-sense", cmnd(0x01, 0x0102, request_sense(), 18, lun=lun), nothing, "01P29:0101:0102")
        # "7Fh first for another LUN"; "or 05/25/00 for another LUN"
        shows("lun-open", 0, "01P29", exchange(0x0101, "INQUIRY-7F", 36, 36) + " " + exchange(0x0102, "SENSE-052500", 18, 18))
        answers("abort-task-set", task(0x01, 0x02), code("00"), "01P29")
    for name, cdb in THE_REST + (("field", "25000100000000000000"), ("outside", read(100, 1))):
        answers("lun-" + name, cmnd(0x01, 0x0101, cdb, 512, lun=OTHER_UNITS[0]), check("05/25/00", 512), "01P29")
        answers("lun-no-read-bit-" + name, cmnd(0x01, 0x0101, cdb, 512, bits=0x01, lun=OTHER_UNITS[1]), check("05/25/00", 512), "01P29")


def attentions():
    """"(3) attention, 06/29/00 or 06/2F/00, and cleared"; "the attention, cleared as its exchange opens"."""
    paired("0102")
    opens(0x01, 0x0101, "01P29:0101 02P29")  # INQUIRY skips the test, and leaves the attention
    answers("inquiry-none", cmnd(0x01, 0x0102, inquiry(0)), good(), "01P29:0101 02P29")
    for name, cdb in THE_REST + (("field", "280100000000000001"), ("outside", read(100, 1))):  # before tests 4 to 8
        answers("target-reset", task(0x02, 0x20), code("00"), "01P29 02P29")
        answers("attention-29-" + name, cmnd(0x01, 0x0101, cdb, 512), check("06/29/00", 512), "01P 02P29")
        opens(0x01, 0x0101, "01P:0101 02P29")
        answers("clear-task-set", task(0x02, 0x04), code("00"), "01P2F 02P29")
        answers("attention-2F-" + name, cmnd(0x01, 0x0101, cdb, 512, bits=0x00), check("06/2F/00", 512), "01P 02P29")
    for shown, sends in (("01P29", "SENSE-062900"), ("01P2F", "SENSE-062F00")):
        if shown == "01P29":
            answers("target-reset", task(0x02, 0x20), code("00"), "01P29 02P29")
        else:
            opens(0x01, 0x0101, "01P:0101 02P29")
            answers("clear-task-set", task(0x02, 0x04), code("00"), "01P2F 02P29")
        for name, f, reply in (("none", cmnd(0x01, 0x0101, request_sense(0)), good()),
                               ("none-of-18", cmnd(0x01, 0x0101, request_sense(0), 18), under(18)),
                               ("dl-0", cmnd(0x01, 0x0101, request_sense(), 0), over(18)),
                               ("no-read-bit", cmnd(0x01, 0x0101, request_sense(), 18, bits=0x00), code("02")),
                               ("write-bit", cmnd(0x01, 0x0101, request_sense(), 18, bits=0x01), code("02"))):
            answers("sense-not-cleared-" + name, f, reply, shown + " 02P29")  # no exchange opens
        answers("sense-not-cleared-lun", cmnd(0x01, 0x0101, request_sense(), 18, lun=OTHER_UNITS[1]), nothing, shown + ":0101 02P29")
        answers("sense-cleared", cmnd(0x01, 0x0102, request_sense(), 18), nothing, "01P:0101:0102 02P29")
        answers("sense-again", cmnd(0x01, 0x0103, request_sense(), 18), nothing, "01P:0101:0102:0103 02P29")
        shows("sense-open", 0, "01P", " ".join((exchange(0x0101, "SENSE-052500", 18, 18), exchange(0x0102, sends, 18, 18),
                                               exchange(0x0103, "SENSE-000000", 18, 18))))
        answers("sense-then", test_unit(0x01), good(), "01P:0101:0102:0103 02P29")
        answers("abort-task-set", task(0x01, 0x02), code("00"), "01P 02P29")
    answers("first-of-the-other", test_unit(0x02), check("06/29/00"), "01P 02P")
    answers("target-reset", task(0x01, 0x20), code("00"), "01P29 02P29")
    answers("sense-of-one-byte", cmnd(0x01, 0x0101, request_sense(1), 1), nothing, "01P:0101 02P29")  # it is cleared however little is sent
    shows("sense-of-one-byte-open", 0, "01P", exchange(0x0101, "SENSE-062900", 1, 1))


def codes_and_writes():
    """"(4) code not 00h, 03h, 12h, 25h, 28h, 2Ah, 05/20/00; (5) 2Ah, 07/27/00"."""
    ready("01")
    for number in (0x01, 0x02, 0x04, 0x08, 0x0A, 0x10, 0x11, 0x13, 0x15, 0x1A, 0x1B, 0x23, 0x24, 0x26, 0x27, 0x29, 0x2B, 0x2E, 0x2F, 0x34, 0x35,
                   0x3B, 0x3C, 0x52, 0x80, 0x83, 0x88, 0x92, 0x9E, 0xA0, 0xA5, 0xA8, 0xAA, 0xFF):
        answers("code-%02X-command" % number, cmnd(0x01, 0x0101, "%02X01FFFFFFFFFFFFFF" % number, 36), check("05/20/00", 36), "01P")
        answers("code-%02X-no-data" % number, cmnd(0x01, 0x0101, "%02X" % number, bits=0x00), check("05/20/00"), "01P")
    for name, cdb in (("", write(0, 1)), ("-nothing", write(0, 0)), ("-outside", write(100, 1)), ("-field", "2A0100000000000001")):
        for bits in (0x00, 0x01, 0x02):
            answers("write%s-%d" % (name, bits), cmnd(0x01, 0x0101, cdb, 512, bits=bits), check("07/27/00", 512), "01P")
    answers("write-dl-0", cmnd(0x01, 0x0101, write(0, 1)), check("07/27/00"), "01P")


def fields():
    """"(6) INQUIRY byte 1 bit 0 or byte 2, READ CAPACITY bytes 2-5 or byte 8 bit 0, READ(10) byte 1 bit 0 set, 05/24/00"."""
    ready("01")
    for name, cdb in (("inquiry-byte-1", "120100002400"), ("inquiry-byte-1-all", "12FF00002400"),
                      ("inquiry-byte-2-low", "120001002400"), ("inquiry-byte-2-high", "120080002400"), ("inquiry-both", "120183002400"),
                      ("capacity-byte-2-low", "25000100000000000000"), ("capacity-byte-2-high", "25008000000000000000"),
                      ("capacity-byte-3-low", "25000001000000000000"), ("capacity-byte-3-high", "25000080000000000000"),
                      ("capacity-byte-4-low", "25000000010000000000"), ("capacity-byte-4-high", "25000000800000000000"),
                      ("capacity-byte-5-low", "25000000000100000000"), ("capacity-byte-5-high", "25000000008000000000"),
                      ("capacity-byte-8", "25000000000000000100"), ("capacity-byte-8-all", "2500000000000000FF00"),
                      ("read-byte-1", "28010000000000000100"), ("read-byte-1-all", "28FF0000000000000100"),
                      ("read-outside", "28010000006400000100"), ("read-nothing", "28010000000000000000")):
        answers("field-" + name, cmnd(0x01, 0x0101, cdb, 512), check("05/24/00", 512), "01P")
        answers("field-%s-dl-0" % name, cmnd(0x01, 0x0101, cdb, 0), check("05/24/00"), "01P")
        # before test 8
        answers("field-%s-no-read-bit" % name, cmnd(0x01, 0x0101, cdb, 512, bits=0x00), check("05/24/00", 512), "01P")
    answers("field-inquiry-lun", cmnd(0x01, 0x0101, "120100002400", 36, lun=OTHER_UNITS[1]), check("05/24/00", 36), "01P")
    answers("target-reset", task(0x01, 0x20), code("00"), "01P29")
    answers("field-inquiry-attention", cmnd(0x01, 0x0101, "120100002400", 36), check("05/24/00", 36), "01P29")


def edges():
    """"(7) READ(10) address not below capacity, or address plus count above it, 05/21/00"; the slip: "adding address and count in 32 bits"."""
    for capacity, inside, outside in (
            (100, ((99, 1), (0, 100), (98, 2), (0, 1)),
             ((99, 2), (100, 0), (100, 1), (0, 101), (1, 100), (98, 3), (355, 1), (2147483648, 1), (4294967295, 0), (4294967295, 1),
              (4294967295, 101))),
            (1, ((0, 1),), ((0, 2), (1, 0), (1, 1), (0, 65535), (4294967295, 1), (4294967295, 2))),
            (8388609, ((8388608, 1), (8323074, 65535)), ((8388608, 2), (8388609, 0), (8323075, 65535))),
            (4294967295, ((4294967294, 1), (4294901760, 65535), (0, 65535), (2147483648, 1)),
             ((4294967294, 2), (4294967294, 3), (4294967294, 65535), (4294967295, 0), (4294967295, 1), (4294967295, 2), (4294967295, 65535),
              (4294901761, 65535), (4294901762, 65535), (4294967280, 16), (4294967280, 17)))):
        ready("01", capacity)
        listed, after = [], "01P"
        for n, (address, count) in enumerate(inside):
            after += ":%04X" % (0x0101 + n)
            answers("read-%d-%d" % (address, count), cmnd(0x01, 0x0101 + n, read(address, count), 512 * count), nothing, after)
            listed.append(exchange(0x0101 + n, "READ", 512 * count, 512 * count, address, count))
        shows("read-open", 0, "01P", " ".join(listed))
        for address, count in outside:
            answers("outside-%d-%d" % (address, count), cmnd(0x01, 0x0201, read(address, count), 512), check("05/21/00", 512), after)
        address, count = outside[0]
        # before test 8, and whatever there is to send
        answers("outside-dl-0", cmnd(0x01, 0x0201, read(address, count)), check("05/21/00"), after)
        answers("outside-no-read-bit", cmnd(0x01, 0x0201, read(address, count), 1024, bits=0x00), check("05/21/00", 1024), after)
        for dl, reply in ((0, good()), (512, under(512))):  # count 0 below the capacity is no fault
            answers("read-no-block", cmnd(0x01, 0x0201, read(capacity - 1, 0), dl, bits=0x00), reply, after)


def no_read_bit():
    """"(8) bytes to send without the read bit, RSP_CODE 02": FCP_DL 0, or nothing wanted, passes."""
    ready("01")
    for name, cdb, wants in SENDING:
        for bits in (0x00, 0x01, 0xFC, 0xFD):
            for dl in (1, wants, HIGHEST):
                answers("no-read-bit-%s-%02X" % (name, bits), cmnd(0x01, 0x0101, cdb, dl, bits=bits), code("02"), "01P")
            answers("no-read-bit-%s-%02X-dl-0" % (name, bits), cmnd(0x01, 0x0101, cdb, 0, bits=bits), over(wants), "01P")


def room():
    """"(9) bytes to send, eight open, status 28h"; "each with 8 places for open exchanges of its own. A freed place is used again"."""
    ready("0102")
    eight = "01P"
    for ox_id in range(0x0101, 0x0109):
        eight += ":%04X" % ox_id
        opens(0x01, ox_id, eight + " 02P")
    for name, cdb, wants in SENDING:
        for dl in (1, wants, HIGHEST):
            answers("eight-" + name, cmnd(0x01, 0x0109, cdb, dl), eight_open(dl), eight + " 02P")
        answers("eight-%s-dl-0" % name, cmnd(0x01, 0x0109, cdb, 0), over(wants), eight + " 02P")  # nothing to send
        answers("eight-%s-no-read-bit" % name, cmnd(0x01, 0x0109, cdb, wants, bits=0x00), code("02"), eight + " 02P")  # before test 9
    for name, cdb, triple in (("code", "FF", "05/20/00"), ("write", write(0, 1), "07/27/00"), ("field", "280100000000000001", "05/24/00"),
                              ("outside", read(100, 1), "05/21/00")):
        answers("eight-" + name, cmnd(0x01, 0x0109, cdb, 512), check(triple, 512), eight + " 02P")
    answers("eight-lun", cmnd(0x01, 0x0109, read(0, 1), 512, lun=OTHER_UNITS[1]), check("05/25/00", 512), eight + " 02P")
    answers("eight-test-unit-ready", test_unit(0x01), good(), eight + " 02P")
    answers("eight-read-no-block", cmnd(0x01, 0x0109, read(99, 0), 512), under(512), eight + " 02P")
    opens(0x02, 0x0109, eight + " 02P:0109")  # each login has its own
    # test 1 wins, and its place is the one that is free then
    answers("eight-overlap", cmnd(0x01, 0x0103, read(0, 1), 512), check("0B/4E/00", 512), "01P:0101:0102:0104:0105:0106:0107:0108 02P:0109")
    answers("eight-freed", cmnd(0x01, 0x0109, read(7, 2), 1024), nothing, "01P:0101:0102:0109:0104:0105:0106:0107:0108 02P:0109")
    answers("eight-full-again", cmnd(0x01, 0x010A, read(0, 1), 512), eight_open(512), "01P:0101:0102:0109:0104:0105:0106:0107:0108 02P:0109")
    answers("abts", abts(0x01, 0x0106), ba_acc, "01P:0101:0102:0109:0104:0105:0107:0108 02P:0109")
    answers("abts", abts(0x01, 0x0101), ba_acc, "01P:0102:0109:0104:0105:0107:0108 02P:0109")
    answers("lowest-free-first", cmnd(0x01, 0x010A, READ_CAPACITY, 8), nothing, "01P:010A:0102:0109:0104:0105:0107:0108 02P:0109")
    answers("lowest-free-second", cmnd(0x01, 0x010B, request_sense(), 18), nothing, "01P:010A:0102:0109:0104:0105:010B:0107:0108 02P:0109")
    shows("lowest-free-open", 0, "01P", " ".join((
        exchange(0x010A, "CAPACITY", 8, 8), exchange(0x0102, "INQUIRY", 36, 36), exchange(0x0109, "READ", 1024, 1024, 7, 2),
        exchange(0x0104, "INQUIRY", 36, 36), exchange(0x0105, "INQUIRY", 36, 36), exchange(0x010B, "SENSE-000000", 18, 18),
        exchange(0x0107, "INQUIRY", 36, 36), exchange(0x0108, "INQUIRY", 36, 36))))
    answers("abort-task-set", task(0x01, 0x02), code("00"), "01P 02P:0109")
    opens(0x01, 0x0103, "01P:0103 02P:0109")
    shows("lowest-free-of-all", 0, "01P", exchange(0x0103, "INQUIRY", 36, 36))
    paired("01")
    eight = "01P29"
    for ox_id in range(0x0101, 0x0109):
        eight += ":%04X" % ox_id
        opens(0x01, ox_id, eight)
    answers("eight-sense-attention", cmnd(0x01, 0x0109, request_sense(), 18), eight_open(18), eight)  # not cleared: no exchange opens
    answers("eight-overlap-sense", cmnd(0x01, 0x0108, request_sense(), 18), check("0B/4E/00", 18), "01P29:0101:0102:0103:0104:0105:0106:0107")
    answers("eight-sense-opens", cmnd(0x01, 0x0109, request_sense(), 18), nothing, "01P:0101:0102:0103:0104:0105:0106:0107:0109")
    answers("target-reset", task(0x01, 0x20), code("00"), "01P29")
    shows("none-open", 0, "01P29", "")


def wanted():
    """"Wanted: 0; 18 or byte 4 if smaller; 36 or byte 4 if smaller; 8; count × 512"; the residual where nothing is to be sent."""
    ready("01")
    commands = [(request_sense(most), "SENSE-000000", wants, 0, 0)
                for most, wants in ((1, 1), (17, 17), (18, 18), (19, 18), (36, 18), (255, 18))]
    commands += [(inquiry(most), "INQUIRY", wants, 0, 0)
                 for most, wants in ((1, 1), (18, 18), (35, 35), (36, 36), (37, 36), (255, 36))]
    commands += [(READ_CAPACITY, "CAPACITY", 8, 0, 0)]
    commands += [(read(start, count), "READ", wants, start, count)
                 for start, count, wants in ((3, 1, 512), (0, 2, 1024), (0, 100, 51200), (98, 2, 1024))]
    for cdb, sends, wants, start, count in commands:
        # less than wanted, as much, and more: 01's known numbers are 1,024 with FCP_DL 1,000 and 2,048, and FCP_DL 1,001
        lengths = (1, wants, wants + 1, 1000, 1001, 2048, HIGHEST)
        after = "01P"
        for n, dl in enumerate(lengths):
            after += ":%04X" % (0x0101 + n)
            answers("wanted-%s-dl-%d" % (sends, dl), cmnd(0x01, 0x0101 + n, cdb, dl), nothing, after)
        shows("wanted-%s-%d" % (sends, wants), 0, "01P",
              " ".join(exchange(0x0101 + n, sends, wants, dl, start, count) for n, dl in enumerate(lengths)))
        answers("abort-task-set", task(0x01, 0x02), code("00"), "01P")
        answers("wanted-%s-dl-0" % sends, cmnd(0x01, 0x0101, cdb, 0), over(wants), "01P")
    for name, cdb in (("test-unit-ready", TEST_UNIT_READY), ("request-sense-0", request_sense(0)), ("inquiry-0", inquiry(0)),
                      ("read-0", read(0, 0))):
        answers("wants-nothing-" + name, cmnd(0x01, 0x0101, cdb, 0), good(), "01P")
        for dl in (1, 256, 1001, 65536, HIGHEST):
            answers("wants-nothing-%s-dl-%d" % (name, dl), cmnd(0x01, 0x0101, cdb, dl), under(dl), "01P")
    for dl in (1, 256, 1001, 65536, HIGHEST):  # "0 when refused"
        answers("refused-dl-%d" % dl, cmnd(0x01, 0x0101, "FF", dl), check("05/20/00", dl), "01P")
    ready("01", HIGHEST)
    answers("wanted-most", cmnd(0x01, 0x0101, read(0, 65535), 1), nothing, "01P:0101")
    shows("wanted-most-open", 0, "01P", exchange(0x0101, "READ", 33553920, 1, 0, 65535))
    answers("wanted-most-dl-0", cmnd(0x01, 0x0102, read(0, 65535), 0), over(33553920), "01P:0101")


def unnamed_of_commands():
    """Bytes and bits of a command of which 01 says nothing, all ones; and every other field of the header, which no reply has."""
    header = {"seq_id": 0xA7, "rx_id": 0x4567, "reserved": 0x5C, "offset": 0x89ABCDEF}
    ones = {"byte_8": 0xFF, "attribute": 0xFF, **header}
    paired("0102")
    answers("unnamed-attention", cmnd(0x01, 0x8101, "00" + "FF" * 15, bits=0xFC, **ones), check("06/29/00"), "01P 02P29")
    answers("unnamed-test-unit-ready", cmnd(0x01, 0x8101, "00" + "FF" * 15, 7, bits=0xFD, **ones), under(7), "01P 02P29")
    after = "01P"
    for n, cdb in enumerate(("03FFFFFF24" + "FF" * 11, "12FE00FF24" + "FF" * 11, "25FF00000000FFFFFE" + "FF" * 7,
                             "28FE00000063FF0001" + "FF" * 7)):
        after += ":%04X" % (0x8101 + n)
        answers("unnamed-" + cdb[:2], cmnd(0x01, 0x8101 + n, cdb, 36, bits=0xFE, **ones), nothing, after + " 02P29")
    shows("unnamed-open", 0, "01P", " ".join((exchange(0x8101, "SENSE-000000", 18, 36), exchange(0x8102, "INQUIRY", 36, 36),
                                             exchange(0x8103, "CAPACITY", 8, 36), exchange(0x8104, "READ", 512, 36, 99, 1))))
    answers("unnamed-2A", cmnd(0x01, 0x8105, "2A" + "FF" * 15, 36, bits=0xFE, **ones), check("07/27/00", 36), after + " 02P29")
    answers("unnamed-overlap", cmnd(0x01, 0x8101, "FF" * 16, HIGHEST, bits=0xFE, **ones), check("0B/4E/00", HIGHEST), "01P:8102:8103:8104 02P29")
    answers("unnamed-abort", cmnd(0x01, 0xFFFF, "FF" * 16, HIGHEST, bits=0xFE, task=0x02, **ones), code("00"), "01P 02P29")
    answers("unnamed-clear-aca", cmnd(0x01, 0x0000, "FF" * 16, HIGHEST, bits=0xFC, task=0x40, **ones), code("04"), "01P 02P29")
    answers("unnamed-reset", cmnd(0x01, 0x0000, "FF" * 16, HIGHEST, bits=0xFD, task=0x20, **ones), code("00"), "01P29 02P29")
    answers("prlo", prlo(0x02), prlo_acc, "01P29 02p29")
    answers("unnamed-logout", cmnd(0x02, 0x8106, "FF" * 16, **ones), logout, "01P29")
    for attribute in (0x01, 0x02, 0x04, 0x05):  # "byte 9 attribute (ignored)"
        answers("attribute-%d" % attribute, cmnd(0x01, 0x0101, inquiry(0), attribute=attribute), good(), "01P29")


# the next frames


def gives(name, f, reply, after, start=0, window=b""):
    """The next frame of the exchange that the command f opened, from this window."""
    line(name, "N", asking(sender(f), ox_of(f), start, window), reply.hex().upper() + " " + table(after))


def passes(address, ox_id, count, start=0):
    """Many next frames, of which none is shown."""
    given.append(record("k", asking(address, ox_id, start) + count.to_bytes(4, "big")))


def ends(name, f, response, after):
    """"FCP_RSP follows and frees the place"; the next call finds no exchange."""
    gives(name + "-rsp", f, response(f), after)
    refuses(name + "-freed", 9, "N", asking(sender(f), ox_of(f)), after)


def reads(name, ox_id, address, count, dl, response, size=2048):
    """A READ of host 01, each data frame from a window that holds its own blocks from the first on and ends with the frame, and FCP_RSP."""
    f = cmnd(0x01, ox_id, read(address, count), dl)
    opened = "01P:%04X" % ox_id
    answers(name, f, nothing, opened)
    total = min(512 * count, dl)  # "To send: the smaller of wanted and FCP_DL"
    for number in range(-(-total // size)):  # "A frame carries the login's W18 size, 2,048 at most, or what is left"
        offset = number * size
        part, start, before = min(size, total - offset), address + offset // 512, offset % 512
        lent = unit(start, before + part)
        gives("%s-%d" % (name, number), f, data(f, number, offset, lent[before:], offset + part == total), opened, start, lent)
        shows("%s-%d-sent" % (name, number), 0, "01P", exchange(ox_id, "READ", 512 * count, dl, address, count, offset + part, number + 1))
    ends(name, f, response, "01P")


def reading():
    """READs through to FCP_RSP, with 01's known numbers."""
    ready("01")
    reads("next-read", 0x0101, 3, 9, 4608, good())  # two full frames and what is left
    reads("next-dl-1001", 0x0102, 4, 2, 1001, over(23))  # "FCP_DL 1,001: 3 fill bytes, F_CTL 88000B"
    reads("next-dl-1000", 0x0103, 98, 2, 1000, over(24))  # "wanted 1,024 with FCP_DL 1,000, 2,048: flag 04h by 24, 08h by 1,024"
    reads("next-dl-2048", 0x0104, 98, 2, 2048, under(1024))
    reads("next-dl-1", 0x0105, 99, 1, 1, over(511))
    reads("next-dl-2050", 0x0106, 20, 5, 2050, over(510))  # two fill bytes, in the last frame alone
    reads("next-dl-2051", 0x0107, 20, 5, 2051, over(509))
    ready("01", w18=bytes.fromhex("0204"))
    reads("next-size-516", 0x0101, 7, 4, 2048, good(), 516)  # frames that start inside a block
    ready("01", w18=bytes.fromhex("0840"))
    reads("next-size-2112", 0x0101, 7, 5, 2560, good())  # "2,048 at most"


def far():
    """"block 8,388,608 is byte 4,294,967,296": a READ of that block and the one before it, in one frame and in two."""
    for name, size in (("next-far", 2048), ("next-far-512", 512)):
        ready("01", 8388609, w18=size.to_bytes(2, "big"))
        reads(name, 0x0101, 8388607, 2, 1024, good(), size)
    f = cmnd(0x01, 0x0102, read(8388608, 1), 512)
    answers("next-far-last", f, nothing, "01P:0102")
    for name, start in (("zero", 0), ("before", 8388607), ("after", 8388609), ("doubled", 16777216)):  # its byte in 32 bits is 0
        refuses("next-far-last-" + name, 10, "N", asking(0x01, 0x0102, start, bytes(512)), "01P:0102")
    gives("next-far-last-0", f, data(f, 0, 0, unit(8388608, 512), True), "01P:0102", 8388608, unit(8388608, 512))
    ends("next-far-last", f, good(), "01P")


def going_round():
    """"size 256, frame 65,537 has SEQ_CNT 0": a READ of 65,535 blocks, 131,070 frames."""
    ready("01", 65542, w18=bytes.fromhex("0100"))
    f = cmnd(0x01, 0x0101, read(7, 65535), 33553920)
    answers("next-long", f, nothing, "01P:0101")
    asked = 0
    for number in (1, 2, 65536, 65537, 131069, 131070):  # the frame of this number, counted from 1, from half of its block
        for passed in range(asked, number - 1, 250):  # these are of 126 blocks at most, and the window has more
            passes(0x01, 0x0101, min(250, number - 1 - passed), 7 + passed // 2)
        offset = 256 * (number - 1)
        start = 7 + offset // 512
        lent = bytes([start % 251]) * 512
        gives("next-long-%d" % number, f, data(f, number - 1, offset, lent[:256], number == 131070), "01P:0101", start, lent)
        shows("next-long-%d-sent" % number, 0, "01P", exchange(0x0101, "READ", 33553920, 33553920, 7, 65535, offset + 256, number % 65536))
        asked = number
    ends("next-long", f, good(), "01P")
    passes(0x01, 0x0101, 1)
    refuses("next-long-over", 9, "N", asking(0x01, 0x0101), "01P")


def fetches(name, f, content, response, opened, after):
    """A command whose data are made: "made data and FCP_RSP need no cover"."""
    answers(name, f, nothing, opened)
    gives(name + "-data", f, data(f, 0, 0, content, True), opened)
    ends(name, f, response, after)


def made_data():
    """Made data of every kind, each with its FCP_RSP."""
    paired("01")
    other = OTHER_UNITS[1]
    fetches("made-inquiry", cmnd(0x01, 0x0101, inquiry(), 36), inquiry_data(), good(), "01P29:0101", "01P29")
    fetches("made-inquiry-lun", cmnd(0x01, 0x0102, inquiry(), 36, lun=other), inquiry_data(1), good(), "01P29:0102", "01P29")
    fetches("made-sense-052500", cmnd(0x01, 0x0103, request_sense(), 18, lun=other), sense_data("05/25/00"), good(), "01P29:0103", "01P29")
    fetches("made-sense-062900", cmnd(0x01, 0x0104, request_sense(), 18), sense_data("06/29/00"), good(), "01P:0104", "01P")
    fetches("made-sense-000000", cmnd(0x01, 0x0105, request_sense(), 18), sense_data("00/00/00"), good(), "01P:0105", "01P")
    fetches("made-capacity", cmnd(0x01, 0x0106, READ_CAPACITY, 8), capacity_data(), good(), "01P:0106", "01P")
    fetches("made-inquiry-5", cmnd(0x01, 0x0107, inquiry(5), 5), inquiry_data()[:5], good(), "01P:0107", "01P")  # "36 or byte 4 if smaller"
    fetches("made-inquiry-255", cmnd(0x01, 0x0108, inquiry(255), 255), inquiry_data(), under(219), "01P:0108", "01P")
    fetches("made-sense-252", cmnd(0x01, 0x0109, request_sense(252), 252), sense_data("00/00/00"), under(234), "01P:0109", "01P")
    fetches("made-capacity-dl-7", cmnd(0x01, 0x010A, READ_CAPACITY, 7), capacity_data()[:7], over(1), "01P:010A", "01P")
    ready("0102")
    opens(0x01, 0x0101, "01P:0101 02P")
    answers("clear-task-set", task(0x02, 0x04), code("00"), "01P2F 02P")
    fetches("made-sense-062F00", cmnd(0x01, 0x0102, request_sense(), 18), sense_data("06/2F/00"), good(), "01P:0102 02P", "01P 02P")
    f = cmnd(0x01, 0x0103, inquiry(), 36)
    answers("made-window", f, nothing, "01P:0103 02P")
    gives("made-window-data", f, data(f, 0, 0, inquiry_data(), True), "01P:0103 02P", 2 ** 64 - 1, b"\xFF" * 2122)  # none of its bytes
    ends("made-window", f, good(), "01P 02P")
    ready("01", HIGHEST)
    fetches("made-capacity-most", cmnd(0x01, 0x0101, READ_CAPACITY, 8), capacity_data(HIGHEST), good(), "01P:0101", "01P")


def next_refusals():
    """"Next frame out: 1, 2, 9, 7, 10", each with the exchange left where it is."""
    ready("0102")
    f, g = cmnd(0x01, 0x0101, read(10, 6), 3000), cmnd(0x01, 0x0102, inquiry(), 36)
    answers("next-refused-read", f, nothing, "01P:0101 02P")
    answers("next-refused-inquiry", g, nothing, "01P:0101:0102 02P")
    both = "01P:0101:0102 02P"
    for name, address, ox_id in (("ox-id", 0x01, 0x0103), ("other-login", 0x02, 0x0101), ("no-login", 0x04, 0x0101), ("ours", 0xEF, 0x0101),
                                 ("zero", 0x00, 0x0101), ("upper", 0x01000001, 0x0101), ("middle", 0x0101, 0x0101)):
        refuses("next-none-" + name, 9, "N", asking(address, ox_id, 10, unit(10, 2048)), both)
        refuses("next-none-%s-window" % name, 9, "N", asking(address, ox_id), both)  # before the window
    for name, start, size in (("before", 9, 2048), ("after", 11, 2048), ("short", 10, 2047), ("none", 10, 0), ("most", 2 ** 64 - 1, 2048),
                              ("wrapped", 2 ** 55 + 10, 2048)):  # 512 times 2 to the 55th is 0 in 64 bits
        refuses("next-window-" + name, 10, "N", asking(0x01, 0x0101, start, bytes(size)), both)
    gives("next-covered", f, data(f, 0, 0, unit(10, 2048), False), both, 10, unit(10, 2048))
    refuses("next-window-same", 10, "N", asking(0x01, 0x0101, 10, unit(10, 2048)), both)  # the second frame is in blocks 14 and 15
    refuses("next-window-second-short", 10, "N", asking(0x01, 0x0101, 14, unit(14, 951)), both)
    event("reset", LOOP_RESET, "01U:0101:0102 02U")
    refuses("next-unproven", 7, "N", asking(0x01, 0x0101, 14, unit(14, 952)), "01U:0101:0102 02U")
    refuses("next-unproven-window", 7, "N", asking(0x01, 0x0101), "01U:0101:0102 02U")  # before the window
    refuses("next-unproven-made", 7, "N", asking(0x01, 0x0102), "01U:0101:0102 02U")
    refuses("next-unproven-ox-id", 9, "N", asking(0x01, 0x0103), "01U:0101:0102 02U")  # after the exchange
    passes(0x01, 0x0101, 2, 14)
    refuses("next-unproven-many", 7, "N", asking(0x01, 0x0101, 14, unit(14, 952)), "01U:0101:0102 02U")
    shows("next-unproven-open", 0, "01U", exchange(0x0101, "READ", 3072, 3000, 10, 6, 2048, 1) + " " + exchange(0x0102, "INQUIRY", 36, 36))
    answers("pdisc", pdisc(0x01), login_acc, "01P:0101:0102 02U")
    gives("next-proven", f, data(f, 1, 2048, unit(14, 952), True), "01P:0101:0102 02U", 14, unit(14, 952))
    ends("next-proven", f, over(72), "01P:0102 02U")
    answers("abts", abts(0x01, 0x0102), ba_acc, "01P 02U")
    refuses("next-aborted", 9, "N", asking(0x01, 0x0102), "01P 02U")


def changed(f, at, value):
    """A frame with another byte at a place of its header."""
    return f[:at] + bytes([value]) + f[at + 1:]


# writing: 02, 2


def lends(name, f, start, window, stored, after, reply=nothing):
    """A frame with a window that begins at a block: the reply to it, every byte of the window after it, and the table."""
    line(name, "D", lending(f, start, window), " ".join(text for text in (reply(f).hex().upper() or "-", stored.hex().upper(), table(after)) if text))


def lends_in_vain(name, number, f, start, window, after):
    """It is refused, and "changes no lent byte"."""
    line(name, "D", lending(f, start, window), " ".join(text for text in ("refused %d" % number, window.hex().upper(), table(after)) if text))


def writes_to(f, awaited, bytes_sent=0):
    """The exchange that the WRITE f opened: 02, 2: "The exchange record gains a direction"; of the drive's data frames none is sent."""
    address, count, dl = (int.from_bytes(f[a:b], "big") for a, b in ((38, 42), (43, 45), (52, 56)))
    return exchange(ox_of(f), "WRITE", 512 * count, dl, address, count, bytes_sent) + ",from-host" + ",awaited" * awaited


def asked_for(name, f, after, offset, burst):
    """FCP_XFER_RDY; "nothing while data is awaited", and then nothing changes."""
    gives(name + "-ready", f, xfer_rdy(f, offset, burst), after)
    shows(name + "-ready-open", 0, "01P", writes_to(f, True, offset))
    line(name + "-awaited", "N", asking(sender(f), ox_of(f)), "- " + table(after))
    shows(name + "-awaited-open", 0, "01P", writes_to(f, True, offset))


def takes(name, f, offset, size, after, awaited, behind=0, **changes):
    """A data frame that is taken, in a window that begins with the block of its first byte and has this many bytes behind it: only its own change."""
    start, before = int.from_bytes(f[38:42], "big") + offset // 512, offset % 512
    lent = unit(start, before + size + behind)
    lends(name, sent(f, offset, news(offset, size), **changes), start, lent, lent[:before] + news(offset, size) + lent[before + size:], after)
    shows(name + "-open", 0, "01P", writes_to(f, awaited, offset + size))


def writes(name, ox_id, address, count, dl, response, sizes, behind=0):
    """A WRITE of host 01, of at most a burst, with data frames of these sizes, to its FCP_RSP."""
    f = wcmnd(0x01, ox_id, address, count, dl)
    opened, total = "01P:%04X" % ox_id, min(512 * count, dl)  # to take: the smaller of wanted and FCP_DL
    answers(name, f, nothing, opened)
    shows(name + "-opened", 0, "01P", writes_to(f, False))
    asked_for(name, f, opened, 0, total)
    offset = 0
    for number, size in enumerate(sizes):
        takes("%s-%d" % (name, number), f, offset, size, opened, offset + size < total, behind, number=number)
        offset += size
    ends(name, f, response, "01P")
    lends_in_vain(name + "-over", 11, sent(f, offset, b""), address, unit(address, 4), "01P")


def writing():
    """WRITEs through to FCP_RSP, with 01's known numbers; fill bytes are none of the data, and a frame may end anywhere."""
    ready("01", writable=1)
    writes("write", 0x0101, 40, 2, 1024, good(), (1024,))
    writes("write-frames", 0x0102, 3, 9, 4608, good(), (2048, 2112, 448))
    writes("write-odd", 0x0103, 99, 1, 512, good(), (1, 2, 0, 3, 505, 1), behind=7)
    writes("write-dl-1000", 0x0104, 98, 2, 1000, over(24), (1000,), behind=24)  # the last 24 bytes of the second block stay
    writes("write-dl-1001", 0x0105, 98, 2, 1001, over(23), (1001,), behind=23)
    writes("write-dl-2048", 0x0106, 98, 2, 2048, under(1024), (1024,))
    writes("write-dl-1", 0x0107, 0, 1, 1, over(511), (1,), behind=511)
    f = wcmnd(0x01, 0x0108, 50, 2)
    answers("write-counted", f, nothing, "01P:0108")
    asked_for("write-counted", f, "01P:0108", 0, 1024)
    takes("write-counted-0", f, 0, 512, "01P:0108", True, last=True, number=0xFFFF)  # "any SEQ_CNT"; a sequence that stops short of the burst is no fault
    takes("write-counted-1", f, 512, 512, "01P:0108", False, last=False, number=0x1234)
    ends("write-counted", f, good(), "01P")


def write_far():
    """"block 8,388,608 is byte 4,294,967,296": a window from block 0 on does not hold it."""
    ready("01", 8388609, writable=1)
    f = wcmnd(0x01, 0x0101, 8388608, 1)
    answers("write-far", f, nothing, "01P:0101")
    asked_for("write-far", f, "01P:0101", 0, 512)
    for name, start in (("zero", 0), ("before", 8388607), ("after", 8388609), ("doubled", 16777216), ("wrapped", 2 ** 55 + 8388608)):
        lends_in_vain("write-far-" + name, 10, sent(f, 0, news(0, 512)), start, bytes(512), "01P:0101")
    takes("write-far-data", f, 0, 512, "01P:0101", False)
    ends("write-far", f, good(), "01P")
    writes("write-across", 0x0102, 8388607, 2, 1024, good(), (1024,))
    writes("write-across-odd", 0x0103, 8388607, 2, 1024, good(), (500, 24, 500))


def write_tests():
    """"read-only units still give 07/27/00 at test 5, tests 6 and 7 treat WRITE(10) as READ(10), and test 8 asks the write bit for a write"."""
    ready("01", writable=1)
    f = wcmnd(0x01, 0x0101, 0, 1)
    for name, cdb in (("byte-1", "2A010000000000000100"), ("byte-1-all", "2AFF0000000000000100"), ("outside", "2A010000006400000100"), ("nothing", "2A010000000000000000")):
        for bits in (0x00, 0x01):
            answers("write-field-%s-%d" % (name, bits), cmnd(0x01, 0x0101, cdb, 512, bits=bits), check("05/24/00", 512), "01P")
    for address, count in ((99, 2), (100, 0), (100, 1), (0, 101), (4294967295, 1), (4294967295, 101)):
        for bits in (0x00, 0x01):
            answers("write-outside-%d-%d" % (address, count), wcmnd(0x01, 0x0101, address, count, 512, bits), check("05/21/00", 512), "01P")
    for bits in (0x00, 0x02, 0xFC, 0xFE):  # without the write bit, and "the read bit does not help"
        for dl in (1, 512, HIGHEST):
            answers("no-write-bit-%02X" % bits, wcmnd(0x01, 0x0101, 99, 1, dl, bits), code("02"), "01P")
        answers("no-write-bit-%02X-dl-0" % bits, wcmnd(0x01, 0x0101, 99, 1, 0, bits), over(512), "01P")  # nothing to take needs no bit
        answers("no-write-bit-%02X-no-block" % bits, wcmnd(0x01, 0x0101, 99, 0, 512, bits), under(512), "01P")
    answers("write-both-bits", wcmnd(0x01, 0x0101, 99, 1, 512, 0x03), code("02"), "01P")
    answers("read-with-write-bit", cmnd(0x01, 0x0101, read(99, 1), 512, bits=0x01), code("02"), "01P")
    answers("write-no-block", wcmnd(0x01, 0x0101, 99, 0), good(), "01P")
    answers("write-no-byte", wcmnd(0x01, 0x0101, 98, 2, 0), over(1024), "01P")  # no exchange opens, and nothing is written
    lends_in_vain("write-no-byte-data", 11, sent(f, 0, news(0, 4)), 0, unit(0, 4), "01P")
    answers("unnamed-write", cmnd(0x01, 0x8101, "2AFE00000063FF0001" + "FF" * 7, 36, bits=0xFD, byte_8=0xFF, attribute=0xFF), nothing, "01P:8101")
    shows("unnamed-write-open", 0, "01P", writes_to(wcmnd(0x01, 0x8101, 99, 1, 36), False))
    ready("01", HIGHEST, writable=1)
    answers("write-most", wcmnd(0x01, 0x0101, 4294901760, 65535, HIGHEST), nothing, "01P:0101")
    shows("write-most-open", 0, "01P", writes_to(wcmnd(0x01, 0x0101, 4294901760, 65535, HIGHEST), False))
    asked_for("write-most", wcmnd(0x01, 0x0101, 4294901760, 65535, HIGHEST), "01P:0101", 0, 65536)
    ready("01")
    for bits in (0x00, 0x01, 0x02):
        answers("write-read-only-%d" % bits, wcmnd(0x01, 0x0101, 0, 1, bits=bits), check("07/27/00", 512), "01P")
    lends_in_vain("write-read-only-data", 11, sent(f, 0, news(0, 4)), 0, unit(0, 4), "01P")


def write_room():
    """Test 9 counts bytes to take likewise: "eight open, status 28h"; and what ends a WRITE, after which its data are for none."""
    ready("0102", writable=1)
    open_ones = [wcmnd(0x01, 0x0101 + n, n, 1) for n in range(8)]
    eight = "01P"
    for f in open_ones:
        eight += ":%04X" % ox_of(f)
        answers("write-eight", f, nothing, eight + " 02P")
    for dl in (1, 512, HIGHEST):
        answers("write-ninth-dl-%d" % dl, wcmnd(0x01, 0x0109, 8, 1, dl), eight_open(dl), eight + " 02P")
    answers("write-ninth-dl-0", wcmnd(0x01, 0x0109, 8, 1, 0), over(512), eight + " 02P")
    answers("write-ninth-no-bit", wcmnd(0x01, 0x0109, 8, 1, bits=0x00), code("02"), eight + " 02P")  # before test 9
    answers("write-ninth-other", wcmnd(0x02, 0x0101, 8, 1), nothing, eight + " 02P:0101")
    answers("write-rrq", rrq(0x01, 0x0108), rjt("03,17"), eight + " 02P:0101")
    gives("write-overlap-ready", open_ones[2], xfer_rdy(open_ones[2], 0, 512), eight + " 02P:0101")
    answers("write-overlap", open_ones[2], check("0B/4E/00", 512), "01P:0101:0102:0104:0105:0106:0107:0108 02P:0101")  # test 1 on an open WRITE ends it
    lends_in_vain("write-overlap-data", 11, sent(open_ones[2], 0, news(0, 4)), 2, unit(2, 4), "01P:0101:0102:0104:0105:0106:0107:0108 02P:0101")
    answers("write-abts", abts(0x01, 0x0101), ba_acc, "01P:0102:0104:0105:0106:0107:0108 02P:0101")
    lends_in_vain("write-abts-data", 11, sent(open_ones[0], 0, news(0, 4)), 0, unit(0, 4), "01P:0102:0104:0105:0106:0107:0108 02P:0101")
    answers("write-abort-task-set", task(0x01, 0x02), code("00"), "01P 02P:0101")
    answers("write-clear-task-set", task(0x01, 0x04), code("00"), "01P 02P2F")  # it lost a WRITE
    lends_in_vain("write-cleared", 11, sent(wcmnd(0x02, 0x0101, 8, 1), 0, news(0, 4)), 8, unit(8, 4), "01P 02P2F")
    answers("write-attention", wcmnd(0x02, 0x0101, 8, 1), check("06/2F/00", 512), "01P 02P")
    answers("write-after-attention", wcmnd(0x02, 0x0101, 8, 1), nothing, "01P 02P:0101")
    event("reset", LOOP_RESET, "01U 02U:0101")
    event("verification-over", TIME_OVER, "")
    lends_in_vain("write-over-data", 11, sent(wcmnd(0x02, 0x0101, 8, 1), 0, news(0, 4)), 8, unit(8, 4), "")


def opened_write(ox_id, awaited=True, before=0):
    """A WRITE of one block from 20 on, of which these bytes came; none are awaited before FCP_XFER_RDY."""
    f = wcmnd(0x01, ox_id, 20, 1)
    after = "01P:%04X" % ox_id
    answers("fault-open-%04X" % ox_id, f, nothing, after)
    if awaited:
        gives("fault-ready-%04X" % ox_id, f, xfer_rdy(f, 0, 512), after)
    if before:
        takes("fault-first-%04X" % ox_id, f, 0, before, after, before < 512)
    return f


def write_faults():
    """"A data frame at another offset than the next is answered at once with RSP_CODE 03, else past the burst with 01, and ends the exchange"."""
    ready("01", writable=1)
    cases = (("early", False, 0, 0, 4, "01"), ("early-offset", False, 0, 4, 4, "03"), ("early-empty", False, 0, 4, 0, "03"),
             ("past-by-1", True, 0, 0, 513, "01"), ("past-by-4", True, 0, 0, 516, "01"), ("past-most", True, 0, 0, 2112, "01"),  # 513 has three fill bytes
             ("offset", True, 0, 4, 4, "03"), ("offset-and-past", True, 0, 4, 512, "03"), ("offset-empty", True, 0, 512, 0, "03"), ("offset-most", True, 0, HIGHEST, 1, "03"),
             ("again", True, 256, 0, 256, "03"), ("ahead", True, 256, 260, 4, "03"), ("second-past", True, 256, 256, 257, "01"),
             ("after-all", True, 512, 512, 1, "01"), ("after-all-again", True, 512, 0, 512, "03"))
    for n, (name, awaited, before, offset, size, number) in enumerate(cases):
        for m, (where, start, window) in enumerate((("", 20, unit(20, 512)), ("-no-window", 0, b""))):  # a fault looks at no window and changes no byte
            f = opened_write(0x0101 + 2 * n + m, awaited, before)
            lends("fault-" + name + where, sent(f, offset, news(offset, size)), start, window, window, "01P", code(number))
            refuses("fault-%s%s-gone" % (name, where), 9, "N", asking(0x01, ox_of(f)), "01P")
            lends_in_vain("fault-%s%s-over" % (name, where), 11, sent(f, 0, b""), 20, b"", "01P")


def empty_data():
    """A data frame of 0 bytes at the right offset is taken, also while none is awaited, in a window that holds the place where it would begin."""
    ready("01", writable=1)
    f = opened_write(0x0101, awaited=False)
    for name, start, window in (("", 20, unit(20, 4)), ("-none", 20, b""), ("-end", 19, unit(19, 512))):
        lends("empty" + name, sent(f, 0, b""), start, window, window, "01P:0101")
    for name, start, window in (("-zero", 0, unit(20, 4)), ("-after", 21, unit(21, 4)), ("-before", 19, unit(19, 511))):
        lends_in_vain("empty" + name, 10, sent(f, 0, b""), start, window, "01P:0101")
    shows("empty-open", 0, "01P", writes_to(f, False))
    asked_for("empty", f, "01P:0101", 0, 512)
    takes("empty-awaited", f, 0, 0, "01P:0101", True)
    takes("empty-first", f, 0, 511, "01P:0101", True, behind=1)
    takes("empty-second", f, 511, 0, "01P:0101", True, behind=1)
    takes("empty-last", f, 511, 1, "01P:0101", False)
    takes("empty-over", f, 512, 0, "01P:0101", False)
    ends("empty", f, good(), "01P")


def write_refusals():
    """"11, data frame for no open write, after 7; then 10 for its window": each leaves the exchange and the window as they were."""
    ready("0102", writable=1)
    f, g, lent = wcmnd(0x01, 0x0101, 20, 1), cmnd(0x01, 0x0102, read(20, 1), 512), unit(20, 512)
    both = "01P:0101:0102 02P"
    answers("write-refused", f, nothing, "01P:0101 02P")
    answers("write-refused-read", g, nothing, both)
    gives("write-refused-ready", f, xfer_rdy(f, 0, 512), both)
    first = sent(f, 0, news(0, 64), last=False)
    for size in (0, 20, 23, 86, 2140):
        lends_in_vain("write-frame-of-%d" % size, 3, first.ljust(size, b"\x00")[:size], 20, lent, both)
    lends_in_vain("write-to-another", 4, changed(changed(first, 3, 0xE8), 7, 0x03), 20, lent, both)
    lends_in_vain("write-from-us", 5, changed(changed(first, 7, 0xEF), 13, 0x01), 20, lent, both)
    for name, at, value in (("type", 8, 0x01), ("df-ctl", 13, 0x01)):
        lends_in_vain("write-form-" + name, 6, changed(first, at, value), 20, lent, both)
    for fill in (1, 2, 3):  # "a fill count within its payload"
        lends_in_vain("write-form-fill-%d" % fill, 6, changed(sent(f, 0, b""), 11, 0x08 + fill), 20, lent, both)
    for name, h in (("read", g), ("ox-id", wcmnd(0x01, 0x0103, 20, 1)), ("other-login", wcmnd(0x02, 0x0101, 20, 1)), ("no-login", wcmnd(0x04, 0x0101, 20, 1))):
        lends_in_vain("write-none-" + name, 11, sent(h, 0, news(0, 64)), 20, lent, both)
        lends_in_vain("write-none-%s-window" % name, 11, sent(h, 4, news(0, 64)), 0, b"", both)  # before its offset and its window
        refuses("write-none-%s-frame" % name, 11, "F", framed(sent(h, 0, news(0, 64))), both)
    for name, start, size in (("before", 19, 512 + 63), ("after", 21, 512), ("short", 20, 63), ("none", 20, 0), ("zero", 0, 512), ("most", 2 ** 64 - 1, 512),
                              ("wrapped", 2 ** 55 + 20, 512)):  # 512 times 2 to the 55th is 0 in 64 bits
        lends_in_vain("write-window-" + name, 10, first, start, bytes(size), both)
    refuses("write-window-of-frame", 10, "F", framed(first), both)
    shows("write-refused-open", 0, "01P", writes_to(f, True) + " " + exchange(0x0102, "READ", 512, 512, 20, 1))
    event("reset", LOOP_RESET, "01U:0101:0102 02U")
    for name, h, start, window in (("", f, 20, lent), ("-window", f, 0, b""), ("-read", g, 20, lent)):  # before 11, a fault and 10
        lends_in_vain("write-unproven" + name, 7, sent(h, 4, news(0, 64)), start, window, "01U:0101:0102 02U")
    refuses("write-unproven-next", 7, "N", asking(0x01, 0x0101), "01U:0101:0102 02U")
    answers("pdisc", pdisc(0x01), login_acc, both.replace("02P", "02U"))
    lends("write-proven", first, 20, unit(20, 100), news(0, 64) + unit(20, 100)[64:], both.replace("02P", "02U"))
    shows("write-proven-open", 0, "01P", writes_to(f, True, 64) + " " + exchange(0x0102, "READ", 512, 512, 20, 1))


def windows_of_others():
    """With another frame than data the window "is not looked at": the usual answers, and every byte as it was."""
    fresh()
    lent = unit(7, 20)
    for name, f, reply, after in (("plogi", login(0x01), login_acc, "01p29"), ("prli", prli(0x01), prli_acc, "01P29"), ("command", test_unit(0x01), check("06/29/00"), "01P"),
                                  ("read", cmnd(0x01, 0x0101, read(7, 1), 512), nothing, "01P:0101"), ("abts", abts(0x01, 0x0101), ba_acc, "01P"),
                                  ("answer", frame(0x01, 0x0101, b"", r_ctl=0x23), nothing, "01P"), ("logo", logo(0x01), acc, "")):
        lends("window-" + name, f, 2 ** 64 - 1, lent, lent, after, reply)


def long_windows():
    """"a window: .. at most 65,536 bytes": 10 where it is longer, unless a fault ends the exchange. No part of the stored lines: each has its window."""
    ready("01", 1000, writable=1)
    for n, (name, offset, number) in enumerate((("offset", 4, "03"), ("past", 0, "01"))):
        f = opened_write(0x0101 + n)
        lends("long-fault-" + name, sent(f, offset, news(offset, 513)), 0, unit(0, 65537), unit(0, 65537), "01P", code(number))
    f = opened_write(0x0103)
    lends_in_vain("long-window", 10, sent(f, 0, news(0, 64)), 0, unit(0, 65537), "01P:0103")
    refuses("long-window-next", 10, "N", asking(0x01, 0x0103, 0, bytes(65537)), "01P:0103")
    lends("long-other", test_unit(0x01), 0, unit(0, 65537), unit(0, 65537), "01P:0103", good())
    lends("long-just", sent(f, 0, news(0, 64)), 0, unit(0, 65536), unit(0, 20 * 512) + news(0, 64) + unit(0, 65536)[20 * 512 + 64:], "01P:0103")


def no_drive_yet():
    """"2 | state not well formed": the program starts with a drive that is all zeros."""
    passes(0x01, 0x0101, 1)
    for name, letter, body in (("frame", "F", framed(login(0x01))), ("frame-size", "F", framed(b"")), ("next", "N", asking(0x01, 0x0101)),
                               ("next-many", "N", asking(0x01, 0x0101)), ("reset", "E", bytes([LOOP_RESET])), ("window", "D", lending(login(0x01))),
                               ("verification-over", "E", bytes([TIME_OVER])), ("power-on", "E", bytes([POWER_ON]))):
        refuses("no-drive-" + name, 2, letter, body, "")
    lends_in_vain("no-drive-data", 2, sent(wcmnd(0x01, 0x0101, 0, 1), 0, news(0, 4)), 0, unit(0, 4), "")
    refuses("no-drive-setup", 8, "S", setup(0), "")
    refuses("no-drive-still", 2, "F", framed(login(0x01)), "")


def refusals():
    """"Frame in: 1 to 7 in order"; "Making a drive: 8"."""
    ready("01")
    w20 = WORDS[:77] + b"\x02" + WORDS[78:]  # W20/B1 is byte 81 of the payload; "with W20/B1 = 01h"
    for name, body in (("capacity-0", setup(0)), ("capacity-33-bits", setup(2 ** 32)), ("address", setup(address=0x0000F0)),
                       ("words", setup(words=w20)), ("writable-2", setup(writable=2)), ("writable-FF", setup(writable=0xFF))):
        refuses("setup-" + name, 8, "S", body, "01P")
    f = test_unit(0x01)
    for size in (0, 20, 23, 25, 26, 2134):  # "frame not 24 to 2,136 bytes, or not a multiple of 4"
        refuses("frame-of-%d" % size, 3, "F", framed(changed(f, 3, 0xE8).ljust(size, b"\x00")[:size]), "01P")
    refuses("frame-to-another", 4, "F", framed(changed(changed(f, 3, 0xE8), 7, 0x03)), "01P")
    for name, host in (("no-address", 0x03), ("zero", 0x00), ("us", 0xEF)):
        refuses("frame-from-" + name, 5, "F", framed(changed(changed(f, 7, host), 8, 0x01)), "01P")
    for name, at, value in (("r-ctl", 0, 0x07), ("type", 8, 0x01), ("df-ctl", 13, 0x01), ("seq-cnt", 15, 0x01), ("f-ctl", 11, 0x02)):
        refuses("form-" + name, 6, "F", framed(changed(f, at, value)), "01P")
    refuses("form-no-payload", 6, "F", framed(frame(0x01, 0x0101, b"")), "01P")
    answers("answer", frame(0x01, 0x0101, bytes.fromhex("02000000"), r_ctl=0x23), nothing, "01P")  # "answered with nothing and changes nothing"
    event("reset", LOOP_RESET, "01U")
    refuses("form-unproven", 6, "F", framed(changed(f, 15, 0x01)), "01U")
    for name, g in (("command", f), ("abts", abts(0x01, 0x0101)), ("prli", prli(0x01)), ("prlo", prlo(0x01)), ("rrq", rrq(0x01, 0x0101)),
                    ("answer", frame(0x01, 0x0101, bytes(4), r_ctl=0x23))):  # "spares only PLOGI, PDISC, ADISC, LOGO"
        refuses("unproven-" + name, 7, "F", framed(g), "01U")


for part in (no_drive_yet, a_linux_host, other_codes_and_sizes, no_login, plogi_tests, places, moved_when_full, moved_to_a_place,
             moved_whatever_it_holds, names_apart, verified, other_names, pairing, logo_and_rrq, aborts, headers, unnamed,
             no_paired_login, response_codes, target_reset, clear_task_set, abort_task_set, overlapped,
             other_units, attentions, codes_and_writes, fields, edges, no_read_bit, room, wanted, unnamed_of_commands,
             refusals, reading, far, going_round, made_data, next_refusals,
             writing, write_far, write_tests, write_room, write_faults, empty_data, write_refusals, windows_of_others):
    part()

STDIN, STDOUT = b"".join(given), "".join(text + "\n" for text in lines).encode()

if __name__ == "__main__":
    sys.stdout.buffer.write({"stdin": STDIN, "stdout": STDOUT}[sys.argv[1]])
