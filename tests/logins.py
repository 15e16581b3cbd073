"""Login records as document 01 describes them, made by hand: a clean one, and one for each way to be rejected."""

CLEAN = {"w2": 0x0800, "port": bytes.fromhex("2100000000000001"), "node": bytes.fromhex("2000000000000001"),
         "w17": 0x80, "w18": 0x0800, "w19": 1, "w20": 1}


def record(code=0x03, **changes):
    """The 116 bytes of a PLOGI payload; a field that is not named is the clean one's."""
    f = {**CLEAN, **changes}
    r = bytearray(116)
    r[0] = code
    r[4 * 1:4 * 2] = bytes.fromhex("09090000")
    r[4 * 2 + 2:4 * 3] = f["w2"].to_bytes(2, "big")
    r[4 * 5:4 * 7] = f["port"]
    r[4 * 7:4 * 9] = f["node"]
    r[4 * 17] = f["w17"]
    r[4 * 18 + 2:4 * 19] = f["w18"].to_bytes(2, "big")
    r[4 * 19 + 1] = f["w19"]
    r[4 * 20 + 1] = f["w20"]
    return bytes(r)


SIZES = (252, 256, 258, 2112, 2116, 4352)

FOUR = record() + record(w19=0) + record(w20=0) + bytes(5)


def many():
    """Document 01's three records, every rejection, the known sizes in both words, a record that is no PLOGI, and a cut end."""
    zero = bytes(8)
    out = [record(), record(w19=0), record(w20=0), record(port=zero), record(node=zero), record(w17=0x7f)]
    out += [record(w2=n) for n in SIZES] + [record(w18=n) for n in SIZES]
    # two faults: the earlier word decides
    out += [record(w2=0, port=zero), record(port=zero, node=zero), record(node=zero, w17=0), record(w17=0, w18=0),
            record(w18=0, w19=0), record(w19=0, w20=0)]
    # one byte of a name is enough, and only the low 12 bits of a size count
    out += [record(port=bytes(7) + b"\x01"), record(node=b"\x01" + bytes(7)), record(w2=0xf100, w18=0xf840)]
    out += [record(code=0x04), record(code=0x00, w2=0), record(code=0x50), bytes(116), bytes([255]) * 116]
    return b"".join(out) + record()[:115]
