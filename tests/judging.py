"""Document 01's word tests and the text of judges, written from the document and not from the code."""


def reason(r):
    """None for an accepted payload, else the reason and explanation."""
    def word(w):
        return int.from_bytes(r[4 * w:4 * w + 4], "big")

    def bad(size):
        return not (256 <= size <= 2112 and size % 4 == 0)

    if bad(word(2) & 0xfff):
        return 0x03, 0x0f
    if (word(5), word(6)) == (0, 0):
        return 0x03, 0x0d
    if (word(7), word(8)) == (0, 0):
        return 0x03, 0x0e
    if not word(17) >> 31:
        return 0x03, 0x01
    if bad(word(18) & 0xfff):
        return 0x03, 0x07
    if not word(19) >> 16 & 0xff:
        return 0x03, 0x09
    if not word(20) >> 16 & 0xff:
        return 0x03, 0x01
    return None


def judges(data):
    """All that judges writes for an input."""
    lines = []
    for number, at in enumerate(range(0, len(data), 116), 1):
        r = data[at:at + 116]
        if len(r) < 116:
            lines.append("%d SHORT %d" % (number, len(r)))
        elif r[0] != 0x03:
            lines.append("%d NOT PLOGI" % number)
        else:
            why = reason(r)
            lines.append("%d ACC" % number if why is None else "%d LS_RJT %02X %02X" % (number, *why))
    return "".join(line + "\n" for line in lines).encode()
