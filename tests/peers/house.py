"""The drive that the peers meet: its setup, as a maker would choose it, given to the builders of frames.py, which then make this drive's replies."""
import os
import sys

sys.dont_write_bytecode = True
HERE = os.path.dirname(os.path.abspath(__file__))
TESTS = os.path.dirname(HERE)
TOP = os.path.dirname(TESTS)
KEPT = os.path.join(TOP, "target", "peers")  # what the runs leave behind: pcaps, frames, what the guest said
sys.path.insert(0, TESTS)
import frames  # noqa: E402

OWN = frames.OWN
PORT_NAME, NODE_NAME = bytes.fromhex("2000002037AABBCD"), bytes.fromhex("1000002037AABBCC")  # below Linux's: of two VN ports the higher name logs in
IDENTITY = b"HOUSE   " + b"SHOT RECORDER   " + b"0001"  # vendor, product, revision


def accept_words():
    """Words 1 to 28 of the login accept; the bits are ones that a host of today understands, so that a peer can judge each."""
    words = dict.fromkeys(range(1, 29), 0)
    words[1] = 0x20200002  # FC-PH version, buffer credit
    words[2] = 0x88000840  # features, receive size 2,112
    words[3] = 0x00FF0002  # concurrent sequences
    words[4] = 2000  # E_D_TOV in milliseconds
    words[17] = 0x80000000  # class 3 valid
    words[18] = 0x00000840  # its receive size
    words[19] = 0x00FF0000  # its concurrent sequences
    words[20] = 0x00010000  # open sequences of an exchange: 01h (004)
    flat = bytearray(b"".join(words[n].to_bytes(4, "big") for n in range(1, 29)))
    flat[16:24], flat[24:32] = PORT_NAME, NODE_NAME  # W5-6, W7-8
    return bytes(flat)


WORDS = accept_words()
frames.WORDS, frames.IDENTITY, frames.OWN_PORT, frames.OWN_NODE = WORDS, IDENTITY, PORT_NAME, NODE_NAME
