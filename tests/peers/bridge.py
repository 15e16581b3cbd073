"""The port chip for a Linux host: FCoE frames from QEMU's Ethernet to the drive and back, and what goes on below Fibre Channel.

QEMU's end is a TCP stream, each Ethernet frame after its length in four bytes, so that no frame is lost. The host talks FCoE between two
VN ports (VN2VN, FC-BB-6): each claims an address by FIP, here the low two bytes of its Ethernet address, and they log in without a fabric.
The bridge claims the drive's, accepts the FLOGI that a VN port sends inside FIP, and takes off and puts on SOF, EOF and CRC.
"""
import select
import socket
import struct
import time
import zlib

from house import NODE_NAME, OWN, PORT_NAME, WORDS

FIP, FCOE = b"\x89\x14", b"\x89\x06"
ALL_VN2VN = bytes.fromhex("011018010004")
NODE_MAC = bytes.fromhex("0200000000") + OWN[2:]  # the drive's Ethernet address before it has claimed one
PORT_MAC = bytes.fromhex("0EFD00") + OWN  # VN2VN's prefix and the Fibre Channel address
LINK_SERVICE, VN2VN = 2, 5  # FIP operations
REQUEST, REPLY = 1, 2  # of a link service
CLAIM, CLAIMED, BEACON = 3, 4, 5  # of VN2VN
FLOGI, LOGO = 7, 9  # descriptors
BEACON_TIME = 3.0
SOF_FIRST, SOF_NEXT, EOF_LAST, EOF_NEXT = 0x2E, 0x36, 0x42, 0x41  # class 3


def mac_of(address):
    return bytes([2, 2]) + address


def who_we_are():
    """FIP descriptors: Ethernet address, node name, and the port's addresses and name."""
    return [mac_of(NODE_MAC), bytes([4, 3, 0, 0]) + NODE_NAME, bytes([11, 5]) + PORT_MAC + bytes(1) + OWN + PORT_NAME]


def what_we_do():
    """FIP descriptors: FC-4 type 8 as a target, and the longest FCoE frame."""
    types, features = bytearray(32), bytearray(128)
    types[2], features[7] = 1, 1
    return [bytes([15, 41, 0, 0]) + bytes(types + features), bytes([6, 1]) + (2158).to_bytes(2, "big")]


class Bridge:
    """Runs between a connected socket and a port; a plan says what is held back and what happens to the drive."""

    def __init__(self, wire, port, plan):
        self.wire, self.port, self.plan = wire, port, plan
        self.host, self.waiting, self.beacon = None, b"", 0.0
        self.faults = []

    def run(self, deadline):
        """Until the host's machine is gone, or the deadline: answers whether it is gone."""
        while time.time() < deadline:
            if time.time() >= self.beacon:
                self.beacon = time.time() + BEACON_TIME
                self.fip(ALL_VN2VN, PORT_MAC, VN2VN, BEACON, who_we_are())
            ready = [exchange for exchange, going in self.port.open.items() if not going.waits and not self.plan.held(exchange)]
            patience = self.plan.patience if ready else max(0.0, min(self.beacon - time.time(), 0.2))
            if select.select([self.wire], [], [], patience)[0]:
                try:
                    more = self.wire.recv(65536)
                except ConnectionResetError:
                    more = b""
                if not more:
                    return True
                self.take(more)
            else:
                self.serve(ready)
        return False

    def take(self, more):
        """Bytes of the stream: each whole Ethernet frame in them is handled."""
        self.waiting += more
        while len(self.waiting) >= 4:
            size = int.from_bytes(self.waiting[:4], "big")
            if len(self.waiting) < 4 + size:
                return
            e, self.waiting = self.waiting[4:4 + size], self.waiting[4 + size:]
            if e[12:14] == FIP:
                self.handle_fip(e)
            elif e[12:14] == FCOE:
                self.handle_fcoe(e)

    def send(self, e):
        e = e.ljust(60, b"\x00")
        try:
            self.wire.sendall(len(e).to_bytes(4, "big") + e)
        except (BrokenPipeError, ConnectionResetError):
            pass  # the machine is going down; run sees its end

    def fip(self, to, by, operation, sub, descriptors):
        d = b"".join(descriptors)
        self.send(to + by + FIP + struct.pack(">BBHBBHH", 0x10, 0, operation, 0, sub, len(d) // 4, 0) + d)

    def handle_fip(self, e):
        by, operation, sub, d = e[6:12], e[17], e[19], e[24:]
        if (operation, sub) == (VN2VN, CLAIM):
            self.fip(by, NODE_MAC, VN2VN, CLAIMED, who_we_are() + what_we_do())
        elif (operation, sub) == (VN2VN, BEACON):
            self.fip(ALL_VN2VN, PORT_MAC, VN2VN, BEACON, who_we_are())
        elif (operation, sub) == (LINK_SERVICE, REQUEST) and d[0] in (FLOGI, LOGO):
            f = d[4:4 * d[1]]
            reply = flogi_accept(f) if d[0] == FLOGI else self.port.arrives(f)  # a VN port's LOGO also comes inside FIP
            if reply:
                self.fip(by, NODE_MAC, LINK_SERVICE, REPLY, [bytes([d[0], 1 + len(reply) // 4, 0, 0]) + reply, mac_of(PORT_MAC)])

    def handle_fcoe(self, e):
        f = e[28:-8]
        if struct.pack("<I", zlib.crc32(f)) != e[-8:-4]:
            self.faults.append("a frame with a wrong CRC: " + e.hex())
            return
        self.host = e[6:12]
        self.plan.arriving(f, self.port)
        if self.plan.lost(f):
            self.port.note("lost", f.hex())
        else:
            self.send_fc(self.port.arrives(f))

    def send_fc(self, f):
        """A frame of the drive: SOF and EOF by its place in the sequence."""
        if f:
            first, last = f[14:16] == bytes(2) and f[20:24] == bytes(4), f[9] & 0x08
            self.send(self.host + PORT_MAC + FCOE + bytes(13) + bytes([SOF_FIRST if first else SOF_NEXT]) + f
                      + struct.pack("<I", zlib.crc32(f)) + bytes([EOF_LAST if last else EOF_NEXT, 0, 0, 0]))

    def serve(self, exchanges):
        """One frame of each exchange in turn."""
        for exchange in exchanges:
            self.plan.serving(exchange, self.port)
            self.send_fc(self.port.next(exchange))


def flogi_accept(f):
    """An accept of a FLOGI with the drive's own words: outside the drive, and needed by FIP alone."""
    return b"\x23" + f[5:8] + bytes(1) + OWN + bytes.fromhex("01980000" "00000000") + f[16:18] + b"\xff\xff" + bytes(4) + bytes.fromhex("02000000") + WORDS


def listening():
    """A socket that QEMU connects to, at a port of the system's choice."""
    s = socket.socket()
    s.bind(("127.0.0.1", 0))
    s.listen(1)
    return s
