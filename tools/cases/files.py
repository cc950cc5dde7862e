"""Reads and writes capture files as docs/inside/FORMATS.md defines them."""

import dataclasses
import struct

SECTION = bytes.fromhex("0a0d0d0a 1c000000 4d3c2b1a 01000000 ffffffffffffffff 1c000000")
SECOND = 10**9
# The most captured bytes of a record, and the most bytes of a block.
LONGEST_RECORD = 262_144
LONGEST_BLOCK = 1_048_576
# Magic numbers, with the formats and their fractions per second.
MAGICS = {0xA1B2C3D4: ("pcap", 10**6), 0xA1B23C4D: ("nsecpcap", SECOND)}
# The types of blocks.
SECTION_TYPE = 0x0A0D0D0A
INTERFACE_TYPE = 1
OBSOLETE_TYPE = 2
SIMPLE_TYPE = 3
ENHANCED_TYPE = 6


class Fault(Exception):
    """What a unit or a packet is refused with: the text of a message."""


@dataclasses.dataclass(frozen=True)
class Packet:
    """A packet; its time in nanoseconds, and the place of its unit in its file."""

    link: int
    snap: int
    name: bytes
    time: int
    original: int
    data: bytes
    comment: bytes = b""
    offset: int = 0


@dataclasses.dataclass(frozen=True)
class Interface:
    link: int
    snap: int
    name: bytes
    units: int = 10**6
    offset: int = 0

    def packet(self, ticks, original, data, comment, offset):
        """Returns a packet of the interface, with the time of these ticks."""
        time = ticks * SECOND // self.units + self.offset * SECOND
        if not 0 <= time < 2**63:
            raise Fault("time out of range")
        return Packet(self.link, self.snap, self.name, time, original, data, comment, offset)


def padded(size):
    """Returns a length, rounded up to a multiple of four."""
    return size + -size % 4


def require(holds, text):
    """Ends the reading or writing with a fault, unless the condition is true."""
    if not holds:
        raise Fault(text)


class Capture:
    """The packets of a file up to its end, or up to a fault and the offset of its unit."""

    def __init__(self, data):
        self.data, self.at, self.kind, self.order = data, 0, None, None
        self.packets, self.interfaces, self.links = [], [], []
        # For each place at which a unit begins, or could, how many packets are before it.
        self.places = []
        self.fault = None
        try:
            self.read_all()
        except Fault as fault:
            self.fault = str(fault)

    def read_all(self):
        """Reads the file header and then all records or blocks, up to the first fault."""
        self.places.append((0, 0))
        require(len(self.data) >= 4, "not a capture file")
        for order in "<>":
            magic = struct.unpack(order + "I", self.data[:4])[0]
            if magic in MAGICS:
                self.order, (self.kind, self.units) = order, MAGICS[magic]
        if self.data[:4] == SECTION[:4]:
            self.kind = "pcapng"
        require(self.kind, "not a capture file")
        read = self.read_block if self.kind == "pcapng" else self.read_record
        if self.kind != "pcapng":
            self.read_header()
        while self.at < len(self.data) or self.at == 0:
            self.at += read()
            self.places.append((self.at, len(self.packets)))

    def numbers(self, form, at):
        """Returns numbers at an offset, in the byte order of the file."""
        size = struct.calcsize("<" + form)
        require(at + size <= len(self.data), "truncated")
        return struct.unpack(self.order + form, self.data[at:at + size])

    def read_header(self):
        """Reads the file header of pcap."""
        major, minor, _, _, snap, link = self.numbers("HHIIII", 4)
        require((major, minor) == (2, 4), "bad version")
        require(link <= 0xFFFF, "bad link type field")
        self.add_interface(Interface(link, snap, b"", self.units))
        self.at = 24
        self.places.append((24, 0))

    def read_record(self):
        """Reads a pcap record, and returns its size."""
        seconds, fraction, size, original = self.numbers("IIII", self.at)
        require(size <= LONGEST_RECORD, "too long")
        require(fraction < self.units, "time out of range")
        data = self.data[self.at + 16:self.at + 16 + size]
        require(len(data) == size, "truncated")
        ticks = seconds * self.units + fraction
        self.packets.append(self.interfaces[0].packet(ticks, original, data, b"", self.at))
        return 16 + size

    def add_interface(self, interface):
        """Adds an interface to the section, and its link type to the file."""
        self.interfaces.append(interface)
        self.links.append(interface.link)

    def read_block(self):
        """Reads a pcapng block, and returns its size."""
        front = self.data[self.at:self.at + 12]
        require(len(front) == 12, "truncated")
        if front[:4] == SECTION[:4]:
            orders = [order for order in "<>" if struct.unpack(order + "I", front[8:])[0] == 0x1A2B3C4D]
            require(orders, "bad byte-order magic")
            self.order = orders[0]
        kind, size = self.numbers("II", self.at)
        require(size >= 12 and size % 4 == 0, "bad block length")
        require(size <= LONGEST_BLOCK, "too long")
        block = self.data[self.at:self.at + size]
        require(len(block) == size, "truncated")
        require(block[4:8] == block[-4:], "bad block length")
        self.read_body(kind, block[8:-4])
        return size

    def of_body(self, body, form):
        """Returns the numbers at the start of a body."""
        require(len(body) >= struct.calcsize("<" + form), "bad body")
        return struct.unpack(self.order + form, body[:struct.calcsize("<" + form)])

    def read_body(self, kind, body):
        """Reads the body of a block of this kind."""
        require(kind != OBSOLETE_TYPE, "obsolete packet block")
        if kind == SECTION_TYPE:
            _, major, minor, _ = self.of_body(body, "IHHQ")
            require(major == 1 and minor in (0, 2), "bad version")
            self.interfaces = []
        elif kind == INTERFACE_TYPE:
            link, _, snap = self.of_body(body, "HHI")
            require(len(self.interfaces) < 256, "too many interfaces")
            self.add_interface(Interface(link, snap, *self.options(body[8:])))
        elif kind == ENHANCED_TYPE:
            number, high, low, size, original = self.of_body(body, "IIIII")
            require(number < len(self.interfaces), "unknown interface")
            require(20 + padded(size) <= len(body), "bad body")
            comment = self.comment(body[20 + padded(size):])
            ticks = high << 32 | low
            self.packets.append(self.interfaces[number].packet(ticks, original, body[20:20 + size], comment, self.at))
        elif kind == SIMPLE_TYPE:
            original, = self.of_body(body, "I")
            require(self.interfaces, "unknown interface")
            first = self.interfaces[0]
            size = min(original, first.snap) if first.snap else original
            require(4 + padded(size) <= len(body), "bad body")
            self.packets.append(Packet(first.link, first.snap, first.name, 0, original, body[4:4 + size], b"", self.at))

    def options_of(self, body):
        """Yields each option's code, length and value, up to code 0; the last value may be cut."""
        at = 0
        while at + 4 <= len(body):
            code, size = struct.unpack(self.order + "HH", body[at:at + 4])
            if code == 0:
                return
            yield code, size, body[at + 4:at + 4 + size]
            at += 4 + padded(size)

    def options(self, body):
        """Returns the name of an interface, its ticks per second and its offset."""
        found = {}
        for code, size, value in self.options_of(body):
            require(len(value) == size, "bad option")
            if code in (2, 9, 14) and code not in found:
                require(size <= 255 if code == 2 else size == (1 if code == 9 else 8), "bad option")
                if code == 9:
                    require(value[0] <= 12 or 128 <= value[0] <= 160, "bad time resolution")
                found[code] = value
        resolution = found.get(9, b"\6")[0]
        units = 2 ** (resolution - 128) if resolution >= 128 else 10**resolution
        return found.get(2, b""), units, struct.unpack(self.order + "q", found.get(14, bytes(8)))[0]

    def comment(self, body):
        """Returns the value of the first complete option with code 1."""
        for code, size, value in self.options_of(body):
            if len(value) < size:
                break
            if code == 1:
                return value
        return b""


def block(kind, body):
    """Returns a little-endian block."""
    size = struct.pack("<I", len(body) + 12)
    return struct.pack("<I", kind) + size + body + size


def header(form, link):
    """Returns the file header of a pcap format."""
    magic = {"pcap": 0xA1B2C3D4, "nsecpcap": 0xA1B23C4D}[form]
    return struct.pack("<IHHIIII", magic, 2, 4, 0, 0, LONGEST_RECORD, link)


class Writer:
    """What is written of packets, a piece for each."""

    def __init__(self, form):
        self.form, self.pieces, self.interfaces, self.link = form, [], [], None

    def put(self, packet):
        """Writes a packet, or raises what it is refused with."""
        piece = self.block_of(packet) if self.form == "pcapng" else self.record_of(packet)
        self.pieces.append(piece if self.pieces else self.heading(packet.link) + piece)

    def heading(self, link):
        """Returns the start of a file without packets."""
        return SECTION if self.form == "pcapng" else header(self.form, link)

    def record_of(self, packet):
        """Returns the pcap record of a packet."""
        if self.link is None:
            self.link = packet.link
        require(packet.link == self.link, "link types differ")
        require(len(packet.data) <= LONGEST_RECORD, "too long")
        seconds, nanoseconds = divmod(packet.time, SECOND)
        require(seconds < 2**32, "time out of range")
        fraction = nanoseconds // 1000 if self.form == "pcap" else nanoseconds
        return struct.pack("<IIII", seconds, fraction, len(packet.data), packet.original) + packet.data

    def block_of(self, packet):
        """Returns the block of a packet, after that of its interface if it is new."""
        comment = packet.comment
        options = (
            struct.pack("<HH", 1, len(comment)) + comment + bytes(-len(comment) % 4) + bytes(4) if comment else b""
        )
        data = packet.data + bytes(-len(packet.data) % 4)
        require(32 + len(data) + len(options) <= LONGEST_BLOCK, "too long")
        key, described = (packet.link, packet.snap, packet.name), b""
        if key not in self.interfaces:
            require(len(self.interfaces) < 4096, "too many output interfaces")
            self.interfaces.append(key)
            described = interface_block(*key)
        numbers = (
            self.interfaces.index(key), packet.time >> 32, packet.time & 0xFFFFFFFF, len(packet.data), packet.original
        )
        return described + block(ENHANCED_TYPE, struct.pack("<IIIII", *numbers) + data + options)


def interface_block(link, snap, name):
    """Returns the block of an interface whose ticks are nanoseconds."""
    options = struct.pack("<HH", 2, len(name)) + name + bytes(-len(name) % 4) if name else b""
    return block(INTERFACE_TYPE, struct.pack("<HHI", link, 0, snap) + options + struct.pack("<HHB3xHH", 9, 1, 9, 0, 0))
