"""Filter expressions of packets, and pcap and pcapng captures, by the proved library libcapkit.

    for packet in capkit.packets("day.pcap", "tcp port 80"):
        print(packet.time, len(packet.data))

A time is in nanoseconds since 1970-01-01 00:00:00 UTC. A link type is the number that captures have
for it; expressions are compiled for LINK_ETHERNET, LINK_RAW and LINK_COOKED.
"""
from .errors import CaptureError, Check, CompileError, ListingError, ProgramError, Rule, Status
from .errors import WriteError
from .filters import Elsewhere, Expression, Filter, Instruction, Step, explain
from .reading import Capture, Packet, PacketIterator, packets
from .writing import Format, Writer

__version__ = "0.1.0"

LINK_ETHERNET = 1
LINK_RAW = 101
LINK_COOKED = 113

__all__ = [
    "LINK_COOKED", "LINK_ETHERNET", "LINK_RAW", "Capture", "CaptureError", "Check",
    "CompileError", "Elsewhere", "Expression", "Filter", "Format", "Instruction", "ListingError",
    "Packet", "PacketIterator", "ProgramError", "Rule", "Status", "Step", "WriteError", "Writer",
    "explain", "packets",
]  # fmt: skip
