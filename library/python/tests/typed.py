"""What a type checker accepts: mypy --strict reads this, and nothing runs it."""
import gzip
import io
import socket
import sys
import zipfile
from typing import IO, List, cast

import capkit


def sources(file: IO[bytes], archive: zipfile.ZipFile, near: socket.socket) -> List[capkit.Packet]:
    packets = list(capkit.packets(gzip.open("day.pcap.gz")))
    packets += capkit.packets(gzip.GzipFile("day.pcap.gz"), "tcp", skip=True)
    packets += capkit.packets(file)
    packets += capkit.packets(sys.stdin.buffer)
    packets += capkit.packets(io.BytesIO(b""))
    packets += capkit.packets(archive.open("day.pcap"))
    packets += capkit.packets(near.makefile("rb"))
    packets += capkit.packets(bytearray())
    return packets


def targets(file: IO[bytes], packets: List[capkit.Packet]) -> None:
    format = cast(capkit.Format, sys.argv[1])
    writers = [capkit.Writer(gzip.open("day.pcap.gz", "wb"), format), capkit.Writer(file)]
    writers += [capkit.Writer(sys.stdout.buffer), capkit.Writer(io.BytesIO(), "pcap")]
    for packet, writer in zip(packets, writers):
        writer.write(packet)


def counted(path: str) -> int:
    found = capkit.packets(path, skip=True)
    number: int = sum(1 for packet in found if packet.data)
    return number + found.skipped
