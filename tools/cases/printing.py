"""Prints lines of packets, as docs/LINES.md defines them, and reports."""

import datetime

from files import SECOND

# Link types.
ETHERNET = 1
RAW = 101
COOKED = 113
# The offset of the network header.
NETWORK = {ETHERNET: 14, RAW: 0, COOKED: 16}
# EtherTypes of network headers, and the least lengths of these.
TYPES = {0x0800: "IP", 0x86DD: "IP6", 0x0806: "ARP", 0x8035: "RARP"}
LEAST = {"IP": 20, "IP6": 40, "ARP": 28, "RARP": 28}


def date(time):
    """Returns a time as a date."""
    seconds, nanoseconds = divmod(time, SECOND)
    day = datetime.datetime(1970, 1, 1) + datetime.timedelta(seconds=seconds)
    return f"{day:%Y-%m-%d %H:%M:%S}.{nanoseconds:09}"


def big(data, at, size):
    """Returns a big-endian number, or None if some of its bytes are missing."""
    return int.from_bytes(data[at:at + size], "big") if at + size <= len(data) else None


def address(data):
    """Returns an IPv4 or IPv6 address."""
    if len(data) == 4:
        return ".".join(map(str, data))
    return ":".join(f"{big(data, at, 2):x}" for at in range(0, 16, 2))


def mac(data):
    return ":".join(f"{byte:02x}" for byte in data)


def link_part(link, data):
    """Returns the link header in a line."""
    if link == ETHERNET:
        return (
            f"{mac(data[6:12])} > {mac(data[:6])}, type 0x{big(data, 12, 2):04x}, "
            if len(data) >= 14
            else "ether [short], "
        )
    if link == COOKED:
        return f"cooked, type 0x{big(data, 14, 2):04x}, " if len(data) >= 16 else "cooked [short], "
    return "raw, " if link == RAW else f"link {link}, "


def network_kind(link, data):
    """Returns the name of the network header, or the text printed instead."""
    if link not in NETWORK:
        return f"link {link}"
    if len(data) < max(NETWORK[link], 1):
        return "[short]"
    if link == RAW:
        version = data[0] >> 4
        return {4: "IP", 6: "IP6"}.get(version, f"version {version}")
    number = big(data, NETWORK[link] - 2, 2)
    return TYPES.get(number, f"type 0x{number:04x}")


def network_part(link, data):
    """Returns the network header in a line."""
    kind = network_kind(link, data)
    if kind not in LEAST:
        return kind
    rest = data[NETWORK[link]:]
    if len(rest) < LEAST[kind]:
        return f"{kind} [short]"
    if kind in ("ARP", "RARP"):
        return f"{kind} op {big(rest, 6, 2)} {address(rest[14:18])} > {address(rest[24:28])}"
    if kind == "IP":
        source, target, protocol, size = address(rest[12:16]), address(rest[16:20]), rest[9], 4 * (rest[0] & 15)
        if big(rest, 6, 2) & 0x1FFF:
            return f"IP {source} > {target}: fragment"
    else:
        source, target, protocol, size = address(rest[8:24]), address(rest[24:40]), rest[6], 40
    names = {6: "TCP", 17: "UDP", **({1: "ICMP"} if kind == "IP" else {58: "ICMP6"})}
    if protocol in (6, 17) and size + 4 <= len(rest):
        source, target = f"{source}.{big(rest, size, 2)}", f"{target}.{big(rest, size + 2, 2)}"
    return f"{kind} {source} > {target}: {names.get(protocol, f'proto {protocol}')}"


def rows(link, data):
    """Yields the rows of bytes after the link header."""
    shown = data[NETWORK.get(link, 0):]
    for at in range(0, len(shown), 16):
        row = shown[at:at + 16]
        yield f"\t0x{at:04x}: " + " ".join(row[pair:pair + 2].hex() for pair in range(0, len(row), 2)) + "\n"


def line(packet, has_link=False, has_bytes=False):
    """Returns the line of a packet, and its rows."""
    link, data = packet.link, packet.data
    front = f"{date(packet.time)} {link_part(link, data) if has_link else ''}"
    text = f"{front}{network_part(link, data)}, length {packet.original}\n"
    return text + "".join(rows(link, data)) * has_bytes


def report(name, capture):
    """Returns the report of a file."""
    packets = capture.packets
    times = [packet.time for packet in packets]
    seconds, nanoseconds = divmod(max(times, default=0) - min(times, default=0), SECOND)
    return (f"File: {name}\nType: {capture.kind}\nPackets: {len(packets)}\nFile size: {len(capture.data)}\n"
            f"Data size: {sum(packet.original for packet in packets)}\nCaptured size: "
            f"{sum(len(packet.data) for packet in packets)}\n"
            f"Earliest: {date(min(times)) if times else 'none'}\nLatest: {date(max(times)) if times else 'none'}\n"
            f"Duration: {seconds}.{nanoseconds:09}\nStrict order: {'yes' if times == sorted(times) else 'no'}\n\n")
