#!/bin/bash
# Writes the IP packets of a capture of `tcpdump -i any` (link type 276) as raw IP, which expressions and lines of
# capkit read.
#
# usage: any.sh FILE > OUT                 or: any.sh FILE | capkit print - tcp port 80
#
# FILE is - for standard input. A listing keeps the packets whose link header, which begins with the EtherType, shows
# IPv4 or IPv6; ARP, STP, LLDP, PPPoE and packets with a VLAN tag are left out. The 20 bytes of the link header are
# removed; original lengths remain 20 bytes too long. Needs capkit in PATH. The status is 1 if FILE can't be read to its
# end, or has another link type, 2 if the command line is wrong.
set -euo pipefail
[ $# = 1 ] || { echo 'usage: any.sh FILE > OUT' >&2 || true; exit 2; }
listing='5\n40 0 0 0\n21 1 0 2048\n21 0 1 34525\n6 0 0 262144\n6 0 0 0\n'
header='\324\303\262\241\2\0\4\0\0\0\0\0\0\0\0\0\0\0\4\0e\0\0\0'
capkit edit -F pcap -- "$1" - | {
    link=$(head -c 24 | tail -c +21 | od -An -tx1)
    [ -n "$link" ] || exit 1
    [ "$link" = ' 14 01 00 00' ] || { printf "any.sh: %q: the link type isn't 276\n" "$1" >&2 || true; exit 1; }
    { printf "$header" && cat; } | capkit print --code <(printf "$listing") -w - --format pcap - |
        capkit edit -F pcap --chop-start 20 - -
}
