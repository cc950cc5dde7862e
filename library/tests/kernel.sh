#!/bin/bash
# Tests that Linux runs capkit's programs: attached to a packet socket (socket_filter), in a rule of
# iptables and in a filter of tc, if these are installed. Two datagrams cross the loopback interface
# of a separate network; each program must match exactly one of them.
#
# usage: unshare -rn tests/kernel.sh      (in library/)
#
# The status is 1 if a program doesn't.
set -eu
bad=0
have() { command -v "$1" >/dev/null 2>&1; }
expression='udp dst port 4321'
ip link set lo up

timeout 20 out/socket_filter "$expression" lo 1 >out/socket.txt &
for _ in $(seq 50); do
    sed 1d /proc/net/packet | grep -q . && break
    sleep 0.1
done
if have iptables; then
    iptables -A INPUT -m bpf --bytecode "$(out/compile "$expression" 101 | paste -sd,)" -j ACCEPT
fi
if have tc; then
    tc qdisc add dev lo root handle 1: htb default 20
    tc class add dev lo parent 1: classid 1:10 htb rate 1mbit
    tc class add dev lo parent 1: classid 1:20 htb rate 1gbit quantum 60000
    # tc takes what the program returns as the class, except 2^32 - 1, which is that of the filter.
    program=$(out/compile "$expression" 1 | sed 's/^6 0 0 262144$/6 0 0 4294967295/' | paste -sd,)
    tc filter add dev lo parent 1: bpf bytecode "$program" classid 1:10
fi
printf 'not this' >/dev/udp/127.0.0.1/1234
printf 'this one, of 20 byte' >/dev/udp/127.0.0.1/4321
wait $! || bad=1

# 14 bytes of Ethernet, 20 of IPv4, 8 of UDP.
test "$(cat out/socket.txt)" = '62 bytes' || { echo 'socket: not the datagram'; bad=1; }
if have iptables; then
    iptables -vxnL INPUT | grep -qE '^ +1 +48 +ACCEPT' || { echo 'iptables: not the datagram'; bad=1; }
else
    echo 'without iptables'
fi
if have tc; then
    tc -s class show dev lo classid 1:10 | grep -q 'Sent 62 bytes 1 pkt' || { echo 'tc: not the datagram'; bad=1; }
else
    echo 'without tc'
fi
exit $bad
