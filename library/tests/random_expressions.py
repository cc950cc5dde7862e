"""Writes random expressions forever, one per line; each eighth has random words.

usage: random_expressions.py SEED

A blank comes before those that libpcap may read otherwise: those with ^ or %, or with & next to |,
whose levels differ there, and those in which a bare value inherits its qualifiers over parentheses.
"""
import itertools
import random
import re
import signal
import sys

signal.signal(signal.SIGPIPE, signal.SIG_DFL)
sys.stdout.reconfigure(errors="surrogateescape")
if len(sys.argv) != 2:
    sys.exit(__doc__)
chance = random.Random(int(sys.argv[1]))
pick = chance.choice
# Types, the protocols that come before them, and values.
KINDS = [
    ("host", ["", "", "", "ip ", "arp ", "rarp "], ["10.0.0.0", "10.0.0.1", "10.0.0.2"]),
    ("host", ["", "ip6 "], ["2001:db8::1", "2001:db8::2", "2001:DB8:0:0:0:0:0:1", "::1"]),
    ("host", ["ether "], ["02:00:00:00:00:01", "2:0:0:0:0:2", "ff:ff:ff:ff:ff:ff"]),
    ("net", ["", "", "", "ip ", "arp ", "rarp "],
     ["10", "10.0", "10.0.0", "10.0.0.0/31", "10.0.0.0/8", "10.0.0.1", "0.0.0.0/0", "10/8",
      "10.0.0.0 mask 255.255.0.0", "10.0.0.1 mask 255.0.0.255"]),
    ("net", ["", "ip6 "], ["2001:db8::/32", "2001:db8::/126", "2001:db8::1", "::/0"]),
    ("port", ["", "", "tcp ", "udp "], [22, 53, 80, 443, 1023, 65535]),
    ("portrange", ["", "", "tcp ", "udp "], ["1-1023", "443-80", "0-65535", "53-53"]),
    ("proto", ["", "", "ip ", "ip6 "], [1, 6, 17, 58, 132, 255]),
    ("proto", ["ether "], [0x800, 0x806, 0x86DD, 0x8035, 0x8100]),
]
WAYS = ["src ", "dst ", "src or dst ", "dst or src ", "src and dst ", "dst and src "]
WORDS = "ip ip6 arp rarp tcp udp icmp icmp6".split()
CASTS = ["broadcast", "multicast", "ether broadcast", "ether multicast", "ip multicast",
         "ip6 multicast"]
HEADERS = "ether ip ip ip6 arp rarp tcp udp icmp".split()
PLACES = "tcpflags icmptype icmpcode".split()
NAMES = [*PLACES, *"tcp-fin tcp-syn tcp-rst tcp-push tcp-ack tcp-urg".split()]
SOUP = """tcp port 80 and or not ( ) [ ] ip host 10.0.0.1 net / 8 len > 0xffffffff ether ::1 & << %
    - 0 : portrange 1-2 ? icmptype \udcff""".split()


def is_one_in(count):
    """Returns true once in `count` times."""
    return chance.randrange(count) == 0


def value(it):
    """Returns a value; a number in any of its forms."""
    return it if isinstance(it, str) else pick(["{}", "{}", "{}", "{:#x}", "0{:o}"]).format(it)


def atom(depth):
    """Returns an operand of arithmetic."""
    sign, kind = "-" * is_one_in(8), chance.randrange(8 if depth else 6)
    if kind == 0:
        return sign + value(chance.getrandbits(32) if is_one_in(8) else chance.randrange(70))
    if kind in (1, 2):
        return sign + (pick(NAMES) if kind == 1 else "len")
    if kind == 6:
        return f"{sign}({arithmetic(depth - 1)})"
    place = value(chance.randrange(24))
    if is_one_in(4):
        place = arithmetic(depth - 1) if depth else pick(PLACES)
    return f"{sign}{pick(HEADERS)}[{place}{pick(['', '', ':1', ':2', ' : 4'])}]"


def arithmetic(depth):
    """Returns a number: one to three operands with operators."""
    text = atom(depth)
    for _ in range(chance.randrange(3)):
        text += f" {pick('%^' if is_one_in(8) else '+ - * / & | << >>'.split())} {atom(depth)}"
    return text


class Expression:
    """An expression that is made from the left: which values a bare one is of, and whether
    parentheses came after the last of them."""

    def __init__(self):
        self.values, self.is_after_group, self.inherits_over_group = KINDS[0][2], False, False

    def valued(self):
        """Returns a value after its qualifiers. A host needs no type if it has a direction."""
        kind, protocols, self.values = pick(KINDS)
        self.is_after_group = False
        way = pick(WAYS) if kind != "proto" and is_one_in(2) else ""
        type_word = "" if kind == "host" and way and is_one_in(4) else f"{kind} "
        return pick(protocols) + way + type_word + value(pick(self.values))

    def primary(self):
        """Returns a primitive."""
        kind = chance.randrange(8)
        if kind < 2:
            return pick((WORDS, CASTS)[kind])
        if kind == 2:
            return f"{pick(['less', 'greater'])} {value(chance.randrange(120))}"
        if kind == 3:
            self.inherits_over_group |= self.is_after_group
            return value(pick(self.values))
        if kind < 6:
            return f"{arithmetic(2)} {pick('= == != < <= > >='.split())} {arithmetic(2)}"
        return self.valued()

    def operand(self, depth):
        """Returns an operand of `and` and `or`."""
        sign = pick(["not ", "!", "not not "]) if is_one_in(4) else ""
        if not depth or not is_one_in(4):
            return sign + self.primary()
        text = f"{sign}({self.condition(depth - 1)})"
        self.is_after_group = True
        return text

    def condition(self, depth):
        """Returns a truth: one to three operands with `and` and `or`."""
        text = self.operand(depth)
        for _ in range(chance.randrange(3)):
            text += f" {pick(['and', 'or', '&&', '||'])} {self.operand(depth)}"
        return text

    def chain(self):
        """Values that inherit, enough for the meaning of some to nest too deep."""
        text = self.valued()
        for _ in range(chance.randrange(200)):
            text += f" {pick(['and', 'or', 'or not'])} {value(pick(self.values))}"
        return text


for number in itertools.count(1):
    made = Expression()
    if number % 8 == 0:
        text = " ".join(chance.choices(SOUP, k=chance.randrange(12)))
    else:
        text = made.condition(2) if number % 1001 else made.chain()
    single = set(re.sub(r"&&|\|\|", "", text))
    is_odd = made.inherits_over_group or single & {"^", "%"} or single >= {"&", "|"}
    print((" " if is_odd else "") + text)
