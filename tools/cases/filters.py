"""Reads and evaluates expressions as docs/FILTER.md defines them."""

import operator
import re
import sys

from printing import COOKED, ETHERNET, NETWORK, RAW, TYPES, big

# A chain of thousands of operands is as deep a tree.
sys.setrecursionlimit(50_000)

NAMES = {
    "tcpflags": 13,
    "tcp-fin": 1,
    "tcp-syn": 2,
    "tcp-rst": 4,
    "tcp-push": 8,
    "tcp-ack": 16,
    "tcp-urg": 32,
    "icmptype": 0,
    "icmpcode": 1,
}
SIGNS = {"&&": "and", "||": "or", "!": "not", "==": "="}
ETHERTYPES = {name.lower(): number for number, name in TYPES.items()}
TRANSPORTS = {"tcp": 6, "udp": 17, "icmp": 1, "icmp6": 58}
OPERATORS = [("|", "&", "^"), ("<<", ">>"), ("+", "-"), ("*", "/", "%")]
LEVELS = {sign: level for level, signs in enumerate(OPERATORS) for sign in signs}
OPERATIONS = {
    "+": operator.add,
    "-": operator.sub,
    "*": operator.mul,
    "/": operator.floordiv,
    "%": operator.mod,
    "&": operator.and_,
    "|": operator.or_,
    "^": operator.xor,
    "<<": lambda a, b: a << b if b < 32 else 0,
    ">>": lambda a, b: a >> b if b < 32 else 0,
}
PROTOCOLS = ("ether", "ip", "ip6", "arp", "rarp", "tcp", "udp", "icmp", "icmp6")
ACCESSORS = PROTOCOLS[:-1]
RELATIONS = {
    "=": operator.eq,
    "!=": operator.ne,
    "<": operator.lt,
    "<=": operator.le,
    ">": operator.gt,
    ">=": operator.ge,
}
BLANKS = re.compile(r"[ \t\n\r]*")
WORD = re.compile(r"[0-9A-Za-z:][0-9A-Za-z:.-]*")
INDEX_WORD = re.compile(r"[0-9A-Za-z][0-9A-Za-z.-]*")
SIGN = re.compile(r"&&|\|\||!=|==|<=|>=|<<|>>|[()\[\]/%!=<>+*&|^:-]")


class Rejected(Exception):
    """A field past the captured bytes, or a divisor of 0."""


class Unread(Exception):
    """The text isn't an expression."""


def tokens(text):
    """Returns the tokens of a text: signs and words."""
    found, at, depth = [], 0, 0
    while True:
        at = BLANKS.match(text, at).end()
        if at == len(text):
            return found
        match = (INDEX_WORD if depth else WORD).match(text, at)
        if match:
            word = match[0].rstrip(".-")
            found.append(word)
            at += len(word)
            continue
        match = SIGN.match(text, at)
        if not match:
            raise Unread(f"unknown character at {at + 1}")
        depth += {"[": 1, "]": -1}.get(match[0], 0)
        found.append(SIGNS.get(match[0], match[0]))
        at = match.end()


def number_of(word):
    """Returns the number that a word means, or None."""
    if re.fullmatch(r"0[xX][0-9a-fA-F]+", word):
        return int(word, 16)
    if re.fullmatch(r"0[0-7]*", word):
        return int(word, 8)
    return int(word) if re.fullmatch(r"[1-9][0-9]*", word) else None


def value_of(word):
    """Returns the kind of a value, and its bytes or numbers; None if a word isn't a value."""
    if re.fullmatch(r"\d+(\.\d+){1,3}", word):
        return "dotted", bytes(map(int, word.split(".")))
    if re.fullmatch(r"\d+-\d+", word):
        return "range", tuple(map(int, word.split("-")))
    if re.fullmatch(r"([0-9a-fA-F]{1,2}:){5}[0-9a-fA-F]{1,2}", word):
        return "mac", bytes(int(part, 16) for part in word.split(":"))
    if ":" in word and re.fullmatch(r"[0-9a-fA-F:]+", word):
        front, _, back = word.partition("::")
        front, back = [[int(part, 16) for part in side.split(":") if part] for side in (front, back)]
        groups = front + [0] * (8 - len(front) - len(back)) + back
        return "ip6", b"".join(group.to_bytes(2, "big") for group in groups)
    number = number_of(word)
    return None if number is None else ("number", number)


class Reader:
    """Reads tokens as the tree of an expression: tuples, the kind of a node first."""

    def __init__(self, text):
        self.tokens, self.at = tokens(text), 0
        # The qualifiers that a bare value inherits.
        self.inherited = (None, None, "host")

    def peek(self, ahead=0):
        """Returns the current token, or one after it; None past the end."""
        return self.tokens[self.at + ahead] if self.at + ahead < len(self.tokens) else None

    def take(self, *wanted):
        """Takes and returns the next token, if it is one of these."""
        if self.peek() in wanted and self.peek() is not None:
            self.at += 1
            return self.tokens[self.at - 1]
        return None

    def need(self, *wanted):
        """Takes one of these tokens, or ends the reading."""
        token = self.take(*wanted)
        if token is None:
            raise Unread("not an expression")
        return token

    def read(self):
        """Returns the tree of all tokens."""
        if not self.tokens:
            return ("all",)
        tree = self.truth()
        if self.peek() is not None:
            raise Unread("not an expression")
        return tree

    def truth(self):
        """Reads a chain of terms."""
        tree = self.term()
        while join := self.take("and", "or"):
            tree = (join, tree, self.term())
        return tree

    def term(self):
        """Reads a negation, a relation, a group or a primitive."""
        if self.take("not"):
            return ("not", self.term())
        kept = self.at, self.inherited
        try:
            return self.relation()
        except Unread:
            self.at, self.inherited = kept
        if self.take("("):
            tree = self.truth()
            self.need(")")
            return tree
        return self.primitive()

    def relation(self):
        """Reads a relation between two numbers."""
        left = self.arithmetic()
        sign = self.need(*RELATIONS)
        return ("relation", sign, left, self.arithmetic())

    def arithmetic(self, level=0):
        """Reads a chain of operators of at least this level."""
        tree = self.unary()
        while (own := LEVELS.get(self.peek(), -1)) >= level:
            self.at += 1
            tree = ("operator", self.tokens[self.at - 1], tree, self.arithmetic(own + 1))
        return tree

    def unary(self):
        """Reads an operand of arithmetic."""
        if self.take("-"):
            return ("minus", self.unary())
        if self.take("("):
            tree = self.arithmetic()
            self.need(")")
            return tree
        if self.take("len"):
            return ("len",)
        if self.peek() in ACCESSORS and self.peek(1) == "[":
            protocol, _ = self.take(*ACCESSORS), self.take("[")
            index = self.arithmetic()
            size = self.number() if self.take(":") else 1
            self.need("]")
            return ("accessor", protocol, index, size)
        if self.peek() in NAMES:
            return ("number", NAMES[self.take(*NAMES)])
        return ("number", self.number())

    def number(self):
        number = number_of(self.peek() or "")
        if number is None:
            raise Unread("not an expression")
        self.at += 1
        return number

    def primitive(self):
        """Reads a primitive that isn't a relation."""
        if size := self.take("less", "greater"):
            return ("relation", "<=" if size == "less" else ">=", ("len",), ("number", self.number()))
        protocol = self.take(*PROTOCOLS)
        cast = self.take("broadcast", "multicast")
        if cast:
            return (cast, protocol)
        direction, kind = self.direction(), self.take("host", "net", "port", "portrange", "proto")
        value = value_of(self.peek() or "")
        if value is None:
            if protocol and not direction and not kind:
                return ("check", protocol)
            raise Unread("not an expression")
        self.at += 1
        if protocol or direction or kind:
            self.inherited = (protocol, direction, kind or "host")
        return ("value", *self.inherited, value, self.mask())

    def direction(self):
        """Reads a direction: `src`, `dst`, or the operator that joins both."""
        first = self.take("src", "dst")
        if first and self.peek() in ("and", "or") and self.peek(1) in {"src", "dst"} - {first}:
            join = self.take("and", "or")
            self.at += 1
            return join
        return first

    def mask(self):
        """Returns the length of a prefix, or the bytes of a mask, or None."""
        if self.take("/"):
            return self.number()
        if self.take("mask"):
            kind, mask = value_of(self.peek() or "") or (None, None)
            if kind != "dotted":
                raise Unread("not an expression")
            self.at += 1
            return mask
        return None


class Reading:
    """Evaluates trees on a packet: yes, no, or `Rejected`."""

    def __init__(self, link, data, original):
        self.link, self.data, self.original, self.base = link, data, original, NETWORK[link]

    def field(self, at, size):
        """Returns the number in a field, or rejects the packet."""
        number = big(self.data, at % 2**32, size)
        if number is None:
            raise Rejected
        return number

    def holds(self, tree):
        """Returns whether a tree matches the packet."""
        kind = tree[0]
        if kind in ("and", "or"):
            left = self.holds(tree[1])
            return self.holds(tree[2]) if left == (kind == "and") else left
        if kind == "not":
            return not self.holds(tree[1])
        if kind == "relation":
            _, sign, left, right = tree
            if not all(self.is_protocol(protocol) for protocol in [*accessors(left), *accessors(right)]):
                return False
            return RELATIONS[sign](self.number(left), self.number(right))
        if kind in ("broadcast", "multicast"):
            return self.is_cast(kind, tree[1])
        if kind == "check":
            return self.is_check(tree[1])
        return kind == "all" or self.is_value(*tree[1:])

    def is_ethernet(self):
        return self.link == ETHERNET

    def is_network(self, name):
        """Returns whether the packet's network header is of this kind."""
        if self.link == RAW:
            version = {"ip": 4, "ip6": 6}.get(name)
            return version is not None and self.field(0, 1) >> 4 == version
        return self.field(self.base - 2, 2) == ETHERTYPES[name]

    def is_protocol(self, name):
        """Returns whether the tests of an accessor's protocol are true."""
        if name == "ether":
            return self.is_ethernet()
        if name in ETHERTYPES:
            return self.is_network(name)
        return self.is_network("ip") and self.field(self.base + 9, 1) == TRANSPORTS[name] and self.is_unfragmented()

    def is_unfragmented(self):
        return self.field(self.base + 6, 2) & 0x1FFF == 0

    def is_ip(self, number):
        return self.is_network("ip") and self.field(self.base + 9, 1) == number

    def is_ip6(self, number):
        return self.is_network("ip6") and self.field(self.base + 6, 1) == number

    def is_check(self, name):
        """Returns whether the packet is of a protocol."""
        if name in ETHERTYPES:
            return self.is_network(name)
        if name == "icmp6":
            return self.is_ip6(58)
        return self.is_ip(TRANSPORTS[name]) or name != "icmp" and self.is_ip6(TRANSPORTS[name])

    def is_cast(self, kind, protocol):
        """Returns whether the packet is a broadcast or multicast of this protocol."""
        if protocol == "ip":
            return self.is_network("ip") and self.field(self.base + 16, 1) >= 224
        if protocol == "ip6":
            return self.is_network("ip6") and self.field(self.base + 24, 1) == 255
        if kind == "broadcast":
            return self.is_ethernet() and self.is_at(0, [(4, 0xFFFFFFFF), (2, 0xFFFF)])
        return self.is_ethernet() and self.field(0, 1) & 1 == 1

    def is_at(self, at, parts, masks=None):
        """Returns whether numbers are at a place, one after another, under their masks."""
        for number, (size, value) in enumerate(parts):
            mask = masks[number] if masks else 2**32 - 1
            if self.field(at, size) & mask != value:
                return False
            at += size
        return True

    def sides(self, direction, test, source, target):
        """Returns whether a test is true of the source, of the target, or of both, as the direction asks."""
        if direction == "src":
            return test(source)
        if direction == "dst":
            return test(target)
        return test(source) and test(target) if direction == "and" else test(source) or test(target)

    def is_value(self, protocol, direction, kind, value, mask):
        """Returns whether the packet has this value with its qualifiers."""
        if kind == "proto":
            return self.is_proto(protocol, value[1])
        if kind in ("port", "portrange"):
            first, last = sorted(value[1]) if kind == "portrange" else (value[1], value[1])
            return self.is_port(protocol, direction, first, last)
        if value[0] == "mac":
            parts = [(4, big(value[1], 0, 4)), (2, big(value[1], 4, 2))]
            return self.is_ethernet() and self.sides(direction, lambda at: self.is_at(at, parts), 6, 0)
        if value[0] == "ip6":
            masks = words(((1 << 128) - 1 ^ (1 << 128 - (128 if mask is None else mask)) - 1).to_bytes(16, "big"))
            parts = [(4, word) for word in words(value[1])]
            return (
                self.is_network("ip6")
                and self.sides(direction, lambda at: self.is_at(at, parts, masks), self.base + 8, self.base + 24)
            )
        data = bytes([value[1]]) if value[0] == "number" else value[1]
        return self.is_address(protocol, direction, big(data.ljust(4, b"\0"), 0, 4), mask_of(len(data), mask))

    def is_proto(self, protocol, number):
        """Returns whether the packet has this protocol number."""
        if protocol == "ether":
            return self.link != RAW and self.field(self.base - 2, 2) == number
        return protocol != "ip6" and self.is_ip(number) or protocol != "ip" and self.is_ip6(number)

    def is_address(self, protocol, direction, address, mask):
        """Returns whether the packet has an IPv4 address under a mask."""
        places = {"ip": (12, 16), "arp": (14, 24), "rarp": (14, 24)}
        for name in [protocol] if protocol else places:
            source, target = places[name]
            if (
                self.is_network(name)
                and self.sides(direction, lambda at: self.field(self.base + at, 4) & mask == address, source, target)
            ):
                return True
        return False

    def is_port(self, protocol, direction, first, last):
        """Returns whether the packet has a port in a range."""
        numbers = [TRANSPORTS[protocol]] if protocol else [6, 17]

        def test(at):
            # Loaded once for both comparisons; if it isn't captured, the packet is rejected.
            return first <= self.field(at, 2) <= last

        if (
            self.is_network("ip")
            and any(self.field(self.base + 9, 1) == number for number in numbers)
            and self.is_unfragmented()
        ):
            at = self.base + 4 * (self.field(self.base, 1) & 15)
            if self.sides(direction, test, at, at + 2):
                return True
        if self.is_network("ip6") and any(self.field(self.base + 6, 1) == number for number in numbers):
            return self.sides(direction, test, self.base + 40, self.base + 42)
        return False

    def number(self, tree):
        kind = tree[0]
        if kind == "number":
            return tree[1]
        if kind == "len":
            return self.original
        if kind == "minus":
            return -self.number(tree[1]) % 2**32
        if kind == "accessor":
            _, protocol, index, size = tree
            base = 0 if protocol == "ether" else self.base
            place = self.number(index)
            if protocol in TRANSPORTS:
                base += 4 * (self.field(self.base, 1) & 15)
            return self.field(place + base, size)
        _, sign, left, right = tree
        return arithmetic(sign, self.number(left), self.number(right))


def accessors(tree):
    """Returns the protocols of the accessors of a number, in the order of their words."""
    if tree[0] == "accessor":
        return [tree[1], *accessors(tree[2])]
    if tree[0] in ("operator", "minus"):
        return [protocol for part in tree[1:] if isinstance(part, tuple) for protocol in accessors(part)]
    return []


def arithmetic(sign, left, right):
    """Returns the result of an operation, or rejects the packet."""
    if sign in ("/", "%") and right == 0:
        raise Rejected
    return OPERATIONS[sign](left, right) % 2**32


def words(data):
    """Returns the four-byte words of bytes."""
    return [big(data, at, 4) for at in range(0, len(data), 4)]


def mask_of(parts, mask):
    """Returns the mask of an IPv4 network of this number of parts."""
    if isinstance(mask, bytes):
        return big(mask, 0, 4)
    return 2**32 - 2 ** (32 - (8 * parts if mask is None else mask))


def matches(tree, packet):
    """Returns whether an expression keeps a packet, on a link type that can be filtered."""
    assert packet.link in (ETHERNET, RAW, COOKED)
    try:
        return Reading(packet.link, packet.data, packet.original).holds(tree)
    except Rejected:
        return False


def tree_of(text):
    """Returns the tree of an expression."""
    return Reader(text).read()
