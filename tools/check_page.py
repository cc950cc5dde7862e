#!/usr/bin/env python3
"""Tests docs/capkit.html in Chromium and in Firefox: uses it, and compares what it shows and saves.

For whoever changes the page or the library.

usage: check_page.py [--page FILE] [--capkit PROGRAM] [--only WORD] [--calls FILE..] [--pictures FOLDER]

Lines, bytes, verdicts, steps and registers are compared with tools/cases/, which shares nothing
with capkit's code; listings and saved files with the program. --calls makes the calls that
tools/port/calls.py wrote in the page's module, and compares every byte of every buffer. --pictures
writes pictures of the page to a folder. --only runs the parts whose name has a word. It needs gcc,
and Debian's packages chromium, chromium-driver and firefox-esr. The last line counts what is wrong;
if it isn't 0 the status is 1.
"""
import argparse
import base64
import dataclasses
import gzip
import pathlib
import random
import re
import shutil
import struct
import subprocess
import sys
import tempfile
import time

from built import ROOT, built_program

sys.path[:0] = [str(ROOT / "tools" / "cases"), str(ROOT / "tools" / "page"), str(ROOT / "web"), str(ROOT / "bench")]
sys.dont_write_bytecode = True
import browser
import files
import filters
import machine
import make_page
import printing

SAMPLES = ROOT / "samples"
HERE = ROOT / "tools" / "page"
# The most bytes of the page.
MOST_BYTES = 200_000
# The number of packets in the large capture.
MANY = 1_000_000
# The most instructions of a program that the page draws.
MOST_DRAWN = 300
# The filter with which the page opens.
FIRST = "tcp port 80 or 443 and host 10.0.0.5"
MARKUP = [
    b"<script>document.title = 'taken'</script>", b"</script><script>document.title = 'taken'</script>",
    b"<img src=x onerror=\"document.title = 'taken'\">", b"<!-- <script> -->", b"]]>&lt;b&gt;",
    b"\"' onmouseover=alert(1) x='",
    b"\x1b[31mred\x07\x00", "\u202etxt.exe\u2028\u200b".encode(), b"\xff\xfe not UTF-8",
    b"javascript:document.title='taken'",
    b"${document.title = 'taken'}", b"{{constructor.constructor('document.title=1')()}}",
]  # fmt: skip
ANY = len(files.Capture((SAMPLES / "any.pcap").read_bytes()).packets)
# The verdicts of an expression on a packet.
KEPT = "matches"
NOT_KEPT = "doesn't match"
REJECTED = "is rejected"

# Scripts that run in the page. This one puts a text into an element.
FILL = """((id, text) => {
  const it = document.getElementById(id);
  it.value = text;
  it.dispatchEvent(new Event(it.tagName === "SELECT" ? "change" : "input"));
})(arguments[0], arguments[1])"""
TEXTS = "[...document.querySelectorAll(arguments[0])].map((it) => it.textContent)"
ROWS = (
    """[...document.querySelectorAll(arguments[0] + " tr.ran")]"""
    """.map((row) => [...row.cells].map((cell) => cell.textContent))"""
)
# The places of the bytes that are marked.
MARKED = """[...document.querySelectorAll(arguments[0])].map((mark) => {
  const range = document.createRange();
  range.setStart(document.getElementById("bytes"), 0);
  range.setEndBefore(mark);
  const rows = range.toString().split("\\n");
  return 16 * (rows.length - 1) + Math.floor((rows[rows.length - 1].length - 6) / 3);
})"""
PARTS = (
    """[...document.querySelectorAll("#tree-0 li")]"""
    """.map((it) => [it.children[0].textContent, it.children[1].textContent])"""
)
PROGRAM = (
    """[...document.querySelectorAll("#rows-0 tr")]"""
    """.map((row) => `${row.cells[1].textContent} ${row.cells[2].textContent}`)"""
)
# The marked boxes of a picture of ways, and the line of the marked ways.
PICTURE = """[[...document.querySelectorAll(arguments[0] + " .on-way text")].map((it) => it.textContent.slice(0, 5)),
  document.querySelector(arguments[0] + " path.on-way").getAttribute("d")]"""
HANDLERS = """[...document.querySelectorAll("*")].filter((it) => [...it.attributes].some((a) =>
  /^on/i.test(a.name) || /javascript:/i.test(a.value))).length"""
# A script, an image and a connection that are put into the page from elsewhere.
TRIED = """(async (address) => {
  const refused = [];
  document.addEventListener("securitypolicyviolation", (event) => refused.push(event.effectiveDirective));
  const script = document.createElement("script");
  script.textContent = "document.title = 'taken'";
  document.body.append(script);
  const image = document.createElement("img");
  image.src = address;
  document.body.append(image);
  await fetch(address).catch(() => {});
  script.remove();
  image.remove();
  await new Promise((done) => setTimeout(done, 200));
  return refused.sort();
})(arguments[0])"""
# A page that may do so.
OTHER = (
    f"""<script>fetch("{browser.NOWHERE}").catch(() => {{ document.title = "asked"; }});</script>"""
    "<script>nothing();</script>"
)


def register(value):
    """Returns the text that the page shows for a register."""
    return str(value) if value < 10 else f"{value:#x} = {value}"


def steps_of(listing, packet):
    """Returns the index, A and X before each step of a run, and how the run ends."""
    run = machine.Machine(packet.data, packet.original)
    try:
        verdict = KEPT if run.run(machine.program_of(listing)) else NOT_KEPT
    except filters.Rejected:
        verdict = REJECTED
    return run.steps, verdict


def drawn_ways(line):
    """Returns the jumps that a line of the picture shows, as pairs of rows, by the coordinates in web/ways.js."""
    ways = []
    for piece in line.split("M")[1:]:
        start, down, end = re.match(r"[\d.]+ ([\d.]+)(?:(v6)|H[\d.]+V([\d.]+)H)", piece).groups()
        source = (float(start) - (28 if down else 21)) / 26
        ways.append((source, source + 1 if down else (float(end) - 15) / 26))
    return ways


def goes_of(listing, steps):
    """Returns the branch that each step of a run takes, if it has two."""
    program, goes = machine.program_of(listing), []
    for (index, _, _), (after, _, _) in zip(steps, steps[1:]):
        code, jt, jf, _ = program[index]
        goes.append(("yes" if after == index + 1 + jt else "no") if code & 7 == 5 and code != 5 and jt != jf else "")
    return [*goes, ""]


def verdict_of(text, packet):
    """Returns the verdict of an expression on a packet, by its definition."""
    try:
        tree = filters.tree_of(text)
        return (
            KEPT
            if tree == ("all",) or filters.Reading(packet.link, packet.data, packet.original).holds(tree)
            else NOT_KEPT
        )
    except filters.Rejected:
        return REJECTED


LINKS = {1: "Ethernet", 101: "raw IP", 113: "Linux cooked"}
LOAD = re.compile(r"(ldh|ldb|ldxb|ld) +(?:4\*\()?\[(x \+ )?(\d+)\]")
LOADED = {"ld": 4, "ldh": 2, "ldb": 1, "ldxb": 1}


def places_of(text, x):
    """Returns the offsets of the bytes that an instruction loads."""
    if not (load := LOAD.match(text)):
        return range(0)
    start = int(load[3]) + (x if load[2] else 0)
    return range(start, start + LOADED[load[1]])


class Page:
    """The page in a browser."""

    count, wrong = 0, 0
    path, capkit, folder = ROOT / "docs" / "capkit.html", None, None

    def __init__(self, driver, address=""):
        self.driver, self.value = driver, driver.value
        driver.open(self.path, address)
        driver.wait("document.querySelector('#reasons .reason') || document.querySelector('#about.bad')")

    def equal(self, what, shown, expected):
        """Counts a comparison, and prints it if what the page shows differs."""
        Page.count += 1
        if shown != expected:
            Page.wrong += 1
            print(f"WRONG: {type(self.driver).__name__}: {what}: {shown!r}, not {expected!r}", flush=True)

    def true(self, what, holds):
        self.equal(what, bool(holds), True)

    def texts(self, selector):
        """Returns the texts of the elements of a selector."""
        return self.value(TEXTS, selector)

    def text(self, selector):
        return self.texts(selector)[0]

    def fill(self, text, place=0, name="text"):
        """Writes a filter, or chooses of a list."""
        self.value(FILL, f"{name}-{place}" if name in ("text", "kind") else name, text)

    def show(self, which):
        """Chooses the packets that the list shows."""
        self.fill(which, name="show")

    def packets(self, which):
        """Returns the numbers of the packets in the list under a choice of `Show`."""
        self.show(which)
        return self.value("[...document.querySelectorAll('[role=option]')].map((it) => Number(it.id.slice(7)))")

    def sample(self, name):
        """Opens a sample, and waits until it is read."""
        self.fill(name, name="sample")
        self.driver.wait("document.getElementById('about').textContent.startsWith(arguments[0])", f"{name}:")

    def load(self, path, count=None):
        """Gives the page a file; waits until its packets are counted."""
        self.value("document.getElementById('about').textContent = ''")
        self.driver.type("#file", path)
        self.driver.wait("/packets?/.test(document.getElementById('about').textContent) && "
                         "document.getElementById('message-0').textContent.includes(arguments[0])",
                         f"of {count:,} packet" if count is not None else "")

    def run(self, *words):
        """Returns the output of the program."""
        done = subprocess.run([self.capkit, *words], capture_output=True, check=False, cwd=self.folder)
        return done.stdout

    def saved(self, place=0):
        """Returns the file that the page saves."""
        before = set(self.folder.iterdir())
        self.driver.click(f"#save-{place}")
        end = time.monotonic() + 60
        while time.monotonic() < end:
            new = [it for it in self.folder.iterdir() if it not in before and it.suffix == ".pcapng"]
            if new and not [*self.folder.glob("*.part"), *self.folder.glob("*.crdownload")] and new[0].stat().st_size:
                data = new[0].read_bytes()
                new[0].unlink()
                return data
            time.sleep(0.05)
        return None

    def same_file(self, capture, text, *words):
        """Compares a saved file with the output of `capkit print -w`, which writes no file if it
        fails before the first match.
        """
        made, what = self.folder / "made", f"saved: {pathlib.Path(capture).name} {text[:60]!r}"
        made.unlink(missing_ok=True)
        self.run("print", *words, "-w", made, capture, *([text] if text else []))
        if made.exists():
            self.true(what, self.saved() == made.read_bytes())
            self.true(f"{what}: told", re.fullmatch(r"Saved [\d,]+ packets?\.", self.text("#saved-0")))
        else:
            before = set(self.folder.iterdir())
            self.driver.click("#save-0")
            self.true(f"{what}: told", self.text("#saved-0").startswith("Nothing is saved: "))
            time.sleep(0.3)
            self.equal(what, set(self.folder.iterdir()) - before, set())


def check_packet(page, number, packet, listings):
    """Compares what is shown of a packet, which is clicked, with the definitions; listings has one for each filter."""
    page.driver.click(f"#packet-{number}")
    what = f"packet {number}"
    page.equal(what, page.text("#packet"), f"Packet {number}")
    page.equal(f"{what}: line", page.text("#line"), printing.line(packet).rstrip("\n"))
    lines = [line for line in page.text("#bytes").split("\n") if line and "not shown" not in line]
    shown = bytes.fromhex("".join(line[6:55] for line in lines))
    page.equal(f"{what}: bytes", shown, packet.data[:4096])
    sizes = [f"{it:,} byte{'' if it == 1 else 's'}" for it in (len(packet.data), packet.original)]
    page.equal(
        f"{what}: facts", page.texts("#facts dd")[:3], [*sizes, LINKS.get(packet.link, f"link type {packet.link}")]
    )
    reasons, read = page.texts("#reasons .reason"), set()
    for place, (listing, reason) in enumerate(zip(listings, reasons)):
        steps, verdict = steps_of(listing, packet)
        rows, goes = page.value(ROWS, f"#rows-{place}"), goes_of(listing, steps)
        expected = [
            [str(at), f"({index:03})", register(a), register(x), way]
            for at, ((index, a, x), way) in enumerate(zip(steps, goes), 1)
        ]
        page.equal(f"{what}: rows", [[row[0], row[1], *row[4:7]] for row in rows], expected)
        if len(machine.program_of(listing)) <= MOST_DRAWN:
            indexes = [index for index, _, _ in steps]
            boxes, line = page.value(PICTURE, f"#picture-{place}")
            page.equal(f"{what}: boxes", boxes, [f"({it:03})" for it in sorted(set(indexes))])
            page.equal(f"{what}: ways", drawn_ways(line), list(zip(indexes, indexes[1:])))
        page.true(
            f"{what}: {reason}",
            reason.startswith("It " + verdict) and reason.endswith(f" {len(steps):,} step{'s' * (len(steps) > 1)}."),
        )
        for (_, _, x), row in zip(steps, rows):
            read.update(places_of(row[2], x))
    page.equal(
        f"{what}: marks",
        page.value(MARKED, "#bytes mark"),
        sorted(it for it in read if it < min(len(packet.data), 4096)),
    )


def check_parts(page, number, packet):
    """Compares the result of each part of the tree with its definition, if the part was evaluated."""
    for text, outcome in page.value(PARTS):
        if text not in ("and", "or", "not") and outcome != "not evaluated":
            page.equal(f"packet {number}: {text}", outcome[2:], verdict_of(text, packet))


def listing_of(page, text, *words):
    """Returns the listing that the program prints for an expression."""
    return page.run("compile", *words, text)


def check_picture(page, listing):
    """Checks that the picture has each branch of a program: the first jump to an instruction as a
    whole line, later ones up to that line.
    """
    wanted = set()
    for index, (code, jt, jf, k) in enumerate(machine.program_of(listing)):
        if code & 7 == 5:
            ways = [("next", k)] if code == 5 else [("yes", jt), ("no", jf)] if jt != jf else [("next", jt)]
            wanted |= {(way, index, index + 1 + by) for way, by in ways}
        elif code & 7 != 6:
            wanted.add(("next", index, index + 1))
    lines = page.value(
        "[...document.querySelectorAll('#picture-0 path:not(.on-way)')].map((it) => "
        "[it.getAttribute('class'), it.getAttribute('d')])"
    )
    shown, rails = set(), []
    for way, line in lines:
        if "H" not in line or "V" in line:
            ((source, target),) = drawn_ways(line)
            shown.add((way, source, target))
            rails += [(way, line.split("H")[1].split("V")[0], source, target)] if "V" in line else []
    for way, line in lines:
        if "H" in line and "V" not in line:
            start, rail = re.fullmatch(r"M[\d.]+ ([\d.]+)H([\d.]+)", line).groups()
            source = (float(start) - 21) / 26
            shown |= {
                (way, source, target)
                for *known, first, target in rails
                if known == [way, rail] and first < source < target
            }
    page.equal("ways", shown, wanted)


def check_day(page):
    """Checks each packet of a capture: its line, bytes, run, marks, parts and reason."""
    page.fill(FIRST)
    page.equal(
        "meaning",
        page.text("#meaning-0"),
        "((tcp src or dst port 80) or (tcp src or dst port 443)) and (src or dst host 10.0.0.5)",
    )
    page.equal("all", len(page.packets("all")), 44)
    check_picture(page, listing_of(page, FIRST))
    day = files.Capture((SAMPLES / "day.pcap").read_bytes())
    for number, packet in enumerate(day.packets, 1):
        check_packet(page, number, packet, [listing_of(page, FIRST)])
        check_parts(page, number, packet)
    matching = [number for number, packet in enumerate(day.packets, 1) if verdict_of(FIRST, packet) == KEPT]
    page.equal("those that match", page.packets("+"), matching)
    page.equal("those that don't", page.packets("-"), [it for it in range(1, 45) if it not in matching])
    page.equal("version", page.text("#version"), (ROOT / "packaging" / "version").read_text().strip())
    page.true(page.text("#message-0"), page.text("#message-0").startswith(f"{len(matching)} of 44 packets match, in "))
    page.equal("their order and operands", [text for text, _ in page.value(PARTS)],
               ["and", "or", "tcp src or dst port 80", "tcp src or dst port 443", "src or dst host 10.0.0.5"])
    page.fill("ip or arp or rarp")
    page.equal("a chain", [text for text, _ in page.value(PARTS)], ["or", "ip", "arp", "rarp"])
    page.fill("not not tcp[13] & (1|2) != 0")
    page.equal("arithmetic", [text for text, _ in page.value(PARTS)], ["not", "not", "(tcp[13:1] & (1 | 2)) != 0"])
    page.fill("ip or arp and tcp")
    page.packets("all")
    page.driver.click("#packet-1")
    outcomes = dict(page.value(PARTS))
    page.equal(
        "an ARP packet", [outcomes[it][0] for it in ("and", "or", "ip", "arp", "tcp")], ["✗", "✓", "✗", "✓", "✗"]
    )
    page.fill("")
    page.true("the empty expression", "every packet matches" in page.text("#meaning-0"))
    page.equal("the empty expression", len(page.packets("+")), 44)


REFUSED = [
    ("tcp prt 80", "unknown word (at byte 5)", "prt"), ("tcp ?", "unknown character (at byte 5)", "?"),
    ("é", "unknown character (at byte 1)", "é"),
    ("ip host 10.0.0.1 or ü", "unknown character (at byte 21)", "ü"),
    ("len > 5000000000", "number too large (at byte 7)", "5000000000"),
    ("tcp port", "not an expression", "tcp port"), ("(" * 101 + "tcp" + ")" * 101, "nested too deep", None),
    ("host 80", "qualifiers do not fit", "host 80"), ("port 70000", "value out of range", "port 70000"),
    ("net 10.0.0.1/8", "bits set past the mask", "net 10.0.0.1/8"), ("len / 0 = 1", "division by zero", "len / 0 = 1"),
    ("a" * 65537, "longer than 65536 bytes", None), ("tcp \x1b[31m", "unknown character (at byte 5)", "\x1b"),
    (" or ".join(["port 80"] * 3000), "program too long", None),
]  # fmt: skip


def check_refused(page):
    """Checks refused expressions: the reason, and the underlined place. Earlier results remain, marked as such."""
    page.fill("tcp port 80")
    for text, message, part in REFUSED:
        page.fill(text)
        page.driver.wait("document.getElementById('message-0').className.includes('bad')")
        told = page.text("#message-0")
        page.equal(f"{text[:30]!r}", told, message)
        page.equal(f"{text[:30]!r}: underlined", page.text("#mirror-0 u"), text if part is None else part)
        page.equal("as it is written", page.text("#mirror-0"), text + " ")
        page.true(
            "marked as such",
            page.value("document.body.classList.contains('refused') && document.getElementById('save-0').disabled"),
        )
        page.fill("tcp port 80")
        page.driver.wait("!document.getElementById('message-0').className.includes('bad')")
    page.equal("read again", len(page.packets("+")), 9)
    page.fill("tcp prt")
    page.sample("cooked.pcap")
    page.equal(
        "another capture while it is refused",
        [page.packets("+"), page.packets("all"), page.text("#packet")],
        [[], [1, 2], "Packet 1"],
    )
    page.driver.click("#second")
    page.driver.click("#packet-2")
    page.fill("tcp", 1)
    page.equal("the other filter is", page.text("#packet"), "Packet 2")
    page.fill("tcp")
    page.equal("both are read", [page.packets("+"), page.packets("differ")], [[1], []])


LISTINGS = [
    ("", "not a listing (line 1)", ""), ("two\n", "not a listing (line 1)", "two"),
    ("2\n6 0 0 0\n", "not a listing", None),
    ("1\n6 0 256 0\n", "not a listing (line 2)", "6 0 256 0"), ("0\n", "empty: no packet is run on it", None),
    ("2\n5 0 0 7\n6 0 0 0\n", "jump out (instruction 0): no packet is run on it", "5 0 0 7"),
    ("2\n0 0 0 1\n200 0 0 0\n", "unknown code (instruction 1): no packet is run on it", "200 0 0 0"),
    ("1\n48 0 0 0\n", "no return at the end: no packet is run on it", None),
]  # fmt: skip


def check_listing(page):
    """Programs as listings: that of an expression, others, refused ones."""
    page.fill(FIRST)
    matching = page.packets("+")
    page.fill("listing", name="kind")
    listing = listing_of(page, FIRST)
    page.equal("the listing of an expression", page.value("document.getElementById('text-0').value").encode(), listing)
    page.equal("it matches the same", page.packets("+"), matching)
    odd = b"3\n128 0 0 0\n84 0 0 1\n22 0 0 0\n"
    page.fill(odd.decode())
    day = files.Capture((SAMPLES / "day.pcap").read_bytes())
    page.equal("odd lengths", page.packets("+"), [at for at, it in enumerate(day.packets, 1) if it.original % 2])
    page.equal("in words", [row[3] for row in page.value(ROWS, "#rows-0")],
               ["A is the length of the packet on the wire", "A = A & 0x1", "return A: keep the packet unless it is 0"])
    page.same_file(SAMPLES / "day.pcap", "", "--code", write(page, "odd", odd))
    for name in ("two-sections.pcapng", "any.pcap"):
        page.load(SAMPLES / name, len(files.Capture((SAMPLES / name).read_bytes()).packets))
        page.same_file(SAMPLES / name, "", "--code", page.folder / "odd")
    page.sample("day.pcap")
    for text, message, part in LISTINGS:
        page.fill(text)
        told = page.text("#message-0")
        page.true(
            f"{text!r}: {told}",
            told.startswith(message) and page.value("document.getElementById('message-0').className.includes('bad')"),
        )
        if part is not None:
            page.equal(f"{text!r}: underlined", page.text("#mirror-0 u"), part)
    for text in (
        "tcp port 80", "ip6 host ::1 or arp", "len > 9 and ether[0] & 1 = 0", "vlan"
    ) if shutil.which("tcpdump") else ():
        theirs, expected = (
            subprocess.run(["tcpdump", "-y", "EN10MB", it, text], capture_output=True, check=True).stdout
            for it in ("-ddd", "-d")
        )
        page.fill(theirs.decode())
        page.equal(
            f"as tcpdump -d shows {text}",
            page.value(PROGRAM),
            [" ".join(line.split()) for line in expected.decode().splitlines()],
        )
    every = b"2\n%d 0 0 0\n6 0 0 1\n"
    for code in range(256):
        page.fill((every % code).decode())
        if not page.value("document.getElementById('message-0').className.includes('bad')"):
            page.true(f"code {code} has words", page.texts("#rows-0 td:nth-child(4)")[0])
    page.fill("expression", name="kind")


def write(page, name, data):
    """Writes a file into the folder of the page, and returns its path."""
    (page.folder / name).write_bytes(data)
    return page.folder / name


def check_beside(page):
    """Checks two filters side by side: the packets on which they differ, and the runs of both."""
    other = "tcp port 80 or (443 and host 10.0.0.6)"
    page.fill(FIRST)
    page.driver.click("#second")
    page.fill(other, 1)
    day = files.Capture((SAMPLES / "day.pcap").read_bytes())
    differ = [at for at, it in enumerate(day.packets, 1) if verdict_of(FIRST, it) != verdict_of(other, it)]
    page.equal("differ", page.packets("differ"), differ)
    page.equal("told", page.text("#differ"), f"The filters differ on {len(differ)} of 44 packets.")
    page.equal("names", page.texts("h2")[1:3], ["Filter A", "Filter B"])
    listings = [listing_of(page, text) for text in (FIRST, other)]
    for number in differ:
        check_packet(page, number, day.packets[number - 1], listings)
    made = page.folder / "made"
    page.run("print", "-w", made, SAMPLES / "day.pcap", other)
    page.true("filter B is saved", page.saved(1) == made.read_bytes())
    page.show("all")
    page.equal(
        "marked", page.value("[...document.querySelectorAll('.differs')].map((it) => Number(it.id.slice(7)))"), differ
    )
    page.driver.click("#second")
    page.equal("one again", page.texts("h2")[1], "Filter")


def check_steps(page):
    """Steps by the buttons: the row that is framed, what it says, and the bytes that the step reads."""
    page.fill(FIRST)
    page.packets("all")
    page.driver.click("#packet-5")
    rows = page.value(ROWS, "#rows-0")
    for button, order in (("#on", rows), ("#back", rows[-2::-1])):
        for number, index, text, words, a, x, *_ in order:
            page.driver.click(button)
            page.equal(f"{button}: row", page.texts("tr.here > :first-child"), [number])
            end = "" if words.endswith("?") else "."
            page.equal(
                f"{button}: told",
                page.text("#step"),
                f"Step {number}. {index} {text}: {words}{end} Before it A is {a} and X is {x}.",
            )
            page.equal(
                f"{button}: in the picture", page.texts("#picture-0 .here text"), [f"{index} {text.split(' jt ')[0]}"]
            )
            page.equal(
                f"{button}: framed", page.value(MARKED, "#bytes mark.now"), [*places_of(text, int(x.split("= ")[-1]))]
            )


def check_captures(page):
    """Checks captures that are damaged, cut or empty, without known link types, or with several."""
    page.fill("tcp")
    for name, count, told in (
        ("damaged.pcap", 30, "it is damaged at byte 2631 (too long)"),
        ("truncated.pcap", 1, "it is damaged at byte 82 (truncated)"),
    ):
        page.load(SAMPLES / name, count)
        about = page.text("#about")
        page.true(about, about.startswith(name) and told in about)
        page.equal("packets", len(page.packets("all")), count)
    page.load(write(page, "empty.pcap", (SAMPLES / "day.pcap").read_bytes()[:24]), 0)
    page.true(page.text("#about"), page.text("#about").endswith("24 bytes, 0 packets"))
    page.equal("its program", len(page.texts("#rows-0 tr")) > 3, True)
    page.same_file(page.folder / "empty.pcap", "tcp")
    for name, data, told in (
        ("none", b"", "it is damaged at byte 0"),
        ("text", b"this isn't a capture", "it is damaged at byte 0 (not a capture file)"),
    ):
        page.load(write(page, name, data), 0)
        page.true(page.text("#about"), told in page.text("#about"))
    page.load(SAMPLES / "any.pcap", ANY)
    told = page.text("#message-0")
    page.true(told, f"0 of {ANY} packets match" in told and told.endswith(f"276, so {ANY} packets of it can't match"))
    page.packets("all")
    page.equal("told", page.text("#reasons .reason"), "It isn't filtered: its link type is 276.")
    page.same_file(SAMPLES / "any.pcap", "tcp")
    page.fill("")
    page.equal("the empty expression", len(page.packets("+")), ANY)
    check_mixed(page)
    page.sample("two-sections.pcapng")
    page.fill("ip")
    page.packets("all")
    for number, link in ((1, "Ethernet"), (2, "raw IP"), (1, "Ethernet")):
        page.driver.click(f"#packet-{number}")
        page.true("program", page.text("#count-0").endswith(f"instructions, for {link}"))
    chance = random.Random(96)
    for place in range(20):
        data = bytearray(
            (
                SAMPLES / chance.choice(["day.pcap", "comments.pcapng", "two-sections.pcapng", "mirror.pcap"])
            ).read_bytes()
        )
        data[chance.randrange(len(data))] ^= 1 << chance.randrange(8)
        capture = files.Capture(bytes(data))
        page.load(write(page, f"flipped-{place}", data), len(capture.packets))
        about = page.text("#about")
        fault = (
            f"; it is damaged at byte {capture.at} ({capture.fault}), so nothing is read from there on"
            if capture.fault
            else ""
        )
        page.true(f"{about}: {fault}", about.endswith(f"packet{'' if len(capture.packets) == 1 else 's'}{fault}"))
        page.fill("")
        shown = [re.search(r"\d+  (.*)", line)[1] for line in page.texts("[role=option]")]
        page.equal("lines", shown, [printing.line(it).rstrip("\n") for it in capture.packets])


def check_mixed(page):
    """Checks a packet of an unknown link type between two others: `capkit print` stops there, and
    the page continues.
    """
    first, other, last = files.Capture((SAMPLES / "day.pcap").read_bytes()).packets[4:7]
    captures = {"mixed.pcapng": [first, dataclasses.replace(other, link=276), last], "others.pcapng": [first, last]}
    for name, packets in captures.items():
        writer = files.Writer("pcapng")
        for packet in packets:
            writer.put(packet)
        write(page, name, b"".join(writer.pieces))
    page.load(page.folder / "mixed.pcapng", 3)
    page.fill("tcp")
    page.true("told", page.text("#message-0").endswith("link type not filtered 276, so 1 packet of it can't match"))
    page.equal("marks", page.packets("all") and page.texts("#list .mark"), ["✓", "–", "✓"])
    made = page.folder / "made"
    page.run("print", "-w", made, page.folder / "others.pcapng", "tcp")
    page.true("the others are saved", page.saved() == made.read_bytes())
    for number in (2, 1):
        page.driver.click(f"#packet-{number}")
    page.true("its run after that of another", page.value(ROWS, "#rows-0"))
    page.fill("udp")
    page.same_file(page.folder / "mixed.pcapng", "udp")


def check_saved(page):
    """Checks that saved files are those of `capkit print -w`, byte for byte."""
    for name in ("day.pcap", "comments.pcapng", "two-sections.pcapng", "damaged.pcap", "truncated.pcap",
                 "nanoseconds.pcap", "big-endian.pcap",
                 "four.pcap", "cooked.pcap", "mirror.pcap", "tagged.pcap"):  # fmt: skip
        page.load(SAMPLES / name, len(files.Capture((SAMPLES / name).read_bytes()).packets))
        for text in ("", "tcp port 80", "not tcp", "len < 60", "arp or ip[8] > 63"):
            page.fill(text)
            page.same_file(SAMPLES / name, text)
    page.load(SAMPLES / "any.pcap", ANY)
    page.fill("")
    page.same_file(SAMPLES / "any.pcap", "")


def check_hostile(page):
    """Checks that markup and control characters of a capture are shown as text, and that the page fetches nothing."""
    writer = files.Writer("pcapng")
    for text in MARKUP:
        writer.put(files.Packet(1, 0, text, 10**9, len(text), text, text))
    page.load(write(page, "<b>hostile.pcapng", b"".join(writer.pieces)), len(MARKUP))
    page.fill("ether[0] = 60 or tcp")
    page.packets("all")
    for number, text in enumerate(MARKUP, 1):
        page.driver.click(f"#packet-{number}")
        facts = page.texts("#facts dd")
        page.equal("name and comment", facts[-2], facts[-1])
        if text.isascii() and text.decode().isprintable():
            page.equal("comment", facts[-1], text.decode())
        page.true(facts[-1], facts[-1].isprintable())
    page.equal("handlers", page.value(HANDLERS), 0)
    page.equal("scripts", page.value("[...document.scripts].filter((it) => it.type === '' && !it.src).length"), 1)
    page.equal("images and frames", page.texts("img,iframe,object,embed,link,base,form"), [])
    page.equal("what is put in", page.value(TRIED, browser.NOWHERE), ["connect-src", "img-src", "script-src-elem"])
    page.equal("title", page.value("document.title"), "capkit: filter a capture")


def tab_to(page, name):
    """Presses Tab until an element has the focus."""
    for _ in range(40):
        page.driver.keys("Tab")
        if page.value("document.activeElement.id") == name:
            return
    page.true(f"Tab reaches {name}", False)


def check_keys(page):
    """Checks what needs only the keyboard: an expression, the list, steps, a second filter, saving."""
    page.value("document.querySelector('.skip').focus()")
    tab_to(page, "text-0")
    page.value("document.getElementById('text-0').select()")
    page.driver.keys(*"udp port 53")
    page.equal("typed", page.text("#meaning-0"), "udp src or dst port 53")
    tab_to(page, "save-0")
    made = page.folder / "made"
    page.run("print", "-w", made, SAMPLES / "day.pcap", "udp port 53")
    before = {*page.folder.iterdir()}
    page.driver.keys("Enter")
    end = time.monotonic() + 30
    while time.monotonic() < end and not {*page.folder.glob("day-filtered*.pcapng")} - before:
        time.sleep(0.1)
    time.sleep(0.5)
    saved = {*page.folder.glob("day-filtered*.pcapng")} - before
    page.true("saved by the keyboard", saved and saved.pop().read_bytes() == made.read_bytes())
    tab_to(page, "show")
    page.driver.keys("a")
    page.equal("all", page.value("document.getElementById('show').value"), "all")
    tab_to(page, "list")
    for key, number in (
        ("Home", 1), ("ArrowDown", 2), ("PageDown", 12), ("ArrowUp", 11), ("End", 44), ("ArrowDown", 44), ("PageUp", 34)
    ):
        page.driver.keys(key)
        page.equal(key, page.text("#packet"), f"Packet {number}")
    page.equal(
        "active", page.value("document.getElementById('list').getAttribute('aria-activedescendant')"), "packet-34"
    )
    for key, step in (("n", "1"), ("n", "2"), ("n", "3"), ("p", "2")):
        page.driver.keys(key)
        page.equal(key, page.texts("tr.here > :first-child"), [step])
    page.true(page.text("#step"), page.text("#step").startswith("Step 2. (001) jeq #0x800"))
    page.driver.keys("ArrowUp")
    page.equal("another packet", page.texts("tr.here"), [])
    page.value("document.querySelector('.skip').focus()")
    tab_to(page, "second")
    page.driver.keys("Enter")
    page.equal("the second filter has the focus", page.value("document.activeElement.id"), "text-1")


def check_address(page):
    """Checks that the page opens what its address names."""
    page = Page(page.driver, "#filter=tcp+port+80&with=not+tcp+port+80&sample=short.pcap&packet=7")
    page.equal("packet", page.text("#packet"), "Packet 7")
    page.equal(
        "filters",
        page.value("[...document.querySelectorAll('textarea')].map((it) => it.value)"),
        ["tcp port 80", "not tcp port 80"],
    )
    page.true("sample", page.text("#about").startswith("short.pcap"))
    page.value("location.hash = '#packet=8'")
    page.driver.wait("document.getElementById('packet').textContent === 'Packet 8'")
    page.fill("udp or ip[8]=1")
    page.driver.click("#packet-4")
    link = page.value("document.getElementById('address').hash")
    page = Page(page.driver, link)
    page.equal("the link to what is shown",
               [page.text("#packet"), page.value("[...document.querySelectorAll('textarea')].map((it) => it.value)")],
               ["Packet 4", ["udp or ip[8]=1", "not tcp port 80"]])
    page.true("its sample", page.text("#about").startswith("short.pcap"))
    page.load(SAMPLES / "day.pcap", 44)
    page.true("a file has no link", page.value("document.getElementById('address').hidden"))


LESSONS = {
    "day.pcap": {"tcp port 80": 9, "arp": 2, "udp": 4, "icmp": 4, "tcp": 34, "ip6": 2, "ip6 and udp": 2,
                 "not port 53": 40,
                 "not port 53 and not tcp and not udp": 6, "host 10.0.0.5 and tcp port 80 or 443": 18,
                 "host 10.0.0.5 and (tcp port 80 or 443)": 9, "tcp[13] & 2 = 0": 22, "not tcp[13] & 2 != 0": 32},
    "short.pcap": {"tcp port 80": 0, "not tcp port 80": 10, "tcp port 80 or len < 60": 4,
                   "len < 60 or tcp port 80": 34, "tcp": 34},
}  # fmt: skip


def check_lessons(page):
    """Checks the results that docs/TEACHING.md has students find, and the program that it shows."""
    shown = re.search(r"```text\n(\(000\).*?)```", (ROOT / "docs" / "TEACHING.md").read_text(), re.DOTALL)[1]
    page.fill("tcp port 80")
    rows = page.value(
        "[...document.querySelectorAll('#rows-0 tr')].map((row) => [...row.cells].slice(1, "
        "4).map((it) => it.textContent))"
    )
    page.equal("the program", [" ".join(line.split()) for line in shown.splitlines()], [" ".join(row) for row in rows])
    page.packets("all")
    for number, steps in ((1, 4), (3, 5), (5, 12), (6, 10)):
        page.driver.click(f"#packet-{number}")
        page.true("steps", page.text("#reasons .reason").endswith(f" {steps} steps."))
    for sample, counts in LESSONS.items():
        page.sample(sample)
        for text, count in counts.items():
            page.fill(text)
            page.equal(f"{sample}: {text}", len(page.packets("+")), count)
    page.driver.click("#second")
    ten = [1, 2, 3, 4, 14, 15, 16, 17, 34, 35]
    for sample, one, other, differ in (
        ("day.pcap", "host 10.0.0.5 and tcp port 80 or 443", "host 10.0.0.5 and (tcp port 80 or 443)", 9),
        ("day.pcap", "not host 10.0.0.5 and tcp", "not (host 10.0.0.5 and tcp)", ten),
        ("day.pcap", "tcp[13] & 2 = 0", "not tcp[13] & 2 != 0", ten),
        ("short.pcap", "tcp port 80 or len < 60", "len < 60 or tcp port 80", 30),
        ("short.pcap", "tcp port 80", "not tcp port 80", 10),
    ):  # fmt: skip
        page.sample(sample)
        page.fill(one)
        page.fill(other, 1)
        found = page.packets("differ")
        page.equal(one, found if isinstance(differ, list) else len(found), differ)
    rejected = page.packets("!")
    page.equal("rejected", len(rejected), 34)
    page.driver.click(f"#packet-{rejected[0]}")
    for reason in page.texts("#reasons .reason"):
        page.true(reason, "it loads bytes 34 to 35, counted from 0, and 30 were captured" in reason)
    check_third_lesson(page)
    page.driver.click("#second")
    page.sample("day.pcap")
    check_words(page)


def check_third_lesson(page):
    """Checks listings side by side: tcpdump's before and after its optimizer, and one without the
    test for later fragments.
    """
    page.sample("day.pcap")
    for place in (0, 1):
        page.fill("listing", place, "kind")
    for text, differ in (("tcp port 80", 0), ("ip[100] = 1 or ip[100] != 1", 37)) if shutil.which("tcpdump") else ():
        for place, options in enumerate((["-O"], [])):
            theirs = subprocess.run(
                ["tcpdump", "-y", "EN10MB", *options, "-ddd", text], capture_output=True, check=True
            ).stdout
            page.fill(theirs.decode(), place)
        page.equal(f"the listings of {text}", len(page.packets("differ")), differ)
    lines = listing_of(page, "tcp port 80").decode().splitlines()
    page.fill("\n".join(["18", lines[1], "21 0 7 2048", lines[3], "21 0 13 6", *lines[7:], ""]), 1)
    page.fill("expression", 0, "kind")
    page.fill("tcp port 80")
    page.equal("without the test, whole packets", page.packets("differ"), [])
    fragment = bytearray((SAMPLES / "day.pcap").read_bytes())
    fragment[410:412] = 0, 1
    page.load(write(page, "fragment.pcap", fragment), 44)
    page.equal("a fragment", page.packets("differ"), [5])


WORDS = [
    ("udp dst port 53", ["A is the EtherType (2 bytes from byte 12)", "is the EtherType IPv4?",
                         "is it a later fragment?",
                         "is the destination port 53?", "keep the packet", "don't keep it"]),
    ("arp host 10.0.0.1", ["is the sender's IPv4 address 10.0.0.1?"]),
    ("net 10.0.0.0/8", ["is the source network 10.0.0.0/8?"]),
    ("ip6 host ::1 or icmp[0] = 8 or len / 3 > 5", ["divide A by 3", "is the ICMP type 8?"]),
]  # fmt: skip


def check_words(page):
    """Checks instructions and reasons in words."""
    for text, wanted in WORDS:
        page.fill(text)
        words = page.texts("#rows-0 td:nth-child(4)")
        page.equal(f"{text}: in words", [it for it in wanted if it not in words], [])
    for text, number, told in (
        ("net 10.0.0.0/8", 3, "is the source network 10.0.0.0/8? Yes, it is 10.0.0.5."),
        ("ether[0] = 255", 1, "Yes, it is 255 (0xff)."),
        ("len > 1000", 1, "is the length above 1000? No, it is 60."),
    ):  # fmt: skip
        page.fill(text)
        page.packets("all")
        page.driver.click(f"#packet-{number}")
        page.true(page.text("#reasons .reason"), told in page.text("#reasons .reason"))


def check_many(page):
    """Checks a capture of 1,000,000 packets: counts, times, the list, and the saved file."""
    capture = pathlib.Path(page.folder, "many.pcap")
    if not capture.exists():
        subprocess.run([sys.executable, ROOT / "bench" / "make_capture.py", capture, str(MANY)], check=True)
    page.fill("tcp port 80")
    page.driver.type("#file", capture)
    page.driver.wait("document.getElementById('message-0').textContent.includes('of 1,000,000 packets match')")
    for text in ("udp", "host 10.0.0.1 and not tcp port 80 or icmp", "", "tcp port 80"):
        page.fill(text)
        page.driver.wait("document.getElementById('meaning-0').textContent")
        time.sleep(0.3)
        page.driver.wait("document.getElementById('message-0').textContent.includes('1,000,000')")
        told = page.text("#message-0")
        print(f"{type(page.driver).__name__}: {text or 'the empty expression'}: {told}", flush=True)
        made = page.folder / "made"
        made.unlink(missing_ok=True)
        page.run("print", "-w", made, capture, *([text] if text else []))
        matching = sum(1 for _ in blocks(made.read_bytes()))
        page.true(told, told.startswith(f"{matching:,} of 1,000,000 packets match, in "))
        page.true("at most 3 s", int(re.search(r"in (\d+) ms", told)[1]) <= 3000)
    page.same_file(capture, "tcp port 80")
    page.show("+")
    page.true(page.text("#shown"), page.text("#shown").endswith("of which 1 to 1,000 are listed"))
    page.driver.click("#later")
    page.true(page.text("#shown"), page.text("#shown").endswith("of which 1,001 to 2,000 are listed"))
    page.driver.click("#earlier")
    page.true(page.text("#shown"), page.text("#shown").endswith("of which 1 to 1,000 are listed"))
    page.value("document.getElementById('list').focus()")
    page.driver.keys("End")
    last = page.text("#packet")
    page.driver.keys("ArrowDown")
    page.equal("the last one", page.text("#packet"), last)
    times = []
    for key in ["ArrowUp"] * 20:
        start = time.monotonic()
        page.driver.keys(key)
        times.append(time.monotonic() - start)
    print(
        f"{type(page.driver).__name__}: a packet is chosen in {1000 * sorted(times)[10]:.0f} ms "
        "(median), the driver's time included",
        flush=True,
    )


def blocks(data):
    """Yields the enhanced packet blocks of a little-endian pcapng file."""
    place = 0
    while place < len(data):
        kind, size = struct.unpack_from("<II", data, place)
        if kind == files.ENHANCED_TYPE:
            yield place
        place += size


def check_long(page):
    """Programs of 1,000 instructions that all run, and of more than the table has."""
    pairs = 499
    rows = [row for place in range(pairs) for row in (f"48 0 0 {place % 40}", "21 0 0 0")]
    listing = "\n".join([str(2 * pairs + 2), *rows, "48 0 0 12", "6 0 0 262144", ""])
    page.fill("listing", name="kind")
    page.fill(listing)
    page.driver.wait("document.getElementById('count-0').textContent.startsWith('1,000 instructions')")
    page.packets("all")
    day = files.Capture((SAMPLES / "day.pcap").read_bytes())
    for number in (1, 20):
        check_packet(page, number, day.packets[number - 1], [listing.encode()])
    page.fill("expression", name="kind")
    text = " or ".join(f"ip host 10.{i % 7}.{i // 250}.{i * 7 % 250}" for i in range(900))
    page.fill(text)
    page.driver.wait("document.getElementById('count-0').textContent.includes('of which the table has those that run')")
    page.packets("all")
    check_packet(page, 5, day.packets[4], [listing_of(page, text)])
    long = files.Packet(1, 0, b"", 10**9, 5000, bytes(it % 251 for it in range(5000)))
    writer = files.Writer("pcapng")
    writer.put(long)
    page.load(write(page, "long.pcapng", b"".join(writer.pieces)), 1)
    page.packets("all")
    page.true("the rest is told", page.text("#bytes").endswith("\n904 more bytes, not shown here\n"))
    page.fill("ether[4095] = 79 and ether[4999] = 230")
    check_packet(page, 1, long, [listing_of(page, "ether[4095] = 79 and ether[4999] = 230")])
    page.sample("day.pcap")
    memory = "ip[2:2] - ((ip[0] & 0xf) << 2) > tcp[12] >> 2"
    page.fill(memory)
    page.packets("all")
    page.driver.click("#packet-5")
    page.true("words of memory", any("M[" in row[7] for row in page.value(ROWS, "#rows-0")))


def check_drop(page):
    """Checks captures that are dropped on the page: one, a damaged one, two at once; or none."""
    where = page.value("location.href")
    for dragged in (["cooked.pcap"], ["damaged.pcap"], ["tagged.pcap", "day.pcap"]):
        paths, name = [SAMPLES / it for it in dragged], dragged[0]
        page.value("document.getElementById('about').textContent = ''")
        page.driver.drag("dragover", *paths)
        page.equal(
            "it is seen that it can be dropped", page.value("document.body.classList.contains('dropping')"), True
        )
        page.driver.drag("drop", *paths)
        page.driver.wait("document.getElementById('about').textContent.includes('packet')")
        about = page.text("#about")
        page.true(about, about.startswith(f"{name}: {(SAMPLES / name).stat().st_size:,} bytes, "))
        page.equal("the others", about.endswith("; of 2 files only this one is opened"), len(dragged) > 1)
        page.equal("its packets", len(page.packets("all")), len(files.Capture((SAMPLES / name).read_bytes()).packets))
        page.equal("no mark is left", page.value("document.body.classList.contains('dropping')"), False)
    page.driver.drag("dragover", SAMPLES / "day.pcap")
    page.value("document.body.dispatchEvent(new DragEvent('dragleave', { bubbles: true, cancelable: true }))")
    page.equal(
        "taken away", [page.text("#about"), page.value("document.body.classList.contains('dropping')")], [about, False]
    )
    page.equal("the page stays", page.value("location.href"), where)


TRAP = "guarded(() => capkit.calls.capkit_text(1, 1n << 40n, 9n))()"


def check_trap(page):
    """Checks that a module which trapped is replaced."""
    page.driver.inside(TRAP)
    page.driver.wait("document.getElementById('about').className.includes('bad')")
    page.true(page.text("#about"), page.text("#about").endswith("open the capture again"))
    page.sample("day.pcap")
    page.fill("tcp port 80")
    page.equal("after it", len(page.packets("+")), 9)


FOCUS = """(() => {
  const it = document.activeElement, style = getComputedStyle(it);
  return [it.id || it.className, style.outlineStyle !== "none" && parseFloat(style.outlineWidth) >= 2];
})()"""
FOCUSABLE = 'a[href],select,input,textarea,button:not(:disabled),[tabindex="0"]'
# The window's width, whether it is dark, and by how much the page is wider.
SEEN = """(({ scrollWidth, clientWidth }) => [innerWidth, matchMedia("(prefers-color-scheme: dark)").matches, scrollWidth - clientWidth])(
  document.documentElement)"""
# The names of those that are shown, and "" for each other one.
REACHED = (
    """[...document.querySelectorAll(arguments[0])]"""
    """.map((it) => (it.getClientRects().length ? it.id || it.className : ""))"""
)


def check_forms(page):
    """Checks light and dark, widths of 320 to 1,300 pixels, and paper; names, order, focus and
    contrast of the elements.
    """
    driver, script = page.driver, (HERE / "access.js").read_text()
    for text, beside in ((FIRST, None), (FIRST, "ip[2:2] - ((ip[0] & 0xf) << 2) > tcp[12] >> 2")):
        page.fill(text)
        if beside:
            driver.click("#second")
            page.fill(beside, 1)
        page.packets("all")
        driver.click("#packet-7")
        driver.keys("n")
        for scheme in ("light", "dark"):
            driver.media(scheme=scheme)
            for width in (1300, 800, 390, 320):
                driver.size(width, 900)
                found = page.value(script)
                page.equal(f"{scheme}, {width}: rules", found["broken"] + found["contrast"], [])
                Page.count += found["rules"]
                page.equal(f"{scheme}, {width}: as it is asked for", page.value(SEEN), [width, scheme == "dark", 0])
                if page.pictures:
                    name = f"{type(driver).__name__}-{'two' if beside else 'one'}-{scheme}-{width}.png"
                    (page.pictures / name).write_bytes(driver.picture())
        driver.size(1300, 1000)
        reached = page.value(REACHED, FOCUSABLE)
        page.equal("names", [it for it, name in zip(reached, driver.names(FOCUSABLE)) if it and not name.strip()], [])
        wanted, met = list(filter(None, reached)), []
        page.value("document.querySelector('.skip').focus({ focusVisible: true })")
        for place in range(len(wanted)):
            driver.keys(*["Tab"] * bool(place))
            name, is_seen = page.value(FOCUS)
            met.append(name)
            page.true(f"the focus is seen: {name}", is_seen)
        page.equal("the order of Tab", met, wanted)
        driver.media("print")
        page.equal(
            "on paper",
            page.value(
                "['.control', '.list'].filter((it) => getComputedStyle(document.querySelector(it)).display !== 'none')"
            ),
            [],
        )
        page.true("pages", len(driver.printed()) > 10_000)
        driver.media("")


def check_quiet(page):
    """Checks that nothing was fetched, and no page had an error or a warning so far; what another
    page does is noticed.
    """
    page.equal("fetched", page.driver.fetched(), [])
    expected = re.compile("Content.Security.Policy|violates the following")
    page.equal("faults", [it for it in page.driver.faults() if not expected.search(it)], [])
    page.driver.open(write(page, "other.html", OTHER.encode()))
    page.driver.wait("document.title === 'asked'")
    page.equal("another page fetches", page.driver.fetched(), [browser.NOWHERE])
    page.true("another page's fault", any("nothing is not defined" in it for it in page.driver.faults()))


# ---- what needs no browser, and the calls of the module


def check_layout(page_text):
    """Compares the offsets and numbers of capkit.js with those of capkit.h; returns how many there
    are, and which differ.
    """
    script = (ROOT / "web" / "capkit.js").read_text()
    layout = re.search(r"const LAYOUT = \{(.*?)\n\};", script, re.DOTALL)[1]
    numbers = re.search(r"const CAPKIT = \{(.*?)\};", script, re.DOTALL)[1]
    lines, claimed = [], []
    for struct_name, fields in re.findall(r"(\w+): \{ ([^}]*) \}", layout):
        for field, value in re.findall(r"(\w+): (\d+)", fields):
            expression = (
                f"sizeof(struct {struct_name})" if field == "bytes" else f"offsetof(struct {struct_name}, {field})"
            )
            claimed.append((f"{struct_name}.{field}", int(value), expression))
    claimed += [
        (f"CAPKIT_{name}", int(value, 0), f"CAPKIT_{name}") for name, value in re.findall(r"(\w+): (\w+)", numbers)
    ]
    lines = "".join(f'printf("%llu\\n", (unsigned long long){expression});' for _, _, expression in claimed)
    with tempfile.TemporaryDirectory() as folder:
        program = pathlib.Path(folder, "layout")
        source = f"#include <stdio.h>\n#include <capkit.h>\nint main(void) {{ {lines} }}\n"
        subprocess.run(
            ["gcc", f"-I{ROOT}/library/include", "-x", "c", "-o", program, "-"], input=source.encode(), check=True
        )
        values = map(int, subprocess.run([program], capture_output=True, check=True).stdout.split())
    differ = [f"{name} is {value}, not {claim}" for (name, claim, _), value in zip(claimed, values) if claim != value]
    return len(claimed), differ


PACKED = re.compile(r'(?<=<script type="text/plain" id=)("[^"]*">)([^<]*)')


def unpacked(page):
    """Returns the unpacked parts of a page by name, and the page without them: another version of
    zlib packs them differently.
    """
    parts = {name: gzip.decompress(base64.b64decode(text)) for name, text in PACKED.findall(page)}
    return parts, PACKED.sub(r"\1", page)


def check_file(path):
    """Checks that the page is small, that its policy has only its own digests, and that web/ makes
    it from its module; returns the faults.
    """
    page = path.read_text()
    policy = re.search(r'Content-Security-Policy"\s+content="([^"]*)"', page)[1]
    wanted = (
        "default-src 'none'; script-src 'wasm-unsafe-eval' DIGEST; style-src DIGEST; base-uri 'none'; "
        "form-action 'none'"
    )
    found = [f"{path.stat().st_size} bytes"] if path.stat().st_size >= MOST_BYTES else []
    found += [f"policy: {policy}"] if re.sub(r"'sha256-[A-Za-z0-9+/=]*'", "DIGEST", policy) != wanted else []
    made = make_page.page_of(unpacked(page)[0]['"module">'])
    return found + ([] if unpacked(made) == unpacked(page) else ["web/make_page.py makes another page of its module"])


def check_calls(page, path):
    """Makes the calls of a file in the page's module."""
    page.value("""(() => {
      const it = Object.assign(document.createElement("input"), { type: "file", id: "calls" });
      document.body.prepend(it);
    })()""")
    page.driver.type("#calls", pathlib.Path(path).resolve())
    made, differ, names = page.value((HERE / "replay.js").read_text())
    print(f"{type(page.driver).__name__}: {made} calls of {names} functions, {len(differ)} differ", flush=True)
    page.equal("calls that differ", differ[:5], [])


PARTS_OF_IT = [check_day, check_refused, check_listing, check_beside, check_steps, check_captures, check_saved,
               check_hostile, check_keys, check_address,
               check_lessons, check_long, check_drop, check_trap, check_forms, check_many, check_quiet]  # fmt: skip


def main():
    parser = argparse.ArgumentParser(description=__doc__.split("\n\n")[0])
    parser.add_argument("--page", type=pathlib.Path, default=Page.path)
    parser.add_argument("--capkit", help="the program; else that which ./capkit built")
    parser.add_argument("--only", default="", metavar="WORD")
    parser.add_argument("--calls", nargs="*", default=[], metavar="FILE")
    parser.add_argument("--pictures", type=pathlib.Path, metavar="FOLDER")
    parser.add_argument("--browser", choices=["Chromium", "Firefox"], help="only this one")
    words = parser.parse_args()
    Page.path, Page.capkit, Page.pictures = (
        words.page.resolve(), pathlib.Path(words.capkit or built_program()).resolve(), words.pictures
    )
    count, differ = check_layout(Page.path)
    found = differ + check_file(Page.path)
    print(*found, f"layout and file: {count + 3} looked at", sep="\n", flush=True)
    Page.count, Page.wrong = count + 3, len(found)
    with tempfile.TemporaryDirectory(prefix="page-") as folder:
        Page.folder = pathlib.Path(folder)
        for kind in (browser.Chromium, browser.Firefox):
            if words.browser not in (None, kind.__name__):
                continue
            with kind(folder) as driver:
                for path in words.calls:
                    check_calls(Page(driver), path)
                for part in [it for it in PARTS_OF_IT if words.only in it.__name__ and not words.calls]:
                    before, start = Page.count, time.monotonic()
                    part(Page(driver))
                    print(
                        f"{kind.__name__}: {part.__name__[6:]}: {Page.count - before} looked at, "
                        f"{time.monotonic() - start:.1f} s",
                        flush=True,
                    )
    print(f"{Page.count} looked at, {Page.wrong} wrong")
    return 1 if Page.wrong else 0


if __name__ == "__main__":
    sys.exit(main())
