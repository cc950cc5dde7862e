#!/usr/bin/env python3
"""Makes the page: one file that has the module, the samples, the scripts and the style inside, and takes nothing else.

usage: make_page.py MODULE.wasm OUT.html

The browser runs no script and takes no style but these, by their digests in the page's policy. packaging/make_page.sh makes the
module and calls this.
"""
import base64
import gzip
import hashlib
import pathlib
import re
import struct
import sys

HERE = pathlib.Path(__file__).resolve().parent
SAMPLES = HERE.parent / "samples"
SCRIPTS = ["capkit.js", "words.js", "tree.js", "ways.js", "page.js"]
SHOWN = ["day.pcap", "comments.pcapng", "cooked.pcap", "two-sections.pcapng", "damaged.pcap"]
SHORT, CUT = "short.pcap", 30


def short(data):
    """A little-endian pcap file whose packets are cut to 30 bytes, as `capkit edit -s 30 -F pcap` cuts them."""
    made, place = data[:24], 24
    while place < len(data):
        captured, = struct.unpack_from("<I", data, place + 8)
        kept = min(captured, CUT)
        made += data[place : place + 8] + struct.pack("<I", kept) + data[place + 12 : place + 16 + kept]
        place += 16 + captured
    return made


def packed(data):
    """Bytes as the page has them. The same bytes give the same text."""
    return base64.b64encode(gzip.compress(data, 9, mtime=0)).decode()


def digest(text):
    """How the policy names a script or a style."""
    return "'sha256-" + base64.b64encode(hashlib.sha256(text.encode()).digest()).decode() + "'"


def page_of(module):
    samples = {name: (SAMPLES / name).read_bytes() for name in SHOWN}
    samples[SHORT] = short(samples["day.pcap"])
    script = "\n".join((HERE / name).read_text().replace("'use strict';\n", "") for name in SCRIPTS)
    script = f"\n'use strict';\n{script}"
    style = (HERE / "page.css").read_text()
    parts = {
        "CSS": style, "JS": script, "SCRIPTS": digest(script), "STYLES": digest(style), "MODULE": packed(module),
        "OPTIONS": "".join(f"<option>{name}</option>" for name in samples),
        "SAMPLES": "\n".join(f'<script type="text/plain" id="sample-{name}">{packed(data)}</script>' for name, data in samples.items()),
    }  # fmt: skip
    return re.sub(r"@([A-Z]+)@", lambda found: parts[found[1]], (HERE / "page.html").read_text())


if __name__ == "__main__":
    if len(sys.argv) != 3:
        sys.exit(__doc__)
    pathlib.Path(sys.argv[2]).write_text(page_of(pathlib.Path(sys.argv[1]).read_bytes()))
