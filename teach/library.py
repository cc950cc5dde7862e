"""Loads the package `capkit` for Python, by which the proved library reads and checks a listing.

It is the package that is installed, or that of the checkout, with the library that `make` in
library/ builds.
"""
import os
import pathlib
import sys

NO_LIBRARY = """the library of capkit isn't there. In a checkout `make -C library` builds it; else
install the package python3-capkit, or the wheel of `make -C library python` (docs/INSTALL.md)"""


NAME = pathlib.Path(sys.argv[0]).name


def use_checkout():
    """Takes the package of the checkout that these tools are in, or that a copy of them is in."""
    sys.modules.pop("capkit", None)
    for folder in pathlib.Path(__file__).resolve().parents:
        sources = folder / "library" / "python" / "src"
        if sources.exists():
            shared = folder / "library" / "out" / "libcapkit_batch.so"
            os.environ.setdefault("CAPKIT_LIBRARY", str(shared))
            sys.path.insert(0, str(sources))
            return


try:
    try:
        import capkit
    except (ImportError, OSError):
        use_checkout()
        import capkit
    from capkit import native
except (ImportError, OSError):
    sys.exit(f"{NAME}: {NO_LIBRARY}")

class Program:
    """A valid program."""

    def __init__(self, program):
        self.filter = program
        self.instructions = program.instructions

    def texts(self):
        """Returns each instruction as `tcpdump -d` prints it."""
        return [self.filter.text(place) for place in range(len(self.instructions))]
