#!/usr/bin/env python3
"""Measures reading, filtering and writing 1,000,000 packets in each language, libpcap and gopacket.

usage: speed.py [ROUNDS] [LANGUAGE..]

By default it makes 7 rounds of c rust go python libpcap gopacket. It also counts the lines of the
examples. Each cell is the least CPU time (user and system, in s) of all rounds, in each of which all programs
run one after another. It builds the programs in out/speed, uses the library that `make` and `make
python` left in out/, and says which language it can't build. libpcap's times are without compiling,
which is printed after them. Needs the headers of libpcap for libpcap, and Debian's
golang-github-google-gopacket-dev (and golang-golang-x-net-dev) for gopacket.
"""
import os
import pathlib
import subprocess
import sys

HERE = pathlib.Path(__file__).resolve().parent
LIBRARY = HERE.parent.parent
OUT = LIBRARY / "out/speed"
HOSTS = "ip or " + " or ".join(f"host 10.9.{n // 128}.{2 * n % 256}" for n in range(300))
COLUMNS = {  # what a program is called with, after its name; {out} is a file
    "read pcap": ("read", "m.pcap"),
    "`tcp port 80`": ("match", "m.pcap", "tcp port 80"),
    "`ip or` 300 hosts": ("match", "m.pcap", HOSTS),
    "read pcapng": ("read", "m.pcapng"),
    "read and write pcap": ("pcap", "m.pcap", "out.pcap"),
    "read pcap, write pcapng": ("pcapng", "m.pcap", "out.pcapng"),
}
LACKS = {"libpcap": {"read pcap, write pcapng"}, "gopacket": {"`tcp port 80`", "`ip or` 300 hosts"}}
NAMES = {
    "c": "C",
    "rust": "Rust",
    "go": "Go",
    "python": "Python",
    "libpcap": "C, libpcap",
    "gopacket": "Go, gopacket (pcapgo)",
}
# The examples, which do the same in each language.
EXAMPLES = {
    "C": "examples/{}.c",
    "Python": "python/examples/{}.py",
    "Rust": "rust/examples/{}.rs",
    "Go": "go/examples/{}/main.go",
}


def run(*words, **env):
    """Runs a command in out/speed."""
    subprocess.run([str(word) for word in words], check=True, cwd=OUT, env={**os.environ, **env})


def build(language):
    """Builds a language's program, and returns the words that run it."""
    program = OUT / f"{language}-speed"
    if language == "c":
        run("cc", "-O2", f"-I{LIBRARY}/include", "-o", program, HERE / "capkit.c", LIBRARY / "out/libcapkit.a")
    elif language == "libpcap":
        run("cc", "-O2", "-o", program, HERE / "libpcap.c", "-lpcap")
    elif language == "rust":
        (OUT / "rust/src").mkdir(parents=True, exist_ok=True)
        (OUT / "rust/src/main.rs").write_text((HERE / "capkit.rs").read_text())
        (OUT / "rust/Cargo.toml").write_text(
            f'[package]\nname = "speed"\nversion = "0.0.0"\nedition = "2021"\n[workspace]\n'
            f'[dependencies]\ncapkit = {{ path = "{LIBRARY}/rust" }}\n'
        )
        run("cargo", "build", "-q", "--offline", "--release", "--manifest-path", "rust/Cargo.toml", CAPKIT_STATIC="1")
        program = OUT / "rust/target/release/speed"
    elif language in ("go", "gopacket"):
        folder = OUT / "go/src/example.com"
        (folder / language).mkdir(parents=True, exist_ok=True)
        if not (folder / "capkit").exists():
            (folder / "capkit").symlink_to(LIBRARY / "go")
        source = "capkit.go" if language == "go" else "gopacket.go"
        (folder / language / "main.go").write_text((HERE / source).read_text())
        run(
            "go",
            "build",
            "-o",
            program,
            f"example.com/{language}",
            GO111MODULE="off",
            GOPATH=f"{OUT}/go:/usr/share/gocode",
            GOFLAGS="",
        )
    else:
        run(
            sys.executable,
            "-m",
            "pip",
            "-q",
            "install",
            "--no-index",
            "--target",
            OUT / "python",
            *(LIBRARY / "out/python").glob("*.whl"),
        )
        program.write_text((HERE / "capkit.py").read_text())  # by another name than the package's
        return [sys.executable, str(program)]
    return [str(program)]


def prepare():
    """Makes the captures, and sets the variables by which programs find the shared library."""
    OUT.mkdir(parents=True, exist_ok=True)
    prefix = OUT / "prefix"
    subprocess.run(["make", "-s", "-C", LIBRARY, "install", f"PREFIX={prefix}"], check=True)
    os.environ |= {
        "PKG_CONFIG_PATH": f"{prefix}/lib/pkgconfig", "LD_LIBRARY_PATH": f"{prefix}/lib", "PYTHONPATH": f"{OUT}/python"
    }
    if not (OUT / "m.pcap").exists():
        run(sys.executable, LIBRARY.parent / "bench/make_capture.py", "m.pcap")


def measure(words):
    """Returns the CPU time of a run without compiling, its count of packets, and the time to compile."""
    process = subprocess.Popen(words, cwd=OUT, stdout=subprocess.PIPE, text=True)
    printed = process.stdout.read().split()
    _, status, usage = os.wait4(process.pid, 0)
    if status != 0:
        sys.exit(f"speed: {words[0]} {words[1]}: status {status}")
    compiled = float(printed[1])
    return usage.ru_utime + usage.ru_stime - compiled, int(printed[0]), compiled


def main():
    rounds = int(sys.argv[1]) if sys.argv[1:] else 7
    prepare()
    programs = {}
    for language in sys.argv[2:] or list(NAMES):
        try:
            programs[language] = build(language)
        except (subprocess.CalledProcessError, OSError) as error:
            print(f"without {language}: {error}", file=sys.stderr)
    run(*build("c"), "pcapng", "m.pcap", "m.pcapng")
    least, counts, compiling = {}, {}, {}
    for _ in range(rounds):
        for column, words in COLUMNS.items():
            for language, program in programs.items():
                if column in LACKS.get(language, ()):
                    continue
                taken, count, compiled = measure([*program, *words])
                if counts.setdefault(column, count) != count:
                    sys.exit(f"speed: {language} counts {count} packets, another {counts[column]}: {column}")
                cell = language, column
                least[cell] = min(taken, least.get(cell, taken))
                if compiled > 0.01:
                    compiling[cell] = min(compiled, compiling.get(cell, compiled))
    print("|", " | ".join(["", *COLUMNS]), "|\n|" + "---|" * (len(COLUMNS) + 1))
    for language in programs:
        row = [f"{least[it]:.3f}" + (f" (+ {compiling[it]:.2f} to compile)" if it in compiling else "")
               if it in least else "-"
               for it in ((language, column) for column in COLUMNS)]
        print("|", " | ".join([NAMES[language], *row]), "|")
    print("\n|", " | ".join(["lines, with heads and comments", *EXAMPLES]), "|\n|" + "---|" * (len(EXAMPLES) + 1))
    for example in ("filter", "keep"):
        counts = [len((LIBRARY / path.format(example)).read_text().splitlines()) for path in EXAMPLES.values()]
        print("|", " | ".join([f"`{example}`", *map(str, counts)]), "|")


main()
