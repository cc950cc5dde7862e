#!/bin/sh
# Makes the Debian packages of the library: libcapkit0 (the shared library), libcapkit-dev (the header, the static
# library, capkit.pc, the manual page and the examples) and python3-capkit (the package for Python, which draw.py of the
# package capkit needs).
#
# usage: packaging/make_library_deb.sh [arm64]
#
# The packages go to out/, and their names to standard output. The library is proved and built
# first, if that was not done yet; for arm64 only the last crate is proved again, and Debian's cross
# packages are fetched and unpacked in out/. The maintainer is DEBFULLNAME and DEBEMAIL, or git's
# user, or else the user of the machine. Their time is SOURCE_DATE_EPOCH, or that of the commit, or
# of CHANGELOG.md if there is no commit, as in a tarball. It needs dpkg-dev, binutils and a C
# compiler, and no rights of root.

set -eu
umask 022

root=$(CDPATH='' cd -- "$(dirname -- "$0")/.." && pwd -P)
architecture=${1-}
# shellcheck source=packaging/common.sh
. "$root/packaging/common.sh"

triplet=$(dpkg-architecture -f -a "$architecture" -qDEB_HOST_MULTIARCH)
libraries=usr/lib/$triplet
out=out
if [ -n "$cross" ]; then
    out=out/arm64
    set -- CROSS="$cross" CC="${cross}gcc" TARGET="$target" TOOLCHAIN="$root/out/arm64/cross/toolchain"
else
    set --
fi
make -s -C "$root/library" install OUT="$out" "$@" DESTDIR="$work/all" PREFIX=/usr LIBDIR="/$libraries"
shared=$work/libcapkit0 dev=$work/libcapkit-dev python=$work/python3-capkit
mkdir -p "$shared/DEBIAN" "$dev/DEBIAN" "$python/DEBIAN" "$shared/$libraries"
mv "$work/all/$libraries/libcapkit.so.$release" "$work/all/$libraries/libcapkit.so.0" "$shared/$libraries/"
needs=$(strip_for "$shared/$libraries/libcapkit.so.$release")
printf 'libcapkit 0 libcapkit0 (>= %s)\n' "$release" >"$shared/DEBIAN/shlibs"
install -m 644 "$root/packaging/libcapkit0.symbols" "$shared/DEBIAN/symbols"
printf 'activate-noawait ldconfig\n' >"$shared/DEBIAN/triggers"

cp -a "$work/all/usr" "$dev/"
gzip -9n "$dev/usr/share/man/man3/capkit.3"
# shellcheck disable=SC2013  # the names have no blanks
for call in $(sed -n 's/^\.Nm capkit_\([a-z_]*\).*/\1/p' "$root/library/man/capkit.3" | sort -u); do
    ln -s capkit.3.gz "$dev/usr/share/man/man3/capkit_$call.3.gz"
done
documents=$dev/usr/share/doc/libcapkit-dev
install -D -m 644 -t "$documents/examples" "$root"/library/examples/*
sed 's|](../library/examples/|](examples/|g' "$root/docs/LIBRARY.md" >"$documents/LIBRARY.md"
drop_dead_links "$documents/LIBRARY.md"

modules=$python/usr/lib/python3/dist-packages/capkit
install -D -m 644 -t "$modules" "$root"/library/python/src/capkit/*.py "$root/library/python/src/capkit/py.typed" \
    "$root/library/$out/libcapkit_batch.so"
"${cross}strip" --strip-unneeded --remove-section=.comment --remove-section=.note "$modules/libcapkit_batch.so"
install -D -m 644 -t "$python/usr/share/doc/python3-capkit/examples" "$root"/library/python/examples/*
install -m 644 "$root/library/python/README.md" "$python/usr/share/doc/python3-capkit/"
drop_dead_links "$python/usr/share/doc/python3-capkit/README.md"
# Python keeps compiled modules in the same folder.
cat >"$python/DEBIAN/postinst" <<'END'
#!/bin/sh
set -e
if [ "$1" = configure ] && command -v py3compile >/dev/null; then py3compile -p python3-capkit; fi
END
cat >"$python/DEBIAN/prerm" <<'END'
#!/bin/sh
set -e
if command -v py3clean >/dev/null; then py3clean -p python3-capkit; fi
END
chmod 755 "$python/DEBIAN/postinst" "$python/DEBIAN/prerm"

described() { # MULTI-ARCH SECTION DEPENDS TEXT
    cat <<END
Multi-Arch: $1
Section: $2
Depends: $3
Description: $4
 Compiles filter expressions to BPF programs, runs them, and reads and
 writes pcap and pcapng captures in memory. Its functions are proved.
END
}
described same libs "$needs" 'filter expressions and captures in memory (shared library)' |
    pack "$shared" "$architecture"
described same libdevel "libcapkit0 (= $version)" 'filter expressions and captures in memory (development files)' |
    pack "$dev" "$architecture"
# libcapkit_batch.so calls nothing of the C library that libcapkit0 doesn't.
described no python "python3 (>= 3.9), libcapkit0 (>= $release), $needs" \
    'filter expressions and captures (package for Python 3)' | pack "$python" "$architecture"
