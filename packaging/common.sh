# shellcheck shell=sh disable=SC2034,SC2154  # the scripts that read it set and use these names
# The common part of make_deb.sh and make_library_deb.sh. They set root and architecture (arm64, or
# empty for the machine's own), and read this file. It sets release, version, architecture, name,
# email, built, SOURCE_DATE_EPOCH and a scratch folder work, and for another processor cross (the
# prefix of its tools) and target (rattle's name for it).

release=$(cat "$root/packaging/version")
# This revision sorts before -1, that of the first package that a distribution makes.
version=$release-0local1
own=$(dpkg --print-architecture)
architecture=${architecture:-$own}
name=${DEBFULLNAME:-$(git -C "$root" config user.name 2>/dev/null || id -un)}
email=${DEBEMAIL:-$(git -C "$root" config user.email 2>/dev/null || echo "$(id -un)@$(uname -n)")}
if [ -z "${DEBEMAIL:-$(git -C "$root" config user.email 2>/dev/null)}" ]; then
    printf '%s: the maintainer is %s <%s>; DEBFULLNAME and DEBEMAIL name another\n' "$0" "$name" "$email" >&2
fi
cross='' target=''
if [ "$architecture" != "$own" ]; then
    "$root/packaging/cross_arm64.sh" "$root/out/arm64/cross"
    PATH=$root/out/arm64/cross/bin:$PATH
    cross=aarch64-linux-gnu- target=aarch64-unknown-linux-gnu
fi
# Without .git this is a tarball, even if it is unpacked in another repository.
if [ -e "$root/.git" ]; then
    made=$(git -C "$root" log -1 --format=%ct)
    built="As built from the sources at $(git -C "$root" rev-parse --short=12 HEAD)."
else
    made=$(date -r "$root/CHANGELOG.md" +%s)
    built="As built from the sources of release $release."
fi
SOURCE_DATE_EPOCH=${SOURCE_DATE_EPOCH:-$made}
export SOURCE_DATE_EPOCH

work=$(mktemp -d)
trap 'rm -rf "$work"' EXIT

# Replaces each link of a page to a missing file by the link's text.
drop_dead_links() { # PAGE
    python3 - "$1" <<'END'
import pathlib, re, sys
page = pathlib.Path(sys.argv[1])

def kept(link):
    path = link[2].partition("#")[0]
    is_there = not path or re.match("[a-z]+:", path) or (page.parent / path).is_file()
    return link[0] if is_there else link[1]

page.write_text(re.sub(r"\[([^][]*)\]\(([^)]*)\)", kept, page.read_text()))
END
}

# Strips a program or a shared library, and prints what its package depends on. dpkg-shlibdeps knows
# only packages of this machine's architecture; for another one the dependency is the newest version
# of glibc whose symbols the file uses.
strip_for() { # FILE
    "${cross}strip" --strip-unneeded --remove-section=.comment --remove-section=.note "$1"
    if [ -n "$cross" ]; then
        "${cross}readelf" --version-info "$1" | grep -o 'GLIBC_[0-9.]*' | sort -uV |
            sed -n '$s/GLIBC_\(.*\)/libc6 (>= \1)/p'
        return
    fi
    mkdir -p "$work/debian"
    : >"$work/debian/control"
    (cd "$work" && dpkg-shlibdeps -O "$1" | sed -n 's/^shlibs:Depends=//p')
}

# Makes a package of a tree, which has the package's name, and adds copyright and changelogs.
# Standard input has the remaining fields of its control file.
pack() { # TREE ARCHITECTURE
    documents=$1/usr/share/doc/${1##*/}
    install -D -m 644 -t "$documents" "$root/packaging/copyright"
    gzip -9nc "$root/CHANGELOG.md" >"$documents/changelog.gz"
    gzip -9nc >"$documents/changelog.Debian.gz" <<END
capkit ($version) unstable; urgency=medium

  * $built

 -- $name <$email>  $(LC_ALL=C date -Ru -d "@$SOURCE_DATE_EPOCH")
END
    (cd "$1" && find usr -type f -exec md5sum {} +) | LC_ALL=C sort -k 2 >"$1/DEBIAN/md5sums"
    {
        cat <<END
Package: ${1##*/}
Version: $version
Architecture: $2
Maintainer: $name <$email>
Installed-Size: $(du -sk --apparent-size "$1/usr" | cut -f 1)
Priority: optional
END
        cat
    } >"$1/DEBIAN/control"
    package=$root/out/${1##*/}_${version}_$2.deb
    mkdir -p "$root/out"
    dpkg-deb --root-owner-group --build "$1" "$package" >/dev/null
    printf '%s\n' "$package"
}
