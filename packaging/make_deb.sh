#!/bin/sh
# Makes a Debian package of capkit: the program, its manual pages and completions, the documents and the samples.
#
# usage: packaging/make_deb.sh [arm64] [PROGRAM]
#
# The package goes to out/. PROGRAM is the built program; if none is given, ./capkit builds it first. For arm64 only the last crate is
# proved again, and Debian's cross packages are fetched and unpacked in out/. The maintainer is DEBFULLNAME and DEBEMAIL, or git's
# user, or else the user of the machine. Its time is SOURCE_DATE_EPOCH, or that of the commit, or of CHANGELOG.md if there is no
# commit, as in a tarball. It needs Python 3 with jinja2, dpkg-dev and binutils, and no rights of root.

set -eu
umask 022

root=$(CDPATH='' cd -- "$(dirname -- "$0")/.." && pwd -P)
architecture=''
if [ "${1-}" = arm64 ]; then
    architecture=$1
    shift
fi
# shellcheck source=packaging/common.sh
. "$root/packaging/common.sh"

if [ $# -gt 0 ]; then
    program=$1
else
    "$root/capkit" --help >/dev/null
    program=$(python3 "$root/tools/built.py")
    if [ -n "$cross" ]; then
        program=$root/out/arm64/$(basename "$(dirname "$program")")/capkit
        python3 "$root/packaging/build.py" capkit_main "$program" "$target" "$root/out/arm64/cross/toolchain"
    fi
fi

# The program prints its version; a program for another processor can't be run here, so its text is searched for.
version_of() { # PROGRAM
    if [ -n "$cross" ]; then
        printf 'capkit %s\n' "$(grep -ao '[0-9.]* (rattle-kit-[^)]*)' "$1")"
    else
        "$1" --version
    fi
}
case $(version_of "$program") in
"capkit $release ("*) ;;
*)
    printf '%s: packaging/version is %s, and the program is: %s\n' "$0" "$release" "$(version_of "$program")" >&2
    exit 1
    ;;
esac

tree=$work/capkit
documents=$tree/usr/share/doc/capkit
mkdir -p "$tree/DEBIAN" "$documents/bench" "$documents/samples"

# The program, and what it needs of the C library.
install -D "$program" "$tree/usr/bin/capkit"
needs=$(strip_for "$tree/usr/bin/capkit")

# What a user copies to read a damaged capture, to list what is lost of one, or to work on many machines.
install -D -m 644 -t "$documents/examples" "$root/examples/salvage.py" "$root/examples/any.sh" "$root/examples/lost.py"
install -D -m 644 -t "$documents/examples/scale" "$root/examples/scale/filter.sbatch" "$root/examples/scale/filter.py"

# The manual pages and completions.
"$root/packaging/pages.py" "$work/pages"
for page in "$work"/pages/*; do
    file=${page##*/}
    case $file in
    *.[17]) place=man/man${file##*.}/$file ;;
    *.bash) place=bash-completion/completions/${file%.bash} ;;
    *.fish) place=fish/vendor_completions.d/$file ;;
    *) place=zsh/vendor-completions/$file ;;
    esac
    install -D -m 644 "$page" "$tree/usr/share/$place"
done
gzip -9n "$tree"/usr/share/man/man?/*

# The pages for users, the samples, and the scripts that recipes call.
install -m 644 "$root"/samples/* "$documents/samples/"
install -m 644 "$root/bench/make_capture.py" "$documents/bench/"
for file in draw library listing pictures; do
    install -D -m 644 -t "$documents/teach" "$root/teach/$file.py"
done
install -D -m 644 -t "$documents/docs" "$root/docs/capkit.html"
# shellcheck disable=SC2046  # the pages have names without spaces
for page in README.md $(cd "$root" && echo docs/*.md) docs/inside/FORMATS.md docs/inside/MACHINE.md; do
    install -D -m 644 "$root/$page" "$documents/$page"
done
# What only a checkout has is left out.
awk '/^## / { is_left_out = $2 ~ /^(Run|Install|Test)$/ } !is_left_out && !/^- To carry on/' "$root/README.md" |
    sed 's#packaging/copyright#copyright#g' >"$documents/README.md"
for page in "$documents"/*.md "$documents"/docs/*.md "$documents"/docs/inside/*.md; do
    drop_dead_links "$page"
done

pack "$tree" "$architecture" <<END
Depends: $needs
Suggests: python3-capkit
Section: net
Description: edit, merge, filter and print saved packet captures
 Edits, merges, reports on and filters saved packet captures (pcap and
 pcapng), and compiles expressions such as those of tcpdump to listings of a
 packet-filter machine. It is meant to be trusted with damaged and hostile
 files: its functions are proved to meet their contracts.
END
