#!/bin/sh
# Makes a folder with what a build for Linux on ARM64 needs: Debian's cross compiler and C library,
# unpacked but not installed, and a toolchain for rattle's linker, made of them. common.sh calls it.
# It needs apt-get and dpkg-deb, but not root.
#
# usage: packaging/cross_arm64.sh FOLDER
#
# FOLDER/bin has aarch64-linux-gnu-gcc and its tools, and FOLDER/toolchain what rattle and
# rattle-link need. A complete folder is unchanged.

set -eu

packages='binutils-aarch64-linux-gnu cpp-12-aarch64-linux-gnu gcc-12-aarch64-linux-gnu
    libc6-arm64-cross libc6-dev-arm64-cross libgcc-12-dev-arm64-cross libgcc-s1-arm64-cross linux-libc-dev-arm64-cross'
here=$(CDPATH='' cd -- "$(dirname -- "$0")" && pwd -P)
kit=$(dirname "$(dirname "$(readlink -f "$(command -v rt)")")")
mkdir -p "$1"
folder=$(CDPATH='' cd -- "$1" && pwd -P)
[ ! -e "$folder/toolchain/c/port.a" ] || exit 0

rm -rf "${folder:?}"/*
mkdir -p "$folder/packages" "$folder/bin" "$folder/toolchain/lib" "$folder/toolchain/c"
# shellcheck disable=SC2086  # one word a package
(cd "$folder/packages" && apt-get -qq download $packages 2>messages || { cat messages >&2; exit 1; })
for package in "$folder"/packages/*.deb; do
    dpkg-deb -x "$package" "$folder/root"
done
rm -r "$folder/packages"

# Each tool finds its libraries, and the compiler its headers and tools, in the folder.
root=$folder/root
for tool in as ld objcopy strip ar readelf gcc; do
    program=$root/usr/bin/aarch64-linux-gnu-$tool
    options=
    if [ "$tool" = gcc ]; then
        program=$program-12
        options="--sysroot='$root' -B'$root/usr/bin/aarch64-linux-gnu-'"
    fi
    cat >"$folder/bin/aarch64-linux-gnu-$tool" <<END
#!/bin/sh
LD_LIBRARY_PATH='$root/usr/lib/$(uname -m)-linux-gnu' exec '$program' $options "\$@"
END
    chmod 755 "$folder/bin/aarch64-linux-gnu-$tool"
done

library=$root/usr/aarch64-linux-gnu/lib
for file in Scrt1.o crti.o crtn.o ld-linux-aarch64.so.1 libc.so.6 libc_nonshared.a libm.so.6 libgcc_s.so.1; do
    cp -L "$library/$file" "$folder/toolchain/lib/"
done
for file in crtbeginS.o crtendS.o libgcc.a; do
    cp "$root/usr/lib/gcc-cross/aarch64-linux-gnu/12/$file" "$folder/toolchain/lib/"
done
ln -s "$kit/toolchain/bin" "$folder/toolchain/bin"
for part in heap process; do
    "$folder/bin/aarch64-linux-gnu-gcc" -O2 -fPIC -Wall -Wextra -c -o "$folder/$part.o" "$here/port/$part.c"
done
"$folder/bin/aarch64-linux-gnu-ar" rcs "$folder/toolchain/c/port.a" "$folder/heap.o" "$folder/process.o"
