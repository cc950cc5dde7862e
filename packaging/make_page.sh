#!/bin/sh
# Makes docs/capkit.html: proves and builds the library for a browser, as a WebAssembly module, and
# puts the page around it.
#
# usage: packaging/make_page.sh [MODULE.wasm]
#
# With a MODULE that is built already, only the page is made. The last line is the page's size.

set -eu

root=$(CDPATH='' cd -- "$(dirname -- "$0")/.." && pwd -P)
module=${1:-$root/out/capkit.wasm}
if [ $# = 0 ]; then
    rm -f "$module"
    python3 "$root/packaging/build.py" capkit_c "$module" wasm64-unknown-unknown
fi
python3 "$root/web/make_page.py" "$module" "$root/docs/capkit.html"
wc -c "$root/docs/capkit.html"
