#!/bin/sh
# Tests two versions of the library in one process, as in a program that is linked to a later one and
# embeds Python: each caller must reach the one that it was linked to.
#
# usage: library/tests/two_versions.sh
#
# It needs libcapkit.so.0 and libcapkit_batch.so (make). The status is 1 if a caller reaches another
# version.
set -eu
cd "$(dirname "$0")/.."
out=$PWD/out/two
mkdir -p "$out"
echo 'unsigned capkit_next_unit(void) { return 999; }' >"$out/later.c"
cc -shared -fPIC -o "$out/libcapkit.so.1" -Wl,-soname,libcapkit.so.1 -Wl,--default-symver "$out/later.c"
cat >"$out/program.c" <<'END'
#include <dlfcn.h>
#include <stdio.h>
unsigned capkit_next_unit(void);
int main(int argc, char **argv)
{
    static size_t reader[16], table[1 << 14], batch[16], number; /* of zeros, and large enough */
    void *library = dlopen(argv[argc - 1], RTLD_NOW);
    unsigned (*next)(void *, void *, const void *, size_t, const void *, size_t, unsigned, void *, size_t, size_t *);
    if (!library)
        return fprintf(stderr, "%s\n", dlerror()), 1;
    *(void **)&next = dlsym(library, "batch_next");
    return printf("%u %u\n", capkit_next_unit(), next(reader, table, 0, 0, 0, 0, 1, batch, 1, &number)) < 0;
}
END
cc -o "$out/program" "$out/program.c" "$out/libcapkit.so.1" -Wl,-rpath,"$out" -ldl
# 201 is CAPKIT_NOT_A_CAPTURE_FILE, the result for an empty capture.
test "$("$out/program" "$PWD/out/libcapkit_batch.so")" = '999 201' ||
    { echo 'another version of the library was called'; exit 1; }
