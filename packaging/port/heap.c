/* Memory for proved code, as the toolchain's rattle/libc/src/heap.rt states it, for targets for which the toolchain has no archive
 * of it. */
#include <stdbool.h>
#include <stddef.h>
#include <stdlib.h>

struct tried {
    bool ok;
    void *place; /* never null */
};

static struct tried tried(void *place)
{
    static char nowhere;
    return (struct tried){place != NULL, place ? place : &nowhere};
}

struct tried rattle_alloc(size_t size, size_t align)
{
    return tried(malloc(size ? size : align));
}

struct tried rattle_realloc(void *place, size_t kept, size_t size, size_t align)
{
    (void)kept;
    return tried(realloc(place, size ? size : align));
}

void rattle_dealloc(void *place)
{
    free(place);
}
