/* Random numbers, and memory between two pages that can't be touched. */
#include <stdint.h>
#include <string.h>
#include <sys/mman.h>

enum { GUARDED = 1 << 24 };

static _Thread_local uint64_t seed;

static uint32_t rnd(void)
{
    seed ^= seed << 13;
    seed ^= seed >> 7;
    seed ^= seed << 17;
    return seed >> 16;
}

/* Memory of GUARDED bytes with a page before it and one after it. */
static uint8_t *guarded(void)
{
    uint8_t *m = mmap(0, GUARDED + 8192, PROT_NONE, MAP_PRIVATE | MAP_ANONYMOUS, -1, 0);
    mprotect(m + 4096, GUARDED, PROT_READ | PROT_WRITE);
    return m + 4096;
}

/* A place for some bytes of such memory: right after the first page, or right before the last.
 */
static void *place(uint8_t *memory, size_t size)
{
    return rnd() % 2 ? memory : memory + GUARDED - size;
}
