/* Repeats the calls that calls.py recorded, on the library of another processor, and compares every result and every byte of every
 * buffer. Calls that take memory from malloc are made in lent memory, too. The last line counts the calls that differ.
 * usage: replay FILE
 *
 * All arguments are passed with 64 bits, which the calling conventions of x86-64 and ARM64 allow. */
#include <stdbool.h>
#include <stdint.h>
#include <stdio.h>
#include <stdlib.h>
#include <string.h>

#define CALLS(X)                                                                                                                 \
    X(bound) X(check) X(comment) X(compile) X(explain) X(insn_text) X(is_portable) X(line) X(matches) X(matches_unchecked) X(next) \
    X(next_match) X(next_unit) X(portability) X(read_listing) X(run) X(run_unchecked) X(skip) X(text) X(trace) X(version)        \
    X(write_file_header) X(write_interface) X(write_listing) X(write_packet) X(write_record) X(write_section) X(writer_put)
/* Those that have a form in lent memory, which is the first argument there. */
#define LENT(X) X(bound) X(compile) X(explain) X(read_listing) X(write_listing)
#define DECLARE(name) extern uint64_t capkit_##name();
#define DECLARE_IN(name) extern uint64_t capkit_##name##_in();
CALLS(DECLARE)
LENT(DECLARE_IN)
typedef uint64_t call(uint64_t, uint64_t, uint64_t, uint64_t, uint64_t, uint64_t, uint64_t, uint64_t, uint64_t, uint64_t, uint64_t,
                      uint64_t, uint64_t);
#define NAMED(name) {"capkit_" #name, (call *)capkit_##name},
#define NAMED_IN(name) {"capkit_" #name, (call *)capkit_##name##_in},
struct named {
    const char *name;
    call *call;
};
static const struct named calls[] = {CALLS(NAMED){NULL, NULL}}, lent_calls[] = {LENT(NAMED_IN){NULL, NULL}};

enum { MOST_ARGUMENTS = 13, MOST_MEMORY = 1 << 24 };

/* A call that was recorded. A buffer has its bytes before the call and after it. */
struct recorded {
    char *name;
    uint64_t is_wide, count, are_buffers, result, values[MOST_ARGUMENTS], sizes[MOST_ARGUMENTS];
    char *before[MOST_ARGUMENTS], *after[MOST_ARGUMENTS];
};

/* As struct capkit_memory. */
struct memory {
    void *start;
    size_t size;
};

static uint64_t number(FILE *file)
{
    uint64_t read;
    if (fread(&read, sizeof read, 1, file) != 1)
        exit(3);
    return read;
}

static char *block(FILE *file, uint64_t *length)
{
    *length = number(file);
    char *bytes = malloc(*length + 1);
    if (!bytes || (*length && fread(bytes, *length, 1, file) != 1))
        exit(3);
    bytes[*length] = 0;
    return bytes;
}

static struct recorded next_recorded(FILE *file)
{
    struct recorded it = {0};
    uint64_t length;
    it.name = block(file, &length);
    it.is_wide = number(file);
    it.count = number(file);
    it.are_buffers = number(file);
    for (uint64_t i = 0; i < it.count; i++) {
        if (it.are_buffers >> i & 1)
            it.before[i] = block(file, &it.sizes[i]);
        else
            it.values[i] = number(file);
    }
    it.result = number(file);
    for (uint64_t i = 0; i < it.count; i++)
        if (it.before[i]) {
            it.after[i] = block(file, &length);
            if (length != it.sizes[i])
                exit(3);
        }
    return it;
}

static void forget(struct recorded *it)
{
    for (uint64_t i = 0; i < it->count; i++) {
        free(it->before[i]);
        free(it->after[i]);
    }
    free(it->name);
}

static call *called(const struct named *named, const char *name)
{
    while (named->name && strcmp(named->name, name))
        named++;
    return named->call;
}

/* Whether a call returns what was recorded, with the same bytes in all buffers. It is given memory first, unless that is NULL. */
static bool is_same(const struct recorded *it, call *call, struct memory *memory)
{
    uint64_t a[MOST_ARGUMENTS] = {(uintptr_t)memory}, *given = a + !!memory;
    for (uint64_t i = 0; i < it->count; i++) {
        given[i] = it->before[i] ? (uintptr_t)malloc(it->sizes[i] + 1) : it->values[i];
        if (it->before[i])
            memcpy((void *)(uintptr_t)given[i], it->before[i], it->sizes[i] + 1);
    }
    uint64_t got = call(a[0], a[1], a[2], a[3], a[4], a[5], a[6], a[7], a[8], a[9], a[10], a[11], a[12]);
    bool same = it->is_wide ? got == it->result : (uint32_t)got == (uint32_t)it->result;
    for (uint64_t i = 0; i < it->count; i++)
        if (it->before[i]) {
            same = same && !memcmp(it->after[i], (void *)(uintptr_t)given[i], it->sizes[i]);
            free((void *)(uintptr_t)given[i]);
        }
    return same;
}

/* Whether a call in lent memory does the same, and gives the memory back. */
static bool is_same_lent(const struct recorded *it, call *call)
{
    static char lent[MOST_MEMORY];
    struct memory memory = {lent, sizeof lent};
    return is_same(it, call, &memory) && memory.start == lent && memory.size == sizeof lent;
}

int main(int count, char **words)
{
    FILE *file = count == 2 ? fopen(words[1], "rb") : NULL;
    if (!file)
        return 3;
    uint64_t recorded = number(file), made = recorded, differ = 0;
    for (uint64_t i = 0; i < recorded; i++) {
        struct recorded it = next_recorded(file);
        call *own = called(calls, it.name), *in_lent = called(lent_calls, it.name);
        if (!own || !is_same(&it, own, NULL)) {
            printf("DIFFERS %s\n", it.name);
            differ++;
        }
        made += in_lent != NULL;
        if (in_lent && !is_same_lent(&it, in_lent)) {
            printf("DIFFERS %s_in\n", it.name);
            differ++;
        }
        forget(&it);
    }
    printf("%llu calls, %llu differ\n", (unsigned long long)made, (unsigned long long)differ);
    return differ != 0;
}
