/* Writes units between pages that can't be touched, and compares their bytes with those of a second
 * encoder. usage: writes SEED ROUNDS */
#include <capkit.h>
#include <stdio.h>
#include <stdlib.h>
#include "guard.h"

enum kind { HEADER, RECORD, SECTION, INTERFACE, PACKET, KINDS };

struct unit {
    enum kind kind;
    uint32_t nanoseconds, snap, original, interface;
    uint16_t link_type;
    uint64_t time;
    const uint8_t *bytes; /* a packet's, or a name */
    size_t captured;
    const char *comment;
    size_t comment_length;
    const struct unit *put; /* the packet that is put, if this is the unit that is written for it */
};

static uint8_t *first, *second, *third, *fourth, want[GUARDED];
static size_t size, wrong, whole, no_room, refused;

/* What is written before a packet is put, and the packet's interface, whose name has any length. */
static struct capkit_writer writer;
static struct capkit_interface table[4100], from;
static size_t entries, known, name_length;
static const uint8_t *name;

/* ---- the second encoder */

static void put(uint64_t number, int bytes)
{
    for (; bytes; bytes--, number >>= 8)
        want[size++] = number;
}

static void put_padded(const void *bytes, size_t length)
{
    if (length)
        memcpy(want + size, bytes, length);
    for (size += length; size % 4;)
        put(0, 1);
}

static void put_option(int code, const void *bytes, size_t length)
{
    put(code, 2);
    put(length, 2);
    put_padded(bytes, length);
}

static void put_block(uint32_t type, const struct unit *u)
{
    put(type, 4);
    put(0, 4);
    if (u->kind == SECTION) {
        put(0x1a2b3c4d, 4);
        put(1, 4);
        put(UINT64_MAX, 8);
    } else if (u->kind == INTERFACE) {
        put(u->link_type, 4);
        put(u->snap, 4);
        if (u->captured)
            put_option(2, u->bytes, u->captured);
        put_option(9, "\x09", 1);
        put(0, 4);
    } else {
        put(u->interface, 4);
        put(u->time >> 32, 4);
        put(u->time, 4);
        put(u->captured, 4);
        put(u->original, 4);
        put_padded(u->bytes, u->captured);
        if (u->comment_length) {
            put_option(1, u->comment, u->comment_length);
            put(0, 4);
        }
    }
    size_t end = size;
    size = 4;
    put(end + 4, 4);
    size = end;
    put(end + 4, 4);
}

static void encode(const struct unit *u)
{
    size = 0;
    switch (u->kind) {
    case HEADER:
        put(u->nanoseconds ? 0xa1b23c4d : 0xa1b2c3d4, 4);
        put(2, 2);
        put(4, 2);
        put(0, 8);
        put(262144, 4);
        put(u->link_type, 4);
        break;
    case RECORD:
        put(u->time / 1000000000, 4);
        put(u->time % 1000000000 / (u->nanoseconds ? 1 : 1000), 4);
        put(u->captured, 4);
        put(u->original, 4);
        memcpy(want + size, u->bytes, u->captured);
        size += u->captured;
        break;
    case SECTION:
        put_block(0x0a0d0d0a, u);
        break;
    case INTERFACE:
        put_block(1, u);
        break;
    default:
        put_block(6, u);
    }
}

static int is_same(const struct capkit_interface *i, const struct capkit_interface *j)
{
    return i->snap == j->snap && i->link_type == j->link_type && i->name_length == j->name_length &&
           memcmp(i->name, j->name, i->name_length) == 0;
}

/* Puts a packet, with copies of the writer and its table, and checks what they become. */
static uint32_t put_next(const struct unit *u, uint8_t *buffer, size_t room, size_t *length)
{
    const struct unit *p = u->put;
    struct capkit_packet packet = {p->time, 0, 0, 0, p->original, 0, 0, from.snap, from.link_type};
    struct capkit_writer after = writer;
    size_t bytes = entries * sizeof *table, count = known + (u->kind == INTERFACE);
    struct capkit_interface *copy = memcpy(place(third, bytes), table, bytes);
    uint32_t status =
        capkit_writer_put(&after, copy, entries, &packet, (const char *)name, name_length, p->bytes,
                          p->captured, p->comment, p->comment_length, buffer, room, length);
    if (status == CAPKIT_UNIT_BEFORE) {
        wrong += u->kind == PACKET || !after.has_section || after.interfaces != count ||
                 (count > known && !is_same(&copy[known], &from));
        memcpy(copy + known, table + known, (count - known) * sizeof *copy);
        status = CAPKIT_WRITTEN;
    } else {
        wrong += memcmp(&after, &writer, sizeof after) || (!status && u->kind != PACKET);
    }
    wrong += memcmp(copy, table, bytes) != 0;
    return status;
}

/* The first check that a unit fails, or 0. */
static uint32_t refusal(const struct unit *u)
{
    size_t comment = u->comment_length ? 8 + (u->comment_length + 3) / 4 * 4 : 0;
    if (u->kind == INTERFACE)
        return u->captured > 255 ? CAPKIT_BAD_OPTION : 0;
    if (u->kind == RECORD)
        return u->time >> 63                        ? CAPKIT_TIME_OUT_OF_RANGE
               : u->captured > 262144               ? CAPKIT_UNIT_TOO_LONG
               : u->time / 1000000000 > 0xffffffffu ? CAPKIT_TIME_OUT_OF_RANGE
                                                    : 0;
    if (u->kind == PACKET)
        return u->time >> 63               ? CAPKIT_TIME_OUT_OF_RANGE
               : u->comment_length > 65535 ? CAPKIT_BAD_OPTION
               : 32 + (u->captured + 3) / 4 * 4 + comment > CAPKIT_MOST_UNIT ? CAPKIT_UNIT_TOO_LONG
               : u->interface >= 4096 ? CAPKIT_TOO_MANY_OUTPUT_INTERFACES
                                      : 0;
    return 0;
}

static uint32_t call(const struct unit *u, uint8_t *buffer, size_t room, size_t *length)
{
    if (u->put)
        return put_next(u, buffer, room, length);
    switch (u->kind) {
    case HEADER:
        return capkit_write_file_header(u->nanoseconds, u->link_type, buffer, room, length);
    case RECORD:
        return capkit_write_record(u->nanoseconds, u->time, u->original, u->bytes, u->captured,
                                   buffer, room, length);
    case SECTION:
        return capkit_write_section(buffer, room, length);
    case INTERFACE:
        return capkit_write_interface(u->link_type, u->snap, (const char *)u->bytes, u->captured,
                                      buffer, room, length);
    default:
        return capkit_write_packet(u->interface, u->time, u->original, u->bytes, u->captured,
                                   u->comment, u->comment_length, buffer, room, length);
    }
}

/* ---- one unit in buffers of several sizes */

static int is_filled(const uint8_t *bytes, size_t length)
{
    size_t i;
    for (i = 0; i < length; i++)
        if (bytes[i] != 0xa5)
            return 0;
    return 1;
}

static void in_room(const struct unit *u, uint32_t refuses, size_t room)
{
    size_t length = 77;
    char name[64];
    uint8_t *buffer = room ? place(second, room) : NULL;
    if (room)
        memset(buffer, 0xa5, room);
    uint32_t status = call(u, buffer, room, &length);
    if (refuses) {
        wrong += status != refuses || length != 0 || !is_filled(buffer, room);
        refused++;
    } else if (room < size) {
        wrong += status != CAPKIT_NO_ROOM_IN_BUFFER || length != size || !is_filled(buffer, room);
        no_room++;
    } else {
        wrong += status != CAPKIT_WRITTEN || length != size || memcmp(buffer, want, size) ||
                 !is_filled(buffer + size, room - size);
        whole++;
    }
    wrong += status && !capkit_text(status, name, sizeof name);
}

/* Mostly small, at times at a limit. */
static size_t some_length(size_t small, size_t limit)
{
    return rnd() % 200 ? rnd() % small : limit - 4 + rnd() % 8;
}

static struct unit some_unit(void)
{
    struct unit u = {.kind = rnd() % KINDS,
                     .nanoseconds = rnd() % 2,
                     .snap = rnd(),
                     .original = rnd(),
                     .interface = rnd() % 50 ? rnd() % 4096 : rnd()};
    u.link_type = rnd();
    u.time = ((uint64_t)rnd() << 32 | rnd()) >> rnd() % 4;
    u.captured = u.kind == INTERFACE ? some_length(20, 256)
                 : u.kind == RECORD  ? some_length(200, 262144)
                 : u.kind == PACKET  ? some_length(200, CAPKIT_MOST_UNIT - 32)
                                     : 0;
    u.comment_length = u.kind == PACKET && rnd() % 2 ? some_length(60, 65536) : 0;
    uint8_t *bytes = place(first, u.captured + u.comment_length);
    size_t i;
    for (i = 0; i < u.captured + u.comment_length && i < 300; i++)
        bytes[i] = rnd();
    u.bytes = bytes;
    u.comment = (const char *)bytes + u.captured;
    return u;
}

static void in_rooms(const struct unit *u, uint32_t refuses)
{
    if (refuses)
        size = rnd() % 100;
    else
        encode(u);
    in_room(u, refuses, 0);
    in_room(u, refuses, size ? size - 1 : 0);
    in_room(u, refuses, size);
    in_room(u, refuses, size + rnd() % 20);
}

/* An interface of few, so that some are equal. */
static struct capkit_interface some_interface(void)
{
    struct capkit_interface is;
    memset(&is, 'a' + rnd() % 2, sizeof is);
    is.link_type = rnd() % 2;
    is.snap = rnd() % 2;
    is.name_length = rnd() % 20 ? rnd() % 2 : 254 + rnd() % 2;
    return is;
}

/* A packet that is put, with a writer of any numbers, and a table of few entries or of too many. */
static void random_put(struct unit p)
{
    size_t most, i;
    uint32_t refuses;
    struct unit u = {.kind = SECTION};
    entries = rnd() % 200 ? rnd() % 9 : 4090 + rnd() % 10;
    most = entries < 4096 ? entries : 4096;
    for (i = 0; i < entries; i++)
        table[i] = some_interface();
    writer = (struct capkit_writer){rnd() % 4 ? rnd() % 4 : rnd(), rnd() % 3};
    known = writer.interfaces < most ? writer.interfaces : most;
    from = some_interface();
    name_length = from.name_length + (from.name_length == 255 && rnd() % 2);
    name = memset(place(fourth, name_length), from.name[0], name_length);
    for (i = 0; i < known && !is_same(&table[i], &from);)
        i++;
    p.kind = PACKET;
    p.interface = i < most ? i : 4096;
    refuses = refusal(&p);
    if (name_length > 255 && refuses != CAPKIT_TIME_OUT_OF_RANGE)
        refuses = CAPKIT_BAD_OPTION;
    if (writer.has_section)
        u = i < known ? p : (struct unit){INTERFACE, 0,    from.snap,   0, 0, from.link_type,
                                          0,         name, name_length, 0, 0, 0};
    u.put = &p;
    in_rooms(&u, refuses);
}

static void random_units(size_t rounds)
{
    for (; rounds; rounds--) {
        struct unit u = some_unit();
        in_rooms(&u, refusal(&u));
        random_put(u);
    }
}

int main(int argc, char **argv)
{
    size_t rounds = argc > 2 ? atol(argv[2]) : 1000;
    seed = (argc > 1 ? atol(argv[1]) : 1) * 0x9e3779b97f4a7c15u + 1;
    first = guarded();
    second = guarded();
    third = guarded();
    fourth = guarded();
    random_units(rounds);
    printf("%zu units written, %zu without room, %zu refused; broken promises: %zu\n", whole,
           no_room, refused, wrong);
    return wrong != 0;
}
