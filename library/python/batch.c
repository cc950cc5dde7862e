/* What Python's package loads with libcapkit: calls of batch.h and put.h with few arguments, since each takes
 * ctypes longer than the library takes for a packet. */
#include "../go/batch.h"
#include "../go/put.h"

/* A capture that is read, a program, and the packets that were read last. */
struct batch_reader {
    struct capkit_reader reader;
    uint64_t base; /* the offset of its bytes */
    uint8_t *capture;
    size_t size;
    const struct capkit_insn *insns;
    size_t count;
    size_t number; /* of the packets */
    uint16_t link_type;
    uint16_t is_plain; /* whether they are of one interface and have no options */
    struct batch_packet packets[128];
    struct capkit_interface table[CAPKIT_MOST_INTERFACES];
};

/* Reads the next packets as batch_next does, and sees whether they are plain. */
uint32_t batch_read(struct batch_reader *r)
{
    const struct capkit_packet *first = &r->packets[0].packet;
    const uint32_t found = batch_next(&r->reader, r->table, r->capture, r->size, r->insns, r->count, r->link_type,
                                      r->packets, sizeof r->packets / sizeof *r->packets, &r->number);
    size_t n;
    r->is_plain = 1;
    for (n = 0; n < r->number; n++) {
        const struct capkit_packet *p = &r->packets[n].packet;
        r->is_plain &= p->options_length == 0 && p->interface == first->interface &&
                       p->link_type == first->link_type && p->snap == first->snap;
    }
    return found;
}

/* Moves the bytes that aren't read yet to the start of the others. */
void batch_move(struct batch_reader *r)
{
    memmove(r->capture, r->capture + r->reader.offset, r->size - r->reader.offset);
    r->base += r->reader.offset;
    r->size -= r->reader.offset;
    r->reader.offset = 0;
}

/* Copies the comment of a packet of those that were read last, given its options, as capkit_comment does. */
size_t batch_comment(const struct batch_reader *r, size_t options_at, uint32_t options_length, char *text, size_t room)
{
    const struct capkit_packet packet = {.options_at = options_at, .options_length = options_length};
    return capkit_comment(&r->reader, r->capture, r->size, &packet, text, room);
}

/* A capture that is written, and its next packet. */
struct batch_writer {
    struct put_packet packet;
    struct put_writer state;
    struct put_writer before; /* the state before the last packet */
    struct capkit_interface *table;
    size_t room;
    uint8_t *units;
    size_t size;
};

/* Puts the packet and the units before it into the buffer, whose end is then at the packet's. On
 * CAPKIT_NO_ROOM_IN_BUFFER that is the size they need, if the buffer has room for those before it; on
 * this and all other results the state is unchanged. */
uint32_t batch_put(struct batch_writer *w, const uint8_t *bytes, const char *comment, const char *name)
{
    w->before = w->state;
    return put_units(&w->state, w->table, w->room, &w->packet, bytes, name, comment, w->units, w->size);
}

/* Puts what a capture without packets is into the buffer, and returns its length. */
size_t batch_header(struct batch_writer *w)
{
    return put_header(&w->state, w->units, w->size);
}
