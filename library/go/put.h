/* The units of a packet by one call, for languages from which a call, or each of its arguments, takes longer
 * than a unit does: the packages for Go and Python have this in them, over calls of capkit.h. */
#include <capkit.h>
#include <string.h>

/* What is written of a capture so far. */
struct put_writer {
    struct capkit_writer pcapng;
    uint32_t is_pcapng;
    uint32_t nanoseconds; /* of pcap */
    uint32_t has_header;  /* pcap: 0 if the file's header isn't written yet, */
    uint16_t link_type;   /* which has this one */
};

/* A packet that is put: what counts of it, and the lengths of its bytes, of the name of its interface and of
 * its comment. */
struct put_packet {
    uint64_t time;
    size_t captured;
    size_t name_length;
    size_t comment_length;
    size_t end; /* of its units, once they are written */
    uint32_t original;
    uint32_t snap;
    uint16_t link_type;
};

/* Writes a packet's record to a buffer, after the file's header if it is the first one. */
static uint32_t put_record(struct put_writer *writer, const struct put_packet *it,
                           const uint8_t *bytes, uint8_t *buffer, size_t size, size_t *length)
{
    size_t header = 0, record = 0;
    uint32_t put = CAPKIT_WRITTEN;
    if (!writer->has_header)
        put = capkit_write_file_header(writer->nanoseconds, it->link_type, buffer, size, &header);
    else if (it->link_type != writer->link_type)
        put = CAPKIT_LINK_TYPES_DIFFER;
    if (put == CAPKIT_WRITTEN)
        put = capkit_write_record(writer->nanoseconds, it->time, it->original, bytes, it->captured,
                                  buffer + header, size - header, &record);
    if (put == CAPKIT_WRITTEN) {
        writer->has_header = 1;
        writer->link_type = it->link_type;
    }
    *length = header + record;
    return put;
}

/* Whether a packet is of the interface that was described last, as most packets are. */
static int is_of_last(const struct put_writer *writer, const struct capkit_interface *interfaces,
                      const struct put_packet *it, const char *name)
{
    const struct capkit_interface *last;
    if (writer->pcapng.interfaces == 0)
        return 0;
    last = &interfaces[writer->pcapng.interfaces - 1];
    return last->snap == it->snap && last->link_type == it->link_type &&
           last->name_length == it->name_length &&
           (it->name_length == 0 || memcmp(last->name, name, it->name_length) == 0);
}

/* Writes a packet's block to a buffer, after the units that come before it. */
static uint32_t put_block(struct put_writer *writer, struct capkit_interface *interfaces, size_t room,
                          const struct put_packet *it, const uint8_t *bytes, const char *name,
                          const char *comment, uint8_t *buffer, size_t size, size_t *length)
{
    const struct capkit_packet packet = {
        .time = it->time, .original = it->original, .snap = it->snap, .link_type = it->link_type};
    const struct capkit_writer before = writer->pcapng;
    size_t unit;
    uint32_t put;
    if (is_of_last(writer, interfaces, it, name))
        return capkit_write_packet(before.interfaces - 1, it->time, it->original, bytes, it->captured,
                                   comment, it->comment_length, buffer, size, length);
    *length = 0;
    do {
        put = capkit_writer_put(&writer->pcapng, interfaces, room, &packet, name, it->name_length, bytes,
                                it->captured, comment, it->comment_length, buffer + *length,
                                size - *length, &unit);
        *length += unit;
    } while (put == CAPKIT_UNIT_BEFORE);
    if (put != CAPKIT_WRITTEN)
        writer->pcapng = before;
    return put;
}

/* Writes all units of a packet to a buffer, whose end is then at its `end`. On any result but
 * CAPKIT_WRITTEN nothing counts, and the writer is unchanged. The table has room for one interface more. */
static uint32_t put_units(struct put_writer *writer, struct capkit_interface *interfaces, size_t room,
                          struct put_packet *it, const uint8_t *bytes, const char *name,
                          const char *comment, uint8_t *buffer, size_t size)
{
    if (!writer->is_pcapng)
        return put_record(writer, it, bytes, buffer, size, &it->end);
    return put_block(writer, interfaces, room, it, bytes, name, comment, buffer, size, &it->end);
}

#ifdef GO_CGO_GOSTRING_TYPEDEF
/* The same, of texts of Go. */
static uint32_t put_packet(struct put_writer *writer, struct capkit_interface *interfaces, size_t room,
                           struct put_packet *it, const uint8_t *bytes, _GoString_ name,
                           _GoString_ comment, uint8_t *buffer, size_t size)
{
    it->name_length = _GoStringLen(name);
    it->comment_length = _GoStringLen(comment);
    return put_units(writer, interfaces, room, it, bytes, _GoStringPtr(name), _GoStringPtr(comment),
                     buffer, size);
}

/* The same, of many packets, whose bytes, names and comments are one after another. Sets *number to how
 * many were written, and returns the result for the one after them. */
static uint32_t put_packets(struct put_writer *writer, struct capkit_interface *interfaces, size_t room,
                            struct put_packet *packets, size_t count, const uint8_t *bytes,
                            uint8_t *buffer, size_t size, size_t *number)
{
    size_t n, end = 0;
    uint32_t put = CAPKIT_WRITTEN;
    for (n = 0; n < count; n++) {
        struct put_packet *it = &packets[n];
        const char *name = (const char *)bytes + it->captured;
        put = put_units(writer, interfaces, room, it, bytes, name, name + it->name_length, buffer + end,
                        size - end);
        if (put != CAPKIT_WRITTEN)
            break;
        it->end = end += it->end;
        bytes += it->captured + it->name_length + it->comment_length;
    }
    *number = n;
    return put;
}
#endif

/* Writes what a capture without packets is to a buffer. */
static size_t put_header(const struct put_writer *writer, uint8_t *buffer, size_t size)
{
    size_t length;
    if (writer->is_pcapng)
        capkit_write_section(buffer, size, &length);
    else
        capkit_write_file_header(writer->nanoseconds, CAPKIT_LINK_ETHERNET, buffer, size, &length);
    return length;
}
