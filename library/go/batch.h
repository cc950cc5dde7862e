/* Many packets by one call, for languages from which a call takes longer than a packet does: the
 * packages for Go and Python have this in them, over calls of capkit.h. */
#include <capkit.h>

/* A packet, and the offset of the unit after it. */
struct batch_packet {
    struct capkit_packet packet;
    size_t end;
};

/* Reads the next packets that a program accepts, at most `most` (1 or more), and sets *number to
 * how many there are. The program is valid, and for packets of link_type: on packets of another
 * link type it isn't run, and they are among those that are read. If count is 0, all packets are.
 *
 * A batch ends before a unit without a packet. So after it the reader, except its offset, and the
 * table, which has room for CAPKIT_MOST_INTERFACES, are as after each of its packets: by them are
 * comments and names of interfaces read. Returns CAPKIT_PACKET if there are packets, otherwise the
 * result of capkit_next. */
uint32_t batch_next(struct capkit_reader *reader, struct capkit_interface *table,
                    const uint8_t *capture, size_t size, const struct capkit_insn *insns,
                    size_t count, uint16_t link_type, struct batch_packet *batch, size_t most,
                    size_t *number)
{
    uint32_t found = CAPKIT_PACKET;
    size_t n = 0;
    while (n < most && found == CAPKIT_PACKET) {
        const struct capkit_reader before = *reader;
        struct capkit_packet *p = &batch[n].packet;
        found = capkit_next_unit(reader, table, CAPKIT_MOST_INTERFACES, capture, size, p);
        batch[n].end = reader->offset;
        if (found == CAPKIT_NO_PACKET && n == 0)
            found = CAPKIT_PACKET;
        else if (found != CAPKIT_PACKET)
            *reader = before; /* the next batch begins with the unit */
        else
            n += count == 0 || p->link_type != link_type ||
                 capkit_matches_unchecked(insns, count, capture + p->at, p->captured, p->original);
    }
    *number = n;
    return n ? CAPKIT_PACKET : found;
}
