/* Writes the packets of a capture that match, with their comments, to a pcapng file.
 *
 * The expression is checked, the capture opened and its first packet read before the output is
 * touched, which may not be the capture itself. The statuses are those of capkit: 1 after a fault,
 * before which the packets are written, and 2 if the command line or the expression is refused.
 */
#define _POSIX_C_SOURCE 200809L
#include "example.h"

static const char *expression;
static struct capkit_insn *program; /* for packets of the link type of the last one */
static size_t room, count;
static struct capkit_reader reader;
static struct capkit_writer writer;
static struct capkit_interface interfaces[CAPKIT_MOST_INTERFACES], written[4096];
static uint8_t unit[CAPKIT_MOST_UNIT];
static char comment[65536]; /* and a NUL */

/* Compiles the expression for packets of a link type, unless the last packet had it too. */
static uint32_t compile_for(uint16_t type)
{
    static int link_type = -1;
    uint32_t status = CAPKIT_OK;
    if (type != link_type)
        status = capkit_compile(expression, strlen(expression), type, program, room, &count);
    link_type = type;
    return status;
}

/* Writes the packets that match. Returns why the next packet isn't read or written. */
static uint32_t keep(const uint8_t *capture, size_t size, FILE *out)
{
    const struct capkit_interface *from;
    struct capkit_packet p;
    size_t length, got;
    uint32_t result;
    while ((result = capkit_next(&reader, interfaces, CAPKIT_MOST_INTERFACES, capture, size, &p)) ==
           CAPKIT_PACKET) {
        if ((result = compile_for(p.link_type)) != CAPKIT_OK)
            break;
        if (!capkit_matches(program, count, capture + p.at, p.captured, p.original))
            continue;
        from = &interfaces[p.interface]; /* of zeros in pcap */
        length = capkit_comment(&reader, capture, size, &p, comment, sizeof comment);
        do {
            result = capkit_writer_put(&writer, written, 4096, &p, from->name, from->name_length,
                                       capture + p.at, p.captured, comment, length, unit,
                                       sizeof unit, &got);
            fwrite(unit, 1, got, out);
        } while (result == CAPKIT_UNIT_BEFORE);
        if (result != CAPKIT_WRITTEN || ferror(out))
            break;
    }
    return result;
}

static int is_same_file(const char *one, const char *other)
{
    struct stat first, second;
    return stat(one, &first) == 0 && stat(other, &second) == 0 && first.st_dev == second.st_dev &&
           first.st_ino == second.st_ino;
}

int main(int argc, char **argv)
{
    struct capkit_reader start = {0};
    struct capkit_packet p;
    const uint8_t *capture;
    size_t size, length;
    uint32_t result;
    FILE *out;
    if (argc != 4)
        return fprintf(stderr, "usage: keep EXPRESSION IN OUT\n"), 2;
    expression = argv[1];
    if (!(program = room_of("keep", expression, &room)))
        return 2;
    if (is_same_file(argv[2], argv[3]))
        return fprintf(stderr, "keep: %s: is the input too\n", argv[3]), 2;
    if (!(capture = capture_of("keep", argv[2], &size)))
        return 1;
    result = capkit_next(&start, interfaces, CAPKIT_MOST_INTERFACES, capture, size, &p);
    if (result == CAPKIT_PACKET)
        result = compile_for(p.link_type);
    if (result != CAPKIT_OK && result != CAPKIT_END)
        return report_found("keep", argv[2], result, start.offset), 1;
    if ((out = fopen(argv[3], "wb"))) {
        result = keep(capture, size, out);
        if (!writer.has_section) {
            capkit_write_section(unit, sizeof unit, &length);
            fwrite(unit, 1, length, out);
        }
    }
    if (!out || ferror(out) || fclose(out) != 0)
        return fprintf(stderr, "keep: %s: %s\n", argv[3], strerror(errno)), 1;
    if (result != CAPKIT_END)
        return report_found("keep", argv[2], result, reader.offset), 1;
    return 0;
}
