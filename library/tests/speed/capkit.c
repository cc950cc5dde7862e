/* usage: capkit read|match|pcap|pcapng CAPTURE [EXPRESSION | OUTPUT]    see speed.py */
#include <capkit.h>
#include <stdio.h>
#include <string.h>

static uint8_t buffer[2 * CAPKIT_MOST_UNIT], unit[CAPKIT_MOST_UNIT];
static struct capkit_interface table[CAPKIT_MOST_INTERFACES], written[CAPKIT_MOST_INTERFACES];
static struct capkit_insn program[CAPKIT_MOST_INSNS];
static struct capkit_reader reader;
static struct capkit_writer writer;
static size_t count, size, packets;

static uint32_t next(struct capkit_packet *p)
{
    if (count)
        return capkit_next_match(&reader, table, CAPKIT_MOST_INTERFACES, buffer, size, program, count,
                                 CAPKIT_LINK_ETHERNET, p);
    return capkit_next(&reader, table, CAPKIT_MOST_INTERFACES, buffer, size, p);
}

static void put(const char *form, const struct capkit_packet *p, FILE *out)
{
    const struct capkit_interface *from = &table[p->interface];
    size_t length;
    uint32_t put;
    if (strcmp(form, "pcap") == 0) {
        if (packets == 0 && capkit_write_file_header(0, p->link_type, unit, sizeof unit, &length) == CAPKIT_WRITTEN)
            fwrite(unit, 1, length, out);
        if (capkit_write_record(0, p->time, p->original, buffer + p->at, p->captured, unit, sizeof unit, &length) ==
            CAPKIT_WRITTEN)
            fwrite(unit, 1, length, out);
        return;
    }
    do {
        put = capkit_writer_put(&writer, written, CAPKIT_MOST_INTERFACES, p, from->name, from->name_length,
                                buffer + p->at, p->captured, "", 0, unit, sizeof unit, &length);
        fwrite(unit, 1, length, out);
    } while (put == CAPKIT_UNIT_BEFORE);
}

int main(int argc, char **argv)
{
    FILE *in = fopen(argv[2], "rb"), *out = NULL;
    int is_match = strcmp(argv[1], "match") == 0, writes = argc == 4 && !is_match;
    struct capkit_packet p;
    size_t rest = 0, more;
    if (is_match && capkit_compile(argv[3], strlen(argv[3]), 1, program, CAPKIT_MOST_INSNS, &count) != CAPKIT_OK)
        return 2;
    if (!in || (writes && !(out = fopen(argv[3], "wb"))))
        return 1;
    setvbuf(in, NULL, _IONBF, 0);
    do {
        memmove(buffer, buffer + reader.offset, rest);
        reader.offset = 0;
        more = fread(buffer + rest, 1, 1 << 18, in);
        size = rest + more;
        for (; next(&p) == CAPKIT_PACKET; packets++)
            if (writes)
                put(argv[1], &p, out);
        rest = size - reader.offset;
    } while (more > 0);
    printf("%zu 0\n", packets);
    return rest != 0 || (out && fclose(out) != 0);
}
