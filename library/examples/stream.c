/* Prints the time and the length of each packet of a capture on its standard input, as it comes.
 *
 * The input is read through a buffer with room for two units. A fault is reported at once, though
 * more bytes may come. The statuses are those of capkit: 1 after a fault, or if it can't be read or
 * printed. */
#define _POSIX_C_SOURCE 200809L
#include "example.h"

static uint8_t buffer[2 * CAPKIT_MOST_UNIT];
static struct capkit_interface interfaces[CAPKIT_MOST_INTERFACES];

int main(void)
{
    struct capkit_reader reader = {0};
    struct capkit_packet p;
    size_t size = 0, before = 0;
    uint32_t found;
    int can_go_on;
    ssize_t got;
    do {
        before += reader.offset;
        got = read_on(0, &reader, buffer, sizeof buffer, &size);
        while ((found = capkit_next(&reader, interfaces, CAPKIT_MOST_INTERFACES, buffer, size,
                                    &p)) == CAPKIT_PACKET)
            if (printf("%llu %u\n", (unsigned long long)p.time, p.original) < 0 || fflush(stdout))
                return perror("stream"), 1;
        can_go_on = found == CAPKIT_END || found == CAPKIT_TRUNCATED || size - reader.offset < 4;
    } while (got > 0 && can_go_on);
    before += reader.offset;
    if (got < 0 && can_go_on)
        return fprintf(stderr, "stream: -: offset %zu: read failed\n", before), 1;
    if (found == CAPKIT_END)
        return 0;
    report_found("stream", "-", found, before);
    return 1;
}
