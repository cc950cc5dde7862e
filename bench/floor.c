/* A lower bound for bench/run.py: some of capkit's commands, written by hand in C, only for the usual case.
 *
 * usage: floor copy|pcapng OUT IN FIRST LAST    all packets except FIRST to LAST
 *        floor merge OUT IN IN                  by time
 *        floor infos IN
 *        floor web OUT IN                       tcp port 80 or 443, over Ethernet
 *
 * It reads pcap in little-endian order with microseconds, through buffers of 64 KiB, and writes through one of 256 KiB,
 * as capkit does. It trusts lengths below its limit and checks little else, so it is a yardstick, not a tool.
 */
#include <fcntl.h>
#include <stdint.h>
#include <stdio.h>
#include <stdlib.h>
#include <string.h>
#include <unistd.h>

enum { INPUT_BUFFER = 1 << 16, OUTPUT_BUFFER = 1 << 18, MOST = 1 << 18, FILE_HEADER = 24, RECORD_HEADER = 16 };

struct reader {
    int file;
    size_t at, end;
    unsigned char buffer[INPUT_BUFFER], packet[MOST];
    uint32_t seconds, micros, captured, original;
};

struct writer {
    int file;
    size_t end;
    unsigned char buffer[OUTPUT_BUFFER];
};

static struct reader first, second;
static struct writer output;

static void stop(const char *why)
{
    fprintf(stderr, "floor: %s\n", why);
    exit(1);
}

/* Reads n bytes; returns 0 at the end of the file. */
static int take(struct reader *from, unsigned char *to, size_t n)
{
    while (n > from->end - from->at) {
        size_t held = from->end - from->at;
        memcpy(to, from->buffer + from->at, held);
        to += held;
        n -= held;
        ssize_t more = read(from->file, from->buffer, INPUT_BUFFER);
        if (more <= 0)
            return 0;
        from->at = 0;
        from->end = (size_t)more;
    }
    memcpy(to, from->buffer + from->at, n);
    from->at += n;
    return 1;
}

static void flush(void)
{
    for (size_t at = 0; at < output.end;) {
        ssize_t written = write(output.file, output.buffer + at, output.end - at);
        if (written <= 0)
            stop("write failed");
        at += (size_t)written;
    }
    output.end = 0;
}

static void put(const void *bytes, size_t n)
{
    const unsigned char *from = bytes;
    while (n > OUTPUT_BUFFER - output.end) {
        size_t room = OUTPUT_BUFFER - output.end;
        memcpy(output.buffer + output.end, from, room);
        output.end = OUTPUT_BUFFER;
        from += room;
        n -= room;
        flush();
    }
    memcpy(output.buffer + output.end, from, n);
    output.end += n;
}

static void begin(struct reader *input, const char *name)
{
    unsigned char header[FILE_HEADER];
    input->file = open(name, O_RDONLY);
    if (input->file < 0 || !take(input, header, sizeof header) || memcmp(header, "\xd4\xc3\xb2\xa1", 4))
        stop("not a pcap file");
}

static int next(struct reader *input)
{
    uint32_t header[4];
    if (!take(input, (unsigned char *)header, sizeof header))
        return 0;
    input->seconds = header[0];
    input->micros = header[1];
    input->captured = header[2];
    input->original = header[3];
    if (input->micros >= 1000000 || input->captured > MOST)
        stop("bad record");
    return take(input, input->packet, input->captured);
}

static void put_file_header(void)
{
    static const uint32_t header[] = {0xa1b2c3d4, 0x40002, 0, 0, MOST, 1};
    put(header, sizeof header);
}

static void put_record(const struct reader *input)
{
    uint32_t header[] = {input->seconds, input->micros, input->captured, input->original};
    put(header, sizeof header);
    put(input->packet, input->captured);
}

static void put_block(const struct reader *input)
{
    static const unsigned char zeros[3];
    uint64_t time = input->seconds * 1000000000ull + input->micros * 1000ull;
    uint32_t padding = -input->captured & 3, size = 32 + input->captured + padding;
    uint32_t header[] = {6, size, 0, (uint32_t)(time >> 32), (uint32_t)time, input->captured, input->original};
    put(header, sizeof header);
    put(input->packet, input->captured);
    put(zeros, padding);
    put(&size, sizeof size);
}

static void put_section(void)
{
    static const uint32_t blocks[] = {0x0a0d0d0a, 28, 0x1a2b3c4d, 1, 0xffffffff, 0xffffffff, 28,
                                      1, 32, 1, MOST, 9 | 1 << 16, 9, 0, 32};
    put(blocks, sizeof blocks);
}

static void copy(int is_pcapng, uint64_t from, uint64_t to)
{
    is_pcapng ? put_section() : put_file_header();
    for (uint64_t number = 1; next(&first); number++) {
        if (number >= from && number <= to)
            continue;
        is_pcapng ? put_block(&first) : put_record(&first);
    }
}

static int is_later(const struct reader *one, const struct reader *other)
{
    return one->seconds > other->seconds || (one->seconds == other->seconds && one->micros > other->micros);
}

static void merge(void)
{
    put_file_header();
    int has_first = next(&first), has_second = next(&second);
    while (has_first || has_second) {
        if (!has_second || (has_first && !is_later(&first, &second))) {
            put_record(&first);
            has_first = next(&first);
        } else {
            put_record(&second);
            has_second = next(&second);
        }
    }
}

static void report(void)
{
    uint64_t packets = 0, captured = 0, original = 0, least = UINT64_MAX, greatest = 0, before = 0;
    int in_order = 1;
    for (; next(&first); packets++) {
        uint64_t time = first.seconds * 1000000000ull + first.micros * 1000ull;
        captured += first.captured;
        original += first.original;
        least = time < least ? time : least;
        greatest = time > greatest ? time : greatest;
        in_order &= time >= before;
        before = time;
    }
    printf("Packets: %llu\n%llu %llu %llu %llu %d\n", (unsigned long long)packets, (unsigned long long)captured,
           (unsigned long long)original, (unsigned long long)least, (unsigned long long)greatest, in_order);
}

static unsigned half(const unsigned char *at)
{
    return (unsigned)at[0] << 8 | at[1];
}

/* Whether a port of the TCP header at this place, if it was captured, is 80 or 443. */
static int is_web_at(const struct reader *input, size_t place)
{
    if (input->captured < place + 4)
        return 0;
    unsigned from = half(input->packet + place), to = half(input->packet + place + 2);
    return from == 80 || to == 80 || from == 443 || to == 443;
}

static int is_web(const struct reader *input)
{
    const unsigned char *packet = input->packet;
    if (input->captured < 34)
        return 0;
    if (half(packet + 12) == 0x800)
        return packet[23] == 6 && !(half(packet + 20) & 0x1fff) && is_web_at(input, 14 + 4 * (packet[14] & 15));
    return half(packet + 12) == 0x86dd && packet[20] == 6 && is_web_at(input, 54);
}

int main(int count, char **words)
{
    const char *job = count > 2 ? words[1] : "";
    if (!strcmp(job, "infos")) {
        begin(&first, words[2]);
        report();
        return 0;
    }
    if (count < 4 || (output.file = open(words[2], O_WRONLY | O_CREAT | O_TRUNC, 0666)) < 0)
        stop("what to do?");
    begin(&first, words[3]);
    if (count == 6 && (!strcmp(job, "copy") || !strcmp(job, "pcapng"))) {
        copy(job[0] == 'p', strtoull(words[4], NULL, 10), strtoull(words[5], NULL, 10));
    } else if (count == 5 && !strcmp(job, "merge")) {
        begin(&second, words[4]);
        merge();
    } else if (count == 4 && !strcmp(job, "web")) {
        put_file_header();
        while (next(&first))
            if (is_web(&first))
                put_record(&first);
    } else {
        stop("what to do?");
    }
    flush();
    return 0;
}
