/* Holds what capkit_explain writes against capkit_compile and libpcap. usage: meanings COUNT FILE..
 *
 * Programs and meanings of the expressions of standard input, up to COUNT that aren't refused, are
 * put into buffers of any room. A meaning is its own meaning, and has the same program. For
 * the first 1000 that libpcap takes, its programs of the expression and of its meaning are run on
 * the packets, whole and cut. Its optimizer is off, since it changes what some expressions say. An
 * expression after a blank may have another meaning in libpcap.
 */
#include "captures.h"
#include "guard.h"
#include <stdio.h>

enum { BY_LIBPCAP = 1000 };

static size_t expressions, refused, deep, wrong;
static uint8_t *first, *second, *third;

static uint16_t some_link(void)
{
    static const uint16_t links[] = {CAPKIT_LINK_ETHERNET, CAPKIT_LINK_RAW, CAPKIT_LINK_COOKED};
    return links[rnd() % 3];
}

/* Compiles an expression into a buffer of any room, given what capkit_bound says of it. */
static void compile_in_room(const char *source, size_t size, uint32_t status, size_t bound)
{
    size_t room = rnd() % 64, number, index;
    struct capkit_insn *insns = place(second, room * sizeof *insns);
    uint32_t compiled = capkit_compile(source, size, some_link(), insns, room, &number);
    char name[64];
    if (compiled == CAPKIT_OK)
        wrong += status || number > room || number > bound || capkit_check(insns, number, &index);
    else if (compiled == CAPKIT_NO_ROOM)
        wrong += status || number <= room || number > bound;
    else
        wrong += compiled != status || number != bound || !capkit_text(status, name, sizeof name);
}

/* What an expression means, put into buffers of any room; null if it is refused. */
static const char *meaning_of(const char *source, size_t size, size_t *number)
{
    static char kept[1 << 20];
    size_t bound, room = rnd() % 64, again;
    char *buffer = memset(place(first, room), '?', room);
    uint32_t status = capkit_explain(source, size, buffer, room, number);
    wrong += capkit_bound(source, size, &bound) != status || (status && *number != bound);
    compile_in_room(source, size, status, bound);
    if (status) {
        refused++;
        wrong += room && memchr(buffer, '?', room) != buffer;
        return NULL;
    }
    room = *number + 1;
    buffer = place(first, room);
    wrong += capkit_explain(source, size, buffer, room, &again) || again != *number ||
             strlen(buffer) != *number;
    memcpy(kept, buffer, room);
    room = rnd() % room;
    buffer = place(first, room);
    wrong += capkit_explain(source, size, buffer, room, &again) || again != *number ||
             (room && (memcmp(buffer, kept, room - 1) || buffer[room - 1]));
    expressions++;
    return kept;
}

/* What an expression means, read back; null if it is refused, or nests too deep. */
static const char *read_back(const char *source)
{
    static struct capkit_insn ours[CAPKIT_MOST_INSNS], theirs[CAPKIT_MOST_INSNS];
    size_t size = strlen(source), number, again, one, other;
    const char *text = memcpy(place(third, size), source, size);
    const char *meaning = meaning_of(text, size, &number);
    uint16_t link = some_link();
    uint32_t status;
    char *buffer;
    if (!meaning)
        return NULL;
    buffer = place(second, number + 1);
    status = capkit_explain(meaning, number, buffer, number + 1, &again);
    if (status == CAPKIT_TOO_LONG || status == CAPKIT_NESTED_TOO_DEEP) {
        deep++;
        return NULL;
    }
    if (status || again != number || memcmp(buffer, meaning, number + 1)) {
        wrong++;
        printf("means something else, read back: %s\n", source);
    }
    if (capkit_compile(text, size, link, ours, CAPKIT_MOST_INSNS, &one) ||
        capkit_compile(meaning, number, link, theirs, CAPKIT_MOST_INSNS, &other) || one != other ||
        memcmp(ours, theirs, one * sizeof *ours)) {
        wrong++;
        printf("has another program, read back: %s\n", source);
    }
    return meaning;
}

static size_t held, judged, differ, unread, otherwise;

/* libpcap's programs of an expression and of its meaning keep the same packets. */
static void hold(const char *source, const char *meaning)
{
    size_t i, j, here = 0, links = 0;
    for (i = 0; i < 3; i++) {
        const struct set *s = &sets[i];
        struct bpf_program e, m;
        pcap_t *dead = pcap_open_dead(s->dlt, 262144);
        int has_e = !pcap_compile(dead, &e, source, 0, PCAP_NETMASK_UNKNOWN);
        int has_m = !pcap_compile(dead, &m, meaning, 0, PCAP_NETMASK_UNKNOWN);
        for (j = 0; has_e && has_m && j < s->count; j++) {
            const struct packet *p = &s->packets[j];
            judged++;
            here += !bpf_filter(e.bf_insns, p->bytes, p->original, p->captured) !=
                    !bpf_filter(m.bf_insns, p->bytes, p->original, p->captured);
        }
        links += has_e && has_m;
        if (has_e && !has_m) {
            unread++;
            printf("libpcap refuses the meaning: %s: %s\n", source, pcap_geterr(dead));
        }
        if (has_e)
            pcap_freecode(&e);
        if (has_m)
            pcap_freecode(&m);
        pcap_close(dead);
    }
    held += links > 0;
    if (here && source[0] == ' ') {
        otherwise++;
        printf("libpcap reads otherwise: %s\n", source);
    } else if (here) {
        differ += here;
        printf("libpcap's programs differ on %zu packets: %s\n  %s\n", here, source, meaning);
    }
}

/* Each packet again, cut. */
static void cut_packets(struct set *s)
{
    size_t j, count = s->count;
    for (j = 0; j < count; j++) {
        struct packet p = s->packets[j];
        struct pcap_pkthdr header = {.len = p.original};
        header.caplen = p.captured ? rnd() % p.captured : 0;
        keep((u_char *)s, &header, p.bytes);
    }
}

int main(int argc, char **argv)
{
    static char text[1 << 17];
    size_t most = argc > 2 ? atol(argv[1]) : 0;
    const char *meaning;
    int i;
    seed = 0x9e3779b97f4a7c15u;
    first = guarded();
    second = guarded();
    third = guarded();
    for (i = 2; i < argc; i++)
        read_file(argv[i]);
    for (i = 0; i < 3; i++)
        cut_packets(&sets[i]);
    while (expressions < most && next_expression(stdin, text, sizeof text))
        if ((meaning = read_back(text)) && held < BY_LIBPCAP)
            hold(text, meaning);
    printf(
        "%zu expressions mean the same, and are the same programs, read back; %zu nest too deep; "
        "%zu refused\n",
        expressions, deep, refused);
    printf("packets: Ethernet %zu, raw %zu, cooked %zu\n", sets[0].count, sets[1].count,
           sets[2].count);
    printf("%zu by libpcap, %zu judgements: %zu differ; libpcap refuses %zu meanings; it reads %zu "
           "expressions otherwise\n",
           held, judged, differ, unread, otherwise);
    printf("broken promises: %zu\n", wrong);
    return expressions < most || wrong || differ || unread;
}
