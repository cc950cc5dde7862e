/* Compares libcapkit with libpcap on the Ethernet packets of captures: the least CPU time of
 * ROUNDS rounds, in each of which every call is measured in turn. usage: bench ROUNDS EXPRESSIONS
 * FILE..
 *
 * Compilations and runs are measured on the packets of all files in memory; reads of the next match
 * on the first file, which both read as it lies on the disk. The tables are as docs/LIBRARY.md has them. */
#include "../examples/example.h"
#include "captures.h"
#include <math.h>
#include <stdio.h>
#include <time.h>

static struct capkit_insn own[CAPKIT_MOST_INSNS];
static size_t number;
static struct bpf_program theirs;
static pcap_t *dead;
static volatile size_t chosen;

static double now(void)
{
    struct timespec t;
    clock_gettime(CLOCK_PROCESS_CPUTIME_ID, &t);
    return t.tv_sec * 1e9 + t.tv_nsec;
}

static int compile(const char *text)
{
    return capkit_compile(text, strlen(text), sets[0].link, own, CAPKIT_MOST_INSNS, &number) == 0;
}

static int compile_theirs(const char *text)
{
    return pcap_compile(dead, &theirs, text, 1, PCAP_NETMASK_UNKNOWN) == 0;
}

#define PASS(NAME, CALL)                                                                           \
    static void NAME(void)                                                                         \
    {                                                                                              \
        size_t i, n = 0;                                                                           \
        size_t steps;                                                                              \
        (void)steps;                                                                               \
        for (i = 0; i < sets[0].count; i++) {                                                      \
            const struct packet *p = &sets[0].packets[i];                                          \
            n += (CALL) != 0;                                                                      \
        }                                                                                          \
        chosen = n;                                                                                \
    }

PASS(run, capkit_run_unchecked(own, number, p->bytes, p->captured, p->original, &steps))
PASS(filter_own, bpf_filter((struct bpf_insn *)own, p->bytes, p->original, p->captured))
PASS(filter_theirs, bpf_filter(theirs.bf_insns, p->bytes, p->original, p->captured))

static void least(double *best, double start)
{
    double t = now() - start;
    if (t < *best)
        *best = t;
}

/* The times of an expression: compile, pcap_compile, and each kind of pass over the packets. */
static int measure(const char *text, int rounds, double best[5])
{
    void (*passes[3])(void) = {run, filter_own, filter_theirs};
    int r, k;
    for (k = 0; k < 5; k++)
        best[k] = 1e18;
    for (r = 0; r < 5 * rounds; r++) {
        double t = now();
        if (!compile(text))
            return 0;
        least(&best[0], t);
        t = now();
        if (!compile_theirs(text))
            return 0;
        least(&best[1], t);
        pcap_freecode(&theirs);
    }
    if (!compile_theirs(text))
        return 0;
    for (r = 0; r < 3 * rounds; r++) {
        double t = now();
        k = r % 3;
        passes[k]();
        least(&best[2 + k], t);
    }
    return 1;
}

static void table(int rounds, FILE *expressions)
{
    static char text[1 << 17];
    double sum[2] = {0, 0}, worst[2] = {0, 0}, best[5];
    int k, count = 0;
    printf("| | compile, us | | run, ns per packet | | |\n|---|---|---|---|---|---|\n"
           "| expression | capkit | `pcap_compile` | `capkit_run_unchecked` | `bpf_filter` | "
           "`bpf_filter`, libpcap's program |\n");
    while (next_expression(expressions, text, sizeof text)) {
        if (!measure(text, rounds, best)) {
            printf("refused: %s\n", text);
            continue;
        }
        double per = sets[0].count, ratios[2] = {best[0] / best[1], best[2] / best[3]};
        printf("| `%s` | %.1f | %.1f | %.1f | %.1f | %.1f |\n", text, best[0] / 1e3, best[1] / 1e3,
               best[2] / per, best[3] / per, best[4] / per);
        fflush(stdout);
        pcap_freecode(&theirs);
        for (k = 0; k < 2; k++) {
            sum[k] += log(ratios[k]);
            worst[k] = ratios[k] > worst[k] ? ratios[k] : worst[k];
        }
        count++;
    }
    printf("\nOn all %d, a run takes %.2f of the time of `bpf_filter` on the same program (geometric mean; %.2f "
           "at most), and a compilation %.2f of the\ntime of `pcap_compile` (%.2f at most). "
           "%zu packets, %d rounds.\n\n",
           count, exp(sum[1] / count), worst[1], exp(sum[0] / count), worst[0], sets[0].count, rounds);
}

/* ---- the next match of a file */

static const char *capture;

/* The next packet that matches, by one call or by two. */
static int found(int by_two, struct capkit_reader *reader, struct capkit_interface *interfaces,
                 const uint8_t *buffer, size_t size, struct capkit_packet *p)
{
    if (!by_two)
        return capkit_next_match(reader, interfaces, CAPKIT_MOST_INTERFACES, buffer, size, own, number,
                                 CAPKIT_LINK_ETHERNET, p) == CAPKIT_PACKET;
    while (capkit_next(reader, interfaces, CAPKIT_MOST_INTERFACES, buffer, size, p) == CAPKIT_PACKET)
        if (capkit_matches(own, number, buffer + p->at, p->captured, p->original))
            return 1;
    return 0;
}

static void read_matches(int by_two)
{
    static uint8_t buffer[2 * CAPKIT_MOST_UNIT];
    static struct capkit_interface interfaces[CAPKIT_MOST_INTERFACES];
    struct capkit_reader reader = {0};
    struct capkit_packet p;
    size_t size = 0, n = 0;
    int file = open(capture, O_RDONLY);
    while (read_on(file, &reader, buffer, sizeof buffer, &size) > 0)
        while (found(by_two, &reader, interfaces, buffer, size, &p))
            n++;
    close(file);
    chosen = n;
}

static void next_match(void)
{
    read_matches(0);
}

static void next_and_matches(void)
{
    read_matches(1);
}

static void next_theirs(void)
{
    char why[PCAP_ERRBUF_SIZE];
    pcap_t *p = pcap_open_offline(capture, why);
    struct pcap_pkthdr *h;
    const u_char *bytes;
    size_t n = 0;
    pcap_setfilter(p, &theirs);
    while (pcap_next_ex(p, &h, &bytes) == 1)
        n++;
    pcap_close(p);
    chosen = n;
}

/* An expression of 300 hosts, no two of which are neighbours, after "ip or": a program of which the
 * run of an IP packet executes two instructions. */
static const char *hosts(void)
{
    static char text[300 * 24];
    size_t i, at = sprintf(text, "ip or host 10.0.0.1");
    for (i = 1; i < 300; i++) {
        uint32_t a = i * 2654435761u;
        at += sprintf(text + at, " or %u.%u.%u.%u", 1 + a % 223, a >> 8 & 255, a >> 16 & 255, a >> 24);
    }
    return text;
}

static void next_matches(int rounds)
{
    void (*reads[3])(void) = {next_match, next_and_matches, next_theirs};
    const char *texts[] = {"ip", "tcp port 80", hosts()};
    const char *names[] = {"`ip`", "`tcp port 80`", "`ip or` 300 hosts"};
    size_t i, matches = 0;
    int r, k;
    printf("| next match, ns per packet | instructions | matches | `capkit_next_match` | `capkit_next` and "
           "`capkit_matches` | libpcap |\n|---|---|---|---|---|---|\n");
    for (i = 0; i < 3; i++) {
        double best[3] = {1e18, 1e18, 1e18}, per = sets[0].count;
        if (!compile(texts[i]) || !compile_theirs(texts[i]))
            continue;
        for (r = 0; r < 3 * rounds; r++) {
            double t = now();
            k = r % 3;
            reads[k]();
            least(&best[k], t);
            if (r > 0 && matches != chosen)
                printf("other matches: %zu, %zu\n", matches, chosen);
            matches = chosen;
        }
        printf("| %s | %zu | %zu of %zu | %.0f | %.0f | %.0f |\n", names[i], number, matches,
               sets[0].count, best[0] / per, best[1] / per, best[2] / per);
        pcap_freecode(&theirs);
    }
    printf("\n");
}

int main(int argc, char **argv)
{
    FILE *expressions = argc > 3 ? fopen(argv[2], "r") : NULL;
    int i;
    for (i = 3; i < argc; i++)
        read_file(argv[i]);
    if (!expressions || !sets[0].count)
        return 1;
    dead = pcap_open_dead(sets[0].dlt, 262144);
    table(atoi(argv[1]), expressions);
    capture = argv[3];
    next_matches(atoi(argv[1]));
    return 0;
}
