/* Packets by link type, as libpcap reads them, and expressions. */
#include <capkit.h>
#include <pcap/pcap.h>
#include <stdio.h>
#include <stdlib.h>
#include <string.h>

struct packet {
    const uint8_t *bytes;
    uint32_t captured, original;
};

struct set {
    int dlt, link;
    struct packet *packets;
    size_t count, room;
};

static struct set sets[3] = {{DLT_EN10MB, CAPKIT_LINK_ETHERNET, 0, 0, 0},
                             {DLT_RAW, CAPKIT_LINK_RAW, 0, 0, 0},
                             {DLT_LINUX_SLL, CAPKIT_LINK_COOKED, 0, 0, 0}};

static void keep(u_char *user, const struct pcap_pkthdr *h, const u_char *bytes)
{
    struct set *s = (struct set *)user;
    uint8_t *copy = malloc(h->caplen ? h->caplen : 1);
    memcpy(copy, bytes, h->caplen);
    if (s->count == s->room)
        s->packets =
            realloc(s->packets, (s->room = s->room ? 2 * s->room : 1024) * sizeof *s->packets);
    s->packets[s->count++] = (struct packet){copy, h->caplen, h->len};
}

static size_t read_file(const char *name)
{
    char why[PCAP_ERRBUF_SIZE];
    pcap_t *p = pcap_open_offline(name, why);
    size_t i, read = 0;
    if (!p)
        return 0;
    for (i = 0; i < 3; i++)
        if (pcap_datalink(p) == sets[i].dlt) {
            pcap_loop(p, -1, keep, (u_char *)&sets[i]);
            read = 1;
        }
    pcap_close(p);
    return read;
}

/* The next expression of a file, of which each line is one; 0 at its end. */
static int next_expression(FILE *file, char *text, size_t room)
{
    if (!fgets(text, room, file))
        return 0;
    text[strcspn(text, "\n")] = 0;
    return 1;
}
