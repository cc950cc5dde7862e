/* Counts the packets of a capture that match, by libpcap: capkit's program in a struct bpf_program,
 * which pcap_setfilter takes. It is the same for a live capture, opened by pcap_open_live; there
 * Linux runs the program, if capkit_portability has CAPKIT_ON_LINUX.
 *
 * The statuses are those of capkit: 1 after a fault, and 2 if the command line or the expression
 * is refused. */
#define _DEFAULT_SOURCE
#include "example.h"
#include <pcap/pcap.h>

/* Link types as captures have them; libpcap calls raw IP 12. */
static uint16_t link_type_of(pcap_t *capture)
{
    int type = pcap_datalink(capture);
    return type == DLT_RAW ? CAPKIT_LINK_RAW : type;
}

/* Compiles an expression for a capture, into instructions that have the room for it. The two
 * structs of an instruction have one layout. */
static int compile(const char *expression, struct capkit_insn *insns, size_t room, pcap_t *capture,
                   struct bpf_program *program)
{
    size_t number;
    uint32_t status =
        capkit_compile(expression, strlen(expression), link_type_of(capture), insns, room, &number);
    if (status)
        return report_status("pcap_filter", status, number), 0;
    if (!(capkit_portability(insns, number) & CAPKIT_ON_LIBPCAP))
        fprintf(stderr, "pcap_filter: libpcap may judge some packets otherwise\n");
    program->bf_len = number;
    program->bf_insns = (struct bpf_insn *)insns;
    return 1;
}

/* Counts the packets that libpcap gives through a filter, and prints what ends them but their end.
 */
static int count(pcap_t *capture, struct bpf_program *program)
{
    struct pcap_pkthdr *header;
    const u_char *bytes;
    unsigned long matching = 0;
    int result = pcap_setfilter(capture, program);
    while (result >= 0 && (result = pcap_next_ex(capture, &header, &bytes)) == 1)
        matching++;
    printf("%lu packets match\n", matching);
    if (result == PCAP_ERROR_BREAK) /* the end of the file */
        return fflush(stdout) ? perror("pcap_filter"), 1 : 0;
    pcap_perror(capture, "pcap_filter");
    return 1;
}

int main(int argc, char **argv)
{
    char why[PCAP_ERRBUF_SIZE];
    struct bpf_program program;
    struct capkit_insn *insns;
    size_t room;
    pcap_t *capture;
    int status = 1;
    if (argc != 3)
        return fprintf(stderr, "usage: pcap_filter EXPRESSION FILE\n"), 2;
    if (!(insns = room_of("pcap_filter", argv[1], &room)))
        return 2;
    if (!(capture = pcap_open_offline(argv[2], why)))
        fprintf(stderr, "pcap_filter: %s\n", why);
    else if (compile(argv[1], insns, room, capture, &program))
        status = count(capture, &program);
    if (capture)
        pcap_close(capture);
    free(insns);
    return status;
}
