/* usage: libpcap read|match|pcap CAPTURE [EXPRESSION | OUTPUT]    see speed.py; prints what compiling took, too */
#include <pcap/pcap.h>
#include <stdio.h>
#include <string.h>
#include <time.h>

int main(int argc, char **argv)
{
    char why[PCAP_ERRBUF_SIZE];
    pcap_t *in = pcap_open_offline(argv[2], why);
    pcap_dumper_t *out = NULL;
    struct pcap_pkthdr *header;
    struct bpf_program program;
    const u_char *bytes;
    double compiled = 0;
    size_t packets = 0;
    if (!in)
        return 1;
    if (strcmp(argv[1], "match") == 0) {
        clock_t begin = clock();
        if (pcap_compile(in, &program, argv[3], 1, PCAP_NETMASK_UNKNOWN) != 0 || pcap_setfilter(in, &program) != 0)
            return 2;
        compiled = (double)(clock() - begin) / CLOCKS_PER_SEC;
    } else if (argc == 4 && !(out = pcap_dump_open(in, argv[3])))
        return 1;
    for (; pcap_next_ex(in, &header, &bytes) == 1; packets++)
        if (out)
            pcap_dump((u_char *)out, header, bytes);
    if (out)
        pcap_dump_close(out);
    printf("%zu %f\n", packets, compiled);
    return 0;
}
