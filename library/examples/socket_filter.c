/* Prints the lengths of the next packets of a network interface that match, which Linux filters: a
 * packet socket with capkit's program (SO_ATTACH_FILTER). It needs the right to open such sockets
 * (CAP_NET_RAW).
 *
 * The statuses are those of capkit: 1 after a fault, such as a missing right, and 2 if the
 * command line or the expression is refused. */
#define _DEFAULT_SOURCE
#include "example.h"
#include <arpa/inet.h>
#include <linux/filter.h>
#include <linux/if_packet.h>
#include <net/ethernet.h>
#include <net/if.h>
#include <sys/socket.h>

/* The program of an expression, which Linux runs as capkit_run does. */
static struct sock_fprog program_of(const char *expression)
{
    struct sock_fprog program;
    size_t room, number;
    uint32_t status;
    struct capkit_insn *insns = room_of("socket_filter", expression, &room);
    if (!insns)
        exit(2);
    status =
        capkit_compile(expression, strlen(expression), CAPKIT_LINK_ETHERNET, insns, room, &number);
    if (status) {
        report_status("socket_filter", status, number);
        exit(2);
    }
    if (!(capkit_portability(insns, number) & CAPKIT_ON_LINUX)) {
        fprintf(stderr, "socket_filter: %s: Linux may judge some packets otherwise\n", expression);
        exit(2);
    }
    /* The two structs have one layout. */
    program.len = number;
    program.filter = (struct sock_filter *)insns;
    return program;
}

/* Binds the socket to an interface, for packets of all protocols. */
static int listen_on(int socket, const char *interface)
{
    struct sockaddr_ll address = {0};
    address.sll_family = AF_PACKET;
    address.sll_protocol = htons(ETH_P_ALL);
    address.sll_ifindex = if_nametoindex(interface);
    if (address.sll_ifindex == 0)
        return -1;
    return bind(socket, (struct sockaddr *)&address, sizeof address);
}

int main(int argc, char **argv)
{
    static uint8_t packet[65536];
    struct sock_fprog program;
    int file, left;
    ssize_t length;
    if (argc != 4)
        return fprintf(stderr, "usage: socket_filter EXPRESSION INTERFACE COUNT\n"), 2;
    program = program_of(argv[1]);
    /* Of protocol 0 it gets no packet before it is bound, and then the filter is attached. */
    file = socket(AF_PACKET, SOCK_RAW, 0);
    if (file < 0 || setsockopt(file, SOL_SOCKET, SO_ATTACH_FILTER, &program, sizeof program) < 0 ||
        listen_on(file, argv[2]) < 0)
        return perror("socket_filter"), 1;
    free(program.filter); /* Linux has a copy */
    for (left = atoi(argv[3]); left > 0; left--) {
        if ((length = recv(file, packet, sizeof packet, 0)) < 0)
            return perror("socket_filter"), 1;
        if (printf("%zd bytes\n", length) < 0 || fflush(stdout))
            return perror("socket_filter"), 1;
    }
    close(file);
    return 0;
}
