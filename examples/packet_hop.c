/* From a packet's bytes to its stack to its next hop: reads one raw IPv4 or IPv6 packet and says where a gateway sends it.
 *
 * Usage: packet_hop NETWORK NODE DESTINATION < packet
 *
 * NETWORK is a file as network_file.h says, whose first two protocols are IPv4 and IPv6. Two lines are printed: the packet's stack of headers from
 * the bottom up with the bytes that follow them, and what the daemon would say of it; or one line, why the packet is refused.
 * Exit status: 0 where the packet is read, 1 where it is refused or the network file is wrong, 2 where the program was called wrongly.
 */
#include <stdio.h>
#include <string.h>

#include "next_hop.h"

enum { LONGEST_PACKET = 40 + 65535 };

static struct network net;
static struct table table;
static uint8_t packet[LONGEST_PACKET];

static const char *meaning(uint32_t refusal)
{
    switch (refusal) {
    case BANNOGWY_SHORT: return "too short";
    case BANNOGWY_WRONG_VERSION: return "wrong version";
    case BANNOGWY_HEADER: return "bad header length";
    case BANNOGWY_BEYOND: return "longer than what holds it";
    case BANNOGWY_CHECKSUM: return "bad checksum";
    case BANNOGWY_FRAGMENT: return "a fragment";
    case BANNOGWY_HIGHER: return "more headers than the network's height";
    default: return "no room";
    }
}

/* Reads the packet's stack and prints it; answers its height, or 0 where it is refused. */
static size_t read_packet(size_t length, uint8_t stack[MOST_HEIGHT])
{
    uint64_t told[4], answer = bannogwy_read_stack(net.h, packet, length, stack, MOST_HEIGHT, told, 4), i;
    if (BANNOGWY_IS_REFUSED(answer)) {
        printf("refused %u (%s): header %lu from outside, at byte %lu\n", (unsigned)BANNOGWY_REFUSAL(answer), meaning(BANNOGWY_REFUSAL(answer)),
               (unsigned long)told[0], (unsigned long)told[1]);
        return 0;
    }
    printf("stack ");
    for (i = 0; i < told[0]; i++) {
        printf("%s%s", i == 0 ? "" : "/", net.protocols[stack[i]]);
    }
    printf(", then %lu bytes from byte %lu\n", (unsigned long)(told[3] - told[2]), (unsigned long)told[2]);
    return (size_t)told[0];
}

int main(int argc, char **argv)
{
    uint8_t stack[MOST_HEIGHT];
    size_t node, destination, height;
    struct settling done;
    if (argc != 4) {
        fprintf(stderr, "usage: packet_hop NETWORK NODE DESTINATION < packet\n");
        return 2;
    }
    if (read_network(argv[1], &net) != 0 || settle(&net, &table, &done) != 0) {
        return 1;
    }
    if (net.p < 2 || strcmp(net.protocols[0], "IPv4") != 0 || strcmp(net.protocols[1], "IPv6") != 0) {
        fprintf(stderr, "%s: its first two protocols are not IPv4 and IPv6\n", argv[1]);
        return 1;
    }
    if (!node_named(&net, argv[2], &node) || !node_named(&net, argv[3], &destination)) {
        fprintf(stderr, "packet_hop: no such node\n");
        return 2;
    }
    height = read_packet(fread(packet, 1, sizeof packet, stdin), stack);
    if (height == 0) {
        return 1;
    }
    print_next_hop(&net, &table, node, destination, stack, height);
    return 0;
}
