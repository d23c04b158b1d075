/* A small forwarding daemon: loads a network, settles its routing table, and then says the next hop of each packet on its standard input.
 *
 * Usage: daemon NETWORK < packets
 *
 * NETWORK is a file as network_file.h says. A packet is a line `node destination stack`, for example `0 3 a`. The answer is one line:
 *     forward to 1, function a>a, stack a, cost 12
 *     delivered
 *     refused 6 (no route)
 *     line 4: .. what is wrong with the line ..
 *
 * Exit status: 0 at the end of the input, 1 where the network file is wrong, 2 where the daemon was called wrongly.
 */
#include <stdio.h>

#include "next_hop.h"
#include "text_lines.h"

enum { PACKET_ROOM = 256 };

static struct network net;
static struct table table;

/* One line of the input; answers what is wrong with it, or NULL. Whether a node's number and the height are in range is for lookup to say. */
static const char *packet(char *at)
{
    uint8_t stack[PACKET_ROOM];
    size_t node, destination, height;
    const char *headers, *fault;
    if (!node_named(&net, next_word(&at), &node) || !node_named(&net, next_word(&at), &destination)) {
        return net.numbered ? "a packet is `node destination stack`, nodes as numbers" : "a packet is `node destination stack`: no such node";
    }
    headers = next_word(&at);
    if (headers == NULL || next_word(&at) != NULL) {
        return "a packet is `node destination stack`, three words";
    }
    fault = stack_named(&net, headers, stack, sizeof stack, &height);
    if (fault == NULL) {
        print_next_hop(&net, &table, node, destination, stack, height);
    }
    return fault;
}

int main(int argc, char **argv)
{
    char line[PACKET_ROOM];
    const char *fault;
    unsigned long at = 0;
    struct settling done;
    uint32_t refusal;
    if (argc != 2) {
        fprintf(stderr, "usage: daemon NETWORK < packets\n");
        return 2;
    }
    if (read_network(argv[1], &net) != 0) {
        return 1;
    }
    refusal = settle(&net, &table, &done);
    if (refusal != 0) {
        fprintf(stderr, "%s: refused %u\n", argv[1], (unsigned)refusal);
        return 1;
    }
    while (next_line(stdin, line, sizeof line, &fault)) {
        fault = fault == NULL ? packet(line) : fault;
        at += 1;
        if (fault != NULL) {
            printf("line %lu: %s\n", at, fault);
        }
        fflush(stdout);
    }
    return 0;
}
