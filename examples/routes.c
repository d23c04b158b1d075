/* Settles a network of depots and prints, for a person, the least costs between all of them and the route of one packet hop by hop.
 *
 * Usage: routes NETWORK [FROM TO [STACK]]
 *
 * NETWORK is a file as network_file.h says, STACK the packet's headers. Without FROM and TO the pair is chosen whose packet goes under the highest
 * stack, and of these the dearest; without STACK the packet starts with one header that FROM speaks, the cheapest.
 *
 * Exit status: 0 where the answers are printed (that there is no route is one), 1 where NETWORK is wrong or the library's answers disagree with
 * each other, 2 where the other arguments are wrong.
 */
#include <stdio.h>
#include <string.h>

#include "cost_matrix.h"
#include "journey.h"

static struct network net;
static struct table table;
static struct matrix matrix;
static struct journey journey, candidate;

/* Whether the word names a depot; says so where it does not. */
static int depot(const char *word, size_t *node)
{
    size_t i;
    if (node_named(&net, word, node) && *node < net.n) {
        return 1;
    }
    fprintf(stderr, "routes: no depot has the name %s; there are", word);
    for (i = 0; i < net.n; i++) {
        fprintf(stderr, " %s", net.nodes[i]);
    }
    fprintf(stderr, "\n");
    return 0;
}

/* The packet that the arguments name, of height 0 where they name no stack; answers 0 where one is wrong. */
static int read_packet(int argc, char **argv, struct packet *packet)
{
    const char *fault = NULL;
    packet->height = 0;
    if (!depot(argv[2], &packet->node) || !depot(argv[3], &packet->destination)) {
        return 0;
    }
    if (packet->node == packet->destination) {
        fprintf(stderr, "routes: %s is FROM and TO alike; a route is between two depots\n", argv[2]);
        return 0;
    }
    if (argc == 5) {
        fault = stack_named(&net, argv[4], packet->stack, net.h, &packet->height);
    }
    if (fault != NULL) {
        fprintf(stderr, "routes: STACK is wrong: %s\n", fault);
    }
    return fault == NULL;
}

/* The cheapest packet with one header from a depot to another; answers 0 where there is no route. */
static int cheapest(size_t from, size_t to, struct packet *packet)
{
    const struct start *start = &matrix.starts[from][to];
    packet->node = from;
    packet->destination = to;
    packet->stack[0] = (uint8_t)start->protocol;
    packet->height = 1;
    return start->cost != 0;
}

/* The packet of the pair that is shown where none is named; answers 0 where no pair has a route. */
static int choose(struct packet *chosen)
{
    struct packet packet;
    size_t pair, highest = 0;
    uint32_t dearest = 0;
    for (pair = 0; pair < net.n * net.n; pair++) {
        uint32_t cost = matrix.starts[pair / net.n][pair % net.n].cost;
        if (!cheapest(pair / net.n, pair % net.n, &packet) || travel(&net, &table, &packet, &candidate) != 0) {
            continue;
        }
        if (candidate.highest > highest || (candidate.highest == highest && cost > dearest)) {
            *chosen = packet;
            highest = candidate.highest;
            dearest = cost;
        }
    }
    return highest > 0;
}

static void print_no_route(const struct packet *packet, const char *stack)
{
    printf("No route from %s to %s ", net.nodes[packet->node], net.nodes[packet->destination]);
    if (stack != NULL) {
        printf("for a packet with the stack %s", stack);
    } else {
        printf("for a packet with one header that %s speaks", net.nodes[packet->node]);
    }
    printf(", with stacks of at most %lu headers.\n", (unsigned long)net.h);
}

/* The route of the packet, or that there is none; answers the exit status. */
static int show_route(const struct packet *packet, const char *stack)
{
    char text[STACK_ROOM];
    const char *fault;
    uint32_t refusal = travel(&net, &table, packet, &journey);
    if (refusal == BANNOGWY_NO_ROUTE && journey.hop_count == 0) {
        print_no_route(packet, stack);
        return 0;
    }
    fault = refusal == 0 ? disagreement(&net, &table, &journey) : "a packet that had a route is refused on its way";
    if (fault != NULL) {
        fprintf(stderr, "routes: the library's answers disagree: %s\n", fault);
        return 1;
    }
    printf("The route of a packet %s from %s to %s:\n\n",
           stack_text(&net, bannogwy_number_of(net.p, net.h, packet->stack, packet->height), text), net.nodes[packet->node],
           net.nodes[packet->destination]);
    print_journey(&net, &journey);
    printf("\nThe library's carry agrees: %lu hops, %lu spent. No route is cheaper.\n", (unsigned long)journey.hop_count,
           (unsigned long)journey.hops[0].promised);
    return 0;
}

/* Settles the table and says so; answers whether it is quiet. */
static int settled(const char *file_name)
{
    struct settling done;
    uint32_t refusal = settle(&net, &table, &done);
    uint64_t waiting = bannogwy_count(LENT_NETWORK(&net), LENT_TABLE(&net, &table));
    if (refusal != 0 || waiting != 0) {
        fprintf(stderr, "%s: not settled, refusal %lu\n", file_name, (unsigned long)refusal);
        return 0;
    }
    printf("%s: depots %lu, links %lu, functions %lu. Settled: deliveries %lu, messages at first %lu, now 0.\n", file_name, (unsigned long)net.n,
           (unsigned long)net.link_count, (unsigned long)net.function_count, (unsigned long)done.deliveries, (unsigned long)done.first_messages);
    return 1;
}

int main(int argc, char **argv)
{
    struct packet packet;
    if (argc != 2 && argc != 4 && argc != 5) {
        fprintf(stderr, "usage: routes NETWORK [FROM TO [STACK]]\n");
        return 2;
    }
    if (read_network(argv[1], &net) != 0) {
        return 1;
    }
    if (argc > 2 && !read_packet(argc, argv, &packet)) {
        return 2;
    }
    if (!settled(argv[1])) {
        return 1;
    }
    fill_matrix(&net, &table, &matrix);
    print_matrix(&net, &matrix);
    printf("\n");
    if (argc == 2 && !choose(&packet)) {
        printf("No depot has a route to another.\n");
        return 0;
    }
    if (argc == 2) {
        printf("No pair was named; the packet of this one carries the most headers on its way.\n");
    }
    if (packet.height == 0 && !cheapest(packet.node, packet.destination, &packet)) {
        print_no_route(&packet, NULL);
        return 0;
    }
    return show_route(&packet, argc == 5 ? argv[4] : NULL);
}
