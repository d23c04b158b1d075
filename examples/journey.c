/* The journey of one packet: its hops by lookups, a check of them, and their print. */
#include "journey.h"

#include <stdio.h>
#include <string.h>

enum { CONVERT = 0, WRAP = 1, DOES_ROOM = 128 };

/* The hop that a lookup at this node answered. */
static struct hop hop_of(const struct network *net, size_t node, uint64_t answer)
{
    struct hop hop = {0, 0, 0, 0, 0, 0, 0, 0};
    size_t function = BANNOGWY_FUNCTION(answer);
    hop.node = node;
    hop.next = BANNOGWY_NEXT_NODE(answer);
    hop.function = BANNOGWY_FUNCTION(answer);
    hop.link = net->links[node * net->n + hop.next];
    hop.price = net->functions[function_place(net, node, BANNOGWY_KIND(function), BANNOGWY_FROM(function), BANNOGWY_TO(function))] - 1u;
    hop.promised = BANNOGWY_COST(answer);
    hop.number = BANNOGWY_NUMBER(answer);
    return hop;
}

/* The tunnel that this hop begins or ends; at each height that is wrapped, `open` has the tunnel's number. */
static size_t tunnel_of(const struct hop *hop, size_t height, size_t *open, size_t *tunnels)
{
    if (BANNOGWY_KIND(hop->function) == CONVERT) {
        return 0;
    }
    if (BANNOGWY_KIND(hop->function) == WRAP) {
        *tunnels += 1;
        open[height] = *tunnels;
        return *tunnels;
    }
    return open[height - 1];
}

uint32_t travel(const struct network *net, const struct table *table, const struct packet *packet, struct journey *journey)
{
    struct packet now = *packet;
    size_t open[MOST_HEIGHT + 1] = {0}, tunnels = 0;
    uint64_t answer = bannogwy_lookup(LENT_NETWORK(net), LENT_TABLE(net, table), now.node, now.destination, now.stack, now.height);
    journey->packet = *packet;
    journey->highest = packet->height;
    for (journey->hop_count = 0; BANNOGWY_IS_FOUND(answer); journey->hop_count++) {
        struct hop *hop = &journey->hops[journey->hop_count];
        if (journey->hop_count == MOST_HOPS) {
            return BANNOGWY_LIMIT;
        }
        *hop = hop_of(net, now.node, answer);
        hop->tunnel = tunnel_of(hop, now.height, open, &tunnels);
        now.node = hop->next;
        now.height = (size_t)bannogwy_stack_of(net->p, net->h, hop->number, now.stack, sizeof now.stack);
        journey->highest = now.height > journey->highest ? now.height : journey->highest;
        answer = bannogwy_lookup(LENT_NETWORK(net), LENT_TABLE(net, table), now.node, now.destination, now.stack, now.height);
    }
    return BANNOGWY_REFUSAL(answer);
}

const char *disagreement(const struct network *net, const struct table *table, const struct journey *journey)
{
    const struct packet *packet = &journey->packet;
    uint64_t carried[4], left = 0, answer;
    size_t i;
    for (i = journey->hop_count; i-- > 0;) {
        left += (uint64_t)journey->hops[i].link + journey->hops[i].price;
        if (left != journey->hops[i].promised) {
            return "a lookup shows another cost than the hops from there on spend";
        }
    }
    answer = bannogwy_carry(LENT_NETWORK(net), LENT_TABLE(net, table), packet->node, packet->destination, packet->stack, packet->height, MOST_HOPS,
                            carried, 4);
    if (answer != 0 || carried[0] != journey->hop_count || carried[1] != left || carried[2] != packet->destination) {
        return "carry makes other hops, spends something else or arrives elsewhere";
    }
    return NULL;
}

/* What the node of a hop does with the packet, in words. */
static const char *does(const struct network *net, const struct hop *hop, char text[DOES_ROOM])
{
    const char *a = net->protocols[BANNOGWY_FROM(hop->function)], *b = net->protocols[BANNOGWY_TO(hop->function)];
    if (BANNOGWY_KIND(hop->function) == CONVERT && a == b) {
        sprintf(text, "passes %s on", a);
    } else if (BANNOGWY_KIND(hop->function) == CONVERT) {
        sprintf(text, "converts %s to %s", a, b);
    } else if (BANNOGWY_KIND(hop->function) == WRAP) {
        sprintf(text, "wraps %s in %s, tunnel %lu begins", a, b, (unsigned long)hop->tunnel);
    } else if (hop->tunnel != 0) {
        sprintf(text, "unwraps %s from %s, tunnel %lu ends", a, b, (unsigned long)hop->tunnel);
    } else {
        sprintf(text, "unwraps %s from %s, a tunnel from before ends", a, b);
    }
    return text;
}

/* How wide the columns of nodes and of what they do must be. */
static void measure(const struct network *net, const struct journey *journey, int *name_width, int *does_width)
{
    char text[DOES_ROOM];
    size_t i;
    *name_width = (int)strlen(net->nodes[journey->packet.node]);
    *does_width = (int)strlen("delivered");
    for (i = 0; i < journey->hop_count; i++) {
        int name = (int)strlen(net->nodes[journey->hops[i].next]), doing = (int)strlen(does(net, &journey->hops[i], text));
        *name_width = name > *name_width ? name : *name_width;
        *does_width = doing > *does_width ? doing : *does_width;
    }
    *name_width = *name_width < 5 ? 5 : *name_width;
}

void print_journey(const struct network *net, const struct journey *journey)
{
    char doing[DOES_ROOM], stack[STACK_ROOM];
    int name_width, does_width;
    uint64_t spent = 0;
    size_t i;
    measure(net, journey, &name_width, &does_width);
    printf("%4s  %-*s  %-*s  %-*s  %5s + price = %6s %7s  stack after\n", "hop", name_width, "depot", does_width, "does", name_width, "next", "link",
           "cost", "spent");
    for (i = 0; i < journey->hop_count; i++) {
        const struct hop *hop = &journey->hops[i];
        spent += (uint64_t)hop->link + hop->price;
        printf("%4lu  %-*s  %-*s  %-*s  %5lu + %5lu = %6lu %7lu  %s\n", (unsigned long)i + 1, name_width, net->nodes[hop->node], does_width,
               does(net, hop, doing), name_width, net->nodes[hop->next], (unsigned long)hop->link, (unsigned long)hop->price,
               (unsigned long)hop->link + hop->price, (unsigned long)spent, stack_text(net, hop->number, stack));
    }
    printf("%4s  %-*s  delivered\n", "end", name_width, net->nodes[journey->packet.destination]);
}
