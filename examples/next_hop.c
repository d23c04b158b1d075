/* A lookup and its answer in words. */
#include "next_hop.h"

#include <stdio.h>

static const char *meaning(uint32_t refusal)
{
    switch (refusal) {
    case BANNOGWY_RANGE: return "no such node or protocol, or the stack is too high";
    case BANNOGWY_NO_ROUTE: return "no route";
    case BANNOGWY_BROKEN: return "broken table";
    default: return "wrong network or table";
    }
}

/* What is on top before a function and after it. */
static void print_function(const struct network *net, uint32_t function)
{
    const char *a = net->protocols[BANNOGWY_FROM(function)], *b = net->protocols[BANNOGWY_TO(function)], *between = net->lettered ? "" : "/";
    if (BANNOGWY_KIND(function) == 0) {
        printf("%s>%s", a, b);
    } else if (BANNOGWY_KIND(function) == 1) {
        printf("%s>%s%s%s", a, a, between, b);
    } else {
        printf("%s%s%s>%s", a, between, b, a);
    }
}

void print_next_hop(const struct network *net, const struct table *table, size_t node, size_t destination, const uint8_t *stack, size_t height)
{
    char text[STACK_ROOM];
    uint64_t answer = bannogwy_lookup(LENT_NETWORK(net), LENT_TABLE(net, table), node, destination, stack, height);
    if (BANNOGWY_IS_REFUSED(answer)) {
        printf("refused %u (%s)\n", (unsigned)BANNOGWY_REFUSAL(answer), meaning(BANNOGWY_REFUSAL(answer)));
    } else if (!BANNOGWY_IS_FOUND(answer)) {
        printf("delivered\n");
    } else {
        printf("forward to %s, function ", net->nodes[BANNOGWY_NEXT_NODE(answer)]);
        print_function(net, BANNOGWY_FUNCTION(answer));
        printf(", stack %s, cost %lu\n", stack_text(net, BANNOGWY_NUMBER(answer), text), (unsigned long)BANNOGWY_COST(answer));
    }
}
