/* A routing table and how it is settled: deliveries until no message waits. */
#ifndef SETTLED_TABLE_H
#define SETTLED_TABLE_H

#include "network_file.h"

struct table {
    uint32_t cost[MOST_ROWS];
    uint16_t way[MOST_ROWS];
    uint32_t waiting[MOST_ROWS];
};

/* A table as the library's calls take it. */
#define LENT_TABLE(net, table) (table)->cost, (net)->rows, (table)->way, (net)->rows, (table)->waiting, (net)->rows

struct settling {
    uint64_t first_messages; /* that wait in the fresh table */
    uint64_t deliveries;
};

/* Answers 0, or the library's refusal, which no network that read_network() accepts gets. */
uint32_t settle(const struct network *net, struct table *table, struct settling *done);

#endif
