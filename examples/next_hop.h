/* The next hop of one packet, in words: what the daemon and packet_hop print. */
#ifndef NEXT_HOP_H
#define NEXT_HOP_H

#include "settled_table.h"

/* One line: `forward to ..`, `delivered` or `refused ..`. */
void print_next_hop(const struct network *net, const struct table *table, size_t node, size_t destination, const uint8_t *stack, size_t height);

#endif
