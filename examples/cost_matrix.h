/* The least costs between all depots, each for a packet that starts with one header. */
#ifndef COST_MATRIX_H
#define COST_MATRIX_H

#include "settled_table.h"

/* The cheapest start for a pair of depots; cost 0 where there is no route. */
struct start {
    uint32_t cost;
    size_t protocol;
};

struct matrix {
    int speaks[MOST_NODES][MOST_PROTOCOLS];
    struct start starts[MOST_NODES][MOST_NODES];
};

void fill_matrix(const struct network *net, const struct table *table, struct matrix *matrix);

/* In bands of columns, no line longer than 120 characters. */
void print_matrix(const struct network *net, const struct matrix *matrix);

#endif
