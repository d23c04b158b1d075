/* Settling a table by the library's calls fresh and run. */
#include "settled_table.h"

uint32_t settle(const struct network *net, struct table *table, struct settling *done)
{
    uint64_t ran[2] = {1, 0};
    uint64_t answer = bannogwy_fresh(LENT_NETWORK(net), LENT_TABLE(net, table));
    done->first_messages = answer;
    done->deliveries = 0;
    while (!BANNOGWY_IS_REFUSED(answer) && ran[0] != 0) {
        answer = bannogwy_run(LENT_NETWORK(net), LENT_TABLE(net, table), UINT32_MAX, ran, 2);
        done->deliveries += ran[0];
    }
    return BANNOGWY_REFUSAL(answer);
}
