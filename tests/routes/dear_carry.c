/* A carry that spends one more than the library's: what examples/routes.c must notice. */
#undef bannogwy_carry
#include "bannogwy.h"

uint64_t dear_carry(BANNOGWY_NETWORK, BANNOGWY_TABLE_READ, size_t node, size_t destination, const uint8_t *stack, size_t stack_len, size_t limit,
                    uint64_t *answer, size_t answer_len)
{
    uint64_t refused = bannogwy_carry(n, p, h, links, links_len, functions, functions_len, cost, cost_len, way, way_len, waiting, waiting_len, node,
                                      destination, stack, stack_len, limit, answer, answer_len);
    answer[1] += 1;
    return refused;
}
