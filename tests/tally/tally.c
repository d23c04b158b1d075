/* The tally in C, beside deliver and run on the small network: what it counts, and that it stops at its largest number. */
#include <inttypes.h>
#include <stdio.h>

#include "bannogwy.h"

enum { N = 4, P = 2, H = 2, ROWS = N * N * 6 };

static const uint16_t links[N * N] = {0, 2, 0, 0, 7, 0, 3, 0, 0, 3, 0, 1, 0, 0, 4, 0};
static const uint16_t functions[N * 3 * P * P] = {
    1, 0, 0, 0, 0, 0, 0, 0, 0, 0, 0, 0, 0, 0, 0, 0, 0, 6, 0, 0, 0, 0, 0, 0,
    0, 0, 0, 0, 0, 0, 0, 0, 0, 2, 0, 0, 1, 0, 0, 0, 0, 0, 0, 0, 0, 0, 0, 0};
static uint32_t cost[ROWS], waiting[ROWS];
static uint16_t way[ROWS];
static int wrong;

static void expect(const char *what, struct bannogwy_tally tally, uint32_t deliveries, uint32_t offers, uint32_t refused)
{
    if (tally.deliveries != deliveries || tally.offers != offers || tally.refused != refused) {
        printf("%s: %" PRIu32 " %" PRIu32 " %" PRIu32 ", expected %" PRIu32 " %" PRIu32 " %" PRIu32 "\n", what, tally.deliveries, tally.offers,
               tally.refused, deliveries, offers, refused);
        wrong = 1;
    }
}

/* one delivery from 3 to 2 about destination 3 and stack number 1, counted */
static void deliver(struct bannogwy_tally *tally)
{
    uint64_t rows = bannogwy_deliver(N, P, H, links, N * N, functions, N * 3 * P * P, cost, ROWS, way, ROWS, waiting, ROWS, 3, 2, 3, 1);

    if (BANNOGWY_IS_REFUSED(rows))
        bannogwy_tally_add(tally, 0, 0, 1);
    else
        bannogwy_tally_add(tally, 1, rows, 0);
}

int main(void)
{
    struct bannogwy_tally tally = {0, 0, 0};
    uint64_t ran[2];
    uint64_t refused;

    bannogwy_fresh(N, P, H, links, N * N, functions, N * 3 * P * P, cost, ROWS, way, ROWS, waiting, ROWS);
    deliver(&tally);
    expect("a delivery", tally, 1, 1, 0);
    deliver(&tally);
    expect("the same again, refused", tally, 1, 1, 1);
    refused = bannogwy_run(N, P, H, links, N * N, functions, N * 3 * P * P, cost, ROWS, way, ROWS, waiting, ROWS, 1000, ran, 2);
    bannogwy_tally_add(&tally, ran[0], ran[1], BANNOGWY_IS_REFUSED(refused) ? 1 : 0);
    expect("the run to quiet", tally, 14, 5, 1);
    bannogwy_tally_add(&tally, UINT64_MAX, 4294967290u, 0);
    expect("at its largest", tally, UINT32_MAX, 4294967295u, 1);
    bannogwy_tally_add(&tally, 1, 1, UINT32_MAX);
    expect("past its largest", tally, UINT32_MAX, UINT32_MAX, UINT32_MAX);
    return wrong;
}
