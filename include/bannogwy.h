/* Bannogwy: routing between gateways that convert, wrap and unwrap packets. Every call takes any numbers and any slices, ends, and answers
 * either what it is asked or one of the refusal numbers below; a refused call leaves every slice byte for byte as it was (but see run,
 * carry and read_stack, which say what they write into the slice that is lent for their answer).
 *
 * How it is used: fresh writes a table; run (or deliver, message by message) settles it; then lookup and carry ask it. A lookup answers at any
 * time after fresh, but its costs are least, and "no route" is final, only when no message waits. C99 or later.
 *
 * The network, lent to every call on a network:
 *   n nodes (1 to 32, numbered 0 to n - 1), p protocols (1 to 8, numbered 0 to p - 1), height bound h (1 to 12); S = p + p^2 + .. + p^h stacks; n x S at most 16,384.
 *   links: n x n numbers, row U column V: 0 is no link, else the cost of U to V. The diagonal is 0; U to V is present exactly when V to U is.
 *   functions: for each node three p x p grids, row a column b: convert a to b; wrap a in b; unwrap a from b: n x 3 x p x p numbers, the one
 *   of node U, kind, a and b at ((U x 3 + kind) x p + a) x p + b (kinds 0, 1, 2). 0: the node can't; v: it can, at price v - 1.
 *   A function's number, which a way holds and the calls give, is 64 x kind + 8a + b, whatever p is.
 * The table, lent to every call on a network: cost, way and waiting, each n x n x S long; the row of node U, destination D and stack number N is at
 *   (U x n + D) x S + N - 1. cost 4,294,967,295 is no row; way is 256 x next node + function, or 65,535; waiting has bit V set where a
 *   message about the row waits for neighbour V.
 * Stacks are given bottom to top; a stack's number: start at 0, for each protocol q from the bottom up N becomes p x N + q + 1.
 *
 * A hop from U to V by a function f of U costs link(U, V) + price(f). A node accepts, as a destination, what it receives: a where it converts a
 *   to anything or wraps a in anything, b where it unwraps anything from b.
 * What the caller must guarantee: each pointer is valid for the length given with it (elements, not bytes); where that length is 0 it is never read
 * and may be null. Slices that a call writes overlap no other slice of the call. While a call runs nobody else writes any of its slices, nor
 * reads one that it writes.
 */
#ifndef BANNOGWY_H
#define BANNOGWY_H

#include <stddef.h>
#include <stdint.h>

#if SIZE_MAX < 0xFFFFFFFFFFFFFFFF
#error "Bannogwy is 64-bit code: a stack number needs more than 32 bits"
#endif

#ifdef __cplusplus
extern "C" {
#endif

/* Refusal numbers: the first that applies, in this order (but for 9, which says its own place). */
enum bannogwy_refusal {
    BANNOGWY_SIZES = 1,     /* n, p, h or n x S out of range, or links or functions of the wrong length */
    BANNOGWY_LINKS = 2,     /* diagonal not 0, or a one-way link */
    BANNOGWY_TABLE = 3,     /* cost, way or waiting of the wrong length */
    BANNOGWY_RANGE = 4,     /* node not below n, protocol not below p, height 0 or above h, stack number 0 or above S, step limit above 16,384 */
    BANNOGWY_NO_MESSAGE = 5,/* deliver: the waiting bit is not set */
    BANNOGWY_NO_ROUTE = 6,  /* lookup, carry: no row, and not delivered here */
    BANNOGWY_BROKEN = 7,    /* a table that no run from fresh makes. deliver: the sender's cost above 2,147,303,427 (no row is above it), or no link;
                               lookup, carry: cost 0 or above 2,147,303,427, or a way that names no node, link, or function that the node has
                               and that applies to this stack */
    BANNOGWY_LIMIT = 8,     /* carry: not delivered after the step limit's hops */
    BANNOGWY_NO_ROOM = 9,   /* carry, run, read_stack: the answer slice is too short. Tested before all the others: nothing is done or written.
                               read_stack: the buffer is too short for the stack. Tested after all the others: four zeros in the answer slice */
    /* read_stack's own, header by header from outside, in this order; its h out of range is 1 */
    BANNOGWY_SHORT = 61,    /* no byte left, or fewer than 20, or than 40 where the version field is 6 */
    BANNOGWY_WRONG_VERSION = 62, /* outermost not 4 or 6, or an inner one that is not the one announced */
    BANNOGWY_HEADER = 63,   /* IPv4: header length below 20, or total length below the header length */
    BANNOGWY_BEYOND = 64,   /* longer than what holds it: the given bytes, or the outer packet's part after its header */
    BANNOGWY_CHECKSUM = 65, /* IPv4: the header's one's complement sum is not all ones */
    BANNOGWY_FRAGMENT = 66, /* IPv4: a fragment offset, or more fragments to come */
    BANNOGWY_HIGHER = 67    /* one header more than h */
};

/* An answer in one 64-bit number: refused where the top bit is set, and then the low bits are the refusal number. */
#define BANNOGWY_IS_REFUSED(answer) ((int)((answer) >> 63))
static inline uint32_t BANNOGWY_REFUSAL(uint64_t answer)
{
    return BANNOGWY_IS_REFUSED(answer) ? (uint32_t)(answer & 255u) : 0u;
}

/* Whether a lookup says forward, or first waiting found a message: the bit below the top one. */
#define BANNOGWY_IS_FOUND(answer) ((int)(((answer) >> 62) & 1u))

#define BANNOGWY_NETWORK size_t n, size_t p, size_t h, const uint16_t *links, size_t links_len, const uint16_t *functions, size_t functions_len
#define BANNOGWY_TABLE_READ const uint32_t *cost, size_t cost_len, const uint16_t *way, size_t way_len, const uint32_t *waiting, size_t waiting_len
#define BANNOGWY_TABLE_WRITE uint32_t *cost, size_t cost_len, uint16_t *way, size_t way_len, uint32_t *waiting, size_t waiting_len

/* Writes the fresh table; answers how many messages wait, or a refusal (1, 2, 3). */
uint64_t bannogwy_fresh(BANNOGWY_NETWORK, BANNOGWY_TABLE_WRITE);

/* How many messages wait, or a refusal (1, 2, 3). */
uint64_t bannogwy_count(BANNOGWY_NETWORK, BANNOGWY_TABLE_READ);

/* The first message that waits, 0 where none does, or a refusal (1, 2, 3). */
uint64_t bannogwy_first_waiting(BANNOGWY_NETWORK, BANNOGWY_TABLE_READ);
#define BANNOGWY_FIRST_SENDER(answer) ((uint32_t)(((answer) >> 56) & 63u))
#define BANNOGWY_FIRST_RECEIVER(answer) ((uint32_t)(((answer) >> 48) & 255u))
#define BANNOGWY_FIRST_DESTINATION(answer) ((uint32_t)(((answer) >> 40) & 255u))
#define BANNOGWY_FIRST_NUMBER(answer) ((uint32_t)((answer) & 0xFFFFFFFFu))

/* Delivers one message; answers how many rows took an offer, or a refusal (1, 2, 3, 4, 5, 7). */
uint64_t bannogwy_deliver(BANNOGWY_NETWORK, BANNOGWY_TABLE_WRITE, size_t sender, size_t receiver, size_t destination, size_t number);

/* Delivers in table order until quiet or until `limit` are done. answer[0]: deliveries done; where it is below the limit and nothing is refused, no
 * message waits any more. answer[1]: rows that took an offer; what stands behind them stays. Answers 0, or a refusal (1, 2, 3, then both are 0; 9
 * where answer_len is below 2), or the refusal of a delivery in a broken table (4, 7), which ends the run: what was delivered before it is kept and
 * counted. */
uint64_t bannogwy_run(BANNOGWY_NETWORK, BANNOGWY_TABLE_WRITE, uint32_t limit, uint64_t *answer, size_t answer_len);

/* The next hop of a packet at `node` for `destination` with this stack: 0 where it is delivered here (node is destination and the stack is one
 * protocol that it accepts, whatever the table holds), forward, or a refusal (1, 2, 3, 4, 6, 7). The four parts below mean something only where
 * BANNOGWY_IS_FOUND says forward: the next node, the function to apply first, the number of the stack after it, and the row's cost. */
uint64_t bannogwy_lookup(BANNOGWY_NETWORK, BANNOGWY_TABLE_READ, size_t node, size_t destination, const uint8_t *stack, size_t stack_len);
#define BANNOGWY_NEXT_NODE(answer) ((uint32_t)(((answer) >> 56) & 63u))
#define BANNOGWY_FUNCTION(answer) ((uint32_t)(((answer) >> 48) & 255u))
#define BANNOGWY_NUMBER(answer) ((uint32_t)(((answer) >> 32) & 0xFFFFu))
#define BANNOGWY_COST(answer) ((uint32_t)((answer) & 0xFFFFFFFFu))
/* a function's number taken apart: its kind (0 converts a to b, 1 wraps a in b, 2 unwraps a from b), a and b */
#define BANNOGWY_KIND(function) ((function) / 64u)
#define BANNOGWY_FROM(function) ((function) / 8u % 8u)
#define BANNOGWY_TO(function) ((function) % 8u)

/* Lookups in turn until delivered or `limit` (0 to 16,384) hops are made; at each node delivered is tested first, then 6 and 7, then the limit.
 * answer[0]: hops; [1]: cost spent; [2]: node reached; [3]: number of the stack there; what stands behind them stays. Answers 0, or a refusal:
 * 1, 2, 3, 4 (then the four are 0), 6, 7 or 8 (then they say how far it came), 9 (answer_len below 4). */
uint64_t bannogwy_carry(BANNOGWY_NETWORK, BANNOGWY_TABLE_READ, size_t node, size_t destination, const uint8_t *stack, size_t stack_len,
                        size_t limit, uint64_t *answer, size_t answer_len);

/* The stack of headers of a packet's bytes, the first of which is the outermost IP header's: protocol 0 is IPv4 (RFC 791), 1 is IPv6 (RFC 8200); headers are followed from outside while IPv4's
 * protocol or IPv6's next header is 4 or 41. An IPv6 extension header, the fragment header too, ends the chain and belongs to what follows it;
 * IPv6's payload length is taken as it stands; bytes after a packet's length are ignored, outermost and inner alike.
 * Writes the stack, bottom to top, the outermost header on top, to the front of out, which needs no more room than that (h bytes always do);
 * what stands behind it stays. answer[0]: the stack's height, 1 to h (h is 1 to 12); [1]: its number for p = 2; [2]: where in the packet the
 * innermost packet's part after its header begins; [3]: one past its last byte, so that [3] - [2] is its length, which may be 0.
 * Answers 0, or a refusal: 9 first, where answer_len is below 4, and then nothing is written; 1; 61 to 67, and then answer[0] is which header
 * met it (0 is the outermost), [1] where that header starts, and [2] and [3] are 0; 9 last, where out is too short. With 1 and the last 9 all four
 * are 0. Where it refuses, out is as it was. What stands behind the four numbers stays. */
uint64_t bannogwy_read_stack(size_t h, const uint8_t *packet, size_t packet_len, uint8_t *out, size_t out_len, uint64_t *answer, size_t answer_len);

/* The caller's tally of deliver and run: each counter stops at 4,294,967,295. After a delivery add 1 and its rows, or 1 refused call; after a
 * run its deliveries and their offers, and 1 refused call where it answers a refusal; after refusal 9 add nothing. `tally` points to one record. */
struct bannogwy_tally {
    uint32_t deliveries;
    uint32_t offers;
    uint32_t refused;
};
void bannogwy_tally_add(struct bannogwy_tally *tally, uint64_t deliveries, uint64_t offers, uint32_t refused);

/* The bare stack routines; they have no n, so p = 8 with h = 12 is in range, and numbers reach 78,536,544,840. Each answers a number, or refusal 4
 * for p or h out of range, a height or number out of range, a protocol not below p, a function of no kind or with a protocol not below p, or a
 * buffer too short for the stack. */
/* S: how many stacks of height 1 to h there are */
uint64_t bannogwy_stack_count(size_t p, size_t h);
/* the number of a stack, bottom to top */
uint64_t bannogwy_number_of(size_t p, size_t h, const uint8_t *stack, size_t stack_len);
/* writes the stack, bottom to top, to the front of out, which needs no more room than that; what stands behind it stays; answers its height */
uint64_t bannogwy_stack_of(size_t p, size_t h, size_t number, uint8_t *out, size_t out_len);
/* the number of the stack that a function makes of the stack with this number; 0 where it is not applicable */
uint64_t bannogwy_applied(size_t p, size_t h, size_t function, size_t number);
/* the function that takes back what this one does */
uint64_t bannogwy_inverse_of(size_t p, size_t function);

#ifdef __cplusplus
}
#endif

#endif
