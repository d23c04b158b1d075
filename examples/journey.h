/* The journey of one packet: its hops by lookups, a check of them, and their print. */
#ifndef JOURNEY_H
#define JOURNEY_H

#include "settled_table.h"

enum { MOST_HOPS = 16384 };

struct packet {
    size_t node, destination;
    uint8_t stack[MOST_HEIGHT];
    size_t height;
};

struct hop {
    size_t node, next;
    uint32_t function;
    uint32_t link, price;
    uint32_t promised; /* the cost that the lookup shows here, for the rest of the way */
    uint32_t number;   /* of the stack on the link */
    size_t tunnel;     /* that a wrap begins or an unwrap ends; 0 where it was there at the start */
};

struct journey {
    struct packet packet;
    size_t highest; /* stack on the way */
    size_t hop_count;
    struct hop hops[MOST_HOPS];
};

/* Looks up hop after hop; answers 0 where the packet is delivered, or the refusal that ends the journey. */
uint32_t travel(const struct network *net, const struct table *table, const struct packet *packet, struct journey *journey);

/* What the library's other answers about a delivered packet say differently, or NULL; in a settled table they agree. */
const char *disagreement(const struct network *net, const struct table *table, const struct journey *journey);

void print_journey(const struct network *net, const struct journey *journey);

#endif
