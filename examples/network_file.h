/* A network kept as a text file: its format, and the reader that the programs of this folder share.
 *
 * `#` starts a comment; blank lines count for nothing. First these three, in this order:
 *     nodes Aberlas Brynteg       the nodes' names, 1 to 32; or one number N, and the nodes are named 0 to N-1
 *     protocols IPv4 IPv6 X25     the protocols' names, 1 to 8
 *     height 3                    how high a stack of headers may grow, 1 to 12; nodes times stacks is at most 16384
 * and then, in any order, each at most once:
 *     link U V COST BACK          U to V costs COST, V to U costs BACK, each 1 to 65535
 *     convert NODE a b PRICE      the node turns a header a into b (a into a: it passes it on); PRICE is 0 to 65534
 *     wrap NODE a b PRICE         the node wraps a in b
 *     unwrap NODE a b PRICE       the node unwraps a from b
 * A name is 1 to 15 letters, digits, dots and dashes; a node's has at least one letter; no two nodes and no two protocols have the same.
 * A stack is written from the bottom up: names joined by `/`, as IPv4/IPv6, or letters together, as ab, where every protocol's name is one letter.
 */
#ifndef NETWORK_FILE_H
#define NETWORK_FILE_H

#include "bannogwy.h"

enum {
    MOST_NODES = 32,
    MOST_PROTOCOLS = 8,
    MOST_HEIGHT = 12,
    MOST_ROWS = MOST_NODES * 16384,
    NAME_ROOM = 16,
    STACK_ROOM = MOST_HEIGHT * NAME_ROOM
};

struct network {
    size_t n, p, h;
    size_t rows;     /* how long each slice of its table is */
    size_t link_count, function_count;
    int numbered;    /* the nodes are named by numbers */
    int lettered;    /* every protocol's name is one letter */
    char nodes[MOST_NODES][NAME_ROOM];
    char protocols[MOST_PROTOCOLS][NAME_ROOM];
    uint16_t links[MOST_NODES * MOST_NODES];
    uint16_t functions[MOST_NODES * 3 * MOST_PROTOCOLS * MOST_PROTOCOLS];
};

/* A network as the library's calls take it. */
#define LENT_NETWORK(net) \
    (net)->n, (net)->p, (net)->h, (net)->links, (net)->n * (net)->n, (net)->functions, (net)->n * 3 * (net)->p * (net)->p

/* Where the price of a function stands in `functions`. */
size_t function_place(const struct network *net, size_t node, size_t kind, size_t a, size_t b);

/* Answers 0, or 1 after it has said on the standard error what is wrong, as FILE:LINE: what. */
int read_network(const char *file_name, struct network *net);

/* Whether the word names a node, or is a number, where these are the names: whether it is below n is for the caller or the library to say. */
int node_named(const struct network *net, const char *word, size_t *node);

/* Reads a stack of at most `room` headers; answers what is wrong with it, or NULL. */
const char *stack_named(const struct network *net, const char *word, uint8_t *stack, size_t room, size_t *height);

/* Writes the stack with this number, or nothing where there is none, and answers the text. */
const char *stack_text(const struct network *net, uint64_t number, char text[STACK_ROOM]);

#endif
