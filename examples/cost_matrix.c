/* The least costs between all depots, each for a packet that starts with one header. */
#include "cost_matrix.h"

#include <stdio.h>
#include <string.h>

enum { LINE_WIDTH = 120, ENTRY_ROOM = 16 };

/* The marks of the protocols, in their order. */
static const char marks[] = "abcdefgh";

static void fill_start(const struct network *net, const struct table *table, struct matrix *matrix, size_t from, size_t to)
{
    struct start *best = &matrix->starts[from][to];
    size_t q;
    for (q = 0; q < net->p; q++) {
        uint8_t header = (uint8_t)q;
        uint64_t answer = bannogwy_lookup(LENT_NETWORK(net), LENT_TABLE(net, table), from, to, &header, 1);
        if (from == to) {
            /* delivered where it is: exactly what the depot accepts */
            matrix->speaks[from][q] = answer == 0;
        } else if (matrix->speaks[from][q] && BANNOGWY_IS_FOUND(answer) && (best->cost == 0 || BANNOGWY_COST(answer) < best->cost)) {
            best->cost = BANNOGWY_COST(answer);
            best->protocol = q;
        }
    }
}

void fill_matrix(const struct network *net, const struct table *table, struct matrix *matrix)
{
    size_t node, pair;
    memset(matrix, 0, sizeof *matrix);
    for (node = 0; node < net->n; node++) {
        fill_start(net, table, matrix, node, node);
    }
    for (pair = 0; pair < net->n * net->n; pair++) {
        if (pair / net->n != pair % net->n) {
            fill_start(net, table, matrix, pair / net->n, pair % net->n);
        }
    }
}

static const char *entry(const struct matrix *matrix, size_t from, size_t to, char text[ENTRY_ROOM])
{
    const struct start *start = &matrix->starts[from][to];
    if (from == to || start->cost == 0) {
        strcpy(text, from == to ? ". " : "- ");
    } else {
        sprintf(text, "%lu%c", (unsigned long)start->cost, marks[start->protocol]);
    }
    return text;
}

/* How wide the columns are, and how many pairs have a route. */
static void measure(const struct network *net, const struct matrix *matrix, int *width, size_t *pairs)
{
    char text[ENTRY_ROOM];
    size_t pair;
    *width = 3;
    *pairs = 0;
    for (pair = 0; pair < net->n * net->n; pair++) {
        int length = (int)strlen(entry(matrix, pair / net->n, pair % net->n, text));
        *width = length > *width ? length : *width;
        *pairs += matrix->starts[pair / net->n][pair % net->n].cost != 0;
    }
}

/* The number that stands for a depot at the head of its column. */
static unsigned long head(const struct network *net, size_t node)
{
    return (unsigned long)node + (net->numbered ? 0 : 1);
}

/* What a depot's line begins with; answers its length. */
static size_t begin_line(const struct network *net, const struct matrix *matrix, size_t node, int name_width, char *line)
{
    char spoken[MOST_PROTOCOLS + 1] = "";
    size_t q, count = 0;
    for (q = 0; q < net->p; q++) {
        spoken[count] = marks[q];
        count += matrix->speaks[node][q] != 0;
        spoken[count] = '\0';
    }
    return (size_t)sprintf(line, "%2lu %-*s  %-*s", head(net, node), name_width, net->numbered ? "" : net->nodes[node], MOST_PROTOCOLS,
                           count == 0 ? "-" : spoken);
}

/* Without the blanks at its end. */
static void put_line(char *line)
{
    size_t length = strlen(line);
    while (length > 0 && line[length - 1] == ' ') {
        length -= 1;
    }
    line[length] = '\0';
    puts(line);
}

static int longest_name(const struct network *net)
{
    size_t node;
    int longest = 0;
    for (node = 0; node < net->n && !net->numbered; node++) {
        int length = (int)strlen(net->nodes[node]);
        longest = length > longest ? length : longest;
    }
    return longest;
}

/* The columns from `first` up to `end`. */
static void print_band(const struct network *net, const struct matrix *matrix, size_t first, size_t end, int width)
{
    char line[2 * LINE_WIDTH], text[ENTRY_ROOM];
    int name_width = longest_name(net);
    size_t node, to, length = (size_t)sprintf(line, "   %-*s  %-*s", name_width, "", MOST_PROTOCOLS, "speaks");
    for (to = first; to < end; to++) {
        length += (size_t)sprintf(line + length, " %*lu ", width - 1, head(net, to));
    }
    put_line(line);
    for (node = 0; node < net->n; node++) {
        length = begin_line(net, matrix, node, name_width, line);
        for (to = first; to < end; to++) {
            length += (size_t)sprintf(line + length, " %*s", width, entry(matrix, node, to, text));
        }
        put_line(line);
    }
}

void print_matrix(const struct network *net, const struct matrix *matrix)
{
    size_t first, end, columns, q, pairs;
    int width;
    measure(net, matrix, &width, &pairs);
    columns = (size_t)(LINE_WIDTH - 3 - longest_name(net) - 2 - MOST_PROTOCOLS) / (size_t)(width + 1);
    printf("\nThe least cost from each depot (a row) to each other (a column), for a packet that starts with one header that the\n"
           "depot speaks (accepts), the cheapest where it speaks several. The letter behind a cost is that header:\n");
    for (q = 0; q < net->p; q++) {
        printf("%c = %s%s", marks[q], net->protocols[q], q + 1 < net->p ? ", " : ".\n");
    }
    printf("A dot is the depot itself, a dash no route: %lu of %lu pairs have a route.\n", (unsigned long)pairs,
           (unsigned long)(net->n * (net->n - 1)));
    for (first = 0; first < net->n; first = end) {
        end = first + columns < net->n ? first + columns : net->n;
        printf("\n");
        print_band(net, matrix, first, end, width);
    }
}
