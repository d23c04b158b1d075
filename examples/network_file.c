/* The reader of network files: each part answers what is wrong, or NULL. */
#include "network_file.h"

#include <errno.h>
#include <string.h>

#include "text_lines.h"

enum { FILE_LINE_ROOM = 1024, MOST_WORDS = FILE_LINE_ROOM / 2 };

/* The words of one line; behind the last one NULL. */
struct words {
    size_t count;
    char *word[MOST_WORDS + 1];
};

static void split(char *line, struct words *words)
{
    char *word;
    memset(words, 0, sizeof *words);
    line[strcspn(line, "#")] = '\0';
    for (word = next_word(&line); word != NULL; word = next_word(&line)) {
        words->word[words->count++] = word;
    }
}

/* Whether one of the names is the first `length` characters of the word. */
static int find_name(const char (*names)[NAME_ROOM], size_t count, const char *word, size_t length, size_t *found)
{
    for (*found = 0; *found < count; *found += 1) {
        if (strlen(names[*found]) == length && memcmp(names[*found], word, length) == 0) {
            return 1;
        }
    }
    return 0;
}

int node_named(const struct network *net, const char *word, size_t *node)
{
    if (word == NULL || net->numbered) {
        return number(word, 0, 999999999, node);
    }
    return find_name(net->nodes, net->n, word, strlen(word), node);
}

static int protocol_named(const struct network *net, const char *word, size_t *protocol)
{
    return word != NULL && find_name(net->protocols, net->p, word, strlen(word), protocol);
}

const char *stack_named(const struct network *net, const char *word, uint8_t *stack, size_t room, size_t *height)
{
    size_t length, protocol;
    for (*height = 0; *height == 0 || *word != '\0'; *height += 1) {
        word += *height > 0 && !net->lettered;
        length = net->lettered ? 1 : strcspn(word, "/");
        if (!find_name(net->protocols, net->p, word, length, &protocol)) {
            return net->lettered ? "the stack has a letter that is no protocol" : "the stack has a name that is no protocol";
        }
        if (*height == room) {
            return "the stack is too high";
        }
        stack[*height] = (uint8_t)protocol;
        word += length;
    }
    return NULL;
}

const char *stack_text(const struct network *net, uint64_t stack_number, char text[STACK_ROOM])
{
    uint8_t stack[MOST_HEIGHT];
    uint64_t i, height = bannogwy_stack_of(net->p, net->h, (size_t)stack_number, stack, sizeof stack);
    text[0] = '\0';
    for (i = 0; !BANNOGWY_IS_REFUSED(height) && i < height; i++) {
        strcat(text, i == 0 || net->lettered ? "" : "/");
        strcat(text, net->protocols[stack[i]]);
    }
    return text;
}

/* The names behind a line's first word. */
static const char *read_names(const struct words *line, char (*names)[NAME_ROOM])
{
    static char again[64];
    size_t i, found;
    for (i = 1; i < line->count; i++) {
        if (strlen(line->word[i]) >= NAME_ROOM || !only(line->word[i], LETTERS DIGITS ".-")) {
            return "a name is 1 to 15 letters, digits, dots and dashes";
        }
        strcpy(names[i - 1], line->word[i]);
        if (find_name((const char (*)[NAME_ROOM])names, i - 1, names[i - 1], strlen(names[i - 1]), &found)) {
            sprintf(again, "this name was given before: %s", names[found]);
            return again;
        }
    }
    return NULL;
}

static const char *number_nodes(struct network *net, const char *word)
{
    size_t node;
    if (!number(word, 1, MOST_NODES, &net->n)) {
        return "the first line is `nodes N`, N from 1 to 32";
    }
    net->numbered = 1;
    for (node = 0; node < net->n; node++) {
        sprintf(net->nodes[node], "%u", (unsigned)node);
    }
    return NULL;
}

static const char *read_nodes(struct network *net, const struct words *line)
{
    size_t i;
    if (strcmp(line->word[0], "nodes") != 0 || line->count == 1) {
        return "the first line is `nodes` and a number or names";
    }
    if (line->count == 2 && only(line->word[1], DIGITS)) {
        return number_nodes(net, line->word[1]);
    }
    for (i = 1; i < line->count; i++) {
        if (only(line->word[i], DIGITS ".-")) {
            return "a node's name has a letter in it; only a number alone says how many nodes there are";
        }
    }
    net->n = line->count - 1;
    return net->n > MOST_NODES ? "there are more than 32 nodes" : read_names(line, net->nodes);
}

static const char *read_protocols(struct network *net, const struct words *line)
{
    size_t i;
    const char *fault;
    if (strcmp(line->word[0], "protocols") != 0) {
        return "after `nodes` comes `protocols`";
    }
    net->p = line->count - 1;
    net->lettered = 1;
    for (i = 1; i < line->count; i++) {
        net->lettered = net->lettered && strlen(line->word[i]) == 1;
    }
    fault = net->p == 0 || net->p > MOST_PROTOCOLS ? "protocols are 1 to 8 different names" : read_names(line, net->protocols);
    return fault != NULL && net->lettered ? "protocols are 1 to 8 different letters" : fault;
}

static const char *read_height(struct network *net, const struct words *line)
{
    uint64_t stacks;
    if (strcmp(line->word[0], "height") != 0) {
        return "after `protocols` comes `height`";
    }
    if (!number(line->word[1], 1, MOST_HEIGHT, &net->h)) {
        return "height is 1 to 12";
    }
    stacks = bannogwy_stack_count(net->p, net->h);
    if (BANNOGWY_IS_REFUSED(stacks) || stacks * net->n > 16384) {
        return "nodes times stacks is more than 16384";
    }
    net->rows = net->n * net->n * (size_t)stacks;
    return line->count > 2 ? "there is more on the line than belongs there" : NULL;
}

static int node_there(const struct network *net, const char *word, size_t *node)
{
    return node_named(net, word, node) && *node < net->n;
}

static const char *read_link(struct network *net, const struct words *line)
{
    size_t u, v, there, back;
    if (!node_there(net, line->word[1], &u) || !node_there(net, line->word[2], &v)) {
        return "link U V COST BACK: no such node";
    }
    if (u == v) {
        return "link U V COST BACK: U and V are the same node";
    }
    if (!number(line->word[3], 1, 65535, &there) || !number(line->word[4], 1, 65535, &back)) {
        return "link U V COST BACK: costs are 1 to 65535";
    }
    if (net->links[u * net->n + v] != 0) {
        return "this link was given before";
    }
    net->links[u * net->n + v] = (uint16_t)there;
    net->links[v * net->n + u] = (uint16_t)back;
    net->link_count += 1;
    return NULL;
}

size_t function_place(const struct network *net, size_t node, size_t kind, size_t a, size_t b)
{
    return ((node * 3 + kind) * net->p + a) * net->p + b;
}

static const char *read_function(struct network *net, size_t kind, const struct words *line)
{
    size_t node, a, b, price, place;
    if (!node_there(net, line->word[1], &node)) {
        return "a function is given as NODE a b PRICE: no such node";
    }
    if (!protocol_named(net, line->word[2], &a) || !protocol_named(net, line->word[3], &b)) {
        return "a function is given as NODE a b PRICE: no such protocol";
    }
    if (!number(line->word[4], 0, 65534, &price)) {
        return "a function is given as NODE a b PRICE: the price is 0 to 65534";
    }
    place = function_place(net, node, kind, a, b);
    if (net->functions[place] != 0) {
        return "this function was given before";
    }
    net->functions[place] = (uint16_t)(price + 1);
    net->function_count += 1;
    return NULL;
}

/* A line behind the first three. */
static const char *read_part(struct network *net, const struct words *line)
{
    static const char *const kinds[] = {"convert", "wrap", "unwrap", "link"};
    const char *fault;
    size_t kind = 0;
    while (kind < 4 && strcmp(line->word[0], kinds[kind]) != 0) {
        kind += 1;
    }
    if (kind == 4) {
        return "a line starts with link, convert, wrap or unwrap";
    }
    fault = kind == 3 ? read_link(net, line) : read_function(net, kind, line);
    return fault == NULL && line->count > 5 ? "there is more on the line than belongs there" : fault;
}

static const char *read_words(struct network *net, const struct words *line)
{
    if (line->count == 0) {
        return NULL;
    }
    if (net->n == 0) {
        return read_nodes(net, line);
    }
    if (net->p == 0) {
        return read_protocols(net, line);
    }
    return net->h == 0 ? read_height(net, line) : read_part(net, line);
}

/* The whole file; *at is the line that the answer speaks of. */
static const char *read_lines(FILE *from, struct network *net, unsigned long *at)
{
    char line[FILE_LINE_ROOM];
    struct words words;
    const char *fault = NULL;
    while (fault == NULL && next_line(from, line, sizeof line, &fault)) {
        *at += 1;
        split(line, &words);
        fault = fault != NULL ? fault : read_words(net, &words);
    }
    return fault == NULL && net->h == 0 ? "the file ends before `nodes`, `protocols` and `height` are given" : fault;
}

int read_network(const char *file_name, struct network *net)
{
    unsigned long at = 0;
    const char *fault = NULL;
    FILE *from = fopen(file_name, "r");
    memset(net, 0, sizeof *net);
    if (from != NULL) {
        fault = read_lines(from, net, &at);
    }
    if (from == NULL || ferror(from)) {
        fprintf(stderr, "%s: %s\n", file_name, strerror(errno));
        fault = "unread";
    } else if (fault != NULL) {
        fprintf(stderr, "%s:%lu: %s\n", file_name, at == 0 ? 1 : at, fault);
    }
    if (from != NULL) {
        fclose(from);
    }
    return fault != NULL;
}
