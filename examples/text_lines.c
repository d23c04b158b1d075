/* Lines of text, their words, and the numbers among these. */
#include "text_lines.h"

#include <stdlib.h>
#include <string.h>

int next_line(FILE *from, char *line, size_t room, const char **fault)
{
    size_t length = 0;
    int c = getc(from);
    if (c == EOF) {
        return 0;
    }
    *fault = NULL;
    for (; c != '\n' && c != EOF; c = getc(from)) {
        if (c == '\0') {
            *fault = "the line has a NUL byte";
        } else if (length + 1 < room) {
            line[length++] = (char)c;
        } else {
            *fault = "the line is too long";
        }
    }
    line[length] = '\0';
    return 1;
}

char *next_word(char **at)
{
    char *word = *at + strspn(*at, " \t\r");
    size_t length = strcspn(word, " \t\r");
    *at = word + length;
    if (**at != '\0') {
        **at = '\0';
        *at += 1;
    }
    return length == 0 ? NULL : word;
}

int only(const char *word, const char *characters)
{
    return word[strspn(word, characters)] == '\0';
}

int number(const char *word, size_t low, size_t high, size_t *value)
{
    if (word == NULL || *word == '\0' || strlen(word) > 9 || !only(word, DIGITS)) {
        return 0;
    }
    *value = (size_t)strtoul(word, NULL, 10);
    return *value >= low && *value <= high;
}
