/* Lines of text, their words, and the numbers among these: what the readers of networks and packets share. */
#ifndef TEXT_LINES_H
#define TEXT_LINES_H

#include <stddef.h>
#include <stdio.h>

#define LETTERS "ABCDEFGHIJKLMNOPQRSTUVWXYZabcdefghijklmnopqrstuvwxyz"
#define DIGITS "0123456789"

/* Reads a line without its end; *fault is what makes it no line of text, or NULL. Answers 0 at the end of the input. */
int next_line(FILE *from, char *line, size_t room, const char **fault);

/* The next word of a line, or NULL where there is none; *at moves behind it. */
char *next_word(char **at);

/* Whether the word has no other characters than these. */
int only(const char *word, const char *characters);

/* Whether the word, which may be NULL, is a number from low to high, in digits alone. */
int number(const char *word, size_t low, size_t high, size_t *value);

#endif
