/* Reads packets through bannogwy_read_stack, one line of answer for each record on the standard input.
 *
 * A record is h (8 bytes), the lengths lent for the stack, for the answer and for the packet (4 bytes each), all with the lowest byte first, and
 * the packet's bytes. A line is the answer, the numbers in the answer slice and the bytes in the stack's buffer; `-` and `..` stand where nothing
 * was written. Every record is called twice with other bytes in and around the slices, which shows what is written, and that nothing outside the
 * slices is written or counts for the answer.
 */
#include <inttypes.h>
#include <stdio.h>
#include <stdlib.h>
#include <string.h>

#include "bannogwy.h"

enum { GUARD = 64, MOST_OUT = 64, MOST_ANSWER = 16, MOST_PACKET = 1 << 17 };

struct record {
    size_t h, out_len, answer_len, packet_len;
    uint8_t packet[MOST_PACKET];
};

/* what one call is lent, in the middle of guard bytes, and what it answers */
struct lent {
    int fill;
    uint64_t answer[GUARD + MOST_ANSWER + GUARD];
    uint8_t out[GUARD + MOST_OUT + GUARD];
    uint8_t packet[GUARD + MOST_PACKET + GUARD];
    uint64_t answered;
};

static void fail(const char *text, unsigned long at)
{
    fprintf(stderr, "record %lu: %s\n", at, text);
    exit(1);
}

static uint64_t number(const uint8_t *bytes, size_t count)
{
    uint64_t value = 0;
    while (count > 0) {
        count -= 1;
        value = value << 8 | bytes[count];
    }
    return value;
}

/* Answers 0 at the end of the input. */
static int get_record(struct record *record, unsigned long at)
{
    uint8_t head[20];
    size_t got = fread(head, 1, sizeof head, stdin);
    if (got == 0 && feof(stdin)) {
        return 0;
    }
    if (got != sizeof head) {
        fail("cut off", at);
    }
    record->h = (size_t)number(head, 8);
    record->out_len = (size_t)number(head + 8, 4);
    record->answer_len = (size_t)number(head + 12, 4);
    record->packet_len = (size_t)number(head + 16, 4);
    if (record->out_len > MOST_OUT || record->answer_len > MOST_ANSWER || record->packet_len > MOST_PACKET) {
        fail("a slice is too long for this program", at);
    }
    if (fread(record->packet, 1, record->packet_len, stdin) != record->packet_len) {
        fail("cut off", at);
    }
    return 1;
}

static void call(const struct record *record, struct lent *lent)
{
    memset(lent->answer, lent->fill, sizeof lent->answer);
    memset(lent->out, lent->fill, sizeof lent->out);
    memset(lent->packet, lent->fill, GUARD);
    memcpy(lent->packet + GUARD, record->packet, record->packet_len);
    memset(lent->packet + GUARD + record->packet_len, lent->fill, GUARD);
    lent->answered = bannogwy_read_stack(record->h, lent->packet + GUARD, record->packet_len, lent->out + GUARD, record->out_len,
                                         lent->answer + GUARD, record->answer_len);
}

static int is_fill(const void *bytes, size_t count, int fill)
{
    const uint8_t *at = bytes;
    size_t i;
    for (i = 0; i < count; i++) {
        if (at[i] != fill) {
            return 0;
        }
    }
    return 1;
}

/* Whether what stands around each slice, and the packet, is as it was. */
static int untouched(const struct record *record, const struct lent *lent)
{
    const size_t word = sizeof lent->answer[0];
    return is_fill(lent->answer, GUARD * word, lent->fill) && is_fill(lent->answer + GUARD + record->answer_len, GUARD * word, lent->fill) &&
           is_fill(lent->out, GUARD, lent->fill) && is_fill(lent->out + GUARD + record->out_len, GUARD, lent->fill) &&
           is_fill(lent->packet, GUARD, lent->fill) && memcmp(lent->packet + GUARD, record->packet, record->packet_len) == 0 &&
           is_fill(lent->packet + GUARD + record->packet_len, GUARD, lent->fill);
}

/* The numbers in the answer slice; fails where the two calls wrote different ones. */
static void print_answer(const struct record *record, const struct lent *a, const struct lent *b, unsigned long at)
{
    size_t i;
    for (i = GUARD; i < GUARD + record->answer_len; i++) {
        fputs(i == GUARD ? "" : ",", stdout);
        if (a->answer[i] == b->answer[i]) {
            printf("%" PRIu64, a->answer[i]);
        } else if (is_fill(a->answer + i, sizeof a->answer[i], a->fill) && is_fill(b->answer + i, sizeof b->answer[i], b->fill)) {
            putchar('-');
        } else {
            fail("two calls write different numbers", at);
        }
    }
}

/* The bytes in the stack's buffer; fails where the two calls wrote different ones. */
static void print_out(const struct record *record, const struct lent *a, const struct lent *b, unsigned long at)
{
    size_t i;
    for (i = GUARD; i < GUARD + record->out_len; i++) {
        if (a->out[i] == b->out[i]) {
            printf("%02x", (unsigned)a->out[i]);
        } else if (a->out[i] == a->fill && b->out[i] == b->fill) {
            fputs("..", stdout);
        } else {
            fail("two calls write different bytes", at);
        }
    }
}

int main(void)
{
    static struct record record;
    static struct lent a = {.fill = 0xA5}, b = {.fill = 0x5A};
    unsigned long at;
    for (at = 0; get_record(&record, at); at++) {
        call(&record, &a);
        call(&record, &b);
        if (!untouched(&record, &a) || !untouched(&record, &b)) {
            fail("something beside the slices is written", at);
        }
        if (a.answered != b.answered) {
            fail("two calls answer differently", at);
        }
        printf("%" PRIu64 " ", a.answered);
        print_answer(&record, &a, &b, at);
        putchar(' ');
        print_out(&record, &a, &b, at);
        putchar('\n');
    }
    return 0;
}
