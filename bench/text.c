/*
 * A plain reader, writer and converter of the case text of document 01 in C, to measure Thrumcomb against: one pass over the text, the
 * numbers stored as they are read, then the checks on numbers of replay.c. The writer makes no checks: it has less to do than Thrumcomb's.
 * The converter reads the text as the reader does and copies it.
 */

#include "text.h"

/* The number in [*at, end) up to a tab or newline, or -1 where there is none by document 01's rule. */
static long number(const uint8_t *text, size_t *at, size_t end)
{
    size_t from = *at;
    long value = 0;

    while (*at < end && text[*at] >= '0' && text[*at] <= '9') {
        value = 10 * value + (text[*at] - '0');
        (*at)++;
        if (*at - from > 9)
            return -1;
    }
    if (*at == from || (*at - from > 1 && text[from] == '0'))
        return -1;
    return value;
}

static int word(const uint8_t *text, size_t *at, size_t end, const char *w)
{
    size_t k = 0;

    while (w[k] != 0) {
        if (*at + k >= end || text[*at + k] != (uint8_t)w[k])
            return 0;
        k++;
    }
    *at += k;
    return 1;
}

/* The newline, with or without one return before it. */
static int newline(const uint8_t *text, size_t *at, size_t end)
{
    if (*at < end && text[*at] == '\r')
        (*at)++;
    if (*at >= end || text[*at] != '\n')
        return 0;
    (*at)++;
    return 1;
}

/* `count` numbers, each behind one tab, and the newline. */
static int numbers(const uint8_t *text, size_t *at, size_t end, int count, uint32_t *to)
{
    int k;

    for (k = 0; k < count; k++) {
        long value;

        if (*at >= end || text[*at] != '\t')
            return 0;
        (*at)++;
        value = number(text, at, end);
        if (value < 0)
            return 0;
        to[k] = (uint32_t)value;
    }
    return newline(text, at, end);
}

/* Reads a text; gives 0, or the number of a refusal and its place. */
int read_text(const uint8_t *text, size_t length, struct read_case *c, uint32_t *place)
{
    size_t at = 0;
    int before = 0;

    *place = 1;
    c->policy = 0;
    c->tasks = c->releases = 0;
    while (at < length) {
        uint32_t to[3];
        int kind;

        if (word(text, &at, length, "release")) {
            if (!numbers(text, &at, length, 2, to))
                return 2;
            kind = 5;
            if (c->releases < MOST_RELEASES) {
                c->trace[2 * c->releases] = to[0];
                c->trace[2 * c->releases + 1] = to[1];
            }
            c->releases++;
        } else if (word(text, &at, length, "task")) {
            if (!numbers(text, &at, length, 3, to))
                return 2;
            kind = 3;
            if (c->tasks < MOST_TASKS) {
                c->table[3 * c->tasks] = to[0];
                c->table[3 * c->tasks + 1] = to[1];
                c->table[3 * c->tasks + 2] = to[2];
            }
            c->tasks++;
        } else if (word(text, &at, length, "procs")) {
            if (!numbers(text, &at, length, 1, &c->procs))
                return 2;
            kind = 1;
        } else if (word(text, &at, length, "policy\tedf-cf")) {
            if (!newline(text, &at, length))
                return 2;
            c->policy = 1;
            kind = 2;
        } else if (word(text, &at, length, "policy\tedf")) {
            if (!newline(text, &at, length))
                return 2;
            kind = 2;
        } else if (word(text, &at, length, "end")) {
            if (!numbers(text, &at, length, 1, &c->end))
                return 2;
            kind = 4;
        } else {
            return 2;
        }
        if (!((kind == 1 && before == 0) || (kind == 2 && before == 1)
              || (kind == 3 && before >= 1 && before <= 3)
              || (kind == 4 && before == 3) || (kind == 5 && before >= 4)))
            return 3;
        before = kind;
        (*place)++;
    }
    if (before < 4)
        return 3;
    return check(c->procs, c->policy, c->table, 3 * c->tasks, c->end, c->trace, 2 * c->releases, 3 * MOST_RELEASES, place);
}

static size_t put_word(uint8_t *out, size_t at, const char *w)
{
    while (*w != 0)
        out[at++] = (uint8_t)*w++;
    return at;
}

static size_t put_number(uint8_t *out, size_t at, uint32_t v)
{
    uint8_t digits[10];
    int n = 0;

    do {
        digits[n++] = (uint8_t)('0' + v % 10);
        v /= 10;
    } while (v != 0);
    out[at++] = '\t';
    while (n > 0)
        out[at++] = digits[--n];
    return at;
}

size_t write_text(const struct read_case *c, uint8_t *out)
{
    size_t at = 0;
    size_t i;

    at = put_number(out, put_word(out, at, "procs"), c->procs);
    at = put_word(out, at, c->policy ? "\npolicy\tedf-cf\n" : "\npolicy\tedf\n");
    for (i = 0; i < c->tasks; i++) {
        at = put_number(out, put_word(out, at, "task"), c->table[3 * i]);
        at = put_number(out, at, c->table[3 * i + 1]);
        at = put_number(out, at, c->table[3 * i + 2]);
        out[at++] = '\n';
    }
    at = put_number(out, put_word(out, at, "end"), c->end);
    out[at++] = '\n';
    for (i = 0; i < c->releases; i++) {
        at = put_number(out, put_word(out, at, "release"), c->trace[2 * i]);
        at = put_number(out, at, c->trace[2 * i + 1]);
        out[at++] = '\n';
    }
    return at;
}

/* Where the second line starts. */
static size_t second_line(const uint8_t *text, size_t length)
{
    size_t at = 0;

    while (at < length && text[at] != '\n')
        at++;
    return at + 1;
}

/* Puts in the line of EDF where there is no policy line; gives 0 and the new length, or the number of a refusal and its place. */
int convert_text(const uint8_t *text, size_t length, uint8_t *out, size_t room, size_t *converted, uint32_t *place)
{
    static struct read_case c;
    int number = read_text(text, length, &c, place);
    size_t at, policy, i;

    if (number != 0)
        return number;
    at = policy = second_line(text, length);
    *converted = length + (word(text, &policy, length, "policy") ? 0 : sizeof "policy\tedf\n" - 1);
    *place = 0;
    if (*converted > MOST_BYTES)
        return 1;
    if (*converted > room)
        return 13;
    for (i = 0; i < at; i++)
        out[i] = text[i];
    if (*converted > length)
        put_word(out, at, "policy\tedf\n");
    for (i = at; i < length; i++)
        out[i + *converted - length] = text[i];
    return 0;
}
