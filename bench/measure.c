/*
 * Measures the calls of libthrumcomb.a against the plain C of replay.c, text.c and log.c, in one process and by turns, so that both meet
 * the same machine. Standard input: `repeat L table.. K trace.. procs policy end B`, then the B bytes of the case's own log, and then
 * the bytes of a case text (up to the end).
 * Prints, in the processor time that clock() counts, the C time, Thrumcomb's time and their ratio for the replay, its checks alone, the
 * check of the log, the reader, the writer and, over the text without its policy line, the converter, whether the answers agree, and the
 * stack that each call of Thrumcomb used.
 */

#include <stddef.h>
#include <stdint.h>

#include "log.h"
#include "text.h"
#include "thrumcomb.h"

int printf(const char *, ...);
int scanf(const char *, ...);
int getchar(void);
long clock(void);
int replay(uint32_t procs, uint32_t policy, const uint32_t *table, size_t table_len, uint32_t end, const uint32_t *trace, size_t trace_len,
           uint32_t *room, size_t room_len, uint32_t totals[3], uint32_t *place);

#define PAINTED 200000
#define CHECKS 1000

static uint32_t table[96], trace[4000], room_c[6000], room_t[6000], tasks[96], releases[4000];
static uint8_t text[70000], old[70000], out_c[70000], out_t[70000];
static uint8_t slots[10000000];         /* more than 100,000 lines of 32 tasks take */
static struct read_case read_c;
static size_t table_len, trace_len, slots_len, text_len, old_len;
static uint32_t procs, policy, end;

static uint32_t number(void)
{
    uint32_t x = 0;

    if (scanf("%u", &x) != 1)
        printf("a number is missing\n");
    return x;
}

static void read_input(void)
{
    size_t i;
    int b;

    table_len = number();
    for (i = 0; i < table_len; i++)
        table[i] = number();
    trace_len = number();
    for (i = 0; i < trace_len; i++)
        trace[i] = number();
    procs = number();
    policy = number();
    end = number();
    slots_len = number();
    getchar();
    for (i = 0; i < slots_len && i < sizeof slots; i++)
        slots[i] = (uint8_t)getchar();
    while (text_len < sizeof text && (b = getchar()) >= 0)
        text[text_len++] = (uint8_t)b;
}

/* The text to convert: without its second line where that is a policy line. No other word of a text starts with `po`. */
static void make_old(void)
{
    size_t at = 0, skip = 0;

    while (at < text_len && text[at++] != '\n')
        ;
    if (at + 1 < text_len && text[at] == 'p' && text[at + 1] == 'o')
        while (at + skip < text_len && text[at + skip++] != '\n')
            ;
    for (old_len = 0; old_len + skip < text_len; old_len++)
        old[old_len] = text[old_len < at ? old_len : old_len + skip];
}

/* The stack below this call is filled with a mark; what a later call from the same place overwrites is what it used. */
__attribute__((noinline)) static void paint(void)
{
    volatile uint8_t stack[PAINTED];
    size_t i;

    for (i = 0; i < PAINTED; i++)
        stack[i] = 0xA5;
}

__attribute__((noinline)) static size_t used(void)
{
    volatile uint8_t stack[PAINTED];
    size_t i = 0;

    while (i < PAINTED && stack[i] == 0xA5)
        i++;
    return PAINTED - i;
}

static const char *compared(int same)
{
    return same ? "same answers" : "OTHER ANSWERS";
}

static void line(const char *what, long c, long t, const char *answers)
{
    printf("%s: C %ld, Thrumcomb %ld, ratio %.2f, %s\n", what, c, t, (double)t / (double)(c > 0 ? c : 1), answers);
}

static void measure_replay(uint32_t repeat)
{
    uint32_t totals[3], place;
    size_t results[3] = {0, 0, 0};
    long c = 0, t = 0;
    int same;
    size_t i;
    uint32_t k;

    for (k = 0; k < repeat; k++) {
        long a = clock();
        replay(procs, policy, table, table_len, end, trace, trace_len, room_c, 6000, totals, &place);
        c += clock() - a;
        a = clock();
        thrumcomb_replay(procs, policy, table, table_len, end, trace, trace_len, room_t, 6000, results, &place);
        t += clock() - a;
    }
    same = results[0] == totals[0] && results[1] == totals[1] && results[2] == totals[2];
    for (i = 0; i < trace_len / 2 * 3; i++)
        same = same && room_c[i] == room_t[i];
    line("replay", c, t, compared(same));
}

/*
 * The checks alone: a room of no numbers is refused as 13 once all else has been tested. They take microseconds, so CHECKS of them are
 * timed together.
 */
static void measure_checks(uint32_t repeat)
{
    uint32_t totals[3], place_c = 0, place_t = 0;
    size_t results[3];
    long c = 0, t = 0;
    int number_c = 0, number_t = 0;
    uint32_t k, i;

    for (k = 0; k < repeat; k++) {
        long a = clock();
        for (i = 0; i < CHECKS; i++)
            number_c = replay(procs, policy, table, table_len, end, trace, trace_len, room_c, 0, totals, &place_c);
        c += clock() - a;
        a = clock();
        for (i = 0; i < CHECKS; i++)
            number_t = (int)thrumcomb_replay(procs, policy, table, table_len, end, trace, trace_len, room_t, 0, results, &place_t);
        t += clock() - a;
    }
    line("checks", c, t, compared(number_c == 13 && number_t == 13 && place_c == place_t));
}

static void measure_log(uint32_t repeat)
{
    uint32_t place_c = 0, place_t = 0;
    long c = 0, t = 0;
    int number_c = 0, number_t = 0;
    uint32_t k;

    for (k = 0; k < repeat; k++) {
        long a = clock();
        number_c = check_log(procs, policy, table, table_len, end, trace, trace_len, slots, slots_len, &place_c);
        c += clock() - a;
        a = clock();
        number_t = (int)thrumcomb_check_log(procs, policy, table, table_len, end, trace, trace_len, slots, slots_len, &place_t);
        t += clock() - a;
    }
    /* A log that was refused would be measured as nearly nothing. */
    line("log", c, t, compared(number_c == 0 && number_t == 0));
}

static void measure_text(uint32_t repeat)
{
    size_t results[5] = {0, 0, 0, 0, 0}, length[1] = {0}, written = 0;
    uint32_t place_c = 0, place_t = 0;
    long rc = 0, rt = 0, wc = 0, wt = 0;
    int number_c = 0, number_t = 0, same;
    uint32_t k;
    size_t i;

    for (k = 0; k < repeat; k++) {
        long a = clock();
        number_c = read_text(text, text_len, &read_c, &place_c);
        rc += clock() - a;
        a = clock();
        number_t = (int)thrumcomb_read(text, text_len, tasks, 96, releases, 4000, results, &place_t);
        rt += clock() - a;
        if (number_t != 0)
            continue;
        a = clock();
        written = write_text(&read_c, out_c);
        wc += clock() - a;
        a = clock();
        thrumcomb_write(procs, policy, table, table_len, end, trace, trace_len, out_t, sizeof out_t, length, &place_t);
        wt += clock() - a;
    }
    if (number_t != 0) {
        line("reader", rc, rt, compared(number_c == number_t && place_c == place_t));
        return;
    }
    same = number_c == 0 && results[0] == read_c.procs && results[1] == read_c.policy && results[2] == read_c.end
        && results[3] == read_c.tasks && results[4] == read_c.releases;
    for (i = 0; same && i < 3 * read_c.tasks; i++)
        same = tasks[i] == read_c.table[i];
    for (i = 0; same && i < 2 * read_c.releases; i++)
        same = releases[i] == read_c.trace[i];
    line("reader", rc, rt, compared(same));
    same = written == length[0];
    for (i = 0; i < written; i++)
        same = same && out_c[i] == out_t[i];
    line("writer", wc, wt, compared(same));
}

static void measure_convert(uint32_t repeat)
{
    size_t length_c = 0, length_t[1] = {0}, i;
    uint32_t place_c = 0, place_t = 0, k;
    long c = 0, t = 0;
    int number_c = 0, number_t = 0, same;

    for (k = 0; k < repeat; k++) {
        long a = clock();
        number_c = convert_text(old, old_len, out_c, sizeof out_c, &length_c, &place_c);
        c += clock() - a;
        a = clock();
        number_t = (int)thrumcomb_convert(old, old_len, out_t, sizeof out_t, length_t, &place_t);
        t += clock() - a;
    }
    same = number_c == number_t && (number_t == 0 ? length_c == length_t[0] : place_c == place_t);
    for (i = 0; same && i < length_c; i++)
        same = out_c[i] == out_t[i];
    line("converter", c, t, compared(same));
}

static void measure_stack(void)
{
    size_t results[5];
    uint32_t place;

    paint();
    thrumcomb_counts(procs, table, table_len, room_t, 6000, results, &place);
    printf("stack: counts %lu bytes", (unsigned long)used());
    paint();
    thrumcomb_replay(procs, policy, table, table_len, end, trace, trace_len, room_t, 6000, results, &place);
    printf(", replay %lu bytes", (unsigned long)used());
    paint();
    thrumcomb_running_set(procs, policy, table, table_len, end, trace, trace_len, end - 1, results, &place);
    printf(", running set %lu bytes", (unsigned long)used());
    paint();
    thrumcomb_check_log(procs, policy, table, table_len, end, trace, trace_len, slots, slots_len, &place);
    printf(", log %lu bytes", (unsigned long)used());
    paint();
    thrumcomb_read(text, text_len, tasks, 96, releases, 4000, results, &place);
    printf(", reader %lu bytes", (unsigned long)used());
    paint();
    thrumcomb_write(procs, policy, table, table_len, end, trace, trace_len, out_t, sizeof out_t, results, &place);
    printf(", writer %lu bytes", (unsigned long)used());
    paint();
    thrumcomb_convert(old, old_len, out_t, sizeof out_t, results, &place);
    printf(", converter %lu bytes\n", (unsigned long)used());
}

int main(void)
{
    uint32_t repeat = number();

    read_input();
    make_old();
    measure_replay(repeat);
    measure_checks(repeat);
    measure_log(repeat);
    measure_text(repeat * 20);
    measure_convert(repeat * 20);
    measure_stack();
    return 0;
}
