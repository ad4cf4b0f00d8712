/*
 * A plain check of a slot log by requests P2 and P4 in C, to measure Thrumcomb against: the checks on numbers of replay.c, then one pass
 * over the log, in which what works in each slot is what the log names.
 *
 * With LOG_MAIN defined there is a program too. It reads calls from standard input until that ends, each as decimals parted by white space
 * and then, behind one more byte, the log itself:
 *
 *     procs policy L table... end K trace... B
 *
 * L, K and B are the lengths of table, trace and log. It prints a line for each: the number, and the place where the number is not 0.
 */

#include "log.h"
#include "text.h"

enum { EDF_CF = 1 };
enum form { BAD, GOOD, NO_TASK };

/* A demoted job comes behind every normal one, whatever its deadline is. */
#define BEHIND 0x80000000u

struct job {
    uint32_t execution;     /* of the task, as are the next two */
    uint32_t relative;
    uint32_t free_count;
    uint32_t remaining;     /* of the present job; 0 where there is none */
    uint32_t free_left;
    uint32_t deadline;
    uint32_t demoted;       /* BEHIND or 0 */
};

struct run {
    uint32_t procs;
    int demotes;
    size_t tasks;
    const uint32_t *trace;
    size_t trace_len;
    size_t next;            /* the first number of the trace that is not played */
    struct job jobs[MOST_TASKS];
};

/* ---- one line */

/* The number behind a tab, or -1; *at is moved behind it. */
static long field(const uint8_t *log, size_t length, size_t *at)
{
    size_t from = *at + 1;
    size_t i = from;
    long value = 0;

    if (*at >= length || log[*at] != '\t')
        return -1;
    while (i < length && log[i] >= '0' && log[i] <= '9') {
        value = 10 * value + (log[i] - '0');
        i++;
        if (i - from > 9)
            return -1;
    }
    if (i == from || (i - from > 1 && log[from] == '0'))
        return -1;
    *at = i;
    return value;
}

/* Reads the line that starts at *at, whose time has to be this one, and puts the tasks that it names into the set. */
static enum form read_line(const uint8_t *log, size_t length, size_t *at, uint32_t time, uint32_t *set)
{
    enum form form = GOOD;
    long before = -1;

    if (length - *at < 4 || log[*at] != 's' || log[*at + 1] != 'l' || log[*at + 2] != 'o' || log[*at + 3] != 't')
        return BAD;
    *at += 4;
    *set = 0;
    if (field(log, length, at) != (long)time)
        return BAD;
    while (*at < length && log[*at] != '\n' && log[*at] != '\r') {
        long task = field(log, length, at);

        if (task <= before)
            return BAD;
        before = task;
        if (task < 1 || task > MOST_TASKS)
            form = NO_TASK;
        else
            *set |= 1u << (task - 1);
    }
    /* one return may stand before the newline */
    if (*at < length && log[*at] == '\r')
        (*at)++;
    if (*at == length || log[*at] != '\n')
        return BAD;
    (*at)++;
    return form;
}

/* ---- the run */

static void start(struct run *run, uint32_t procs, uint32_t policy, const uint32_t *table, size_t tasks, const uint32_t *trace,
                  size_t trace_len)
{
    size_t i;

    run->procs = procs;
    run->demotes = policy == EDF_CF;
    run->tasks = tasks;
    run->trace = trace;
    run->trace_len = trace_len;
    run->next = 0;
    for (i = 0; i < tasks; i++) {
        run->jobs[i].execution = table[3 * i + 1];
        run->jobs[i].relative = table[3 * i + 2];
        run->jobs[i].free_count = count_for(procs, table, tasks, table[3 * i + 2]);
        run->jobs[i].remaining = run->jobs[i].free_left = run->jobs[i].deadline = run->jobs[i].demoted = 0;
    }
}

static void release(struct run *run, uint32_t t)
{
    for (; run->next < run->trace_len && run->trace[run->next] == t; run->next += 2) {
        struct job *job = &run->jobs[run->trace[run->next + 1] - 1];

        job->remaining = job->execution;
        job->free_left = job->free_count;
        job->deadline = t + job->relative;
        job->demoted = 0;
    }
}

/* Steps 1 to 4 at time t; gives N. */
static uint32_t begin_slot(struct run *run, uint32_t t)
{
    uint32_t n = 0;
    size_t i;

    for (i = 0; i < run->tasks; i++) {
        if (run->jobs[i].deadline == t)
            run->jobs[i].remaining = 0;
    }
    release(run, t);
    for (i = 0; i < run->tasks; i++) {
        struct job *job = &run->jobs[i];

        if (job->remaining == 0)
            continue;
        n++;
        if (run->demotes && job->free_left >= job->remaining)
            job->demoted = BEHIND;
    }
    if (run->demotes && n <= run->procs) {
        for (i = 0; i < run->tasks; i++) {
            if (run->jobs[i].demoted == 0 && run->jobs[i].free_left > 0)
                run->jobs[i].free_left--;
        }
    }
    return n;
}

/* Whether the set may run in a slot with n jobs, none of those that wait coming before one of it; if so it works. */
static int run_set(struct run *run, uint32_t n, uint32_t set)
{
    uint32_t first_waiting = UINT32_MAX;
    uint32_t last_running = 0;
    uint32_t running = 0;
    size_t i;

    if (run->tasks < MOST_TASKS && set >> run->tasks != 0)
        return 0;
    for (i = 0; i < run->tasks; i++) {
        struct job *job = &run->jobs[i];
        uint32_t place = job->demoted | job->deadline;

        if ((set >> i & 1) != 0) {
            if (job->remaining == 0)
                return 0;
            job->remaining--;
            running++;
            if (place > last_running)
                last_running = place;
        } else if (job->remaining > 0 && place < first_waiting) {
            first_waiting = place;
        }
    }
    return running == (n < run->procs ? n : run->procs) && first_waiting >= last_running;
}

int check_log(uint32_t procs, uint32_t policy, const uint32_t *table, size_t table_len, uint32_t end, const uint32_t *trace,
              size_t trace_len, const uint8_t *log, size_t log_len, uint32_t *place)
{
    struct run run;
    uint32_t lines = 0;
    size_t at = 0;
    int refusal = check(procs, policy, table, table_len, end, trace, trace_len, 3 * MOST_RELEASES, place);

    if (refusal != 0)
        return refusal;
    start(&run, procs, policy, table, table_len / 3, trace, trace_len);
    for (; at < log_len; lines++) {
        uint32_t set;
        enum form form = read_line(log, log_len, &at, lines, &set);

        *place = lines + 1;
        if (form == BAD)
            return 17;
        if (lines < end) {
            uint32_t n = begin_slot(&run, lines);

            if (form == NO_TASK || !run_set(&run, n, set))
                return 18;
        }
    }
    *place = 0;
    return lines == end ? 0 : 19;
}

#ifdef LOG_MAIN
#include <stdio.h>
#include <stdlib.h>

static uint32_t read_number(void)
{
    unsigned long number;

    if (scanf("%lu", &number) != 1 || number > UINT32_MAX) {
        fputs("a number is missing or too large\n", stderr);
        exit(2);
    }
    return (uint32_t)number;
}

/* One more than asked for, so that no length is an allocation of nothing. */
static void *some_memory(size_t count, size_t size)
{
    void *memory = malloc((count + 1) * size);

    if (memory == NULL) {
        fputs("out of memory\n", stderr);
        exit(2);
    }
    return memory;
}

static uint32_t *read_numbers(size_t *count)
{
    uint32_t *numbers;
    size_t i;

    *count = read_number();
    numbers = some_memory(*count, sizeof *numbers);
    for (i = 0; i < *count; i++)
        numbers[i] = read_number();
    return numbers;
}

static uint8_t *read_bytes(size_t *count)
{
    uint8_t *bytes;

    *count = read_number();
    bytes = some_memory(*count, 1);
    getchar();
    if (fread(bytes, 1, *count, stdin) != *count) {
        fputs("the log is cut\n", stderr);
        exit(2);
    }
    return bytes;
}

static void answer(void)
{
    uint32_t procs = read_number();
    uint32_t policy = read_number();
    size_t table_len, trace_len, log_len;
    uint32_t *table = read_numbers(&table_len);
    uint32_t end = read_number();
    uint32_t *trace = read_numbers(&trace_len);
    uint8_t *log = read_bytes(&log_len);
    uint32_t place = 0;
    int number = check_log(procs, policy, table, table_len, end, trace, trace_len, log, log_len, &place);

    if (number == 0)
        printf("0\n");
    else
        printf("%d %lu\n", number, (unsigned long)place);
    free(table);
    free(trace);
    free(log);
}

int main(void)
{
    int next;

    while ((next = getchar()) != EOF) {
        if (next == '\n')
            continue;
        ungetc(next, stdin);
        answer();
    }
    return 0;
}
#endif
