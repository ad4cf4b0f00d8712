/*
 * Makes the calls of the archive of the crate thrumcomb that standard input names, and prints what each did. tests/driven.py writes
 * the one and holds the other against tests/replay.py.
 *
 * A call is a line: its name, then its arguments in the order of thrumcomb.h, each after one blank:
 *   n7            a number
 *   w4 7 8 9 1    a slice of four numbers; 7+3 may stand for 7 8 9
 *   b5 hello      a slice of five bytes, as they are
 * Any number, length and content may be given. What is not written so is not guessed: the driver says what is wrong and stops.
 *
 * What a call did is a line: the number returned and then, each after ` ;`, the place, the results and every slice in the order of the
 * call, those that are only read too. All of these stand between guard words, which are printed with them. Numbers are printed as they
 * are read, with the longest run that there is; bytes as two hexadecimal digits each.
 */
#include "thrumcomb.h"

int getchar(void);
int putchar(int byte);
int printf(const char *format, ...);
int dprintf(int file, const char *format, ...);
int strcmp(const char *a, const char *b);
void *malloc(size_t size);
void free(void *memory);
void exit(int status);

enum { GUARD = 8, MOST_RESULTS = 5, MOST_ARGUMENTS = 12, MOST_NAME = 40 };

/* ---- the call that is read */

static unsigned long line = 1;
static char name[MOST_NAME + 1];
static char kinds[MOST_ARGUMENTS + 1];

static struct argument {
    size_t value;               /* of a number: itself; of a slice: its length */
    void *memory;               /* of a slice: guard words, the slice, guard words */
} arguments[MOST_ARGUMENTS];

static uint32_t place[GUARD + 1 + GUARD];
static size_t results[GUARD + MOST_RESULTS + GUARD];

static void stop(const char *why)
{
    dprintf(2, "archive_drive: call %lu, %s: %s\n", line, name, why);
    exit(1);
}

/* ---- reading; `next` is the byte that is not yet taken */

static int next;

static void take(int byte)
{
    if (next != byte)
        stop("it is not written as a call is");
    next = getchar();
}

static uint32_t read_number(void)
{
    uint64_t value = 0;
    if (next < '0' || next > '9')
        stop("a number is missing");
    for (; next >= '0' && next <= '9'; next = getchar()) {
        value = 10 * value + (uint64_t)(next - '0');
        if (value > UINT32_MAX)
            stop("a number is over 4294967295");
    }
    return (uint32_t)value;
}

static void *memory_for(size_t length, size_t size)
{
    void *memory = malloc((GUARD + length + GUARD) * size);
    if (memory == 0)
        stop("there is no memory for a slice");
    return memory;
}

static void *read_words(size_t length)
{
    uint32_t *memory = memory_for(length, sizeof *memory), value = 0, left = 0;
    for (size_t i = 0; i < GUARD; i++)
        memory[i] = memory[GUARD + length + i] = 2654435769u + (uint32_t)i;
    for (size_t i = 0; i < length; i++, left--) {
        if (left == 0) {
            take(' ');
            value = read_number();
            left = 1;
            if (next == '+') {
                take('+');
                left = read_number();
            }
            if (left == 0 || left > length - i || left - 1 > UINT32_MAX - value)
                stop("a run of numbers does not fit");
        }
        memory[GUARD + i] = value++;
    }
    return memory;
}

static void *read_bytes(size_t length)
{
    uint8_t *memory = memory_for(length, 1);
    for (size_t i = 0; i < GUARD; i++)
        memory[i] = memory[GUARD + length + i] = (uint8_t)(185 + i);
    take(' ');
    for (size_t i = 0; i < length; i++) {
        if (next < 0)
            stop("the input ends within a slice");
        memory[GUARD + i] = (uint8_t)next;
        next = getchar();
    }
    return memory;
}

static void read_argument(struct argument *argument, int kind)
{
    take(kind);
    argument->value = read_number();
    argument->memory = kind == 'w' ? read_words(argument->value) : kind == 'b' ? read_bytes(argument->value) : 0;
}

static void read_call(void)
{
    size_t n = 0;
    for (name[0] = 0; n < MOST_NAME && next > ' '; next = getchar()) {
        name[n++] = (char)next;
        name[n] = 0;
    }
    for (n = 0; n < MOST_ARGUMENTS && next == ' '; n++) {
        take(' ');
        if (next != 'n' && next != 'w' && next != 'b')
            stop("an argument is of no kind that there is");
        kinds[n] = (char)next;
        kinds[n + 1] = 0;
        read_argument(&arguments[n], next);
    }
    kinds[n] = 0;
    take('\n');
}

/* ---- the calls: one line each */

/* Whether a call is named so; if it is, its arguments must be of these kinds. */
static int is(const char *called, const char *of)
{
    if (strcmp(name, called) != 0)
        return 0;
    if (strcmp(kinds, of) != 0)
        stop("its arguments are of other kinds");
    return 1;
}

#define NUMBER(i) ((uint32_t)arguments[i].value)
#define WORDS(i) (uint32_t *)arguments[i].memory + GUARD, arguments[i].value
#define BYTES(i) (uint8_t *)arguments[i].memory + GUARD, arguments[i].value
#define CASE NUMBER(0), NUMBER(1), WORDS(2), NUMBER(3), WORDS(4)
#define ANSWER results + GUARD, place + GUARD

static uint32_t make_call(void)
{
    if (is("counts", "nww"))
        return thrumcomb_counts(NUMBER(0), WORDS(1), WORDS(2), ANSWER);
    if (is("replay", "nnwnww"))
        return thrumcomb_replay(CASE, WORDS(5), ANSWER);
    if (is("running_set", "nnwnwn"))
        return thrumcomb_running_set(CASE, NUMBER(5), ANSWER);
    if (is("read", "bww"))
        return thrumcomb_read(BYTES(0), WORDS(1), WORDS(2), ANSWER);
    if (is("write", "nnwnwb"))
        return thrumcomb_write(CASE, BYTES(5), ANSWER);
    if (is("check_log", "nnwnwb"))
        return thrumcomb_check_log(CASE, BYTES(5), place + GUARD);
    if (is("convert", "bb"))
        return thrumcomb_convert(BYTES(0), BYTES(1), ANSWER);
    stop("there is no call of that name");
    return 0;
}

/* Place and results hold guard words all over, so that what a call leaves alone shows itself. */
static void set_answers(void)
{
    for (size_t i = 0; i < GUARD + 1 + GUARD; i++)
        place[i] = 2654435769u + (uint32_t)i;
    for (size_t i = 0; i < GUARD + MOST_RESULTS + GUARD; i++)
        results[i] = 11400714819323198485u + i;
}

/* ---- what a call did */

static void say_run(size_t first, size_t count)
{
    if (count == 1)
        printf(" %zu", first);
    else
        printf(" %zu+%zu", first, count);
}

static void say_words(const uint32_t *words, size_t n)
{
    printf(" ;");
    for (size_t at = 0, end; at < n; at = end) {
        for (end = at + 1; end < n && words[end] != 0 && words[end] - 1 == words[end - 1]; end++)
            ;
        say_run(words[at], end - at);
    }
}

static void say_bytes(const uint8_t *bytes, size_t n)
{
    static const char digits[] = "0123456789abcdef";
    printf(" ; ");
    for (size_t i = 0; i < n; i++) {
        putchar(digits[bytes[i] >> 4]);
        putchar(digits[bytes[i] & 15]);
    }
}

static void say_results(void)
{
    printf(" ;");
    for (size_t i = 0; i < GUARD + MOST_RESULTS + GUARD; i++)
        printf(" %zu", results[i]);
}

static void say_call(uint32_t number)
{
    printf("%u", number);
    say_words(place, GUARD + 1 + GUARD);
    say_results();
    for (size_t i = 0; kinds[i] != 0; i++) {
        if (kinds[i] == 'w')
            say_words(arguments[i].memory, GUARD + arguments[i].value + GUARD);
        if (kinds[i] == 'b')
            say_bytes(arguments[i].memory, GUARD + arguments[i].value + GUARD);
        free(arguments[i].memory);
    }
    printf("\n");
}

int main(void)
{
    next = getchar();
    for (; next >= 0; line++) {
        read_call();
        set_answers();
        say_call(make_call());
    }
    return 0;
}
