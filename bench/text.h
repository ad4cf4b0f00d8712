/* What bench/text.c reads, writes and converts. */
#ifndef TEXT_H
#define TEXT_H

#include <stddef.h>
#include <stdint.h>

#define MOST_TASKS 32
#define MOST_RELEASES 2000
#define MOST_BYTES 60000

struct read_case {
    uint32_t procs, policy, end;
    size_t tasks, releases;
    uint32_t table[3 * MOST_TASKS];
    uint32_t trace[2 * MOST_RELEASES];
};

int check(uint32_t procs, uint32_t policy, const uint32_t *table, size_t table_len, uint32_t end, const uint32_t *trace, size_t trace_len,
          size_t room_len, uint32_t *place);
int read_text(const uint8_t *text, size_t length, struct read_case *c, uint32_t *place);
size_t write_text(const struct read_case *c, uint8_t *out);
int convert_text(const uint8_t *text, size_t length, uint8_t *out, size_t room, size_t *converted, uint32_t *place);

#endif
