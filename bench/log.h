/* What bench/log.c checks, and what it takes from bench/replay.c beside the check of text.h. */
#ifndef LOG_H
#define LOG_H

#include <stddef.h>
#include <stdint.h>

uint32_t count_for(uint32_t procs, const uint32_t *table, size_t tasks, uint32_t l);
int check_log(uint32_t procs, uint32_t policy, const uint32_t *table, size_t table_len, uint32_t end, const uint32_t *trace,
              size_t trace_len, const uint8_t *log, size_t log_len, uint32_t *place);

#endif
