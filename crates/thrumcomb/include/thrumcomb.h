/*
 * Thrumcomb for C: the seven public calls of libthrumcomb.a (made by `rt lib` in crates/thrumcomb, for x86-64 Linux).
 *
 * What every call does
 *
 *   It returns 0, or the number of a refusal from the table below.
 *   On 0 it has written its values to `results` and what it puts out to the lent rooms; `*place` is unchanged. (The log check has
 *   neither.)
 *   On a refusal it has written the refusal's place to `*place`, and nothing else is changed: `results` and every lent number and
 *   byte keep the content they had.
 *   What stands in a room after the numbers or bytes put out is unchanged too.
 *   It keeps no state and no pointer, asks for no memory, and calls nothing but `memcpy` and `memset`, which the compiler puts in: a
 *   program without a C library has to bring these two.
 *   Stack, in bytes at most: 100 for the counts, 400 for the writer, 2,200 for the replay and the running set, 2,600 for the log check,
 *   17,000 for the reader and the converter, which may put nothing into a lent room before all of the text stands.
 *
 * What a caller owes
 *
 *   Each pointer and length are true: `p, p_length` are that many numbers or bytes that may be read and, where p is not const,
 *   written. A pointer is never null and is aligned for its type, with a length of 0 too. Memory that is lent to be written (a room,
 *   `results`, `*place`) overlaps nothing else that is lent to the same call.
 *   No number, byte or length has to be tested beforehand: every content and every length has its answer.
 *
 * What is lent
 *
 *   table    task numbers, three a task in the order T, C, D: least separation, execution time, relative deadline
 *   trace    release numbers, two a release in the order time, task; tasks are numbered from 1 in table order
 *   procs    processors, 1 to 32
 *   policy   0 is EDF, 1 is EDF-CF
 *   end      the trace runs over slots 0 to end - 1; at most 100,000
 *   Lengths count numbers (or, of a text, bytes), not tasks or releases.
 *
 * Refusals
 *
 *   No.  given exactly when                                             place
 *    1   text over 60,000 bytes, or the converted one would be          0
 *    2   a line is badly formed                                         the line
 *    3   a line stands out of order or is missing                       the line
 *    4   processors not 1 to 32                                         0
 *    5   tasks not 1 to 32, or task numbers not in threes               0
 *    6   a task breaks 1 <= C <= D <= T <= 10,000                       the lowest such task
 *    7   end over 100,000                                               0
 *    8   a release names no task of the table                           the release
 *    9   a release is not later than the one before it by (time, task)  the release
 *   10   less than T since the last release of that task                the release
 *   11   a release time not below end                                   the release
 *   12   over 2,000 releases, or release numbers not in twos            0
 *   13   a lent room is too short                                       0
 *   14   policy not 0 or 1                                              0
 *   15   the named slot is not below end                                0
 *   16   a task without a release                                       the lowest such task
 *   17   a line of a slot log is badly formed, its tasks do not rise,   the line
 *        or its time is not the number of lines before it
 *   18   a slot of a log, before end, breaks the rule                   the line
 *   19   the number of lines of a log is not end                        0
 *
 *   Lines, tasks and releases count from 1. Of several, the first in this order is given: 4, 14, 5, 6, 7, 12, then release by release
 *   8, 11, 9, 10, then 16, then 13, then 15. The reader tests its rooms (13) first, then 1, then the smallest line at fault (2 before 3
 *   on one line), then the order above. The converter makes the reader's tests but that of its rooms, then 1 for the converted text, then
 *   13. 16 is made by every call that takes a trace or a text, so with no release, or end 0, each of them refuses.
 *   The log check makes the order above but 13 and 15; then line by line 17 and, where the time is before end, 18; last 19.
 */
#ifndef THRUMCOMB_H
#define THRUMCOMB_H

#include <stddef.h>
#include <stdint.h>

/* Room that is long enough for every case: numbers for the counts, the replay and the reader, bytes for the writer and the converter. */
#define THRUMCOMB_COUNTS_ROOM 32
#define THRUMCOMB_REPLAY_ROOM 6000
#define THRUMCOMB_TASK_ROOM 96
#define THRUMCOMB_RELEASE_ROOM 4000
#define THRUMCOMB_TEXT_ROOM 60000

#ifdef __cplusplus
extern "C" {
#endif

/*
 * The contention-free counts of a table. Refusals 4, 5, 6, 13.
 * out: one number a task, its free count, in table order.
 * results[0]: the number of tasks.
 */
uint32_t thrumcomb_counts(
    uint32_t procs,
    const uint32_t *table, size_t table_length,
    uint32_t *out, size_t out_length,
    size_t results[1],
    uint32_t *place);

/*
 * The replay of a case. Refusals 4 to 14, 16.
 * out: three numbers a release, in trace order: the verdict (1 met, 2 missed, 3 open); the finish time, or 0 where there is none;
 * the demotion time + 1, or 0 where never demoted. A job is demoted under EDF-CF alone, in the first slot that finds its remaining free
 * count at least its remaining execution: also where it is larger.
 * results[0], [1], [2]: how many are met, missed, open.
 */
uint32_t thrumcomb_replay(
    uint32_t procs, uint32_t policy,
    const uint32_t *table, size_t table_length,
    uint32_t end,
    const uint32_t *trace, size_t trace_length,
    uint32_t *out, size_t out_length,
    size_t results[3],
    uint32_t *place);

/*
 * The running set of one named slot. Refusals 4 to 12, 14, 15, 16.
 * results[0]: a number below 2^32 with bit (task - 1) set for each task that runs.
 */
uint32_t thrumcomb_running_set(
    uint32_t procs, uint32_t policy,
    const uint32_t *table, size_t table_length,
    uint32_t end,
    const uint32_t *trace, size_t trace_length,
    uint32_t slot,
    size_t results[1],
    uint32_t *place);

/*
 * The reader of a case text. Refusals 1 to 13, 16.
 * text: its lines end with a newline. One carriage return right before a newline is left out and counts among the 60,000 bytes; anywhere
 * else a return is badly formed (2). Where it has no policy line the policy is 0, EDF: thrumcomb_convert puts in the line that says so.
 * tasks: the task numbers; the room is at least THRUMCOMB_TASK_ROOM numbers long.
 * releases: the release numbers; the room is at least THRUMCOMB_RELEASE_ROOM numbers long.
 * results[0] to [4]: processors, policy, end, how many tasks (of three numbers each), how many releases (of two numbers each).
 */
uint32_t thrumcomb_read(
    const uint8_t *text, size_t text_length,
    uint32_t *tasks, size_t tasks_length,
    uint32_t *releases, size_t releases_length,
    size_t results[5],
    uint32_t *place);

/*
 * The writer of a case text. Refusals 4 to 14, 16.
 * out: the text, its newlines without returns and with no byte after it; 13 where the exact text does not fit.
 * results[0]: the text's length in bytes.
 */
uint32_t thrumcomb_write(
    uint32_t procs, uint32_t policy,
    const uint32_t *table, size_t table_length,
    uint32_t end,
    const uint32_t *trace, size_t trace_length,
    uint8_t *out, size_t out_length,
    size_t results[1],
    uint32_t *place);

/*
 * The converter of a case text that may have no policy line, so that it says its policy. Refusals 1 to 13, 16.
 * text: as the reader takes it. One that has its policy line is put out unchanged.
 * out: the text with `policy`, a tab, `edf` and a bare newline put in after its procs line; no other byte changes, and returns stay. Read,
 * it is the case that the text meant, and converting it again changes nothing. 13 where the exact text does not fit.
 * results[0]: the new text's length in bytes.
 */
uint32_t thrumcomb_convert(
    const uint8_t *text, size_t text_length,
    uint8_t *out, size_t out_length,
    size_t results[1],
    uint32_t *place);

/*
 * The check of a slot log: one line a slot, `slot`, the time, then the running tasks in rising order, parted by one tab each and ended
 * by a newline; numbers and returns as in a case text. Accepted (0) exactly if there are end lines and in every slot, the state following
 * the log, min(m, N) of the N present jobs run and none that waits comes strictly before one that runs, normal before demoted and then by
 * deadline; equal deadlines may go either way. Refusals 4 to 12, 14, 16, 17, 18, 19. The log may be of any length and content.
 */
uint32_t thrumcomb_check_log(
    uint32_t procs, uint32_t policy,
    const uint32_t *table, size_t table_length,
    uint32_t end,
    const uint32_t *trace, size_t trace_length,
    const uint8_t *log, size_t log_length,
    uint32_t *place);

#ifdef __cplusplus
}
#endif

#endif
