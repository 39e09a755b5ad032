/* pontivesca.h: what a C program calls of libboard.a, the proved bench as a static library for x86-64 Linux.
 *
 * What these functions answer and which bytes they leave is proved for all arguments that are what they say: a pointer
 * is not NULL and points to at least that many bytes or numbers, also where that is 0, and what is written to shares no
 * byte with another argument. Nothing is allocated or kept between calls. */
#ifndef PONTIVESCA_H
#define PONTIVESCA_H

#include <stddef.h>
#include <stdint.h>

#ifdef __cplusplus
extern "C" {
#endif

/* The room, in bytes, that a buffer must have for the log of a schedule of `bytes` bytes. */
size_t pontivesca_room(size_t bytes);

/* Runs a schedule and writes its log, as lockbench prints it, into the first bytes of `out`. Answers how many bytes
 * that is, 11 or more: the shortest log is an 05 line alone. Answers 0, and writes nothing, exactly where `room` is
 * below pontivesca_room(bytes). A schedule's digits may be of either case, also mixed within a line; the log's are of
 * upper case. */
size_t pontivesca_log(const uint8_t *schedule, size_t bytes, uint8_t *out, size_t room);

/* Writes a line of a schedule, `kind first second check` and a line feed, in upper case, into the first bytes of `out`.
 * Answers 9. Answers 0, and writes nothing, where `room` is below 9. Line 1 is kind 1, edition (0 plain, 1 drawn,
 * 2 guarded, 3 old), N; a later line is kind 2, event (1 step, 2 raise), processor. The values are not looked at: it is
 * the run of the schedule that refuses them. */
size_t pontivesca_line(uint8_t kind, uint8_t first, uint8_t second, uint8_t *out, size_t room);

/* One lent row of a report: what a processor did in one schedule. */
struct pontivesca_tally {
    uint32_t entries, interrupts, joins;
};

/* Reports a schedule: who made whom wait in it. Answers 0, sets *line to 0, adds to table[a][b] how many entries of a
 * fell between a join of b and the entry that join led to, and overwrites the first 3 N numbers of `rows`, three for each
 * processor, with its entries, its interrupts taken and its joins. N is the third pair of the schedule's line 1.
 *
 * What is refused leaves the table and all numbers as they were. The answer is then the refusal, and *line its line: the
 * schedule's own, as its log's 05 line has it (1 to 9; the line of 1 is 0); or 13, `numbers` is below 3 N; or 12, a count
 * would pass 4,294,967,295. The line of 13 and 12 is 0. Of several the first in this order is answered. */
uint8_t pontivesca_report(const uint8_t *schedule, size_t bytes, uint32_t table[16][16], uint32_t *rows, size_t numbers,
                          size_t *line);

/* The same with rows for numbers, passed on as they are: a row is three numbers and nothing between them. The first N of
 * `lent` rows are overwritten, and 13 is answered where `lent` is below N. */
static inline uint8_t pontivesca_report_rows(const uint8_t *schedule, size_t bytes, uint32_t table[16][16],
                                             struct pontivesca_tally *rows, size_t lent, size_t *line) {
    return pontivesca_report(schedule, bytes, table, (uint32_t *)rows, 3 * lent, line);
}

/* Adds the counts of another table to a table, so that schedules may be reported in parts. Answers 0; or 12, and the
 * table is as it was, where a count would pass 4,294,967,295. `other` is only read; it is not const, as C lets nobody
 * pass a table that is not const for one that is. */
uint8_t pontivesca_add(uint32_t table[16][16], uint32_t other[16][16]);

#ifdef __cplusplus
}
#endif

#endif
