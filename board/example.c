/* example.c: document 01's worked example, made line by line and run through the library, and a report of two processors
 * that take turns. Prints the log of the first, then what each did in the second and who made whom wait. */
#include "pontivesca.h"

#include <inttypes.h>
#include <stdio.h>
#include <stdlib.h>

/* room for the longest schedule here: line 1 and 21 steps */
static uint8_t schedule[22 * 9];
static size_t bytes;

static void line(uint8_t kind, uint8_t first, uint8_t second) {
    bytes += pontivesca_line(kind, first, second, schedule + bytes, sizeof schedule - bytes);
}

static void steps(int times, uint8_t processor) {
    for (int k = 0; k < times; k++)
        line(2, 1, processor);
}

/* the plain edition with one processor, then three steps of processor 0 */
static int log_it(void) {
    size_t room, length, printed;
    uint8_t *log;

    bytes = 0;
    line(1, 0, 1);
    steps(3, 0);
    room = pontivesca_room(bytes);
    log = malloc(room);
    if (log == NULL)
        return 0;
    length = pontivesca_log(schedule, bytes, log, room);
    printed = fwrite(log, 1, length, stdout);
    free(log);
    return length > 0 && printed == length;
}

/* The plain edition with two: 1 enters, 0 joins, 1 hands on and joins again behind 0, 0 enters and hands on, 1 enters. So
 * one entry of 0 falls between the second join of 1 and its entry. */
static int report_it(void) {
    uint32_t table[16][16] = {{0}};
    struct pontivesca_tally rows[2];
    size_t refused_line;

    bytes = 0;
    line(1, 0, 2);
    steps(3, 1);
    steps(5, 0);
    steps(3, 1);
    steps(5, 1);
    steps(4, 0);
    steps(1, 1);
    if (pontivesca_report_rows(schedule, bytes, table, rows, 2, &refused_line) != 0)
        return 0;
    for (int p = 0; p < 2; p++)
        printf("processor %d: entries %" PRIu32 ", interrupts %" PRIu32 ", joins %" PRIu32 "\n", p, rows[p].entries,
               rows[p].interrupts, rows[p].joins);
    for (int a = 0; a < 2; a++)
        for (int b = 0; b < 2; b++)
            if (table[a][b] > 0)
                printf("entries of %d that made %d wait: %" PRIu32 "\n", a, b, table[a][b]);
    return 1;
}

int main(void) {
    int done = log_it() && report_it();
    /* what is still in stdout's buffer may yet fail to be written */
    return done && fflush(stdout) == 0 && !ferror(stdout) ? 0 : 1;
}
