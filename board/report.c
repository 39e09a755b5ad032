/* report.c: the report over files, who made whom wait, in numbers.
 *
 *     report ARGUMENT..    sPATH is a schedule: prints its refusal, the refusal's line and the number of rows laid down,
 *                          then each row's entries, interrupts and joins
 *                          tPATH is a table to be added, 16 lines of 16 numbers of ten digits: prints 0 0 0, or 12 0 0
 *                          what cannot be read: prints unread
 *
 * Then prints the table over all of them, in the form of a table's file, so that it can be handed in again. It prints what
 * docs/RANDOM.md says under "A report in numbers", as the second program does. */
#include "pontivesca.h"

#include <inttypes.h>
#include <stdio.h>
#include <stdlib.h>

/* a schedule that is longer is refused whatever follows; a table has ten digits and a space or line feed for each count */
enum { BEGINNING = 54010, NUMBER = 11, TABLE = 16 * 16 * NUMBER };

static uint8_t text[BEGINNING];
static uint32_t table[16][16];

/* a file's first bytes, at most so many, in `text`: how many, or -1 where it cannot be read */
static long beginning(const char *path, size_t most) {
    FILE *file = fopen(path, "rb");
    size_t bytes;
    int failed;

    if (file == NULL)
        return -1;
    bytes = fread(text, 1, most, file);
    failed = ferror(file);
    fclose(file);
    return failed ? -1 : (long)bytes;
}

/* N, of a schedule that was not refused: the third pair of its line 1 */
static size_t processors(void) {
    const char pair[] = {(char)text[4], (char)text[5], '\0'};
    return strtoul(pair, NULL, 16);
}

static int schedule(const char *path) {
    struct pontivesca_tally rows[16];
    size_t line, laid;
    long bytes = beginning(path, BEGINNING);
    uint8_t refusal;

    if (bytes < 0)
        return 0;
    refusal = pontivesca_report_rows(text, (size_t)bytes, table, rows, 16, &line);
    laid = refusal == 0 ? processors() : 0;
    printf("%u %zu %zu", (unsigned)refusal, line, laid);
    for (size_t p = 0; p < laid; p++)
        printf(" %" PRIu32 " %" PRIu32 " %" PRIu32, rows[p].entries, rows[p].interrupts, rows[p].joins);
    printf("\n");
    return 1;
}

/* a number of ten digits, and the byte after it, if they are so and the number is a count */
static int number(const uint8_t *digits, char end, uint32_t *count) {
    uint64_t value = 0;
    for (int k = 0; k < NUMBER - 1; k++) {
        if (digits[k] < '0' || digits[k] > '9')
            return 0;
        value = 10 * value + (digits[k] - (uint64_t)'0');
    }
    *count = (uint32_t)value;
    return value <= UINT32_MAX && digits[NUMBER - 1] == end;
}

static int added(const char *path) {
    uint32_t other[16][16];

    /* a byte more than a table has, to see that there is none */
    if (beginning(path, TABLE + 1) != TABLE)
        return 0;
    for (int a = 0; a < 16; a++)
        for (int b = 0; b < 16; b++)
            if (!number(text + NUMBER * (16 * a + b), b == 15 ? '\n' : ' ', &other[a][b]))
                return 0;
    printf("%u 0 0\n", (unsigned)pontivesca_add(table, other));
    return 1;
}

int main(int count, char **arguments) {
    for (int k = 1; k < count; k++) {
        const char *argument = arguments[k];
        int told = argument[0] == 's' ? schedule(argument + 1) : argument[0] == 't' ? added(argument + 1) : 0;
        if (!told)
            printf("unread\n");
    }
    for (int a = 0; a < 16; a++)
        for (int b = 0; b < 16; b++)
            printf("%010" PRIu32 "%c", table[a][b], b == 15 ? '\n' : ' ');
    /* what is still in stdout's buffer may yet fail to be written */
    return fflush(stdout) == 0 && !ferror(stdout) ? 0 : 1;
}
