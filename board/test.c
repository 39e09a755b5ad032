/* test.c: the library at its edges, and on a schedule of standard input.
 *
 *     test           a buffer too short by one byte, one that just fits, a schedule in lower and in mixed case, one that
 *                    is too long, no bytes at all, and a line's buffer
 *     test report    rows lent from none to one too many, tables in which a count is just met and just passed, refused
 *                    schedules, parts added up, and random schedules, each report held to a plain count of its run
 *     test log       a schedule on standard input, its log on standard output
 *
 * The first two say what is wrong, print how many things they tried, and end with 1 or 0. */
#include "pontivesca.h"

#include <stdio.h>
#include <string.h>

enum { LONGEST = 54009, MOST_EVENTS = 6000, MARK = 0xA5 };

static uint8_t schedule[LONGEST + 2];
static uint8_t out[17 * 6001 + 12];
static int tried = 0;
static int wrong = 0;

static void expect(int holds, const char *what) {
    tried++;
    if (!holds) {
        fprintf(stderr, "test: %s\n", what);
        wrong = 1;
    }
}

/* ---- the log and the lines */

/* whether the bytes of `out` from `from` on are as they were set */
static int untouched(size_t from) {
    for (size_t k = from; k < sizeof out; k++)
        if (out[k] != MARK)
            return 0;
    return 1;
}

/* whether a run leaves just this log in `out`, with a buffer of `room` bytes */
static int logs(size_t bytes, size_t room, const char *log) {
    size_t length = strlen(log);
    memset(out, MARK, sizeof out);
    return pontivesca_log(schedule, bytes, out, room) == length && memcmp(out, log, length) == 0 && untouched(length);
}

/* whether a run with a buffer of `room` bytes is refused and leaves every byte */
static int refused(size_t bytes, size_t room) {
    memset(out, MARK, sizeof out);
    return pontivesca_log(schedule, bytes, out, room) == 0 && untouched(0);
}

static void edges(void) {
    static const char worked[] = "010001FE\n020100FD\n020100FD\n020100FD\n";
    static const char its_log[] = "010001FE\n030002FF00FF00FD\n030003FF00FF00FC\n0300090000FF04F1\n040003F9\n";
    size_t bytes = sizeof worked - 1;

    expect(pontivesca_room(0) == 11, "the room of no bytes");
    expect(pontivesca_room(bytes) == 4 * 17 + 11, "the room of four lines");
    expect(pontivesca_room(LONGEST) == 6001 * 17 + 11, "the room of the longest schedule");
    expect(pontivesca_room(LONGEST + 1) == 11, "the room of a schedule that is too long");
    expect(pontivesca_room(SIZE_MAX) == 11, "the room of the largest number");

    memcpy(schedule, worked, bytes);
    expect(refused(bytes, pontivesca_room(bytes) - 1), "a buffer short by one byte is not refused, or is written to");
    expect(refused(bytes, 0), "a buffer of no bytes is not refused, or is written to");
    expect(logs(bytes, pontivesca_room(bytes), its_log), "the worked example in a buffer that just fits");
    expect(logs(bytes, sizeof out, its_log), "the worked example in a larger buffer");
    expect(logs(0, 11, "05020001F8\n"), "no bytes at all");

    memcpy(schedule, "010001fe\n020100fd\n020100fd\n020100fd\n", bytes);
    expect(logs(bytes, pontivesca_room(bytes), its_log), "the worked example in lower case");
    memcpy(schedule, "010001fE\n020100Fd\n020100fd\n020100fD\n", bytes);
    expect(logs(bytes, pontivesca_room(bytes), its_log), "the worked example in mixed case");
    memcpy(schedule, "010001ge\n", 9);
    expect(logs(9, pontivesca_room(9), "05030001F7\n"), "a letter that is no digit");

    memset(schedule, '\n', sizeof schedule);
    expect(logs(LONGEST + 1, 11, "05010000FA\n"), "54,010 bytes");
    expect(refused(LONGEST + 1, 10), "54,010 bytes with a buffer of ten");
    expect(logs(LONGEST, pontivesca_room(LONGEST), "05030001F7\n"), "54,009 line feeds");

    memset(out, MARK, sizeof out);
    expect(pontivesca_line(2, 1, 0, out, 8) == 0 && untouched(0), "a line in a buffer of eight");
    expect(pontivesca_line(2, 1, 0, out, 9) == 9 && memcmp(out, "020100FD\n", 9) == 0 && untouched(9), "a line");
    expect(pontivesca_line(255, 255, 255, out, 9) == 9 && memcmp(out, "FFFFFF03\n", 9) == 0, "a line of high bytes");
}

/* ---- a plain count of a run, from the definition: nothing is carried along, every entry is looked back from */

/* what an accepted event was for its processor */
struct event {
    unsigned processor;
    int joined, entered, interrupted;
};

static struct event run[MOST_EVENTS];
static size_t events;
static unsigned own_refusal, processors;
static size_t own_line;

static uint32_t counts[16][16];
static uint32_t did[16][3];

/* a pair of digits, of which a log's are in upper case */
static unsigned pair(const uint8_t *text) {
    static const char digits[] = "0123456789ABCDEF";
    return 16 * (unsigned)(strchr(digits, text[0]) - digits) + (unsigned)(strchr(digits, text[1]) - digits);
}

/* The run of the schedule, read off its log, which tells whose event it was and at which place that one then is; whether
 * it was a step, 01, or a raise, 02, stands in the schedule. */
static void read_run(size_t bytes) {
    unsigned place[16] = {0};
    const uint8_t *line = out;

    events = own_refusal = processors = own_line = 0;
    pontivesca_log(schedule, bytes, out, sizeof out);
    if (pair(line) == 1) {
        processors = pair(line + 4);
        line += 9;
    }
    for (; pair(line) == 3; line += 17) {
        struct event *now = &run[events++];
        unsigned p = pair(line + 2), from = place[p], to = pair(line + 4);
        int step = pair(schedule + 9 * events + 2) == 1;
        now->processor = p;
        now->joined = step && from == 3;
        now->entered = step && to == 9;
        now->interrupted = step && ((from == 10 && to == 11) || (from == 24 && to == 25));
        place[p] = to;
    }
    if (pair(line) == 5) {
        own_refusal = pair(line + 2);
        own_line = 256 * pair(line + 4) + pair(line + 6);
    }
}

/* the number of the processor's latest join up to and with event `last`; the first event is number 1, 0 is none */
static size_t latest_join(unsigned processor, size_t last) {
    while (last > 0 && !(run[last - 1].joined && run[last - 1].processor == processor))
        last--;
    return last;
}

static void count_run(void) {
    memset(counts, 0, sizeof counts);
    memset(did, 0, sizeof did);
    for (size_t number = 1; number <= events; number++) {
        const struct event *now = &run[number - 1];
        unsigned b = now->processor;
        size_t join = latest_join(b, number);
        did[b][0] += now->entered;
        did[b][1] += now->interrupted;
        did[b][2] += now->joined;
        if (!now->entered || join == 0)
            continue;
        for (size_t between = join + 1; between < number; between++)
            if (run[between - 1].entered)
                counts[run[between - 1].processor][b]++;
    }
}

/* ---- reports, each held to that count */

static uint32_t table[16][16];

/* room for 17 rows, and as much again as nobody lends */
static uint32_t rows[2 * 3 * 17];

static int would_pass(void) {
    for (int a = 0; a < 16; a++)
        for (int b = 0; b < 16; b++)
            if (counts[a][b] > UINT32_MAX - table[a][b])
                return 1;
    return 0;
}

/* the refusal of the schedule's report, with these rows lent */
static unsigned wanted(size_t lent) {
    if (own_refusal != 0)
        return own_refusal;
    if (lent < processors)
        return 13;
    return would_pass() ? 12 : 0;
}

/* Reports the schedule with so many numbers lent, over the table. Answers the refusal, or -1 where anything is not as the
 * count has it: the refusal, its line, a cell of the table, a number lent or one that is not. */
static int report(size_t bytes, size_t numbers) {
    static uint32_t was[16][16];
    size_t line = MARK, laid;
    unsigned refusal;

    read_run(bytes);
    count_run();
    refusal = wanted(numbers / 3);
    laid = refusal == 0 ? 3 * processors : 0;
    memcpy(was, table, sizeof was);
    for (size_t k = 0; k < sizeof rows / sizeof rows[0]; k++)
        rows[k] = MARK + (uint32_t)k;

    if (pontivesca_report(schedule, bytes, table, rows, numbers, &line) != refusal)
        return -1;
    if (line != (refusal == own_refusal ? own_line : 0))
        return -1;
    for (int a = 0; a < 16; a++)
        for (int b = 0; b < 16; b++)
            if (table[a][b] != was[a][b] + (refusal == 0 ? counts[a][b] : 0))
                return -1;
    for (size_t k = 0; k < sizeof rows / sizeof rows[0]; k++)
        if (rows[k] != (k < laid ? did[k / 3][k % 3] : MARK + k))
            return -1;
    return (int)refusal;
}

/* the same over a table of zeros */
static int report_alone(size_t bytes, size_t numbers) {
    memset(table, 0, sizeof table);
    return report(bytes, numbers);
}

static uint32_t drawn;

static unsigned draw(unsigned below) {
    drawn = drawn * 1103515245 + 12345;
    return (drawn >> 16) % below;
}

/* a random schedule in `schedule`; how many bytes it has */
static size_t make(uint32_t seed, unsigned edition, unsigned n, unsigned lines) {
    size_t bytes = pontivesca_line(1, (uint8_t)edition, (uint8_t)n, schedule, sizeof schedule);
    unsigned p = 0, stays;

    drawn = seed;
    stays = 1 + draw(6);
    for (unsigned k = 0; k < lines; k++) {
        if (draw(stays) == 0)
            p = draw(n);
        bytes += pontivesca_line(2, draw(6) == 0 ? 2 : 1, (uint8_t)p, schedule + bytes, sizeof schedule - bytes);
    }
    return bytes;
}

/* every number of rows, and one or two numbers beyond the last row */
static void lent(void) {
    for (unsigned n = 1; n <= 16; n += 5) {
        size_t bytes = make(n, 2, n, 300);
        for (size_t numbers = 0; numbers < 3 * 18; numbers++)
            expect(report_alone(bytes, numbers) == (numbers < 3 * n ? 13 : 0), "so many numbers lent");
    }
}

static void tables(void) {
    size_t bytes = make(7, 2, 4, 2000);
    expect(report_alone(bytes, 12) == 0, "a crowded schedule");

    for (int a = 0; a < 16; a++)
        for (int b = 0; b < 16; b++)
            table[a][b] = UINT32_MAX - counts[a][b];
    expect(report(bytes, 12) == 0, "every count is just met");
    expect(table[3][12] == UINT32_MAX && table[1][2] == UINT32_MAX, "and is then 4,294,967,295");
    expect(report(bytes, 12) == 12, "every count is passed");
    expect(report(bytes, 11) == 13, "13 comes before 12");
    expect(report(bytes - 1, 0) == 2, "what the schedule is refused for comes before 13 and 12");

    for (int a = 0; a < 4; a++)
        for (int b = 0; b < 4; b++)
            if (a != b) {
                expect(counts[a][b] > 0, "a count of a crowded schedule is 0");
                memset(table, 0, sizeof table);
                table[a][b] = UINT32_MAX - counts[a][b];
                expect(report(bytes, 12) == 0, "a single count is just met");
                memset(table, 0, sizeof table);
                table[a][b] = UINT32_MAX - counts[a][b] + 1;
                expect(report(bytes, 12) == 12, "a single count is just passed");
            }
}

/* refused for each reason there is; each leaves the table and all numbers, and tells its line */
static void refusals(void) {
    size_t bytes = make(5, 1, 3, 400);
    memset(table, MARK, sizeof table);
    expect(report(0, 48) == 2 && own_line == 1, "no bytes at all");
    expect(report(bytes - 1, 48) == 2 && own_line == 401, "a last line cut short");
    schedule[9 * 200] = 'G';
    expect(report(bytes, 48) == 3 && own_line == 201, "a letter that is no digit");
    schedule[9 * 200] = '1';
    expect(report(bytes, 48) == 4 && own_line == 201, "a check that does not come to 0");
    pontivesca_line(3, 1, 0, schedule + 9 * 200, 9);
    expect(report(bytes, 48) == 5 && own_line == 201, "a line of another kind");
    pontivesca_line(2, 3, 0, schedule + 9 * 200, 9);
    expect(report(bytes, 48) == 8 && own_line == 201, "an event that is none");
    pontivesca_line(2, 1, 3, schedule + 9 * 200, 9);
    expect(report(bytes, 48) == 9 && own_line == 201, "a processor that is none");
    pontivesca_line(1, 4, 3, schedule, 9);
    expect(report(bytes, 48) == 6 && own_line == 1, "an edition that is none");
    pontivesca_line(1, 1, 17, schedule, 9);
    expect(report(bytes, 48) == 7 && own_line == 1, "17 processors");
    memset(schedule, '\n', sizeof schedule);
    expect(report(LONGEST + 1, 48) == 1 && own_line == 0, "54,010 bytes");
    expect(table[0][0] == 0x01010101u * MARK, "the table is as it was after all of them");
}

/* rows in place of numbers */
static void as_rows(void) {
    struct pontivesca_tally lent_rows[4];
    size_t bytes = make(9, 2, 3, 2000), line = MARK;

    expect(sizeof lent_rows[0] == 3 * sizeof(uint32_t), "a row is not three numbers");
    expect(report_alone(bytes, 9) == 0, "the report in numbers");
    expect(did[0][0] != did[0][1] && did[0][1] != did[0][2] && did[0][2] != did[0][0], "a row's numbers cannot be told apart");
    memset(table, 0, sizeof table);
    memset(lent_rows, MARK, sizeof lent_rows);
    expect(pontivesca_report_rows(schedule, bytes, table, lent_rows, 2, &line) == 13 && line == 0, "two rows for three");
    expect(lent_rows[0].entries == 0x01010101u * MARK, "and they are as they were");
    expect(pontivesca_report_rows(schedule, bytes, table, lent_rows, 4, &line) == 0 && line == 0, "four rows for three");
    for (int p = 0; p < 3; p++)
        expect(lent_rows[p].entries == did[p][0] && lent_rows[p].interrupts == did[p][1] && lent_rows[p].joins == did[p][2],
               "a processor's row");
    expect(lent_rows[3].entries == 0x01010101u * MARK && lent_rows[3].joins == 0x01010101u * MARK, "the row after them");
}

/* two parts, each begun from nothing, add up to both in one; and a sum that is just met, and just passed */
static void sums(void) {
    static uint32_t one[16][16], other[16][16], both[16][16];
    size_t bytes = make(11, 2, 5, 3000);

    expect(report_alone(bytes, 15) == 0, "one part");
    memcpy(one, table, sizeof one);
    bytes = make(12, 0, 3, 3000);
    expect(report(bytes, 9) == 0, "and the other after it");
    memcpy(both, table, sizeof both);
    expect(report_alone(bytes, 9) == 0, "the other part alone");
    memcpy(other, table, sizeof other);
    expect(memcmp(one, both, sizeof one) != 0 && memcmp(other, both, sizeof other) != 0, "neither part charges nothing");
    expect(pontivesca_add(one, other) == 0 && memcmp(one, both, sizeof one) == 0, "the parts do not add up to both");
    expect(memcmp(table, other, sizeof other) == 0, "what is added is only read");

    for (int a = 0; a < 16; a++)
        for (int b = 0; b < 16; b++) {
            one[a][b] = 16 * (uint32_t)a + (uint32_t)b;
            other[a][b] = UINT32_MAX - one[a][b];
        }
    memcpy(table, other, sizeof table);
    memset(both, 0xFF, sizeof both);
    expect(pontivesca_add(table, one) == 0 && memcmp(table, both, sizeof both) == 0, "every sum is just met");
    for (int a = 0; a < 16; a++)
        for (int b = 0; b < 16; b++) {
            memcpy(table, other, sizeof table);
            one[a][b]++;
            expect(pontivesca_add(table, one) == 12 && memcmp(table, other, sizeof table) == 0, "a sum is just passed");
            one[a][b]--;
        }
}

/* random schedules of every edition and number of processors, some of them damaged, with rows lent at random, over one
 * table that is carried on */
static void at_random(void) {
    uint64_t charged = 0;
    unsigned refused_ones = 0;

    memset(table, 0, sizeof table);
    for (unsigned k = 0; k < 640; k++) {
        size_t bytes = make(1000 + k, k % 4, 1 + k / 4 % 16, k % 64 == 63 ? MOST_EVENTS : 50 + 4 * k);
        int refusal;
        if (k % 8 == 7)
            schedule[draw((unsigned)bytes)] = (uint8_t)draw(128);
        refusal = report(bytes, 3 * (15 + draw(3)) + draw(3));
        expect(refusal >= 0, "a random schedule is not reported as it is counted");
        refused_ones += refusal > 0;
        for (int a = 0; refusal == 0 && a < 16; a++)
            for (int b = 0; b < 16; b++)
                charged += counts[a][b];
    }
    expect(charged > 10000 && refused_ones > 40, "the random schedules charge next to nothing, or next to none is refused");
}

int main(int count, char **arguments) {
    if (count == 2 && strcmp(arguments[1], "log") == 0) {
        size_t bytes = fread(schedule, 1, sizeof schedule, stdin);
        size_t length = pontivesca_log(schedule, bytes, out, sizeof out);
        return length > 0 && fwrite(out, 1, length, stdout) == length && fflush(stdout) == 0 ? 0 : 1;
    }
    if (count == 2 && strcmp(arguments[1], "report") == 0) {
        lent();
        tables();
        refusals();
        as_rows();
        sums();
        at_random();
    } else {
        edges();
    }
    printf("%d\n", tried);
    return wrong;
}
