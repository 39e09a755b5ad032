/* peer.c: lockbench once more, in C, after document 01 and the requests: a schedule on standard input, its log on
 * standard output. It is a yardstick for speed and no test, and nothing is proved of it: the state stands in one static
 * struct, each act writes the cells that it names in place, and nothing is copied. `benchmark/run` compiles it, compares
 * its logs and sets its time beside lockbench's. */
#include <stddef.h>
#include <stdint.h>
#include <unistd.h>

enum { NONE = 255, PROCESSORS = 16, LINE = 9, ROW_LINE = 17, REFUSAL_LINE = 11, LONGEST = 54009 };
enum { PLAIN, DRAWN, GUARDED, OLD };
enum { RELEASED, LOCKED, PREEMPTED, RP };
enum {
    REST, GATE, CLEAR, SWAP, ARM, LINK, CLAIM, SPIN, SETTLE, INSIDE, POLL, SERVICE,
    BACK, REGAIN, LOOK, CLOSE, AWAIT, HAND, FENCE, PARK, PEEK, TAKE, LIFT,
    OLD_TRY, OLD_POLL, OLD_SERVICE, OLD_FREE, REREAD, LOST
};

struct row { uint8_t next, locked, guard, flag, place, pred, succ, nx; };

static struct { uint8_t edition, n, tail; struct row rows[PROCESSORS]; } lock;
static uint8_t schedule[LONGEST + 1], printed[ROW_LINE * (LONGEST / LINE) + REFUSAL_LINE];
static uint8_t *out = printed;

/* Frames. Of each byte: the value of a digit of either case, 256 where it is none. */
static uint16_t value[256];

static void make_values(void) {
    for (int b = 0; b < 256; b++)
        value[b] = (uint16_t)('0' <= b && b <= '9'   ? b - '0'
                              : 'A' <= b && b <= 'F' ? b - 'A' + 10
                              : 'a' <= b && b <= 'f' ? b - 'a' + 10
                                                     : 256);
}

static inline unsigned pair_at(const uint8_t *text) {
    return (unsigned)value[text[0]] << 4 | value[text[1]];
}

/* the refusal of the line that begins the text, 2 to 5; or 0, and its second and third pair */
static inline int read_line(const uint8_t *text, size_t left, unsigned kind, uint8_t *second, uint8_t *third) {
    if (left < LINE || text[LINE - 1] != '\n')
        return 2;
    unsigned a = pair_at(text), b = pair_at(text + 2), c = pair_at(text + 4), d = pair_at(text + 6);
    if ((a | b | c | d) > 255)
        return 3;
    if ((a + b + c + d) % 256 != 0)
        return 4;
    if (a != kind)
        return 5;
    *second = (uint8_t)b;
    *third = (uint8_t)c;
    return 0;
}

static inline void put_pair(uint8_t *at, uint8_t v) {
    at[0] = (uint8_t)"0123456789ABCDEF"[v >> 4];
    at[1] = (uint8_t)"0123456789ABCDEF"[v & 15];
}

/* a line of so many values, the check and a line feed: 01, 04 and 05 */
static void write_line(const uint8_t *values, int count) {
    uint8_t sum = 0;
    for (int i = 0; i < count; i++) {
        put_pair(out + 2 * i, values[i]);
        sum = (uint8_t)(sum + values[i]);
    }
    put_pair(out + 2 * count, (uint8_t)-sum);
    out[2 * count + 2] = '\n';
    out += 2 * count + 3;
}

/* the 03 line: it is written after each event, so without a loop */
static inline void write_row(uint8_t p, int entry) {
    const struct row own = lock.rows[p];
    uint8_t *at = out, tail = lock.tail, marks = (uint8_t)(own.flag | own.guard << 1 | entry << 2);
    put_pair(at, 3);
    put_pair(at + 2, p);
    put_pair(at + 4, own.place);
    put_pair(at + 6, tail);
    put_pair(at + 8, own.locked);
    put_pair(at + 10, own.next);
    put_pair(at + 12, marks);
    put_pair(at + 14, (uint8_t)-(3 + p + own.place + tail + own.locked + own.next + marks));
    at[16] = '\n';
    out = at + ROW_LINE;
}

/* The lock. */
static int fresh(uint8_t edition, uint8_t n) {
    if (edition > OLD)
        return 6;
    if (n == 0 || n > PROCESSORS)
        return 7;
    lock.edition = edition;
    lock.n = n;
    lock.tail = NONE;
    for (int i = 0; i < PROCESSORS; i++)
        lock.rows[i] = (struct row){NONE, RELEASED, 0, 0, REST, NONE, NONE, NONE};
    return 0;
}

static void to_queue(struct row *own) {
    own->place = lock.edition == GUARDED ? GATE : CLEAR;
}

static void to_hand(struct row *own, uint8_t succ) {
    own->succ = succ;
    own->place = HAND;
}

/* the choice of place 22 */
static void onward(struct row *own) {
    if (own->nx == NONE) own->place = REST;
    else to_hand(own, own->nx);
}

/* "to 22" */
static void to_lift(struct row *own) {
    if (lock.edition == DRAWN) onward(own);
    else own->place = LIFT;
}

/* the exchange of a locked cell, and the place where it leads */
static int exchange(struct row *r, uint8_t was, uint8_t becomes, struct row *own, uint8_t place) {
    if (r->locked != was)
        return 0;
    r->locked = becomes;
    own->place = place;
    return 1;
}

/* places 4 to 6 have a pred, 17 to 22 and 27 a succ */
static void step(uint8_t p) {
    struct row *rows = lock.rows, *own = &rows[p];
    int plain = lock.edition == PLAIN, drawn = lock.edition == DRAWN, old = lock.edition == OLD;
    switch (own->place) {
    case REST: if (own->flag) own->flag = 0; else if (old) own->place = OLD_TRY; else to_queue(own); break;
    case GATE: if (!own->guard) own->place = CLEAR; break;
    case CLEAR: own->next = NONE; own->place = SWAP; break;
    case SWAP: own->pred = lock.tail; lock.tail = p; own->place = own->pred == NONE ? INSIDE : ARM; break;
    case ARM: own->locked = LOCKED; own->place = LINK; break;
    case LINK: rows[own->pred].next = p; own->place = plain ? SPIN : CLAIM; break;
    case CLAIM: if (!exchange(&rows[own->pred], RP, RELEASED, own, SETTLE)) own->place = SPIN; break;
    case SPIN: if (own->locked == RELEASED) own->place = INSIDE; else if (!plain) own->place = POLL; break;
    case SETTLE: own->locked = RELEASED; own->place = INSIDE; break;
    case INSIDE: own->place = old ? OLD_FREE : LOOK; break;
    case POLL:
        if (own->flag && exchange(own, LOCKED, PREEMPTED, own, SERVICE)) own->flag = 0;
        else own->place = SPIN;
        break;
    case SERVICE: own->place = BACK; break;
    case BACK: if (!exchange(own, PREEMPTED, LOCKED, own, SPIN)) own->place = REGAIN; break;
    case REGAIN: if (!exchange(own, RP, RELEASED, own, SPIN)) to_queue(own); break;
    case LOOK: if (own->next == NONE) own->place = CLOSE; else to_hand(own, own->next); break;
    case CLOSE: if (lock.tail == p) { lock.tail = NONE; own->place = REST; } else own->place = AWAIT; break;
    case AWAIT: if (own->next != NONE) to_hand(own, own->next); break;
    case HAND:
        if (plain) { rows[own->succ].locked = RELEASED; own->place = REST; }
        else if (exchange(&rows[own->succ], LOCKED, RELEASED, own, REST)) break;
        else own->place = drawn ? PARK : FENCE;
        break;
    case FENCE: rows[own->succ].guard = 1; own->place = PARK; break;
    case PARK: if (!exchange(&rows[own->succ], PREEMPTED, RP, own, PEEK)) { own->nx = own->succ; to_lift(own); } break;
    case PEEK: own->nx = rows[own->succ].next; if (own->nx == NONE) to_lift(own); else own->place = TAKE; break;
    case TAKE:
        if (exchange(&rows[own->succ], RP, RELEASED, own, drawn ? REREAD : LIFT)) break;
        own->nx = NONE;
        to_lift(own);
        break;
    case LIFT: rows[own->succ].guard = 0; onward(own); break;
    case OLD_TRY: if (lock.tail == NONE) { lock.tail = p; own->place = INSIDE; } else own->place = OLD_POLL; break;
    case OLD_POLL: if (own->flag) { own->flag = 0; own->place = OLD_SERVICE; } else own->place = OLD_TRY; break;
    case OLD_SERVICE: own->place = OLD_TRY; break;
    case OLD_FREE: lock.tail = NONE; own->place = REST; break;
    case REREAD: own->nx = rows[own->succ].next; if (own->nx == NONE) own->place = LOST; else onward(own); break;
    case LOST: break;
    }
}

/* the refusal of an event, 8 or 9; or 0, the event done and its row written */
static int event(uint8_t number, uint8_t p) {
    if (number != 1 && number != 2)
        return 8;
    if (p >= lock.n)
        return 9;
    if (number == 1)
        step(p);
    else
        lock.rows[p].flag = 1;
    write_row(p, number == 1 && lock.rows[p].place == INSIDE);
    return 0;
}

static void write_refusal(int refusal, unsigned line) {
    write_line((uint8_t[]){5, (uint8_t)refusal, (uint8_t)(line >> 8), (uint8_t)line}, 4);
}

static void run(size_t bytes) {
    uint8_t a = 0, b = 0;
    if (bytes > LONGEST) {
        write_refusal(1, 0);
        return;
    }
    int refusal = read_line(schedule, bytes, 1, &a, &b);
    if (refusal == 0)
        refusal = fresh(a, b);
    if (refusal == 0)
        write_line((uint8_t[]){1, a, b}, 3);
    unsigned line = 1;
    for (size_t at = LINE; refusal == 0 && at < bytes; at += LINE) {
        line++;
        refusal = read_line(schedule + at, bytes - at, 2, &a, &b);
        if (refusal == 0)
            refusal = event(a, b);
    }
    if (refusal == 0)
        write_line((uint8_t[]){4, (uint8_t)((line - 1) >> 8), (uint8_t)(line - 1)}, 3);
    else
        write_refusal(refusal, line);
}

int main(void) {
    size_t bytes = 0;
    ssize_t got;
    while (bytes < sizeof schedule && (got = read(0, schedule + bytes, sizeof schedule - bytes)) > 0)
        bytes += (size_t)got;
    make_values();
    run(bytes);
    for (const uint8_t *from = printed; from < out; from += got)
        if ((got = write(1, from, (size_t)(out - from))) <= 0)
            return 1;
    return 0;
}
