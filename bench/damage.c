/* Record files to save, good and damaged, the same for the same seed: damage SEED BYTES KIND, to standard output.
 *     clean      a good file of at most that many bytes
 *     damaged    some damage every few thousand bytes
 *     dense      some damage every few records
 *     rubbish    random bytes, some 00 0E among them
 * All but clean have just that many bytes, so that the end is cut anywhere. */
#include "common.h"

#include <stdio.h>
#include <stdlib.h>
#include <string.h>

#define REACH 100000000

typedef struct {
    uint64_t left;      /* bytes to come */
    uint64_t time;      /* of the record before */
    unsigned apart;     /* records from one damage to the next, at the mean */
    unsigned hole_most; /* a hole is 16 bytes, doubled at most so often */
} making;

/* ---- bytes and records */

static void put(making *m, const void *bytes, size_t n)
{
    if (n > m->left)
        n = (size_t)m->left;
    fwrite(bytes, 1, n, stdout);
    m->left -= n;
}

/* A valid record of that time. All of it is one number, since most of the time goes into drawing. */
static plain_record record_at(uint64_t time)
{
    uint64_t d = draw();
    plain_record r = {
        .time = time,
        .word = (uint16_t)d,
        .bus = d >> 16 & 1,
        .parity = d >> 17 & 1,
        .sync = (uint8_t)((d >> 18 & 255) % 3),
        .faults = d >> 26 & 31 ? 0 : d >> 31 & 3,
    };
    return r;
}

/* 200 to 5,000 after the one before. */
static plain_record next_record(making *m)
{
    m->time += 200 + upto(4800);
    return record_at(m->time);
}

static void put_record(making *m, const plain_record *r)
{
    uint8_t bytes[PLAIN_RECORD];
    lay_record(bytes, r);
    put(m, bytes, sizeof bytes);
}

/* ---- the kinds of damage */

static void put_random(making *m, size_t n)
{
    while (n > 0) {
        uint64_t eight = htobe64(draw());
        size_t some = n < sizeof eight ? n : sizeof eight;
        put(m, &eight, some);
        n -= some;
    }
}

static void put_hole(making *m)
{
    static const uint8_t zeros[PLAIN_RECORD << 12];
    unsigned doubled = upto(m->hole_most);
    put(m, zeros, PLAIN_RECORD << doubled);
}

/* From one byte on, so many are missing; the rest may be none. */
static void put_dropped(making *m)
{
    uint8_t bytes[PLAIN_RECORD];
    plain_record r = next_record(m);
    unsigned from = upto(15), to = from + 1 + upto(15 - from);
    lay_record(bytes, &r);
    put(m, bytes, from);
    put(m, bytes + to, sizeof bytes - to);
}

/* A flipped bit of the time may leave a time that is kept: up to bit 26 of it. The file goes on from there, or all up to it
 * would be skipped. */
static void put_flipped(making *m)
{
    uint8_t bytes[PLAIN_RECORD];
    plain_record r = next_record(m);
    unsigned place = upto(15), bit = upto(7);
    lay_record(bytes, &r);
    bytes[place] ^= (uint8_t)(1u << bit);
    put(m, bytes, sizeof bytes);
    if (place > 3 && place < 10)
        r.time ^= (uint64_t)1 << (bit + 8 * (9 - place));
    if (r.time > m->time && r.time - m->time <= 1 << 26)
        m->time = r.time;
}

/* So many ticks from a record that stands right before it. Where it may be kept, the file goes on from its time, which none
 * after it would be in reach of if it were not kept; so the record before must be, and the one before that makes sure: a
 * cut record can take in the beginning of the next. */
static void put_jump(making *m, uint64_t ticks)
{
    plain_record r = next_record(m);
    put_record(m, &r);
    r = next_record(m);
    put_record(m, &r);
    r.time += ticks;
    put_record(m, &r);
    if (ticks <= REACH)
        m->time = r.time;
}

/* A record too far ahead, and from its ninth byte on another, which may be kept: the bytes 00 0E and the upper time of the
 * second are the lower time, bus, sync, faults, word and parity of the first. */
static void put_nested(making *m)
{
    uint8_t bytes[8 + PLAIN_RECORD];
    plain_record r = next_record(m);
    put_record(m, &r);
    r.time += (uint64_t)1 << 40;
    lay_record(bytes, &r);
    /* the first one's parity: a time with 0 in its third byte from the right */
    m->time = (m->time | 0xFFFFFF) + 1 + upto(65535);
    r = record_at(m->time);
    lay_record(bytes + 8, &r);
    put(m, bytes, sizeof bytes);
}

static void put_damage(making *m)
{
    plain_record r = next_record(m);
    unsigned kind = upto(11), n;
    switch (kind) {
    case 0:
        put_dropped(m);
        break;
    case 1: /* put in, between two records */
        n = 1 + upto(60);
        put_random(m, n);
        break;
    case 2:
        put_hole(m);
        break;
    case 3:
    case 4: /* the kind with the most ways to be nearly right */
        put_flipped(m);
        break;
    case 5: /* back, by a little or to the beginning */
        n = upto(1);
        put_jump(m, n ? -(uint64_t)1 : -m->time);
        break;
    case 6:
        put_jump(m, REACH);
        break;
    case 7:
        put_jump(m, REACH + 1);
        break;
    case 8: /* 2^48 or more */
        n = upto(15);
        put_jump(m, PLAIN_TIMES << n);
        break;
    case 9: /* twice */
        put_record(m, &r);
        put_record(m, &r);
        break;
    case 10:
        put_nested(m);
        break;
    case 11: /* a whole record and the version once more, as where two files stand together */
        put_record(m, &r);
        put(m, "\1", 1);
        break;
    }
}

/* ---- the kinds of file */

static void make_clean(making *m)
{
    put(m, "\1", 1);
    while (m->left >= PLAIN_RECORD) {
        plain_record r = next_record(m);
        put_record(m, &r);
    }
}

static void make_damaged(making *m)
{
    uint8_t first = upto(2) ? 1 : (uint8_t)draw();
    put(m, &first, 1);
    while (m->left > 0) {
        for (unsigned n = upto(2 * m->apart); n > 0; n--) {
            plain_record r = next_record(m);
            put_record(m, &r);
        }
        put_damage(m);
    }
}

static void make_rubbish(making *m)
{
    while (m->left > 0) {
        put_random(m, 64 + upto(255));
        put(m, "\0\16\0", 2 + upto(1));
    }
}

int main(int count, char **arguments)
{
    static const struct {
        const char *name;
        void (*make)(making *);
        unsigned apart, hole_most;
    } kinds[] = {
        {"clean", make_clean, 0, 0},
        {"damaged", make_damaged, 512, 12},
        {"dense", make_damaged, 3, 4},
        {"rubbish", make_rubbish, 0, 0},
    };
    unsigned kind = 0;
    while (count == 4 && kind < 4 && strcmp(arguments[3], kinds[kind].name) != 0)
        kind++;
    if (count != 4 || kind == 4) {
        fprintf(stderr, "usage: damage SEED BYTES clean|damaged|dense|rubbish\n");
        return 2;
    }
    /* odd, as 0 would draw nothing but 0 */
    draw_seed = strtoull(arguments[1], NULL, 10) * 0x9E3779B97F4A7C15 | 1;
    making m = {.left = strtoull(arguments[2], NULL, 10), .apart = kinds[kind].apart, .hole_most = kinds[kind].hole_most};
    m.time = draw() >> 24;
    kinds[kind].make(&m);
    return fflush(stdout) != 0 || ferror(stdout);
}
