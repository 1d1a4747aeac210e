/* What the bench programs share: numbers drawn from a seed, the same on every machine, records made of them, and the time. */
#ifndef BENCH_COMMON_H
#define BENCH_COMMON_H

#include "plain.h"

#include <time.h>

/* Each unit that includes this draws from a seed of its own. */
static uint64_t draw_seed = 1;

/* No expression may draw twice without an order, or another compiler makes other cases. */
static inline uint64_t draw(void)
{
    draw_seed ^= draw_seed << 13;
    draw_seed ^= draw_seed >> 7;
    draw_seed ^= draw_seed << 17;
    return draw_seed;
}

static inline unsigned upto(unsigned most)
{
    return (unsigned)(draw() % (most + 1));
}

/* The number in that many bytes, highest first. */
static inline void put_number(uint8_t *bytes, unsigned n, uint64_t number)
{
    for (unsigned i = 0; i < n; i++)
        bytes[i] = (uint8_t)(number >> 8 * (n - 1 - i));
}

/* The 16 bytes of a record, also where a field is out of range and plain_record_write would refuse. */
static inline void lay_record(uint8_t *bytes, const plain_record *r)
{
    put_number(bytes, 2, 14);
    put_number(bytes + 2, 8, r->time);
    bytes[10] = r->bus;
    bytes[11] = r->sync;
    bytes[12] = r->faults;
    put_number(bytes + 13, 2, r->word);
    bytes[15] = r->parity;
}

/* A record whose time has that many high bits cut off; its bus and faults up to a most, which may be out of range. */
static inline plain_record draw_record(unsigned cut, unsigned bus, unsigned faults)
{
    plain_record r;
    r.time = draw() >> cut;
    r.bus = (uint8_t)upto(bus);
    r.sync = (uint8_t)upto(2);
    r.faults = (uint8_t)upto(faults);
    r.parity = (uint8_t)upto(1);
    r.word = (uint16_t)draw();
    return r;
}

/* A file of that many valid records, words and order of time at random: 1 + 16 * count bytes. */
static inline void draw_file(uint8_t *file, size_t count)
{
    file[0] = 1;
    for (size_t i = 0; i < count; i++) {
        plain_record r = draw_record(16, 1, 3);
        lay_record(file + 1 + PLAIN_RECORD * i, &r);
    }
}

/* nanoseconds */
static inline double now(void)
{
    struct timespec t;
    clock_gettime(CLOCK_MONOTONIC, &t);
    return (double)t.tv_sec * 1e9 + (double)t.tv_nsec;
}

#endif
