/* The proved functions with the parameters of plain.h, so that the same code can drive both sides. They are taken in whole
 * where they are used: what is left of one is the call of the library. */
#ifndef OURS_H
#define OURS_H

#include "buscard.h"
#include "plain.h"

static inline int ours_valid(uint8_t sync, uint8_t faults, uint16_t word, uint8_t parity)
{
    return bus_word_valid(sync, faults, word, parity);
}

static inline unsigned ours_record_read(const uint8_t *bytes, size_t n, plain_record *r)
{
    return bus_record_read(bytes, n, &r->time, &r->bus, &r->sync, &r->faults, &r->word, &r->parity);
}

static inline unsigned ours_record_write(uint8_t *bytes, size_t n, const plain_record *r)
{
    return bus_record_write(bytes, n, r->time, r->bus, r->sync, r->faults, r->word, r->parity);
}

static inline unsigned ours_file_check(const uint8_t *bytes, size_t n, uint64_t *records)
{
    return bus_file_check(bytes, n, records);
}

static inline unsigned ours_verdict(const plain_plan *p, const uint8_t *bytes, size_t n, uint8_t *verdict, uint8_t *looked)
{
    return bus_verdict_looked((uint8_t)p->commands, p->first, p->second, p->bus, p->last, p->until, bytes, n, verdict, looked);
}

#endif
