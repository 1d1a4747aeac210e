/* The soak: N calls of the stream of soak.h over plain.c, with a line "soak CALLS CHECKSUM" every so often and at the
 * end. soak N [SEED [EVERY]]: seed 1 and a line every 100,000 calls where nothing is said.
 * Standard error: nanoseconds a call, over the first 1,000,000 calls at most, made beforehand in batches, so that
 * neither the stream nor the checksum is in the time. Under an emulator it says nothing about the card. */
#include "common.h"
#include "soak.h"

#include <stdio.h>
#include <stdlib.h>
#include <string.h>

#define TIMED_MOST 1000000
#define BATCH 1024

typedef struct {
    plain_terminal terminal;
    uint16_t receive[2 * PLAIN_TABLE], transmit[2 * PLAIN_TABLE];
    uint16_t copy[PLAIN_TABLE]; /* of the receive table */
    uint32_t all[64];           /* the masks of m = 0 */
    uint64_t sum;
} bench;

/* ---- one call */

static unsigned set_up(bench *b, const soak_call *c)
{
    uint32_t masks[2][64];
    if (c->masks == 0)
        return plain_setup(&b->terminal, c->address, b->all, c->receive, b->all, c->transmit);
    soak_masks(c->masks, masks);
    return plain_setup(&b->terminal, c->address, masks[0], c->receive, masks[1], c->transmit);
}

/* The call's refusal, or 0; an accepted event's result. */
static unsigned play(bench *b, const soak_call *c, plain_result *result)
{
    if (soak_is_event(c)) {
        plain_tables tables = {b->receive, c->receive, b->transmit, c->transmit};
        if (c->kind == SOAK_RECORD)
            return plain_event_record(&b->terminal, &c->record, &tables, result);
        return plain_event_mark(&b->terminal, c->record.time, &tables, result);
    }
    if (c->kind == SOAK_SETUP)
        return set_up(b, c);
    soak_host_call(&b->terminal, b->transmit, c);
    return 0;
}

/* ---- the checksum */

static void add(bench *b, uint64_t value, unsigned bytes)
{
    while (bytes-- > 0)
        b->sum = (b->sum ^ (value >> 8 * bytes & 255)) * 0x100000001B3u;
}

static void add_result(bench *b, const plain_result *r)
{
    add(b, r->answered + 2u * r->cut, 1);
    if (!r->answered)
        return;
    add(b, r->bus, 1);
    add(b, r->due, 8);
    add(b, r->status, 2);
    add(b, r->count, 1);
    for (unsigned i = 0; i < r->count; i++)
        add(b, r->words[i], 2);
}

static unsigned flags(const plain_terminal *t)
{
    unsigned spacing = plain_last_spacing(t);
    int held = plain_self_test(t) + 2 * plain_shut(t, 0) + 4 * plain_shut(t, 1) + 8 * plain_inhibited(t);
    return (unsigned)held + 16 * (spacing == PLAIN_FAULT_OVERLAPPING) + 32 * (spacing == PLAIN_FAULT_SEPARATED);
}

static void add_state(bench *b)
{
    const plain_terminal *t = &b->terminal;
    add(b, plain_status(t), 2);
    add(b, plain_last_command(t), 2);
    add(b, plain_sync_word(t), 2);
    add(b, flags(t), 1);
    add(b, plain_last_time(t), 8);
    add(b, plain_next(t), 8);
}

static void add_received(bench *b)
{
    if (memcmp(b->receive, b->copy, sizeof b->copy) == 0)
        return;
    for (unsigned i = 0; i < PLAIN_TABLE; i++)
        if (b->receive[i] != b->copy[i]) {
            add(b, i, 2);
            add(b, b->receive[i], 2);
        }
    memcpy(b->copy, b->receive, sizeof b->copy);
}

/* ---- the runs */

static void begin(bench *b, soak_stream *stream, uint64_t seed)
{
    memset(b, 0, sizeof *b);
    memset(b->all, 0xFF, sizeof b->all);
    b->sum = 0xCBF29CE484222325u;
    soak_start(stream, seed, b->transmit);
}

static void soak(uint64_t calls, uint64_t seed, uint64_t every)
{
    static bench b;
    soak_stream stream;
    plain_result result;
    begin(&b, &stream, seed);
    for (uint64_t n = 1; n <= calls; n++) {
        soak_call c = soak_call_next(&stream);
        unsigned refused = play(&b, &c, &result);
        int accepted = soak_is_event(&c) && !refused;
        add(&b, refused, 1);
        if (accepted)
            add_result(&b, &result);
        add_state(&b);
        if ((accepted && result.answered) || n % 1024 == 0)
            add_received(&b);
        if (n % every == 0 || n == calls)
            printf("soak %llu %016llX\n", (unsigned long long)n, (unsigned long long)b.sum);
    }
}

static void speed(uint64_t calls, uint64_t seed)
{
    static bench b;
    static soak_call batch[BATCH];
    soak_stream stream;
    plain_result result;
    double took = 0;
    begin(&b, &stream, seed);
    for (uint64_t left = calls; left > 0;) {
        unsigned n = left < BATCH ? (unsigned)left : BATCH;
        for (unsigned i = 0; i < n; i++)
            batch[i] = soak_call_next(&stream);
        double start = now();
        for (unsigned i = 0; i < n; i++)
            play(&b, &batch[i], &result);
        took += now() - start;
        left -= n;
    }
    fprintf(stderr, "soak: plain C, %.1f ns a call over %llu calls\n", took / (double)calls, (unsigned long long)calls);
}

int main(int count, char **arguments)
{
    uint64_t calls = count > 1 ? strtoull(arguments[1], NULL, 10) : 0;
    uint64_t seed = count > 2 ? strtoull(arguments[2], NULL, 10) : 1;
    uint64_t every = count > 3 ? strtoull(arguments[3], NULL, 10) : 100000;
    if (count > 4 || calls == 0 || every == 0) {
        fprintf(stderr, "usage: soak CALLS [SEED [EVERY]]\n");
        return 2;
    }
    soak(calls, seed, every);
    speed(calls < TIMED_MOST ? calls : TIMED_MOST, seed);
    return 0;
}
