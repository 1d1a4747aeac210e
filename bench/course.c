/* Courses: made out of the soak stream, and played in plain C. */
#include "course.h"

#include "common.h"
#include "soak.h"

#include <string.h>

/* ---- made */

/* Whether what it lends is of the right length; a host call and a restart lend nothing. */
static int lends_right(const soak_call *c)
{
    unsigned right = soak_is_event(c) ? PLAIN_TABLE : c->kind == SOAK_SETUP ? PLAIN_MASKS : 0;
    return c->receive == right && c->transmit == right;
}

static plain_record record_of(const soak_call *c)
{
    plain_record r = {0};
    switch (c->kind) {
    case SOAK_RECORD:
        return c->record;
    case SOAK_MARK:
        r.time = c->record.time;
        return r;
    case SOAK_SETUP:
        r.word = c->address;
        return r;
    default:
        r.word = c->value;
        r.time = c->place;
        return r;
    }
}

/* Whether the call can stand in a course, and then lays it. */
static int lay_call(uint8_t *bytes, const soak_call *c)
{
    plain_record r = record_of(c);
    bytes[0] = c->kind;
    return lends_right(c) && plain_record_write(bytes + 1, PLAIN_RECORD, &r) == 0;
}

size_t course_make(uint8_t *calls, size_t count)
{
    uint16_t transmit[PLAIN_TABLE];
    soak_stream stream;
    size_t events = 0;
    soak_start(&stream, 1, transmit);
    while (stream.fixed < 65536)
        soak_call_next(&stream);
    for (size_t made = 0; made < count;) {
        soak_call c = soak_call_next(&stream);
        if (!lay_call(calls + COURSE_CALL * made, &c))
            continue;
        events += (unsigned)soak_is_event(&c);
        made++;
    }
    return events;
}

/* ---- played */

typedef struct {
    plain_terminal terminal;
    uint16_t receive[PLAIN_TABLE], transmit[PLAIN_TABLE];
    plain_tables tables;
    uint64_t sum;
    bool ask;
} player;

static void set_up(player *p, unsigned address)
{
    uint32_t all[PLAIN_MASKS];
    memset(all, 0xFF, sizeof all);
    plain_setup(&p->terminal, address, all, PLAIN_MASKS, all, PLAIN_MASKS);
}

static uint64_t turned(uint64_t sum) { return sum << 1 | sum >> 63; }

static void add_next(player *p)
{
    uint64_t next = plain_next(&p->terminal);
    p->sum = turned(p->sum) + (next == PLAIN_NONE ? 0 : next);
}

static void add_event(player *p, unsigned refused, const plain_result *result)
{
    if (refused) {
        p->sum = turned(p->sum) + refused;
    } else if (result->answered) {
        uint64_t first = result->count ? result->words[0] : 0;
        p->sum = turned(p->sum) + (result->due ^ first ^ (uint64_t)result->count << 32 ^ (uint64_t)result->status << 48);
    }
    if (p->ask)
        add_next(p);
}

static void host_call(player *p, uint8_t kind, const plain_record *record)
{
    unsigned is_flag = kind >= SOAK_SERVICE && kind <= SOAK_FAULT;
    if (kind == SOAK_SEND && record->time >= PLAIN_TABLE)
        return;
    soak_call c = {.kind = kind, .value = is_flag ? record->word & 1 : record->word, .place = (uint16_t)record->time};
    soak_host_call(&p->terminal, p->transmit, &c);
}

static void play(player *p, uint8_t kind, const plain_record *record)
{
    plain_result result;
    switch (kind) {
    case SOAK_RECORD:
        add_event(p, plain_event_record(&p->terminal, record, &p->tables, &result), &result);
        break;
    case SOAK_MARK:
        add_event(p, plain_event_mark(&p->terminal, record->time, &p->tables, &result), &result);
        break;
    case SOAK_SETUP:
        set_up(p, record->word);
        break;
    default:
        host_call(p, kind, record);
    }
}

uint64_t plain_course_play(const uint8_t *calls, size_t n, bool ask)
{
    player p = {.ask = ask};
    plain_record record;
    p.tables = (plain_tables){p.receive, PLAIN_TABLE, p.transmit, PLAIN_TABLE};
    set_up(&p, 5);
    for (; n > 0 && plain_record_read(calls + 1, n - 1, &record) == 0; calls += COURSE_CALL, n -= COURSE_CALL)
        play(&p, calls[0], &record);
    return p.sum;
}
