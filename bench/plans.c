/* How the cases for the verdict are drawn. */
#include "plans.h"

#include "common.h"

#include <string.h>

void lay(Case *c)
{
    for (unsigned i = 0; i < c->count; i++)
        lay_record(c->bytes + PLAIN_RECORD * i, &c->records[i]);
    c->n = PLAIN_RECORD * c->count;
}

uint64_t before(const Case *c, unsigned at)
{
    return at ? c->records[at - 1].time : c->plan.last;
}

/* Often one of the two ends. */
static unsigned between(unsigned least, unsigned most)
{
    unsigned kind = upto(5);
    return kind == 0 ? least : kind == 1 ? most : least + upto(most - least);
}

/* ---- good courses */

static void put_word(plain_record *r, unsigned word)
{
    r->word = (uint16_t)word;
    r->parity = (uint8_t)plain_parity(r->word);
}

static void add(Case *c, unsigned distance, unsigned sync, unsigned word)
{
    plain_record *r = &c->records[c->count];
    *r = (plain_record){.time = before(c, c->count) + distance, .bus = c->plan.bus, .sync = (uint8_t)sync};
    put_word(r, word);
    c->count++;
}

static int is_mode_code(uint16_t command, unsigned code)
{
    return plain_command_is_mode(command) && plain_command_count(command) == code;
}

static unsigned words_back(uint16_t command)
{
    if (plain_command_is_mode(command))
        return is_mode_code(command, 16) || is_mode_code(command, 18) || is_mode_code(command, 19);
    return plain_command_transmit(command) ? plain_command_words(command) : 0;
}

/* A status with any of the bits that are not judged, and the data words. */
static void add_answer(Case *c, uint16_t command)
{
    int exempt = is_mode_code(command, 2) || is_mode_code(command, 18);
    unsigned bits = upto(0x07FF) & (exempt ? 0x07FF : 0x03F7);
    add(c, between(220, 300), 0, plain_command_address(command) << 11 | bits);
    for (unsigned words = words_back(command); words > 0; words--) {
        unsigned word = upto(0xFFFF);
        add(c, between(195, 205), 1, word);
    }
}

void add_answers(Case *c)
{
    c->count = 0;
    if (c->plan.commands == 2)
        add_answer(c, c->plan.second);
    if (plain_command_address(c->plan.first) != 31)
        add_answer(c, c->plan.first);
    c->plan.until = before(c, c->count) + (upto(2) ? 220 + upto(400) : 220);
}

static uint16_t mode_command(unsigned address)
{
    static const struct {
        uint8_t code, transmit, broadcast;
    } modes[15] = {
        {0, 1, 0}, {1, 1, 1},  {2, 1, 0},  {3, 1, 1},  {4, 1, 1},  {5, 1, 1},  {6, 1, 1},  {7, 1, 1},
        {8, 1, 1}, {16, 1, 0}, {17, 0, 1}, {18, 1, 0}, {19, 1, 0}, {20, 0, 1}, {21, 0, 1},
    };
    unsigned mode = upto(14), subaddress = 31 * upto(1);
    if (modes[mode].broadcast && upto(3) == 0)
        address = 31;
    return plain_command_build(address, modes[mode].transmit, subaddress, modes[mode].code);
}

static void draw_commands(plain_plan *p)
{
    unsigned address = upto(30), other = (address + 1 + upto(29)) % 31, count = upto(31), kind = upto(9);
    p->commands = kind < 7 ? 1 : 2;
    p->second = kind < 7 ? (uint16_t)upto(0xFFFF) : plain_command_build(other, 1, 1 + upto(29), count);
    if (kind < 3)
        p->first = plain_command_build(address, 1, 1 + upto(29), count);
    else if (kind < 5)
        p->first = mode_command(address);
    else
        p->first = plain_command_build(kind == 5 || kind == 7 ? 31 : address, 0, 1 + upto(29), count);
}

static void move(Case *c, uint64_t by)
{
    c->plan.last += by;
    c->plan.until += by;
    for (unsigned i = 0; i < c->count; i++)
        c->records[i].time += by;
}

void good_course(Case *c)
{
    draw_commands(&c->plan);
    c->plan.bus = (uint8_t)upto(1);
    c->plan.last = 0;
    add_answers(c);
    unsigned place = upto(7), cut = 17 + upto(40);
    if (place > 0)
        move(c, place == 1 ? PLAIN_TIMES - 1 - c->plan.until : draw() >> cut);
}

/* ---- damage */

static unsigned limit(void)
{
    static const unsigned limits[] = {194, 195, 205, 206, 219, 220, 300, 301, 319, 320, 321};
    return upto(3) ? limits[upto(10)] : upto(400);
}

static void damage_word(plain_record *r)
{
    switch (upto(8)) {
    case 0: r->word ^= (uint16_t)(1u << upto(15)); break;
    case 1: r->parity ^= 1; break;
    case 2: r->sync = (uint8_t)((r->sync + 1 + upto(1)) % 3); break;
    case 3: r->faults = (uint8_t)(1 + upto(2)); break;
    case 4: put_word(r, r->word ^ (1 + upto(30)) << 11); break;
    case 5: put_word(r, r->word | 0x0400); break;
    case 6: put_word(r, r->word | 0x0008); break;
    case 7: put_word(r, r->word | 0x0408); break;
    case 8: put_word(r, upto(0xFFFF)); break;
    }
}

static void damage_field(plain_record *r)
{
    switch (upto(5)) {
    case 0: r->bus ^= 1; break;
    case 1: r->bus = (uint8_t)between(2, 255); break;
    case 2: r->sync = (uint8_t)between(3, 255); break;
    case 3: r->faults = (uint8_t)between(4, 255); break;
    case 4: r->parity = (uint8_t)between(2, 255); break;
    case 5: r->time |= PLAIN_TIMES << upto(15); break;
    }
}

void space(Case *c, unsigned at, unsigned distance)
{
    uint64_t by = before(c, at) + distance - c->records[at].time;
    for (unsigned i = at; i < c->count; i++)
        c->records[i].time += by;
    c->plan.until += by;
}

static void lose(Case *c, unsigned at)
{
    c->count--;
    memmove(&c->records[at], &c->records[at + 1], (c->count - at) * sizeof *c->records);
}

void leave_over(Case *c)
{
    for (unsigned more = between(1, 5); more > 0 && c->count < PLAN_ROOM; more--) {
        unsigned sync = upto(2), word = upto(0xFFFF);
        add(c, limit(), sync, word);
    }
    if (c->plan.until < before(c, c->count))
        c->plan.until = before(c, c->count);
}

static void damage_course(Case *c, unsigned at)
{
    switch (upto(7)) {
    case 0: space(c, at, limit()); break;
    case 1: lose(c, at); break;
    case 2: c->count = at; break;
    case 3: c->count = at, c->plan.until = before(c, at) + limit(); break;
    case 4: c->plan.until = before(c, c->count) + limit(); break;
    case 5: leave_over(c); break;
    case 6: c->records[at].time = before(c, at) - upto(2); break;
    case 7: c->plan.until = before(c, 1 + at) - 1; break;
    }
}

static void damage_plan(plain_plan *p)
{
    static const uint8_t numbers[] = {0, 1, 2, 3, 255};
    switch (upto(13)) {
    case 0: p->commands = numbers[upto(4)]; break;
    case 1: p->first ^= (uint16_t)(1u << upto(15)); break;
    case 2: p->second ^= (uint16_t)(1u << upto(15)); break;
    case 3: p->first = (uint16_t)upto(0xFFFF); break;
    case 4: p->second = (uint16_t)upto(0xFFFF); break;
    case 5: p->first |= 0xF800; break;
    case 6: p->second |= 0xF800; break;
    case 7: p->second = (uint16_t)((p->second & 0x07FF) | (p->first & 0xF800)); break;
    case 8: p->first = (uint16_t)((p->first & 0xFC1F) | 0x03E0 * upto(1)); break;
    case 9: p->bus ^= 1; break;
    case 10: p->bus = (uint8_t)between(2, 255); break;
    case 11: p->last |= PLAIN_TIMES << upto(15); break;
    case 12: p->until |= PLAIN_TIMES << upto(15); break;
    case 13: p->until = p->last - upto(2); break;
    }
}

/* Cuts the last record short, or changes a length, or any bit. */
static void damage_bytes(Case *c, unsigned at)
{
    unsigned kind = upto(3), cut = between(1, 15), place = upto(kind == 2 ? 1 : 15), bit = upto(7);
    if (kind < 2)
        c->n = c->n ? c->n - cut : cut;
    else if (c->n)
        c->bytes[PLAIN_RECORD * at + place] ^= (uint8_t)(1u << bit);
}

/* A record of the course: one time in four each the first and the last, where a status may be. */
static unsigned some(const Case *c)
{
    unsigned kind = upto(3);
    return c->count == 0 || kind == 0 ? 0 : kind == 1 ? c->count - 1 : upto(c->count - 1);
}

static void damage_once(Case *c, unsigned at)
{
    unsigned kind = upto(12);
    if (kind == 0)
        damage_plan(&c->plan);
    else if (c->count == 0 && kind < 7)
        c->plan.until = c->plan.last + limit();
    else if (c->count == 0)
        leave_over(c);
    else if (kind == 1)
        damage_field(&c->records[at]);
    else if (kind < 7)
        damage_word(&c->records[at]);
    else
        damage_course(c, at);
}

void damage(Case *c)
{
    unsigned at = some(c);
    for (unsigned ways = upto(7) < 4 ? 1 : upto(7) < 6 ? 2 : 3; ways > 0; ways--) {
        if (at >= c->count || upto(1))
            at = some(c);
        damage_once(c, at);
    }
    lay(c);
    if (upto(7) == 0)
        damage_bytes(c, some(c));
}
