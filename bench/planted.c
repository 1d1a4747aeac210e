/* Schedules that are known to fit, in the form that busplan reads, the same for the same seed:
 *     planted SEED KIND PERCENT FORM                   by hand: one, to standard output
 *     planted SEED KIND PERCENT FORM LAST FOLDER       those of all seeds up to LAST, each in a file FOLDER/SEED.plan
 * Messages, periods and first frames are drawn, and the capacity of every frame is so many hundredths, rounded down, of the
 * load of the fullest one. Forms: bare, without the first frames, for the planner to propose; first, with them; odd, with them,
 * and then some bytes of the text are lost or added, so that it may mean something else or nothing. Kinds:
 *     uniform    20 to 64 messages of all formats, every period as often as any other
 *     short      periods of 1 to 4 frames mostly
 *     long       periods of 16 to 64 frames mostly
 *     heavy      a few messages of 28 data words and more among short ones
 *     few        1 to 19 messages
 *     level      each message is planted in the emptiest frames, so that nearly all of them are equally full
 *     equal      as level, with one period for all messages
 *     own        as uniform, but each frame's capacity is that of its own load: with 100 no frame has a tick to spare
 *     mixed      one of the first three, and every frame has its own capacity, between its own load and the fullest one's */
#include "common.h"

#include <stdbool.h>
#include <stdio.h>
#include <stdlib.h>
#include <string.h>

#define MESSAGES 64
#define FRAMES 64
#define BROADCAST 31

typedef struct {
    uint16_t commands[2];
    unsigned command_count, period, first;
    unsigned load;
} message;

enum { UNIFORM, SHORT, LONG, HEAVY, FEW, LEVEL, EQUAL, OWN, MIXED, KINDS };

typedef struct {
    unsigned kind, percent;
    unsigned period; /* of all messages, where they are to have one; else 0 */
    unsigned count;
    message messages[MESSAGES];
    unsigned loads[FRAMES];
} schedule;

/* ---- messages of all formats, with the load that request j of document 02 gives them */

static unsigned draw_address(void)
{
    return upto(30);
}

static uint16_t command(unsigned address, bool transmit, unsigned words)
{
    unsigned subaddress = 1 + upto(29);
    return (uint16_t)(address << 11 | (unsigned)transmit << 10 | subaddress << 5 | (words & 31));
}

/* "200(n+2)+100 for one terminal .. 200(n+1) broadcast .. plus 20 each" */
static unsigned single_load(bool broadcast, unsigned words)
{
    return (broadcast ? 200 * (words + 1) : 200 * (words + 2) + 100) + 20;
}

static void make_single(message *m, unsigned address, bool transmit, unsigned words)
{
    m->commands[0] = command(address, transmit, words);
    m->command_count = 1;
    m->load = single_load(address == BROADCAST, words);
}

/* "200(n+4)+200 between two terminals .. 200(n+3)+100 broadcast from a terminal .. plus 20 each" */
static void make_between(message *m, unsigned receiver, unsigned words)
{
    unsigned transmitter = draw_address();
    while (transmitter == receiver)
        transmitter = draw_address();
    m->commands[0] = command(receiver, false, words);
    m->commands[1] = command(transmitter, true, words);
    m->command_count = 2;
    m->load = (receiver == BROADCAST ? 200 * (words + 3) + 100 : 200 * (words + 4) + 200) + 20;
}

/* "Mode codes" of document 01. */
static void make_mode(message *m, unsigned address)
{
    static const uint8_t all[] = {0, 1, 2, 3, 4, 5, 6, 7, 8, 16, 17, 18, 19, 20, 21};
    static const uint8_t broadcast[] = {1, 3, 4, 5, 6, 7, 8, 17, 20, 21};
    unsigned code = address == BROADCAST ? broadcast[upto(9)] : all[upto(14)];
    unsigned transmit = !(code == 17 || code == 20 || code == 21), subaddress = 31 * upto(1);
    m->commands[0] = (uint16_t)(address << 11 | transmit << 10 | subaddress << 5 | code);
    m->command_count = 1;
    m->load = single_load(address == BROADCAST, code >= 16);
}

/* Where a few are heavy, the others are short. */
static unsigned draw_words(unsigned kind)
{
    if (kind != HEAVY)
        return 1 + upto(31);
    return upto(7) ? 1 + upto(7) : 28 + upto(4);
}

static void make_message(unsigned kind, message *m)
{
    unsigned format = upto(15), words = draw_words(kind), address = draw_address();
    if (format < 4)
        make_single(m, address, false, words);
    else if (format < 8)
        make_single(m, address, true, words);
    else if (format < 11)
        make_between(m, address, words);
    else if (format < 13)
        make_mode(m, address);
    else if (format == 13)
        make_single(m, BROADCAST, false, words);
    else if (format == 14)
        make_between(m, BROADCAST, words);
    else
        make_mode(m, BROADCAST);
}

/* ---- their frames */

static unsigned draw_period(unsigned kind)
{
    unsigned any = upto(6), some = upto(2), most = upto(4);
    if (kind == SHORT && most)
        return 1u << some;
    if (kind == LONG && most)
        return 16u << some;
    return 1u << any;
}

/* The load of the fullest frame that a message with that period and first frame comes in. */
static unsigned fullest(const schedule *s, unsigned period, unsigned first)
{
    unsigned most = 0;
    for (unsigned frame = first; frame < FRAMES; frame += period)
        if (s->loads[frame] > most)
            most = s->loads[frame];
    return most;
}

static unsigned emptiest_first(const schedule *s, unsigned period)
{
    unsigned best = 0;
    for (unsigned first = 1; first < period; first++)
        if (fullest(s, period, first) < fullest(s, period, best))
            best = first;
    return best;
}

static void plant(schedule *s, message *m)
{
    unsigned period = draw_period(s->kind);
    m->period = s->period > 0 ? s->period : period;
    m->first = upto(m->period - 1);
    if (s->kind == LEVEL || s->kind == EQUAL)
        m->first = emptiest_first(s, m->period);
    for (unsigned frame = m->first; frame < FRAMES; frame += m->period)
        s->loads[frame] += m->load;
}

static void make_schedule(schedule *s)
{
    unsigned kind = s->kind, least = kind == FEW ? 1 : 20, most = kind == FEW ? 19 : MESSAGES;
    if (kind == MIXED)
        s->kind = upto(2);
    if (kind == EQUAL)
        s->period = draw_period(kind);
    s->count = least + upto(most - least);
    for (unsigned i = 0; i < s->count; i++) {
        make_message(s->kind, &s->messages[i]);
        plant(s, &s->messages[i]);
    }
    s->kind = kind;
}

/* ---- the text */

static unsigned share(const schedule *s, unsigned load)
{
    return (unsigned)((uint64_t)load * s->percent / 100);
}

static unsigned capacity(const schedule *s, unsigned frame)
{
    unsigned most = fullest(s, 1, 0), own = s->loads[frame];
    if (s->kind == OWN)
        return share(s, own);
    return share(s, s->kind == MIXED ? own + upto(most - own) : most);
}

static void put_capacities(FILE *out, const schedule *s)
{
    bool own = s->kind == OWN || s->kind == MIXED;
    if (!own)
        fprintf(out, "capacity %u\n", capacity(s, 0));
    for (unsigned frame = 0; own && frame < FRAMES; frame++)
        fprintf(out, "capacity %u %u\n", frame, capacity(s, frame));
}

static void put_message(FILE *out, const message *m, bool with_first)
{
    fprintf(out, "message %04X", m->commands[0]);
    if (m->command_count == 2)
        fprintf(out, " %04X", m->commands[1]);
    fprintf(out, " %u", m->period);
    if (with_first)
        fprintf(out, " %u", m->first);
    fputc('\n', out);
}

static void put_schedule(FILE *out, const schedule *s, bool with_first)
{
    put_capacities(out, s);
    for (unsigned i = 0; i < s->count; i++)
        put_message(out, &s->messages[i], with_first);
}

/* ---- odd texts */

/* A byte of the kinds that the text is made of, or should not be. */
static char draw_byte(void)
{
    static const char bytes[] = "      ##\n\n0011223344566789afAFg:-+x\t\r\0\377";
    return bytes[upto(sizeof bytes - 2)];
}

/* Any place from there on, or the end of a part or of a line behind it. */
static size_t draw_place(const char *text, size_t n, size_t from)
{
    size_t place = from + upto((unsigned)(n - from));
    unsigned kind = upto(2);
    const char *end = kind == 0 ? NULL : memchr(text + place, kind == 1 ? ' ' : '\n', n - place);
    return end == NULL ? place : (size_t)(end - text);
}

/* At up to three places a byte may be lost and up to two others may come. */
static void put_changed(FILE *out, const char *text, size_t n)
{
    static const uint8_t often[] = {0, 1, 1, 1, 2, 3};
    size_t at = 0;
    for (unsigned places = often[upto(5)]; places > 0; places--) {
        size_t place = draw_place(text, n, at);
        unsigned lost = upto(1), added = upto(2);
        fwrite(text + at, 1, place - at, out);
        at = place + lost < n ? place + lost : n;
        for (; added > 0; added--)
            fputc(draw_byte(), out);
    }
    fwrite(text + at, 1, n - at, out);
}

static void put_odd(FILE *out, const schedule *s)
{
    char *text = NULL;
    size_t n = 0;
    FILE *whole = open_memstream(&text, &n);
    if (whole == NULL)
        exit(2);
    put_schedule(whole, s, true);
    fclose(whole);
    put_changed(out, text, n);
    free(text);
}

/* ---- the files */

enum { BARE, FIRST, ODD, FORMS };

typedef struct {
    unsigned kind, percent, form;
} order;

static void make_text(FILE *out, uint64_t seed, const order *o)
{
    static schedule s;
    /* odd, as 0 would draw nothing but 0 */
    draw_seed = seed * 0x9E3779B97F4A7C15 | 1;
    s = (schedule){.kind = o->kind, .percent = o->percent};
    make_schedule(&s);
    if (o->form == ODD)
        put_odd(out, &s);
    else
        put_schedule(out, &s, o->form == FIRST);
}

static bool make_file(const char *folder, uint64_t seed, const order *o)
{
    char name[4096];
    snprintf(name, sizeof name, "%s/%llu.plan", folder, (unsigned long long)seed);
    FILE *out = fopen(name, "wb");
    if (out == NULL) {
        fprintf(stderr, "planted: cannot write %s\n", name);
        return false;
    }
    make_text(out, seed, o);
    return fclose(out) == 0;
}

/* The place of a name in a list; behind its end where it is not there. */
static unsigned find(const char *name, const char *const *names, unsigned n)
{
    unsigned i = 0;
    while (i < n && strcmp(name, names[i]) != 0)
        i++;
    return i;
}

int main(int count, char **arguments)
{
    static const char *const kinds[] = {"uniform", "short", "long", "heavy", "few", "level", "equal", "own", "mixed"};
    static const char *const forms[] = {"bare", "first", "odd"};
    order o = {KINDS, 0, FORMS};
    if (count == 5 || count == 7) {
        o.kind = find(arguments[2], kinds, KINDS);
        o.percent = (unsigned)strtoul(arguments[3], NULL, 10);
        o.form = find(arguments[4], forms, FORMS);
    }
    if (o.kind == KINDS || o.form == FORMS) {
        fprintf(
            stderr,
            "usage: planted SEED uniform|short|long|heavy|few|level|equal|own|mixed PERCENT bare|first|odd [LAST FOLDER]\n");
        return 2;
    }
    uint64_t seed = strtoull(arguments[1], NULL, 10), last = count == 7 ? strtoull(arguments[5], NULL, 10) : 0;
    if (count == 5)
        make_text(stdout, seed, &o);
    for (; seed <= last; seed++)
        if (!make_file(arguments[6], seed, &o))
            return 2;
    return fflush(stdout) != 0 || ferror(stdout);
}
