/* Record files of bus traffic, the same for the same seed: traffic SEED RECORDS KIND, to standard output.
 *     flight     mostly good messages of all formats, mostly on bus A, few per mille of them with a fault
 *     busy       the same, dense on both buses
 *     faulty     most messages have a fault or more: words, spacing, addresses, order, length
 *     noise      random words of both buses at small distances
 *     train      on bus A one message with data words back to back after it to the end of the file, bus B busy
 *     refused    faulty, and after those records one that is refused, or another version; the seed tells which */
#include "common.h"

#include <stdbool.h>
#include <stdio.h>
#include <stdlib.h>
#include <string.h>

#define ROOM 1024 /* records of a message: three trains and a stray record or two are added to it at most */
#define BROADCAST 31

enum { COMMAND_SYNC, DATA_SYNC };

/* A message before it has its times: the time of a record is its distance from the one before. */
typedef struct {
    unsigned n, given; /* records, and how many of them are in the file */
    plain_record records[ROOM];
} message;

typedef struct traffic traffic;

/* One bus: its message and the time of its next record. */
typedef struct {
    message message;
    uint64_t next;
    uint8_t bus;
} line;

struct traffic {
    line lines[2];
    void (*make)(const traffic *, line *);
    bool close;         /* few addresses and short messages, so that words are taken for another message's */
    unsigned per_mille; /* messages with a fault */
    unsigned pauses[2]; /* between the messages of each bus, at most */
    uint64_t latest;    /* the time of the last record */
    uint8_t latest_bus; /* and its bus */
};

/* ---- drawing */

static bool once_in(unsigned n)
{
    return upto(n - 1) == 0;
}

/* Often one of the two ends. */
static unsigned between(unsigned least, unsigned most)
{
    unsigned kind = upto(7);
    return kind == 0 ? least : kind == 1 ? most : least + upto(most - least);
}

/* A distance that the rules name, or one beside it. */
static unsigned limit(void)
{
    static const uint16_t limits[] = {0, 1, 180, 194, 195, 200, 205, 206, 219, 220, 300, 301, 319, 320, 321};
    return upto(3) ? limits[upto(14)] : upto(400);
}

static unsigned draw_address(const traffic *t)
{
    static const uint8_t few[] = {0, 5, 6, 30};
    return t->close ? few[upto(3)] : upto(30);
}

static unsigned other_address(const traffic *t, unsigned address)
{
    unsigned other = address;
    while (other == address)
        other = draw_address(t);
    return other;
}

/* ---- good messages */

static void set_word(plain_record *r, unsigned word)
{
    r->word = (uint16_t)word;
    r->parity = !__builtin_parity(r->word);
}

static void add(message *m, unsigned distance, unsigned sync, unsigned word)
{
    plain_record *r = &m->records[m->n++];
    *r = (plain_record){.time = distance, .sync = (uint8_t)sync};
    set_word(r, word);
}

static void add_command(message *m, unsigned distance, unsigned address, bool transmit, unsigned subaddress, unsigned count)
{
    add(m, distance, COMMAND_SYNC, address << 11 | (unsigned)transmit << 10 | subaddress << 5 | (count & 31));
}

/* Mostly just 200 apart, as the words of one sender are. */
static void add_data(message *m, unsigned words)
{
    for (; words > 0; words--) {
        uint64_t d = draw();
        add(m, d >> 16 & 15 ? 200 : between(195, 205), DATA_SYNC, d & 0xFFFF);
    }
}

/* A broadcast is not answered. Some bits of a status are not judged. */
static void add_status(message *m, unsigned address)
{
    unsigned distance = between(220, 300), bits = once_in(8) ? upto(0x07FF) & 0x03F7 : 0;
    if (address != BROADCAST)
        add(m, distance, COMMAND_SYNC, address << 11 | bits);
}

static unsigned draw_words(const traffic *t)
{
    if (t->close)
        return once_in(20) ? between(1, 32) : 1 + upto(2);
    return once_in(4) ? between(1, 32) : 1 + upto(7);
}

static unsigned draw_subaddress(void)
{
    return 1 + upto(29);
}

static void make_receive(const traffic *t, message *m, unsigned address)
{
    unsigned words = draw_words(t);
    add_command(m, 0, address, false, draw_subaddress(), words);
    add_data(m, words);
    add_status(m, address);
}

static void make_transmit(const traffic *t, message *m, unsigned address)
{
    unsigned words = draw_words(t);
    add_command(m, 0, address, true, draw_subaddress(), words);
    add_status(m, address);
    add_data(m, words);
}

static void make_between(const traffic *t, message *m, unsigned receiver, unsigned transmitter)
{
    unsigned words = draw_words(t), distance = between(195, 205), from = draw_subaddress(), to = draw_subaddress();
    add_command(m, 0, receiver, false, to, words);
    add_command(m, distance, transmitter, true, from, words);
    add_status(m, transmitter);
    add_data(m, words);
    add_status(m, receiver);
}

/* Also of codes that are reserved, which terminals answer. */
static void make_mode_of(message *m, unsigned address, bool transmit, unsigned code)
{
    add_command(m, 0, address, transmit, 31 * upto(1), code);
    if (!transmit && code >= 16)
        add_data(m, 1);
    add_status(m, address);
    if (transmit && code >= 16)
        add_data(m, 1);
}

/* "Mode codes" of document 01. */
static void make_mode(message *m, unsigned address)
{
    static const uint8_t all[] = {0, 1, 2, 3, 4, 5, 6, 7, 8, 16, 17, 18, 19, 20, 21};
    static const uint8_t broadcast[] = {1, 3, 4, 5, 6, 7, 8, 17, 20, 21};
    unsigned code = address == BROADCAST ? broadcast[upto(9)] : all[upto(14)];
    make_mode_of(m, address, !(code == 17 || code == 20 || code == 21), code);
}

/* The ten formats of messages: six, and four that are broadcast. */
static void make_good(const traffic *t, message *m)
{
    unsigned address = draw_address(t), kind = upto(23);
    if (kind < 8)
        make_receive(t, m, address);
    else if (kind < 15)
        make_transmit(t, m, address);
    else if (kind < 18)
        make_between(t, m, address, other_address(t, address));
    else if (kind < 21)
        make_mode(m, address);
    else if (kind == 21)
        make_receive(t, m, BROADCAST);
    else if (kind == 22)
        make_between(t, m, BROADCAST, address);
    else
        make_mode(m, BROADCAST);
}

/* ---- faults */

/* One of the first two, where the commands are, the last, or any. */
static unsigned some(const message *m)
{
    unsigned kind = upto(4), at = kind < 2 ? kind : kind == 2 ? m->n - 1 : upto(m->n - 1);
    return at < m->n ? at : 0;
}

static void lose(message *m, unsigned at)
{
    m->n--;
    memmove(&m->records[at], &m->records[at + 1], (m->n - at) * sizeof *m->records);
}

static void insert(message *m, unsigned at, unsigned distance, unsigned sync, unsigned word)
{
    memmove(&m->records[at + 1], &m->records[at], (m->n - at) * sizeof *m->records);
    m->records[at] = (plain_record){.time = distance, .sync = (uint8_t)sync};
    set_word(&m->records[at], word);
    m->n++;
}

/* The word stays valid, but may no longer fit: a second command least of all. */
static void change_word(const traffic *t, plain_record *r)
{
    static const uint16_t flips[] = {0x0400, 0x0008, 0x0408, 0x0001, 0x0010, 0x0020, 0x8000};
    unsigned word = r->word;
    switch (upto(5)) {
    case 0:
        word = (word & 0x07FF) | draw_address(t) << 11;
        break;
    case 1:
        word |= BROADCAST << 11;
        break;
    case 2: /* a mode command */
        word = (word & 0xFC1F) | 0x03E0 * upto(1);
        break;
    case 3:
        word = upto(0xFFFF);
        break;
    default:
        word ^= flips[upto(6)];
        break;
    }
    set_word(r, word);
}

static void damage_record(const traffic *t, plain_record *r)
{
    switch (upto(8)) {
    case 0:
        r->parity ^= 1;
        break;
    case 1:
        r->faults = (uint8_t)(1 + upto(2));
        break;
    case 2:
        r->sync = (uint8_t)((r->sync + 1 + upto(1)) % 3);
        break;
    case 3: /* two records with one time */
        r->time = 0;
        break;
    case 4:
    case 5:
        r->time = limit();
        break;
    default:
        change_word(t, r);
        break;
    }
}

/* What should not be there: any record, or a status of the message's own address or of another. */
static void add_stray(const traffic *t, message *m)
{
    unsigned own = m->records[0].word >> 11, address = once_in(3) ? draw_address(t) : own;
    unsigned distance = limit(), sync = upto(3), word = upto(0xFFFF), at = 1 + upto(m->n - 1);
    if (sync == 3)
        insert(m, once_in(2) ? at : m->n, distance, COMMAND_SYNC, address << 11 | (word & 0x040D));
    else
        insert(m, once_in(2) ? at : m->n, distance, sync, word);
}

/* Data words after the end, now and then more than a byte counts. Two with one time may be far behind all that is judged. */
static void add_train(message *m)
{
    unsigned words = 1u << upto(once_in(4) ? 8 : 2);
    add_data(m, words);
    if (once_in(2))
        m->records[m->n - 1].time = 0;
}

/* The status of one command comes in the place of the other's. */
static void swap_answers(message *m)
{
    uint16_t first = m->records[0].word, second = m->records[1 % m->n].word;
    for (unsigned i = 2; i < m->n; i++) {
        plain_record *r = &m->records[i];
        if (r->sync == COMMAND_SYNC)
            set_word(r, (r->word & 0x07FF) | ((r->word ^ first) >> 11 ? first & 0xF800 : second & 0xF800));
    }
}

/* The receiver's status comes in the place of a data word. */
static void answer_early(message *m)
{
    plain_record *r = &m->records[some(m)];
    if (r->sync == DATA_SYNC) {
        r->sync = COMMAND_SYNC;
        set_word(r, (r->word & 0x07FF) | (m->records[0].word & 0xF800));
    }
}

/* Bits that are judged, those of every status. */
static void set_flags(message *m)
{
    static const uint16_t flags[] = {0x0400, 0x0008, 0x0408, 0x0300};
    unsigned bits = flags[upto(3)];
    for (unsigned i = 1; i < m->n; i++)
        if (m->records[i].sync == COMMAND_SYNC && m->records[i].time > 205)
            set_word(&m->records[i], m->records[i].word | bits);
}

static void damage(const traffic *t, message *m)
{
    unsigned at = some(m);
    plain_record *r = &m->records[at];
    switch (upto(14)) {
    case 0:
        if (m->n > 1)
            lose(m, at);
        break;
    case 1: /* cut off */
        m->n = at + 1;
        break;
    case 2: /* twice */
        insert(m, at, (unsigned)r->time, r->sync, r->word);
        m->records[at + 1].time = limit();
        break;
    case 3:
        add_stray(t, m);
        break;
    case 4:
        add_train(m);
        break;
    case 5:
        swap_answers(m);
        break;
    case 6:
        set_flags(m);
        break;
    case 7:
        answer_early(m);
        break;
    default:
        damage_record(t, r);
        break;
    }
}

/* ---- the kinds of traffic: each makes the next message of a bus */

static void make_usual(const traffic *t, line *l)
{
    message *m = &l->message;
    unsigned most = t->pauses[l->bus];
    make_good(t, m);
    if (upto(999) < t->per_mille)
        damage(t, m);
    m->records[0].time += 220 + upto(once_in(8) ? most : most / 8);
}

/* Mode codes of all kinds, and more messages between terminals than usual, half of them with a fault of the second command. */
static void make_any(const traffic *t, message *m)
{
    unsigned kind = upto(5), address = once_in(4) ? BROADCAST : draw_address(t);
    bool transmit = upto(1), nearly = upto(1);
    if (kind == 0)
        make_mode_of(m, address, transmit, upto(31));
    else if (kind > 2)
        make_good(t, m);
    else
        make_between(t, m, address, other_address(t, address));
    if ((kind == 1 || kind == 2) && nearly)
        damage_record(t, &m->records[1]);
}

static void make_faulty(const traffic *t, line *l)
{
    message *m = &l->message;
    make_any(t, m);
    for (unsigned ways = upto(4); ways > 1; ways--)
        damage(t, m);
    unsigned pause = upto(2);
    m->records[0].time += pause == 0 ? limit() : 220 + upto(pause == 1 ? 200 : 4000);
}

static void make_noise(const traffic *t, line *l)
{
    static const uint8_t subaddresses[] = {0, 1, 2, 31}, counts[] = {0, 1, 2, 16, 17, 18};
    unsigned address = draw_address(t), distance = limit(), sync = upto(2), word = upto(0x07FF);
    if (once_in(8))
        address = BROADCAST;
    if (upto(3)) {
        unsigned subaddress = subaddresses[upto(3)], count = counts[upto(5)];
        word = (word & 0x0400) | subaddress << 5 | count;
    }
    add(&l->message, distance, sync, address << 11 | word);
    if (once_in(8))
        l->message.records[0].parity ^= 1;
}

static void make_train(const traffic *t, line *l)
{
    if (l->bus == 1)
        make_usual(t, l);
    else if (t->latest == 0)
        make_receive(t, &l->message, 5);
    else
        add_data(&l->message, 64);
}

/* ---- the file */

static void put_record(const plain_record *r, size_t n)
{
    uint8_t bytes[PLAIN_RECORD];
    lay_record(bytes, r);
    fwrite(bytes, 1, n, stdout);
}

/* Times end at the last one there is. */
static uint64_t later(uint64_t time, uint64_t distance)
{
    return distance < PLAIN_TIMES - time ? time + distance : PLAIN_TIMES - 1;
}

static void refill(const traffic *t, line *l)
{
    l->message.n = l->message.given = 0;
    t->make(t, l);
    l->next = later(l->next, l->message.records[0].time);
}

/* The earlier one; where both have the same time, either. */
static line *next_line(traffic *t)
{
    line *a = &t->lines[0], *b = &t->lines[1];
    if (a->next != b->next)
        return a->next < b->next ? a : b;
    return upto(1) ? a : b;
}

static void put_next(traffic *t)
{
    line *l = next_line(t);
    message *m = &l->message;
    plain_record r = m->records[m->given++];
    r.bus = t->latest_bus = l->bus;
    r.time = t->latest = l->next;
    put_record(&r, PLAIN_RECORD);
    if (m->given < m->n)
        l->next = later(l->next, m->records[m->given].time);
    else
        refill(t, l);
}

/* Refused with 3, 4, 5 or 6, some of them by more than one of these, where the first must be told. */
static void put_refused(const traffic *t, unsigned way)
{
    uint8_t bytes[PLAIN_RECORD];
    plain_record r = {.time = t->latest, .bus = (uint8_t)upto(1), .sync = DATA_SYNC, .word = 0x1234};
    unsigned cut = way == 0 || way == 1 ? 1 + upto(14) : PLAIN_RECORD;
    switch (way) {
    case 4:
        r.bus = (uint8_t)(2 << upto(6));
        break;
    case 5:
        r.sync = 3;
        break;
    case 6:
        r.sync = (uint8_t)(4 << upto(5));
        break;
    case 7:
        r.faults = (uint8_t)(4 << upto(5));
        break;
    case 8:
        r.parity = (uint8_t)(2 << upto(6));
        break;
    case 9:
        r.time = PLAIN_TIMES << upto(15);
        break;
    case 10: /* earlier, and out of range */
        r.time = 0;
        r.sync = 255;
        break;
    case 11:
        r.time = 0;
        break;
    default: /* earlier than the last of the file, mostly not than the last of its own bus */
        r.time -= 1;
        r.bus = !t->latest_bus;
        break;
    }
    lay_record(bytes, &r);
    if (way == 1 || way == 2)
        bytes[1] = 13;
    if (way == 3)
        bytes[0] = 1;
    fwrite(bytes, 1, cut, stdout);
}

static void make_file(traffic *t, uint64_t seed, uint64_t records, bool refused)
{
    unsigned way = seed % 15;
    if (refused && way == 14 && records == 0) /* not even a version */
        return;
    fputc(refused && way > 12 ? upto(1) * 2 : 1, stdout);
    for (unsigned bus = 0; bus < 2; bus++) {
        t->lines[bus].bus = (uint8_t)bus;
        refill(t, &t->lines[bus]);
    }
    for (; records > 0; records--)
        put_next(t);
    if (!refused)
        return;
    put_refused(t, way);
    if (way > 1) /* it must not be read */
        put_next(t);
}

/* One file in four ends near the last time there is. */
static uint64_t first_time(uint64_t seed, uint64_t records)
{
    uint64_t random = draw() >> 20;
    return seed % 4 == 0 && records < 100000 ? PLAIN_TIMES - 1 - 250 * records : 1 + random;
}

int main(int count, char **arguments)
{
    static const struct {
        const char *name;
        traffic traffic;
    } kinds[] = {
        {"flight", {.make = make_usual, .per_mille = 4, .pauses = {8000, 200000}}},
        {"busy", {.make = make_usual, .per_mille = 4, .pauses = {200, 200}}},
        {"faulty", {.make = make_faulty, .close = true}},
        {"noise", {.make = make_noise, .close = true}},
        {"train", {.make = make_train, .per_mille = 4, .pauses = {200, 200}}},
        {"refused", {.make = make_faulty, .close = true}},
    };
    static traffic t;
    unsigned kind = 0;
    while (count == 4 && kind < 6 && strcmp(arguments[3], kinds[kind].name) != 0)
        kind++;
    if (count != 4 || kind == 6) {
        fprintf(stderr, "usage: traffic SEED RECORDS flight|busy|faulty|noise|train|refused\n");
        return 2;
    }
    uint64_t seed = strtoull(arguments[1], NULL, 10), records = strtoull(arguments[2], NULL, 10);
    /* odd, as 0 would draw nothing but 0 */
    draw_seed = seed * 0x9E3779B97F4A7C15 | 1;
    t = kinds[kind].traffic;
    t.lines[0].next = t.lines[1].next = first_time(seed, records);
    make_file(&t, seed, records, kind == 5);
    return fflush(stdout) != 0 || ferror(stdout);
}
