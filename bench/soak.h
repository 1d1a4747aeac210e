/* The soak stream: calls of the terminal without end, made from a seed. The definition that follows is meant to be
 * enough to make the same stream, and the same checksum over it, in any language.
 *
 * NUMBERS. All numbers are unsigned, 64 bits, and wrap. mix(z): z = (z ^ (z >> 30)) * BF58476D1CE4E5B9h, then
 * z = (z ^ (z >> 27)) * 94D049BB133111EBh, then it gives z ^ (z >> 31). s starts as the seed; next() adds
 * 9E3779B97F4A7C15h to s and gives mix(s) (splitmix64). draw(n) = next() mod n. Draws are made in the order in which
 * they are written, and only where the words before them lead there: in "if X and one in 4" the draw is made only if X;
 * those among the arguments of P come before those of P. "One in n" is true if draw(n) = 0. A record has the right
 * parity bit for its word, and faults 0, where nothing else is said. END = 2^48.
 *
 * TABLES. The receive table starts as 1,024 zeros. The transmit table starts with draw(65536) at each place, 0 to
 * 1,023: the first 1,024 draws. An event lends both whole, 1,024 words each, where nothing else is said. Where a call
 * lends more words or masks than a right call would, what they hold does not matter. The first call is a set-up that
 * is accepted, so the terminal before it does not matter.
 *
 * FIXED PART, no draws. For each word c from 0 to 65535: a set-up of address 5, 32 and 32 masks, all FFFFFFFFh; a
 * record of time 1000, bus 0, sync 0, word c; for k from 1 to n a record of time 1000 + 200k, bus 0, sync 1, word (c +
 * 257k) mod 65536; a mark of time 1260 + 200n. n = awaited(c) if the address of c is 5 or 31, else 0.
 * awaited(c): 0 if T/R is 1; for a mode command (subaddress 0 or 31) 1 if the code is 16 or more, else 0; for any
 * other the count, 0 read as 32. These are 228,352 calls.
 *
 * MIXED PART, after it. Variables: address, now, from, bus, command, partner, left, first, and a stage (idle, data,
 * status or full); all are 0 and idle at first. The first call is S with e = 15 and no draw for e. For each later call
 * k = draw(256); 0 and 1: S; 2: a restart; 3 to 10: H; 11 to 16: R; 17 to 26: W; 27 to 36: M; 37 to 40: C; else G.
 *
 * later(x) = the greater of now and x. STEP[16] = 0 1 20 100 194 195 200 205 206 207 259 260 261 400 460 1000.
 * Whenever W, M, C or G has made its event and the event's time is below END, now becomes that time; R changes no
 * variable.
 *
 * S, set-up. m = next(); e = draw(16); a = draw(31); r = t = 32. If e is 0 or 1, a = 31 + draw(300). If e is 1 or 2, r
 * = draw(65). If e is 1 or 3, t = draw(65). If e is 8 or more, m = 0. If e is 12 or more, a = 5. If r = t = 32 and a
 * is at most 30: address = a, bus = 0, command = 0, stage idle; b = draw(8); now = END - 30000 for b = 0, 0 for b = 1,
 * else draw(100000); from = now. The call: a set-up of address a with r receive and t transmit masks. With m = 0 every
 * mask is FFFFFFFFh; else receive mask i is the low 32 bits of mix(m + i) OR its high 32 bits, and transmit mask i
 * that of mix(m + 64 + i).
 *
 * H, host. h = draw(12). 0 service request, 1 busy, 2 subsystem, 3 terminal fault: on if one in 3, else off. 4: vector
 * word draw(65536). 5: BIT word draw(65536). 6: the self-test request is cleared. 7 to 11: the host writes the
 * transmit table at place 32 * (subaddress of command) + draw(32), word draw(65536).
 *
 * R, to be refused. x = 1 + draw(7); time = now + draw(300). If x AND 4, time = now - (the lesser of now and 1 +
 * draw(300)). If draw(2) = 0 it is a mark, else a record: bus = draw(2), sync 0, word = address * 2048 + draw(2048).
 * If x AND 2: f = 0 for a mark, draw(5) for a record; f = 0: time = END * 2^draw(16); 1: bus = 2 + draw(254); 2: sync
 * = 3 + draw(253); 3: faults = 4 + draw(252); 4: parity = 2 + draw(254). If x AND 1: the receive table if draw(2) = 0,
 * else the transmit table, is lent with SIZE[draw(4)] words, SIZE[4] = 0 1023 1025 2048.
 *
 * W, stray record. time = now + STEP[draw(16)]; bus = draw(2); sync = draw(3); word = draw(65536); if one in 4, word =
 * address * 2048 + word mod 2048; if one in 4, the wrong parity; if one in 4, faults = draw(4).
 *
 * M, stray mark. If one in 2, time = now + STEP[draw(16)], else time = later(from + STEP[draw(16)]).
 *
 * C, new command. a = draw(16); its address is the variable address if a is below 10, else 31 if a is below 13, else
 * draw(32). If one in 4 it is a mode command: subaddress = 31 * draw(2); count = draw(32) if one in 4, else
 * CODE[draw(16)], CODE[16] = 0 1 2 3 4 5 6 7 8 16 17 18 19 20 21 2; T/R = 0 for count 17, 20 or 21, else 1; if one in
 * 8, T/R turns. Otherwise: subaddress = draw(32); T/R = draw(2); count = draw(32) if one in 4, else 1 + draw(4). These
 * give word. Its bus is 1 - bus if one in 3, else bus. If one in 4, time = later(from + 259 + 200 * (1 +
 * sent(command)) + draw(3)), else time = now + STEP[draw(16)]. The call: P(time, its bus, 0, word). Then, if its
 * address is the variable address or 31 (whatever P did): command = word, bus = its bus, from = time, left =
 * awaited(word), first = 1, stage data if left is not 0, else full.
 * sent(c): 0 if T/R is 0; for a mode command 1 for the codes 16, 18, 19, else 0; for any other the count, 0 read as
 * 32.
 *
 * G, going on. Stage idle: as C.
 *   data: d = draw(64); gap = 194, 206, 400 for d = 0, 1, 2, else 195 + draw(11); time = later(from + gap). If first
 *     is 1, command has T/R 0 and is no mode command, and one in 4: partner = draw(31); word = the command of address
 *     partner, T/R 1, subaddress 1 + draw(30), count of command; by draw(16): 0: T/R turns, 1: the lowest bit turns,
 *     2: subaddress = 0, else as it is; stage status; the call: P(time, bus, 0, word). Otherwise: left = left - 1, if
 *     it is 0 now stage full; the call: P(time, bus, 1, draw(65536)). In both, first = 0 and from = time.
 *   status: if one in 4, gap = 345 + draw(11), else gap = STEP[draw(16)]; time = later(from + gap); word = partner * 2048
 *     + draw(2048); if one in 16, bit 0800h of word turns; from = time; stage data; the call: P(time, bus, 0, word).
 *   full: e = draw(8). 0: a mark at later(from + 259). 1 to 4: stage idle, a mark at later(from + 260). 5: stage idle,
 *     a mark at later(from + 260 + draw(400)). 6: time = later(from + STEP[draw(16)]), sync = draw(2), word =
 *     draw(65536), P(time, bus, sync, word). 7: as C.
 *
 * P(time, bus, sync, word), a record that may be spoilt, by draw(128): 0: the wrong parity; 1: faults = 1 + draw(3);
 * 2: sync = draw(3); 3: the other bus; 4: word = draw(65536), with its right parity; else as it is.
 *
 * CHECKSUM. FNV-1a, 64 bits: h starts as CBF29CE484222325h; for each byte h = (h ^ byte) * 100000001B3h. Numbers of
 * more than one byte go in highest byte first. After each call, in this order:
 * 1. the refusal, 1 byte, 0 for none and for every host call;
 * 2. for an event that was accepted: 1 byte, 1 if it carries an answer, plus 2 if it cut a sending; then for an
 *    answer: bus 1, due time 8, status 2, number of data words 1, each word 2 bytes;
 * 3. stored status 2, last command 2, sync word 2, 1 byte (1 self-test request + 2 A shut + 4 B shut + 8 terminal flag
 *    inhibited + 16 last spacing fault overlapping + 32 last spacing fault separated), last time 8, next moment 8
 *    bytes, 2^64 - 1 for none;
 * 4. after an event that carried an answer, and after every call whose number (the first set-up is 1) is a multiple of
 *    1,024: for each place of the receive table, rising, whose word is another than in a copy of the table: place 2,
 *    word 2 bytes; then the copy is made anew. The copy starts as zeros.
 * A line "soak CALLS CHECKSUM" gives the number of calls in decimal and h in 16 hexadecimal digits, capitals. */
#ifndef SOAK_H
#define SOAK_H

#include "plain.h"

enum {
    SOAK_SETUP,
    SOAK_RECORD,
    SOAK_MARK,
    SOAK_SERVICE,
    SOAK_BUSY,
    SOAK_SUBSYSTEM,
    SOAK_FAULT,
    SOAK_VECTOR,
    SOAK_BIT,
    SOAK_CLEAR,
    SOAK_SEND,
    SOAK_RESTART,
};

enum { SOAK_IDLE, SOAK_DATA, SOAK_STATUS, SOAK_FULL };

typedef struct {
    uint8_t kind;
    uint16_t receive, transmit; /* how many words or masks are lent */
    uint16_t address;           /* of a set-up */
    uint64_t masks;             /* of a set-up: m */
    uint16_t value, place;      /* of a host call: the flag or the word, the place */
    plain_record record;        /* of a mark, only its time */
} soak_call;

typedef struct {
    uint64_t s;
    unsigned fixed, step; /* fixed part: the word c, 65536 when it is over, and its call */
    int started;          /* the mixed part's first set-up has been made */
    uint64_t now, from;
    unsigned address, bus, command, partner, left, first, stage;
} soak_stream;

static uint64_t soak_mix(uint64_t z)
{
    z = (z ^ z >> 30) * 0xBF58476D1CE4E5B9u;
    z = (z ^ z >> 27) * 0x94D049BB133111EBu;
    return z ^ z >> 31;
}

static uint64_t soak_next(soak_stream *g)
{
    g->s += 0x9E3779B97F4A7C15u;
    return soak_mix(g->s);
}

static unsigned soak_draw(soak_stream *g, unsigned n)
{
    return (unsigned)(soak_next(g) % n);
}

static int soak_one_in(soak_stream *g, unsigned n)
{
    return soak_draw(g, n) == 0;
}

static unsigned soak_step(soak_stream *g)
{
    static const uint16_t steps[16] = {0, 1, 20, 100, 194, 195, 200, 205, 206, 207, 259, 260, 261, 400, 460, 1000};
    return steps[soak_draw(g, 16)];
}

static uint64_t soak_later(const soak_stream *g, uint64_t time)
{
    return time > g->now ? time : g->now;
}

static unsigned soak_awaited(unsigned command)
{
    unsigned count = command & 31, subaddress = command >> 5 & 31;
    if (command & 0x0400)
        return 0;
    if (subaddress == 0 || subaddress == 31)
        return count >= 16;
    return count == 0 ? 32 : count;
}

static unsigned soak_sent(unsigned command)
{
    unsigned count = command & 31, subaddress = command >> 5 & 31;
    if (!(command & 0x0400))
        return 0;
    if (subaddress == 0 || subaddress == 31)
        return count == 16 || count == 18 || count == 19;
    return count == 0 ? 32 : count;
}

/* ---- calls */

static soak_call soak_event(unsigned kind, uint64_t time)
{
    return (soak_call){.kind = (uint8_t)kind, .receive = PLAIN_TABLE, .transmit = PLAIN_TABLE, .record.time = time};
}

static soak_call soak_record(uint64_t time, unsigned bus, unsigned sync, unsigned word)
{
    soak_call c = soak_event(SOAK_RECORD, time);
    c.record.bus = (uint8_t)bus;
    c.record.sync = (uint8_t)sync;
    c.record.word = (uint16_t)word;
    c.record.parity = (uint8_t)plain_parity((uint16_t)word);
    return c;
}

static soak_call soak_setup(unsigned address, unsigned receive, unsigned transmit, uint64_t masks)
{
    return (soak_call){.kind = SOAK_SETUP, .receive = (uint16_t)receive, .transmit = (uint16_t)transmit,
                       .address = (uint16_t)address, .masks = masks};
}

/* The event has been made: now goes on to it. */
static soak_call soak_made(soak_stream *g, soak_call c)
{
    if (c.record.time < PLAIN_TIMES)
        g->now = c.record.time;
    return c;
}

static soak_call soak_mark(soak_stream *g, uint64_t time)
{
    return soak_made(g, soak_event(SOAK_MARK, time));
}

/* P */
static soak_call soak_planned(soak_stream *g, uint64_t time, unsigned bus, unsigned sync, unsigned word)
{
    soak_call c = soak_record(time, bus, sync, word);
    switch (soak_draw(g, 128)) {
    case 0:
        c.record.parity ^= 1;
        break;
    case 1:
        c.record.faults = (uint8_t)(1 + soak_draw(g, 3));
        break;
    case 2:
        c.record.sync = (uint8_t)soak_draw(g, 3);
        break;
    case 3:
        c.record.bus ^= 1;
        break;
    case 4:
        c = soak_record(time, bus, sync, soak_draw(g, 65536));
        break;
    }
    return soak_made(g, c);
}

/* ---- the fixed part */

static soak_call soak_fixed(soak_stream *g)
{
    unsigned c = g->fixed, address = c >> 11, words = address == 5 || address == 31 ? soak_awaited(c) : 0;
    unsigned step = g->step++;
    if (step == 0)
        return soak_setup(5, 32, 32, 0);
    if (step == 1)
        return soak_record(1000, 0, 0, c);
    if (step <= 1 + words)
        return soak_record(1000 + 200 * (step - 1), 0, 1, (c + 257 * (step - 1)) % 65536);
    g->fixed++;
    g->step = 0;
    return soak_event(SOAK_MARK, 1260 + 200 * words);
}

/* ---- the mixed part */

/* S */
static soak_call soak_setting_up(soak_stream *g)
{
    uint64_t m = soak_next(g);
    unsigned e = g->started ? soak_draw(g, 16) : 15, a = soak_draw(g, 31), r = 32, t = 32;
    g->started = 1;
    if (e == 0 || e == 1)
        a = 31 + soak_draw(g, 300);
    if (e == 1 || e == 2)
        r = soak_draw(g, 65);
    if (e == 1 || e == 3)
        t = soak_draw(g, 65);
    if (e >= 8)
        m = 0;
    if (e >= 12)
        a = 5;
    if (r == 32 && t == 32 && a <= 30) {
        g->address = a;
        g->bus = 0;
        g->command = 0;
        g->stage = SOAK_IDLE;
        unsigned b = soak_draw(g, 8);
        g->now = b == 0 ? PLAIN_TIMES - 30000 : b == 1 ? 0 : soak_draw(g, 100000);
        g->from = g->now;
    }
    return soak_setup(a, r, t, m);
}

/* H */
static soak_call soak_host(soak_stream *g)
{
    unsigned h = soak_draw(g, 12);
    soak_call c = {.kind = (uint8_t)(h < 7 ? SOAK_SERVICE + h : SOAK_SEND)};
    if (h < 4)
        c.value = (uint16_t)soak_one_in(g, 3);
    else if (h < 6)
        c.value = (uint16_t)soak_draw(g, 65536);
    else if (h > 6) {
        c.place = (uint16_t)(32 * (g->command >> 5 & 31) + soak_draw(g, 32));
        c.value = (uint16_t)soak_draw(g, 65536);
    }
    return c;
}

/* R: a field out of range */
static void soak_spoil_field(soak_stream *g, soak_call *c)
{
    switch (c->kind == SOAK_MARK ? 0 : soak_draw(g, 5)) {
    case 0:
        c->record.time = PLAIN_TIMES << soak_draw(g, 16);
        break;
    case 1:
        c->record.bus = (uint8_t)(2 + soak_draw(g, 254));
        break;
    case 2:
        c->record.sync = (uint8_t)(3 + soak_draw(g, 253));
        break;
    case 3:
        c->record.faults = (uint8_t)(4 + soak_draw(g, 252));
        break;
    case 4:
        c->record.parity = (uint8_t)(2 + soak_draw(g, 254));
        break;
    }
}

/* R */
static soak_call soak_to_refuse(soak_stream *g)
{
    static const uint16_t sizes[4] = {0, 1023, 1025, 2048};
    unsigned x = 1 + soak_draw(g, 7);
    uint64_t time = g->now + soak_draw(g, 300);
    if (x & 4) {
        uint64_t less = 1 + soak_draw(g, 300);
        time = less < g->now ? g->now - less : 0;
    }
    soak_call c = soak_event(SOAK_MARK, time);
    if (soak_draw(g, 2) != 0) {
        unsigned bus = soak_draw(g, 2);
        c = soak_record(time, bus, 0, g->address * 2048 + soak_draw(g, 2048));
    }
    if (x & 2)
        soak_spoil_field(g, &c);
    if (x & 1) {
        uint16_t *lent = soak_draw(g, 2) == 0 ? &c.receive : &c.transmit;
        *lent = sizes[soak_draw(g, 4)];
    }
    return c;
}

/* W */
static soak_call soak_stray_record(soak_stream *g)
{
    uint64_t time = g->now + soak_step(g);
    unsigned bus = soak_draw(g, 2), sync = soak_draw(g, 3), word = soak_draw(g, 65536);
    if (soak_one_in(g, 4))
        word = g->address * 2048 + word % 2048;
    soak_call c = soak_record(time, bus, sync, word);
    if (soak_one_in(g, 4))
        c.record.parity ^= 1;
    if (soak_one_in(g, 4))
        c.record.faults = (uint8_t)soak_draw(g, 4);
    return soak_made(g, c);
}

/* M */
static soak_call soak_stray_mark(soak_stream *g)
{
    uint64_t time;
    if (soak_one_in(g, 2))
        time = g->now + soak_step(g);
    else
        time = soak_later(g, g->from + soak_step(g));
    return soak_mark(g, time);
}

/* C: its word */
static unsigned soak_command_word(soak_stream *g)
{
    static const uint8_t codes[16] = {0, 1, 2, 3, 4, 5, 6, 7, 8, 16, 17, 18, 19, 20, 21, 2};
    unsigned a = soak_draw(g, 16), address = a < 10 ? g->address : a < 13 ? 31 : soak_draw(g, 32);
    unsigned subaddress, transmit, count;
    if (soak_one_in(g, 4)) {
        subaddress = 31 * soak_draw(g, 2);
        count = soak_one_in(g, 4) ? soak_draw(g, 32) : codes[soak_draw(g, 16)];
        transmit = !(count == 17 || count == 20 || count == 21);
        if (soak_one_in(g, 8))
            transmit ^= 1;
    } else {
        subaddress = soak_draw(g, 32);
        transmit = soak_draw(g, 2);
        count = soak_one_in(g, 4) ? soak_draw(g, 32) : 1 + soak_draw(g, 4);
    }
    return address << 11 | transmit << 10 | subaddress << 5 | count;
}

/* C */
static soak_call soak_command(soak_stream *g)
{
    unsigned word = soak_command_word(g), bus = soak_one_in(g, 3) ? 1 - g->bus : g->bus;
    uint64_t time;
    if (soak_one_in(g, 4))
        time = soak_later(g, g->from + 259 + 200 * (1 + soak_sent(g->command)) + soak_draw(g, 3));
    else
        time = g->now + soak_step(g);
    soak_call c = soak_planned(g, time, bus, 0, word);
    if (word >> 11 == g->address || word >> 11 == 31) {
        g->command = word;
        g->bus = bus;
        g->from = time;
        g->left = soak_awaited(word);
        g->first = 1;
        g->stage = g->left ? SOAK_DATA : SOAK_FULL;
    }
    return c;
}

/* G, between terminals: the word of the second command */
static unsigned soak_second_word(soak_stream *g)
{
    g->partner = soak_draw(g, 31);
    unsigned word = g->partner << 11 | 0x0400 | (1 + soak_draw(g, 30)) << 5 | (g->command & 31);
    switch (soak_draw(g, 16)) {
    case 0:
        return word ^ 0x0400;
    case 1:
        return word ^ 1;
    case 2:
        return word & ~0x03E0u;
    default:
        return word;
    }
}

/* G, stage data */
static soak_call soak_on_data(soak_stream *g)
{
    static const uint16_t wrong[3] = {194, 206, 400};
    unsigned d = soak_draw(g, 64), subaddress = g->command >> 5 & 31;
    uint64_t time = soak_later(g, g->from + (d < 3 ? wrong[d] : 195 + soak_draw(g, 11)));
    int may_be_second = g->first && !(g->command & 0x0400) && subaddress != 0 && subaddress != 31;
    g->first = 0;
    g->from = time;
    if (may_be_second && soak_one_in(g, 4)) {
        unsigned word = soak_second_word(g);
        g->stage = SOAK_STATUS;
        return soak_planned(g, time, g->bus, 0, word);
    }
    if (--g->left == 0)
        g->stage = SOAK_FULL;
    return soak_planned(g, time, g->bus, 1, soak_draw(g, 65536));
}

/* G, stage status */
static soak_call soak_on_status(soak_stream *g)
{
    unsigned gap = soak_one_in(g, 4) ? 345 + soak_draw(g, 11) : soak_step(g);
    uint64_t time = soak_later(g, g->from + gap);
    unsigned word = g->partner * 2048 + soak_draw(g, 2048);
    if (soak_one_in(g, 16))
        word ^= 0x0800;
    g->from = time;
    g->stage = SOAK_DATA;
    return soak_planned(g, time, g->bus, 0, word);
}

/* G, stage full */
static soak_call soak_on_full(soak_stream *g)
{
    unsigned e = soak_draw(g, 8);
    if (e == 7)
        return soak_command(g);
    if (e == 6) {
        uint64_t time = soak_later(g, g->from + soak_step(g));
        unsigned sync = soak_draw(g, 2), word = soak_draw(g, 65536);
        return soak_planned(g, time, g->bus, sync, word);
    }
    if (e == 0)
        return soak_mark(g, soak_later(g, g->from + 259));
    g->stage = SOAK_IDLE;
    return soak_mark(g, soak_later(g, g->from + 260 + (e == 5 ? soak_draw(g, 400) : 0)));
}

/* G */
static soak_call soak_go_on(soak_stream *g)
{
    switch (g->stage) {
    case SOAK_DATA:
        return soak_on_data(g);
    case SOAK_STATUS:
        return soak_on_status(g);
    case SOAK_FULL:
        return soak_on_full(g);
    default:
        return soak_command(g);
    }
}

static soak_call soak_mixed(soak_stream *g)
{
    if (!g->started)
        return soak_setting_up(g);
    unsigned k = soak_draw(g, 256);
    if (k < 2)
        return soak_setting_up(g);
    if (k < 3)
        return (soak_call){.kind = SOAK_RESTART};
    if (k < 11)
        return soak_host(g);
    if (k < 17)
        return soak_to_refuse(g);
    if (k < 27)
        return soak_stray_record(g);
    if (k < 37)
        return soak_stray_mark(g);
    return k < 41 ? soak_command(g) : soak_go_on(g);
}

/* ---- the whole */

/* The stream from its seed, and the transmit table's first 1,024 words. */
static void soak_start(soak_stream *g, uint64_t seed, uint16_t *transmit)
{
    *g = (soak_stream){.s = seed};
    for (unsigned i = 0; i < PLAIN_TABLE; i++)
        transmit[i] = (uint16_t)soak_draw(g, 65536);
}

static soak_call soak_call_next(soak_stream *g)
{
    return g->fixed < 65536 ? soak_fixed(g) : soak_mixed(g);
}

static int soak_is_event(const soak_call *c)
{
    return c->kind == SOAK_RECORD || c->kind == SOAK_MARK;
}

/* Makes a host call or a restart, on plain C. */
static void soak_host_call(plain_terminal *t, uint16_t *transmit, const soak_call *c)
{
    switch (c->kind) {
    case SOAK_SERVICE:
        plain_set_service(t, c->value);
        break;
    case SOAK_BUSY:
        plain_set_busy(t, c->value);
        break;
    case SOAK_SUBSYSTEM:
        plain_set_subsystem(t, c->value);
        break;
    case SOAK_FAULT:
        plain_set_terminal_fault(t, c->value);
        break;
    case SOAK_VECTOR:
        plain_set_vector_word(t, c->value);
        break;
    case SOAK_BIT:
        plain_set_bit_word(t, c->value);
        break;
    case SOAK_CLEAR:
        plain_clear_self_test(t);
        break;
    case SOAK_SEND:
        transmit[c->place] = c->value;
        break;
    case SOAK_RESTART:
        plain_restart(t);
        break;
    }
}

/* The masks of an m other than 0: table 0 receive, 1 transmit; 64 each, of which a set-up lends as many as it says. */
static inline void soak_masks(uint64_t m, uint32_t masks[2][64])
{
    for (unsigned i = 0; i < 128; i++) {
        uint64_t z = soak_mix(m + i);
        masks[i / 64][i % 64] = (uint32_t)z | (uint32_t)(z >> 32);
    }
}

#endif
