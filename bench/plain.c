/* Document 01 in plain C, with requests b and i of document 02. Sentences in quotation marks are theirs. */
#include "plain.h"

#include <string.h>

/* ---- words */

#define BROADCAST_ADDRESS 31
#define TRANSMIT_BIT 0x0400
#define STATUS_FLAGS 0x051D
#define SPACED_LEAST 195
#define SPACED_MOST 205

/* "a parity bit that makes the count of ones among all 17 odd" */
unsigned plain_parity(uint16_t word)
{
    return !__builtin_parity(word);
}

/* "A word is valid if its sync is one of the two shapes, no receiver fault is marked and parity is odd." */
int plain_valid(uint8_t sync, uint8_t faults, uint16_t word, uint8_t parity)
{
    return sync < 2 && faults == 0 && parity == plain_parity(word);
}

/* "195 to 205 after the one before" */
int plain_spaced(uint64_t before, uint64_t after)
{
    return after > before && after - before >= SPACED_LEAST && after - before <= SPACED_MOST;
}

uint64_t plain_distance(uint64_t before, uint64_t after)
{
    return after > before ? after - before : 0;
}

/* "overlapping (below 195), back to back, or separated (above 205)", of request i */
unsigned plain_spacing(uint64_t before, uint64_t after)
{
    uint64_t distance = plain_distance(before, after);
    if (distance < SPACED_LEAST)
        return PLAIN_OVERLAPPING;
    return distance > SPACED_MOST ? PLAIN_SEPARATED : PLAIN_BACK_TO_BACK;
}

uint16_t plain_command_build(unsigned address, unsigned transmit, unsigned subaddress, unsigned count)
{
    return (uint16_t)((address & 31) << 11 | (transmit & 1) << 10 | (subaddress & 31) << 5 | (count & 31));
}

unsigned plain_command_address(uint16_t word)
{
    return word >> 11;
}

/* "T/R 1 means the terminal transmits." */
unsigned plain_command_transmit(uint16_t word)
{
    return word >> 10 & 1;
}

unsigned plain_command_subaddress(uint16_t word)
{
    return word >> 5 & 31;
}

unsigned plain_command_count(uint16_t word)
{
    return word & 31;
}

/* "Count 0 means 32." */
unsigned plain_command_words(uint16_t word)
{
    unsigned count = plain_command_count(word);
    return count == 0 ? 32 : count;
}

/* "Subaddress 0 or 31 marks a mode command and the count field is its code." */
int plain_command_is_mode(uint16_t word)
{
    unsigned subaddress = plain_command_subaddress(word);
    return subaddress == 0 || subaddress == 31;
}

uint16_t plain_status_build(unsigned address, uint16_t flags)
{
    return (uint16_t)((address & 31) << 11 | (flags & STATUS_FLAGS));
}

unsigned plain_status_address(uint16_t word)
{
    return word >> 11;
}

uint16_t plain_status_flags(uint16_t word)
{
    return word & STATUS_FLAGS;
}

static int is_valid(const plain_record *r)
{
    return plain_valid(r->sync, r->faults, r->word, r->parity);
}

static int is_broadcast(uint16_t command)
{
    return plain_command_address(command) == BROADCAST_ADDRESS;
}

/* ---- mode codes, one bit a code */

#define MODE_TRANSMIT 0x000D01FFu      /* T/R 1: 0 to 8, 16, 18, 19 */
#define MODE_RECEIVE 0x00320000u       /* T/R 0: 17, 20, 21 */
#define MODE_NOT_BROADCAST 0x000D0005u /* 0, 2, 16, 18, 19 */
#define MODE_SENDS 0x000D0000u         /* a data word is sent: 16, 18, 19 */
#define MODE_ILLEGAL 0x00300000u       /* "The terminal holds 20 and 21 and everything reserved illegal." */

/* Whether the code table has this mode command. */
static int mode_in_table(uint16_t command)
{
    uint32_t codes = plain_command_transmit(command) ? MODE_TRANSMIT : MODE_RECEIVE;
    if (is_broadcast(command))
        codes &= ~MODE_NOT_BROADCAST;
    return codes >> plain_command_count(command) & 1;
}

static unsigned mode_sends(uint16_t command)
{
    return MODE_SENDS >> plain_command_count(command) & 1;
}

/* ---- records */

static int in_range(const plain_record *r)
{
    return r->time < PLAIN_TIMES && r->bus < 2 && r->sync < 3 && r->faults < 4 && r->parity < 2;
}

static uint64_t big_endian_8(const uint8_t *b)
{
    return (uint64_t)b[0] << 56 | (uint64_t)b[1] << 48 | (uint64_t)b[2] << 40 | (uint64_t)b[3] << 32 |
           (uint64_t)b[4] << 24 | (uint64_t)b[5] << 16 | (uint64_t)b[6] << 8 | b[7];
}

/* "length (2 bytes, always 14), time (8), bus (1 ..), sync (1 ..), receiver faults (1 ..), word (2), parity bit (1)" */
unsigned plain_record_read(const uint8_t *bytes, size_t n, plain_record *record)
{
    if (n < PLAIN_RECORD)
        return 3;
    if (bytes[0] != 0 || bytes[1] != 14)
        return 4;
    plain_record r = {
        .time = big_endian_8(bytes + 2),
        .word = (uint16_t)(bytes[13] << 8 | bytes[14]),
        .bus = bytes[10],
        .sync = bytes[11],
        .faults = bytes[12],
        .parity = bytes[15],
    };
    if (!in_range(&r))
        return 5;
    *record = r;
    return 0;
}

/* "Writing: 9, 5." */
unsigned plain_record_write(uint8_t *bytes, size_t n, const plain_record *record)
{
    if (n < PLAIN_RECORD)
        return 9;
    if (!in_range(record))
        return 5;
    bytes[0] = 0;
    bytes[1] = 14;
    for (unsigned i = 0; i < 8; i++)
        bytes[2 + i] = (uint8_t)(record->time >> (56 - 8 * i));
    bytes[10] = record->bus;
    bytes[11] = record->sync;
    bytes[12] = record->faults;
    bytes[13] = (uint8_t)(record->word >> 8);
    bytes[14] = (uint8_t)record->word;
    bytes[15] = record->parity;
    return 0;
}

/* "Reading a file: 8, then record by record 3, 4, 5; no byte left is its end." */
unsigned plain_file_check(const uint8_t *bytes, size_t n, uint64_t *records)
{
    if (n == 0 || bytes[0] != 1)
        return 8;
    uint64_t count = 0;
    plain_record r;
    for (size_t at = 1; at < n; at += PLAIN_RECORD, count++) {
        unsigned refused = plain_record_read(bytes + at, n - at, &r);
        if (refused)
            return refused;
    }
    *records = count;
    return 0;
}

/* ---- verdicts */

/* "Two commands: a receive and a transmit as above, the receive perhaps to 31." */
static int pair_possible(uint16_t first, uint16_t second)
{
    return !plain_command_transmit(first) && !plain_command_is_mode(first) && plain_command_transmit(second) &&
           !plain_command_is_mode(second) && !is_broadcast(second) &&
           plain_command_address(second) != plain_command_address(first) &&
           plain_command_count(second) == plain_command_count(first);
}

/* "One: not a broadcast transmit unless a mode command; a mode command as in the code table." */
static int single_possible(uint16_t command)
{
    if (plain_command_is_mode(command))
        return mode_in_table(command);
    return !(plain_command_transmit(command) && is_broadcast(command));
}

/* "Verdict: 7; 5 for bus, E, Q, Q below E" */
static unsigned plan_refused(const plain_plan *p)
{
    if (p->commands == 1 ? !single_possible(p->first) : p->commands != 2 || !pair_possible(p->first, p->second))
        return 7;
    if (p->bus > 1 || p->last >= PLAIN_TIMES || p->until >= PLAIN_TIMES || p->until < p->last)
        return 5;
    return 0;
}

/* "then record by record 3, 4, 5, 6, all before any verdict" */
static unsigned records_refused(const plain_plan *p, const uint8_t *bytes, size_t n)
{
    uint64_t before = p->last;
    plain_record r;
    for (size_t at = 0; at < n; at += PLAIN_RECORD) {
        unsigned refused = plain_record_read(bytes + at, n - at, &r);
        if (refused)
            return refused;
        if (r.bus != p->bus)
            return 5;
        if (r.time <= before || r.time > p->until)
            return 6;
        before = r.time;
    }
    return 0;
}

/* The walk over the returned records; they have been read once and are in order. */
typedef struct {
    const uint8_t *bytes;
    size_t n;
    uint64_t last; /* the last word's time, E first */
    uint64_t until;
    unsigned looked; /* records taken */
} walk;

enum { GOOD, NO_RESPONSE, WAITING, EARLY, LATE, INVALID, SYNC, ADDRESS, MESSAGE_ERROR, BUSY, SPACING, LEFT_OVER, OVERLAP };

/* Takes the next record; 0 where there is none. */
static int take(walk *w, plain_record *r)
{
    if (w->n == 0)
        return 0;
    plain_record_read(w->bytes, w->n, r);
    w->bytes += PLAIN_RECORD;
    w->n -= PLAIN_RECORD;
    w->looked++;
    return 1;
}

/* A gap runs from 180 past a word's time, so gaps of 40, 120 and 140 are distances of 220, 300 and 320. */
static unsigned judge_status(walk *w, unsigned address, int flags_judged)
{
    plain_record r;
    /* "1 no response if Q is at least 320 past the last word or a record came later, else 2 still waiting" */
    if (!take(w, &r))
        return w->until >= w->last + 320 ? NO_RESPONSE : WAITING;
    uint64_t distance = r.time - w->last;
    w->last = r.time;
    if (distance > 320)
        return NO_RESPONSE;
    if (distance < 220)
        return EARLY;
    if (distance > 300)
        return LATE;
    if (!is_valid(&r))
        return INVALID;
    if (r.sync == 1)
        return SYNC;
    if (plain_status_address(r.word) != address)
        return ADDRESS;
    /* "The last two aren't given for mode codes 2 and 18." */
    if (flags_judged && r.word & PLAIN_MESSAGE_ERROR)
        return MESSAGE_ERROR;
    if (flags_judged && r.word & PLAIN_BUSY)
        return BUSY;
    return GOOD;
}

static unsigned judge_data(walk *w, unsigned words)
{
    plain_record r;
    for (unsigned i = 0; i < words; i++) {
        /* "missing with Q more than 205 past it: 10; missing otherwise: 2" */
        if (!take(w, &r))
            return w->until > w->last + SPACED_MOST ? SPACING : WAITING;
        /* "10 separated or missing and 12 overlapping", of request i */
        unsigned spacing = plain_spacing(w->last, r.time);
        if (spacing != PLAIN_BACK_TO_BACK)
            return spacing == PLAIN_OVERLAPPING ? OVERLAP : SPACING;
        if (!is_valid(&r))
            return INVALID;
        if (r.sync == 0)
            return SYNC;
        w->last = r.time;
    }
    return GOOD;
}

/* "a status; for transmit, status and data" and "for broadcast nothing" */
static unsigned judge_single(walk *w, uint16_t command)
{
    if (is_broadcast(command))
        return GOOD;
    int mode = plain_command_is_mode(command);
    unsigned code = plain_command_count(command), words = 0;
    if (mode)
        words = mode_sends(command);
    else if (plain_command_transmit(command))
        words = plain_command_words(command);
    unsigned verdict = judge_status(w, plain_command_address(command), !(mode && (code == 2 || code == 18)));
    return verdict != GOOD ? verdict : judge_data(w, words);
}

/* "for two commands the transmitter's status and data, then the receiver's status" */
static unsigned judge_pair(walk *w, uint16_t receive, uint16_t transmit)
{
    unsigned verdict = judge_status(w, plain_command_address(transmit), 1);
    if (verdict == GOOD)
        verdict = judge_data(w, plain_command_words(transmit));
    if (verdict == GOOD && !is_broadcast(receive))
        verdict = judge_status(w, plain_command_address(receive), 1);
    return verdict;
}

unsigned plain_verdict(const plain_plan *plan, const uint8_t *bytes, size_t n, uint8_t *verdict, uint8_t *looked)
{
    unsigned refused = plan_refused(plan);
    if (refused == 0)
        refused = records_refused(plan, bytes, n);
    if (refused)
        return refused;
    plain_record r;
    walk w = {bytes, n, plan->last, plan->until, 0};
    unsigned found = plan->commands == 1 ? judge_single(&w, plan->first) : judge_pair(&w, plan->first, plan->second);
    /* "A record left over: 11. Then 2 if Q is below the last word plus 220, else 0 good." */
    if (found == GOOD && take(&w, &r))
        found = LEFT_OVER;
    else if (found == GOOD && w.until < w.last + 220)
        found = WAITING;
    *verdict = (uint8_t)found;
    *looked = (uint8_t)w.looked;
    return 0;
}

/* ---- the terminal */

#define DUE_AFTER 260 /* "the last word's time plus 260" */
#define FIRST_WORD_MOST 750 /* "time passing the receive command by more than 750 without it" (02 b) */
#define WORD_TICKS 200

/* What the message under way awaits. */
enum {
    IDLE,      /* no message */
    FIRST,     /* after a receive command: its first data word, or a second command */
    STATUS,    /* between terminals: the transmitter's status */
    CONFIRMED, /* between terminals, after that: the first data word */
    DATA,      /* a data word */
    COMPLETE,  /* nothing: it has a due time */
};

/* "Fresh: transmitters on, nothing inhibited, status the own address, .. no message", and of the last spacing fault
 * "fresh: none" (02 i); the sending is the caller's. */
static void make_fresh(plain_terminal *t)
{
    t->status = plain_status_build(t->address, 0);
    t->last_command = 0;
    t->sync_word = 0;
    t->self_test = 0;
    t->inhibited = 0;
    t->shut[0] = t->shut[1] = 0;
    t->spacing_fault = PLAIN_FAULT_NONE;
    t->stage = IDLE;
}

/* "Set-up gives it with host flags off, vector and BIT words 0, last time 0." */
unsigned plain_setup(plain_terminal *t, unsigned address, const uint32_t *receive_masks, size_t receive_count,
                     const uint32_t *transmit_masks, size_t transmit_count)
{
    if (receive_count != PLAIN_MASKS || transmit_count != PLAIN_MASKS)
        return 1;
    if (address > 30)
        return 2;
    memset(t, 0, sizeof *t);
    memcpy(t->receive_masks, receive_masks, sizeof t->receive_masks);
    memcpy(t->transmit_masks, transmit_masks, sizeof t->transmit_masks);
    t->address = (uint16_t)address;
    make_fresh(t);
    return 0;
}

/* "bit n of the mask of a subaddress says that count code n is legal", mode commands included. */
static int is_legal(const plain_terminal *t, uint16_t command)
{
    unsigned transmit = plain_command_transmit(command), count = plain_command_count(command);
    const uint32_t *masks = transmit ? t->transmit_masks : t->receive_masks;
    if (!(masks[plain_command_subaddress(command)] >> count & 1))
        return 0;
    if (plain_command_is_mode(command))
        return mode_in_table(command) && !(MODE_ILLEGAL >> count & 1);
    /* "A broadcast transmit that is no mode command is illegal" */
    return !(transmit && is_broadcast(command));
}

/* That mode code with T/R 1 to the own address. */
static int is_own_mode(const plain_terminal *t, uint16_t command, unsigned code)
{
    return plain_command_address(command) == t->address && plain_command_transmit(command) &&
           plain_command_is_mode(command) && plain_command_count(command) == code;
}

/* "Transmit status word and transmit last command (to the own address) leave the stored status as it is." */
static int is_exempt(const plain_terminal *t, uint16_t command)
{
    return is_own_mode(t, command, 2) || is_own_mode(t, command, 18);
}

/* "A faulty message ends at once: message error goes into the stored status (not for the two exempt commands)" */
static void end_faulty(plain_terminal *t)
{
    if (!is_exempt(t, t->command))
        t->status |= PLAIN_MESSAGE_ERROR;
    t->stage = IDLE;
}

/* ---- settling */

/* "status, then for 16 the vector word, for 18 the last command, for 19 the BIT word" */
static unsigned mode_words(const plain_terminal *t, uint16_t *words)
{
    switch (plain_command_count(t->command)) {
    case 16:
        words[0] = t->vector;
        return 1;
    case 18:
        words[0] = t->last_command;
        return 1;
    case 19:
        words[0] = t->bit;
        return 1;
    default:
        return 0;
    }
}

/* The data words of the answer to a legal command. */
static unsigned answer_words(const plain_terminal *t, const uint16_t *transmit, uint16_t *words)
{
    if (plain_command_is_mode(t->command))
        return mode_words(t, words);
    /* "status and the words of the transmit table from the first place of the subaddress, status alone if busy" */
    if (!plain_command_transmit(t->command) || t->flags & PLAIN_BUSY)
        return 0;
    unsigned count = plain_command_words(t->command);
    memcpy(words, transmit + 32 * plain_command_subaddress(t->command), count * sizeof *words);
    return count;
}

/* "withheld for broadcast and for a bus whose transmitter is shut down" */
static void give_answer(plain_terminal *t, int legal, const uint16_t *transmit, plain_result *result)
{
    if (is_broadcast(t->command) || t->shut[t->bus])
        return;
    result->answered = 1;
    result->bus = t->bus;
    result->due = t->last_word + DUE_AFTER;
    result->status = t->status;
    /* "An illegal command is answered by status alone, data unused." */
    result->count = legal ? (uint8_t)answer_words(t, transmit, result->words) : 0;
    /* "due time D up to, not including, D + 200 times the words sent" */
    t->sending_bus = t->bus;
    t->sending_end = result->due + WORD_TICKS * (1u + result->count);
}

/* The effect of a legal mode command. */
static void mode_effect(plain_terminal *t)
{
    switch (plain_command_count(t->command)) {
    case 1: /* "1 sets the sync word to 0, 17 to its data" */
        t->sync_word = 0;
        break;
    case 17:
        t->sync_word = t->words[0];
        break;
    case 3: /* "3 sets the self-test request" */
        t->self_test = 1;
        break;
    case 4: /* "4 shuts the other bus, 5 opens it" */
        t->shut[!t->bus] = 1;
        break;
    case 5:
        t->shut[!t->bus] = 0;
        break;
    case 6: /* "6 inhibits the terminal flag, 7 allows it again" */
        t->inhibited = 1;
        break;
    case 7:
        t->inhibited = 0;
        break;
    case 8: /* "8 does not end the sending of its own answer" */
        make_fresh(t);
        break;
    }
}

/* What a legal command does to the receive table or the terminal: "Effects come after the answer is composed" */
static void take_effect(plain_terminal *t, uint16_t *receive)
{
    if (plain_command_is_mode(t->command))
        mode_effect(t);
    /* "from the first place of the subaddress, and each received word is stored at its own place, unless busy" */
    else if (!plain_command_transmit(t->command) && !(t->flags & PLAIN_BUSY))
        memcpy(receive + 32 * plain_command_subaddress(t->command), t->words, t->got * sizeof *receive);
}

static void settle(plain_terminal *t, const plain_tables *tables, plain_result *result)
{
    int legal = is_legal(t, t->command);
    t->stage = IDLE;
    /* "The exempt commands skip this." */
    if (!is_exempt(t, t->command)) {
        /* "the stored status gains the host flags (terminal flag only if not inhibited)" */
        uint16_t gained = t->flags;
        if (t->inhibited)
            gained &= (uint16_t)~PLAIN_TERMINAL_FLAG;
        t->status |= gained;
        /* "and, for an illegal command, message error" */
        if (!legal)
            t->status |= PLAIN_MESSAGE_ERROR;
    }
    give_answer(t, legal, tables->transmit, result);
    if (legal)
        take_effect(t, tables->receive);
}

/* ---- events */

/* "a valid word with command sync to the own address or 31" */
static int is_own_command(const plain_terminal *t, const plain_record *r)
{
    unsigned address = plain_command_address(r->word);
    return r->sync == 0 && (address == t->address || address == BROADCAST_ADDRESS) && is_valid(r);
}

/* "the count for receive, one for a T/R 0 mode code of 16 or more, else none" */
static unsigned awaited_words(uint16_t command)
{
    if (plain_command_transmit(command))
        return 0;
    if (plain_command_is_mode(command))
        return plain_command_count(command) >= 16;
    return plain_command_words(command);
}

/* "An own command replaces any message under way, and cuts a sending on the other bus; the result says so." */
static void begin_message(plain_terminal *t, const plain_record *r, plain_result *result)
{
    if (r->time < t->sending_end)
        result->cut = 1; /* on this bus the record would have been ignored */
    t->sending_end = 0;
    /* "It becomes the last command unless it is transmit last command to the own address." */
    if (!is_own_mode(t, r->word, 18))
        t->last_command = r->word;
    /* "The stored status becomes the own address, plus broadcast received if 31." */
    if (!is_exempt(t, r->word))
        t->status = plain_status_build(t->address, is_broadcast(r->word) ? PLAIN_BROADCAST : 0);
    t->command = r->word;
    t->bus = r->bus;
    t->command_time = t->last_word = r->time;
    t->got = 0;
    t->awaited = (uint8_t)awaited_words(r->word);
    if (t->awaited == 0)
        t->stage = COMPLETE;
    else
        t->stage = plain_command_is_mode(r->word) ? DATA : FIRST;
}

/* "that transmits, to another address than ours and 31, no mode command, equal count field"; ours, 31: rule 4 */
static int is_second_command(const plain_terminal *t, const plain_record *r)
{
    return r->sync == 0 && is_valid(r) && plain_command_transmit(r->word) && !plain_command_is_mode(r->word) &&
           plain_command_count(r->word) == plain_command_count(t->command);
}

/* Whether the record is the next word of the message under way: if so it is taken, else its spacing
 * fault is kept. */
static int take_word(plain_terminal *t, const plain_record *r)
{
    if (t->stage == STATUS) {
        /* "Then a valid status from that address is awaited" */
        if (r->sync != 0 || plain_status_address(r->word) != t->partner || !is_valid(r))
            return 0;
        t->stage = CONFIRMED;
        return 1;
    }
    /* "Otherwise the message is faulty, also when all its words had come." */
    if (t->stage == COMPLETE)
        return 0;
    /* Spacing is asked before validity and sync (02 i). Above 205 rule 2 has ended the message: it is below 195. */
    if (!plain_spaced(t->last_word, r->time)) {
        t->spacing_fault = PLAIN_FAULT_OVERLAPPING;
        return 0;
    }
    if (t->stage == FIRST && is_second_command(t, r)) {
        t->partner = (uint16_t)plain_command_address(r->word);
        t->stage = STATUS;
        return 1;
    }
    if (r->sync != 1 || !is_valid(r))
        return 0;
    t->words[t->got++] = r->word;
    t->stage = t->got == t->awaited ? COMPLETE : DATA;
    return 1;
}

/* "Event: 1, 5, 6." The range of the event's fields is the caller's. */
static unsigned event_refused(const plain_terminal *t, uint64_t time, int fits, const plain_tables *tables)
{
    if (tables->receive_words != PLAIN_TABLE || tables->transmit_words != PLAIN_TABLE)
        return 1;
    if (!fits)
        return 5;
    return time < t->last_time ? 6 : 0;
}

/* "last word plus 206 while a data word is awaited" */
static uint64_t late_at(const plain_terminal *t)
{
    return t->stage == FIRST || t->stage == CONFIRMED || t->stage == DATA ? t->last_word + SPACED_MOST + 1 : PLAIN_NONE;
}

/* "the receive command plus 751", between terminals before the first data word (02 b) */
static uint64_t overdue_at(const plain_terminal *t)
{
    return t->stage == STATUS || t->stage == CONFIRMED ? t->command_time + FIRST_WORD_MOST + 1 : PLAIN_NONE;
}

/* Rule 2: "A message that still awaits a data word with t more than 205 past its last word is faulty", and the limit of
 * 02 b. The limit that was passed first counts: only that of rule 2 is a spacing fault. */
static void end_waiting(plain_terminal *t, uint64_t time)
{
    uint64_t late = late_at(t), overdue = overdue_at(t);
    if (time < late && time < overdue)
        return;
    if (late <= overdue)
        t->spacing_fault = PLAIN_FAULT_SEPARATED;
    end_faulty(t);
}

/* Rules 1 and 2, before a record is looked at. */
static void pass_time(plain_terminal *t, uint64_t time, const plain_tables *tables, plain_result *result)
{
    result->answered = 0;
    result->cut = 0;
    t->last_time = time;
    /* "A message whose due time is at most t is settled." */
    if (t->stage == COMPLETE && t->last_word + DUE_AFTER <= time)
        settle(t, tables, result);
    else
        end_waiting(t, time);
}

unsigned plain_event_mark(plain_terminal *t, uint64_t time, const plain_tables *tables, plain_result *result)
{
    unsigned refused = event_refused(t, time, time < PLAIN_TIMES, tables);
    if (refused == 0)
        pass_time(t, time, tables, result);
    return refused;
}

unsigned plain_event_record(plain_terminal *t, const plain_record *record, const plain_tables *tables,
                            plain_result *result)
{
    unsigned refused = event_refused(t, record->time, in_range(record), tables);
    if (refused)
        return refused;
    pass_time(t, record->time, tables, result);
    /* "A record on a bus on which the terminal is sending (..) is ignored." */
    if (record->time < t->sending_end && record->bus == t->sending_bus)
        return 0;
    if (is_own_command(t, record))
        begin_message(t, record, result);
    /* "Any other record on the bus of a message under way must be its next word" */
    else if (t->stage != IDLE && record->bus == t->bus) {
        if (take_word(t, record))
            t->last_word = record->time;
        else
            end_faulty(t);
    }
    return 0;
}

/* ---- host calls and reads */

static void set_flag(plain_terminal *t, uint16_t flag, int on)
{
    if (on)
        t->flags |= flag;
    else
        t->flags &= (uint16_t)~flag;
}

void plain_set_service(plain_terminal *t, int on)
{
    set_flag(t, PLAIN_SERVICE, on);
}

void plain_set_busy(plain_terminal *t, int on)
{
    set_flag(t, PLAIN_BUSY, on);
}

void plain_set_subsystem(plain_terminal *t, int on)
{
    set_flag(t, PLAIN_SUBSYSTEM, on);
}

void plain_set_terminal_fault(plain_terminal *t, int on)
{
    set_flag(t, PLAIN_TERMINAL_FLAG, on);
}

void plain_set_vector_word(plain_terminal *t, uint16_t word)
{
    t->vector = word;
}

void plain_set_bit_word(plain_terminal *t, uint16_t word)
{
    t->bit = word;
}

void plain_clear_self_test(plain_terminal *t)
{
    t->self_test = 0;
}

/* "A restart also ends a message or sending" */
void plain_restart(plain_terminal *t)
{
    make_fresh(t);
    t->sending_end = 0;
}

uint16_t plain_status(const plain_terminal *t)
{
    return t->status;
}

uint16_t plain_last_command(const plain_terminal *t)
{
    return t->last_command;
}

uint16_t plain_sync_word(const plain_terminal *t)
{
    return t->sync_word;
}

int plain_self_test(const plain_terminal *t)
{
    return t->self_test;
}

int plain_shut(const plain_terminal *t, unsigned bus)
{
    return t->shut[bus & 1];
}

int plain_inhibited(const plain_terminal *t)
{
    return t->inhibited;
}

unsigned plain_last_spacing(const plain_terminal *t)
{
    return t->spacing_fault;
}

uint64_t plain_last_time(const plain_terminal *t)
{
    return t->last_time;
}

/* "the due time, or last word plus 206 while a data word is awaited, or none"; "Until that word comes the next moment is
 * at most the receive command plus 751." (02 b) */
uint64_t plain_next(const plain_terminal *t)
{
    if (t->stage == COMPLETE)
        return t->last_word + DUE_AFTER;
    uint64_t late = late_at(t), overdue = overdue_at(t);
    return late < overdue ? late : overdue;
}
