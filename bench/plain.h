/* The card's logic once more, in plain C, written from documents 01 and 02 and their readings alone, so that the proved
 * library can be held against it. Numbers and structs of the caller; nothing is allocated and nothing is kept outside them. A
 * call that may be refused gives the refusal's number of document 01, or 0, and after a refusal nothing behind a
 * pointer has changed. The caller answers for pointers; NULL with 0 is an empty table or slice. */
#ifndef PLAIN_H
#define PLAIN_H

#include <stddef.h>
#include <stdint.h>

#define PLAIN_TABLE 1024                        /* words of a lent table: word i of subaddress s at 32s + i */
#define PLAIN_MASKS 32                          /* masks of a lent mask table, one a subaddress */
#define PLAIN_RECORD 16                         /* bytes of a record */
#define PLAIN_TIMES ((uint64_t)1 << 48)         /* times are below this */
#define PLAIN_NONE UINT64_MAX                   /* no next moment */

/* Status bits. */
#define PLAIN_MESSAGE_ERROR 0x0400
#define PLAIN_SERVICE 0x0100
#define PLAIN_BROADCAST 0x0010
#define PLAIN_BUSY 0x0008
#define PLAIN_SUBSYSTEM 0x0004
#define PLAIN_TERMINAL_FLAG 0x0001

/* ---- words */

unsigned plain_parity(uint16_t word);
int plain_valid(uint8_t sync, uint8_t faults, uint16_t word, uint8_t parity);
int plain_spaced(uint64_t before, uint64_t after);

/* How a word stands to the one before it. */
enum { PLAIN_OVERLAPPING, PLAIN_BACK_TO_BACK, PLAIN_SEPARATED };
unsigned plain_spacing(uint64_t before, uint64_t after);
uint64_t plain_distance(uint64_t before, uint64_t after); /* 0 where after is not later */

uint16_t plain_command_build(unsigned address, unsigned transmit, unsigned subaddress, unsigned count);
unsigned plain_command_address(uint16_t word);
unsigned plain_command_transmit(uint16_t word);
unsigned plain_command_subaddress(uint16_t word);
unsigned plain_command_count(uint16_t word);
unsigned plain_command_words(uint16_t word);
int plain_command_is_mode(uint16_t word);
uint16_t plain_status_build(unsigned address, uint16_t flags);
unsigned plain_status_address(uint16_t word);
uint16_t plain_status_flags(uint16_t word);

/* ---- records */

typedef struct {
    uint64_t time;
    uint16_t word;
    uint8_t bus;    /* 0 A, 1 B */
    uint8_t sync;   /* 0 command/status, 1 data, 2 neither */
    uint8_t faults; /* 1 Manchester, 2 bit count, 3 both, 0 none */
    uint8_t parity;
} plain_record;

unsigned plain_record_read(const uint8_t *bytes, size_t n, plain_record *record);        /* 0, 3, 4, 5 */
unsigned plain_record_write(uint8_t *bytes, size_t n, const plain_record *record);       /* 0, 9, 5 */
unsigned plain_file_check(const uint8_t *bytes, size_t n, uint64_t *records);            /* 0, 8, 3, 4, 5 */

/* ---- verdicts */

typedef struct {
    unsigned commands;      /* 1 or 2, else the plan is impossible */
    uint16_t first, second; /* of one command, second is not read */
    uint8_t bus;
    uint64_t last;          /* E, the time of the controller's last word */
    uint64_t until;         /* Q, the moment up to which it listened */
} plain_plan;

/* The returned records are n bytes, 16 each. 0, the verdict 0 to 12 and how many records it looked at, or 7, 5, 3, 4, 6. */
unsigned plain_verdict(const plain_plan *plan, const uint8_t *bytes, size_t n, uint8_t *verdict, uint8_t *looked);

/* ---- the terminal */

/* The kind of the last spacing fault. */
enum { PLAIN_FAULT_NONE, PLAIN_FAULT_OVERLAPPING, PLAIN_FAULT_SEPARATED };

typedef struct {
    /* set-up */
    uint32_t receive_masks[PLAIN_MASKS], transmit_masks[PLAIN_MASKS];
    uint16_t address;
    /* host */
    uint16_t flags; /* the host's status bits */
    uint16_t vector, bit;
    /* what a restart makes fresh */
    uint16_t status, last_command, sync_word;
    uint8_t self_test, inhibited, shut[2];
    uint8_t spacing_fault;
    /* the message under way */
    uint8_t stage, bus, awaited, got; /* awaited and got count data words */
    uint16_t command;
    uint16_t partner;                 /* between terminals, the address that transmits */
    uint64_t command_time, last_word; /* the times of its command and of its last word */
    uint16_t words[32];               /* its data words so far */
    /* the sending under way, up to, not including, sending_end; 0 for none */
    uint64_t sending_end;
    uint8_t sending_bus;
    uint64_t last_time;
} plain_terminal;

/* What an event lends: a receive and a transmit table, and how many words each has. */
typedef struct {
    uint16_t *receive;
    size_t receive_words;
    const uint16_t *transmit;
    size_t transmit_words;
} plain_tables;

/* What an accepted event gives. Without an answer, of the fields only answered and cut are written. */
typedef struct {
    uint8_t answered, cut;
    uint8_t bus, count; /* count of data words */
    uint16_t status;
    uint64_t due;
    uint16_t words[32];
} plain_result;

/* 0, 1, 2. */
unsigned plain_setup(plain_terminal *t, unsigned address, const uint32_t *receive_masks, size_t receive_count,
                     const uint32_t *transmit_masks, size_t transmit_count);
/* A record or a time mark as an event: 0, 1, 5, 6. */
unsigned plain_event_record(plain_terminal *t, const plain_record *record, const plain_tables *tables,
                            plain_result *result);
unsigned plain_event_mark(plain_terminal *t, uint64_t time, const plain_tables *tables, plain_result *result);

void plain_set_service(plain_terminal *t, int on);
void plain_set_busy(plain_terminal *t, int on);
void plain_set_subsystem(plain_terminal *t, int on);
void plain_set_terminal_fault(plain_terminal *t, int on);
void plain_set_vector_word(plain_terminal *t, uint16_t word);
void plain_set_bit_word(plain_terminal *t, uint16_t word);
void plain_clear_self_test(plain_terminal *t);
void plain_restart(plain_terminal *t);

uint16_t plain_status(const plain_terminal *t);
uint16_t plain_last_command(const plain_terminal *t);
uint16_t plain_sync_word(const plain_terminal *t);
int plain_self_test(const plain_terminal *t);
int plain_shut(const plain_terminal *t, unsigned bus);
int plain_inhibited(const plain_terminal *t);
unsigned plain_last_spacing(const plain_terminal *t); /* PLAIN_FAULT_.. */
uint64_t plain_last_time(const plain_terminal *t);
/* The next moment at which time alone matters, or PLAIN_NONE. */
uint64_t plain_next(const plain_terminal *t);

#endif
