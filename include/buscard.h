/* The card's logic for C and C++: libbuscard.a. Numbers and bytes only; nothing is allocated,
 * nothing is kept between calls, and every call returns for any argument. A byte slice is a
 * pointer and a length, NULL with 0 an empty one; the caller answers for pointers, and those of
 * one call do not overlap. A call that may be refused gives the refusal's number, or 0, and after a
 * refusal nothing behind a pointer has changed.
 *
 * What each function gives is proved of its source, crates/buscard/src/lib.rt. No proof speaks of
 * this header: tests/bench/check compares its types with that source, and its numbers with those of
 * document 01. Numbers are appended and never reused: a later library may give one that is not
 * here. */
#ifndef BUSCARD_H
#define BUSCARD_H

#include <stddef.h>
#include <stdint.h>

/* The version of this header and of the library: that of CHANGELOG.md's first heading. */
#define BUSCARD_VERSION "0.21.0"
#define BUSCARD_VERSION_MAJOR 0
#define BUSCARD_VERSION_MINOR 21
#define BUSCARD_VERSION_PATCH 0

#ifdef __cplusplus
extern "C" {
#endif

/* ---- numbers. Times are ticks of 0.1 microsecond, 0 to 2^48 - 1. */

/* A refused call, by document 01's table and request j of document 02. The functions below give
 * 0 and 3 to 9; 1 and 2 are the terminal's, 15 is a schedule's. */
enum {
    BUS_REFUSED_NONE = 0,            /* not refused */
    BUS_REFUSED_TABLE_SIZE = 1,      /* a word table not 1,024 words, a mask table not 32 masks */
    BUS_REFUSED_OWN_ADDRESS = 2,     /* own address above 30 */
    BUS_REFUSED_SHORT_RECORD = 3,    /* fewer than 16 bytes for a record */
    BUS_REFUSED_RECORD_LENGTH = 4,   /* record length not 14 */
    BUS_REFUSED_OUT_OF_RANGE = 5,    /* a field or a time; in a verdict also another bus */
    BUS_REFUSED_OUT_OF_ORDER = 6,    /* earlier than allowed, or after Q: see bus_verdict_give */
    BUS_REFUSED_IMPOSSIBLE_PLAN = 7, /* impossible plan */
    BUS_REFUSED_WRONG_VERSION = 8,   /* version not 1, or no byte */
    BUS_REFUSED_NO_ROOM = 9,         /* fewer than 16 bytes to write a record */
    BUS_REFUSED_SCHEDULE = 15        /* over 64 messages, another period, impossible plan */
};

/* The controller's verdict on what came back. The first fact found decides. */
enum {
    BUS_VERDICT_GOOD = 0,
    BUS_VERDICT_NO_RESPONSE = 1, /* nothing with a gap up to 140, though it was waited for */
    BUS_VERDICT_WAITING = 2,     /* still waiting: Q is too early to say */
    BUS_VERDICT_EARLY = 3,       /* a status with a gap below 40 */
    BUS_VERDICT_LATE = 4,        /* a status with a gap above 120 */
    BUS_VERDICT_INVALID = 5,     /* not valid, sync 2 included */
    BUS_VERDICT_SYNC = 6,        /* data sync for a status, command sync for data */
    BUS_VERDICT_ADDRESS = 7,     /* a status from another address */
    BUS_VERDICT_ERROR = 8,       /* message error in the status; not for mode codes 2 and 18 */
    BUS_VERDICT_BUSY = 9,        /* busy in the status; not for mode codes 2 and 18 */
    BUS_VERDICT_SPACING = 10,    /* data more than 205 after the last word, or missing */
    BUS_VERDICT_LEFT_OVER = 11,  /* a record more than was expected */
    BUS_VERDICT_OVERLAP = 12,    /* data less than 195 after the last word */
    BUS_VERDICT_LAST = 12        /* the last number: a later library may have a later one */
};

/* How a word stands to the one before it: bus_word_spacing. */
enum {
    BUS_SPACING_OVERLAPPING = 0,  /* less than 195 after it, or not later */
    BUS_SPACING_BACK_TO_BACK = 1, /* 195 to 205 after it */
    BUS_SPACING_SEPARATED = 2     /* more than 205 after it */
};

/* The bus of a record. */
enum {
    BUS_A = 0,
    BUS_B = 1
};

/* The sync of a record. */
enum {
    BUS_SYNC_COMMAND = 0, /* command or status */
    BUS_SYNC_DATA = 1,
    BUS_SYNC_NEITHER = 2 /* neither shape: not valid */
};

/* What the receiver marked of a word. With any but NONE it is not valid. */
enum {
    BUS_FAULT_NONE = 0,
    BUS_FAULT_MANCHESTER = 1,
    BUS_FAULT_BITS = 2, /* bit count */
    BUS_FAULT_BOTH = 3
};

/* Sizes, in bytes: a file is the version byte and then its records. */
enum {
    BUS_FILE_VERSION = 1, /* the version byte itself */
    BUS_VERSION_BYTES = 1,
    BUS_RECORD_BYTES = 16
};

/* The address of all terminals; a terminal's own is 0 to 30. */
enum {
    BUS_BROADCAST_ADDRESS = 31
};

/* T/R of a command word, by what the terminal does. */
enum {
    BUS_TR_RECEIVE = 0,
    BUS_TR_TRANSMIT = 1
};

/* The flags of a status word, below the five bits of its address. The other five are always 0 in
 * one that is built. */
enum {
    BUS_STATUS_MESSAGE_ERROR = 0x0400,
    BUS_STATUS_SERVICE_REQUEST = 0x0100,
    BUS_STATUS_BROADCAST_RECEIVED = 0x0010,
    BUS_STATUS_BUSY = 0x0008,
    BUS_STATUS_SUBSYSTEM = 0x0004,
    BUS_STATUS_TERMINAL = 0x0001
};

/* The code of a mode command, in its count field. T/R is 1, but 0 for 17, 20 and 21. */
enum {
    BUS_MODE_DYNAMIC_BUS_CONTROL = 0,
    BUS_MODE_SYNCHRONIZE = 1,
    BUS_MODE_TRANSMIT_STATUS_WORD = 2,
    BUS_MODE_INITIATE_SELF_TEST = 3,
    BUS_MODE_TRANSMITTER_SHUTDOWN = 4,
    BUS_MODE_TRANSMITTER_SHUTDOWN_OVERRIDE = 5,
    BUS_MODE_INHIBIT_TERMINAL_FLAG = 6,
    BUS_MODE_INHIBIT_TERMINAL_FLAG_OVERRIDE = 7,
    BUS_MODE_RESET_TERMINAL = 8,
    BUS_MODE_TRANSMIT_VECTOR_WORD = 16,
    BUS_MODE_SYNCHRONIZE_WITH_DATA = 17,
    BUS_MODE_TRANSMIT_LAST_COMMAND = 18,
    BUS_MODE_TRANSMIT_BIT_WORD = 19,
    BUS_MODE_SELECTED_SHUTDOWN = 20,
    BUS_MODE_SELECTED_SHUTDOWN_OVERRIDE = 21
};

/* ---- words */

/* The parity bit that makes the count of ones among the 17 bits odd. */
uint8_t bus_word_parity(uint16_t word);
/* 1 if valid, else 0: sync 0 or 1, no receiver fault, odd parity. A number out of range gives 0. */
uint8_t bus_word_valid(uint8_t sync, uint8_t faults, uint16_t word, uint8_t parity);
/* 1 if after is 195 to 205 ticks past before, else 0. */
uint8_t bus_word_spaced(uint64_t before, uint64_t after);
/* Which of BUS_SPACING_ it is, and how many ticks after is past before: 0 where it is not later. */
uint8_t bus_word_spacing(uint64_t before, uint64_t after, uint64_t *distance);

/* The command word of the low 5, 1, 5 and 5 bits. */
uint16_t bus_command_build(uint16_t address, uint16_t transmit, uint16_t subaddress,
                           uint16_t count);
/* The fields as they stand in the word. */
uint16_t bus_command_address(uint16_t word);
uint16_t bus_command_transmit(uint16_t word);
uint16_t bus_command_subaddress(uint16_t word);
uint16_t bus_command_count(uint16_t word);
/* The count, 0 read as 32. */
uint16_t bus_command_words(uint16_t word);
/* 1 for subaddress 0 or 31, which mark a mode command, else 0. */
uint8_t bus_command_is_mode(uint16_t word);

/* The low 5 bits of the address in the high five and, of flags, only the six of BUS_STATUS_. */
uint16_t bus_status_build(uint16_t address, uint16_t flags);
/* The address of the word. */
uint16_t bus_status_address(uint16_t word);
/* The six flags of the word, each at its own bit, and 0 elsewhere. */
uint16_t bus_status_flags(uint16_t word);

/* ---- records and files: docs/FORMAT.md */

/* Reads the record at the front of the bytes. 0, or 3 fewer than 16 bytes, 4 length not 14, 5 out
 * of range, in this order. */
uint8_t bus_record_read(const uint8_t *bytes, size_t n, uint64_t *time, uint8_t *bus,
                        uint8_t *sync, uint8_t *faults, uint16_t *word, uint8_t *parity);
/* Writes a record into the first 16 bytes. 0, or 9 fewer than 16 bytes, 5 out of range, in this
 * order. The word need not be valid. */
uint8_t bus_record_write(uint8_t *bytes, size_t n, uint64_t time, uint8_t bus, uint8_t sync,
                         uint8_t faults, uint16_t word, uint8_t parity);
/* Reads the bytes as a file. 0 and how many records, or 8 version not 1 or no byte, then of the
 * first bad record 3, 4, 5. Times need no order. */
uint8_t bus_file_check(const uint8_t *bytes, size_t n, uint64_t *records);

/* ---- verdicts */

/* The verdict on a plan: commands 1 or 2, their words (of one, second is not read), the bus, last
 * the time E of the controller's last word, until the moment Q up to which it listened, and the
 * returned records, 16 bytes each, without a version byte. 0 and the verdict 0 to 12; or 7
 * impossible plan, 5 bus, E or Q out of range or Q below E, then of the first bad record 3, 4, 5
 * (also another bus), 6 (not later than the one before, E for the first, or after Q). */
uint8_t bus_verdict_give(uint8_t commands, uint16_t first, uint16_t second, uint8_t bus,
                         uint64_t last, uint64_t until, const uint8_t *records, size_t n,
                         uint8_t *verdict);
/* The same, and how many of the returned records were looked at for the verdict, 0 to 35. A record
 * counts that decided a step, also one too late, badly spaced or left over; a missing one does not,
 * nor do the checks that refuse a record. */
uint8_t bus_verdict_looked(uint8_t commands, uint16_t first, uint16_t second, uint8_t bus,
                           uint64_t last, uint64_t until, const uint8_t *records, size_t n,
                           uint8_t *verdict, uint8_t *looked);

#ifdef __cplusplus
}
#endif

#endif
