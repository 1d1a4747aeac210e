/* A course: calls of one terminal as bytes, so that all of it is one call into the library.
 *
 * A call is 17 bytes: its kind, one of soak.h's (SOAK_SETUP 0 to SOAK_RESTART 11), then the 16 bytes of a record, from which it takes what it
 * needs. A record: itself, as an event. A time mark: its time. A set-up: its word is the address, every mask is FFFFFFFF. A flag: on if its
 * word is odd. A vector or BIT word: its word. The host writes the transmit table: its word at the place that is its time, if there is one. Any
 * other kind does nothing. The course ends with the bytes, or at a call whose record is refused. The terminal starts fresh, address 5, every mask
 * FFFFFFFF; both tables start as 1,024 zeros. A refused set-up changes nothing.
 *
 * The sum starts as 0, has 64 bits and wraps. After a refused event it is turned left by one bit and the refusal added; after one that carries an
 * answer it is turned and there is added the due time XOR the first data word, or 0, XOR the number of data words * 2^32 XOR the status * 2^48. Where
 * the host asks, after each event, refused or not, it is then turned and the next moment added, 0 where there is none. */
#ifndef COURSE_H
#define COURSE_H

#include <stdbool.h>
#include <stddef.h>
#include <stdint.h>

#define COURSE_CALL 17 /* bytes */

/* Plays n bytes of calls and gives the sum; `ask` says whether the host asks for the next moment: the proved terminal, of libcourse.a, and plain C. */
uint64_t course_play(const uint8_t *calls, size_t n, bool ask);
uint64_t plain_course_play(const uint8_t *calls, size_t n, bool ask);

/* Makes a course of that many calls out of the mixed part of the soak stream (soak.h), seed 1, without those that lend tables or masks of a wrong
 * length and those with a record out of range; gives how many of them are events. */
size_t course_make(uint8_t *calls, size_t count);

#endif
