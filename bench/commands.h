/* The fields of a command word, for the tools in plain C. */
#ifndef BENCH_COMMANDS_H
#define BENCH_COMMANDS_H

#include <stdbool.h>
#include <stdint.h>

#define BROADCAST 31 /* the address of all terminals */

static inline unsigned address_of(uint16_t word)
{
    return word >> 11;
}

static inline bool transmits(uint16_t command)
{
    return command >> 10 & 1;
}

static inline bool is_mode(uint16_t command)
{
    unsigned subaddress = command >> 5 & 31;
    return subaddress == 0 || subaddress == 31;
}

static inline unsigned count_of(uint16_t command)
{
    return command & 31;
}

/* "Count 0 means 32." */
static inline unsigned words_of(uint16_t command)
{
    unsigned count = count_of(command);
    return count == 0 ? 32 : count;
}

static inline bool is_broadcast(uint16_t command)
{
    return address_of(command) == BROADCAST;
}

#endif
