/* The word cards of document 01, and every word function against plain C: all 65,536 words, and numbers out of range. */
#include "buscard.h"
#include "plain.h"

#include <stdio.h>

static unsigned long compared, differ;

static void same(const char *what, uint64_t input, uint64_t got, uint64_t wanted)
{
    compared++;
    if (got != wanted && differ++ < 10)
        printf("%s at %llX: %llX, plain C has %llX\n", what, (unsigned long long)input, (unsigned long long)got, (unsigned long long)wanted);
}

/* ---- the cards */

static int card(const char *text, unsigned got, unsigned wanted)
{
    printf("%s: %s\n", text, got == wanted ? "ok" : "WRONG");
    return got != wanted;
}

static int cards(void)
{
    int wrong = 0;
    wrong += card("2842 needs parity 1", bus_word_parity(0x2842), 1);
    wrong += card("2C42 needs parity 0", bus_word_parity(0x2C42), 0);
    wrong += card("count 0 is 32", bus_command_words(bus_command_build(5, 0, 2, 0)), 32);
    return wrong;
}

/* ---- every word */

static const uint8_t bytes[] = {0, 1, 2, 3, 4, 255};
#define BYTES (sizeof bytes / sizeof *bytes)

static void validity(uint16_t word)
{
    for (unsigned s = 0; s < BYTES; s++)
        for (unsigned f = 0; f < BYTES; f++)
            for (unsigned p = 0; p < BYTES; p++)
                same("valid", word, bus_word_valid(bytes[s], bytes[f], word, bytes[p]), (unsigned)plain_valid(bytes[s], bytes[f], word, bytes[p]));
}

static void building(uint16_t word)
{
    uint16_t address = word >> 11, transmit = word >> 10 & 1, subaddress = word >> 5 & 31, count = word & 31;
    same("build", word, bus_command_build(address, transmit, subaddress, count), word);
    /* of numbers past their fields the low bits are taken */
    address |= 0xFFE0, transmit |= 2, subaddress |= 0x8020, count |= 0x100;
    same("build, high bits", word, bus_command_build(address, transmit, subaddress, count),
         plain_command_build(address, transmit, subaddress, count));
    for (uint16_t a = 0; a < 34; a++)
        same("status build", word, bus_status_build(a, word), plain_status_build(a, word));
}

static void one_word(uint16_t word)
{
    same("parity", word, bus_word_parity(word), plain_parity(word));
    validity(word);
    same("address", word, bus_command_address(word), plain_command_address(word));
    same("transmit", word, bus_command_transmit(word), plain_command_transmit(word));
    same("subaddress", word, bus_command_subaddress(word), plain_command_subaddress(word));
    same("count", word, bus_command_count(word), plain_command_count(word));
    same("words", word, bus_command_words(word), plain_command_words(word));
    same("is mode", word, bus_command_is_mode(word), (unsigned)plain_command_is_mode(word));
    building(word);
    same("status address", word, bus_status_address(word), plain_status_address(word));
    same("status flags", word, bus_status_flags(word), plain_status_flags(word));
}

static void one_spacing(uint64_t before, uint64_t after)
{
    uint64_t distance = UINT64_MAX;
    same("spaced", before, bus_word_spaced(before, after), (unsigned)plain_spaced(before, after));
    same("spacing", before, bus_word_spacing(before, after, &distance), plain_spacing(before, after));
    same("distance", before, distance, plain_distance(before, after));
}

static void spacing(void)
{
    static const uint64_t from[] = {0, 1000, 0xFFFFFFFFFFFF, UINT64_MAX - 300, UINT64_MAX - 200, UINT64_MAX};
    for (unsigned i = 0; i < sizeof from / sizeof *from; i++)
        for (uint64_t d = 0; d < 1000; d++) {
            /* both ways, and past the end of 64 bits, where the second word is the earlier one */
            one_spacing(from[i], from[i] + d);
            one_spacing(from[i] + d, from[i]);
        }
}

int main(void)
{
    int wrong = cards();
    for (unsigned word = 0; word < 65536; word++)
        one_word((uint16_t)word);
    spacing();
    printf("all 65536 words, %lu calls: %lu differ from plain C\n", compared, differ);
    return wrong || differ;
}
