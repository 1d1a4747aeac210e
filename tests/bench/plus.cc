/* A user's C++ program: each group of functions through include/buscard.h and its names. What it
 * must print behind the version, worked out from document 01, is plus.out. */
#include "buscard.h"

#include <cstdio>
#include <cstring>

namespace {

const uint16_t own = 5;

/* "A file of one record, time 1000, bus A, command 2842, parity 1, is whole" */
const uint8_t whole[] = {0x01, 0x00, 0x0E, 0x00, 0x00, 0x00, 0x00, 0x00, 0x00,
                         0x03, 0xE8, 0x00, 0x00, 0x00, 0x28, 0x42, 0x01};

void print_command(uint16_t word)
{
    uint8_t parity = bus_word_parity(word);
    std::printf("command %04X: address %u transmit %u subaddress %u count %u words %u mode %u ",
                word, bus_command_address(word), bus_command_transmit(word),
                bus_command_subaddress(word), bus_command_count(word), bus_command_words(word), bus_command_is_mode(word));
    std::printf("parity %u valid %u\n", parity,
                bus_word_valid(BUS_SYNC_COMMAND, BUS_FAULT_NONE, word, parity));
}

void print_status(uint16_t flags)
{
    uint16_t word = bus_status_build(own, flags);
    std::printf("status %04X: address %u flags %04X\n", word, bus_status_address(word),
                bus_status_flags(word));
}

/* A word so many ticks behind one at 1000. */
void print_spacing(uint64_t ticks)
{
    uint64_t distance = 255;
    uint8_t kind = bus_word_spacing(1000, 1000 + ticks, &distance);
    const char *name = kind == BUS_SPACING_OVERLAPPING    ? "overlapping"
                       : kind == BUS_SPACING_BACK_TO_BACK ? "back to back"
                       : kind == BUS_SPACING_SEPARATED    ? "separated"
                                                          : "another number";
    std::printf("%u after: %s, distance %u\n", (unsigned)ticks, name, (unsigned)distance);
}

unsigned valid(uint8_t sync, uint8_t faults, uint8_t parity)
{
    return bus_word_valid(sync, faults, 0x2842, parity);
}

void words()
{
    print_command(bus_command_build(own, BUS_TR_RECEIVE, 2, 2));
    print_command(bus_command_build(own, BUS_TR_TRANSMIT, 2, 0));
    print_command(bus_command_build(own, BUS_TR_TRANSMIT, 0, BUS_MODE_TRANSMIT_STATUS_WORD));
    print_command(bus_command_build(BUS_BROADCAST_ADDRESS, BUS_TR_TRANSMIT, 0,
                                    BUS_MODE_TRANSMIT_STATUS_WORD));
    std::printf("valid: neither sync %u, Manchester %u, bit count %u, both %u, other parity %u\n",
                valid(BUS_SYNC_NEITHER, BUS_FAULT_NONE, 1),
                valid(BUS_SYNC_DATA, BUS_FAULT_MANCHESTER, 1),
                valid(BUS_SYNC_DATA, BUS_FAULT_BITS, 1), valid(BUS_SYNC_DATA, BUS_FAULT_BOTH, 1),
                valid(BUS_SYNC_DATA, BUS_FAULT_NONE, 0));
    std::printf("spaced: 194 %u, 195 %u, 205 %u, 206 %u\n", bus_word_spaced(1000, 1194),
                bus_word_spaced(1000, 1195), bus_word_spaced(1000, 1205),
                bus_word_spaced(1000, 1206));
    print_spacing(0);
    print_spacing(194);
    print_spacing(195);
    print_spacing(205);
    print_spacing(206);
    print_status(0);
    print_status(BUS_STATUS_MESSAGE_ERROR | BUS_STATUS_BROADCAST_RECEIVED);
    print_status(BUS_STATUS_SERVICE_REQUEST | BUS_STATUS_BUSY | BUS_STATUS_SUBSYSTEM |
                 BUS_STATUS_TERMINAL);
    print_status(0xFFFF);
}

void print_written(size_t room, uint8_t bus)
{
    uint8_t bytes[BUS_RECORD_BYTES] = {0};
    uint8_t refused =
        bus_record_write(bytes, room, 1000, bus, BUS_SYNC_COMMAND, BUS_FAULT_NONE, 0x2842, 1);
    std::printf("record of bus %u into %u bytes: refused %u, document 01's bytes %d\n", bus,
                (unsigned)room, refused,
                std::memcmp(bytes, whole + BUS_VERSION_BYTES, BUS_RECORD_BYTES) == 0);
}

void records()
{
    uint64_t time = 0, count = 0;
    uint8_t bus = 0, sync = 0, faults = 0, parity = 0;
    uint16_t word = 0;
    print_written(BUS_RECORD_BYTES, BUS_A);
    print_written(BUS_RECORD_BYTES, BUS_B);
    print_written(BUS_RECORD_BYTES, BUS_B + 1);
    print_written(BUS_RECORD_BYTES - 1, BUS_A);
    uint8_t refused = bus_record_read(whole + BUS_VERSION_BYTES, BUS_RECORD_BYTES, &time, &bus,
                                      &sync, &faults, &word, &parity);
    std::printf("read back: refused %u, time %u bus %u sync %u faults %u word %04X parity %u\n",
                refused, (unsigned)time, bus, sync, faults, word, parity);
    refused = bus_file_check(whole, sizeof whole, &count);
    std::printf("file: refused %u, records %u\n", refused, (unsigned)count);
    std::printf("file cut by a byte: refused %u; from its second byte: refused %u\n",
                bus_file_check(whole, sizeof whole - 1, &count),
                bus_file_check(whole + 1, sizeof whole - 1, &count));
}

/* Terminal 5 was sent two words, the last at 1400, and came back with this status 260 later. */
void print_verdict(const char *what, uint16_t command, uint16_t flags, uint64_t until)
{
    uint8_t back[BUS_RECORD_BYTES], verdict = 255, looked = 255, given = 255;
    uint16_t status = bus_status_build(own, flags);
    bus_record_write(back, sizeof back, 1400 + 260, BUS_A, BUS_SYNC_COMMAND, BUS_FAULT_NONE, status,
                     bus_word_parity(status));
    uint8_t refused = bus_verdict_looked(1, command, 0, BUS_A, 1400, until, back, sizeof back,
                                         &verdict, &looked);
    uint8_t again =
        bus_verdict_give(1, command, 0, BUS_A, 1400, until, back, sizeof back, &given);
    if (again != refused || given != verdict)
        std::puts("bus_verdict_give and bus_verdict_looked differ");
    if (refused)
        std::printf("%s: refused %u\n", what, refused);
    else
        std::printf("%s: verdict %u, looked at %u\n", what, verdict, looked);
}

void verdicts()
{
    const uint16_t receive = bus_command_build(own, BUS_TR_RECEIVE, 2, 2);
    const uint16_t all = bus_command_build(BUS_BROADCAST_ADDRESS, BUS_TR_TRANSMIT, 2, 2);
    uint8_t verdict = 255;
    print_verdict("status 260 after the last word", receive, 0, 1660 + 220);
    print_verdict("the same, listened to 1879", receive, 0, 1660 + 219);
    print_verdict("message error", receive, BUS_STATUS_MESSAGE_ERROR | BUS_STATUS_BUSY, 1880);
    print_verdict("busy", receive, BUS_STATUS_BUSY, 1880);
    print_verdict("the status comes after Q", receive, 0, 1659);
    print_verdict("broadcast transmit", all, 0, 1880);
    uint8_t refused =
        bus_verdict_give(1, receive, 0, BUS_A, 1400, 1400 + 320, nullptr, 0, &verdict);
    std::printf("nothing came up to 1720: refused %u, verdict %u\n", refused, verdict);
}

} // namespace

int main()
{
    std::printf("%s %d.%d.%d\n", BUSCARD_VERSION, BUSCARD_VERSION_MAJOR, BUSCARD_VERSION_MINOR,
                BUSCARD_VERSION_PATCH);
    words();
    records();
    verdicts();
    return 0;
}
