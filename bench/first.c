/* The functions for C at their shortest: terminal 5 was sent two words, and says busy. */
#include "buscard.h"
#include <stdio.h>
int main(void)
{
    uint8_t back[BUS_RECORD_BYTES], verdict = 0;
    uint16_t command = bus_command_build(5, BUS_TR_RECEIVE, 2, 2);
    uint16_t status = bus_status_build(5, BUS_STATUS_BUSY);
    uint8_t refused = bus_record_write(back, sizeof back, 1660, BUS_A, BUS_SYNC_COMMAND,
                                       BUS_FAULT_NONE, status, bus_word_parity(status));
    if (!refused)
        refused = bus_verdict_give(1, command, 0, BUS_A, 1400, 1900, back, sizeof back,
                                   &verdict);
    printf("command %04X status %04X: %s\n", command, status,
           refused ? "refused" : verdict == BUS_VERDICT_BUSY ? "busy" : "another verdict");
    return refused != BUS_REFUSED_NONE;
}
