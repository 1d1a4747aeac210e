/* Each number of include/buscard.h has its value in document 01 or 02, or the compiler stops here.
 * tests/bench/check looks up that none is left out. */
#include "buscard.h"
#include "buscard.h" /* twice does no harm */

#define IS(name, value) _Static_assert((name) == (value), #name " is not " #value)

/* "Numbers for a refused call", and 15 of request j */
IS(BUS_REFUSED_NONE, 0);
IS(BUS_REFUSED_TABLE_SIZE, 1);
IS(BUS_REFUSED_OWN_ADDRESS, 2);
IS(BUS_REFUSED_SHORT_RECORD, 3);
IS(BUS_REFUSED_RECORD_LENGTH, 4);
IS(BUS_REFUSED_OUT_OF_RANGE, 5);
IS(BUS_REFUSED_OUT_OF_ORDER, 6);
IS(BUS_REFUSED_IMPOSSIBLE_PLAN, 7);
IS(BUS_REFUSED_WRONG_VERSION, 8);
IS(BUS_REFUSED_NO_ROOM, 9);
IS(BUS_REFUSED_SCHEDULE, 15);

/* "1 no response .. else 2 still waiting. Gap below 40: 3 early. Above 120: 4 late. Not valid ..:
 * 5. Data sync: 6. Wrong address: 7. Message error: 8. Busy: 9. .. 10 .. A record left over: 11. ..
 * 0 good.", and of request i "10 separated or missing and 12 overlapping", "verdicts 0 to 12" */
IS(BUS_VERDICT_GOOD, 0);
IS(BUS_VERDICT_NO_RESPONSE, 1);
IS(BUS_VERDICT_WAITING, 2);
IS(BUS_VERDICT_EARLY, 3);
IS(BUS_VERDICT_LATE, 4);
IS(BUS_VERDICT_INVALID, 5);
IS(BUS_VERDICT_SYNC, 6);
IS(BUS_VERDICT_ADDRESS, 7);
IS(BUS_VERDICT_ERROR, 8);
IS(BUS_VERDICT_BUSY, 9);
IS(BUS_VERDICT_SPACING, 10);
IS(BUS_VERDICT_LEFT_OVER, 11);
IS(BUS_VERDICT_OVERLAP, 12);
IS(BUS_VERDICT_LAST, 12);

/* "overlapping (below 195), back to back, or separated (above 205)", in this order */
IS(BUS_SPACING_OVERLAPPING, 0);
IS(BUS_SPACING_BACK_TO_BACK, 1);
IS(BUS_SPACING_SEPARATED, 2);

/* "One version byte, 1, opens the file. Each record: length (2 bytes, always 14), time (8), bus (1:
 * 0 is A, 1 is B), sync (1: 0 command/status, 1 data, 2 neither), receiver faults (1: 1 Manchester,
 * 2 bit count, 3 both, 0 none), word (2), parity bit (1)." */
IS(BUS_FILE_VERSION, 1);
IS(BUS_VERSION_BYTES, 1);
IS(BUS_RECORD_BYTES, 2 + 14);
IS(BUS_A, 0);
IS(BUS_B, 1);
IS(BUS_SYNC_COMMAND, 0);
IS(BUS_SYNC_DATA, 1);
IS(BUS_SYNC_NEITHER, 2);
IS(BUS_FAULT_NONE, 0);
IS(BUS_FAULT_MANCHESTER, 1);
IS(BUS_FAULT_BITS, 2);
IS(BUS_FAULT_BOTH, 3);

/* "Address 31 is broadcast." "T/R 1 means the terminal transmits." */
IS(BUS_BROADCAST_ADDRESS, 31);
IS(BUS_TR_RECEIVE, 0);
IS(BUS_TR_TRANSMIT, 1);

/* "message error 0400, .. service request 0100, .. broadcast received 0010, busy 0008, subsystem
 * flag 0004, .. terminal flag 0001 (hexadecimal)" */
IS(BUS_STATUS_MESSAGE_ERROR, 0x0400);
IS(BUS_STATUS_SERVICE_REQUEST, 0x0100);
IS(BUS_STATUS_BROADCAST_RECEIVED, 0x0010);
IS(BUS_STATUS_BUSY, 0x0008);
IS(BUS_STATUS_SUBSYSTEM, 0x0004);
IS(BUS_STATUS_TERMINAL, 0x0001);

/* "Mode codes" */
IS(BUS_MODE_DYNAMIC_BUS_CONTROL, 0);
IS(BUS_MODE_SYNCHRONIZE, 1);
IS(BUS_MODE_TRANSMIT_STATUS_WORD, 2);
IS(BUS_MODE_INITIATE_SELF_TEST, 3);
IS(BUS_MODE_TRANSMITTER_SHUTDOWN, 4);
IS(BUS_MODE_TRANSMITTER_SHUTDOWN_OVERRIDE, 5);
IS(BUS_MODE_INHIBIT_TERMINAL_FLAG, 6);
IS(BUS_MODE_INHIBIT_TERMINAL_FLAG_OVERRIDE, 7);
IS(BUS_MODE_RESET_TERMINAL, 8);
IS(BUS_MODE_TRANSMIT_VECTOR_WORD, 16);
IS(BUS_MODE_SYNCHRONIZE_WITH_DATA, 17);
IS(BUS_MODE_TRANSMIT_LAST_COMMAND, 18);
IS(BUS_MODE_TRANSMIT_BIT_WORD, 19);
IS(BUS_MODE_SELECTED_SHUTDOWN, 20);
IS(BUS_MODE_SELECTED_SHUTDOWN_OVERRIDE, 21);
