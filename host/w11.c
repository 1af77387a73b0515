/* w11: the library called from C. Document 01's sample W11: a fresh table of 4 slots, one setup, and the challenge that it gets. */
#include <stdio.h>
#include <string.h>

#include "../include/llq.h"

static const uint8_t query[52] = {
    0x12, 0x34, 0x01, 0x00, 0x00, 0x01, 0x00, 0x00, 0x00, 0x00, 0x00, 0x01,                         /* header: RD, one question, one additional */
    0x01, 0x61, 0x00, 0x00, 0x0C, 0x00, 0x01,                                                       /* a. PTR IN */
    0x00, 0x00, 0x29, 0x05, 0xC0, 0x00, 0x00, 0x00, 0x00, 0x00, 0x16,                               /* OPT, 22 bytes of options */
    0x00, 0x01, 0x00, 0x12, 0x00, 0x01, 0x00, 0x01, 0x00, 0x00,                                     /* LLQ, version 1, setup, no error */
    0x00, 0x00, 0x00, 0x00, 0x00, 0x00, 0x00, 0x00, 0x00, 0x00, 0x0E, 0x10,                         /* number 0, lease 3,600 */
};

int main(void)
{
    uint8_t table[LLQ_TABLE_SIZE(4)], reply[LLQ_REPLY_MOST], wanted[52];
    memcpy(wanted, query, sizeof wanted);
    wanted[2] = 0x85; /* a response, authoritative, RD repeated */
    wanted[47] = 7;   /* the number granted */

    /* week 0, second 0; no roster: a NULL slice of length 0 */
    if (llq_make(0, 0, table, sizeof table, NULL, 0) != LLQ_DONE)
        return puts("w11: making was refused"), 1;
    /* from 192.0.2.1 port 5353; a real host passes a fresh unpredictable number for 7 */
    struct llq_served served = llq_serve(0, 0, 0, 0xFFFFC0000201, 5353, 7, query, sizeof query, table, sizeof table, reply, sizeof reply);
    if (served.number != LLQ_DONE || served.length != sizeof wanted || memcmp(reply, wanted, sizeof wanted) != 0)
        return puts("w11: not document 01's reply"), 1;
    struct llq_ticked ticked = llq_tick(0, 3600, table, sizeof table);
    if (ticked.number != LLQ_DONE || ticked.freed != 1)
        return puts("w11: the entry did not run out"), 1;
    if (llq_serve(0, 0, 0, 1, 1, 1, NULL, 0, table, sizeof table, NULL, 0).number != LLQ_SIZE)
        return puts("w11: an empty datagram was not refused with 3"), 1;
    puts("w11: the reply is document 01's");
    return 0;
}
