/*
 * llq.h - DNS Long-Lived Queries (RFC 8764), server side: make a table, tick, serve a datagram.
 *
 * The caller owns every buffer and lends it for the length of one call. The library keeps nothing between calls, allocates
 * nothing and calls nothing back. A call is either done (number 0) or refused by a number; a refused call changes no byte of
 * any buffer. Numbers in tables, rosters and messages are big endian.
 *
 * Proved for all arguments: the answer, every byte of the table and every byte of the reply buffer (docs/STATEMENTS.md).
 *
 * Assumed, not proved:
 *  - the buffers lent to one call do not overlap, and a pointer and its length describe memory of the caller's;
 *  - `random` is fresh and unpredictable for each datagram: it alone keeps out a sender who cannot see the replies;
 *  - IPv4 senders come as IPv4-mapped IPv6 addresses (::ffff:a.b.c.d);
 *  - no two calls run at once on one table, and nobody else writes the table between calls.
 * Tested, not proved: a NULL pointer with length 0 is taken as an empty buffer.
 *
 * Promised and not promised: a sender is known by the address and port that the host passes, and by nothing else. An address
 * below its share is never refused as full, whatever other addresses do. But whoever forges source addresses can fill every
 * slot that is not reserved with pending entries, which wait out their lease (up to 7,200 s; four forged datagrams of four
 * questions fill 16 slots), and whoever forges a listed address takes that address's own share. Visitors behind one address
 * share its limit of 4. So: filter source addresses at the switch, give what must be served a share in the roster, and let
 * each panel send from a fixed port, since an entry belongs to address, port and question.
 */
#ifndef LLQ_H
#define LLQ_H

#include <stddef.h>
#include <stdint.h>

/* Of the header, the archive and the host together. */
#define LLQ_VERSION "0.5.0"

#ifdef __cplusplus
extern "C" {
#endif

/* The number of an answer. Where several conditions hold, the lowest number is given. */
enum llq_number {
    LLQ_DONE = 0,
    LLQ_TABLE = 1,     /* the table is unsound; making: its length is neither an LLQ_TABLE_SIZE nor an LLQ_TABLE_SIZE_13 of 1 to 64 */
    LLQ_READING = 2,   /* week over 1023 on a table of LLQ_TABLE_SIZE, over 8191 on one of LLQ_TABLE_SIZE_13; second over 604799 */
    LLQ_SIZE = 3,      /* the datagram has under 12 or over 1472 bytes */
    LLQ_HEADER = 4,    /* QR, OPCODE or TC not 0; QDCOUNT not 1 to 8; ANCOUNT or NSCOUNT not 0; ARCOUNT not 1 */
    LLQ_QUESTION = 5,  /* a question runs past the end, has a label byte of 64 or more, or a name over 255 bytes */
    LLQ_OPT = 6,       /* the OPT record or its options are malformed */
    LLQ_NO_LLQ = 7,    /* no option of code 1 */
    LLQ_ROOM = 8,      /* the reply would be longer than the lent buffer or than 1472 bytes */
    LLQ_ROSTER = 9     /* the roster is not 0 to 16 good records */
};

/*
 * A table of n slots, n from 1 to 64: a clock record, 16 roster lines of 19 bytes, n slots of 320 bytes. Its clock goes by GPS
 * weeks of ten bits (a record of kind 0x01, 9 bytes), or with LLQ_TABLE_SIZE_13 of thirteen (kind 0x09, 13 bytes). In every call
 * the table's length alone says which; a record of the other kind is unsound. It is fixed when the table is made: a host that
 * changes its receiver makes a new table.
 */
#define LLQ_TABLE_SIZE(n) ((size_t)313 + (size_t)320 * (size_t)(n))
#define LLQ_TABLE_SIZE_13(n) ((size_t)317 + (size_t)320 * (size_t)(n))

/* A roster record: a byte 0x03, the address (16 bytes), the share (1), the limit (1). */
#define LLQ_ROSTER_RECORD 19

/* No reply is longer than this. */
#define LLQ_REPLY_MOST 1472

struct llq_served {
    uint32_t number; /* LLQ_DONE, or 1 to 8 */
    uint32_t length; /* bytes of reply written; 0 where refused */
};

struct llq_ticked {
    uint32_t number; /* LLQ_DONE, 1 or 2 */
    uint32_t freed;  /* entries freed because their lease has run out; 0 where refused */
};

/*
 * Make a fresh table in `table`, whatever it held. `table_len` gives the number of slots and the width of the weeks. A clock
 * reading is a GPS week of ten bits (0 to 1023) or of thirteen (0 to 8191) and a second of that week (0 to 604799). A week below
 * 1024 on a table of thirteen-bit weeks is that week: it is not taken for one of a later 1024. `roster` is 0 to 16 records end
 * to end: addresses differ, share <= limit, limit is 1 to 64, and the shares sum to at most the number of slots. An address that
 * is not listed has share 0 and limit 4. Returns LLQ_DONE, 1, 2 or 9. Refused: the table keeps every byte.
 */
uint32_t llq_make(uint32_t week, uint32_t second, uint8_t *table, size_t table_len, const uint8_t *roster, size_t roster_len);

/*
 * Move the table's clock to the reading and free the entries whose lease has run out. The table keeps one reading, and a new
 * one is a step from it, which around the 1024 or 8192 weeks is less than half of them ahead or at most half back:
 *  - ahead, or none: every entry grows older by the step, and the new reading is kept;
 *  - back by 60 seconds or less: nothing changes, and the old reading stays;
 *  - back by more: no entry grows older or younger, and the new reading is kept, so that leases run on from there.
 * A step back is not undone. Readings that go back and forth by more than 60 seconds make every entry older by the way forth,
 * each time; by 60 seconds or less, no entry grows older until a reading is past the one that was kept. One reading a year back
 * and then the right one, or one a year ahead, ends every entry. So the host must not pass on a single wild reading. llq_serve
 * moves the clock in the same way.
 */
struct llq_ticked llq_tick(uint32_t week, uint32_t second, uint8_t *table, size_t table_len);

/*
 * Serve one datagram: move the clock, free run-out entries, do each LLQ option in order, and write the reply.
 * address_high and address_low are the two halves of the sender's 16-byte address, port its UDP port. `random` is where the
 * search for an unused LLQ number starts. On LLQ_DONE send `length` bytes of `reply` to the sender; bytes of `reply` past
 * them keep what they held. Refused: table and reply keep every byte, and nothing is to be sent.
 *
 * The life that remains of an entry is its granted lease (60 to 7200 s) less its age. A setup that finds its entry, pending or
 * established, is told the entry's number and the life that remains. A response is right with any lease from the life that
 * remains to the granted lease, both included, and is told the life that remains. So what a challenge told stays a right answer
 * for as long as the entry stays and is not refreshed.
 */
struct llq_served llq_serve(uint32_t week, uint32_t second, uint64_t address_high, uint64_t address_low, uint16_t port,
                            uint64_t random, const uint8_t *datagram, size_t datagram_len, uint8_t *table, size_t table_len,
                            uint8_t *reply, size_t reply_len);

#ifdef __cplusplus
}
#endif

#endif
