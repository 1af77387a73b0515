/* The load client: damaged datagrams, made from good queries by a few kinds of damage. */
#include <stdio.h>
#include <string.h>
#include <sys/socket.h>

#include "client.h"

enum { ORDINARY_MOST = 1500, LARGEST = 9000, SENDERS = 8, BATCH = 20, HEADER = 12, WAIT = 10 };

/* Numbers of entries that were granted, so that damage is done to responses and refreshes too. */
static uint64_t numbers[SENDERS];

static void fill(uint8_t *at, size_t length)
{
    for (size_t i = 0; i < length; i++)
        at[i] = (uint8_t)below(256);
}

static size_t good_query(uint8_t *message)
{
    static const char *const names[] = {"a.example", "_arrivals._udp.museum.example", "sign", ""};
    struct llq llqs[8];
    unsigned count = below(2) ? 1 : 1 + below(8);
    for (unsigned i = 0; i < count; i++)
        llqs[i] = (struct llq){(uint16_t)(1 + below(2)), 0, below(2) ? 0 : numbers[below(SENDERS)], below(3) ? 3600 : below(9000)};
    return write_query(message, (uint16_t)below(65536), names[below(4)], llqs, count);
}

/* A question with a name of many or long labels, the rest as in a good query. */
static size_t long_name(uint8_t *message, size_t length)
{
    uint8_t tail[ORDINARY_MOST];
    size_t rest = length - HEADER, at = HEADER, most = HEADER + 1 + below(320), widest = 1 + below(70);
    memcpy(tail, message + HEADER, rest);
    while (at < most) {
        size_t label = 1 + below((uint32_t)widest);
        message[at++] = (uint8_t)label;
        memset(message + at, 'a' + (int)below(26), label);
        at += label;
    }
    /* the good question's own name ends this one, or the root does */
    size_t skip = below(2) ? 0 : strlen((const char *)tail);
    memcpy(message + at, tail + skip, rest - skip);
    return at + rest - skip;
}

/* Options of any code and length behind the good ones; the record's length is right or not. */
static size_t many_options(uint8_t *message, size_t length)
{
    size_t good = length, most = length + below(ORDINARY_MOST + 1 - (uint32_t)length);
    size_t place = length - 22 * (size_t)get(message + 4, 2) - 2; /* of the record's length */
    while (length + 4 <= most) {
        size_t size = below(8) ? below(24) : 18;
        if (length + 4 + size > most)
            break;
        put(put(message + length, below(3), 2), below(16) ? size : below(65536), 2);
        fill(message + length + 4, size);
        length += 4 + size;
    }
    if (below(4))
        put(message + place, get(message + place, 2) + length - good, 2);
    return length;
}

/* Eight long questions and one LLQ option that is too short: the reply, whose option is whole, would be too long (refused 8). */
static size_t no_room(uint8_t *message)
{
    enum { QUESTION = 3 * 58 + 1 + 4, OPTIONS_AT = HEADER + 8 * QUESTION + 11 };
    struct llq llqs[8] = {{SETUP, 0, 0, 3600}};
    char name[3 * 58 + 1];
    size_t option = below(14);
    memset(name, 'n', sizeof name);
    name[57] = name[58 + 57] = '.';
    name[sizeof name - 2] = 0;
    write_query(message, (uint16_t)below(65536), name, llqs, 8);
    put(message + OPTIONS_AT - 2, 4 + option, 2);
    put(message + OPTIONS_AT + 2, option, 2);
    return OPTIONS_AT + 4 + option;
}

static size_t damaged(uint8_t *message)
{
    uint8_t other[ORDINARY_MOST];
    size_t length = good_query(message), second, place;
    switch (below(12)) {
    case 0: /* nothing of a query */
        length = below(ORDINARY_MOST + 1);
        fill(message, length);
        break;
    case 1: /* a header only is right */
        length = HEADER + below(200);
        fill(message + HEADER, length - HEADER);
        break;
    case 2: /* cut */
        length = below((uint32_t)length);
        break;
    case 3: /* lengthened */
        second = below(ORDINARY_MOST + 1 - (uint32_t)length);
        fill(message + length, second);
        length += second;
        break;
    case 4: /* bits turned over */
        for (unsigned i = 1 + below(8); i > 0; i--)
            message[below((uint32_t)length)] ^= (uint8_t)(1u << below(8));
        break;
    case 5: /* the head of one and the tail of another */
        second = good_query(other);
        place = below((uint32_t)(second < length ? second : length));
        memcpy(message + place, other + place, second - place);
        length = second;
        break;
    case 6: /* a count off by one */
        place = 4 + 2 * below(4);
        put(message + place, get(message + place, 2) + (below(2) ? 1u : 0xffffu), 2);
        break;
    case 7:
        length = long_name(message, length);
        break;
    case 8:
        length = many_options(message, length);
        break;
    case 9:
        length = no_room(message);
        break;
    case 10: /* a byte near the options' lengths off by one */
        place = length - 1 - below((uint32_t)(length < 60 ? length : 60));
        put(message + place, message[place] + (below(2) ? 1u : 0xffu), 1);
        break;
    default: /* about the longest that is taken, or longer than any */
        second = below(10) ? 1470 + below(5) : below(LARGEST + 1);
        if (second > length)
            fill(message + length, second - length);
        length = second;
    }
    return length;
}

int damage(unsigned count, const char *good_from)
{
    static uint8_t message[LARGEST + 1], reply[LARGEST + 1];
    int senders[SENDERS], good = socket_from(good_from, 0);
    unsigned sent = 0, replies = 0, asked = 2;
    uint64_t number = establish(good, "good.example", WAIT);
    if (number == 0)
        die("%s: the good query found the table full", good_from);
    for (unsigned i = 0; i < SENDERS; i++) {
        char from[16];
        snprintf(from, sizeof from, "127.0.0.%u", 11 + i);
        senders[i] = socket_from(from, 0);
    }
    while (sent < count) {
        for (unsigned i = 0; i < BATCH && sent < count; i++, sent++)
            if (send(senders[below(SENDERS)], message, damaged(message), 0) < 0)
                die("a damaged datagram was not sent");
        /* the host is alive and keeps up: a refresh of no entry is answered, and each fifth time one that changes the table */
        int change = sent / BATCH % 5 == 0;
        struct llq back = {0}, query = {REFRESH, 0, change ? number : number + 1, 3600 + sent / BATCH % 3600};
        if (!ask(good, "good.example", &query, 1, WAIT, &back) || back.error != (change ? 0 : NO_SUCH))
            die("a good query after %u damaged datagrams: %s", sent, back.opcode ? "the wrong answer" : "no answer");
        asked++;
        for (unsigned i = 0; i < SENDERS; i++)
            for (ssize_t got; (got = recv(senders[i], reply, sizeof reply, MSG_DONTWAIT)) >= 0; replies++) {
                if (got < 45 || got > 1472 || !(reply[2] & 0x80))
                    die("a reply of %zd bytes that is none", got);
                numbers[i] = last_option(reply, (size_t)got).number;
            }
    }
    printf("damage: %u damaged datagrams sent, %u of them answered, %u good queries answered\n", sent, replies, asked);
    return 0;
}
