/*
 * plain.c - the three calls of llq.h in plain C11, straight on the lent bytes: the baseline of the benchmark.
 *
 * Every call tests the whole table first and judges every refusal before its first write. Nothing is allocated and nothing is
 * kept between calls. Comments in quotes are the words of documents 01 and 02.
 */
#include <stdbool.h>
#include <string.h>

#include "../include/llq.h"

/* ---- sizes and places */

enum {
    WEEKS = 1024, WEEKS_13 = 8192, WEEK = 604800, STEP_BACK_IGNORED = 60,
    LINES = 16, SLOTS_MOST = 64, LINES_AT = 9, LINE_SIZE = 19, SLOTS_AT = 313, SLOT_SIZE = 320,
    LIMIT_MOST = 64, UNLISTED_LIMIT = 4, LEASE_LEAST = 60, LEASE_MOST = 7200, RETRY_AFTER = 60
};

enum { CLOCK = 1, UNUSED, LISTED, FREE, PENDING, ESTABLISHED, CLOCK_13 = 9 };

/*
 * Places in the table, in a roster line and in a slot, each counted from its byte of kind. With thirteen-bit weeks the clock's
 * place begins with WIDER bytes more, and all that is behind them lies so much further on.
 */
enum { PLACE_AT = 1, RUNNING_AT = 5, WIDER = 4 };
enum { SHARE_AT = 17, LIMIT_AT = 18 };
enum {
    ADDRESS_AT = 1, PORT_AT = 17, NUMBER_AT = 19, LEASE_AT = 27, STAMP_AT = 31, TYPE_AT = 35, NAME_LENGTH_AT = 39, NAME_AT = 40
};

/* A message's parts. */
enum {
    HEADER_SIZE = 12, DATAGRAM_MOST = 1472, QUESTIONS_MOST = 8, LABEL_MOST = 63, NAME_MOST = 255, OPT_SIZE = 11, OPT_TYPE = 41,
    OPTION_HEAD = 4, LLQ_CODE = 1, LLQ_BODY = 18, LLQ_OPTION = OPTION_HEAD + LLQ_BODY
};

enum { SETUP = 1, REFRESH = 2 };
enum { NO_ERROR = 0, SERV_FULL = 1, FORMAT_ERR = 3, NO_SUCH_LLQ = 4, BAD_VERS = 5 };

/* ---- numbers, big endian, and bytes eight at a time */

#if __BYTE_ORDER__ == __ORDER_LITTLE_ENDIAN__
#define BIG16(value) __builtin_bswap16(value)
#define BIG32(value) __builtin_bswap32(value)
#define BIG64(value) __builtin_bswap64(value)
#else
#define BIG16(value) (value)
#define BIG32(value) (value)
#define BIG64(value) (value)
#endif

/* Eight bytes as they lie: to compare, test for zeros and fold. */
static inline uint64_t word_at(const uint8_t *at) { uint64_t word; memcpy(&word, at, 8); return word; }

static inline uint16_t get16(const uint8_t *at) { uint16_t value; memcpy(&value, at, 2); return BIG16(value); }
static inline uint32_t get32(const uint8_t *at) { uint32_t value; memcpy(&value, at, 4); return BIG32(value); }
static inline uint64_t get64(const uint8_t *at) { return BIG64(word_at(at)); }
static inline void put16(uint8_t *at, uint16_t value) { value = BIG16(value); memcpy(at, &value, 2); }
static inline void put32(uint8_t *at, uint32_t value) { value = BIG32(value); memcpy(at, &value, 4); }
static inline void put64(uint8_t *at, uint64_t value) { value = BIG64(value); memcpy(at, &value, 8); }

/* Eight bytes or more, all zero; the last word may overlap the one before. */
static inline bool zeros(const uint8_t *at, size_t length)
{
    uint64_t any = word_at(at + length - 8);
    for (size_t i = 0; i + 8 <= length; i += 8)
        any |= word_at(at + i);
    return any == 0;
}

#define EACH(byte) (UINT64_C(0x0101010101010101) * (byte))

/* 0x80 in each byte that is A to Z, 0 in the others. */
static inline uint64_t capitals(uint64_t word)
{
    uint64_t low = word & EACH(0x7f);
    return (low + EACH(0x80 - 'A')) & ~(low + EACH(0x7f - 'Z')) & ~word & EACH(0x80);
}

/* ---- a sound table */

struct table {
    uint8_t *bytes;           /* the first byte, or with thirteen-bit weeks the one WIDER behind it: from it on both lie alike */
    bool wide;                /* thirteen-bit weeks */
    size_t slots;
    size_t lines;             /* listed ones */
    unsigned free;            /* free slots */
    unsigned held[LINES + 1]; /* holdings of each listed line; the last, of unlisted addresses, means nothing */
};

static inline uint8_t *slot_of(const struct table *t, size_t slot)
{
    return t->bytes + SLOTS_AT + slot * SLOT_SIZE;
}

/* The last half first: all IPv4-mapped addresses have the same first half. */
static inline bool same_address(const uint8_t *one, const uint8_t *other)
{
    return word_at(one + 8) == word_at(other + 8) && word_at(one) == word_at(other);
}

/* Two slots agree in port, type, class (the two bytes after the type) and name. */
static inline bool same_port_and_question(const uint8_t *one, const uint8_t *other)
{
    return get16(one + PORT_AT) == get16(other + PORT_AT) && get32(one + TYPE_AT) == get32(other + TYPE_AT) &&
           one[NAME_LENGTH_AT] == other[NAME_LENGTH_AT] && memcmp(one + NAME_AT, other + NAME_AT, one[NAME_LENGTH_AT]) == 0;
}

/* The number of an address's line; LINES if it is not listed. */
static inline size_t line_of(const struct table *t, const uint8_t *address)
{
    const uint8_t *line = t->bytes + LINES_AT;
    for (size_t i = 0; i < t->lines; i++, line += LINE_SIZE)
        if (same_address(line + 1, address))
            return i;
    return LINES;
}

static inline unsigned share_of(const struct table *t, size_t line)
{
    return line == LINES ? 0 : t->bytes[LINES_AT + line * LINE_SIZE + SHARE_AT];
}

static inline unsigned limit_of(const struct table *t, size_t line)
{
    return line == LINES ? UNLISTED_LIMIT : t->bytes[LINES_AT + line * LINE_SIZE + LIMIT_AT];
}

/* "the sum, over roster lines, of share less held where that is positive" */
static unsigned reserve_of(const struct table *t)
{
    unsigned reserve = 0;
    for (size_t i = 0; i < t->lines; i++)
        if (share_of(t, i) > t->held[i])
            reserve += share_of(t, i) - t->held[i];
    return reserve;
}

/* What a length says: weeks, where things lie, slots. False if no table has it. */
static inline bool lay_out(struct table *t, uint8_t *bytes, size_t length)
{
    if (length < LLQ_TABLE_SIZE(1) || length > LLQ_TABLE_SIZE_13(SLOTS_MOST))
        return false;
    size_t wider = length & WIDER; /* a bit that neither 313 nor 320 has */
    t->bytes = bytes + wider;
    t->wide = wider != 0;
    t->slots = (length - SLOTS_AT) / SLOT_SIZE;
    return (length - SLOTS_AT) % SLOT_SIZE == wider;
}

static inline uint32_t weeks_of(const struct table *t) { return t->wide ? WEEKS_13 : WEEKS; }
static inline int64_t cycle_of(const struct table *t) { return t->wide ? (int64_t)WEEKS_13 * WEEK : (int64_t)WEEKS * WEEK; }
static inline uint8_t clock_kind(const struct table *t) { return t->wide ? CLOCK_13 : CLOCK; }

static inline uint64_t get_place(const struct table *t)
{
    return t->wide ? get64(t->bytes + PLACE_AT - WIDER) : get32(t->bytes + PLACE_AT);
}

static inline void put_place(const struct table *t, uint64_t place)
{
    if (t->wide)
        put64(t->bytes + PLACE_AT - WIDER, place);
    else
        put32(t->bytes + PLACE_AT, (uint32_t)place);
}

/* "listed addresses differ, 0 <= share <= limit, limit is 1 to 64, shares sum to at most n" */
static bool roster_good(const uint8_t *lines, size_t count, size_t slots)
{
    size_t shares = 0;
    for (size_t i = 0; i < count; i++) {
        const uint8_t *line = lines + i * LINE_SIZE;
        if (line[0] != LISTED || line[SHARE_AT] > line[LIMIT_AT] || line[LIMIT_AT] < 1 || line[LIMIT_AT] > LIMIT_MOST)
            return false;
        shares += line[SHARE_AT];
        for (const uint8_t *before = lines; before < line; before += LINE_SIZE)
            if (same_address(before + 1, line + 1))
                return false;
    }
    return shares <= slots;
}

/* A valid wire name in lower case of the stated length, then zeros to the slot's end. */
static inline bool name_good(const uint8_t *slot)
{
    const uint8_t *name = slot + NAME_AT;
    size_t length = slot[NAME_LENGTH_AT], at = 0;
    uint64_t capital = 0;
    for (; name[at] != 0; at += 1 + (size_t)name[at])
        if (name[at] > LABEL_MOST || at + 1 + name[at] >= length)
            return false;
    if (at + 1 != length)
        return false;
    /* The last word may run past the name, into what must be zeros. */
    for (size_t i = 0; i < length; i += 8)
        capital |= capitals(word_at(name + i));
    return capital == 0 && zeros(name + length, SLOT_SIZE - NAME_AT - length);
}

static inline bool entry_good(const uint8_t *slot, uint32_t running)
{
    uint32_t lease = get32(slot + LEASE_AT);
    return lease >= LEASE_LEAST && lease <= LEASE_MOST && running - get32(slot + STAMP_AT) < lease &&
           word_at(slot + NUMBER_AT) != 0 && name_good(slot);
}

/* What takes two entries, or entries and roster, to judge; fills t->held. */
static bool entries_good(struct table *t, const uint8_t *const *entries, size_t count)
{
    memset(t->held, 0, sizeof t->held);
    for (size_t i = 0; i < count; i++) {
        const uint8_t *entry = entries[i];
        unsigned held = 1;
        for (size_t j = 0; j < i; j++) {
            const uint8_t *before = entries[j];
            if (word_at(before + NUMBER_AT) == word_at(entry + NUMBER_AT))
                return false;
            if (same_address(before + ADDRESS_AT, entry + ADDRESS_AT)) {
                held++;
                if (same_port_and_question(before, entry))
                    return false;
            }
        }
        size_t line = line_of(t, entry + ADDRESS_AT);
        if (held > limit_of(t, line))
            return false;
        t->held[line] = held;
    }
    return t->free >= reserve_of(t);
}

/* Take a sound table into *t; false if it is not sound. */
static bool take_table(struct table *t, uint8_t *bytes, size_t length)
{
    const uint8_t *entries[SLOTS_MOST];
    size_t count = 0;
    if (!lay_out(t, bytes, length) || bytes[0] != clock_kind(t) || get_place(t) >= (uint64_t)cycle_of(t))
        return false;
    const uint8_t *line = t->bytes + LINES_AT;
    for (t->lines = 0; t->lines < LINES && line[0] == LISTED; line += LINE_SIZE)
        t->lines++;
    for (size_t i = t->lines; i < LINES; i++, line += LINE_SIZE)
        if (line[0] != UNUSED || !zeros(line + 1, LINE_SIZE - 1))
            return false;
    if (!roster_good(t->bytes + LINES_AT, t->lines, t->slots))
        return false;
    uint32_t running = get32(t->bytes + RUNNING_AT);
    for (size_t i = 0; i < t->slots; i++) {
        const uint8_t *slot = slot_of(t, i);
        if (slot[0] == FREE) {
            if (!zeros(slot + 1, SLOT_SIZE - 1))
                return false;
        } else {
            if ((slot[0] != PENDING && slot[0] != ESTABLISHED) || !entry_good(slot, running))
                return false;
            entries[count++] = slot;
        }
    }
    t->free = (unsigned)(t->slots - count);
    return entries_good(t, entries, count);
}

/* ---- clock and run-out entries */

static inline bool reading_good(const struct table *t, uint32_t week, uint32_t second)
{
    return week < weeks_of(t) && second < WEEK;
}

/* The place of a good reading. */
static inline uint64_t place_of(uint32_t week, uint32_t second)
{
    return (uint64_t)week * WEEK + second;
}

/*
 * Move the clock by a good reading; returns the running count. "a negative step of 60 seconds or less still changes nothing; a
 * larger one leaves the running count and keeps the new place"
 */
static uint32_t move_clock(struct table *t, uint32_t week, uint32_t second)
{
    uint32_t running = get32(t->bytes + RUNNING_AT);
    uint64_t place = place_of(week, second);
    int64_t cycle = cycle_of(t), step = (int64_t)place - (int64_t)get_place(t);
    if (step >= cycle / 2)
        step -= cycle;
    else if (step < -cycle / 2)
        step += cycle;
    if (step < 0) {
        if (step < -STEP_BACK_IGNORED)
            put_place(t, place);
        return running;
    }
    running += (uint32_t)step;
    put_place(t, place);
    put32(t->bytes + RUNNING_AT, running);
    return running;
}

static void free_entry(struct table *t, uint8_t *slot)
{
    t->held[line_of(t, slot + ADDRESS_AT)]--;
    t->free++;
    memset(slot, 0, SLOT_SIZE);
    slot[0] = FREE;
}

/* Free what has run out; returns how many. */
static unsigned free_run_out(struct table *t, uint32_t running)
{
    unsigned before = t->free;
    for (size_t i = 0; i < t->slots; i++) {
        uint8_t *slot = slot_of(t, i);
        if (slot[0] != FREE && running - get32(slot + STAMP_AT) >= get32(slot + LEASE_AT))
            free_entry(t, slot);
    }
    return t->free - before;
}

/* ---- reading a query */

struct query {
    size_t questions;     /* 1 to 8 */
    size_t questions_end; /* where the OPT record starts */
    size_t options;       /* of code 1 */
    bool lengths;         /* each of them has length 18 */
    uint16_t question_at[QUESTIONS_MOST], option_at[QUESTIONS_MOST]; /* an option's is that of its body */
    uint8_t name_length[QUESTIONS_MOST];
};

/* "runs past the end, has a label byte of 64 or more, or a name over 255 bytes": false */
static bool read_questions(struct query *q, const uint8_t *datagram, size_t length)
{
    size_t at = HEADER_SIZE;
    for (size_t i = 0; i < q->questions; i++) {
        size_t start = at, most = length - start < NAME_MOST ? length : start + NAME_MOST;
        uint8_t label;
        do {
            if (at >= most || (label = datagram[at]) > LABEL_MOST)
                return false;
            at += 1 + (size_t)label;
        } while (label != 0);
        if (length - at < 4)
            return false;
        q->question_at[i] = (uint16_t)start;
        q->name_length[i] = (uint8_t)(at - start);
        at += 4;
    }
    q->questions_end = at;
    return true;
}

static bool read_options(struct query *q, const uint8_t *datagram, size_t length)
{
    size_t at = q->questions_end;
    const uint8_t *opt = datagram + at;
    if (length - at < OPT_SIZE || opt[0] != 0 || get16(opt + 1) != OPT_TYPE || opt[6] != 0 || get16(opt + 9) != length - at - OPT_SIZE)
        return false;
    q->options = 0;
    q->lengths = true;
    for (at += OPT_SIZE; at < length;) {
        if (length - at < OPTION_HEAD)
            return false;
        size_t code = get16(datagram + at), body = get16(datagram + at + 2);
        at += OPTION_HEAD;
        if (length - at < body)
            return false;
        if (code == LLQ_CODE) {
            if (q->options < QUESTIONS_MOST)
                q->option_at[q->options] = (uint16_t)at;
            q->options++;
            q->lengths &= body == LLQ_BODY;
        }
        at += body;
    }
    return true;
}

/* Read a datagram; returns 0 or the number of its refusal, 3 to 7. */
static uint32_t read_query(struct query *q, const uint8_t *datagram, size_t length)
{
    if (length < HEADER_SIZE || length > DATAGRAM_MOST)
        return LLQ_SIZE;
    /* QR, OPCODE and TC; then QDCOUNT 1 to 8, ANCOUNT 0, NSCOUNT 0, ARCOUNT 1 */
    uint64_t counts = get64(datagram + 4);
    q->questions = counts >> 48;
    if ((datagram[2] & 0xfa) != 0 || counts << 16 != UINT64_C(1) << 16 || q->questions < 1 || q->questions > QUESTIONS_MOST)
        return LLQ_HEADER;
    if (!read_questions(q, datagram, length))
        return LLQ_QUESTION;
    if (!read_options(q, datagram, length))
        return LLQ_OPT;
    return q->options == 0 ? LLQ_NO_LLQ : LLQ_DONE;
}

/* ---- setup, response and refresh; `asked` is the slot that the sender's question would have, its number and times not yet set */

struct outcome {
    uint16_t error;
    uint64_t number;
    uint32_t lease;
};

static void ask_question(uint8_t *asked, const uint8_t *question, uint8_t name_length)
{
    memcpy(asked + TYPE_AT, question + name_length, 4);
    asked[NAME_LENGTH_AT] = name_length;
    memcpy(asked + NAME_AT, question, name_length);
    for (size_t i = 0; i < name_length; i += 8) {
        uint64_t word = word_at(asked + NAME_AT + i);
        word |= capitals(word) >> 2;
        memcpy(asked + NAME_AT + i, &word, 8);
    }
}

static inline uint32_t grant(uint32_t lease)
{
    return lease < LEASE_LEAST ? LEASE_LEAST : lease > LEASE_MOST ? LEASE_MOST : lease;
}

/* The entry with this number, not 0; NULL if there is none. A free slot's number is 0. */
static uint8_t *find_number(const struct table *t, uint64_t number)
{
    number = BIG64(number);
    for (size_t i = 0; i < t->slots; i++)
        if (word_at(slot_of(t, i) + NUMBER_AT) == number)
            return slot_of(t, i);
    return NULL;
}

/* The entry with this number, not 0, that the asked slot's sender has for its question. */
static uint8_t *find_entry(const struct table *t, const uint8_t *asked, uint64_t number)
{
    uint8_t *slot = find_number(t, number);
    if (slot && same_address(slot + ADDRESS_AT, asked + ADDRESS_AT) && same_port_and_question(slot, asked))
        return slot;
    return NULL;
}

/* The seconds that are left of an entry's lease: at least 1, as what has run out is freed first. */
static inline uint32_t seconds_left(const uint8_t *slot, uint32_t running)
{
    return get32(slot + LEASE_AT) + get32(slot + STAMP_AT) - running;
}

static struct outcome set_up(struct table *t, uint8_t *asked, uint32_t running, uint64_t random, uint32_t lease)
{
    uint8_t *lowest = NULL;
    unsigned held = 0;
    for (size_t i = 0; i < t->slots; i++) {
        uint8_t *slot = slot_of(t, i);
        if (slot[0] == FREE) {
            if (!lowest)
                lowest = slot;
        } else if (same_address(slot + ADDRESS_AT, asked + ADDRESS_AT)) {
            held++;
            if (same_port_and_question(slot, asked))
                return (struct outcome){NO_ERROR, get64(slot + NUMBER_AT), seconds_left(slot, running)};
        }
    }
    size_t line = line_of(t, asked + ADDRESS_AT);
    if (held >= limit_of(t, line) || (held >= share_of(t, line) && t->free <= reserve_of(t)))
        return (struct outcome){SERV_FULL, 0, RETRY_AFTER};
    while (random == 0 || find_number(t, random))
        random++;
    asked[0] = PENDING;
    put64(asked + NUMBER_AT, random);
    put32(asked + LEASE_AT, grant(lease));
    put32(asked + STAMP_AT, running);
    /* Not full: so there is a free slot, and beyond the name it is zeros already. */
    memcpy(lowest, asked, NAME_AT + (size_t)asked[NAME_LENGTH_AT]);
    t->free--;
    t->held[line]++;
    return (struct outcome){NO_ERROR, random, grant(lease)};
}

static struct outcome respond(struct table *t, const uint8_t *asked, uint32_t running, uint64_t number, uint32_t lease)
{
    uint8_t *slot = find_entry(t, asked, number);
    /* "between the remaining life and the granted one, ends included" */
    if (!slot || lease < seconds_left(slot, running) || lease > get32(slot + LEASE_AT))
        return (struct outcome){NO_SUCH_LLQ, 0, 0};
    slot[0] = ESTABLISHED;
    return (struct outcome){NO_ERROR, number, seconds_left(slot, running)};
}

static struct outcome refresh(struct table *t, const uint8_t *asked, uint32_t running, uint64_t number, uint32_t lease)
{
    uint8_t *slot = number == 0 ? NULL : find_entry(t, asked, number);
    if (!slot || slot[0] != ESTABLISHED)
        return (struct outcome){NO_SUCH_LLQ, number, 0};
    if (lease == 0) {
        free_entry(t, slot);
        return (struct outcome){NO_ERROR, number, 0};
    }
    put32(slot + LEASE_AT, grant(lease));
    put32(slot + STAMP_AT, running);
    return (struct outcome){NO_ERROR, number, grant(lease)};
}

/* Serve one option; `option` is its 18 bytes. */
static struct outcome serve_option(struct table *t, uint8_t *asked, uint32_t running, uint64_t random, const uint8_t *option)
{
    uint16_t version = get16(option), opcode = get16(option + 2), error = get16(option + 4);
    uint64_t number = get64(option + 6);
    uint32_t lease = get32(option + 14);
    if (version != 1 || (opcode != SETUP && opcode != REFRESH) || error != 0)
        return (struct outcome){version != 1 ? BAD_VERS : FORMAT_ERR, opcode == REFRESH ? number : 0, 0};
    if (opcode == REFRESH)
        return refresh(t, asked, running, number, lease);
    if (number == 0)
        return set_up(t, asked, running, random, lease);
    return respond(t, asked, running, number, lease);
}

/* ---- the reply */

/* Header, questions as received and the OPT record; returns where the first option goes. */
static uint8_t *put_head(uint8_t *reply, const uint8_t *datagram, size_t questions_end, size_t options)
{
    uint8_t *opt = reply + questions_end;
    memcpy(reply, datagram, questions_end);
    reply[2] = 0x84 | (datagram[2] & 1); /* an authoritative response, RD repeated; the counts are the query's own */
    reply[3] = 0;
    opt[0] = 0;
    put16(opt + 1, OPT_TYPE);
    put16(opt + 3, DATAGRAM_MOST);
    put32(opt + 5, 0);
    put16(opt + 9, (uint16_t)(options * LLQ_OPTION));
    return opt + OPT_SIZE;
}

static uint8_t *put_option(uint8_t *at, uint16_t opcode, struct outcome outcome)
{
    put16(at, LLQ_CODE);
    put16(at + 2, LLQ_BODY);
    put16(at + 4, 1);
    put16(at + 6, opcode);
    put16(at + 8, outcome.error);
    put64(at + 10, outcome.number);
    put32(at + 18, outcome.lease);
    return at + LLQ_OPTION;
}

/* ---- the three calls */

uint32_t llq_make(uint32_t week, uint32_t second, uint8_t *table, size_t table_len, const uint8_t *roster, size_t roster_len)
{
    struct table t;
    size_t lines = roster_len / LINE_SIZE;
    if (!lay_out(&t, table, table_len))
        return LLQ_TABLE;
    if (!reading_good(&t, week, second))
        return LLQ_READING;
    if (lines > LINES || roster_len % LINE_SIZE != 0 || !roster_good(roster, lines, t.slots))
        return LLQ_ROSTER;
    memset(table, 0, table_len);
    table[0] = clock_kind(&t);
    put_place(&t, place_of(week, second));
    if (roster_len != 0)
        memcpy(t.bytes + LINES_AT, roster, roster_len);
    for (size_t i = lines; i < LINES; i++)
        t.bytes[LINES_AT + i * LINE_SIZE] = UNUSED;
    for (size_t i = 0; i < t.slots; i++)
        slot_of(&t, i)[0] = FREE;
    return LLQ_DONE;
}

struct llq_ticked llq_tick(uint32_t week, uint32_t second, uint8_t *table, size_t table_len)
{
    struct table t;
    if (!take_table(&t, table, table_len))
        return (struct llq_ticked){LLQ_TABLE, 0};
    if (!reading_good(&t, week, second))
        return (struct llq_ticked){LLQ_READING, 0};
    return (struct llq_ticked){LLQ_DONE, free_run_out(&t, move_clock(&t, week, second))};
}

struct llq_served llq_serve(uint32_t week, uint32_t second, uint64_t address_high, uint64_t address_low, uint16_t port,
                            uint64_t random, const uint8_t *datagram, size_t datagram_len, uint8_t *table, size_t table_len,
                            uint8_t *reply, size_t reply_len)
{
    struct table t;
    struct query q;
    if (!take_table(&t, table, table_len))
        return (struct llq_served){LLQ_TABLE, 0};
    if (!reading_good(&t, week, second))
        return (struct llq_served){LLQ_READING, 0};
    uint32_t refusal = read_query(&q, datagram, datagram_len);
    if (refusal != LLQ_DONE)
        return (struct llq_served){refusal, 0};
    bool paired = q.options == q.questions && q.lengths;
    size_t options = paired ? q.questions : 1, length = q.questions_end + OPT_SIZE + options * LLQ_OPTION;
    if (length > reply_len || length > LLQ_REPLY_MOST)
        return (struct llq_served){LLQ_ROOM, 0};

    uint32_t running = move_clock(&t, week, second);
    free_run_out(&t, running);
    uint8_t *at = put_head(reply, datagram, q.questions_end, options);
    if (!paired) {
        put_option(at, SETUP, (struct outcome){FORMAT_ERR, 0, 0});
        return (struct llq_served){LLQ_DONE, (uint32_t)length};
    }
    uint8_t asked[SLOT_SIZE] = {0};
    put64(asked + ADDRESS_AT, address_high);
    put64(asked + ADDRESS_AT + 8, address_low);
    put16(asked + PORT_AT, port);
    for (size_t i = 0; i < options; i++) {
        const uint8_t *option = datagram + q.option_at[i];
        ask_question(asked, datagram + q.question_at[i], q.name_length[i]);
        at = put_option(at, get16(option + 2), serve_option(&t, asked, running, random, option));
    }
    return (struct llq_served){LLQ_DONE, (uint32_t)length};
}
