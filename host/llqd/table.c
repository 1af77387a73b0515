/* The bytes of a table, read by document 01's layout. The library alone writes them. */
#include <arpa/inet.h>
#include <string.h>

#include "llqd.h"

uint64_t number_at(const uint8_t *bytes, size_t width)
{
    uint64_t value = 0;
    for (size_t i = 0; i < width; i++)
        value = value << 8 | bytes[i];
    return value;
}

size_t length_of(unsigned bits, size_t slots)
{
    return bits == 13 ? LLQ_TABLE_SIZE_13(slots) : LLQ_TABLE_SIZE(slots);
}

unsigned week_bits(const struct table *table)
{
    return table->length % SLOT_SIZE == LLQ_TABLE_SIZE_13(0) % SLOT_SIZE ? 13 : 10;
}

int64_t cycle_of(const struct table *table)
{
    return (int64_t)WEEK << week_bits(table);
}

size_t clock_size(const struct table *table)
{
    return week_bits(table) == 13 ? CLOCK_SIZE_13 : CLOCK_SIZE;
}

size_t slots_of(const struct table *table)
{
    return (table->length - slot_at(table, 0)) / SLOT_SIZE;
}

uint64_t place_of(const struct table *table)
{
    return number_at(table->bytes + PLACE_AT, clock_size(table) - RUNNING_SIZE - PLACE_AT);
}

uint32_t running_of(const struct table *table)
{
    return (uint32_t)number_at(table->bytes + clock_size(table) - RUNNING_SIZE, RUNNING_SIZE);
}

size_t slot_at(const struct table *table, size_t index)
{
    return clock_size(table) + LINES_MOST * LINE_SIZE + index * SLOT_SIZE;
}

const uint8_t *slot_of(const struct table *table, size_t index)
{
    return table->bytes + slot_at(table, index);
}

const uint8_t *line_at(const struct table *table, size_t index)
{
    const uint8_t *line = table->bytes + clock_size(table) + index * LINE_SIZE;
    return index < LINES_MOST && line[0] == KIND_LISTED ? line : NULL;
}

int line_of(const struct table *table, const uint8_t *address)
{
    const uint8_t *line;
    for (size_t i = 0; (line = line_at(table, i)); i++)
        if (memcmp(line + ADDRESS_AT, address, 16) == 0)
            return (int)i;
    return -1;
}

unsigned share_of(const struct table *table, const uint8_t *address)
{
    int line = line_of(table, address);
    return line < 0 ? 0 : line_at(table, (size_t)line)[SHARE_AT];
}

unsigned limit_of(const struct table *table, const uint8_t *address)
{
    int line = line_of(table, address);
    return line < 0 ? UNLISTED_LIMIT : line_at(table, (size_t)line)[LIMIT_AT];
}

unsigned held_by(const struct table *table, const uint8_t *address)
{
    unsigned held = 0;
    for (size_t i = 0; i < slots_of(table); i++) {
        const uint8_t *slot = slot_of(table, i);
        held += slot[0] != KIND_FREE && memcmp(slot + ADDRESS_AT, address, 16) == 0;
    }
    return held;
}

size_t entries_of(const struct table *table)
{
    size_t entries = 0;
    for (size_t i = 0; i < slots_of(table); i++)
        entries += slot_of(table, i)[0] != KIND_FREE;
    return entries;
}

size_t reserve_of(const struct table *table)
{
    size_t reserve = 0;
    const uint8_t *line;
    for (size_t i = 0; (line = line_at(table, i)); i++) {
        unsigned held = held_by(table, line + ADDRESS_AT);
        reserve += held < line[SHARE_AT] ? line[SHARE_AT] - held : 0;
    }
    return reserve;
}

const uint8_t *entry_of(const struct table *table, uint64_t number)
{
    for (size_t i = 0; i < slots_of(table); i++) {
        const uint8_t *slot = slot_of(table, i);
        if (slot[0] != KIND_FREE && number_at(slot + NUMBER_AT, 8) == number)
            return slot;
    }
    return NULL;
}

bool same_table(const struct table *one, const struct table *other)
{
    size_t clock = clock_size(one);
    return one->length == other->length && memcmp(one->bytes + clock, other->bytes + clock, one->length - clock) == 0;
}

/* A tick at the table's own place changes nothing of a sound table, and is refused by any other. */
bool sound(struct table *table)
{
    uint64_t place = table->length < LLQ_TABLE_SIZE(1) ? 0 : place_of(table) % (uint64_t)cycle_of(table);
    return llq_tick((uint32_t)(place / WEEK), (uint32_t)(place % WEEK), table->bytes, table->length).number == LLQ_DONE;
}

const char *address_text(const uint8_t *address, char *text)
{
    static const uint8_t mapped[12] = {0, 0, 0, 0, 0, 0, 0, 0, 0, 0, 0xff, 0xff};
    bool v4 = memcmp(address, mapped, 12) == 0;
    inet_ntop(v4 ? AF_INET : AF_INET6, v4 ? address + 12 : address, text, ADDRESS_SIZE);
    return text;
}
