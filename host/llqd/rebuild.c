/* A table under another roster or with another number of slots: the old one's clock and entries, so that no lease is lost. */
#include <string.h>

#include "llqd.h"

struct roster roster_of(const struct table *table)
{
    struct roster roster = {0};
    while (line_at(table, roster.length / LINE_SIZE))
        roster.length += LINE_SIZE;
    memcpy(roster.bytes, table->bytes + clock_size(table), roster.length);
    return roster;
}

bool same_roster(const struct roster *one, const struct roster *other)
{
    return one->length == other->length && memcmp(one->bytes, other->bytes, one->length) == 0;
}

size_t shares_of(const struct roster *roster)
{
    size_t shares = 0;
    for (size_t at = 0; at < roster->length; at += LINE_SIZE)
        shares += roster->bytes[at + SHARE_AT];
    return shares;
}

/* The entries into the new table's slots: each in its own where there are as many, else from the first on. */
static void put_entries(const struct table *old, struct table *fresh)
{
    bool in_place = slots_of(fresh) >= slots_of(old);
    for (size_t i = 0, next = 0; i < slots_of(old); i++)
        if (slot_of(old, i)[0] != KIND_FREE) {
            size_t to = in_place ? i : next++;
            memcpy(fresh->bytes + slot_at(fresh, to), slot_of(old, i), SLOT_SIZE);
        }
}

/* A making with the new roster, the old weeks and at the old place, then the old clock and entries. False if it is refused. */
static bool build(const struct table *old, size_t slots, const struct roster *roster, struct table *fresh)
{
    uint64_t place = place_of(old);
    uint32_t week = (uint32_t)(place / WEEK), second = (uint32_t)(place % WEEK);
    fresh->length = length_of(week_bits(old), slots);
    if (llq_make(week, second, fresh->bytes, fresh->length, roster->bytes, roster->length) != LLQ_DONE)
        return false;
    memcpy(fresh->bytes, old->bytes, clock_size(old));
    put_entries(old, fresh);
    return true;
}

/* Entries beyond their address's share. */
static size_t beyond_shares(const struct table *fresh)
{
    size_t beyond = 0;
    for (size_t i = 0; i < slots_of(fresh); i++) {
        const uint8_t *slot = slot_of(fresh, i), *address = slot + ADDRESS_AT;
        unsigned before = 0;
        for (size_t j = 0; j < i; j++)
            before += slot_of(fresh, j)[0] != KIND_FREE && memcmp(slot_of(fresh, j) + ADDRESS_AT, address, 16) == 0;
        beyond += slot[0] != KIND_FREE && before >= share_of(fresh, address);
    }
    return beyond;
}

/* Names an address that holds more than its new limit. */
static void over_limit(const struct table *fresh, char *reason)
{
    char text[ADDRESS_SIZE];
    for (size_t i = 0; i < slots_of(fresh); i++) {
        const uint8_t *slot = slot_of(fresh, i), *address = slot + ADDRESS_AT;
        unsigned held = held_by(fresh, address), limit = limit_of(fresh, address);
        if (slot[0] != KIND_FREE && held > limit)
            refuse(reason, "%s holds %u, over its new limit of %u", address_text(address, text), held, limit);
    }
}

bool rebuild(const struct table *old, size_t slots, const struct roster *roster, struct table *fresh, char *reason)
{
    size_t shares = shares_of(roster), entries = entries_of(old);
    if (shares > slots)
        return refuse(reason, "the shares sum to %zu, over the %zu slots", shares, slots);
    if (entries > slots)
        return refuse(reason, "%zu entries, over the %zu slots", entries, slots);
    refuse(reason, "the library finds the new table unsound");
    if (!build(old, slots, roster, fresh))
        return false;
    if (sound(fresh))
        return true;
    size_t beyond = beyond_shares(fresh), need = beyond + shares;
    if (need > slots)
        refuse(reason, "%zu entries beyond their shares and shares of %zu need %zu slots, there are %zu", beyond, shares, need, slots);
    over_limit(fresh, reason);
    return false;
}

void say_rebuilt(const struct table *table)
{
    say("new roster and slots taken: %zu listed addresses, %zu slots, %zu entries kept", roster_of(table).length / LINE_SIZE,
        slots_of(table), entries_of(table));
}
