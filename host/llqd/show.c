/* A table for people, in columns. */
#include <inttypes.h>
#include <string.h>

#include "llqd.h"

void print_name(FILE *out, const uint8_t *name)
{
    if (*name == 0)
        fputc('.', out);
    for (; *name; name += 1 + *name) {
        for (int i = 1; i <= *name; i++)
            if (name[i] <= ' ' || name[i] > '~' || name[i] == '.' || name[i] == '\\')
                fprintf(out, "\\%03u", name[i]);
            else
                fputc(name[i], out);
        fputc('.', out);
    }
}

struct word {
    unsigned value;
    const char *text;
};

static const char *word(const struct word *known, unsigned value, const char *otherwise, char *text)
{
    for (; known->text; known++)
        if (known->value == value)
            return known->text;
    snprintf(text, WORD_SIZE, "%s%u", otherwise, value & 0xffff);
    return text;
}

const char *type_text(unsigned type, char *text)
{
    static const struct word types[] = {{1, "A"}, {2, "NS"}, {5, "CNAME"}, {6, "SOA"}, {12, "PTR"}, {15, "MX"}, {16, "TXT"}, {28, "AAAA"},
                                        {33, "SRV"}, {255, "ANY"}, {0, NULL}};
    return word(types, type, "TYPE", text);
}

const char *class_text(unsigned class, char *text)
{
    static const struct word classes[] = {{1, "IN"}, {3, "CH"}, {255, "ANY"}, {0, NULL}};
    return word(classes, class, "CLASS", text);
}

/* Seconds as h:mm:ss. */
static const char *span(uint32_t seconds, char *text)
{
    snprintf(text, WORD_SIZE, "%" PRIu32 ":%02" PRIu32 ":%02" PRIu32, seconds / 3600, seconds / 60 % 60, seconds % 60);
    return text;
}

static void print_holder(FILE *out, const struct table *table, const uint8_t *address, int width)
{
    char text[ADDRESS_SIZE];
    unsigned share = share_of(table, address), limit = limit_of(table, address), held = held_by(table, address);
    const char *note = held >= limit ? "  at its limit" : share && held >= share ? "  at its share" : "";
    fprintf(out, "  %-*s  %5u  %5u  %4u%s\n", width, address_text(address, text), share, limit, held, note);
}

/* Whether the slot is the first one of its address. */
static bool first_of_address(const struct table *table, size_t index)
{
    const uint8_t *slot = slot_of(table, index);
    for (size_t i = 0; i < index; i++)
        if (slot_of(table, i)[0] != KIND_FREE && memcmp(slot_of(table, i) + ADDRESS_AT, slot + ADDRESS_AT, 16) == 0)
            return false;
    return slot[0] != KIND_FREE;
}

static void print_holders(FILE *out, const struct table *table, int width)
{
    const uint8_t *line;
    bool titled = false;
    for (size_t i = 0; (line = line_at(table, i)); i++) {
        if (i == 0)
            fprintf(out, "listed addresses:\n  %-*s  SHARE  LIMIT  HELD\n", width, "ADDRESS");
        print_holder(out, table, line + ADDRESS_AT, width);
    }
    for (size_t i = 0; i < slots_of(table); i++) {
        const uint8_t *address = slot_of(table, i) + ADDRESS_AT;
        if (!first_of_address(table, i) || line_of(table, address) >= 0)
            continue;
        if (!titled)
            fprintf(out, "other addresses:\n  %-*s  SHARE  LIMIT  HELD\n", width, "ADDRESS");
        titled = true;
        print_holder(out, table, address, width);
    }
}

static void print_entry(FILE *out, const uint8_t *slot, uint32_t running, int width)
{
    char text[ADDRESS_SIZE], class[WORD_SIZE], type[WORD_SIZE], whole[WORD_SIZE], left[WORD_SIZE];
    uint32_t lease = (uint32_t)number_at(slot + LEASE_AT, 4), age = running - (uint32_t)number_at(slot + STAMP_AT, 4);
    fprintf(out, "  %-*s  %5u  %-11s  %016" PRIx64 "  %-7s  %-7s  ", width, address_text(slot + ADDRESS_AT, text),
            (unsigned)number_at(slot + PORT_AT, 2), slot[0] == KIND_ESTABLISHED ? "established" : "pending", number_at(slot + NUMBER_AT, 8),
            span(lease, whole), span(lease - age, left));
    print_name(out, slot + NAME_AT);
    unsigned of_class = (unsigned)number_at(slot + CLASS_AT, 2), of_type = (unsigned)number_at(slot + TYPE_AT, 2);
    fprintf(out, " %s %s\n", class_text(of_class, class), type_text(of_type, type));
}

/* How wide the column of addresses has to be. */
static int address_width(const struct table *table)
{
    char text[ADDRESS_SIZE];
    const uint8_t *line;
    size_t width = strlen("ADDRESS");
    for (size_t i = 0; (line = line_at(table, i)); i++) {
        size_t length = strlen(address_text(line + ADDRESS_AT, text));
        width = length > width ? length : width;
    }
    for (size_t i = 0; i < slots_of(table); i++) {
        size_t length = slot_of(table, i)[0] == KIND_FREE ? 0 : strlen(address_text(slot_of(table, i) + ADDRESS_AT, text));
        width = length > width ? length : width;
    }
    return (int)width;
}

void show_table(FILE *out, struct table *table, struct reading now, const char *title)
{
    struct llq_ticked ticked = llq_tick(now.week, now.second, table->bytes, table->length);
    uint32_t running = running_of(table);
    size_t slots = slots_of(table), used = entries_of(table);
    int width = address_width(table);
    fprintf(out, "table of %zu slots, weeks of %u bits, %s\n", slots, week_bits(table), title);
    print_holders(out, table, width);
    if (used)
        fprintf(out, "entries:\n  %-*s   PORT  STATE        NUMBER            LEASE    LEFT     QUESTION\n", width, "ADDRESS");
    for (size_t i = 0; i < slots; i++)
        if (slot_of(table, i)[0] != KIND_FREE)
            print_entry(out, slot_of(table, i), running, width);
    fprintf(out, "slots: %zu, used %zu, free %zu, reserved %zu\n", slots, used, slots - used, reserve_of(table));
    if (ticked.freed)
        fprintf(out, "run out since it was saved: %u\n", ticked.freed);
}
