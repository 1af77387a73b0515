/* The load client: a table's file compared with the log of what was acknowledged (keep.c). */
#include <arpa/inet.h>
#include <inttypes.h>
#include <math.h>
#include <stdio.h>
#include <string.h>
#include <sys/stat.h>

#include "client.h"

/* Places in a table and in a slot (document 01's layout). With thirteen-bit weeks the table's lie WIDER bytes further on. */
enum { RUNNING_AT = 5, SLOTS_AT = 313, SLOT_SIZE = 320, SLOTS_MOST = 64, WIDER = 4 };
enum { ADDRESS_AT = 1, PORT_AT = 17, NUMBER_AT = 19, LEASE_AT = 27, STAMP_AT = 31, NAME_AT = 40 };
enum { RECORDS_MOST = 512, OPEN_MOST = 2 };

static struct record {
    char key[160]; /* ADDRESS PORT NAME */
    struct state known, next[OPEN_MOST], found;
    unsigned open;
    uint32_t age;
} records[RECORDS_MOST];
static unsigned record_count;

/* How far the log was read by the check before: a long log is not read from its start each time. */
static struct {
    long place;
    unsigned acked;
} before;

static FILE *memory_of(const char *log_path, const char *mode)
{
    char path[4096];
    snprintf(path, sizeof path, "%s.read", log_path);
    return fopen(path, mode);
}

static void recall(const char *log_path)
{
    FILE *file = memory_of(log_path, "r");
    if (!file)
        return; /* the first check */
    if (fread(&before, sizeof before, 1, file) != 1)
        die("check: %s.read cannot be read", log_path);
    record_count = (unsigned)fread(records, sizeof *records, RECORDS_MOST, file);
    fclose(file);
}

static void remember(const char *log_path)
{
    FILE *file = memory_of(log_path, "w");
    if (!file || fwrite(&before, sizeof before, 1, file) != 1 ||
        fwrite(records, sizeof *records, record_count, file) != record_count || fclose(file))
        die("check: %s.read cannot be written", log_path);
}

static struct record *record_of(const char *key, int make)
{
    for (unsigned i = 0; i < record_count; i++)
        if (strcmp(records[i].key, key) == 0)
            return &records[i];
    if (!make || record_count == RECORDS_MOST)
        die("check: an entry that was not asked for: %s", key);
    struct record *fresh = &records[record_count++];
    snprintf(fresh->key, sizeof fresh->key, "%s", key);
    fresh->known.kind = FREE;
    return fresh;
}

static void read_log(const char *path)
{
    char line[256], what[8], address[64], name[64], word[16], key[160];
    unsigned port;
    FILE *log = fopen(path, "r");
    if (!log || fseek(log, before.place, SEEK_SET))
        die("%s cannot be read", path);
    /* a line without its end is being written just now: its reply was read after the host had ended */
    for (; fgets(line, sizeof line, log) && strchr(line, '\n'); before.place = ftell(log)) {
        struct state state = {.kind = FREE};
        if (sscanf(line, "%7s %63s %u %63s %15s %" SCNx64 " %u %lf", what, address, &port, name, word, &state.number, &state.lease,
                   &state.time) != 8)
            die("%s: a line that is none: %s", path, line);
        while (state.kind < ESTABLISHED && strcmp(state_words[state.kind - FREE], word))
            state.kind++;
        snprintf(key, sizeof key, "%s %u %s", address, port, name);
        struct record *record = record_of(key, 1);
        if (strcmp(what, "sent") == 0 && record->open < OPEN_MOST) {
            record->next[record->open++] = state;
        } else if (strcmp(what, "acked") == 0) {
            record->known = state;
            record->open = 0;
            before.acked++;
        } else {
            die("check: a reply against what was acknowledged: %s", line);
        }
    }
    fclose(log);
}

static void read_slot(const uint8_t *slot, uint32_t running)
{
    static const uint8_t mapped[12] = {[10] = 0xff, [11] = 0xff};
    char address[INET6_ADDRSTRLEN], name[256] = "", key[400];
    if (memcmp(slot + ADDRESS_AT, mapped, 12) == 0)
        inet_ntop(AF_INET, slot + ADDRESS_AT + 12, address, sizeof address);
    else
        inet_ntop(AF_INET6, slot + ADDRESS_AT, address, sizeof address);
    for (const uint8_t *label = slot + NAME_AT; *label; label += 1 + *label)
        snprintf(name + strlen(name), sizeof name - strlen(name), "%s%.*s", *name ? "." : "", *label, (const char *)label + 1);
    snprintf(key, sizeof key, "%s %u %s", address, (unsigned)get(slot + PORT_AT, 2), name);
    struct record *record = record_of(key, 0);
    record->found = (struct state){.kind = slot[0], .number = get(slot + NUMBER_AT, 8), .lease = (uint32_t)get(slot + LEASE_AT, 4)};
    record->age = running - (uint32_t)get(slot + STAMP_AT, 4);
}

static int same(struct state found, struct state wanted)
{
    return found.kind == wanted.kind &&
           (found.kind == FREE || (found.lease == wanted.lease && (found.number == wanted.number || wanted.number == 0)));
}

int check(const char *table_path, const char *log_path)
{
    static uint8_t table[SLOTS_AT + WIDER + SLOTS_MOST * SLOT_SIZE + 1];
    unsigned open_now = 0, held = 0, oldest = 0;
    struct stat about;
    recall(log_path);
    read_log(log_path);
    for (struct record *r = records; r < records + record_count; r++)
        r->found = (struct state){.kind = FREE};
    FILE *file = fopen(table_path, "r");
    if (!file || fstat(fileno(file), &about))
        die("check: %s cannot be opened", table_path);
    size_t length = fread(table, 1, sizeof table, file);
    fclose(file);
    size_t wider = length < SLOTS_AT + SLOT_SIZE ? SLOT_SIZE : (length - SLOTS_AT) % SLOT_SIZE;
    if (length == sizeof table || (wider != 0 && wider != WIDER))
        die("check: %s: %zu bytes are no table", table_path, length);
    for (const uint8_t *slot = table + SLOTS_AT + wider; slot < table + length; slot += SLOT_SIZE)
        if (slot[0] < FREE || slot[0] > ESTABLISHED)
            die("check: %s: a slot of kind %u", table_path, slot[0]);
        else if (slot[0] != FREE)
            read_slot(slot, (uint32_t)get(table + RUNNING_AT + wider, 4));
    double saved = (double)about.st_mtim.tv_sec + (double)about.st_mtim.tv_nsec / 1e9, off_most = 0;
    for (struct record *r = records; r < records + record_count; r++) {
        held += r->found.kind != FREE;
        open_now += r->open > 0;
        int right = same(r->found, r->known);
        for (unsigned i = 0; i < r->open; i++)
            right |= same(r->found, r->next[i]);
        if (!right)
            die("check: %s: %s number %016" PRIx64 " lease %u in the file; acknowledged: %s number %016" PRIx64 " lease %u%s", r->key,
                state_words[r->found.kind - FREE], r->found.number, r->found.lease, state_words[r->known.kind - FREE], r->known.number,
                r->known.lease, r->open ? " (another one under way)" : "");
        /* its lease runs on over every restart, neither faster nor slower */
        double off = fabs(r->age - (saved - r->known.time));
        if (r->open || r->found.kind == FREE)
            continue;
        off_most = off > off_most ? off : off_most;
        oldest = r->age > oldest ? r->age : oldest;
        if (off > AGE_OFF_MOST)
            die("check: %s: its lease began %u s ago in the file, acknowledged %.1f s ago", r->key, r->age, saved - r->known.time);
    }
    remember(log_path);
    printf("check: %u acknowledged, %u questions, %u held, %u open, leases up to %u s old, off by at most %.1f s\n", before.acked,
           record_count, held, open_now, oldest, off_most);
    return 0;
}
