/*
 * What is on disk, and the replies that wait for it: no reply leaves before the change that it tells of is on disk. What
 * changes while a save is under way goes into the next one, so that one save carries many replies.
 */
#include <string.h>

#include "llqd.h"

#define HELD_FOR 60000   /* ms that a reply waits at most: the shortest lease, and its panel has given up long before */
#define SAVE_LONG 10000  /* ms; a save that takes longer is told of, and not waited for at the end */

/* How many replies are held: so many in common, and so many more in equal parts for the listed addresses. */
enum { COMMON = 1792, LISTED = 256, FAILING_COMMON = 48, FAILING_LISTED = 16, HELD_MOST = COMMON + LISTED };

struct held {
    uint64_t change; /* the last change before it */
    int64_t since;
    int line; /* the roster line of its address, or -1 */
    struct route route;
    size_t length;
    uint8_t bytes[LLQ_REPLY_MOST];
};

static const char *path;
static struct table last;      /* the table after the last call */
static struct table on_disk;   /* the table of the last save */
static struct table under_way; /* the table of the save under way, or of one that is unsure */
static uint64_t change, given_change, saved_change; /* changes so far, in the save under way, on disk */
static bool saving, again;
static bool failing; /* the last save failed */
static bool unsure;  /* it failed so late that either table may be on disk */
static bool unknown; /* nothing is known of the disk: the file that was taken up could not be synced */
static bool told;    /* that the save under way takes long */
static int64_t given_at;
static uint64_t dropped_before;
static struct held held[HELD_MOST]; /* a ring, in the order of changes */
static size_t held_first, held_count, held_of[LINES_MOST];

static void copy(struct table *to, const struct table *from)
{
    to->length = from->length;
    memcpy(to->bytes, from->bytes, from->length);
}

int keep_start(const char *state_path, const struct table *saved, bool settled)
{
    path = state_path;
    if (!path)
        return -1;
    copy(&last, saved);
    copy(&on_disk, saved);
    unknown = !settled;
    again = again || unknown;
    return saver_start(path);
}

bool keep_changed(const struct table *table)
{
    if (!path || same_table(table, &last))
        return false;
    copy(&last, table);
    change++;
    return true;
}

/* ---- replies */

static bool same_entry(const struct table *one, const struct table *other, uint64_t number)
{
    const uint8_t *here = entry_of(one, number), *there = entry_of(other, number);
    return here && there ? memcmp(here, there, SLOT_SIZE) == 0 : !here && !there;
}

/* Whether the entry of this number is on disk as the table has it, whichever of two tables is there. */
static bool entry_kept(const struct table *table, uint64_t number)
{
    if (number == 0)
        return true;
    return !unknown && same_entry(table, &on_disk, number) && ((!saving && !unsure) || same_entry(table, &under_way, number));
}

/* Whether a reply tells of nothing but what is on disk. */
static bool may_leave(const struct table *table, bool changed, const struct answers *answers)
{
    if (changed)
        return false;
    if (change == saved_change && !saving && !unsure && !unknown)
        return true;
    for (size_t i = 0; i < answers->count; i++)
        if (!entry_kept(table, answers->answer[i].asked.number) || !entry_kept(table, answers->answer[i].told.number))
            return false;
    return true;
}

static struct held *held_at(size_t index)
{
    return held + (held_first + index) % HELD_MOST;
}

/* Whether there is a place for a reply to this roster line. What is one line's part no other address can take. */
static bool has_place(int line)
{
    size_t common = failing ? FAILING_COMMON : COMMON, for_listed = failing ? FAILING_LISTED : LISTED;
    if (held_count < common)
        return true;
    size_t lines = roster_of(&last).length / LINE_SIZE;
    return line >= 0 && lines && held_of[line] < for_listed / lines && held_count < common + for_listed;
}

/* Takes the next place; NULL if there is none. */
static struct held *take_place(int line)
{
    if (!has_place(line)) {
        counts.dropped++;
        return NULL;
    }
    if (line >= 0)
        held_of[line]++;
    return held_at(held_count++);
}

static void give_place_up(void)
{
    if (held_at(0)->line >= 0)
        held_of[held_at(0)->line]--;
    held_first = (held_first + 1) % HELD_MOST;
    held_count--;
}

/* Replies that have waited too long make room for those of now. */
static void drop_old(void)
{
    for (int64_t now = milliseconds(); held_count && now - held_at(0)->since > HELD_FOR; give_place_up())
        counts.dropped++;
}

static void hold(const struct table *table, const struct arrival *asked, const uint8_t *reply, size_t length)
{
    drop_old();
    int line = line_of(table, asked->address);
    struct held *to = take_place(line);
    if (!to)
        return;
    to->change = change;
    to->since = milliseconds();
    to->line = line;
    to->route = asked->route;
    to->length = length;
    memcpy(to->bytes, reply, length);
    counts.held++;
}

void keep_reply(const struct table *table, bool changed, const struct arrival *asked, const struct answers *answers,
                const uint8_t *reply, size_t length)
{
    if (!path || may_leave(table, changed, answers))
        sockets_send(&asked->route, reply, length);
    else
        hold(table, asked, reply, length);
}

/* Sends the first `count` replies that are for listed addresses, or those that are not. */
static void send_held(size_t count, bool listed)
{
    for (size_t i = 0; i < count; i++) {
        const struct held *reply = held_at(i);
        if (listed == (reply->line >= 0))
            sockets_send(&reply->route, reply->bytes, reply->length);
    }
}

/* Sends the replies whose changes are on disk, listed addresses first: a slow link may not take all of them. Their number. */
static size_t release(void)
{
    size_t count = 0;
    drop_old();
    while (count < held_count && held_at(count)->change <= saved_change)
        count++;
    send_held(count, true);
    send_held(count, false);
    sockets_flush();
    for (size_t i = 0; i < count; i++)
        give_place_up();
    return count;
}

/* Saves have begun to fail: less room, the oldest replies keep their places. */
static void shrink(void)
{
    size_t before = held_count;
    held_count = 0;
    memset(held_of, 0, sizeof held_of);
    for (size_t i = 0; i < before; i++) {
        struct held *from = held_at(i), *to = take_place(from->line);
        if (to && to != from)
            *to = *from;
    }
}

/* ---- saves */

void keep_again(void)
{
    again = true;
}

bool keep_due(void)
{
    return path && !saving && !failing && (change != saved_change || again);
}

size_t keep_waiting(void)
{
    return held_count;
}

/* A table of which it is not sure whether it is on disk is saved once more before any other: so two may be there at most. */
static void give(const struct table *table)
{
    saving = true;
    told = false;
    given_at = milliseconds();
    if (!unsure) {
        copy(&under_way, table);
        given_change = change;
        again = false;
    }
    saver_give(&under_way);
}

void keep_save(const struct table *table, bool second)
{
    if (saving && second && !told && milliseconds() - given_at > SAVE_LONG) {
        say("%s: a save takes more than %d s; replies that tell of changes wait", path, SAVE_LONG / 1000);
        told = true;
    }
    if (keep_due() || (path && failing && second && !saving))
        give(table);
}

static void save_failed(const struct saved *saved)
{
    counts.saves_failed++;
    again = true;
    unsure = unsure || saved->how == SAVE_UNSURE;
    if (failing)
        return;
    say("%s: not saved: %s; trying again every second", path, state_error(saved->error));
    dropped_before = counts.dropped;
    failing = true;
    shrink();
}

static void save_done(void)
{
    counts.saves++;
    copy(&on_disk, &under_way);
    saved_change = given_change;
    unsure = unknown = false;
    size_t sent = release();
    if (failing)
        say("%s: saved again; %zu replies held back are sent, %llu were dropped", path, sent,
            (unsigned long long)(counts.dropped - dropped_before));
    failing = false;
}

/* Whether the save ended within so many ms. */
static bool end_save(int wait)
{
    struct saved saved;
    if (!saver_take(&saved, wait))
        return false;
    saving = false;
    counts.longest_save = saved.seconds > counts.longest_save ? saved.seconds : counts.longest_save;
    if (saved.how == SAVE_DONE)
        save_done();
    else
        save_failed(&saved);
    return true;
}

void keep_saved(void)
{
    end_save(0);
}

bool keep_end(const struct table *table)
{
    /* the save under way, the one that settles it, and the one of what changed meanwhile */
    for (int tries = 0; tries < 3; tries++) {
        if (saving && !end_save(SAVE_LONG))
            return false;
        keep_save(table, true);
    }
    return (!saving || end_save(SAVE_LONG)) && change == saved_change && !unknown;
}
