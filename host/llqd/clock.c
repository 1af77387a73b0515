/*
 * Readings for the library. The system's clock counts once, at start: from there on readings go by the time since boot, so
 * that no change of the system's clock moves a lease.
 */
#include <stdlib.h>
#include <string.h>

#include "llqd.h"

#define SECOND INT64_C(1000000000)
#define EARLY_MOST 600  /* seconds that the clock may be before the state file's time */
#define STEP_MOST 60    /* seconds; a longer step ahead is logged */
#define BACK_MOST 60    /* seconds; a longer step back the library takes: ages stay, and it goes on from there (document 02) */
#define GPS_EPOCH 315964800 /* 6 January 1980 */
#define LEAP_SECONDS 18     /* GPS time has none; since 2017 it is so many ahead */

static int64_t start;  /* what the time since boot is added to, ns */
static int64_t offset; /* the system's clock less the time since boot, when last looked at, ns */

static int64_t now_of(clockid_t clock)
{
    struct timespec now;
    clock_gettime(clock, &now);
    return now.tv_sec * SECOND + now.tv_nsec;
}

/* The system's clock less the time since boot; read again if the process was stopped in between. */
static int64_t offset_now(void)
{
    for (;;) {
        int64_t before = now_of(CLOCK_BOOTTIME), system = now_of(CLOCK_REALTIME), after = now_of(CLOCK_BOOTTIME);
        if (after - before < SECOND / 10)
            return system - before;
    }
}

/* GPS seconds as a reading in the table's weeks. */
static struct reading reading_of(const struct table *table, int64_t seconds)
{
    seconds %= cycle_of(table);
    struct reading reading = {(uint32_t)(seconds / WEEK), (uint32_t)(seconds % WEEK)};
    return reading;
}

/* GPS seconds of a time of the system's clock. */
static int64_t gps(int64_t system)
{
    return system / SECOND - GPS_EPOCH + LEAP_SECONDS;
}

int64_t milliseconds(void)
{
    return now_of(CLOCK_BOOTTIME) / (SECOND / 1000);
}

enum clock clock_set(time_t saved, const char *path, char *reason)
{
    char reads[TIME_SIZE], since[TIME_SIZE];
    time_t now = (time_t)(now_of(CLOCK_REALTIME) / SECOND);
    time_text(now, reads);
    if (now < BUILD_TIME) {
        refuse(reason, "the clock reads %s, before this program was built (%s)", reads, time_text(BUILD_TIME, since));
        return CLOCK_WRONG;
    }
    if (now < saved - EARLY_MOST) {
        refuse(reason, "the clock reads %s, more than %d minutes before %.300s was saved (%s)", reads, EARLY_MOST / 60, path,
               time_text(saved, since));
        return CLOCK_EARLY;
    }
    return CLOCK_SET;
}

/* The step from the table's place to a reading's, by document 01's rule. */
static int64_t step_to(const struct table *table, int64_t seconds)
{
    int64_t cycle = cycle_of(table), step = (seconds - (int64_t)place_of(table)) % cycle;
    step += step < -cycle / 2 ? cycle : 0;
    return step - (step >= cycle / 2 ? cycle : 0);
}

/*
 * How long ago a table was saved: by its own clock, or by its file's time, whichever is less. A table may have been saved
 * under a clock that was set wrong when the host started, and then its own clock is wrong too; its file's time is not, once
 * the system's clock was set right. A table that is ahead of the clock by more than BACK_MOST does not count; one that is
 * less ahead, or a file that is ahead, was saved just now. Half a cycle or more (`half`) would be a step back to the library.
 * A save at the turn of a second has a file's time that is one later than its table: the table's own clock counts then, or a
 * panel's answer with what it was told to be left before a restart would be less than what is left after it, and refused.
 */
static int64_t passed_since(int64_t by_table, int64_t by_file, int64_t half)
{
    int64_t passed = by_table >= -BACK_MOST && by_table <= by_file + 1 ? by_table : by_file;
    if (passed < 0)
        return 0;
    return passed < half ? passed : half - 1;
}

/* Readings are those of the system's clock. */
static void go_by_system(void)
{
    start = offset - (GPS_EPOCH - LEAP_SECONDS) * SECOND;
}

bool clock_start(const struct table *table, time_t saved)
{
    offset = offset_now();
    int64_t system = offset + now_of(CLOCK_BOOTTIME), by_file = system / SECOND - saved;
    go_by_system();
    if (!table)
        return false;
    int64_t half = cycle_of(table) / 2, step = step_to(table, gps(system)), passed = passed_since(step, by_file, half);
    if (step < 0 && passed < half - 1)
        say("the system clock is %lld s behind the table's; leases go on from the table", (long long)-step);
    if (passed > STEP_MOST)
        say("%lld s have passed since the table was saved", (long long)passed);
    start += ((int64_t)place_of(table) + passed - gps(system)) * SECOND;
    return step < 0 || by_file < 0;
}

/*
 * A step back of BACK_MOST or less the library would not take, and leases would stand still; more than half a cycle back is a
 * step ahead to it, and leases would end: in both cases readings go on from the table. The step is judged by the very reading
 * that is ticked.
 */
void clock_back(struct table *table)
{
    int64_t system = gps(offset + now_of(CLOCK_BOOTTIME));
    if (step_to(table, system) >= -BACK_MOST)
        return;
    struct reading now = reading_of(table, system);
    llq_tick(now.week, now.second, table->bytes, table->length);
    go_by_system();
}

struct reading clock_reading(const struct table *table)
{
    return reading_of(table, (start + now_of(CLOCK_BOOTTIME)) / SECOND);
}

struct reading clock_saved(const struct table *table, time_t saved)
{
    int64_t system = now_of(CLOCK_REALTIME), step = step_to(table, gps(system));
    return reading_of(table, (int64_t)place_of(table) + passed_since(step, system / SECOND - saved, cycle_of(table) / 2));
}

bool clock_watch(void)
{
    int64_t before = offset;
    offset = offset_now();
    int64_t step = offset - before;
    if (step > -SECOND && step <= STEP_MOST * SECOND)
        return false;
    say("the system clock was set %s %lld s; leases go by the time since boot", step < 0 ? "back" : "ahead",
        (long long)((llabs(step) + SECOND / 2) / SECOND));
    return true;
}

long clock_left(void)
{
    return (long)(SECOND - 1 - (start + now_of(CLOCK_BOOTTIME)) % SECOND);
}
