/* The host's loop: one thread serves, a lot of datagrams at a time; each datagram is one call of the library. */
#include <errno.h>
#include <poll.h>
#include <signal.h>
#include <stdlib.h>
#include <string.h>
#include <sys/random.h>
#include <sys/signalfd.h>
#include <unistd.h>

#include "llqd.h"

#define LATE 60      /* seconds without a tick that are logged */
#define LINK_LINE 60 /* seconds between two lines on link-local senders */

static struct table *table;
static const struct settings *settings;
static struct reading now;

/* ---- ticks */

static int64_t seconds_since(struct reading before)
{
    int64_t cycle = cycle_of(table), weeks = (int64_t)now.week - before.week;
    return (cycle + weeks * WEEK + now.second - before.second) % cycle;
}

/* Moves the table to the present once a second, so that a served datagram finds no entry run out; whether it was time. */
static bool tick(void)
{
    struct reading before = now;
    now = clock_reading(table);
    int64_t passed = seconds_since(before);
    if (passed == 0)
        return false;
    if (passed > LATE)
        say("%lld s since the last tick", (long long)passed);
    struct llq_ticked done = llq_tick(now.week, now.second, table->bytes, table->length);
    if (done.number != LLQ_DONE)
        die("a tick was refused with %u", done.number);
    counts.run_out += done.freed;
    if (done.freed && settings->verbose) {
        char line[32];
        log_text(line, (size_t)snprintf(line, sizeof line, "run out: %u\n", done.freed));
    }
    keep_changed(table);
    if (clock_watch())
        keep_again();
    return true;
}

/* ---- datagrams */

/* A sender's link is not in the 16 bytes of its address, so fe80::5 of two links would be one holder. */
static void refuse_link_local(const struct arrival *asked)
{
    static struct reading told;
    char text[ADDRESS_SIZE];
    if (counts.link_local++ && seconds_since(told) < LINK_LINE)
        return;
    told = now;
    say("%s port %u: a link-local sender is refused here, its link is not part of its address (%llu so far; see --address in llqd(8))",
        address_text(asked->address, text), asked->port, (unsigned long long)counts.link_local);
}

static struct holdings holdings_of(const uint8_t *address)
{
    struct holdings holdings = {held_by(table, address), limit_of(table, address), slots_of(table) - entries_of(table)};
    return holdings;
}

static void serve(const struct arrival *asked, uint64_t random, uint8_t *reply)
{
    struct holdings before = {0};
    struct answers answers;
    counts.datagrams++;
    if (asked->link_local) {
        refuse_link_local(asked);
        return;
    }
    if (settings->verbose)
        before = holdings_of(asked->address);
    uint64_t high = number_at(asked->address, 8), low = number_at(asked->address + 8, 8);
    struct llq_served done = llq_serve(now.week, now.second, high, low, asked->port, random, asked->bytes, asked->length, table->bytes,
                                       table->length, reply, LLQ_REPLY_MOST);
    if (done.number == LLQ_TABLE)
        die("the table is unsound");
    if (done.number != LLQ_DONE) {
        counts.refused[done.number]++;
        if (settings->verbose)
            print_refusal(asked, done.number);
        return;
    }
    read_answers(asked, random, reply, &answers);
    count_answers(&answers);
    if (settings->verbose)
        print_answers(asked, &answers, before);
    keep_reply(table, keep_changed(table), asked, &answers, reply, done.length);
}

static void serve_waiting(const struct endpoint *endpoint)
{
    static struct arrival arrivals[BATCH_MOST];
    static uint8_t replies[BATCH_MOST][LLQ_REPLY_MOST];
    uint64_t random[BATCH_MOST];
    size_t count = sockets_receive(endpoint, arrivals);
    for (size_t have = 0, want = count * sizeof *random; have < want;) {
        ssize_t got = getrandom((uint8_t *)random + have, want - have, 0);
        if (got < 0 && errno != EINTR)
            die("getrandom: %s", strerror(errno));
        have += got < 0 ? 0 : (size_t)got;
    }
    for (size_t i = 0; i < count; i++)
        serve(arrivals + i, random[i], replies[i]);
    sockets_flush();
}

/* ---- signals */

/* SIGHUP: the roster's file is read anew; entries keep their leases. */
static void reload(void)
{
    static struct table fresh;
    struct roster roster, old = roster_of(table);
    char reason[REASON_SIZE] = "no --roster was given";
    if (!settings->roster_path || !read_roster(settings->roster_path, &roster, reason))
        say("the old table stays: %s", reason);
    else if (same_roster(&roster, &old))
        say("the roster is as it was");
    else if (!rebuild(table, slots_of(table), &roster, &fresh, reason))
        say("the old table stays: %s", reason);
    else {
        *table = fresh;
        keep_changed(table);
        say_rebuilt(table);
    }
}

/* SIGUSR1: the counters and the table. */
static void report(void)
{
    static struct table shown;
    char *text;
    size_t length;
    FILE *out = open_memstream(&text, &length);
    if (!out)
        return;
    shown = *table;
    print_counts(out);
    show_table(out, &shown, now, "now:");
    fclose(out);
    log_report(text, length);
    free(text);
}

/* Whether to go on. */
static bool take_signal(int signals)
{
    struct signalfd_siginfo info;
    if (read(signals, &info, sizeof info) != (ssize_t)sizeof info)
        return true;
    if (info.ssi_signo == SIGHUP)
        reload();
    else if (info.ssi_signo == SIGUSR1)
        report();
    return info.ssi_signo != SIGTERM && info.ssi_signo != SIGINT;
}

/*
 * A save that is due begins when nothing has come for a moment, or a lot of replies waits for it, or so many lots have come
 * meanwhile: so one save carries many replies, and none waits long for it.
 */
#define MOMENT 100000 /* ns */
#define LOTS 16

static bool save_now(int ready, bool second)
{
    static int lots;
    if (!keep_due()) {
        lots = 0;
        return second;
    }
    bool now_due = ready == 0 || keep_waiting() >= BATCH_MOST || ++lots >= LOTS;
    lots = now_due ? 0 : lots;
    return now_due || second;
}

void run(struct table *the_table, const struct settings *the_settings, const struct endpoint *endpoints, size_t count, int signals,
         int saves)
{
    struct pollfd ready[SOCKETS_MOST + 2] = {{.fd = signals, .events = POLLIN}, {.fd = saves, .events = POLLIN}};
    for (size_t i = 0; i < count; i++)
        ready[i + 2] = (struct pollfd){.fd = endpoints[i].socket, .events = POLLIN};
    table = the_table;
    settings = the_settings;
    now = clock_reading(table);
    keep_changed(table);
    keep_save(table, true);
    for (bool on = true; on;) {
        struct timespec wait = {.tv_nsec = keep_due() ? MOMENT : clock_left()};
        int events = ppoll(ready, (nfds_t)count + 2, &wait, NULL);
        if (events < 0 && errno == EINTR)
            continue;
        if (events < 0)
            die("poll: %s", strerror(errno));
        bool second = tick();
        if (ready[1].revents)
            keep_saved();
        for (size_t i = 0; i < count; i++)
            if (ready[i + 2].revents)
                serve_waiting(endpoints + i);
        if (ready[0].revents)
            on = take_signal(signals);
        if (save_now(events, second))
            keep_save(table, second);
    }
}
