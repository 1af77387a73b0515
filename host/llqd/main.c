/* llqd: a UDP host for the LLQ library. This file: options and the start. */
#include <errno.h>
#include <fcntl.h>
#include <getopt.h>
#include <poll.h>
#include <signal.h>
#include <stdlib.h>
#include <string.h>
#include <sys/signalfd.h>
#include <unistd.h>

#include "llqd.h"

struct options {
    const char *addresses[SOCKETS_MOST], *port, *show;
    size_t count, slots;            /* slots 0: not given */
    unsigned week_bits, clock_wait; /* bits 0: not given */
    struct settings settings;
};

static void usage(void)
{
    fputs("usage: llqd [--address ADDRESS].. [--port PORT] [--slots N] [--weeks BITS] [--roster FILE] [--state FILE]\n"
          "            [--clock-wait SECONDS] [--verbose]\n"
          "       llqd --show FILE\n"
          "  --address     where to listen, IPv4 or IPv6, up to 8 times (127.0.0.1)\n"
          "  --port        UDP port (5352)\n"
          "  --slots       entries that the table can hold, 1 to 64 (16, or those of the state file)\n"
          "  --weeks       bits of the GPS weeks by which a new table goes, 10 or 13 (10, or those of the state file)\n"
          "  --roster      lines ADDRESS SHARE LIMIT; '#' starts a comment; read anew on SIGHUP\n"
          "  --state       keep the table in this file and take it up again at start\n"
          "  --clock-wait  how long to wait at start for a system clock that is not set yet (300)\n"
          "  --verbose     a line on stderr for each question\n"
          "  --show        print a state file\n"
          "  --version, -h, --help\n"
          "SIGHUP reads the roster, SIGUSR1 prints counters and the table, SIGTERM ends.\n", stdout);
}

/* An option's value as a number; dies if it is none from `least` to `most`. */
static unsigned option_number(const char *text, const char *option, int least, int most)
{
    int value = number_of(text, least, most);
    if (value < 0)
        die("--%s '%s' is not a number from %d to %d", option, text, least, most);
    return (unsigned)value;
}

static unsigned bits_of(const char *text)
{
    int bits = number_of(text, 10, 13);
    if (bits != 10 && bits != 13)
        die("--weeks '%s' is not 10 or 13", text);
    return (unsigned)bits;
}

static const char *file_of(const char *text, const char *option)
{
    if (!*text)
        die("--%s '' is not the name of a file", option);
    return text;
}

static void read_options(int argc, char **argv, struct options *options)
{
    static const struct option names[] = {
        {"address", 1, 0, 'a'}, {"port", 1, 0, 'p'}, {"slots", 1, 0, 'n'}, {"weeks", 1, 0, 'b'}, {"roster", 1, 0, 'r'},
        {"state", 1, 0, 's'}, {"clock-wait", 1, 0, 'w'}, {"verbose", 0, 0, 'v'}, {"show", 1, 0, 'o'}, {"version", 0, 0, 'V'},
        {"help", 0, 0, 'h'}, {0, 0, 0, 0}};
    for (int o; (o = getopt_long(argc, argv, ":h", names, NULL)) != -1;)
        switch (o) {
        case 'a':
            if (options->count == SOCKETS_MOST)
                die("more than %d addresses", SOCKETS_MOST);
            options->addresses[options->count++] = optarg;
            break;
        case 'p': option_number(options->port = optarg, "port", 1, 65535); break;
        case 'n': options->slots = option_number(optarg, "slots", 1, SLOTS_MOST); break;
        case 'b': options->week_bits = bits_of(optarg); break;
        case 'r': options->settings.roster_path = file_of(optarg, "roster"); break;
        case 's': options->settings.state_path = file_of(optarg, "state"); break;
        case 'w': options->clock_wait = option_number(optarg, "clock-wait", 0, 1000000); break;
        case 'v': options->settings.verbose = true; break;
        case 'o': options->show = file_of(optarg, "show"); break;
        case 'V': puts("llqd " LLQ_VERSION); exit(0);
        case 'h': usage(); exit(0);
        case ':': die("%s needs a value; llqd -h lists the options", argv[optind - 1]);
        default:
            if (optopt)
                die("'-%c' is not an option; llqd -h lists them", optopt);
            die("'%s' is not an option; llqd -h lists them", argv[optind - 1]);
        }
    if (optind < argc)
        die("'%s' is not an option; llqd -h lists them", argv[optind]);
    if (options->count == 0)
        options->count = 1; /* the default stands there */
}

/* Files and sockets must not take the place of a closed standard input, output or error. */
static void open_standard(void)
{
    int file;
    do
        file = open("/dev/null", O_RDWR | O_NOCTTY);
    while (file >= 0 && file <= STDERR_FILENO);
    if (file > STDERR_FILENO)
        close(file);
}

/* Signals come by a descriptor; those of a lost reader and of a file size limit are errors of the call that met them. */
static int open_signals(void)
{
    sigset_t set;
    sigemptyset(&set);
    sigaddset(&set, SIGTERM);
    sigaddset(&set, SIGINT);
    sigaddset(&set, SIGHUP);
    sigaddset(&set, SIGUSR1);
    signal(SIGPIPE, SIG_IGN);
    signal(SIGXFSZ, SIG_IGN);
    int signals = sigprocmask(SIG_BLOCK, &set, NULL) ? -1 : signalfd(-1, &set, SFD_CLOEXEC);
    if (signals < 0)
        die("signals: %s", strerror(errno));
    return signals;
}

/* Waits for a signal, 200 ms at most; one that ends the host does. */
static void wait_a_little(int signals)
{
    struct pollfd ready = {.fd = signals, .events = POLLIN};
    struct signalfd_siginfo info;
    if (poll(&ready, 1, 200) != 1 || read(signals, &info, sizeof info) != (ssize_t)sizeof info)
        return;
    if (info.ssi_signo == SIGTERM || info.ssi_signo == SIGINT) {
        say("stopped");
        exit(0);
    }
}

/*
 * A system clock that is not set is waited for. One that cannot be right is not used; one that is before the file's time may
 * be right, if the file was saved under one that was ahead.
 */
static void wait_for_clock(const struct options *options, int signals)
{
    char reason[REASON_SIZE];
    const char *path = options->settings.state_path;
    int64_t until = milliseconds() + (int64_t)options->clock_wait * 1000;
    enum clock is = clock_set(state_time(), path, reason);
    if (is != CLOCK_SET && options->clock_wait)
        say("%s; waiting up to %u s for it to be set", reason, options->clock_wait);
    while (is != CLOCK_SET && milliseconds() < until) {
        wait_a_little(signals);
        is = clock_set(state_time(), path, reason);
    }
    if (is == CLOCK_SET)
        return;
    if (options->clock_wait)
        refuse(reason, "the clock was not set within %u s", options->clock_wait);
    if (is == CLOCK_WRONG)
        die("%s", reason);
    say("%s; going on with it", reason);
}

/* ---- the table */

static void make_table(const struct options *options, const struct roster *roster, struct table *table)
{
    const char *path = options->settings.state_path;
    size_t slots = options->slots ? options->slots : 16, shares = shares_of(roster);
    int error;
    if (shares > slots)
        die("%s: the shares sum to %zu, over the %zu slots", options->settings.roster_path, shares, slots);
    table->length = length_of(options->week_bits ? options->week_bits : 10, slots);
    struct reading now = clock_reading(table);
    uint32_t number = llq_make(now.week, now.second, table->bytes, table->length, roster->bytes, roster->length);
    if (number != LLQ_DONE)
        die("making the table was refused with %u", number);
    if (path && state_save(path, table, &error) != SAVE_DONE)
        die("%s: %s", path, state_error(error));
    counts.saves += path != NULL;
}

/* A table that was kept, under the roster and the number of slots that are asked for now, if that can be. */
static void take_up(const struct options *options, const struct roster *roster, struct table *table)
{
    static struct table fresh;
    struct reading now = clock_reading(table);
    struct roster old = roster_of(table);
    size_t slots = options->slots ? options->slots : slots_of(table);
    char reason[REASON_SIZE];
    uint32_t freed = llq_tick(now.week, now.second, table->bytes, table->length).freed;
    clock_back(table);
    counts.run_out += freed;
    if (freed)
        say("run out since the table was saved: %u", freed);
    if (!options->settings.roster_path)
        roster = &old;
    if (slots == slots_of(table) && same_roster(roster, &old))
        return;
    if (!rebuild(table, slots, roster, &fresh, reason)) {
        say("the old table stays: %s", reason);
        return;
    }
    *table = fresh;
    say_rebuilt(table);
}

static struct roster start_roster(const char *path)
{
    struct roster roster = {0};
    char reason[REASON_SIZE];
    if (path && !read_roster(path, &roster, reason))
        die("%s", reason);
    return roster;
}

/* Takes the state file up: false if there is none. Dies if its weeks are not those that are asked for. */
static bool open_state(const struct options *options, struct table *table)
{
    const char *path = options->settings.state_path;
    if (!path || !state_open(path, table))
        return false;
    unsigned bits = week_bits(table);
    if (options->week_bits && options->week_bits != bits)
        die("%s: its weeks have %u bits, not %u; it is left as it is", path, bits, options->week_bits);
    return true;
}

/* The table's start, from the state file if there is one; `saved` becomes the file's. Whether there was one. */
static bool start_table(const struct options *options, int signals, struct table *table, struct table *saved)
{
    struct roster roster = start_roster(options->settings.roster_path);
    bool kept = open_state(options, saved);
    wait_for_clock(options, signals);
    roster = start_roster(options->settings.roster_path); /* it may have changed meanwhile */
    if (clock_start(kept ? saved : NULL, state_time()))
        keep_again();
    if (kept) {
        *table = *saved;
        take_up(options, &roster, table);
    } else {
        make_table(options, &roster, table);
        *saved = *table;
    }
    return kept;
}

static void say_start(const struct options *options, const struct table *table, bool kept)
{
    const char *path = options->settings.state_path;
    for (size_t i = 0; i < options->count; i++)
        say("listening on %s port %s", options->addresses[i], options->port);
    if (kept)
        say("%zu slots, %zu entries taken up from %s", slots_of(table), entries_of(table), path);
    else
        say("%zu slots, 0 entries taken up: %s%s", slots_of(table), path ? path : "no state file", path ? " is new" : "");
}

static void show_file(const char *path, struct table *table)
{
    char since[TIME_SIZE], title[2 * TIME_SIZE];
    time_t saved = state_read(path, table);
    long long ago = (long long)(time(NULL) - saved);
    ago = ago < 0 ? 0 : ago;
    snprintf(title, sizeof title, "saved %s, %lld:%02lld:%02lld ago", time_text(saved, since), ago / 3600, ago / 60 % 60, ago % 60);
    show_table(stdout, table, clock_saved(table, saved), title);
}

int main(int argc, char **argv)
{
    static struct table table, saved;
    struct options options = {.addresses = {"127.0.0.1"}, .port = "5352", .clock_wait = 300};
    struct endpoint endpoints[SOCKETS_MOST];
    open_standard();
    log_open();
    read_options(argc, argv, &options);
    if (options.show) {
        show_file(options.show, &table);
        return fflush(stdout) != 0;
    }
    int signals = open_signals();
    sockets_open(options.addresses, options.count, options.port, endpoints);
    bool kept = start_table(&options, signals, &table, &saved);
    /* the host before may have been killed before its last file was on disk */
    bool settled = !kept || state_settle(options.settings.state_path);
    say_start(&options, &table, kept);
    counts.since = time(NULL);
    int saves = keep_start(options.settings.state_path, &saved, settled);
    run(&table, &options.settings, endpoints, options.count, signals, saves);
    bool all = keep_end(&table);
    say(all ? "stopped" : "stopped with changes that are not saved");
    return !all;
}
