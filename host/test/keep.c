/* The load client: operations whose acknowledgements are logged.
   A line of the log: WHAT ADDRESS PORT NAME STATE NUMBER LEASE TIME. "sent" is an operation that is under way and the state that
   it leads to (number 0: not known yet); "acked" is one whose reply was read: the last that was sent for this entry. Until then
   the outcome is open: the state acknowledged before, or one that was sent since. */
#include <fcntl.h>
#include <inttypes.h>
#include <signal.h>
#include <stdio.h>
#include <string.h>
#include <sys/prctl.h>
#include <sys/socket.h>
#include <sys/wait.h>
#include <time.h>
#include <unistd.h>

#include "client.h"

enum { PORTS = 3, NAMES = 2, ENTRIES = PORTS * NAMES };

static const char *const names[NAMES] = {"arrivals.example", "departures.example"};

static double wall(void)
{
    struct timespec t;
    clock_gettime(CLOCK_REALTIME, &t);
    return (double)t.tv_sec + (double)t.tv_nsec / 1e9;
}

/* One write a line: several processes append to the log. */
static void note(int log, const char *what, const char *address, unsigned i, struct state state)
{
    char line[256];
    int length = snprintf(line, sizeof line, "%s %s %u %s %s %016" PRIx64 " %u %.3f\n", what, address, local_port(i / NAMES),
                          names[i % NAMES], state_words[state.kind - FREE], state.number, state.lease, state.time);
    if (write(log, line, (size_t)length) != length)
        die("the log cannot be written");
}

/* ---- one operation */

struct operation {
    struct llq sent;       /* sent again until it is answered */
    struct llq follower;   /* sent right behind it; it changes nothing more, but its reply tells of the change (opcode 0: none) */
    struct llq forerunner; /* a refresh sent a moment before it, with another outcome (opcode 0: none) */
    struct state next;     /* what it leads to */
};

/* If the entry is to be left alone, one that changes nothing. A response has any lease from what was told last to the granted one. */
static struct operation choose(struct state known, int alone)
{
    uint32_t lease = 3600 + below(3600), pick = below(8);
    struct llq again = {SETUP, 0, 0, lease}, response = {SETUP, 0, known.number, known.lease - below(known.lease - known.told + 1)};
    struct operation done = {.sent = again, .next = known};
    if (known.kind == FREE) {
        done.next = (struct state){.kind = PENDING, .lease = lease};
    } else if (alone || pick == 0) {
        if (known.kind == ESTABLISHED && below(2))
            done.sent = response;
        return done; /* asked for or answered again: the reply tells of the entry as it is */
    } else if (known.kind == PENDING) {
        done.sent = response;
        done.next.kind = ESTABLISHED;
    } else if (pick < 3) {
        done.sent = (struct llq){REFRESH, 0, known.number, 0};
        done.next = (struct state){.kind = FREE};
    } else {
        if (pick == 3) { /* there and back: what is on disk may be the same, what is being saved is not */
            done.forerunner = (struct llq){REFRESH, 0, known.number, lease};
            lease = known.lease;
        }
        done.sent = (struct llq){REFRESH, 0, known.number, lease};
        done.next = (struct state){.kind = ESTABLISHED, .number = known.number, .lease = lease};
    }
    if (below(3) == 0)
        done.follower = done.sent;
    else if (done.sent.opcode == REFRESH && (done.forerunner.opcode || below(2)))
        done.follower = done.sent.lease ? again : response;
    return done;
}

/* Whether it tells what is left of this lease, which began at its time, or since the operation began if it has none yet. */
static int tells_left(struct llq back, struct state of, double began)
{
    double age = (double)of.lease - back.lease, since = wall() - (of.time > 0 ? of.time : began);
    return back.error == 0 && age >= 0 && age <= since + AGE_OFF_MOST && (of.time <= 0 || age >= since - AGE_OFF_MOST);
}

/* Takes what the reply says of the entry into `next`; 0 if it goes against what was acknowledged before. */
static int settle(struct state known, double began, struct llq asked, struct llq back, int copies, struct state *next)
{
    if (asked.number == 0 && known.kind == FREE && back.error == FULL) {
        *next = known;
        return 1;
    }
    next->told = back.lease;
    if (asked.number == 0 && known.kind == FREE) { /* a new question; a second copy finds the entry of the first */
        int right = back.number != 0 && tells_left(back, *next, began);
        next->number = back.number;
        next->time = wall() - (next->lease - back.lease);
        return right;
    }
    if (asked.opcode == SETUP && next->kind == FREE) /* a response behind the end */
        return back.error == NO_SUCH;
    if (asked.opcode == SETUP) /* the lease is that of the refresh before it, if there was one */
        return back.number == known.number && tells_left(back, *next, began);
    if (asked.lease == 0) /* a second copy finds that it has ended */
        return (back.error == 0 || (back.error == NO_SUCH && copies > 1)) && back.number == known.number;
    return back.error == 0 && back.number == known.number && back.lease == asked.lease;
}

/* Does it until it is answered or the time is over: whether it was answered. */
static int operate(int log, double end, const char *address, unsigned i, int s, struct state *known, int alone)
{
    double began = wall();
    struct operation doing = choose(*known, alone);
    struct state next = doing.next;
    struct llq back;
    if (doing.forerunner.opcode) {
        struct state between = {.kind = ESTABLISHED, .number = known->number, .lease = doing.forerunner.lease};
        note(log, "sent", address, i, between);
        ask(s, names[i % NAMES], &doing.forerunner, 1, below(3000) / 1e6, &back);
    }
    note(log, "sent", address, i, next);
    struct llq both[2] = {doing.sent, doing.follower};
    int copies = 0, count = 1 + (doing.follower.opcode != 0), answered;
    do {
        copies += count;
        answered = ask(s, names[i % NAMES], both, count, 0.15, &back);
        /* of two setups the first may be told "full" and the second not: asked once more, alone */
        if (answered && back.error == FULL && count == 2)
            answered = 0;
        count = 1;
    } while (!answered && now() < end);
    if (!answered)
        return 0;
    struct llq asked = both[answered - 1];
    int right = settle(*known, began, asked, back, copies, &next);
    if (doing.sent.opcode == REFRESH)
        next.time = wall();
    note(log, right ? "acked" : "wrong", address, i, next);
    if (!right)
        die("%s port %u %s: opcode %u number %016" PRIx64 " lease %u was answered with error %u number %016" PRIx64 " lease %u; it was %s"
            " %016" PRIx64 " %u", address, local_port(i / NAMES), names[i % NAMES], asked.opcode, asked.number, asked.lease, back.error,
            back.number, back.lease, state_words[known->kind - FREE], known->number, known->lease);
    *known = next;
    return 1;
}

/* ---- many of them */

static void keep_address(int log, double end, const char *address)
{
    struct state entries[ENTRIES];
    int sockets[PORTS];
    for (unsigned i = 0; i < PORTS; i++)
        sockets[i] = socket_from(address, i);
    for (unsigned i = 0; i < ENTRIES; i++)
        entries[i] = (struct state){.kind = FREE};
    while (now() < end) {
        unsigned i = below(ENTRIES);
        /* the first entry is left alone for long, and asked for at times, so that its lease is seen to run on over restarts */
        int alone = i == 0 && entries[i].kind == ESTABLISHED && below(1000);
        if (alone && below(20))
            continue;
        if (!operate(log, end, address, i, sockets[i / NAMES], &entries[i], alone))
            return;
    }
}

/* A process for each address, one operation of each under way: the other entries' states are known at any moment. */
int keep(const char *log_path, double seconds, char **from, unsigned count)
{
    int log = open(log_path, O_WRONLY | O_CREAT | O_APPEND, 0600), failed = 0, status;
    double end = now() + seconds;
    if (log < 0)
        die("%s cannot be opened", log_path);
    for (unsigned i = 0; i < count; i++) {
        seed++;
        if (fork() == 0) {
            prctl(PR_SET_PDEATHSIG, SIGKILL);
            keep_address(log, end, from[i]);
            _exit(0);
        }
    }
    while (wait(&status) > 0)
        failed |= status;
    return failed != 0;
}
