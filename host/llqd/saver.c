/* A thread that saves tables, so that a slow disk does not keep the host from serving. One save at a time. */
#include <errno.h>
#include <poll.h>
#include <pthread.h>
#include <semaphore.h>
#include <string.h>
#include <sys/eventfd.h>
#include <unistd.h>

#include "llqd.h"

/* The loop writes `given` between a take and the next give, the thread writes `result` between a give and its end. */
static struct table given;
static struct saved result;
static sem_t asked, done;
static int ended;

static void *save_all(void *path)
{
    for (;;) {
        while (sem_wait(&asked))
            ;
        int64_t before = milliseconds();
        result.how = state_save(path, &given, &result.error);
        result.seconds = (double)(milliseconds() - before) / 1000;
        sem_post(&done);
        uint64_t one = 1;
        if (write(ended, &one, sizeof one) < 0)
            die("eventfd: %s", strerror(errno));
    }
    return NULL;
}

int saver_start(const char *path)
{
    pthread_t thread;
    ended = eventfd(0, EFD_CLOEXEC);
    if (ended < 0 || sem_init(&asked, 0, 0) || sem_init(&done, 0, 0))
        die("saving: %s", strerror(errno));
    int error = pthread_create(&thread, NULL, save_all, (void *)path);
    if (error)
        die("saving: %s", strerror(error));
    return ended;
}

void saver_give(const struct table *table)
{
    given.length = table->length;
    memcpy(given.bytes, table->bytes, table->length);
    sem_post(&asked);
}

bool saver_take(struct saved *saved, int wait)
{
    struct pollfd ready = {.fd = ended, .events = POLLIN};
    uint64_t count;
    if (poll(&ready, 1, wait) != 1 || read(ended, &count, sizeof count) < 0)
        return false;
    while (sem_wait(&done))
        ;
    *saved = result;
    return true;
}
