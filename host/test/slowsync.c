/* slowsync: a shim to be preloaded. Each fsync and fdatasync takes SLOWSYNC_MS milliseconds (20) longer.
   With SLOWSYNC_KEPT=FILE it also shows what a power cut would leave of FILE, in FILE.kept: a file's bytes count from its own
   sync on, and its name from the sync of its folder on. A reply that leaves before both tells of something that is not there. */
#define _GNU_SOURCE
#include <dlfcn.h>
#include <errno.h>
#include <fcntl.h>
#include <pthread.h>
#include <stdio.h>
#include <stdlib.h>
#include <string.h>
#include <sys/stat.h>
#include <time.h>
#include <unistd.h>

static pthread_mutex_t one = PTHREAD_MUTEX_INITIALIZER;
static char bytes[1 << 16]; /* of the file that was synced last */
static ssize_t length = -1;
static struct stat of;

static void fail(const char *what)
{
    fprintf(stderr, "slowsync: %s: %s\n", what, strerror(errno));
    _exit(99);
}

static void take_bytes(int file, const struct stat *about)
{
    char name[64];
    snprintf(name, sizeof name, "/proc/self/fd/%d", file); /* it may be open for writing alone */
    int again = open(name, O_RDONLY | O_CLOEXEC);
    if (again < 0 || (length = pread(again, bytes, sizeof bytes, 0)) < 0)
        fail(name);
    close(again);
    of = *about;
}

static void take_name(const char *path)
{
    char fresh[4096], kept[4096];
    struct stat about;
    if (length < 0 || stat(path, &about) || about.st_ino != of.st_ino)
        return;
    snprintf(fresh, sizeof fresh, "%s.kept.new", path);
    snprintf(kept, sizeof kept, "%s.kept", path);
    struct timespec times[2] = {of.st_atim, of.st_mtim};
    int file = open(fresh, O_WRONLY | O_CREAT | O_TRUNC | O_CLOEXEC, 0600);
    if (file < 0 || write(file, bytes, (size_t)length) != length || futimens(file, times) || close(file) || rename(fresh, kept))
        fail(kept);
}

static int slow(const char *call, int file)
{
    const char *text = getenv("SLOWSYNC_MS"), *path = getenv("SLOWSYNC_KEPT");
    long ms = text ? atol(text) : 20;
    struct timespec pause = {ms / 1000, ms % 1000 * 1000000};
    int (*real)(int) = (int (*)(int))dlsym(RTLD_NEXT, call);
    struct stat about;
    while (nanosleep(&pause, &pause) && errno == EINTR)
        ;
    int result = real(file);
    if (result || !path || fstat(file, &about))
        return result;
    pthread_mutex_lock(&one);
    if (S_ISREG(about.st_mode))
        take_bytes(file, &about);
    else if (S_ISDIR(about.st_mode))
        take_name(path);
    pthread_mutex_unlock(&one);
    return result;
}

int fsync(int file) { return slow("fsync", file); }

int fdatasync(int file) { return slow("fdatasync", file); }
