/*
 * The table's file. It is replaced as a whole and its folder synced, so that after a crash at any moment it is the old one
 * or the new one. The lock is on the file itself: a new file is locked before it takes the old one's place.
 */
#include <errno.h>
#include <fcntl.h>
#include <libgen.h>
#include <limits.h>
#include <stdlib.h>
#include <string.h>
#include <sys/file.h>
#include <sys/stat.h>
#include <unistd.h>

#include "llqd.h"

static int locked = -1; /* the file that this host has locked, its own */

/* Opens a regular file and nothing else: no link is followed, and a FIFO is not waited for. -1 if there is none. */
static int open_regular(const char *path, struct stat *is)
{
    const int how = O_NOFOLLOW | O_NONBLOCK | O_NOCTTY | O_CLOEXEC;
    int file = open(path, O_RDWR | how); /* some file systems lock only what may be written */
    if (file < 0 && (errno == EACCES || errno == EROFS))
        file = open(path, O_RDONLY | how);
    if (file < 0 && errno == ENOENT)
        return -1;
    if (file < 0 && errno == ELOOP)
        die("%s: a symbolic link, not a regular file", path);
    if (file < 0 && (errno == ENXIO || errno == EISDIR))
        die("%s: not a regular file", path);
    if (file < 0 || fstat(file, is))
        die("%s: %s", path, strerror(errno));
    if (!S_ISREG(is->st_mode))
        die("%s: not a regular file", path);
    return file;
}

static void read_table(int file, const char *path, struct table *table)
{
    table->length = 0;
    for (ssize_t got; (got = read(file, table->bytes + table->length, sizeof table->bytes - table->length)) != 0;) {
        if (got < 0 && errno == EINTR)
            continue;
        if (got < 0)
            die("%s: %s", path, strerror(errno));
        table->length += (size_t)got;
    }
    if (!sound(table))
        die("%s: not a sound table; it is left as it is", path);
}

/* Whether the name still stands for this very file. */
static bool still_named(const char *path, const struct stat *is)
{
    struct stat now;
    return lstat(path, &now) == 0 && now.st_dev == is->st_dev && now.st_ino == is->st_ino;
}

/* Whether this name stands for this very file, which is open. */
static bool named(const char *path, int file)
{
    struct stat is;
    return file >= 0 && fstat(file, &is) == 0 && still_named(path, &is);
}

static void lock(int file, const char *path)
{
    if (flock(file, LOCK_EX | LOCK_NB) == 0)
        return;
    if (errno == EWOULDBLOCK)
        die("%s: in use by another llqd", path);
    die("%s: lock: %s", path, strerror(errno));
}

bool state_open(const char *path, struct table *table)
{
    struct stat is;
    for (;;) {
        int file = open_regular(path, &is);
        if (file < 0)
            return false;
        lock(file, path);
        if (still_named(path, &is)) {
            read_table(file, path, table);
            locked = file;
            return true;
        }
        close(file); /* replaced by its host just before that ended */
    }
}

time_t state_time(void)
{
    struct stat is;
    return locked >= 0 && fstat(locked, &is) == 0 ? is.st_mtime : 0;
}

time_t state_read(const char *path, struct table *table)
{
    struct stat is;
    int file = open_regular(path, &is);
    if (file < 0)
        die("%s: %s", path, strerror(ENOENT));
    read_table(file, path, table);
    close(file);
    return is.st_mtime;
}

static bool write_whole(int file, const uint8_t *bytes, size_t length)
{
    while (length) {
        ssize_t put = write(file, bytes, length);
        if (put < 0 && errno != EINTR)
            return false;
        if (put > 0) {
            bytes += put;
            length -= (size_t)put;
        }
    }
    return true;
}

/* What stands under the new file's name is left over after a crash, or planted; if it is locked, another host is writing it. */
static bool clear_name(const char *name)
{
    int file = open(name, O_RDONLY | O_NOFOLLOW | O_NONBLOCK | O_NOCTTY | O_CLOEXEC);
    bool busy = file >= 0 && flock(file, LOCK_EX | LOCK_NB) && errno == EWOULDBLOCK;
    if (file >= 0)
        close(file);
    if (!busy)
        return unlink(name) == 0 || errno == ENOENT;
    errno = EWOULDBLOCK;
    return false;
}

/* The new file, locked, written and on disk; -1 where that failed. It is created, never opened as found. */
static int write_new(const char *name, const struct table *table)
{
    if (!clear_name(name))
        return -1;
    int file = open(name, O_WRONLY | O_CREAT | O_EXCL | O_NOFOLLOW | O_CLOEXEC, 0600);
    if (file < 0)
        return -1;
    if (flock(file, LOCK_EX | LOCK_NB) == 0 && write_whole(file, table->bytes, table->length) && fsync(file) == 0)
        return file;
    int error = errno;
    if (named(name, file))
        unlink(name);
    close(file);
    errno = error;
    return -1;
}

static bool sync_folder(const char *path)
{
    char name[PATH_MAX];
    snprintf(name, sizeof name, "%s", path);
    int folder = open(dirname(name), O_RDONLY | O_DIRECTORY | O_CLOEXEC);
    if (folder < 0)
        return false;
    bool synced = fsync(folder) == 0;
    int error = errno;
    close(folder);
    errno = error;
    return synced;
}

/* Whether the file of this name is this host's own, or there is none: another one is not written over. */
static bool own_name(const char *path)
{
    struct stat is;
    if (named(path, locked))
        return true;
    if (lstat(path, &is))
        return errno == ENOENT;
    errno = EEXIST;
    return false;
}

/* The new file into the old one's place. */
static bool replace(const char *name, const char *path, int file)
{
    if (!own_name(path))
        return false;
    if (named(name, file))
        return rename(name, path) == 0;
    errno = EWOULDBLOCK;
    return false;
}

bool state_settle(const char *path)
{
    return fsync(locked) == 0 && sync_folder(path);
}

enum save state_save(const char *path, const struct table *table, int *error)
{
    char name[PATH_MAX];
    *error = ENAMETOOLONG;
    if ((size_t)snprintf(name, sizeof name, "%s.new", path) >= sizeof name)
        return SAVE_FAILED;
    int file = own_name(path) ? write_new(name, table) : -1;
    *error = errno;
    if (file < 0)
        return SAVE_FAILED;
    if (!replace(name, path, file)) {
        *error = errno;
        if (named(name, file))
            unlink(name);
        close(file);
        return SAVE_FAILED;
    }
    if (locked >= 0)
        close(locked);
    locked = file;
    bool synced = sync_folder(path);
    *error = synced ? EWOULDBLOCK : errno;
    return synced && named(path, locked) ? SAVE_DONE : SAVE_UNSURE;
}

const char *state_error(int error)
{
    return error == EWOULDBLOCK ? "in use by another llqd" : error == EEXIST ? "another file stands in its place" : strerror(error);
}
