/* The container that phone and watch share: a file with one sealed image, the lock that goes with it, and how it is
 * copied and replaced.
 *
 * The lock is on a file of its own, CONTAINER.lock. It cannot be on the container: a new diary takes the place of the
 * old file by a rename, and who waited for a lock on the old file would then hold one that nobody else asks for. For
 * the same reason nobody removes the lock's file. The system lets go of a lock when its holder is killed.
 *
 * The rename alone lets a reader see the old file or the new one, whole. The lock keeps writers apart, and readers from
 * a writer that does not rename.
 *
 * A container is replaced and never changed: the image goes to a new file, CONTAINER.new, that file is brought to the
 * disk, and only then a rename gives it the container's name. A rename happens or does not happen. So whoever ends a
 * program that does so, at whatever moment, leaves the old diary whole or the new one, and so does a loss of power.
 * CONTAINER.new belongs to the holder of the lock: what a killed program left there is written over by the next one.
 * A text is replaced in the same way (exchange.c), with a lock's file and a new file beside it.
 *
 * Whoever includes this defines _DEFAULT_SOURCE first, for flock, PATH_MAX and the flags of open. */
#ifndef CONTAINER_H
#define CONTAINER_H

#include <errno.h>
#include <fcntl.h>
#include <limits.h>
#include <stdint.h>
#include <stdio.h>
#include <string.h>
#include <sys/file.h>
#include <sys/stat.h>
#include <unistd.h>

/* Says what the system said of a file and gives the exit status that goes with it. */
static inline int failed(const char *what)
{
    fprintf(stderr, "%s: %s\n", what, strerror(errno));
    return 2;
}

/* Makes the name of a file beside the container; -1 if it would be too long. */
static inline int name_beside(const char *container, const char *suffix, char name[PATH_MAX])
{
    if (snprintf(name, PATH_MAX, "%s%s", container, suffix) < PATH_MAX) return 0;
    errno = ENAMETOOLONG;
    return -1;
}

/* Opens the lock's file and waits for the lock: LOCK_SH to read the container, LOCK_EX to replace it. Gives the open
 * file, or -1. A writer makes the file. Where there is none, no writer that locks has been here, and a reader has none
 * to wait for: it gets -1 and ENOENT. */
static inline int lock_container(const char *container, int how)
{
    char name[PATH_MAX];
    if (name_beside(container, ".lock", name) < 0) return -1;
    int lock = open(name, (how == LOCK_EX ? O_RDWR | O_CREAT : O_RDONLY) | O_CLOEXEC, 0666);
    if (lock < 0) return -1;
    int held;
    do held = flock(lock, how);
    while (held < 0 && errno == EINTR);
    if (held == 0) return lock;
    int error = errno;
    close(lock);
    errno = error;
    return -1;
}

/* Says why there is no lock and gives the exit status that goes with it. */
static inline int not_locked(const char *container)
{
    fprintf(stderr, "%s.lock: %s\n", container, strerror(errno));
    return 2;
}

/* Lets go of the lock; nothing for a reader that had nobody to wait for. What errno says stays. */
static inline void unlock_container(int lock)
{
    int error = errno;
    if (lock >= 0) close(lock);
    errno = error;
}

/* ---- Copying ---- */

/* Reads up to `room` bytes and gives their number; -1 if the system says no. */
static inline ssize_t read_all(int file, uint8_t *bytes, size_t room)
{
    size_t size = 0;
    ssize_t got = 1;
    while (got > 0 && size < room) {
        do got = read(file, bytes + size, room - size);
        while (got < 0 && errno == EINTR);
        if (got > 0) size += (size_t)got;
    }
    return got < 0 ? -1 : (ssize_t)size;
}

static inline ssize_t read_file(const char *name, uint8_t *bytes, size_t room)
{
    int file = open(name, O_RDONLY | O_CLOEXEC);
    if (file < 0) return -1;
    ssize_t size = read_all(file, bytes, room);
    int error = errno;
    close(file);
    errno = error;
    return size;
}

/* Locks, copies, unlocks: the lock begins and ends in this function. Gives 0, or the exit status after a message. */
static inline int copy_container(const char *container, uint8_t *copy, size_t room, size_t *size)
{
    int lock = lock_container(container, LOCK_SH);
    if (lock < 0 && errno != ENOENT) return not_locked(container);
    ssize_t got = read_file(container, copy, room);
    unlock_container(lock);
    if (got < 0) return failed(container);
    *size = (size_t)got;
    return 0;
}

/* ---- Replacing ---- */

static inline int write_all(int file, const uint8_t *bytes, size_t count)
{
    while (count > 0) {
        ssize_t written = write(file, bytes, count);
        if (written < 0 && errno == EINTR) continue;
        if (written == 0) errno = EIO;
        if (written <= 0) return -1;
        bytes += written;
        count -= (size_t)written;
    }
    return 0;
}

/* Returns when what was written is on the disk, and on Apple's systems not only in the disk's own memory. */
static inline int to_disk(int file)
{
#ifdef F_FULLFSYNC
    if (fcntl(file, F_FULLFSYNC) == 0) return 0;
#endif
    return fsync(file);
}

/* Gives a new file the permissions of the one that it will replace, if there is one. */
static inline int permissions_of(const char *replaced, int file)
{
    struct stat old;
    return stat(replaced, &old) < 0 ? 0 : fchmod(file, old.st_mode & 0777);
}

/* Writes the file that will replace the container, and returns when it is on the disk: no rename can come before. */
static inline int write_new(const char *new_name, const char *container, const uint8_t *bytes, size_t count)
{
    int file = open(new_name, O_WRONLY | O_CREAT | O_TRUNC | O_CLOEXEC, 0666);
    if (file < 0) return -1;
    int written = permissions_of(container, file);
    if (written == 0) written = write_all(file, bytes, count);
    if (written == 0) written = to_disk(file);
    int error = errno;
    if (close(file) < 0 && written == 0) return -1;
    errno = error;
    return written;
}

/* Brings the names in the container's folder to the disk: before that a loss of power may undo the rename. */
static inline int folder_to_disk(const char *container)
{
    char folder[PATH_MAX];
    if (name_beside(container, "", folder) < 0) return -1;
    char *slash = strrchr(folder, '/');
    if (slash) slash[1] = '\0';
    int file = open(slash ? folder : ".", O_RDONLY | O_DIRECTORY | O_CLOEXEC);
    if (file < 0) return -1;
    int done = to_disk(file), error = errno;
    close(file);
    errno = error;
    return done;
}

static inline void remove_keeping_errno(const char *name)
{
    int error = errno;
    unlink(name);
    errno = error;
}

/* Replaces the container, or makes it. The lock is held while the new file is written, brought to
 * the disk and renamed. Gives 0, or the exit status after a message: 2 if the container is as it
 * was, 3 if it was replaced, but a loss of power may undo it. */
static inline int replace_container(const char *container, const uint8_t *bytes, size_t count)
{
    char new_name[PATH_MAX];
    if (name_beside(container, ".new", new_name) < 0) return failed(container);
    int lock = lock_container(container, LOCK_EX);
    if (lock < 0) return not_locked(container);
    int replaced = write_new(new_name, container, bytes, count);
    if (replaced == 0) replaced = rename(new_name, container);
    if (replaced < 0) remove_keeping_errno(new_name);
    unlock_container(lock);
    if (replaced < 0) return failed(container);
    if (folder_to_disk(container) == 0) return 0;
    failed(container);
    fprintf(stderr, "%s: replaced, but a loss of power may undo it\n", container);
    return 3;
}

#endif
