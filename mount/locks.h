/* Locks of files for all mounts of this process, by path: POSIX locks of ranges, and those of
 * flock. Who calls any of these has the cluster's turn; who waits for a lock gives it away
 * meanwhile. */
#ifndef MOUNT_LOCKS_H
#define MOUNT_LOCKS_H
#include <fcntl.h>
#include <pthread.h>
#include <stdbool.h>
#include <stdint.h>

/* Who locks: a process by its files, or with flock an open file. The kernel's number is one
 * mount's. */
struct locker {
    const void *mount;
    uint64_t owner;
    bool is_whole; /* flock; it and the POSIX locks don't see one another */
};

/* Locks or unlocks a range: 0, -EAGAIN where another's lock is in the way, -EINTR, or -ENOLCK for
 * want of memory or of room to wait. */
int locks_set(pthread_mutex_t *turn, const char *path, struct locker locker,
              const struct flock *wanted, bool waits);

/* Says what is in the way of a lock. */
void locks_get(const char *path, struct locker locker, struct flock *wanted);

/* Locks move with a path, where there is memory for it: false, and nothing is noted, or what is
 * noted moves, or stays. */
bool locks_plan(const char *from, const char *to);
void locks_move(const char *to);
void locks_stay(void);

/* All locks of a mount go. */
void locks_drop(const void *mount);

#endif
