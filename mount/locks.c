#include "locks.h"
#include "paths.h"
#include <errno.h>
#include <fuse3/fuse.h>
#include <fuse3/fuse_lowlevel.h>
#include <stdlib.h>
#include <string.h>
#include <time.h>

/* Each that waits takes a thread, and who unlocks needs one, too. */
#define MOST_WAITING 64
#define LOOK_NANOSECONDS 20000000

struct lock {
    struct lock *next;
    struct locker locker;
    uint64_t first, last;
    short type; /* F_RDLCK or F_WRLCK */
    pid_t process;
};

struct locked_file {
    struct locked_file *next;
    struct lock *locks;
    char *path;
    char *moved; /* where it is to move */
};

static struct locked_file *files;
static unsigned waiting;
static pthread_cond_t freed = PTHREAD_COND_INITIALIZER;

static bool is_same(struct locker one, struct locker other) {
    return one.mount == other.mount && one.owner == other.owner && one.is_whole == other.is_whole;
}

static struct locked_file *file_at(const char *path) {
    struct locked_file *file = files;
    while (file && strcmp(file->path, path) != 0)
        file = file->next;
    return file;
}

static uint64_t last_of(const struct flock *wanted) {
    return wanted->l_len ? (uint64_t)(wanted->l_start + wanted->l_len - 1) : UINT64_MAX;
}

/* The first lock in the way of another's, or NULL. */
static struct lock *in_the_way(const struct locked_file *file, struct locker locker,
                               const struct flock *wanted) {
    struct lock *lock = file && wanted->l_type != F_UNLCK ? file->locks : NULL;
    for (; lock; lock = lock->next) {
        bool meet = lock->first <= last_of(wanted) && (uint64_t)wanted->l_start <= lock->last;
        bool exclude = lock->type == F_WRLCK || wanted->l_type == F_WRLCK;
        if (meet && exclude && lock->locker.is_whole == locker.is_whole &&
            !is_same(lock->locker, locker))
            return lock;
    }
    return NULL;
}

void locks_get(const char *path, struct locker locker, struct flock *wanted) {
    const struct lock *lock = in_the_way(file_at(path), locker, wanted);
    wanted->l_type = lock ? lock->type : F_UNLCK;
    if (!lock)
        return;
    wanted->l_whence = SEEK_SET;
    wanted->l_start = (off_t)lock->first;
    wanted->l_len = lock->last == UINT64_MAX ? 0 : (off_t)(lock->last - lock->first + 1);
    wanted->l_pid = lock->process;
}

/* The file at a path, made where it has no locks yet; NULL for want of memory. */
static struct locked_file *file_for(const char *path) {
    struct locked_file *file = file_at(path);
    if (file)
        return file;
    file = calloc(1, sizeof *file);
    if (!file)
        return NULL;
    file->path = moved_path("", "", path);
    if (!file->path) {
        free(file);
        return NULL;
    }
    file->next = files;
    files = file;
    return file;
}

/* A file without locks goes. */
static void tidy(struct locked_file *file) {
    if (file->locks)
        return;
    struct locked_file **place = &files;
    while (*place != file)
        place = &(*place)->next;
    *place = file->next;
    free(file->path);
    free(file->moved);
    free(file);
}

/* Takes a range out of a locker's locks; `*rest` is used for what is left behind it of one. */
static void clear(struct locked_file *file, struct locker locker, uint64_t first, uint64_t last,
                  struct lock **rest) {
    struct lock **place = &file->locks;
    while (*place) {
        struct lock *lock = *place;
        if (!is_same(lock->locker, locker) || lock->first > last || lock->last < first) {
            place = &lock->next;
        } else if (lock->first < first && lock->last > last) {
            **rest = *lock;
            (*rest)->first = last + 1;
            lock->last = first - 1;
            lock->next = *rest;
            *rest = NULL;
            return;
        } else if (lock->first < first) {
            lock->last = first - 1;
            place = &lock->next;
        } else if (lock->last > last) {
            lock->first = last + 1;
            place = &lock->next;
        } else {
            *place = lock->next;
            free(lock);
        }
    }
}

/* Sets a lock that nothing is in the way of: 0, or -ENOLCK, and then all stays. */
static int set(struct locked_file *file, struct locker locker, const struct flock *wanted) {
    struct lock *made = malloc(sizeof *made), *rest = malloc(sizeof *rest);
    if (!made || !rest) {
        free(made);
        free(rest);
        return -ENOLCK;
    }
    clear(file, locker, (uint64_t)wanted->l_start, last_of(wanted), &rest);
    free(rest);
    if (wanted->l_type == F_UNLCK) {
        free(made);
        return 0;
    }
    *made = (struct lock){file->locks,     locker,         (uint64_t)wanted->l_start,
                          last_of(wanted), wanted->l_type, wanted->l_pid};
    file->locks = made;
    return 0;
}

/* Whether the caller's program was interrupted, or its mount ends. */
static bool is_over(void) {
    return fuse_interrupted() || fuse_session_exited(fuse_get_session(fuse_get_context()->fuse));
}

/* Waits for a while, or until a lock goes: 0, or -EINTR where nobody waits any more. */
static int wait_for_a_while(pthread_mutex_t *turn) {
    struct timespec until;
    clock_gettime(CLOCK_REALTIME, &until);
    until.tv_nsec += LOOK_NANOSECONDS;
    until.tv_sec += until.tv_nsec / 1000000000;
    until.tv_nsec %= 1000000000;
    pthread_cond_timedwait(&freed, turn, &until);
    return is_over() ? -EINTR : 0;
}

/* Waits until nothing is in the way of a lock. */
static int wait_for(pthread_mutex_t *turn, const char *path, struct locker locker,
                    const struct flock *wanted) {
    int result = 0;
    if (waiting == MOST_WAITING)
        return -ENOLCK;
    waiting++;
    while (result == 0 && in_the_way(file_at(path), locker, wanted))
        result = wait_for_a_while(turn);
    waiting--;
    return result;
}

int locks_set(pthread_mutex_t *turn, const char *path, struct locker locker,
              const struct flock *wanted, bool waits) {
    if (in_the_way(file_at(path), locker, wanted)) {
        int result = waits ? wait_for(turn, path, locker, wanted) : -EAGAIN;
        if (result < 0)
            return result;
    }
    if (wanted->l_type == F_UNLCK && !file_at(path))
        return 0;
    struct locked_file *file = file_for(path);
    int result = file ? set(file, locker, wanted) : -ENOLCK;
    if (file)
        tidy(file);
    pthread_cond_broadcast(&freed);
    return result;
}

bool locks_plan(const char *from, const char *to) {
    for (struct locked_file *file = files; file; file = file->next) {
        if (!is_at_or_below(file->path, from))
            continue;
        file->moved = moved_path(file->path, from, to);
        if (!file->moved) {
            locks_stay();
            return false;
        }
    }
    return true;
}

void locks_stay(void) {
    for (struct locked_file *file = files; file; file = file->next) {
        free(file->moved);
        file->moved = NULL;
    }
}

/* The locks of what was replaced go, and with them their file. */
static void drop_all_of(struct locked_file *file) {
    while (file->locks) {
        struct lock *gone = file->locks;
        file->locks = gone->next;
        free(gone);
    }
    tidy(file);
}

void locks_move(const char *to) {
    struct locked_file *replaced = file_at(to);
    if (replaced && !replaced->moved)
        drop_all_of(replaced);
    for (struct locked_file *file = files; file; file = file->next) {
        if (!file->moved)
            continue;
        free(file->path);
        file->path = file->moved;
        file->moved = NULL;
    }
    pthread_cond_broadcast(&freed);
}

void locks_drop(const void *mount) {
    struct locked_file *next;
    for (struct locked_file *file = files; file; file = next) {
        next = file->next;
        for (struct lock **place = &file->locks; *place;) {
            struct lock *lock = *place;
            if (lock->locker.mount != mount) {
                place = &lock->next;
                continue;
            }
            *place = lock->next;
            free(lock);
        }
        tidy(file);
    }
    pthread_cond_broadcast(&freed);
}
