/* Modes, owners and times, by path. They are the mounts' own, in their memory: the library has
 * none, and no failure takes them. Who calls any of these has the cluster's turn. */
#ifndef MOUNT_ATTRIBUTES_H
#define MOUNT_ATTRIBUTES_H
#include <stdbool.h>
#include <sys/types.h>
#include <time.h>

struct attributes {
    struct attributes *next;
    char *path;
    char *moved; /* where it is to move */
    mode_t mode; /* permission bits alone */
    uid_t owner;
    gid_t group;
    bool is_directory;
    struct timespec accessed, modified, changed;
};

struct timespec time_now(void);

/* Those of a path, or NULL. */
struct attributes *attributes_at(const char *path);

/* Attributes of now, which no path has yet; NULL for want of memory. */
struct attributes *attributes_new(const char *path, mode_t mode, uid_t owner, gid_t group);

/* Their path has them, in place of those that it had. */
void attributes_put(struct attributes *attributes);

/* Attributes that no path has go. */
void attributes_free(struct attributes *attributes);

void attributes_drop(const char *path);

/* Notes what is to move with a path, and below it where it is a directory: false for want of
 * memory, and then nothing is noted. */
bool attributes_plan(const char *from, const char *to, bool is_directory);

/* What is noted moves, or stays. */
void attributes_move(const char *from, const char *to, bool is_directory);
void attributes_stay(const char *from, bool is_directory);

/* A file changed; the directory in which a path lies changed. */
void touch(const char *path);
void touch_above(const char *path);

void attributes_end(void);

#endif
