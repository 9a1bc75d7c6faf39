/* Attributes in chains of a table, by their paths' hashes. */
#include "attributes.h"
#include "paths.h"
#include <stdint.h>
#include <stdlib.h>
#include <string.h>

#define CHAINS 65536

static struct attributes *chains[CHAINS];

struct timespec time_now(void) {
    struct timespec now;
    clock_gettime(CLOCK_REALTIME, &now);
    return now;
}

static struct attributes **chain_of(const char *path, size_t bytes) {
    uint64_t hash = 14695981039346656037u;
    for (size_t at = 0; at < bytes; at++)
        hash = (hash ^ (unsigned char)path[at]) * 1099511628211u;
    return &chains[(hash ^ hash >> 32) % CHAINS];
}

/* Where the attributes of a path of so many bytes are hung up: there is NULL where it has none. */
static struct attributes **place_of(const char *path, size_t bytes) {
    struct attributes **place = chain_of(path, bytes);
    while (*place && (strncmp((*place)->path, path, bytes) != 0 || (*place)->path[bytes] != 0))
        place = &(*place)->next;
    return place;
}

struct attributes *attributes_at(const char *path) {
    return *place_of(path, strlen(path));
}

struct attributes *attributes_new(const char *path, mode_t mode, uid_t owner, gid_t group) {
    struct attributes *attributes = calloc(1, sizeof *attributes);
    if (!attributes)
        return NULL;
    attributes->path = moved_path("", "", path);
    if (!attributes->path) {
        free(attributes);
        return NULL;
    }
    attributes->mode = mode & 07777;
    attributes->owner = owner;
    attributes->group = group;
    attributes->accessed = attributes->modified = attributes->changed = time_now();
    return attributes;
}

void attributes_free(struct attributes *attributes) {
    if (!attributes)
        return;
    free(attributes->path);
    free(attributes->moved);
    free(attributes);
}

void attributes_drop(const char *path) {
    struct attributes **place = place_of(path, strlen(path)), *gone = *place;
    if (!gone)
        return;
    *place = gone->next;
    attributes_free(gone);
}

void attributes_put(struct attributes *attributes) {
    attributes_drop(attributes->path);
    struct attributes **chain = chain_of(attributes->path, strlen(attributes->path));
    attributes->next = *chain;
    *chain = attributes;
}

/* The first attributes at or below a path, in a chain from a place on. */
static struct attributes *next_below(struct attributes *from, const char *above) {
    while (from && !is_at_or_below(from->path, above))
        from = from->next;
    return from;
}

bool attributes_plan(const char *from, const char *to, bool is_directory) {
    struct attributes *one = is_directory ? NULL : attributes_at(from);
    if (one)
        return (one->moved = moved_path(one->path, from, to)) != NULL;
    for (size_t chain = 0; is_directory && chain < CHAINS; chain++) {
        for (one = next_below(chains[chain], from); one; one = next_below(one->next, from)) {
            one->moved = moved_path(one->path, from, to);
            if (!one->moved) {
                attributes_stay(from, is_directory);
                return false;
            }
        }
    }
    return true;
}

static void forget_move(struct attributes *attributes) {
    free(attributes->moved);
    attributes->moved = NULL;
}

void attributes_stay(const char *from, bool is_directory) {
    struct attributes *one = is_directory ? NULL : attributes_at(from);
    if (one)
        forget_move(one);
    for (size_t chain = 0; is_directory && chain < CHAINS; chain++)
        for (one = next_below(chains[chain], from); one; one = next_below(one->next, from))
            forget_move(one);
}

/* Takes all that are noted out of a chain, and hangs them up before others. */
static struct attributes *take_moving(struct attributes **place, struct attributes *taken) {
    while (*place) {
        struct attributes *one = *place;
        if (!one->moved) {
            place = &one->next;
            continue;
        }
        *place = one->next;
        one->next = taken;
        taken = one;
    }
    return taken;
}

void attributes_move(const char *from, const char *to, bool is_directory) {
    struct attributes *taken = NULL;
    if (strcmp(from, to) == 0) {
        attributes_stay(from, is_directory);
        return;
    }
    attributes_drop(to);
    if (!is_directory)
        taken = take_moving(chain_of(from, strlen(from)), taken);
    for (size_t chain = 0; is_directory && chain < CHAINS; chain++)
        taken = take_moving(&chains[chain], taken);
    while (taken) {
        struct attributes *one = taken;
        taken = one->next;
        free(one->path);
        one->path = one->moved;
        one->moved = NULL;
        attributes_put(one);
    }
    struct attributes *moved = attributes_at(to);
    if (moved)
        moved->changed = time_now();
}

static void touch_at(const char *path, size_t bytes) {
    struct attributes *attributes = *place_of(path, bytes);
    if (attributes)
        attributes->modified = attributes->changed = time_now();
}

void touch(const char *path) {
    touch_at(path, strlen(path));
}

void touch_above(const char *path) {
    touch_at(path, bytes_above(path));
}

void attributes_end(void) {
    for (size_t chain = 0; chain < CHAINS; chain++) {
        while (chains[chain]) {
            struct attributes *one = chains[chain];
            chains[chain] = one->next;
            attributes_free(one);
        }
    }
}
