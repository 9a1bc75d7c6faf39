/* The cluster of this process, its mounts, and the calls that they make. Who calls any of these has
 * the cluster's turn. */
#ifndef MOUNT_CLUSTER_H
#define MOUNT_CLUSTER_H
#include "assise.h"
#include <pthread.h>
#include <stdbool.h>
#include <stdint.h>

#define MOST_MOUNTS 16
#define NOTES_BYTES 65536

struct fuse;

/* What a failure of its node does to a mount. */
enum mode {
    MODE_REDO, /* another client makes again what was lost, and programs go on */
    MODE_STOP  /* what was lost is lost: each call is EIO until the mount is told to go on */
};

/* A folder, and its client. */
struct mount {
    struct cluster *cluster;
    struct fuse *fuse;
    const char *folder;
    uint32_t node;
    uint32_t client;     /* 0 while it has none */
    uint64_t generation; /* how often it was stopped and went on: what was opened before is over */
    bool is_stopped;
    bool has_lost; /* `lost` isn't made again yet */
    struct assise_loss lost;
};

/* When the cluster is renewed; times are nanoseconds of the monotonic clock. */
struct renewals {
    uint64_t keep; /* bytes of history */
    uint64_t left; /* bytes that it had behind the last one */
    uint64_t count, took, ended, longest;
    bool is_refused; /* the last one was */
};

/* The last lines about failures, oldest first. */
struct notes {
    size_t bytes;
    char text[NOTES_BYTES];
};

struct cluster {
    struct assise_desk desk;
    pthread_mutex_t turn; /* who holds it uses all that is here */
    uint32_t nodes;
    uint64_t log, hot;
    enum mode mode;
    struct mount mounts[MOST_MOUNTS];
    unsigned mount_count;
    uint32_t clients;        /* opened since the last renewal */
    uint64_t changes, syncs; /* answered */
    uint32_t failing_node;
    uint64_t failing_after; /* so many more changes and syncs */
    uint64_t failures, lost_calls, unmade;
    struct renewals renewals;
    struct notes notes;
};

/* Makes the cluster, with a client for each mount: 0, or a fault, and then it isn't there. */
int64_t cluster_begin(struct cluster *cluster);

void cluster_end(struct cluster *cluster);

/* A call of a mount's client. Its answer is in the desk. */
int64_t cluster_call(struct mount *mount, uint32_t call, const char *path, uint64_t first,
                     uint64_t second);

/* Reads up to `bytes` bytes of a file: how many there were. */
int64_t cluster_read(struct mount *mount, const char *path, void *data, size_t bytes,
                     uint64_t offset);

/* A call that changes the tree: a failure may come behind it. */
int64_t cluster_change(struct mount *mount, uint32_t call, const char *path, const void *other,
                       size_t other_bytes, uint64_t first);

/* An fsync. */
int64_t cluster_sync(struct mount *mount);

#endif
