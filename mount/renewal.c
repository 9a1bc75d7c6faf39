#include "renewal.h"
#include "failover.h"
#include "notes.h"
#include <inttypes.h>
#include <time.h>

/* What an entry has besides the bytes that it wrote, read or listed, measured at a stat. */
#define ENTRY_BYTES 500

/* A renewal takes what the files take, in time and in memory: so it is due where the history has so
 * many times that. */
#define TIMES_LEFT 3

/* A renewal that was refused is tried again when so many times what it took has gone by. */
#define TIMES_APART 20

static uint64_t monotonic(void) {
    struct timespec now;
    clock_gettime(CLOCK_MONOTONIC, &now);
    return (uint64_t)now.tv_sec * 1000000000 + (uint64_t)now.tv_nsec;
}

uint64_t kept_bytes(struct cluster *cluster) {
    return (uint64_t)assise_entries(&cluster->desk) * ENTRY_BYTES +
           (uint64_t)assise_payload(&cluster->desk);
}

/* The nodes that are down, a bit each. */
static uint32_t nodes_down(struct cluster *cluster) {
    uint32_t down = 0;
    for (uint32_t node = 1; node <= cluster->nodes; node++)
        if (assise_phase(&cluster->desk, node) != ASSISE_FULL)
            down |= 1u << node;
    return down;
}

/* The nodes of a new cluster are up: those that were down fail, and lose nothing, since all calls
 * are replicated. */
static void fail_again(struct cluster *cluster, uint32_t down) {
    for (uint32_t node = 1; node <= cluster->nodes; node++)
        if (down & 1u << node && assise_fail(&cluster->desk, node) < 0)
            note(&cluster->notes,
                 "node %" PRIu32 " is up in the renewed cluster, since it couldn't fail\n", node);
}

/* The first mount on node 1 has the client that a renewal opens, if it is still there. */
static void open_anew(struct cluster *cluster) {
    bool is_free = assise_standing(&cluster->desk, 1) == ASSISE_ALIVE;
    cluster->clients = 1;
    for (unsigned place = 0; place < cluster->mount_count; place++) {
        struct mount *mount = &cluster->mounts[place];
        mount->client = is_free && mount->node == 1 && !mount->is_stopped;
        is_free = is_free && !mount->client;
    }
    for (unsigned place = 0; place < cluster->mount_count; place++) {
        struct mount *mount = &cluster->mounts[place];
        if (!mount->client && !mount->is_stopped)
            open_client(mount); /* else its next call does */
    }
}

int64_t renew(struct cluster *cluster) {
    struct renewals *renewals = &cluster->renewals;
    int64_t result = make_all_again(cluster);
    if (result < 0)
        return result;
    uint32_t down = nodes_down(cluster);
    uint64_t began = monotonic();
    result = assise_renew(&cluster->desk, cluster->nodes, cluster->log, cluster->hot, ASSISE_LEAST);
    if (result >= 0) {
        fail_again(cluster, down);
        open_anew(cluster);
        renewals->left = kept_bytes(cluster);
        renewals->count++;
    }
    renewals->ended = monotonic();
    renewals->took = renewals->ended - began;
    renewals->longest = renewals->took > renewals->longest ? renewals->took : renewals->longest;
    renewals->is_refused = result < 0;
    return result < 0 ? result : 0;
}

static bool has_grown(struct cluster *cluster) {
    const struct renewals *renewals = &cluster->renewals;
    uint64_t kept = kept_bytes(cluster);
    return kept > renewals->keep && kept / TIMES_LEFT >= renewals->left;
}

void renew_where_due(struct cluster *cluster) {
    const struct renewals *renewals = &cluster->renewals;
    bool are_few = cluster->clients + cluster->mount_count > ASSISE_MOST_CLIENTS;
    if (!are_few && !has_grown(cluster))
        return;
    if (!renewals->is_refused || monotonic() - renewals->ended >= TIMES_APART * renewals->took)
        renew(cluster);
}
