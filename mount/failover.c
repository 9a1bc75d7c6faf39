#include "failover.h"
#include "locks.h"
#include "notes.h"
#include "renewal.h"
#include <inttypes.h>

int64_t open_client(struct mount *mount) {
    struct cluster *cluster = mount->cluster;
    for (uint32_t further = 0; further < cluster->nodes; further++) {
        uint32_t node = (mount->node - 1 + further) % cluster->nodes + 1;
        int64_t client = assise_open(&cluster->desk, node, ASSISE_LEAST);
        if (client == ASSISE_NODE_DOWN)
            continue;
        if (client < 0)
            return client;
        mount->client = cluster->clients = (uint32_t)client;
        mount->node = node;
        return 0;
    }
    return ASSISE_NODE_DOWN;
}

/* Whether a fault is the tree's answer to a call. */
static bool is_answer(int64_t fault) {
    return fault <= ASSISE_NO_ENT && fault >= ASSISE_DIR_FULL;
}

/* Makes again what a mount has lost, as far as that isn't refused. What the tree doesn't do is
 * passed over. */
static int64_t make_again(struct mount *mount) {
    struct assise_desk *desk = &mount->cluster->desk;
    while (mount->has_lost) {
        int64_t result = assise_redo(desk, mount->lost, mount->client);
        mount->has_lost = result < 0;
        if (result >= 0)
            return 0;
        if (is_answer(result) || result == ASSISE_OUT_OF_MEMORY || result == ASSISE_BUSY ||
            result == ASSISE_LOG_FULL)
            mount->lost = assise_loss(desk, 0);
        if (!is_answer(result))
            return result;
        note(&mount->cluster->notes, "%s: call %" PRIu64 " isn't made again: %s\n", mount->folder,
             mount->lost.call, assise_text(result));
        mount->lost.call++;
        mount->cluster->unmade++;
    }
    return 0;
}

/* A mount that isn't stopped gets a client where it has none, and makes again what it lost. */
static int64_t fail_over(struct mount *mount) {
    int64_t result = mount->client ? 0 : open_client(mount);
    return result < 0 ? result : make_again(mount);
}

int64_t make_all_again(struct cluster *cluster) {
    for (unsigned place = 0; place < cluster->mount_count; place++) {
        struct mount *mount = &cluster->mounts[place];
        int64_t result = mount->has_lost ? fail_over(mount) : 0;
        if (result < 0)
            return result;
    }
    return 0;
}

int64_t make_ready(struct mount *mount) {
    if (mount->is_stopped)
        return ASSISE_CLIENT_GONE;
    int64_t result = make_all_again(mount->cluster);
    if (result < 0)
        return result;
    renew_where_due(mount->cluster);
    return fail_over(mount);
}

/* A mount's client is over. What it lost is noted. */
static void lose_client(struct mount *mount, const struct assise_loss *lost) {
    struct cluster *cluster = mount->cluster;
    const char *what = cluster->mode == MODE_REDO ? "made again" : "gone";
    if (lost) {
        uint64_t calls = (uint64_t)assise_answered(&cluster->desk, lost->client) - lost->call;
        cluster->lost_calls += calls;
        note(&cluster->notes,
             "  %s: client %" PRIu32 " loses %" PRIu64 " calls, from %" PRIu64
             " on; its changes are %s\n",
             mount->folder, lost->client, calls, lost->call, what);
    }
    mount->client = 0;
    mount->is_stopped = cluster->mode == MODE_STOP;
    mount->generation += mount->is_stopped;
    if (mount->is_stopped)
        locks_drop(mount);
    mount->has_lost = lost && !mount->is_stopped;
    if (lost)
        mount->lost = *lost;
}

/* The losses that a failure left in the desk, which is used again. */
static uint32_t keep_losses(const struct assise_desk *desk, int64_t losers,
                            struct assise_loss *losses) {
    uint32_t count = losers < ASSISE_MOST_CLIENTS ? (uint32_t)losers : ASSISE_MOST_CLIENTS;
    for (uint32_t place = 0; place < count; place++)
        losses[place] = assise_loss(desk, place);
    return count;
}

/* The loss of a client, or none. */
static const struct assise_loss *loss_of(uint32_t client, const struct assise_loss *losses,
                                         uint32_t count) {
    for (uint32_t place = 0; place < count; place++)
        if (losses[place].client == client)
            return &losses[place];
    return NULL;
}

/* Each mount that is to go on does so; where one can't yet, it is tried again at its next call. */
static void fail_all_over(struct cluster *cluster) {
    for (unsigned place = 0; place < cluster->mount_count; place++)
        if (!cluster->mounts[place].is_stopped)
            fail_over(&cluster->mounts[place]);
}

int64_t fail_node(struct cluster *cluster, uint32_t node) {
    struct assise_loss losses[ASSISE_MOST_CLIENTS];
    int64_t losers = make_all_again(cluster);
    if (losers >= 0)
        losers = assise_fail(&cluster->desk, node);
    if (losers < 0) {
        note(&cluster->notes, "node %" PRIu32 " doesn't fail: %s\n", node, assise_text(losers));
        return losers;
    }
    uint32_t count = keep_losses(&cluster->desk, losers, losses);
    cluster->failures++;
    note(&cluster->notes,
         "node %" PRIu32 " fails behind %" PRIu64 " changes and %" PRIu64 " syncs\n", node,
         cluster->changes, cluster->syncs);
    for (unsigned place = 0; place < cluster->mount_count; place++) {
        struct mount *mount = &cluster->mounts[place];
        if (mount->node == node && mount->client)
            lose_client(mount, loss_of(mount->client, losses, count));
    }
    fail_all_over(cluster);
    renew_where_due(cluster);
    return 0;
}

int64_t go_on(struct mount *mount) {
    if (!mount->is_stopped)
        return 0;
    int64_t result = open_client(mount);
    mount->is_stopped = result < 0;
    mount->generation += result >= 0;
    return result;
}
