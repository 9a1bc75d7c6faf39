#include "cluster.h"
#include "failover.h"
#include "renewal.h"

int64_t cluster_begin(struct cluster *cluster) {
    assise_begin(&cluster->desk);
    int64_t result = assise_make(&cluster->desk, cluster->nodes, cluster->log, cluster->hot);
    if (result < 0)
        return result;
    for (unsigned place = 0; place < cluster->mount_count && result >= 0; place++)
        result = open_client(&cluster->mounts[place]);
    if (result < 0)
        assise_free(&cluster->desk);
    return result;
}

void cluster_end(struct cluster *cluster) {
    assise_free(&cluster->desk);
}

/* A call, tried once more where the client can make no more files and a renewal gives another. */
static int64_t call_ready(struct mount *mount, uint32_t call, const char *path, const void *other,
                          size_t other_bytes, uint64_t first, uint64_t second) {
    struct cluster *cluster = mount->cluster;
    int64_t result = make_ready(mount);
    if (result < 0)
        return result;
    result = assise_at(&cluster->desk, call, mount->client, path, other, other_bytes, first,
                       second);
    if (result != ASSISE_INODES_SPENT || renew(cluster) < 0 || make_ready(mount) < 0)
        return result;
    return assise_at(&cluster->desk, call, mount->client, path, other, other_bytes, first, second);
}

int64_t cluster_call(struct mount *mount, uint32_t call, const char *path, uint64_t first,
                     uint64_t second) {
    return call_ready(mount, call, path, NULL, 0, first, second);
}

int64_t cluster_read(struct mount *mount, const char *path, void *data, size_t bytes,
                     uint64_t offset) {
    int64_t result = make_ready(mount);
    return result < 0
               ? result
               : assise_read(&mount->cluster->desk, mount->client, path, data, bytes, offset);
}

/* A failure that was ordered comes behind the last of so many changes and syncs. */
static void count_down(struct cluster *cluster) {
    if (cluster->failing_after && --cluster->failing_after == 0)
        fail_node(cluster, cluster->failing_node);
}

int64_t cluster_change(struct mount *mount, uint32_t call, const char *path, const void *other,
                       size_t other_bytes, uint64_t first) {
    int64_t result = call_ready(mount, call, path, other, other_bytes, first, 0);
    if (result < 0)
        return result;
    mount->cluster->changes++;
    count_down(mount->cluster);
    return result;
}

int64_t cluster_sync(struct mount *mount) {
    int64_t result = call_ready(mount, ASSISE_FSYNC, NULL, NULL, 0, 0, 0);
    if (result < 0)
        return result;
    mount->cluster->syncs++;
    count_down(mount->cluster);
    return result;
}
