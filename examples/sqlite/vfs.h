/* VFSes of SQLite over one cluster, one for each of its clients: the files of a database are files of the cluster's tree.
 *
 *     static struct vfs_cluster cluster;
 *     static struct vfs_client client;
 *
 *     vfs_cluster_begin(&cluster, 2, 4096, 4096);
 *     vfs_client_open(&client, &cluster, 1, "on node 1", 0);
 *     sqlite3_open_v2("/bank.db", &database, SQLITE_OPEN_READWRITE | SQLITE_OPEN_CREATE, "on node 1");
 *
 * A connection keeps its temporary files in memory (`PRAGMA temp_store=memory`): a file without a name can't be opened here. Where its
 * client's node has failed, each call of SQLite answers SQLITE_IOERR or SQLITE_CANTOPEN, and sqlite3_system_errno() ASSISE_NODE_DOWN.
 * Close it then, and open it again through a client of another node. */
#ifndef ASSISE_VFS_H
#define ASSISE_VFS_H
#include "assise.h"
#include <pthread.h>
#include <sqlite3.h>

struct vfs_lock;

/* A change of a file, or an fsync. */
enum vfs_change { VFS_CREATE, VFS_WRITE, VFS_TRUNCATE, VFS_UNLINK, VFS_FSYNC };

/* A cluster, and the locks on its files. They are locks of this process: no node knows of them. */
struct vfs_cluster {
    struct assise_desk desk;
    pthread_mutex_t turn;   /* who holds it uses the desk and the locks */
    struct vfs_lock *locks; /* of each file that is open */

    /* Called, where it is set, before each change, by who holds `turn`. */
    void (*before_change)(void *watcher, enum vfs_change change);
    void *watcher;
};

enum vfs_option {
    /* The removal of a file is synced, also where SQLite doesn't ask for it. With synchronous=OFF that is the one fsync of a commit. */
    VFS_FSYNC_AT_UNLINK = 1,
    /* SQLite is told that writes are kept in order, that what is appended is there before the file is longer, and that a write changes
     * no byte beside its own. Then it syncs less. */
    VFS_IN_ORDER = 2
};

/* A client of a cluster, as a VFS. */
struct vfs_client {
    sqlite3_vfs base; /* the first member: SQLite hands out pointers to it */
    struct vfs_cluster *cluster;
    uint32_t number;
    unsigned options;
    _Atomic int last_error; /* the last fault that a method failed with; connections of several threads may write it */
};

/* Makes a cluster, and answers 0; or a fault, and nothing is to be let go. */
int64_t vfs_cluster_begin(struct vfs_cluster *cluster, uint32_t nodes, uint64_t log, uint64_t hot);

/* Lets a cluster go, whose databases are closed and whose clients are forgotten. */
void vfs_cluster_end(struct vfs_cluster *cluster);

/* Opens a client on a node, registers it under a name that outlives it, and answers the client's number or a fault. */
int64_t vfs_client_open(struct vfs_client *client, struct vfs_cluster *cluster, uint32_t node, const char *name, unsigned options);

/* Renews a client's cluster, to these sizes, and answers 0; or a fault, and the client goes on as
 * before. Behind it the client is the new cluster's first, and its databases stay open. All other
 * clients of the cluster are over: close their databases and forget them before. A client whose
 * node has failed is refused, since what its databases hold in memory may be lost. */
int64_t vfs_client_renew(struct vfs_client *client, uint32_t nodes, uint64_t log, uint64_t hot);

/* Takes a client's name from SQLite. Its databases are closed. */
void vfs_client_forget(struct vfs_client *client);

#endif
