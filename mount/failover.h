/* What becomes of a mount whose client is over, since its node failed. */
#ifndef MOUNT_FAILOVER_H
#define MOUNT_FAILOVER_H
#include "cluster.h"

/* Opens a client for a mount: on its node, or on the next one that is full. */
int64_t open_client(struct mount *mount);

/* Whether a mount may call: it isn't stopped, has a client, and nothing that it lost is left to be
 * made again. Else a fault. A renewal that is due is made on the way. */
int64_t make_ready(struct mount *mount);

/* Makes again what mounts have lost and couldn't make again when they lost it. */
int64_t make_all_again(struct cluster *cluster);

/* A node fails. Where that is refused nothing has changed. */
int64_t fail_node(struct cluster *cluster, uint32_t node);

/* A mount that is stopped goes on, with what the files say. */
int64_t go_on(struct mount *mount);

#endif
