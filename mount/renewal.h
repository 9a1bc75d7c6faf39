/* The cluster is replaced by a new one with the same tree, so that its history doesn't grow for
 * ever. */
#ifndef MOUNT_RENEWAL_H
#define MOUNT_RENEWAL_H
#include "cluster.h"

/* Bytes of history that are kept, where none are named. */
#define USUAL_KEEP ((uint64_t)64 << 20)

/* About how many bytes of memory the history has. */
uint64_t kept_bytes(struct cluster *cluster);

/* Renews the cluster, where what a mount lost is made again: 0, or a fault, and then the old
 * cluster stays. Nodes that were down are down, and all clients are opened anew. */
int64_t renew(struct cluster *cluster);

/* Renews it where the history has more than what is to be kept, and three times what the last
 * renewal left, which is what the files take; or where the next failure could find no number for a
 * client. Where that is refused all stays as it is, for twenty times what it took. */
void renew_where_due(struct cluster *cluster);

#endif
