/* Paths that move with a rename. */
#ifndef MOUNT_PATHS_H
#define MOUNT_PATHS_H
#include <stdbool.h>
#include <stddef.h>

/* Whether a path is another or lies below it. */
bool is_at_or_below(const char *path, const char *above);

/* What becomes of a path at or below `from` that moves to `to`, for free(); or NULL for want of
 * memory. */
char *moved_path(const char *path, const char *from, const char *to);

/* How many bytes the path of the directory has in which a path lies. */
size_t bytes_above(const char *path);

#endif
