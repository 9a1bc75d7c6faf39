/* The directory `.assise` in the root of each mount, which no listing shows: what is read from its
 * files, and written to `control`. Who calls any of these has the cluster's turn. */
#ifndef MOUNT_CONTROL_H
#define MOUNT_CONTROL_H
#include "cluster.h"
#include <sys/stat.h>

/* A text that an open file of `.assise` has. */
struct text {
    struct text *next;
    size_t bytes;
    char *data;
};

bool is_control(const char *path);

/* 0, or -ENOENT. */
int control_stat(const char *path, struct stat *found);

/* The names in `.assise`, and NULL behind them. */
extern const char *const control_names[];

/* What a file of `.assise` says now: 0, or an errno below 0. `control` says nothing. */
int control_text(struct mount *mount, const char *path, struct text **text);

void text_free(struct text *text);

/* Texts go that are still open. */
void texts_end(void);

/* Does what is written to `control`, in words that end or have a line's end behind them: 0, or an
 * errno below 0. */
int control_do(struct mount *mount, const char *data, size_t bytes);

#endif
