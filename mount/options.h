/* The words of the command line. */
#ifndef MOUNT_OPTIONS_H
#define MOUNT_OPTIONS_H
#include "cluster.h"

struct options {
    char *fuse; /* FUSE's own, behind `-o`, or NULL */
    bool stays;       /* in the foreground */
    bool is_help, is_version;
};

extern const char help_text[];

/* Reads the words into a cluster that isn't made yet: whether they are right. What is wrong is told
 * to standard error. */
bool options_read(int count, char **words, struct cluster *cluster, struct options *options);

#endif
