/* The lines that `.assise/losses` shows. */
#ifndef MOUNT_NOTES_H
#define MOUNT_NOTES_H
#include "cluster.h"

/* Adds a line, which has its end, and lets go of the oldest ones where there is no room. */
__attribute__((format(printf, 2, 3))) void note(struct notes *notes, const char *format, ...);

#endif
