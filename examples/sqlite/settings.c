/* Ways to use SQLite: see settings.h. */
#include "settings.h"
#include "vfs.h"
#include <limits.h>

static const struct setting settings[] = {
    {
        .name = "extra",
        .says = "EXTRA",
        .pragmas = "PRAGMA journal_mode=DELETE; PRAGMA synchronous=EXTRA",
    },
    {
        .name = "in_order",
        .says = "EXTRA, writes in order",
        .pragmas = "PRAGMA journal_mode=DELETE; PRAGMA synchronous=EXTRA",
        .options = VFS_IN_ORDER,
    },
    {
        .name = "one_fsync",
        .says = "OFF and one fsync",
        .pragmas = "PRAGMA journal_mode=DELETE; PRAGMA synchronous=OFF",
        .options = VFS_FSYNC_AT_UNLINK,
    },
    {
        .name = "truncate",
        .says = "FULL, a truncated journal",
        .pragmas = "PRAGMA journal_mode=TRUNCATE; PRAGMA synchronous=FULL",
    },
    {
        .name = "log",
        .says = "FULL, a write-ahead log",
        .pragmas = "PRAGMA locking_mode=EXCLUSIVE; PRAGMA journal_mode=WAL; PRAGMA wal_autocheckpoint=20; PRAGMA synchronous=FULL",
    },
    {
        .name = "full",
        .says = "FULL",
        .pragmas = "PRAGMA journal_mode=DELETE; PRAGMA synchronous=FULL",
        .most_lost = 1,
    },
    {
        .name = "off",
        .says = "OFF",
        .pragmas = "PRAGMA journal_mode=DELETE; PRAGMA synchronous=OFF",
        .most_lost = LONG_MAX,
    },
};

const struct setting *setting_of(const char *name) {
    for (size_t i = 0; i < sizeof settings / sizeof *settings; i++)
        if (strcmp(settings[i].name, name) == 0)
            return &settings[i];
    return NULL;
}
