/* Ways to use SQLite on the file system, and what a failure may take in each. */
#ifndef ASSISE_SETTINGS_H
#define ASSISE_SETTINGS_H

struct setting {
    const char *name;
    const char *says;
    const char *pragmas;
    unsigned options; /* of the VFS */
    long most_lost;   /* how many of the last answered transactions a failure may take */
};

/* The setting of a name, or NULL. */
const struct setting *setting_of(const char *name);

#endif
