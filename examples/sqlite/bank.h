/* Accounts and transfers between them. A transfer leaves the sum of all balances as it is, and leaves a row of its own: so what a database
 * still has can be counted, and each balance has to be what its transfers make of it. */
#ifndef ASSISE_BANK_H
#define ASSISE_BANK_H
#include <sqlite3.h>

#define BANK_ACCOUNTS 20
#define BANK_START 1000

/* What a database has. */
struct bank_state {
    int is_whole;    /* `PRAGMA integrity_check` answers ok */
    long sum;        /* of all balances */
    long unbalanced; /* accounts whose balance isn't what their transfers make of it */
    long transfers;  /* how many rows transfers left */
    int has_no_gap;  /* they are numbered from 0 on */
};

/* What a transfer moves, from one account to another. */
struct bank_terms {
    unsigned source, target, amount;
};

/* Opens a database of a VFS with these pragmas, or answers NULL. */
sqlite3 *bank_open(const char *vfs_name, const char *path, const char *pragmas);

/* Makes the tables and the accounts: SQLite's code. */
int bank_fill(sqlite3 *bank);

/* What the transfer of this number moves. */
struct bank_terms bank_terms(long number);

/* Makes the transfer of this number in one transaction: SQLite's code. A transfer that isn't made is rolled back. */
int bank_transfer(sqlite3 *bank, long number);

/* Makes transfers until one isn't made, and answers how many were. */
long bank_transfers(sqlite3 *bank, long first, long count);

/* Reads what a database has; numbers are -1 where it can't be read. */
struct bank_state bank_look(sqlite3 *bank);

/* Whether a database is whole, with the sum, and no transfer is there in part. */
int bank_is_sound(const struct bank_state *state);

#endif
