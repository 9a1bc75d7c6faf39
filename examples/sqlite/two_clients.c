/* two_clients: two threads share one database, each by a client on a node of its own, and make transfers at once. Locks of the VFS keep
 * them apart; what each lock stands against is then seen step by step. At last node 2 fails: its client is over, and the other goes on.
 *
 * Prints what was seen, and ends with status 1 where a transfer is missing, a lock is granted or refused wrongly, or the history isn't
 * legal. */
#include "bank.h"
#include "vfs.h"
#include <stdio.h>

#define PATH "/bank.db"
#define PRAGMAS "PRAGMA journal_mode=DELETE; PRAGMA synchronous=EXTRA"
#define TRANSFERS 200
#define PATIENCE 60000 /* milliseconds */

/* A client, its connection, and the transfers that it makes: every second number. Behind each it looks at the sum of all balances. */
struct teller {
    struct vfs_client client;
    sqlite3 *bank;
    long first, answered, wrong_sums;
};

static int open_teller(struct teller *teller, struct vfs_cluster *cluster, uint32_t node, const char *name) {
    if (vfs_client_open(&teller->client, cluster, node, name, 0) < 0)
        return 0;
    teller->bank = bank_open(name, PATH, PRAGMAS);
    if (teller->bank)
        sqlite3_busy_timeout(teller->bank, PATIENCE);
    teller->first = node - 1;
    return teller->bank != NULL;
}

static void *make_transfers(void *place) {
    struct teller *teller = place;
    for (long number = teller->first; number < 2 * TRANSFERS; number += 2) {
        teller->answered += bank_transfer(teller->bank, number) == SQLITE_OK;
        teller->wrong_sums += bank_look(teller->bank).sum != BANK_ACCOUNTS * BANK_START;
    }
    return NULL;
}

static void work_at_once(struct teller *one, struct teller *other) {
    pthread_t thread;
    if (pthread_create(&thread, NULL, make_transfers, other) != 0)
        return;
    make_transfers(one);
    pthread_join(thread, NULL);
}

static int has_all(sqlite3 *bank, long transfers) {
    struct bank_state found = bank_look(bank);
    return bank_is_sound(&found) && found.transfers == transfers;
}

/* Who of three connections does what, and SQLite's code. The late one has the VFS of the first. */
enum who { WRITER, READER, LATE };

static const struct step {
    enum who who;
    const char *sql;
    int code;
} lock_steps[] = {
    {READER, "BEGIN; SELECT sum(balance) FROM account", SQLITE_OK},
    {WRITER, "BEGIN IMMEDIATE; UPDATE account SET balance = balance", SQLITE_OK}, /* beside a reader */
    {LATE, "BEGIN IMMEDIATE", SQLITE_BUSY},                                      /* one writer at a time */
    {LATE, "SELECT sum(balance) FROM account", SQLITE_OK},                       /* nothing is written yet */
    {WRITER, "COMMIT", SQLITE_BUSY},                                             /* the reader stands against it */
    {LATE, "SELECT sum(balance) FROM account", SQLITE_BUSY},                     /* and no new one comes in */
    {READER, "COMMIT", SQLITE_OK},
    {WRITER, "COMMIT", SQLITE_OK},
    {WRITER, "BEGIN EXCLUSIVE", SQLITE_OK},
    {READER, "SELECT sum(balance) FROM account", SQLITE_BUSY},
    {WRITER, "COMMIT", SQLITE_OK},
    {READER, "SELECT sum(balance) FROM account", SQLITE_OK},
};

static int are_locks_right(sqlite3 *writer, sqlite3 *reader) {
    sqlite3 *banks[] = {writer, reader, bank_open("on node 1", PATH, PRAGMAS)};
    size_t count = sizeof lock_steps / sizeof *lock_steps, right = 0;
    if (!banks[LATE])
        return 0;
    for (size_t i = 0; i < sizeof banks / sizeof *banks; i++)
        sqlite3_busy_timeout(banks[i], 0);
    for (size_t i = 0; i < count; i++)
        right += sqlite3_exec(banks[lock_steps[i].who], lock_steps[i].sql, NULL, NULL, NULL) == lock_steps[i].code;
    sqlite3_close(banks[LATE]);
    printf("locks: %zu of %zu steps as they have to be\n", right, count);
    return right == count;
}

/* Node 2 fails: a transfer of its client is refused, one of the other is made. */
static int outlives_node_2(struct vfs_cluster *cluster, struct teller *one, struct teller *other) {
    int64_t failed = assise_fail(&cluster->desk, 2);
    int is_over = bank_transfer(other->bank, 2 * TRANSFERS) != SQLITE_OK && sqlite3_system_errno(other->bank) == ASSISE_NODE_DOWN;
    sqlite3_close(other->bank); /* so its locks go */
    int goes_on = bank_transfer(one->bank, 2 * TRANSFERS) == SQLITE_OK;
    printf("node 2 fails: its client is %s, the other %s\n", is_over ? "over" : "not over", goes_on ? "goes on" : "doesn't go on");
    return failed >= 0 && is_over && goes_on;
}

static int open_both(struct vfs_cluster *cluster, struct teller *one, struct teller *other) {
    return vfs_cluster_begin(cluster, 2, 4096, 4096) >= 0 && open_teller(one, cluster, 1, "on node 1") &&
           bank_fill(one->bank) == SQLITE_OK && open_teller(other, cluster, 2, "on node 2");
}

int main(void) {
    static struct vfs_cluster cluster;
    static struct teller one, other;
    if (!open_both(&cluster, &one, &other))
        return 1;
    work_at_once(&one, &other);
    int is_right = has_all(one.bank, 2 * TRANSFERS) && has_all(other.bank, 2 * TRANSFERS);
    printf("two clients: %ld and %ld transfers answered, %s; %ld wrong sums seen\n", one.answered, other.answered,
           is_right ? "all there" : "not all there", one.wrong_sums + other.wrong_sums);
    is_right = one.wrong_sums + other.wrong_sums == 0 && is_right;
    is_right = are_locks_right(one.bank, other.bank) && is_right;
    is_right = outlives_node_2(&cluster, &one, &other) && is_right;
    is_right = has_all(one.bank, 2 * TRANSFERS + 1) && is_right;
    is_right = assise_legal(&cluster.desk) == 1 && is_right;
    sqlite3_close(one.bank);
    vfs_client_forget(&one.client);
    vfs_client_forget(&other.client);
    vfs_cluster_end(&cluster);
    return !is_right;
}
