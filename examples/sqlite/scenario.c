/* scenario NODES SETTING [TRANSFERS [LOG]]: a node fails before each change of a file in turn, while a client on it makes transfers.
 *
 * For each number of a change: client 1, on node 1, makes transfers, and node 1 fails before that change. Client 2, on node 2, looks what
 * the database has, and goes on; node 1 comes back; node 2 fails in the midst of a transfer. Client 3, on node 1, looks again. With three
 * nodes or more, each second time node 1 stays down, and client 3 is on node 3.
 *
 * Each look has to find a whole database, the sum of all balances, each balance as its transfers make it, and each transfer that was
 * answered, but for those that the setting may lose; one more may be there, which was on the way. Each eighth history is checked to be
 * legal. Prints a line, and ends with status 1 where a look found anything else. */
#include "bank.h"
#include "settings.h"
#include "vfs.h"
#include <stdio.h>
#include <stdlib.h>

#define PATH "/bank.db"

/* What is tried: transfers are those that client 1 makes. */
struct plan {
    uint32_t nodes;
    uint64_t log;
    const struct setting *setting;
    long transfers;
};

/* What was seen at all failures. */
struct tally {
    long failures, looks, wrong, looks_with_loss, lost, on_the_way, histories;
};

/* A node that fails before one change of a file, counted from 1. */
struct failure {
    struct vfs_cluster *cluster;
    uint32_t node;
    long at, changes;
    int64_t result; /* that of the failure */
};

static void fail_now(struct failure *failure) {
    failure->result = assise_fail(&failure->cluster->desk, failure->node);
}

static void fail_in_time(void *watcher, enum vfs_change change) {
    struct failure *failure = watcher;
    (void)change;
    if (++failure->changes == failure->at)
        fail_now(failure);
}

/* Makes transfers while a node fails; where that change never comes, it fails behind them. How many were answered, or -1 where the
 * failure was refused. */
static long transfers_until_failure(sqlite3 *bank, long first, long count, struct failure *failure) {
    failure->cluster->before_change = fail_in_time;
    failure->cluster->watcher = failure;
    long answered = bank_transfers(bank, first, count);
    failure->cluster->before_change = NULL;
    if (failure->changes < failure->at)
        fail_now(failure);
    return failure->result < 0 ? -1 : answered;
}

static void look(sqlite3 *bank, long answered, const struct plan *plan, struct tally *tally, const char *where) {
    struct bank_state found = bank_look(bank);
    long lost = answered - found.transfers;
    tally->looks++;
    if (lost > 0) {
        tally->lost += lost;
        tally->looks_with_loss++;
    }
    if (lost == -1)
        tally->on_the_way++;
    if (bank_is_sound(&found) && -1 <= lost && lost <= plan->setting->most_lost)
        return;
    tally->wrong++;
    printf("failure %ld, %s: %s, sum %ld, %ld accounts wrong, %ld transfers, %ld were answered\n", tally->failures, where,
           found.is_whole ? "whole" : "not whole", found.sum, found.unbalanced, found.transfers, answered);
}

/* Opens the database by a new client on a node; NULL where that can't be. */
static sqlite3 *open_on(struct vfs_client *client, struct vfs_cluster *cluster, uint32_t node, const struct setting *setting) {
    static const char *const names[] = {"", "on node 1", "on node 2", "on node 3"};
    int64_t number = vfs_client_open(client, cluster, node, names[node], setting->options);
    if (number < 0) {
        printf("no client on node %u: %ld\n", node, (long)number);
        return NULL;
    }
    sqlite3 *bank = bank_open(names[node], PATH, setting->pragmas);
    if (!bank)
        printf("no database on node %u\n", node);
    return bank;
}

static void close_on(struct vfs_client *client, sqlite3 *bank) {
    sqlite3_close(bank);
    vfs_client_forget(client);
}

/* Client 1 fills the bank and makes transfers until node 1 fails: how many were answered, or -1. */
static long first_part(struct vfs_cluster *cluster, const struct plan *plan, struct failure *failure) {
    struct vfs_client client;
    long answered = -1;
    sqlite3 *bank = open_on(&client, cluster, 1, plan->setting);
    if (bank && bank_fill(bank) == SQLITE_OK && assise_fsync(&cluster->desk, client.number) == 0)
        answered = transfers_until_failure(bank, 0, plan->transfers, failure);
    close_on(&client, bank);
    return answered;
}

static int stays_down(const struct plan *plan, const struct tally *tally) {
    return plan->nodes > 2 && tally->failures % 2 == 0;
}

/* Makes three transfers, while node 1 comes back, and then those until node 2 fails: how many are to be found then, or -1. */
static long go_on(struct vfs_cluster *cluster, const struct plan *plan, sqlite3 *bank, const struct tally *tally) {
    struct failure failure = {.cluster = cluster, .node = 2, .at = 1 + tally->failures % 14};
    long there = bank_look(bank).transfers;
    long made = bank_transfers(bank, there, 2);
    int64_t back = stays_down(plan, tally) ? 0 : assise_back(&cluster->desk, 1);
    made += bank_transfers(bank, there + made, 1);
    if (made != 3 || back < 0) {
        printf("failure %ld: %ld of 3 transfers, node 1 comes back: %ld\n", tally->failures, made, (long)back);
        return -1;
    }
    long answered = transfers_until_failure(bank, there + made, 2, &failure);
    return answered < 0 ? -1 : there + made + answered;
}

/* Client 2 looks and goes on: how many transfers client 3 has to find, or -1. */
static long second_part(struct vfs_cluster *cluster, const struct plan *plan, long answered, struct tally *tally) {
    struct vfs_client client;
    long there = -1;
    sqlite3 *bank = open_on(&client, cluster, 2, plan->setting);
    if (bank) {
        look(bank, answered, plan, tally, "client 2");
        there = go_on(cluster, plan, bank, tally);
    }
    close_on(&client, bank);
    return there;
}

/* Client 3 looks: whether it could. */
static int third_part(struct vfs_cluster *cluster, const struct plan *plan, long answered, struct tally *tally) {
    struct vfs_client client;
    sqlite3 *bank = open_on(&client, cluster, stays_down(plan, tally) ? 3 : 1, plan->setting);
    if (bank)
        look(bank, answered, plan, tally, "client 3");
    close_on(&client, bank);
    return bank != NULL;
}

static void check_history(struct vfs_cluster *cluster, struct tally *tally) {
    tally->histories++;
    if (assise_legal(&cluster->desk) == 1)
        return;
    printf("failure %ld: the history isn't legal\n", tally->failures);
    tally->wrong++;
}

/* One failure before the change of this number: how many changes came. */
static long run(const struct plan *plan, long at, struct tally *tally) {
    static struct vfs_cluster cluster;
    struct failure failure = {.cluster = &cluster, .node = 1, .at = at};
    tally->failures++;
    if (vfs_cluster_begin(&cluster, plan->nodes, plan->log, 4096) < 0) {
        tally->wrong++;
        return 0;
    }
    long answered = first_part(&cluster, plan, &failure);
    long next = answered < 0 ? -1 : second_part(&cluster, plan, answered, tally);
    if (next < 0 || !third_part(&cluster, plan, next, tally))
        tally->wrong++;
    if (tally->failures % 8 == 1)
        check_history(&cluster, tally);
    vfs_cluster_end(&cluster);
    return failure.changes;
}

static void print_tally(const struct plan *plan, const struct tally *tally) {
    printf("%u nodes, logs of %lu, %s: %ld failures, %ld looks, %ld wrong; ", plan->nodes, (unsigned long)plan->log, plan->setting->says,
           tally->failures, tally->looks, tally->wrong);
    printf("%ld answered transfers lost at %ld looks, %ld kept that were on the way; %ld histories checked\n", tally->lost,
           tally->looks_with_loss, tally->on_the_way, tally->histories);
}

int main(int count, char **words) {
    struct plan plan = {.log = 4096, .setting = count > 2 ? setting_of(words[2]) : NULL, .transfers = 25};
    if (!plan.setting) {
        printf("scenario NODES SETTING [TRANSFERS [LOG]]\n");
        return 2;
    }
    plan.nodes = (uint32_t)atoi(words[1]);
    if (count > 3)
        plan.transfers = atol(words[3]);
    if (count > 4)
        plan.log = (uint64_t)atol(words[4]);
    struct tally tally = {0};
    long changes = 1;
    for (long at = 1; at <= changes + 1; at++) {
        long came = run(&plan, at, &tally);
        changes = came > changes ? came : changes;
    }
    print_tally(&plan, &tally);
    return tally.wrong != 0 || (plan.setting->most_lost > 0 && tally.lost == 0);
}
