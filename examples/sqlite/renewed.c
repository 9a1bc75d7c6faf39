/* renewed [TRANSFERS]: transfers go on and on, and between two of them the cluster is renewed, so
 * that its history stays small.
 *
 * Makes TRANSFERS transfers, or as many as fit in ten seconds. The cluster is renewed where its
 * history keeps more than MOST_KEPT bytes and GROWTH times what it kept behind the last renewal:
 * that is what the files take, and a renewal costs the files and the history. The database stays
 * open. Rows of transfers are removed but for the last ones, since a file can't grow for ever.
 *
 * Prints what was made, and the most memory that the process had. Ends with status 1 where SQLite
 * refuses anything, `integrity_check` isn't ok, the sum of all balances or one of them isn't what
 * the transfers make of it, or the memory was over MOST_MEMORY. */
#include "bank.h"
#include "vfs.h"
#include <stdio.h>
#include <stdlib.h>
#include <time.h>

#define NODES 2
#define LOG 4096
#define HOT 4096

#define SECONDS 10
#define ROWS_KEPT 1000
#define MOST_KEPT (64 << 20)
#define GROWTH 4
#define MOST_MEMORY 300000 /* kilobytes */

/* What the history keeps for an entry beside the bytes that a call wrote, read or listed: some 657
 * bytes, by what malloc gave out for 8,000 transfers. */
#define ENTRY_BYTES 657

/* A database on a cluster, and what it has to have. */
struct run {
    struct vfs_cluster cluster;
    struct vfs_client client;
    sqlite3 *bank;
    long transfers, balances[BANK_ACCOUNTS];
    long renewals;
    int64_t kept_behind; /* the last renewal */
    double renewing;     /* seconds, of all renewals */
};

static double seconds(void) {
    struct timespec now;
    clock_gettime(CLOCK_MONOTONIC, &now);
    return (double)now.tv_sec + (double)now.tv_nsec * 1e-9;
}

/* The most memory that the process had so far, in kilobytes, or -1. */
static long most_memory(void) {
    char line[256];
    long most = -1;
    FILE *status = fopen("/proc/self/status", "r");
    while (status && most < 0 && fgets(line, sizeof line, status))
        sscanf(line, "VmHWM: %ld", &most);
    if (status)
        fclose(status);
    return most;
}

/* ---- transfers and renewals */

static int64_t kept(struct run *run) {
    struct assise_desk *desk = &run->cluster.desk;
    return assise_payload(desk) + assise_entries(desk) * ENTRY_BYTES;
}

/* Renews the cluster where its history has grown: whether nothing was refused. */
static int renew_in_time(struct run *run) {
    if (kept(run) <= MOST_KEPT + GROWTH * run->kept_behind)
        return 1;
    double begun = seconds();
    int64_t result = vfs_client_renew(&run->client, NODES, LOG, HOT);
    run->renewing += seconds() - begun;
    run->kept_behind = kept(run);
    run->renewals++;
    if (result < 0)
        printf("renewal %ld: %s\n", run->renewals, assise_text(result));
    return result >= 0;
}

/* Removes the rows of transfers before the last ones: whether SQLite did. */
static int remove_rows(struct run *run) {
    char sql[100];
    snprintf(sql, sizeof sql, "DELETE FROM transfer WHERE id < %ld", run->transfers - ROWS_KEPT);
    return sqlite3_exec(run->bank, sql, NULL, NULL, NULL) == SQLITE_OK;
}

/* Makes the next transfer, and what is due behind it: whether nothing was refused. */
static int go_on(struct run *run) {
    struct bank_terms terms = bank_terms(run->transfers);
    if (bank_transfer(run->bank, run->transfers) != SQLITE_OK)
        return 0;
    run->transfers++;
    run->balances[terms.source] -= terms.amount;
    run->balances[terms.target] += terms.amount;
    if (run->transfers % ROWS_KEPT == 0 && !remove_rows(run))
        return 0;
    return renew_in_time(run);
}

static int begin(struct run *run) {
    if (vfs_cluster_begin(&run->cluster, NODES, LOG, HOT) < 0)
        return 0;
    if (vfs_client_open(&run->client, &run->cluster, 1, "cluster", 0) < 0)
        return 0;
    run->bank = bank_open("cluster", "/bank.db",
                          "PRAGMA journal_mode=DELETE; PRAGMA synchronous=EXTRA");
    for (int i = 0; i < BANK_ACCOUNTS; i++)
        run->balances[i] = BANK_START;
    return run->bank && bank_fill(run->bank) == SQLITE_OK;
}

static void end(struct run *run) {
    sqlite3_close(run->bank);
    vfs_client_forget(&run->client);
    vfs_cluster_end(&run->cluster);
}

/* ---- what came of it */

/* How many accounts have the balance that the transfers make of it. */
static int right_balances(struct run *run) {
    static const char sql[] = "SELECT balance FROM account ORDER BY id";
    sqlite3_stmt *statement;
    int right = 0;
    if (sqlite3_prepare_v2(run->bank, sql, -1, &statement, NULL) == SQLITE_OK)
        for (int i = 0; i < BANK_ACCOUNTS && sqlite3_step(statement) == SQLITE_ROW; i++)
            right += sqlite3_column_int64(statement, 0) == run->balances[i];
    sqlite3_finalize(statement);
    return right;
}

/* Prints what has come of it: whether all is as it has to be. */
static int look(struct run *run, double took) {
    struct bank_state found = bank_look(run->bank);
    int right = right_balances(run);
    long memory = most_memory();
    printf("%ld transfers in %.1f seconds; %ld renewals, %.1f ms each; at most %ld MB\n",
           run->transfers, took, run->renewals,
           run->renewals ? run->renewing * 1e3 / (double)run->renewals : 0, memory / 1000);
    printf("integrity_check: %s; a sum of %ld; %d of %d balances are right\n",
           found.is_whole ? "ok" : "not ok", found.sum, right, BANK_ACCOUNTS);
    return found.is_whole && found.sum == BANK_ACCOUNTS * BANK_START && right == BANK_ACCOUNTS &&
           0 < memory && memory <= MOST_MEMORY;
}

int main(int words, char **word) {
    static struct run run;
    long count = words > 1 ? atol(word[1]) : 0;
    int is_right = begin(&run);
    double begun = seconds();
    while (is_right && (count ? run.transfers < count : seconds() - begun < SECONDS))
        is_right = go_on(&run);
    is_right = look(&run, seconds() - begun) && is_right;
    end(&run);
    return !is_right;
}
