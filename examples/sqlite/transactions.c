/* transactions [COUNT [FOLDER]]: what a transfer costs, by SQLite on a memory file system at FOLDER (/dev/shm) and by SQLite on clusters
 * of 1, 2, 3 and 8 nodes. COUNT transfers are made for each row (2,000), in three passes over all rows; a row has its best pass.
 *
 * Prints the rows of a table: microseconds of processor time a transfer, transfers a second of processor time and a second of wall time,
 * and for each transfer the fsyncs, the entries of the history, and the memory in kilobytes that is kept for them. Each transfer changes
 * three pages of 4,096 bytes. */
#include "bank.h"
#include "settings.h"
#include "vfs.h"
#include <malloc.h>
#include <stdio.h>
#include <stdlib.h>
#include <time.h>
#include <unistd.h>

#define PASSES 3

/* What is measured: without nodes, the memory file system. */
struct row {
    uint32_t nodes;
    const char *setting;
    double processor, wall; /* the best seconds of all transfers; 0 before the first pass */
    long fsyncs, entries;   /* of all transfers */
    double bytes;           /* that are kept for all transfers */
};

static struct row rows[] = {
    {.setting = "extra"},
    {.setting = "off"},
    {.setting = "log"},
    {.nodes = 1, .setting = "extra"},
    {.nodes = 2, .setting = "extra"},
    {.nodes = 3, .setting = "extra"},
    {.nodes = 8, .setting = "extra"},
    {.nodes = 2, .setting = "truncate"},
    {.nodes = 2, .setting = "in_order"},
    {.nodes = 2, .setting = "one_fsync"},
    {.nodes = 2, .setting = "log"},
};

#define ROWS (sizeof rows / sizeof *rows)

static double seconds(clockid_t clock) {
    struct timespec now;
    clock_gettime(clock, &now);
    return (double)now.tv_sec + (double)now.tv_nsec * 1e-9;
}

/* The bytes that malloc has given out. */
static double memory(void) {
    struct mallinfo2 memory = mallinfo2();
    return (double)memory.uordblks + (double)memory.hblkhd;
}

static void count_fsync(void *watcher, enum vfs_change change) {
    *(long *)watcher += change == VFS_FSYNC;
}

/* Makes the transfers on an open database, and keeps the times where they are the best: whether all were made. */
static int time_transfers(sqlite3 *bank, struct row *row, long count) {
    double processor = seconds(CLOCK_PROCESS_CPUTIME_ID), wall = seconds(CLOCK_MONOTONIC);
    if (bank_transfers(bank, 0, count) != count)
        return 0;
    processor = seconds(CLOCK_PROCESS_CPUTIME_ID) - processor;
    wall = seconds(CLOCK_MONOTONIC) - wall;
    if (row->processor == 0 || processor < row->processor)
        row->processor = processor;
    if (row->wall == 0 || wall < row->wall)
        row->wall = wall;
    return 1;
}

static int run_on_memory(struct row *row, const char *folder, long count) {
    char path[512];
    snprintf(path, sizeof path, "%s/assise_transactions_%ld.db", folder, (long)getpid());
    sqlite3 *bank = bank_open(NULL, path, setting_of(row->setting)->pragmas);
    int is_done = bank && bank_fill(bank) == SQLITE_OK && time_transfers(bank, row, count);
    sqlite3_close(bank);
    unlink(path);
    return is_done;
}

static int run_on_cluster(struct row *row, long count) {
    static struct vfs_cluster cluster;
    static struct vfs_client client;
    const struct setting *setting = setting_of(row->setting);
    if (vfs_cluster_begin(&cluster, row->nodes, 4096, 4096) < 0 || vfs_client_open(&client, &cluster, 1, "cluster", setting->options) < 0)
        return 0;
    sqlite3 *bank = bank_open("cluster", "/bank.db", setting->pragmas);
    int is_done = bank && bank_fill(bank) == SQLITE_OK;
    row->fsyncs = 0;
    row->entries = -(long)assise_entries(&cluster.desk);
    row->bytes = -memory();
    cluster.before_change = count_fsync;
    cluster.watcher = &row->fsyncs;
    is_done = is_done && time_transfers(bank, row, count);
    row->entries += (long)assise_entries(&cluster.desk);
    row->bytes += memory();
    sqlite3_close(bank);
    vfs_client_forget(&client);
    vfs_cluster_end(&cluster);
    return is_done;
}

static void print(const struct row *row, long count) {
    double each = row->processor / (double)count;
    if (row->nodes)
        printf("| %u node%s, %s |", row->nodes, row->nodes == 1 ? "" : "s", setting_of(row->setting)->says);
    else
        printf("| memory file system, %s |", setting_of(row->setting)->says);
    printf(" %.0f | %.0f | %.0f |", each * 1e6, 1 / each, (double)count / row->wall);
    if (row->nodes)
        printf(" %.1f | %.1f | %.1f |\n", (double)row->fsyncs / (double)count, (double)row->entries / (double)count,
               row->bytes / 1000 / (double)count);
    else
        printf("  |  |  |\n");
}

int main(int words, char **word) {
    long count = words > 1 ? atol(word[1]) : 2000;
    const char *folder = words > 2 ? word[2] : "/dev/shm";
    for (int pass = 0; pass < PASSES; pass++)
        for (size_t i = 0; i < ROWS; i++)
            if (!(rows[i].nodes ? run_on_cluster(&rows[i], count) : run_on_memory(&rows[i], folder, count))) {
                printf("%u nodes, %s: stopped\n", rows[i].nodes, rows[i].setting);
                return 1;
            }
    printf("| SQLite on | us each | a second | by the wall clock | fsyncs each | entries each | KB kept each |\n");
    printf("|---|---|---|---|---|---|---|\n");
    for (size_t i = 0; i < ROWS; i++)
        print(&rows[i], count);
    return 0;
}
