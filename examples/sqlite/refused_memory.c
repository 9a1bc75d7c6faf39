/* refused_memory: each allocation of the file system is refused in turn, while a cluster is made and transfers are made on it.
 *
 * What is refused for want of memory is done once more, and has to succeed then. In the end the database has to be whole, with each
 * transfer that was answered and no other; and so once node 1 has failed, to a new client on node 2.
 *
 * Built with -Wl,--wrap=malloc,--wrap=realloc: so it is asked for the memory of what is linked in, the library's; SQLite, which is
 * loaded, has its own. */
#include "bank.h"
#include "vfs.h"
#include <stdio.h>
#include <stdlib.h>

#define PATH "/bank.db"
#define PRAGMAS "PRAGMA journal_mode=DELETE; PRAGMA synchronous=EXTRA"
#define TRANSFERS 4

/* ---- allocations */

static struct {
    int is_counted;
    long count, refused;
} allocations;

void *__real_malloc(size_t size);
void *__real_realloc(void *old, size_t size);

static int is_refused(void) {
    return allocations.is_counted && ++allocations.count == allocations.refused;
}

void *__wrap_malloc(size_t size) {
    return is_refused() ? NULL : __real_malloc(size);
}

void *__wrap_realloc(void *old, size_t size) {
    return is_refused() ? NULL : __real_realloc(old, size);
}

/* ---- a run; what is refused once is done again */

/* What came of the steps of a run. */
struct steps {
    long refused, failed;
};

/* Counts a step that was refused for the first time, and failed where it is refused again. Whether it succeeded. */
static int note(struct steps *steps, int is_done, int is_again) {
    if (!is_done && is_again)
        steps->failed++;
    else if (!is_done)
        steps->refused++;
    return is_done;
}

static int begin(struct vfs_cluster *cluster, struct vfs_client *client, struct steps *steps) {
    for (int again = 0; again < 2; again++)
        if (note(steps, vfs_cluster_begin(cluster, 2, 64, 64) >= 0, again))
            break;
    for (int again = 0; again < 2; again++)
        if (note(steps, vfs_client_open(client, cluster, 1, "on node 1", 0) >= 0, again))
            return 1;
    return 0;
}

static sqlite3 *fill(struct steps *steps) {
    sqlite3 *bank = NULL;
    for (int again = 0; !bank && again < 2; again++) {
        bank = bank_open("on node 1", PATH, PRAGMAS);
        note(steps, bank != NULL, again);
    }
    for (int again = 0; bank && again < 2; again++)
        if (note(steps, bank_fill(bank) == SQLITE_OK, again))
            break;
    return bank;
}

/* Makes the transfers, each once more where it is refused: how many were answered. */
static long transfer(sqlite3 *bank, struct steps *steps) {
    long answered = 0;
    for (long number = 0; number < TRANSFERS; number++)
        for (int again = 0; again < 2; again++)
            if (note(steps, bank_transfer(bank, number) == SQLITE_OK, again)) {
                answered++;
                break;
            }
    return answered;
}

/* ---- what has to be there */

static int has_all(sqlite3 *bank, long answered, const char *where) {
    struct bank_state found = bank_look(bank);
    if (bank_is_sound(&found) && found.transfers == answered)
        return 1;
    printf("allocation %ld, %s: %s, sum %ld, %ld accounts wrong, %ld transfers, %ld were answered\n", allocations.refused, where,
           found.is_whole ? "whole" : "not whole", found.sum, found.unbalanced, found.transfers, answered);
    return 0;
}

static int has_all_on_node_2(struct vfs_cluster *cluster, long answered) {
    struct vfs_client client;
    if (assise_fail(&cluster->desk, 1) < 0 || vfs_client_open(&client, cluster, 2, "on node 2", 0) < 0)
        return 0;
    sqlite3 *bank = bank_open("on node 2", PATH, PRAGMAS);
    int is_right = bank && has_all(bank, answered, "client 2");
    sqlite3_close(bank);
    vfs_client_forget(&client);
    return is_right;
}

/* A run with one refusal: whether all was right. */
static int run(long refused, struct steps *steps) {
    static struct vfs_cluster cluster;
    struct vfs_client client;
    *steps = (struct steps){0, 0};
    allocations.refused = refused;
    allocations.count = 0;
    allocations.is_counted = 1;
    if (!begin(&cluster, &client, steps))
        return 0;
    sqlite3 *bank = fill(steps);
    long answered = bank ? transfer(bank, steps) : 0;
    allocations.is_counted = 0;
    int is_right = bank && steps->failed == 0 && has_all(bank, answered, "client 1");
    sqlite3_close(bank);
    vfs_client_forget(&client);
    is_right = is_right && has_all_on_node_2(&cluster, answered);
    is_right = is_right && (refused % 50 != 1 || assise_legal(&cluster.desk) == 1);
    vfs_cluster_end(&cluster);
    return is_right;
}

int main(void) {
    struct steps steps;
    long wrong = 0, refused = 0, number = 1;
    for (;; number++) {
        int is_right = run(number, &steps);
        if (!is_right)
            wrong++;
        if (allocations.count < number)
            break;
        refused += steps.refused > 0;
    }
    printf("%ld allocations, each refused in turn: %ld refused a step, which succeeded then; %ld wrong\n", number - 1, refused, wrong);
    return wrong != 0;
}
