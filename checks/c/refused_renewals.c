/* refused_renewals: renewals with one allocation refused, each in turn. What is refused leaves the
 * tree, the client and the nodes as they were, loses no memory, and succeeds where it is asked for
 * again. So at 1, 2, 3 and 8 nodes, where all are up, one is down, or one comes back, with empty
 * files and empty directories; and with a directory that is full, where some allocations of many
 * are refused. Prints each step that comes to something else, and last `N passed, M failed`.
 *
 * Built with -Wl,--wrap=malloc,--wrap=realloc,--wrap=free: so the library's memory is had here. */
#include "walk.h"
#include <inttypes.h>
#include <stdlib.h>

#define LOG 64
#define HOT 16

/* What a cluster is before its renewal, and how many nodes it has then. */
struct plan {
    const char *name;
    uint32_t nodes, new_nodes;
    enum assise_phase phase; /* of its last node */
    int has_full_directory;
    int64_t sum; /* of its tree */
};

static struct assise_desk desk;
static int passed, failed;

static void see(const struct plan *plan, const char *step, long number, int64_t result,
                int64_t wanted) {
    if (result == wanted) {
        passed++;
        return;
    }
    failed++;
    printf("%u to %u nodes, %s, allocation %ld, %s: %" PRId64 ", and not %" PRId64 "\n",
           plan->nodes, plan->new_nodes, plan->name, number, step, result, wanted);
}

/* ---- allocations */

static struct {
    long count, refused; /* how many were asked for, and which of them is refused: none is 0 */
    long blocks;         /* that are not free */
} allocations;

void *__real_malloc(size_t size);
void *__real_realloc(void *old, size_t size);
void __real_free(void *block);

static int is_refused(void) {
    return ++allocations.count == allocations.refused;
}

void *__wrap_malloc(size_t size) {
    void *block = is_refused() ? NULL : __real_malloc(size);
    allocations.blocks += block != NULL;
    return block;
}

void *__wrap_realloc(void *old, size_t size) {
    void *block = is_refused() ? NULL : __real_realloc(old, size);
    allocations.blocks += !old && block;
    return block;
}

void __wrap_free(void *block) {
    allocations.blocks -= block != NULL;
    __real_free(block);
}

static void refuse(long number) {
    allocations.count = 0;
    allocations.refused = number;
}

/* ---- clusters */

/* A file that a renewal makes by two writes. */
static int64_t make_long_file(void) {
    static uint8_t data[70000];
    memset(data, 7, sizeof data);
    int64_t result = assise_create(&desk, 1, "/long");
    return result | (assise_write(&desk, 1, "/long", data, sizeof data, 0) - (int64_t)sizeof data);
}

/* Files and directories, with and without anything in them. */
static int64_t make_small_tree(void) {
    int64_t result = 0;
    result |= assise_mkdir(&desk, 1, "/empty") | assise_mkdir(&desk, 1, "/deep");
    result |= assise_mkdir(&desk, 1, "/deep/deeper") | assise_mkdir(&desk, 1, "/deep/deeper/none");
    result |= assise_create(&desk, 1, "/none") | assise_create(&desk, 1, "/deep/file");
    result |= assise_create(&desk, 1, "/deep/deeper/zeros");
    result |= assise_truncate(&desk, 1, "/deep/deeper/zeros", 300);
    return result | (assise_write(&desk, 1, "/deep/file", "hello", 5, 2) - 5);
}

/* A directory with as many entries as it may have: an empty file and an empty directory in turn. */
static int64_t make_full_directory(void) {
    char path[32];
    int64_t result = assise_mkdir(&desk, 1, "/full");
    for (int entry = 0; entry < ASSISE_MOST_ENTRIES; entry++) {
        sprintf(path, "/full/%d", entry);
        result |= entry % 2 ? assise_create(&desk, 1, path) : assise_mkdir(&desk, 1, path);
    }
    return result;
}

/* A client on the last node leaves calls that aren't replicated, and crashes. */
static int64_t make_crash(uint32_t node) {
    int64_t client = assise_open(&desk, node, ASSISE_LEAST);
    int64_t result = assise_create(&desk, (uint32_t)client, "/crashed");
    return result | assise_crash(&desk, (uint32_t)client);
}

/* A node that is down begins to come back, and is left half-way by want of memory. */
static int64_t leave_half_way(uint32_t node) {
    for (long number = 1; assise_phase(&desk, node) == ASSISE_DOWN; number++) {
        refuse(number);
        assise_back(&desk, node);
        refuse(0);
    }
    return 0;
}

/* Makes a cluster that is to be renewed, with calls of its client 1 that aren't replicated: 0. */
static int64_t make_cluster(const struct plan *plan) {
    int64_t result = assise_make(&desk, plan->nodes, LOG, HOT);
    result |= assise_open(&desk, 1, ASSISE_LEAST) - 1;
    result |= plan->has_full_directory ? make_full_directory() : make_small_tree();
    if (plan->nodes == 1) result |= make_long_file();
    result |= make_crash(plan->nodes);
    if (plan->phase != ASSISE_FULL) result |= assise_fail(&desk, plan->nodes) < 0;
    result |= assise_create(&desk, 1, "/late");
    if (plan->phase == ASSISE_RETURNING) result |= leave_half_way(plan->nodes);
    return result | (assise_write(&desk, 1, "/late", "late", 4, 0) - 4);
}

/* ---- renewals */

static int64_t renew(const struct plan *plan) {
    return assise_renew(&desk, plan->new_nodes, LOG, HOT, ASSISE_LEAST);
}

/* What was refused left all as it was, and the client goes on; it is asked for again then. */
static void look_at_refused(struct plan *plan, long number, int64_t result) {
    see(plan, "refused", number, result, ASSISE_OUT_OF_MEMORY);
    see(plan, "the client", number, assise_standing(&desk, 1), ASSISE_ALIVE);
    see(plan, "the node", number, assise_phase(&desk, plan->nodes), plan->phase);
    see(plan, "the tree", number, walk(&desk, 1), plan->sum);
    see(plan, "a call", number, assise_unlink(&desk, 1, "/late"), 0);
    see(plan, "a call", number, assise_create(&desk, 1, "/late"), 0);
    see(plan, "a call", number, assise_write(&desk, 1, "/late", "late", 4, 0), 4);
    see(plan, "again", number, renew(plan), 0);
}

/* The new cluster has the tree, at each node. */
static void look_at_renewed(const struct plan *plan, long number) {
    see(plan, "client 1", number, walk(&desk, 1), plan->sum);
    see(plan, "legal", number, assise_legal(&desk), 1);
    for (uint32_t node = 2; node <= plan->new_nodes; node++) {
        see(plan, "a client", number, assise_open(&desk, node, ASSISE_LEAST), node);
        see(plan, "a new node", number, walk(&desk, node), plan->sum);
    }
}

/* Renews a cluster with one allocation refused: how many came. */
static long renew_refused(struct plan *plan, long number) {
    see(plan, "make", number, make_cluster(plan), 0);
    refuse(number);
    int64_t result = renew(plan);
    long count = allocations.count;
    refuse(0);
    if (result < 0) look_at_refused(plan, number, result);
    look_at_renewed(plan, number);
    see(plan, "free", number, assise_free(&desk), 0);
    see(plan, "blocks", number, allocations.blocks, 0);
    return count;
}

/* Refuses each allocation of a renewal, and of one with a full directory the 1st, 32nd, 1,024th .. */
static void run(struct plan plan) {
    long number = 1;
    see(&plan, "make", 0, make_cluster(&plan), 0);
    see(&plan, "the node", 0, assise_phase(&desk, plan.nodes), plan.phase);
    plan.sum = walk(&desk, 1);
    assise_free(&desk);
    while (number <= renew_refused(&plan, number))
        number = plan.has_full_directory ? 32 * number : number + 1;
}

int main(void) {
    static const uint32_t nodes[] = {1, 2, 3, 8, 1};
    assise_begin(&desk);
    for (int size = 0; size < 4; size++) {
        struct plan plan = {"all up", nodes[size], nodes[size + 1], ASSISE_FULL, 0, 0};
        run(plan);
        plan.has_full_directory = 1;
        run(plan);
        if (plan.nodes == 1) continue;
        run((struct plan){"one down", plan.nodes, plan.new_nodes, ASSISE_DOWN, 0, 0});
        run((struct plan){"one coming back", plan.nodes, plan.new_nodes, ASSISE_RETURNING, 0, 0});
    }
    printf("%d passed, %d failed\n", passed, failed);
    return failed ? 1 : 0;
}
