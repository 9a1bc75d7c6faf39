/* renewals: trees by chance, with clients that crash and nodes that fail, and renewals to other sizes. What a walk finds has to be the same
 * before and behind each, at each node of the new cluster, and where its first node fails. Prints each step that comes to something else,
 * and last `N passed, M failed`. */
#include "walk.h"
#include <inttypes.h>
#include <stdio.h>
#include <stdlib.h>

#define RENEWALS 24
#define CALLS 400

static struct assise_desk desk;
static int passed, failed;
static uint64_t chance;

static void see(const char *step, int renewal, int64_t result, int64_t wanted) {
    if (result == wanted) {
        passed++;
        return;
    }
    failed++;
    printf("renewal %d, %s: %" PRId64 ", and not %" PRId64 "\n", renewal, step, result, wanted);
}

/* A number below a bound. */
static uint32_t below(uint32_t bound) {
    chance = chance * 6364136223846793005u + 1442695040888963407u;
    return (uint32_t)(chance >> 33) % bound;
}

/* Up to `deep` names, each one of four. */
static void put_path(char *path, uint32_t deep) {
    uint32_t names = 1 + below(deep);
    for (uint32_t k = 0; k < names; k++) sprintf(path + 2 * k, "/%c", 'a' + (char)below(4));
}

static void make_calls(uint32_t client, int calls, uint32_t deep) {
    static uint8_t data[3 * ASSISE_BYTES];
    char path[WALK_MOST_PATH], other[WALK_MOST_PATH];
    for (int k = 0; k < calls; k++) {
        put_path(path, deep);
        put_path(other, deep);
        data[below(sizeof data)] = (uint8_t)below(256);
        switch (below(10)) {
        case 0: case 1: case 2: assise_mkdir(&desk, client, path); break;
        case 3: case 4: assise_create(&desk, client, path); break;
        case 5: case 6: assise_write(&desk, client, path, data, below(below(20) ? 300 : sizeof data), below(500)); break;
        case 7: assise_truncate(&desk, client, path, below(1000)); break;
        case 8: assise_rename(&desk, client, path, other); break;
        default: below(2) ? assise_unlink(&desk, client, path) : assise_rmdir(&desk, client, path);
        }
    }
}

/* A client on the second node makes calls, and crashes, loses its node, or goes on. */
static void trouble(void) {
    int64_t other = assise_open(&desk, 2, below(3));
    if (other < 0) return;
    make_calls((uint32_t)other, 50, 6);
    switch (below(3)) {
    case 0: assise_crash(&desk, (uint32_t)other); break;
    case 1: if (assise_fail(&desk, 2) >= 0 && below(2)) assise_back(&desk, 2);
    }
}

/* What a new client finds at a node. */
static int64_t walk_at(uint32_t node) {
    return walk(&desk, (uint32_t)assise_open(&desk, node, ASSISE_LEAST));
}

/* Each node has the tree, and so has the second where the first fails. */
static void see_nodes(int renewal, uint32_t nodes, int64_t sum) {
    for (uint32_t node = 2; node <= nodes; node++) see("a node", renewal, walk_at(node), sum);
    if (nodes == 1 || below(2)) return;
    see("a failure", renewal, assise_fail(&desk, 1), 0);
    see("behind it", renewal, walk_at(2), sum);
    see("a return", renewal, assise_back(&desk, 1), 0);
}

int main(void) {
    static const uint64_t logs[] = {8, 9, 64, 4096};
    assise_begin(&desk);
    see("make", 0, assise_make(&desk, 2, 64, 16), 0);
    for (int renewal = 1; renewal <= RENEWALS; renewal++) {
        int64_t client = assise_open(&desk, 1, below(3));
        make_calls((uint32_t)client, CALLS, 1 + below(16));
        trouble();
        int64_t sum = walk(&desk, (uint32_t)client);
        uint32_t nodes = 1 + below(4);
        see("renew", renewal, assise_renew(&desk, nodes, logs[below(4)], 1 + below(64), below(3)), 0);
        see("client 1", renewal, walk(&desk, 1), sum);
        see("legal", renewal, assise_legal(&desk), 1);
        see_nodes(renewal, nodes, sum);
    }
    see("free", RENEWALS, assise_free(&desk), 0);
    printf("%d passed, %d failed\n", passed, failed);
    return failed ? 1 : 0;
}
