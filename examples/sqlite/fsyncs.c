/* fsyncs: what an fsync costs behind a number of writes of 4,096 bytes, on clusters of 1, 2, 3 and 8 nodes.
 *
 * Prints the rows of a table: the writes that it has to make safe, and microseconds of processor time of the fsync for each count of
 * nodes, the best of some tries. */
#include "assise.h"
#include <stdint.h>
#include <stdio.h>
#include <time.h>

#define PAGE_BYTES 4096
#define PAGES 250
#define TRIES 20

static const uint32_t nodes[] = {1, 2, 3, 8};
static const long writes[] = {0, 1, 10, 100, 1000};

#define NODES (sizeof nodes / sizeof *nodes)
#define WRITES (sizeof writes / sizeof *writes)

static double microseconds(void) {
    struct timespec now;
    clock_gettime(CLOCK_PROCESS_CPUTIME_ID, &now);
    return (double)now.tv_sec * 1e6 + (double)now.tv_nsec * 1e-3;
}

/* The time of one fsync behind this number of writes, or below 0 where a call is refused. */
static double time_fsync(struct assise_desk *desk, uint32_t client, long count) {
    static const uint8_t page[PAGE_BYTES];
    for (long i = 0; i < count; i++)
        if (assise_write(desk, client, "/file", page, PAGE_BYTES, (uint64_t)(i % PAGES) * PAGE_BYTES) != PAGE_BYTES)
            return -1;
    double begun = microseconds();
    return assise_fsync(desk, client) < 0 ? -1 : microseconds() - begun;
}

static double best_fsync(uint32_t node_count, long count) {
    static struct assise_desk desk;
    double best = -1;
    assise_begin(&desk);
    if (assise_make(&desk, node_count, 4096, 4096) < 0 || assise_open(&desk, 1, ASSISE_LEAST) != 1 || assise_create(&desk, 1, "/file") < 0)
        return -1;
    for (int i = 0; i < TRIES; i++) {
        double took = time_fsync(&desk, 1, count);
        if (i == 0 || took < best)
            best = took;
    }
    assise_free(&desk);
    return best;
}

int main(void) {
    int is_done = 1;
    printf("| writes before it | 1 node | 2 nodes | 3 nodes | 8 nodes |\n|---|---|---|---|---|\n");
    for (size_t i = 0; i < WRITES; i++) {
        printf("| %ld |", writes[i]);
        for (size_t k = 0; k < NODES; k++) {
            double best = best_fsync(nodes[k], writes[i]);
            printf(" %.1f |", best);
            is_done = is_done && best >= 0;
        }
        printf("\n");
    }
    return !is_done;
}
