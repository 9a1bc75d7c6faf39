/* renewals WAY FILES BYTES: what a renewal of a cluster takes, or a copy of its files through the
 * library's calls. WAY is `renew` or `copy`: each file is read from the cluster, made and written
 * in a second one, and a sync comes last. There are FILES files of BYTES bytes, a hundred in a
 * directory, on NODES nodes, each written once and synced.
 *
 * Prints seconds, and the most memory that the process had before and behind it, in kilobytes. */
#include <assise.h>
#include <stdio.h>
#include <stdlib.h>
#include <time.h>

#define NODES 2
#define LOG 64
#define HOT 64
#define IN_A_DIRECTORY 100

struct files {
    long count;
    uint64_t bytes;
};

static uint8_t data[ASSISE_MOST_FILE_BYTES];

static double seconds(void) {
    struct timespec now;
    clock_gettime(CLOCK_MONOTONIC, &now);
    return (double)now.tv_sec + (double)now.tv_nsec * 1e-9;
}

/* The most memory that the process had so far, in kilobytes, or -1. */
static long most_memory(void) {
    char line[256];
    long most = -1;
    FILE *status = fopen("/proc/self/status", "r");
    while (status && most < 0 && fgets(line, sizeof line, status))
        sscanf(line, "VmHWM: %ld", &most);
    if (status)
        fclose(status);
    return most;
}

static int64_t begin(struct assise_desk *desk) {
    assise_begin(desk);
    int64_t result = assise_make(desk, NODES, LOG, HOT);
    return result < 0 ? result : assise_open(desk, 1, ASSISE_LEAST);
}

/* Makes the file of a number, and its directory where it is the first in it: below 0 where a call
 * is refused. */
static int64_t make_file(struct assise_desk *desk, long number, uint64_t bytes) {
    char path[64];
    snprintf(path, sizeof path, "/%ld", number / IN_A_DIRECTORY);
    int64_t result = number % IN_A_DIRECTORY ? 0 : assise_mkdir(desk, 1, path);
    snprintf(path, sizeof path, "/%ld/%ld", number / IN_A_DIRECTORY, number);
    if (result >= 0)
        result = assise_create(desk, 1, path);
    return result < 0 ? result : assise_write(desk, 1, path, data, bytes, 0) - (int64_t)bytes;
}

static int64_t fill(struct assise_desk *desk, struct files files) {
    for (uint64_t k = 0; k < sizeof data; k++)
        data[k] = (uint8_t)(k * 2654435761u >> 13);
    for (long number = 0; number < files.count; number++)
        if (make_file(desk, number, files.bytes) < 0)
            return -1;
    return assise_fsync(desk, 1);
}

static int64_t copy(struct assise_desk *from, struct assise_desk *to, struct files files) {
    char path[64];
    if (begin(to) < 0)
        return -1;
    for (long number = 0; number < files.count; number++) {
        snprintf(path, sizeof path, "/%ld/%ld", number / IN_A_DIRECTORY, number);
        int64_t got = assise_read(from, 1, path, data, files.bytes, 0);
        if (got != (int64_t)files.bytes || make_file(to, number, files.bytes) < 0)
            return -1;
    }
    return assise_fsync(to, 1);
}

int main(int words, char **word) {
    static struct assise_desk desk, other;
    if (words != 4)
        return 2;
    struct files files = {atol(word[2]), strtoull(word[3], NULL, 10)};
    int is_copy = strcmp(word[1], "copy") == 0;
    if (files.bytes > sizeof data || begin(&desk) < 0 || fill(&desk, files) < 0)
        return 1;
    long before = most_memory();
    double begun = seconds();
    int64_t result = is_copy ? copy(&desk, &other, files)
                             : assise_renew(&desk, NODES, LOG, HOT, ASSISE_LEAST);
    printf("%.6f %ld %ld\n", seconds() - begun, before, most_memory());
    return result < 0;
}
