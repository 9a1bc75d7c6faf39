/* A sum of all that a client finds in a tree: names, kinds, sizes and bytes. */
#ifndef WALK_H
#define WALK_H
#include <assise.h>
#include <stdio.h>

#define WALK_MOST_PATH 2048

static uint64_t walk_mixed(uint64_t sum, const void *bytes, size_t count) {
    for (size_t k = 0; k < count; k++) sum = (sum ^ ((const uint8_t *)bytes)[k]) * 1099511628211u;
    return sum;
}

static uint64_t walk_below(struct assise_desk *desk, uint32_t client, char *path, uint64_t sum);

/* The sum of a directory's entries: it is listed once, and the history has the listing's pages. */
static uint64_t walk_entries(struct assise_desk *desk, uint32_t client, char *path, uint64_t sum) {
    char page[ASSISE_BYTES];
    size_t end = strlen(path);
    if (assise_list(desk, client, end ? path : "/", 0) < 0) return 0;
    int64_t place = assise_entries(desk) - 1, bytes;
    for (uint64_t name = 0; (bytes = assise_listed(desk, (uint64_t)place, name)) > 0;) {
        memcpy(page, desk->bytes, (size_t)bytes);
        for (const char *at = page; at < page + bytes; at += strlen(at) + 1, name++) {
            sprintf(path + end, "/%s", at);
            sum = walk_below(desk, client, path, sum);
        }
    }
    path[end] = 0;
    return bytes < 0 ? 0 : sum;
}

/* The sum of what stands at a path and below. */
static uint64_t walk_below(struct assise_desk *desk, uint32_t client, char *path, uint64_t sum) {
    static uint8_t data[ASSISE_MOST_FILE_BYTES];
    size_t end = strlen(path);
    int64_t size = assise_stat(desk, client, end ? path : "/");
    uint64_t stands = desk->stands;
    sum = walk_mixed(sum, path, end);
    sum = walk_mixed(walk_mixed(sum, &stands, sizeof stands), &size, sizeof size);
    if (size <= 0) return sum;
    if (stands == ASSISE_DIR) return walk_entries(desk, client, path, sum);
    int64_t bytes = assise_read(desk, client, path, data, (uint64_t)size, 0);
    return walk_mixed(sum, data, bytes < 0 ? 0 : (size_t)bytes);
}

static int64_t walk(struct assise_desk *desk, uint32_t client) {
    char path[WALK_MOST_PATH] = "";
    return (int64_t)(walk_below(desk, client, path, 1) >> 1);
}

#endif
