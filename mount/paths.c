#include "paths.h"
#include <stdlib.h>
#include <string.h>

bool is_at_or_below(const char *path, const char *above) {
    size_t bytes = strlen(above);
    return strncmp(path, above, bytes) == 0 && (path[bytes] == 0 || path[bytes] == '/');
}

char *moved_path(const char *path, const char *from, const char *to) {
    const char *rest = path + strlen(from);
    size_t to_bytes = strlen(to), rest_bytes = strlen(rest) + 1;
    char *moved = malloc(to_bytes + rest_bytes);
    if (!moved)
        return NULL;
    memcpy(moved, to, to_bytes);
    memcpy(moved + to_bytes, rest, rest_bytes);
    return moved;
}

size_t bytes_above(const char *path) {
    const char *slash = strrchr(path, '/');
    return slash && slash != path ? (size_t)(slash - path) : 1;
}
